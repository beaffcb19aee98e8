//! Sets that stay while they are changed one range at a time and asked. A set crosses as a pointer, which `_new` answers
//! and `_free` takes back.

use crate::tree::Tree;
use range_sets::{ChunkedRangeSet, ChunkedSpace, RangeSet2, RangeSetRange};
use std::ops::Range;
use std::slice::{from_raw_parts as list, from_raw_parts_mut as room};

/// What is asked of a contender.
trait Growing: Default {
    fn insert(&mut self, range: Range<i64>);
    fn remove(&mut self, range: Range<i64>);
    fn contains(&self, value: i64) -> bool;
    /// Calls `each` with the ranges, from the lowest on.
    fn ranges(&self, each: impl FnMut(Range<i64>));
    /// The least number from 0 on at which `len` fit that are no members.
    fn first_fit(&mut self, len: i64) -> i64;
}

/// Where numbers are looked for.
const ANYWHERE: Range<i64> = 0..i64::MAX;

fn with_end(range: RangeSetRange<&i64>) -> Range<i64> {
    match range {
        RangeSetRange::Range(ends) => *ends.start..*ends.end,
        RangeSetRange::RangeFrom(_) => unreachable!("no command makes a range without an end"),
    }
}

impl Growing for RangeSet2<i64> {
    fn insert(&mut self, range: Range<i64>) {
        self.insert(range);
    }

    fn remove(&mut self, range: Range<i64>) {
        self.remove(range);
    }

    fn contains(&self, value: i64) -> bool {
        (**self).contains(&value)
    }

    fn ranges(&self, each: impl FnMut(Range<i64>)) {
        self.iter().map(with_end).for_each(each);
    }

    fn first_fit(&mut self, len: i64) -> i64 {
        self.first_fit_count(ANYWHERE, len as u128).unwrap_or(-1)
    }
}

impl Growing for ChunkedRangeSet<i64> {
    fn insert(&mut self, range: Range<i64>) {
        self.insert(range);
    }

    fn remove(&mut self, range: Range<i64>) {
        self.remove(range);
    }

    fn contains(&self, value: i64) -> bool {
        self.contains(&value)
    }

    fn ranges(&self, each: impl FnMut(Range<i64>)) {
        self.iter().map(with_end).for_each(each);
    }

    fn first_fit(&mut self, len: i64) -> i64 {
        let long_enough = |gap: &Range<&i64>| gap.end - gap.start >= len;
        let mut gaps = self.gaps(&ANYWHERE.start..&ANYWHERE.end);
        gaps.find(long_enough).map_or(-1, |gap| *gap.start)
    }
}

impl Growing for ChunkedSpace<i64> {
    fn insert(&mut self, range: Range<i64>) {
        self.insert(range);
    }

    fn remove(&mut self, range: Range<i64>) {
        self.remove(range);
    }

    fn contains(&self, value: i64) -> bool {
        ChunkedRangeSet::contains(self, &value)
    }

    fn ranges(&self, each: impl FnMut(Range<i64>)) {
        self.iter().map(with_end).for_each(each);
    }

    fn first_fit(&mut self, len: i64) -> i64 {
        self.first_fit_count(ANYWHERE, len as u128).unwrap_or(-1)
    }
}

impl Growing for Tree {
    fn insert(&mut self, range: Range<i64>) {
        self.insert(range);
    }

    fn remove(&mut self, range: Range<i64>) {
        self.remove(range);
    }

    fn contains(&self, value: i64) -> bool {
        self.contains(value)
    }

    fn ranges(&self, each: impl FnMut(Range<i64>)) {
        self.iter().for_each(each);
    }

    fn first_fit(&mut self, len: i64) -> i64 {
        let mut from = ANYWHERE.start;
        for range in self.iter() {
            if range.start - from >= len {
                break;
            }
            from = range.end;
        }
        from
    }
}

/// The exports of one contender.
macro_rules! exports {
    ($kind:ty: $new:ident $free:ident $insert:ident $remove:ident $contains:ident $iter:ident $replace:ident $boundaries:ident) => {
        #[no_mangle]
        pub extern "C" fn $new() -> *mut $kind {
            Box::into_raw(Box::default())
        }

        #[no_mangle]
        pub unsafe extern "C" fn $free(set: *mut $kind) {
            drop(Box::from_raw(set));
        }

        #[no_mangle]
        pub unsafe extern "C" fn $insert(set: *mut $kind, starts: *const i64, ends: *const i64, len: usize) {
            for (start, end) in list(starts, len).iter().zip(list(ends, len)) {
                Growing::insert(&mut *set, *start..*end);
            }
        }

        #[no_mangle]
        pub unsafe extern "C" fn $remove(set: *mut $kind, starts: *const i64, ends: *const i64, len: usize) {
            for (start, end) in list(starts, len).iter().zip(list(ends, len)) {
                Growing::remove(&mut *set, *start..*end);
            }
        }

        /// How many of the values are members.
        #[no_mangle]
        pub unsafe extern "C" fn $contains(set: *const $kind, values: *const i64, len: usize) -> usize {
            let set = &*set;
            let is_member = |value: &&i64| Growing::contains(set, **value);
            list(values, len).iter().filter(is_member).count()
        }

        /// How many members there are.
        #[no_mangle]
        pub unsafe extern "C" fn $iter(set: *const $kind) -> i64 {
            let mut members = 0i64;
            (*set).ranges(|range| members = members.wrapping_add(range.end.wrapping_sub(range.start)));
            members
        }

        /// Takes each range out, and puts as many numbers in at the lowest place. The sum of the places.
        #[no_mangle]
        pub unsafe extern "C" fn $replace(set: *mut $kind, starts: *const i64, ends: *const i64, len: usize) -> i64 {
            let mut places = 0i64;
            for (start, end) in list(starts, len).iter().zip(list(ends, len)) {
                Growing::remove(&mut *set, *start..*end);
                let place = Growing::first_fit(&mut *set, *end - *start);
                Growing::insert(&mut *set, place..place + (*end - *start));
                places = places.wrapping_add(place);
            }
            places
        }

        /// Writes the front of the boundaries, and returns how many there are.
        #[no_mangle]
        pub unsafe extern "C" fn $boundaries(set: *const $kind, out: *mut i64, out_len: usize) -> usize {
            let (out, mut len) = (room(out, out_len), 0);
            (*set).ranges(|range| {
                for boundary in [range.start, range.end] {
                    if let Some(place) = out.get_mut(len) {
                        *place = boundary;
                    }
                    len += 1;
                }
            });
            len
        }
    };
}

exports! { RangeSet2<i64>: growing_list_new growing_list_free growing_list_insert growing_list_remove growing_list_contains growing_list_iter growing_list_replace growing_list_boundaries }
exports! { ChunkedRangeSet<i64>: growing_chunks_new growing_chunks_free growing_chunks_insert growing_chunks_remove growing_chunks_contains growing_chunks_iter growing_chunks_replace growing_chunks_boundaries }
exports! { ChunkedSpace<i64>: growing_space_new growing_space_free growing_space_insert growing_space_remove growing_space_contains growing_space_iter growing_space_replace growing_space_boundaries }
exports! { Tree: growing_tree_new growing_tree_free growing_tree_insert growing_tree_remove growing_tree_contains growing_tree_iter growing_tree_replace growing_tree_boundaries }
