//! Maps that stay while they are changed one range at a time and asked. A map crosses as a pointer, which `_new` and `_sum`
//! answer and `_free` takes back.

use crate::tree::TreeMap;
use range_sets::{RangeMap, RangeSetRange};
use std::ops::Range;
use std::slice::{from_raw_parts as list, from_raw_parts_mut as room};

/// What is asked of a contender.
trait Mapping: Default {
    fn insert(&mut self, range: Range<i64>, value: u64);
    fn get(&self, key: i64) -> Option<u64>;
    /// The map of the sums of both values, or of the one that is there.
    fn sum(&self, that: &Self) -> Self;
    /// Calls `each` with the ranges and their values, from the lowest on.
    fn entries(&self, each: impl FnMut((Range<i64>, u64)));
}

impl Mapping for RangeMap<i64, u64> {
    fn insert(&mut self, range: Range<i64>, value: u64) {
        self.insert(range, value);
    }

    fn get(&self, key: i64) -> Option<u64> {
        self.get(&key).copied()
    }

    fn sum(&self, that: &Self) -> Self {
        self.combine(that, |one, other| Some(one.unwrap_or(&0) + other.unwrap_or(&0)))
    }

    fn entries(&self, each: impl FnMut((Range<i64>, u64))) {
        let with_end = |(range, &value): (RangeSetRange<&i64>, &u64)| match range {
            RangeSetRange::Range(ends) => (*ends.start..*ends.end, value),
            RangeSetRange::RangeFrom(_) => unreachable!("no range without an end is put in"),
        };
        self.iter().map(with_end).for_each(each);
    }
}

impl Mapping for TreeMap {
    fn insert(&mut self, range: Range<i64>, value: u64) {
        self.insert(range, value);
    }

    fn get(&self, key: i64) -> Option<u64> {
        self.get(key)
    }

    fn sum(&self, that: &Self) -> Self {
        self.sum(that)
    }

    fn entries(&self, each: impl FnMut((Range<i64>, u64))) {
        self.iter().for_each(each);
    }
}

/// The exports of one contender.
macro_rules! exports {
    ($kind:ty: $new:ident $free:ident $insert:ident $get:ident $sum:ident $entries:ident) => {
        #[no_mangle]
        pub extern "C" fn $new() -> *mut $kind {
            Box::into_raw(Box::default())
        }

        #[no_mangle]
        pub unsafe extern "C" fn $free(map: *mut $kind) {
            drop(Box::from_raw(map));
        }

        #[no_mangle]
        pub unsafe extern "C" fn $insert(
            map: *mut $kind,
            starts: *const i64,
            ends: *const i64,
            values: *const u64,
            len: usize,
        ) {
            let ends = list(starts, len).iter().zip(list(ends, len));
            for ((start, end), value) in ends.zip(list(values, len)) {
                Mapping::insert(&mut *map, *start..*end, *value);
            }
        }

        /// The sum of the keys' values.
        #[no_mangle]
        pub unsafe extern "C" fn $get(map: *const $kind, keys: *const i64, len: usize) -> u64 {
            let map = &*map;
            let values = list(keys, len).iter().filter_map(|key| Mapping::get(map, *key));
            values.fold(0, u64::wrapping_add)
        }

        #[no_mangle]
        pub unsafe extern "C" fn $sum(map: *const $kind, that: *const $kind) -> *mut $kind {
            Box::into_raw(Box::new(Mapping::sum(&*map, &*that)))
        }

        /// Writes the front of the starts, ends and values, and returns how many there are.
        #[no_mangle]
        pub unsafe extern "C" fn $entries(
            map: *const $kind,
            starts: *mut i64,
            ends: *mut i64,
            values: *mut u64,
            out_len: usize,
        ) -> usize {
            let (starts, ends) = (room(starts, out_len), room(ends, out_len));
            let (values, mut len) = (room(values, out_len), 0);
            Mapping::entries(&*map, |(range, value)| {
                if len < out_len {
                    (starts[len], ends[len], values[len]) = (range.start, range.end, value);
                }
                len += 1;
            });
            len
        }
    };
}

exports! { RangeMap<i64, u64>: map_list_new map_list_free map_list_insert map_list_get map_list_sum map_list_entries }
exports! { TreeMap: map_tree_new map_tree_free map_tree_insert map_tree_get map_tree_sum map_tree_entries }
