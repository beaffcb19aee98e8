//! The plain Rust crate as a static library: the calls that the benchmark makes, with the signatures of `library.h`.
//!
//! A list crosses as its pointer and its length, and is strictly sorted. What makes a set writes the front of its boundaries to `out`, and answers how many it has.
//!
//! # Safety
//!
//! Each pointer is that of as many numbers as the length beside it says, which the driver leaves alone during the call.
#![allow(clippy::missing_safety_doc)]

mod by_hand;
mod growing;
mod maps;
mod tree;

use range_sets::{Connective, RangeSet2, RangeSetRange, RangeSetRef};
use smallvec::SmallVec;
use std::mem::size_of;
use std::slice::{from_raw_parts as list, from_raw_parts_mut as room};

fn view(items: &[i64]) -> &RangeSetRef<i64> {
    RangeSetRef::new_unchecked(items)
}

fn set(items: &[i64]) -> RangeSet2<i64> {
    RangeSet2::new_unchecked(SmallVec::from_slice(items))
}

/// Writes the front of the set's boundaries, and returns how many there are.
fn give(set: RangeSet2<i64>, out: &mut [i64]) -> usize {
    for (place, boundary) in out.iter_mut().zip(set.boundaries()) {
        *place = *boundary;
    }
    set.boundaries().len()
}

/// Exports that make a set of two lists.
macro_rules! sets {
    ($($name:ident = |$left:ident, $right:ident| $made:expr;)*) => {$(
        #[no_mangle]
        pub unsafe extern "C" fn $name(
            left: *const i64,
            left_len: usize,
            right: *const i64,
            right_len: usize,
            out: *mut i64,
            out_len: usize,
        ) -> usize {
            let ($left, $right) = (list(left, left_len), list(right, right_len));
            give($made, room(out, out_len))
        }
    )*};
}

/// A set that is changed.
fn changed(mut set: RangeSet2<i64>, change: impl FnOnce(&mut RangeSet2<i64>)) -> RangeSet2<i64> {
    change(&mut set);
    set
}

sets! {
    plain_rust_union = |a, b| view(a).union(view(b));
    plain_rust_intersection = |a, b| view(a).intersection(view(b));
    plain_rust_difference = |a, b| view(a).difference(view(b));
    plain_rust_symmetric_difference = |a, b| view(a).symmetric_difference(view(b));
    plain_rust_union_borrowed = |a, b| changed(set(a), |it| it.union_with(view(b)));
    plain_rust_intersection_borrowed = |a, b| changed(set(a), |it| it.intersection_with(view(b)));
    plain_rust_difference_borrowed = |a, b| changed(set(a), |it| it.difference_with(view(b)));
    plain_rust_symmetric_difference_borrowed = |a, b| changed(set(a), |it| it.symmetric_difference_with(view(b)));
    plain_rust_union_owned = |a, b| changed(set(a), |it| *it |= set(b));
    plain_rust_intersection_owned = |a, b| changed(set(a), |it| *it &= set(b));
    plain_rust_difference_owned = |a, b| changed(set(a), |it| *it -= set(b));
    plain_rust_symmetric_difference_owned = |a, b| changed(set(a), |it| *it ^= set(b));
    plain_rust_copies = |a, b| changed(set(a), |_| drop(set(b)));
}

#[no_mangle]
pub unsafe extern "C" fn plain_rust_copy(left: *const i64, left_len: usize, out: *mut i64, out_len: usize) -> usize {
    give(set(list(left, left_len)), room(out, out_len))
}

/// Exports that change a copy of a list by ranges, one after the other.
macro_rules! commands {
    ($($name:ident = $command:ident;)*) => {$(
        #[no_mangle]
        pub unsafe extern "C" fn $name(
            left: *const i64,
            left_len: usize,
            starts: *const i64,
            starts_len: usize,
            ends: *const i64,
            ends_len: usize,
            out: *mut i64,
            out_len: usize,
        ) -> usize {
            let mut set = set(list(left, left_len));
            for (start, end) in list(starts, starts_len).iter().zip(list(ends, ends_len)) {
                set.$command(*start..*end);
            }
            give(set, room(out, out_len))
        }
    )*};
}

commands! {
    plain_rust_insert = insert;
    plain_rust_remove = remove;
}

/// Exports that answer a question about two lists.
macro_rules! questions {
    ($($name:ident = |$left:ident, $right:ident| $answer:expr => $type:ty;)*) => {$(
        #[no_mangle]
        pub unsafe extern "C" fn $name(
            left: *const i64,
            left_len: usize,
            right: *const i64,
            right_len: usize,
        ) -> $type {
            let ($left, $right) = (list(left, left_len), list(right, right_len));
            $answer
        }
    )*};
}

questions! {
    plain_rust_is_disjoint = |a, b| view(a).is_disjoint(view(b)) => bool;
    plain_rust_is_subset = |a, b| view(a).is_subset(view(b)) => bool;
    plain_rust_union_len = |a, b| view(a).merge_len(view(b), Connective::UNION) => usize;
    plain_rust_contains = |a, values| values.iter().filter(|value| view(a).contains(value)).count() => usize;
    plain_rust_split = |a, values| values.iter().map(|value| view(a).split(*value).0.boundaries().len()).sum() => usize;
}

// A text, as the driver has them: one right after the other.
type Text = [u8; 32];

unsafe fn texts<'a>(bytes: *const u8, len: usize) -> &'a RangeSetRef<Text> {
    RangeSetRef::new_unchecked(list(bytes.cast::<Text>(), len / size_of::<Text>()))
}

#[no_mangle]
pub unsafe extern "C" fn plain_rust_union_len_text(
    left: *const u8,
    left_len: usize,
    right: *const u8,
    right_len: usize,
) -> usize {
    texts(left, left_len).merge_len(texts(right, right_len), Connective::UNION)
}

#[no_mangle]
pub unsafe extern "C" fn plain_rust_iter(set: *const i64, set_len: usize) -> i64 {
    let mut members = 0i64;
    for range in view(list(set, set_len)).iter() {
        if let RangeSetRange::Range(ends) = range {
            members = members.wrapping_add(ends.end.wrapping_sub(*ends.start));
        }
    }
    members
}
