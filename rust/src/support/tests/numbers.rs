//! Tests of numbers, which are merged as plain data where the list lies.

use super::*;
use crate::support::by_bits::is_number;

/// Compares numbers, or items that hold one, and panics at the comparison with this number.
struct ByNumber(u128, u128);

impl<K: Clone + Into<u32>> Compare<K> for ByNumber {
    fn compare(&mut self, a: &K, b: &K) -> Ordering {
        self.0 += 1;
        assert!(self.0 != self.1, "a comparison panics");
        a.clone().into().cmp(&b.clone().into())
    }
}

/// The numbers below `below` that `is_in` has, with room for `room` more.
fn numbers<K: From<u32>>(below: u32, room: usize, is_in: impl Fn(u32) -> bool) -> SmallVec<K, 2> {
    let mut items = SmallVec::new(Global);
    for number in (0..below).filter(|&it| is_in(it)) {
        items.reserve(1).unwrap();
        items.push_reserved(number.into());
    }
    items.shrink_to_fit();
    items.reserve(room).unwrap();
    items
}

#[test]
fn numbers_of_an_owned_list_are_merged_as_of_a_borrowed_one() {
    let sizes = [(3, 0), (7, 0), (7, 9), (60, 0), (60, 99), (900, 999)];
    for (below, room) in sizes {
        for (of_left, of_right) in [(2, 3), (1, 4), (9, 1), (2, 200)] {
            let left = || numbers::<u32>(below, room, |it| it * it % 7 % of_left == 0);
            let right = || numbers::<u32>(below, 0, |it| it * it % 11 % of_right == 0);
            let (mut owned, mut borrowed) = (left(), left());
            let mut cmp = ByNumber(0, u128::MAX);
            assert!(InPlaceMergeState::merge(&mut owned, right(), &XorOp, &mut cmp).is_ok());
            assert!(cmp.0 <= 2 * (left().len() + right().len()) as u128);
            InPlaceMergeStateRef::merge(&mut borrowed, &right(), &ByClone, &XorOp, &mut cmp)
                .unwrap();
            assert_eq!(owned.as_slice(), borrowed.as_slice());
        }
    }
}

/// A number that isn't known to be one.
#[derive(Clone, Debug, PartialEq)]
struct Wrapped(u32);

impl From<u32> for Wrapped {
    fn from(number: u32) -> Self {
        Wrapped(number)
    }
}

impl From<Wrapped> for u32 {
    fn from(wrapped: Wrapped) -> Self {
        wrapped.0
    }
}

/// Merges interleaved lists by comparisons that panic in turn. What goes `apart` leaves the left as
/// it was, else empty.
#[cfg(panic = "unwind")]
fn is_left_by_a_panic<K>(below: u32, room: usize, apart: bool)
where
    K: Clone + From<u32> + Into<u32> + PartialEq + core::fmt::Debug,
{
    use std::panic::{catch_unwind, AssertUnwindSafe};

    for panics_at in 1..u128::from(below) / 2 {
        let mut left = numbers::<K>(below, room, |it| it % 2 == 0);
        let before = left.to_vec();
        let right = numbers(below, 0, |it| it % 2 == 1);
        let mut cmp = ByNumber(0, panics_at);
        let merged = catch_unwind(AssertUnwindSafe(|| {
            InPlaceMergeState::merge(&mut left, right, &UnionOp, &mut cmp).is_ok()
        }));
        assert!(merged.is_err(), "{below}, {panics_at}");
        let after = if apart { &before[..] } else { &[] };
        assert_eq!(left.as_slice(), after, "{below}, {panics_at}");
    }
}

#[cfg(panic = "unwind")]
#[test]
fn a_comparison_of_numbers_that_panics_leaves_them_or_none() {
    for (below, room) in [(4, 0), (20, 0), (20, 10), (200, 0), (200, 100)] {
        // What has room is written over.
        is_left_by_a_panic::<u32>(below, room, room == 0);
        is_left_by_a_panic::<Wrapped>(below, room, false);
    }
}

#[test]
fn numbers_are_those_that_are_plain() {
    use crate::generated::range_entry::EntryClone;

    macro_rules! are_numbers {
        ($($number:ty)*) => { $(assert!(is_number::<$number>() && <$number>::is_plain());)* };
    }
    are_numbers!(u8 u16 u32 u64 u128 usize i8 i16 i32 i64 i128 isize char);
    // Of elements that have a lifetime too.
    fn is_other<'a>(_: &'a str) -> bool {
        !is_number::<&'a str>() && !is_number::<Cell<&'a u32>>() && !is_number::<&'a mut u32>()
    }
    assert!(is_other("borrowed") && !is_number::<Wrapped>() && !is_number::<(u32, u32)>());
    assert!(!is_number::<Cell<u32>>() && !is_number::<Option<u32>>() && !is_number::<[u8; 4]>());
}
