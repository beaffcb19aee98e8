//! The calls that change a set, and what each asks for.

use crate::common::{boundaries, Bitmap};
use crate::element::Hostile;
use range_sets::{fallible, Array, RangeSet};
use std::ops::Range;

/// A call on a set of some kind, with another set and two numbers.
pub type CallOn<S, A> = fn(&mut S, RangeSet<A>, Hostile, Hostile);

/// What a change asks for: the members, by those of the set, of another set, and by a range.
pub type Asked = fn(Bitmap, Bitmap, Range<u8>) -> Bitmap;

/// The calls that change a set, each with its name and what it asks for.
pub type Changes<S, A> = Vec<(&'static str, CallOn<S, A>, Asked)>;

pub fn changes<A: Array<Item = Hostile>>() -> Changes<RangeSet<A>, A> {
    vec![
        ("|=", |a, b, _, _| *a |= b, |a, b, _| a | b),
        ("&=", |a, b, _, _| *a &= b, |a, b, _| a & b),
        ("-=", |a, b, _, _| *a -= b, |a, b, _| a & !b),
        ("^=", |a, b, _, _| *a ^= b, |a, b, _| a ^ b),
        ("union_with", |a, b, _, _| a.union_with(&b), |a, b, _| a | b),
        (
            "intersection_with",
            |a, b, _, _| a.intersection_with(&b),
            |a, b, _| a & b,
        ),
        (
            "difference_with",
            |a, b, _, _| a.difference_with(&b),
            |a, b, _| a & !b,
        ),
        (
            "symmetric_difference_with",
            |a, b, _, _| a.symmetric_difference_with(&b),
            |a, b, _| a ^ b,
        ),
        (
            "insert",
            |a, _, x, y| a.insert(x..y),
            |a, _, r| a | values(r),
        ),
        (
            "remove",
            |a, _, x, y| a.remove(x..y),
            |a, _, r| a & !values(r),
        ),
        (
            "insert from",
            |a, _, x, _| a.insert(x..),
            |a, _, r| a | values(r.start..64),
        ),
        (
            "remove from",
            |a, _, x, _| a.remove(x..),
            |a, _, r| a & !values(r.start..64),
        ),
        (
            "insert up to",
            |a, _, x, _| a.insert(..x),
            |a, _, r| a | values(0..r.start),
        ),
        ("remove all", |a, _, _, _| a.remove(..), |_, _, _| 0),
        (
            "insert_changed",
            |a, _, x, y| {
                let _ = a.insert_changed(x..y);
            },
            |a, _, r| a | values(r),
        ),
        (
            "remove_changed",
            |a, _, x, _| {
                let _ = a.remove_changed(x..);
            },
            |a, _, r| a & !values(r.start..64),
        ),
        ("|= &", |a, b, _, _| *a |= &b, |a, b, _| a | b),
        ("^= &view", |a, b, _, _| *a ^= &*b, |a, b, _| a ^ b),
        ("clear", |a, _, _, _| a.clear(), |_, _, _| 0),
        (
            "pop_first",
            |a, _, _, _| drop(a.pop_first()),
            |a, _, _| a & !ranges(a, |i, _| i == 0),
        ),
        (
            "pop_last",
            |a, _, _, _| drop(a.pop_last()),
            |a, _, _| a & !ranges(a, |i, n| i + 1 == n),
        ),
        (
            "retain",
            |a, _, _, _| {
                let mut turn = 0;
                a.retain(|_| {
                    turn += 1;
                    turn % 3 != 1
                });
            },
            |a, _, _| ranges(a, |i, _| i % 3 != 0),
        ),
        (
            "split_off",
            |a, _, x, _| drop(a.split_off(&x)),
            |a, _, r| a & values(0..r.start),
        ),
        ("append", |a, mut b, _, _| a.append(&mut b), |a, b, _| a | b),
        ("reserve", |a, _, _, _| a.reserve(99), |a, _, _| a),
        ("shrink_to_fit", |a, _, _, _| a.shrink_to_fit(), |a, _, _| a),
        ("extend", |a, b, _, _| a.extend(b), |a, b, _| a | b),
        ("clone_from", |a, b, _, _| a.clone_from(&b), |_, b, _| b),
    ]
}

/// The same of `fallible`. Here no memory is refused.
pub fn fallible_changes<A: Array<Item = Hostile>>() -> Changes<fallible::RangeSet<A>, A> {
    vec![
        (
            "bitor_assign",
            |a, b, _, _| assert!(a.bitor_assign(b.into()).is_ok()),
            |a, b, _| a | b,
        ),
        (
            "bitand_assign",
            |a, b, _, _| assert!(a.bitand_assign(b.into()).is_ok()),
            |a, b, _| a & b,
        ),
        (
            "sub_assign",
            |a, b, _, _| assert!(a.sub_assign(b.into()).is_ok()),
            |a, b, _| a & !b,
        ),
        (
            "bitxor_assign",
            |a, b, _, _| assert!(a.bitxor_assign(b.into()).is_ok()),
            |a, b, _| a ^ b,
        ),
        (
            "union_with",
            |a, b, _, _| a.union_with(&b).unwrap(),
            |a, b, _| a | b,
        ),
        (
            "intersection_with",
            |a, b, _, _| a.intersection_with(&b).unwrap(),
            |a, b, _| a & b,
        ),
        (
            "difference_with",
            |a, b, _, _| a.difference_with(&b).unwrap(),
            |a, b, _| a & !b,
        ),
        (
            "symmetric_difference_with",
            |a, b, _, _| a.symmetric_difference_with(&b).unwrap(),
            |a, b, _| a ^ b,
        ),
        (
            "insert",
            |a, _, x, y| a.insert(x..y).unwrap(),
            |a, _, r| a | values(r),
        ),
        (
            "remove",
            |a, _, x, y| a.remove(x..y).unwrap(),
            |a, _, r| a & !values(r),
        ),
        (
            "insert from",
            |a, _, x, _| a.insert(x..).unwrap(),
            |a, _, r| a | values(r.start..64),
        ),
        (
            "remove_changed",
            |a, _, x, _| {
                let _ = a.remove_changed(x..).unwrap();
            },
            |a, _, r| a & !values(r.start..64),
        ),
        (
            "split_off",
            |a, _, x, _| drop(a.split_off(&x).unwrap()),
            |a, _, r| a & values(0..r.start),
        ),
        (
            "append",
            |a, b, _, _| a.append(&mut b.into()).unwrap(),
            |a, b, _| a | b,
        ),
        ("extend", |a, b, _, _| a.extend(b).unwrap(), |a, b, _| a | b),
    ]
}

/// The values at or above an odd number of boundaries.
pub fn members(boundaries: &[u8]) -> Bitmap {
    let is_member = |value: u8| boundaries.iter().filter(|&&it| it <= value).count() % 2 == 1;
    values((0..64).filter(|&value| is_member(value)))
}

/// The members of some of the ranges, by their number from the lowest on and by how many there are.
pub fn ranges(bits: Bitmap, is_meant: fn(usize, usize) -> bool) -> Bitmap {
    let list = boundaries(bits);
    let n = list.chunks(2).len();
    let meant = list.chunks(2).enumerate().filter(|&(i, _)| is_meant(i, n));
    meant.fold(0, |bits, (_, both)| {
        bits | values(both[0]..both.get(1).copied().unwrap_or(64))
    })
}

pub fn values(values: impl Iterator<Item = u8>) -> Bitmap {
    values.fold(0, |bits, value| bits | 1 << value)
}
