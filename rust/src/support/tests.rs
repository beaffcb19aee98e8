//! Tests of what the generated code stands on: merges in place here, and below them numbers, lists
//! that are open for changes, and the stable sort.

extern crate std;

mod numbers;
mod opened;
mod sorting;

use super::*;
use crate::generated::range_merge::{
    Compare, Connective, Copier, DiffOp, IntersectionOp, MergeOperation, UnionOp, XorOp,
};
use crate::memory::ByClone;
use alloc::rc::Rc;
use core::cell::Cell;
use core::cmp::Ordering;
use core::mem;

/// An item that counts how many of its kind are there, and is ordered by its key.
#[derive(Debug)]
struct Item {
    key: u32,
    side: u8,
    there: Rc<Cell<isize>>,
}

impl Item {
    fn new(key: u32, side: u8, there: &Rc<Cell<isize>>) -> Self {
        there.set(there.get() + 1);
        Item {
            key,
            side,
            there: there.clone(),
        }
    }
}

impl Drop for Item {
    fn drop(&mut self) {
        self.there.set(self.there.get() - 1);
    }
}

/// Compares by the keys, and panics at the comparison with this number.
struct ByKey {
    made: u128,
    panics_at: u128,
}

impl ByKey {
    const NEVER: u128 = u128::MAX;
}

impl Compare<Item> for ByKey {
    fn compare(&mut self, a: &Item, b: &Item) -> Ordering {
        self.made += 1;
        assert!(self.made != self.panics_at, "a comparison panics");
        a.key.cmp(&b.key)
    }
}

/// Copies an item of the right side, before the merge or as it is taken, and panics at the copy
/// with this number.
struct Copying {
    late: bool,
    made: Cell<usize>,
    panics_at: usize,
}

impl Copying {
    fn new(late: bool, panics_at: usize) -> Self {
        Copying {
            late,
            made: Cell::new(0),
            panics_at,
        }
    }
}

impl Copier<Item> for Copying {
    fn copy(&self, item: &Item) -> Result<Item, AllocError> {
        self.made.set(self.made.get() + 1);
        assert!(self.made.get() != self.panics_at, "a copy panics");
        Ok(Item::new(item.key, item.side, &item.there))
    }

    fn all_infallible(&self) -> bool {
        self.late
    }
}

fn list<const N: usize>(bits: u32, side: u8, there: &Rc<Cell<isize>>) -> SmallVec<Item, N> {
    let mut items = SmallVec::new(Global);
    for key in (0..32).filter(|key| bits >> key & 1 == 1) {
        items.reserve(1).unwrap();
        items.push_reserved(Item::new(key, side, there));
    }
    items
}

/// The keys at which a connective changes, and the side from which each is taken.
fn changes<O: MergeOperation>(a: u32, b: u32, op: &O) -> alloc::vec::Vec<(u32, u8)> {
    let (mut left, mut right, mut found) = (false, false, alloc::vec::Vec::new());
    for key in 0..32 {
        let (in_left, in_right) = (a >> key & 1 == 1, b >> key & 1 == 1);
        let takes = match (in_left, in_right) {
            (true, true) => op.takes_both(left, right),
            (true, false) => op.takes_a(right),
            (false, true) => op.takes_b(left),
            (false, false) => false,
        };
        if takes {
            found.push((key, if in_left { 0 } else { 1 }));
        }
        left ^= in_left;
        right ^= in_right;
    }
    found
}

/// Of how many made-up cases one is tried, as in the crate's other tests.
fn one_in() -> usize {
    std::env::var("RANGE_SETS_ONE_IN").map_or(1, |it| it.parse().expect("it is a number"))
}

/// Bits that are made up, from sparse to dense.
fn made_up(seed: &mut u64) -> u32 {
    let mut next = || {
        *seed = seed
            .wrapping_mul(6364136223846793005)
            .wrapping_add(1442695040888963407);
        (*seed >> 32) as u32
    };
    match next() % 4 {
        0 => next() & next() & next(),
        1 => next() & next(),
        2 => next(),
        _ => next() | next(),
    }
}

fn seen<const N: usize>(items: &SmallVec<Item, N>) -> alloc::vec::Vec<(u32, u8)> {
    items.iter().map(|item| (item.key, item.side)).collect()
}

/// A merge of two lists in place, with the right one owned and with it borrowed. Every item is
/// dropped once.
fn merges_in_place<O: MergeOperation, const N: usize>(a: u32, b: u32, op: &O) {
    let there = Rc::new(Cell::new(0));
    let mut cmp = ByKey {
        made: 0,
        panics_at: ByKey::NEVER,
    };
    let expected = changes(a, b, op);

    let mut owned = list::<N>(a, 0, &there);
    let right = list::<N>(b, 1, &there);
    assert!(InPlaceMergeState::merge(&mut owned, right, op, &mut cmp).is_ok());
    assert_eq!(seen(&owned), expected, "{a:b} {b:b}");
    assert_eq!(there.get(), expected.len() as isize);

    drop(owned);

    for late in [false, true] {
        let mut borrowed = list::<N>(a, 0, &there);
        let right = list::<N>(b, 1, &there);
        let copier = Copying::new(late, 0);
        InPlaceMergeStateRef::merge(&mut borrowed, &right, &copier, op, &mut cmp).unwrap();
        assert_eq!(seen(&borrowed), expected, "{a:b} {b:b}");
        drop((borrowed, right));
        assert_eq!(there.get(), 0);
    }
}

#[test]
fn merges_in_place_give_the_changes_and_drop_every_item_once() {
    let mut seed = 1;
    let nand = Connective {
        neither: true,
        left: true,
        right: true,
        both: false,
    };
    for _ in (0..2000).step_by(one_in()) {
        let (a, b) = (made_up(&mut seed), made_up(&mut seed));
        merges_in_place::<_, 0>(a, b, &UnionOp);
        merges_in_place::<_, 2>(a, b, &XorOp);
        merges_in_place::<_, 4>(a, b, &IntersectionOp);
        merges_in_place::<_, 16>(a, b, &DiffOp);
        merges_in_place::<_, 64>(a, b, &nand);
    }
}

/// Merges made-up lists by a call that panics at its first step, at its second, and so on, until it
/// ends. Each item is dropped once. `panicked` looks at the left list after a panic.
#[cfg(panic = "unwind")]
fn drop_every_item_once(
    mut seed: u64,
    merge: impl Fn(usize, usize, &mut SmallVec<Item, 4>, &mut SmallVec<Item, 4>),
    panicked: impl Fn(&SmallVec<Item, 4>),
) {
    use std::panic::{catch_unwind, AssertUnwindSafe};

    for round in (0..300).step_by(one_in()) {
        let (a, b) = (made_up(&mut seed), made_up(&mut seed));
        for panics_at in 1.. {
            let there = Rc::new(Cell::new(0));
            let (mut left, mut right) = (list(a, 0, &there), list(b, 1, &there));
            let merged = catch_unwind(AssertUnwindSafe(|| {
                merge(round, panics_at, &mut left, &mut right)
            }));
            assert_eq!(there.get(), (left.len() + right.len()) as isize);
            if merged.is_err() {
                panicked(&left);
            }
            drop((left, right));
            assert_eq!(there.get(), 0);
            if merged.is_ok() {
                break;
            }
        }
    }
}

#[cfg(panic = "unwind")]
#[test]
fn a_comparison_that_panics_drops_every_item_once() {
    drop_every_item_once(
        2,
        |_, panics_at, left, right| {
            let right = mem::replace(right, SmallVec::new(Global));
            let panics_at = panics_at as u128;
            let mut cmp = ByKey { made: 0, panics_at };
            assert!(InPlaceMergeState::merge(left, right, &XorOp, &mut cmp).is_ok());
        },
        |left| assert!(left.is_empty()),
    );
}

#[cfg(panic = "unwind")]
#[test]
fn a_copy_that_panics_drops_every_item_once() {
    drop_every_item_once(
        4,
        |round, panics_at, left, right| {
            let copier = Copying::new(round % 2 == 0, panics_at);
            let mut cmp = ByKey {
                made: 0,
                panics_at: ByKey::NEVER,
            };
            assert!(InPlaceMergeStateRef::merge(left, right, &copier, &UnionOp, &mut cmp).is_ok());
        },
        |_| {},
    );
}

#[test]
fn both_items_are_put_at_the_end() {
    let there = Rc::new(Cell::new(0));
    let mut items = SmallVec::<Item, 3>::new(Global);
    for key in (0..40).step_by(2) {
        let (start, end) = (Item::new(key, 0, &there), Item::new(key + 1, 1, &there));
        append_both(&mut items, start, end).expect("there is memory");
        assert!(items.iter().map(|it| it.key).eq(0..key + 2));
        assert_eq!(there.get(), key as isize + 2);
    }
    drop(items);
    assert_eq!(there.get(), 0);
}

#[test]
fn logarithms_are_rounded_down() {
    assert_eq!(
        [1usize, 2, 3, 4, 255, 256].map(Log2Down::log2_down),
        [0, 1, 1, 2, 7, 8]
    );
    assert_eq!(usize::MAX.log2_down(), usize::BITS - 1);
}

#[test]
fn quotients_are_rounded_up() {
    assert_eq!([0usize, 1, 2, 3].map(|n| n.div_up(2)), [0, 1, 1, 2]);
    assert_eq!(usize::MAX.div_up(2), usize::MAX / 2 + 1);
}
