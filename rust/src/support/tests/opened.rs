//! Tests of lists that are open for changes.

use super::*;
use crate::generated::range_merge::in_place::list::{Exchanges, GrowsByHole};
use crate::generated::range_merge::in_place::owned::OwnedRight;
use crate::generated::range_merge::indexed::Indexed;
use crate::support::opened::{Emptied, Opened};
use crate::support::slot::Slot;

#[test]
fn a_list_that_is_not_closed_is_left_empty() {
    let there = Rc::new(Cell::new(0));
    let mut items = list::<4>(0b1111_1111, 0, &there);
    let mut more = list::<4>(0b111, 1, &there);
    items.reserve(8).unwrap();
    let mut opened = Opened::over(&mut items);
    let mut emptied = Emptied::over(&mut more);
    let mut right = OwnedRight::over(&mut emptied);
    opened.move_down(0, 2, 3);
    assert_eq!(there.get(), 9);
    opened.put_from(3, 2, &mut right);
    opened.open_hole(5, 3);
    opened.put_from(5, 1, &mut right);
    // SAFETY: it was moved up by the hole.
    let moved = unsafe { opened.at(8).item().key };
    assert_eq!((moved, there.get()), (5, 9));
    drop(opened);
    assert_eq!((items.len(), there.get()), (0, 0));
}

#[test]
fn what_is_not_taken_of_a_list_is_dropped() {
    let there = Rc::new(Cell::new(0));
    let mut items = list::<4>(0b1111_1111, 0, &there);
    let mut room = list::<4>(0b11, 0, &there);
    let mut opened = Opened::over(&mut room);
    let mut emptied = Emptied::over(&mut items);
    let mut right = OwnedRight::over(&mut emptied);
    opened.truncate(0);
    assert_eq!(there.get(), 8);
    opened.open_hole(0, 2);
    opened.put_from(0, 2, &mut right);
    assert_eq!(there.get(), 8);
    drop(emptied);
    opened.close();
    assert_eq!(
        (seen(&room), items.len(), there.get()),
        (std::vec![(0, 0), (1, 0)], 0, 2)
    );
}

#[test]
fn a_list_that_is_forgotten_is_left_empty() {
    let mut items = SmallVec::<u8, 4>::new(Global);
    items.push_reserved(1);
    core::mem::forget(Opened::over(&mut items));
    assert!(items.is_empty());
}

#[cfg(panic = "unwind")]
#[test]
fn a_gap_is_neither_read_nor_closed() {
    fn panics(change: impl Fn(Opened<'_, u8, 8>)) -> bool {
        let mut items = SmallVec::<u8, 8>::new(Global);
        (0..6).for_each(|n| items.push_reserved(n));
        let mut opened = Opened::over(&mut items);
        opened.move_down(0, 2, 2);
        std::panic::catch_unwind(core::panic::AssertUnwindSafe(|| change(opened))).is_err()
    }
    fn reads(opened: &Opened<'_, u8, 8>, i: usize) -> u8 {
        // SAFETY: what `at` gives has an item.
        unsafe { *opened.at(i).item() }
    }

    assert!(!panics(|opened| assert_eq!(reads(&opened, 4), 4)));
    assert!(panics(|opened| assert_eq!(reads(&opened, 3), 3)));
    assert!(panics(|opened| assert_eq!(reads(&opened, 6), 6)));
    assert!(panics(|opened| opened.close()));
    assert!(panics(|mut opened| opened.open_hole(3, 1)));
    assert!(panics(|mut opened| opened.open_hole(4, 3)));
    assert!(panics(|mut opened| {
        let mut more = SmallVec::<u8, 4>::new(Global);
        more.push_reserved(1);
        let mut emptied = Emptied::over(&mut more);
        opened.put_from(3, 1, &mut OwnedRight::over(&mut emptied));
    }));
    assert!(panics(|mut opened| opened.move_down(3, 4, 1)));
    assert!(panics(|mut opened| opened.move_down(2, 4, 3)));
    assert!(panics(|mut opened| opened.truncate(3)));
    assert!(!panics(|mut opened| {
        opened.truncate(2);
        opened.close();
    }));
}

#[cfg(panic = "unwind")]
#[test]
fn what_was_taken_of_a_list_is_not_read() {
    use std::panic::{catch_unwind, AssertUnwindSafe};

    let mut items = SmallVec::<u8, 8>::new(Global);
    (0..6).for_each(|n| items.push_reserved(n));
    let mut emptied = &mut Emptied::over(&mut items);
    emptied.swap_with(1, &mut [Slot::of(0), Slot::of(0)]);
    for i in [0, 2, 6] {
        // SAFETY: `at` panics, so no item is read.
        assert!(catch_unwind(AssertUnwindSafe(|| unsafe { *emptied.at(i).item() })).is_err());
    }
    for at in [2, 6] {
        assert!(catch_unwind(AssertUnwindSafe(
            || emptied.swap_with(at, &mut [Slot::of(0)])
        ))
        .is_err());
    }
    // SAFETY: what `at` gives has an item.
    assert_eq!(unsafe { *emptied.at(3).item() }, 3);
}
