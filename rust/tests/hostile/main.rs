//! Orders that lie, and comparisons, clones and drops that panic: answers may be wrong, but each
//! element is dropped once and every set stays one that can be read. A change that panics leaves
//! the set as it was, changed as asked, or empty.
#![cfg(panic = "unwind")]

mod calls;
mod changes;
mod chunked;
#[path = "../common/mod.rs"]
mod common;
mod element;
mod made_up;
mod map;
mod plain;

use calls::{calls, Call};
use changes::{changes, fallible_changes, members, CallOn, Changes};
use common::{boundaries, one_in};
use element::{read, set, Hostile, Plan, LIVE, PLAN};
use range_sets::{Array, RangeSet, RangeSetRef};
use std::cell::Cell;
use std::ops::Range;
use std::panic::{catch_unwind, AssertUnwindSafe};

/// Sides that meet every way of a merge: few and many, far apart, interleaved, in blocks, equal.
fn sides() -> Vec<(Vec<u8>, Vec<u8>)> {
    let evens: Vec<u8> = (0..8).map(|i| 2 * i).collect();
    let odds: Vec<u8> = (0..9).map(|i| 2 * i + 1).collect();
    let blocks: Vec<u8> = (0..36).filter(|i| i / 9 % 2 == 0).collect();
    vec![
        (vec![], vec![5]),
        (vec![3, 9], vec![1, 4, 12]),
        (evens.clone(), odds.clone()),
        (blocks.clone(), (40..52).collect()),
        ((9..18).chain(27..36).collect(), blocks),
        (evens.clone(), evens),
        (vec![7], (0..20).collect()),
        (odds.clone(), vec![2, 14]),
    ]
}

/// Makes a call by a plan, reads what is left, and looks that all elements were dropped. Whether
/// the call returned.
fn call_by<A: Array<Item = Hostile>>(
    plan: Plan,
    call: Call<A>,
    left: &[u8],
    right: &[u8],
    name: &str,
) -> bool {
    let returned = {
        let (mut a, b) = (set(left), set(right));
        let (x, y) = (Hostile::new(8), Hostile::new(33));
        PLAN.with(|it| it.set(plan));
        let returned = catch_unwind(AssertUnwindSafe(|| call(&mut a, b, x, y))).is_ok();
        PLAN.with(|it| it.set(Plan::Honest));
        read(&a);
        returned
    };
    assert_eq!(LIVE.with(Cell::get), 0, "{name} of {left:?} and {right:?}");
    returned
}

/// Keeps the panics that are asked for out of the tests' output.
fn without_messages<R>(run: impl FnOnce() -> R) -> R {
    std::panic::set_hook(Box::new(|info| {
        let message = info
            .payload()
            .downcast_ref::<&str>()
            .copied()
            .unwrap_or_default();
        if PLAN.with(Cell::get) == Plan::Honest {
            eprintln!("{message} {info}");
        }
    }));
    run()
}

fn panics_in_turn<A: Array<Item = Hostile>>(plan: fn(usize) -> Plan, at_least: usize) {
    let mut panicked = 0;
    for (name, call) in calls::<A>() {
        for (left, right) in sides() {
            let mut turn = 0;
            while !call_by(plan(turn), call, &left, &right, name) {
                turn += one_in();
                panicked += one_in();
                assert!(turn < 10_000, "{name} never returns");
            }
        }
    }
    assert!(panicked >= at_least, "{panicked} calls panicked");
}

#[test]
fn comparisons_that_panic() {
    without_messages(|| {
        panics_in_turn::<[Hostile; 2]>(Plan::PanicAtComparison, 2000);
        panics_in_turn::<[Hostile; 24]>(Plan::PanicAtComparison, 2000);
    });
}

#[test]
fn clones_that_panic() {
    without_messages(|| {
        panics_in_turn::<[Hostile; 2]>(Plan::PanicAtClone, 1000);
        panics_in_turn::<[Hostile; 24]>(Plan::PanicAtClone, 1000);
    });
}

/// Ranges whose ends lie among the boundaries of the sides: on one, between two, before and after
/// all, reversed.
const RANGES: [(u8, u8); 6] = [(8, 33), (2, 14), (3, 4), (0, 63), (9, 11), (9, 3)];

/// Makes each change with each panic in turn. The set is as it was, changed as asked, or empty.
fn changes_panic_in_turn<S, A>(plan: fn(usize) -> Plan, changes: Changes<S, A>, at_least: usize)
where
    S: From<RangeSet<A>> + AsRef<RangeSetRef<Hostile>>,
    A: Array<Item = Hostile>,
{
    let mut panicked = 0;
    for (name, call, asked) in changes {
        for (left, right) in sides() {
            for (x, y) in RANGES {
                let asked = boundaries(asked(members(&left), members(&right), x..y));
                let mut turn = 0;
                loop {
                    let (returned, found) = change_by(plan(turn), call, &left, &right, x..y);
                    let what = format!("{name} of {left:?}, {right:?} and {x}..{y}, panic {turn}");
                    if returned {
                        assert_eq!(found, asked, "{what}");
                        break;
                    }
                    let is_one_of_three = found == left || found == asked || found.is_empty();
                    assert!(is_one_of_three, "{what}: {found:?}");
                    panicked += one_in();
                    turn += one_in();
                }
            }
        }
    }
    assert!(panicked >= at_least, "{panicked} changes panicked");
}

/// Makes a change by a plan. Whether it returned, and the set's boundaries then.
fn change_by<S, A>(
    plan: Plan,
    call: CallOn<S, A>,
    left: &[u8],
    right: &[u8],
    range: Range<u8>,
) -> (bool, Vec<u8>)
where
    S: From<RangeSet<A>> + AsRef<RangeSetRef<Hostile>>,
    A: Array<Item = Hostile>,
{
    let found = {
        let (mut a, b) = (S::from(set(left)), set(right));
        let (x, y) = (Hostile::new(range.start), Hostile::new(range.end));
        PLAN.with(|it| it.set(plan));
        let returned = catch_unwind(AssertUnwindSafe(|| call(&mut a, b, x, y))).is_ok();
        PLAN.with(|it| it.set(Plan::Honest));
        (
            returned,
            a.as_ref()
                .boundaries()
                .iter()
                .map(|it| *it.0 as u8)
                .collect(),
        )
    };
    assert_eq!(LIVE.with(Cell::get), 0, "of {left:?}, {right:?}, {range:?}");
    found
}

fn each_change_panics_in_turn(plan: fn(usize) -> Plan, at_least: usize) {
    without_messages(|| {
        changes_panic_in_turn(plan, changes::<[Hostile; 2]>(), at_least);
        changes_panic_in_turn(plan, changes::<[Hostile; 24]>(), at_least);
        changes_panic_in_turn(plan, fallible_changes::<[Hostile; 2]>(), at_least);
        changes_panic_in_turn(plan, fallible_changes::<[Hostile; 24]>(), at_least);
    });
}

#[test]
fn changes_in_which_a_comparison_panics() {
    each_change_panics_in_turn(Plan::PanicAtComparison, 1000);
}

#[test]
fn changes_in_which_a_clone_panics() {
    each_change_panics_in_turn(Plan::PanicAtClone, 1000);
}

#[test]
fn changes_in_which_a_drop_panics() {
    each_change_panics_in_turn(Plan::PanicAtDrop, 1000);
}

#[test]
fn orders_that_lie() {
    fn lie<A: Array<Item = Hostile>>(seeds: u64) {
        for (name, call) in calls::<A>() {
            for (left, right) in sides() {
                for seed in (1..seeds).step_by(one_in()) {
                    call_by(
                        Plan::Lie(seed.wrapping_mul(0x9e37_79b9_7f4a_7c15)),
                        call,
                        &left,
                        &right,
                        name,
                    );
                }
            }
        }
    }
    without_messages(|| {
        lie::<[Hostile; 2]>(60);
        lie::<[Hostile; 24]>(60);
    });
}

#[test]
fn a_set_whose_change_panicked_is_empty_and_of_use() {
    without_messages(|| {
        for turn in 0..3 {
            let (mut a, b) = (set::<[Hostile; 2]>(&[1, 5, 9]), set(&[2, 3]));
            PLAN.with(|plan| plan.set(Plan::PanicAtComparison(turn)));
            assert!(catch_unwind(AssertUnwindSafe(|| a |= b)).is_err());
            PLAN.with(|plan| plan.set(Plan::Honest));
            assert!(a.is_empty());
            a |= set(&[4, 6]);
            assert_eq!(read(&a), 10);
        }
    });
}

#[test]
fn a_set_whose_retain_panicked_is_empty() {
    without_messages(|| {
        for turn in 0..3 {
            let mut a = set::<[Hostile; 2]>(&[1, 5, 9, 12, 20]);
            let mut calls = 0;
            let keep = AssertUnwindSafe(|| {
                a.retain(|_| {
                    calls += 1;
                    if calls == turn + 1 {
                        PLAN.with(|plan| plan.set(Plan::Panicked));
                        panic!("a call");
                    }
                    calls == 2
                })
            });
            assert!(catch_unwind(keep).is_err());
            PLAN.with(|plan| plan.set(Plan::Honest));
            assert!(a.is_empty());
        }
        assert_eq!(LIVE.with(Cell::get), 0);
    });
}

#[test]
fn honest_calls_return() {
    for (name, call) in calls::<[Hostile; 2]>() {
        for (left, right) in sides() {
            assert!(call_by(Plan::Honest, call, &left, &right, name), "{name}");
        }
    }
}
