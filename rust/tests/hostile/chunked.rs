//! Sets in chunks whose elements' orders lie, and whose comparisons and drops panic: each element
//! is dropped once, and a change that panics leaves the set as it was, changed as asked, or empty.

mod questions;

use crate::common::one_in;
use crate::element::{Hostile, Plan, LIVE, PLAN};
use crate::without_messages;
use questions::QUESTIONS;
use range_sets::{fallible, ChunkedRangeSet, RangeSet2, RangeSetRange, RangeSetRef};
use std::cell::Cell;
use std::ops::Range;
use std::panic::{catch_unwind, AssertUnwindSafe};

/// A call that changes a set, with its name and what the boundaries of numbers are after it.
type Change = (
    &'static str,
    fn(&mut ChunkedRangeSet<Hostile>, Range<Hostile>),
    fn(&[u16], Range<u16>) -> Vec<u16>,
);

const CHANGES: [Change; 20] = [
    ("insert", |set, range| set.insert(range), inserted),
    ("remove", |set, range| set.remove(range), removed),
    (
        "insert_changed",
        |set, range| {
            set.insert_changed(range);
        },
        inserted,
    ),
    (
        "remove_changed",
        |set, range| {
            set.remove_changed(range);
        },
        removed,
    ),
    ("extend", |set, range| set.extend([range]), inserted),
    (
        "insert without an end",
        |set, range| set.insert(range.start..),
        |boundaries, range| spliced_from(boundaries, range.start, true),
    ),
    (
        "remove without an end",
        |set, range| set.remove(range.start..),
        |boundaries, range| spliced_from(boundaries, range.start, false),
    ),
    (
        "into a list and back",
        |set, _| *set = RangeSet2::from(std::mem::take(set)).into(),
        |boundaries, _| boundaries.to_vec(),
    ),
    (
        "split_off",
        |set, range| drop(set.split_off(&range.start)),
        |boundaries, range| spliced_from(boundaries, range.start, false),
    ),
    ("clear", |set, _| set.clear(), |_, _| Vec::new()),
    (
        "pop_first",
        |set, _| drop(set.pop_first()),
        |boundaries, _| boundaries[boundaries.len().min(2)..].to_vec(),
    ),
    (
        "pop_last",
        |set, _| drop(set.pop_last()),
        |boundaries, _| boundaries[..boundaries.len().saturating_sub(1) / 2 * 2].to_vec(),
    ),
    (
        "fallible insert",
        |set, range| fallibly(set, |set| set.insert(range)),
        inserted,
    ),
    (
        "fallible remove",
        |set, range| fallibly(set, |set| set.remove(range)),
        removed,
    ),
    (
        "union_with",
        |set, range| with_view(range, |view| set.union_with(view)),
        inserted,
    ),
    (
        "difference_with",
        |set, range| with_view(range, |view| set.difference_with(view)),
        removed,
    ),
    (
        "symmetric_difference_with twice",
        |set, range| {
            with_view(range, |view| {
                let mut changed = set.clone();
                changed.symmetric_difference_with(view);
                changed.symmetric_difference_with(view);
                *set = changed;
            })
        },
        |boundaries, _| boundaries.to_vec(),
    ),
    (
        "union_with without an end",
        |set, range| set.union_with(RangeSetRef::single(&range.start)),
        |boundaries, range| spliced_from(boundaries, range.start, true),
    ),
    (
        "fallible union_with",
        |set, range| with_view(range, |view| fallibly(set, |set| set.union_with(view))),
        inserted,
    ),
    (
        "fallible difference_with",
        |set, range| with_view(range, |view| fallibly(set, |set| set.difference_with(view))),
        removed,
    ),
];

/// Hands on the view of a range.
fn with_view(range: Range<Hostile>, call: impl FnOnce(&RangeSetRef<Hostile>)) {
    let ends = [range.start, range.end];
    if let Some(view) = RangeSetRef::new(&ends) {
        call(view);
    }
}

/// Changes the set by a call of `fallible`, and gives it back also if that panics.
fn fallibly(
    set: &mut ChunkedRangeSet<Hostile>,
    change: impl FnOnce(&mut fallible::ChunkedRangeSet<Hostile>) -> Result<(), fallible::AllocError>,
) {
    let mut changed = fallible::ChunkedRangeSet::from(std::mem::take(set));
    let result = catch_unwind(AssertUnwindSafe(|| change(&mut changed)));
    *set = changed.into();
    match result {
        Ok(result) => result.expect("no memory is refused"),
        Err(panic) => std::panic::resume_unwind(panic),
    }
}

/// The boundaries with those of a range, by definition: those outside of it stay, and its own are
/// there if they change anything.
fn spliced(boundaries: &[u16], range: Range<u16>, inside: bool) -> Vec<u16> {
    if range.is_empty() {
        return boundaries.to_vec();
    }
    let is_member = |value: u16| boundaries.iter().filter(|&&it| it <= value).count() % 2 == 1;
    let starts_inside = range.start > 0 && is_member(range.start - 1);
    let before = boundaries.iter().copied().filter(|&it| it < range.start);
    let start = (starts_inside != inside).then_some(range.start);
    let end = (is_member(range.end) != inside).then_some(range.end);
    let after = boundaries.iter().copied().filter(|&it| it > range.end);
    before.chain(start).chain(end).chain(after).collect()
}

/// The boundaries with that of a range without an end, by definition.
fn spliced_from(boundaries: &[u16], start: u16, inside: bool) -> Vec<u16> {
    let before = boundaries.iter().copied().filter(|&it| it < start);
    let starts_inside = before.clone().count() % 2 == 1;
    let start = (starts_inside != inside).then_some(start);
    before.chain(start).collect()
}

fn inserted(boundaries: &[u16], range: Range<u16>) -> Vec<u16> {
    spliced(boundaries, range, true)
}

fn removed(boundaries: &[u16], range: Range<u16>) -> Vec<u16> {
    spliced(boundaries, range, false)
}

/// The set of `ranges` ranges, of which each takes half of ten numbers.
fn set(ranges: u16) -> ChunkedRangeSet<Hostile> {
    (0..ranges)
        .map(|i| Hostile::of(10 * i + 10)..Hostile::of(10 * i + 15))
        .collect()
}

/// The boundaries of a set, which counts its ranges rightly also after a panic.
fn read(set: &ChunkedRangeSet<Hostile>) -> Vec<u16> {
    let mut boundaries = Vec::new();
    assert_eq!(set.ranges_len(), set.iter().count());
    for range in set {
        match range {
            RangeSetRange::Range(range) => boundaries.extend([*range.start.0, *range.end.0]),
            RangeSetRange::RangeFrom(range) => boundaries.push(*range.start.0),
        }
    }
    boundaries
}

/// Looks that the set's answers are those of its boundaries, in each chunk.
fn asks(set: &ChunkedRangeSet<Hostile>) {
    let found = read(set);
    for i in (0..found.len()).step_by(if found.len() > 100 { 61 } else { 1 }) {
        let (at, is_start) = (found[i], i % 2 == 0);
        assert_eq!(set.contains(&Hostile::of(at)), is_start, "{at}");
        if let Some(below) = at.checked_sub(1) {
            assert_eq!(set.contains(&Hostile::of(below)), !is_start, "below {at}");
        }
    }
}

/// Makes a call by a plan. Whether it returned, and the set's boundaries then.
fn call_by(
    plan: Plan,
    call: fn(&mut ChunkedRangeSet<Hostile>, Range<Hostile>),
    ranges: u16,
    range: &Range<u16>,
) -> (bool, Vec<u16>) {
    let found = {
        let mut set = set(ranges);
        let range = Hostile::of(range.start)..Hostile::of(range.end);
        PLAN.with(|it| it.set(plan));
        let returned = catch_unwind(AssertUnwindSafe(|| call(&mut set, range))).is_ok();
        PLAN.with(|it| it.set(Plan::Honest));
        if !matches!(plan, Plan::Lie(_)) {
            asks(&set);
        }
        (returned, read(&set))
    };
    assert_eq!(LIVE.with(Cell::get), 0, "of {ranges} ranges and {range:?}");
    found
}

/// How many ranges the set has, and a range that is put in or taken out: within one chunk, from one
/// into another, across whole ones, of all chunks, from a boundary, up to one, in no range,
/// reversed. A set that grows in order has chunks of 256 boundaries.
#[allow(clippy::reversed_empty_ranges)]
const CASES: [(u16, Range<u16>); 16] = [
    (0, 5..8),
    (3, 0..50),
    (3, 0..27),
    (3, 12..33),
    (3, 15..20),
    (3, 33..12),
    (280, 40..90),
    (280, 5..20),
    (280, 1283..1301),
    (280, 1290..1300),
    (280, 1200..1400),
    (280, 0..2000),
    (400, 1000..2800),
    (400, 1003..3003),
    (400, 10..2570),
    (400, 1290..2570),
];

/// How many of its panics a change of many ranges is tried with: one in some.
fn step(ranges: u16) -> usize {
    one_in() * if ranges > 100 { 31 } else { 1 }
}

fn changes_panic_in_turn(plan: fn(usize) -> Plan, at_least: usize) {
    let mut panicked = 0;
    for (name, change, asked) in CHANGES {
        for (ranges, range) in &CASES {
            let before = read(&set(*ranges));
            let asked = asked(&before, range.clone());
            let mut turn = 0;
            loop {
                let (returned, found) = call_by(plan(turn), change, *ranges, range);
                let what = format!("{name} of {ranges} ranges and {range:?}, panic {turn}");
                if returned {
                    assert_eq!(found, asked, "{what}");
                    break;
                }
                let is_one_of_three = found == before || found == asked || found.is_empty();
                assert!(is_one_of_three, "{what}: {} boundaries", found.len());
                panicked += 1;
                turn += step(*ranges);
                assert!(turn < 10_000, "{name} never returns");
            }
        }
    }
    assert!(panicked * one_in() >= at_least, "{panicked} panicked");
}

#[test]
fn changes_in_which_a_comparison_panics() {
    without_messages(|| changes_panic_in_turn(Plan::PanicAtComparison, 100));
}

#[test]
fn changes_in_which_a_drop_panics() {
    without_messages(|| changes_panic_in_turn(Plan::PanicAtDrop, 1000));
}

#[test]
fn changes_in_which_a_clone_panics() {
    without_messages(|| changes_panic_in_turn(Plan::PanicAtClone, 100));
}

#[test]
fn clones_that_panic_change_nothing() {
    without_messages(|| {
        let mut panicked = 0;
        for (name, call) in QUESTIONS {
            for (ranges, range) in &CASES {
                let (before, mut turn) = (read(&set(*ranges)), 0);
                loop {
                    let plan = Plan::PanicAtClone(turn);
                    let (returned, found) = call_by(plan, call, *ranges, range);
                    assert_eq!(found, before, "{name} of {ranges} ranges, panic {turn}");
                    if returned {
                        break;
                    }
                    panicked += 1;
                    turn += step(*ranges);
                    assert!(turn < 10_000, "{name} never returns");
                }
            }
        }
        assert!(panicked * one_in() >= 500, "{panicked} panicked");
    });
}

#[test]
fn a_comparison_that_panics_changes_nothing() {
    without_messages(|| {
        for (name, call) in CHANGES
            .map(|(name, call, _)| (name, call))
            .iter()
            .chain(&QUESTIONS)
        {
            for (ranges, range) in &CASES {
                let (before, mut turn) = (read(&set(*ranges)), 0);
                loop {
                    let plan = Plan::PanicAtComparison(turn);
                    let (returned, found) = call_by(plan, *call, *ranges, range);
                    if returned {
                        break;
                    }
                    assert_eq!(found, before, "{name} of {ranges} ranges and {range:?}");
                    turn += step(*ranges);
                    assert!(turn < 10_000, "{name} never returns");
                }
            }
        }
    });
}

/// The boundaries of a set without an end, an odd number, give way to fewer or more, within a
/// chunk.
#[test]
fn drops_that_panic_up_to_the_end_of_a_set() {
    without_messages(|| {
        for (len, start) in [(3, 5), (3, 25), (7, 1), (7, 20), (301, 5), (301, 2_000)] {
            // First clones of the boundaries are dropped, and then these.
            for turn in (0..2 * len + 2).step_by(1 + len / 20) {
                let before: Vec<u16> = (1..=len as u16).map(|i| 10 * i).collect();
                let list = before.iter().map(|&it| Hostile::of(it)).collect();
                let mut set = ChunkedRangeSet::from(RangeSet2::new(list).expect("it is sorted"));
                let view = Hostile::of(start);
                PLAN.with(|plan| plan.set(Plan::PanicAtDrop(turn)));
                let change = AssertUnwindSafe(|| set.union_with(RangeSetRef::single(&view)));
                let _ = catch_unwind(change);
                PLAN.with(|plan| plan.set(Plan::Honest));
                let (found, asked) = (read(&set), spliced_from(&before, start, true));
                assert!(found == before || found == asked || found.is_empty());
                asks(&set);
            }
        }
        assert_eq!(LIVE.with(Cell::get), 0);
    });
}

#[test]
fn orders_that_lie() {
    without_messages(|| {
        for (_, call) in CHANGES
            .map(|(name, call, _)| (name, call))
            .iter()
            .chain(&QUESTIONS)
        {
            for (ranges, range) in &CASES {
                for seed in (1..40).step_by(step(*ranges)) {
                    let plan = Plan::Lie(u64::wrapping_mul(seed, 0x9e37_79b9_7f4a_7c15));
                    call_by(plan, *call, *ranges, range);
                }
            }
        }
    });
}

#[test]
fn a_set_whose_change_panicked_is_of_use() {
    without_messages(|| {
        let mut set = set(400);
        let range = Hostile::of(1003)..Hostile::of(3003);
        PLAN.with(|plan| plan.set(Plan::PanicAtDrop(9)));
        assert!(catch_unwind(AssertUnwindSafe(|| set.remove(range))).is_err());
        PLAN.with(|plan| plan.set(Plan::Honest));
        set.clear();
        set.insert(Hostile::of(4)..Hostile::of(6));
        assert_eq!(read(&set), [4, 6]);
    });
}

/// Two ranges far apart change two windows: a drop that panics leaves none of both changes, all, or
/// nothing.
#[test]
fn drops_that_panic_between_windows_far_apart() {
    without_messages(|| {
        for turn in 0..12 {
            let before: Vec<u16> = (1..=6_000).map(|i| 10 * i).collect();
            let list = before.iter().map(|&it| Hostile::of(it)).collect();
            let mut set = ChunkedRangeSet::from(RangeSet2::new(list).expect("it is sorted"));
            let ends = [5, 25, 59_985, 60_005].map(Hostile::of);
            let view = RangeSetRef::new(&ends).expect("it is sorted");
            PLAN.with(|plan| plan.set(Plan::PanicAtDrop(turn)));
            let _ = catch_unwind(AssertUnwindSafe(|| set.union_with(view)));
            PLAN.with(|plan| plan.set(Plan::Honest));
            let once = spliced(&before, 5..25, true);
            let asked = spliced(&once, 59_985..60_005, true);
            let found = read(&set);
            assert!(
                found == before || found == asked || found.is_empty(),
                "turn {turn}"
            );
            asks(&set);
        }
        assert_eq!(LIVE.with(Cell::get), 0);
    });
}

/// A set takes two ranges of another one: a panic leaves nothing.
#[test]
fn panics_between_appended_ranges() {
    fn append(plan: Plan, ranges: u16) -> (bool, Vec<u16>) {
        let mut set = set(ranges);
        let more = [12..33, 5_000..5_005].map(|it| Hostile::of(it.start)..Hostile::of(it.end));
        let mut more = more.into_iter().collect();
        PLAN.with(|it| it.set(plan));
        let returned = catch_unwind(AssertUnwindSafe(|| set.append(&mut more))).is_ok();
        PLAN.with(|it| it.set(Plan::Honest));
        asks(&set);
        (returned, read(&set))
    }
    without_messages(|| {
        for plan in [Plan::PanicAtComparison, Plan::PanicAtDrop] {
            for ranges in [3, 400] {
                let before = read(&set(ranges));
                let once = spliced(&before, 12..33, true);
                let asked = spliced(&once, 5_000..5_005, true);
                let mut turn = 0;
                loop {
                    let (returned, found) = append(plan(turn), ranges);
                    assert_eq!(LIVE.with(Cell::get), 0);
                    if returned {
                        assert_eq!(found, asked);
                        break;
                    }
                    assert!(found.is_empty(), "{ranges} ranges, turn {turn}");
                    turn += 1;
                }
                assert!(turn > 1);
            }
        }
    });
}
