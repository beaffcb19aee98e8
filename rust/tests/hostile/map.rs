//! Maps whose keys' orders and values' equalities lie, and whose comparisons, clones and drops
//! panic: each key and value is dropped once, and a change that panics leaves the map as it was,
//! changed as asked, or empty.

use crate::common::one_in;
use crate::element::{Hostile, Plan, LIVE, PLAN};
use crate::without_messages;
use range_sets::{fallible, RangeMap, RangeSet2, RangeSetRange};
use std::cell::Cell;
use std::ops::Range;
use std::panic::{catch_unwind, resume_unwind, AssertUnwindSafe};

type Map = RangeMap<Hostile, Hostile>;

/// The value of each number. The last one also stands for all above.
type Cells = [Option<u16>; 100];

/// A call on a map with a range and a value.
type Call = fn(&mut Map, Range<Hostile>, Hostile);

/// A call that changes a map, with its name and what it makes of the cells.
struct Change {
    name: &'static str,
    call: Call,
    asked: fn(&mut Cells, Range<u16>, u16),
}

const CHANGES: [Change; 18] = [
    Change {
        name: "insert",
        call: |map, range, value| map.insert(range, value),
        asked: inserted,
    },
    Change {
        name: "remove",
        call: |map, range, _| map.remove(range),
        asked: |cells, range, _| put(cells, range, None),
    },
    Change {
        name: "insert without an end",
        call: |map, range, value| map.insert(range.start.., value),
        asked: |cells, range, value| put(cells, range.start..100, Some(value)),
    },
    Change {
        name: "remove without an end",
        call: |map, range, _| map.remove(range.start..),
        asked: |cells, range, _| put(cells, range.start..100, None),
    },
    Change {
        name: "extend",
        call: |map, range, value| map.extend([(range, value)]),
        asked: inserted,
    },
    Change {
        name: "append",
        call: |map, range, value| {
            let last = (Hostile::of(90)..Hostile::of(95), Hostile::of(7));
            map.append(&mut [(range, value), last].into_iter().collect());
        },
        asked: |cells, range, value| {
            put(cells, range, Some(value));
            put(cells, 90..95, Some(7));
        },
    },
    Change {
        name: "split_off",
        call: |map, range, _| drop(map.split_off(&range.start)),
        asked: |cells, range, _| put(cells, range.start..100, None),
    },
    Change {
        name: "modify",
        call: |map, range, value| {
            map.modify(&range.start, |it| *it = value);
        },
        asked: |cells, range, value| {
            let at = usize::from(range.start);
            if let Some(old) = cells[at] {
                let is_old = |cell: &&mut Option<u16>| **cell == Some(old);
                let (below, from) = cells.split_at_mut(at);
                let around = below.iter_mut().rev().take_while(is_old);
                for cell in around.chain(from.iter_mut().take_while(is_old)) {
                    *cell = Some(value);
                }
            }
        },
    },
    Change {
        name: "retain_ranges",
        call: |map, _, value| map.retain_ranges(|_, it| *it != value),
        asked: |cells, _, value| {
            for cell in cells.iter_mut().filter(|cell| **cell == Some(value)) {
                *cell = None;
            }
        },
    },
    Change {
        name: "pop_first",
        call: |map, _, _| drop(map.pop_first()),
        asked: |cells, _, _| {
            if let Some(at) = cells.iter().position(Option::is_some) {
                let first = cells[at];
                let range = cells[at..].iter_mut().take_while(|cell| **cell == first);
                range.for_each(|cell| *cell = None);
            }
        },
    },
    Change {
        name: "insert_free",
        // Rust doesn't drop what a function returns if the drop of an argument panics, so a value
        // that comes back would leak by no fault of the map: here the call is made with a range
        // that is free.
        call: |map, range, value| {
            let (start, end) = (*range.start.0, *range.end.0);
            if map.is_free(range) {
                let _ = map.insert_free(Hostile::of(start)..Hostile::of(end), value);
            }
        },
        asked: |cells, range, value| {
            if range.clone().all(|key| cells[usize::from(key)].is_none()) {
                put(cells, range, Some(value));
            }
        },
    },
    Change {
        name: "insert_free without an end",
        call: |map, range, value| {
            let start = *range.start.0;
            if map.is_free(range.start..) {
                let _ = map.insert_free(Hostile::of(start).., value);
            }
        },
        asked: |cells, range, value| {
            if cells[usize::from(range.start)..]
                .iter()
                .all(Option::is_none)
            {
                put(cells, range.start..100, Some(value));
            }
        },
    },
    Change {
        name: "retain",
        call: |map, _, value| map.retain(|it| *it != value),
        asked: |cells, _, value| {
            for cell in cells.iter_mut().filter(|cell| **cell == Some(value)) {
                *cell = None;
            }
        },
    },
    Change {
        name: "clear",
        call: |map, _, _| map.clear(),
        asked: |cells, _, _| *cells = [None; 100],
    },
    Change {
        name: "to the other kind and back",
        call: |map, _, _| fallibly(map, |_| Ok(())),
        asked: |_, _, _| {},
    },
    Change {
        name: "fallible insert",
        call: |map, range, value| fallibly(map, |map| map.insert(range, value)),
        asked: inserted,
    },
    Change {
        name: "update",
        call: |map, range, value| map.update(range, |_| Some(value.clone())),
        asked: inserted,
    },
    Change {
        name: "fallible remove",
        call: |map, range, _| fallibly(map, |map| map.remove(range)),
        asked: |cells, range, _| put(cells, range, None),
    },
];

/// What only compares, clones or reads.
const QUESTIONS: [(&str, Call); 6] = [
    ("operations with a copy", |map, range, value| {
        let that = map.clone();
        drop((map.union_with_left(&that), map.union_with_right(&that)));
        drop(map.combine(&that, |a, b| a.filter(|&it| *it != value).or(b).cloned()));
        let (domain, ones) = (map.domain::<[_; 2]>(), map.where_equal::<[_; 2]>(&value));
        drop((map.restrict(&domain), map.without(&ones), range));
    }),
    ("the values in few ranges", |map, range, _| {
        let few = RangeSet2::from(range);
        drop((map.restrict(&few), map.without(&few)));
    }),
    ("gaps between values", |map, range, _| {
        let _ = map.gaps(range.clone()).take(9).count();
        let _ = map.gaps(range.start..).take(9).count();
    }),
    ("questions of a key", |map, range, _| {
        let _ = (map.get(&range.start), map.contains_key(&range.end));
        let ends = &range.start..&range.end;
        let _ = (
            map.overlapping(ends.clone()).count(),
            map.gaps(ends).count(),
            map.overlapping(&range.start..).rev().count(),
        );
        let _ = (map.get_key_value(&range.start), map.is_free(range));
    }),
    ("a clone, by ranges too", |map, _, _| {
        drop((map.clone(), map.clone().into_iter().count()));
        drop(fallible::RangeMap::from(map.clone()).try_clone());
    }),
    ("a comparison of maps", |map, _, _| {
        let same = &*map;
        let _ = same == &*map;
    }),
];

/// Changes the map by a call of `fallible`, and gives it back also if that panics.
fn fallibly(
    map: &mut Map,
    change: impl FnOnce(&mut fallible::RangeMap<Hostile, Hostile>) -> Result<(), fallible::AllocError>,
) {
    let mut changed = fallible::RangeMap::from(std::mem::take(map));
    let result = catch_unwind(AssertUnwindSafe(|| change(&mut changed)));
    *map = changed.into();
    match result {
        Ok(result) => result.expect("no memory is refused"),
        Err(panic) => resume_unwind(panic),
    }
}

fn put(cells: &mut Cells, range: Range<u16>, value: Option<u16>) {
    for key in range {
        cells[usize::from(key)] = value;
    }
}

fn inserted(cells: &mut Cells, range: Range<u16>, value: u16) {
    put(cells, range, Some(value));
}

/// The keys of `ranges` ranges, each of which takes half of ten numbers, and each second one
/// touches the next with another value.
fn cells(ranges: u16) -> Cells {
    let mut cells = [None; 100];
    for i in 0..ranges {
        put(
            &mut cells,
            10 * i + 10..10 * i + 15 + i % 2 * 5,
            Some(i % 3),
        );
    }
    cells
}

fn map(ranges: u16) -> Map {
    (0..ranges)
        .map(|i| (10 * i + 10, 10 * i + 15 + i % 2 * 5, i % 3))
        .map(|(start, end, value)| (Hostile::of(start)..Hostile::of(end), Hostile::of(value)))
        .collect()
}

/// The cells of a map, by its ranges. What they say must be in order.
fn read(map: &Map) -> Cells {
    let mut cells = [None; 100];
    for (range, value) in map {
        let end = range.end().map_or(100, |end| *end.0.as_ref());
        put(&mut cells, *range.start().0..end, Some(*value.0));
    }
    cells
}

/// Makes a call by a plan. Whether it returned, and the map's cells then.
fn call_by(
    plan: Plan,
    call: Call,
    ranges: u16,
    (range, value): &(Range<u16>, u16),
) -> (bool, Cells) {
    let found = {
        let mut map = map(ranges);
        let range = Hostile::of(range.start)..Hostile::of(range.end);
        let value = Hostile::of(*value);
        PLAN.with(|it| it.set(plan));
        let returned = catch_unwind(AssertUnwindSafe(|| call(&mut map, range, value))).is_ok();
        PLAN.with(|it| it.set(Plan::Honest));
        (returned, read(&map))
    };
    assert_eq!(LIVE.with(Cell::get), 0, "of {ranges} ranges and {range:?}");
    found
}

/// How many ranges the map has, and a range that is put in or taken out with its value: the first
/// one, within a range, with the value that is there, over one, over some, over all, between two,
/// from a start, up to an end, in no range, reversed.
#[allow(clippy::reversed_empty_ranges)]
const CASES: [(u16, (Range<u16>, u16)); 13] = [
    (0, (5..8, 0)),
    (3, (12..14, 1)),
    (3, (12..14, 0)),
    (3, (10..15, 1)),
    (8, (12..53, 1)),
    (8, (20..60, 2)),
    (8, (0..99, 0)),
    (8, (15..20, 0)),
    (8, (25..40, 1)),
    (8, (10..13, 2)),
    (8, (42..45, 0)),
    (8, (16..19, 0)),
    (8, (33..12, 0)),
];

fn changes_panic_in_turn(plan: fn(usize) -> Plan, at_least: usize) {
    let mut panicked = 0;
    for change in CHANGES {
        for (ranges, case) in &CASES {
            let before = cells(*ranges);
            let mut asked = before;
            (change.asked)(&mut asked, case.0.clone(), case.1);
            let mut turn = 0;
            loop {
                let (returned, found) = call_by(plan(turn), change.call, *ranges, case);
                let what = format!("{} of {ranges} ranges and {case:?}, {turn}", change.name);
                if returned {
                    assert_eq!(found, asked, "{what}");
                    break;
                }
                let is_one_of_three = found == before || found == asked || found == [None; 100];
                assert!(is_one_of_three, "{what}: {found:?}");
                panicked += 1;
                turn += one_in();
                assert!(turn < 10_000, "{what}: it never returns");
            }
        }
    }
    assert!(panicked * one_in() >= at_least, "{panicked} panicked");
}

#[test]
fn changes_in_which_a_comparison_panics() {
    without_messages(|| changes_panic_in_turn(Plan::PanicAtComparison, 300));
}

#[test]
fn changes_in_which_a_clone_panics() {
    without_messages(|| changes_panic_in_turn(Plan::PanicAtClone, 9));
}

#[test]
fn changes_in_which_a_drop_panics() {
    without_messages(|| changes_panic_in_turn(Plan::PanicAtDrop, 300));
}

#[test]
fn questions_that_panic_change_nothing() {
    without_messages(|| {
        for (name, call) in QUESTIONS {
            for plan in [Plan::PanicAtComparison, Plan::PanicAtClone] {
                for (ranges, case) in &CASES {
                    let mut turn = 0;
                    loop {
                        let (returned, found) = call_by(plan(turn), call, *ranges, case);
                        assert_eq!(found, cells(*ranges), "{name}, {case:?}, {turn}");
                        if returned {
                            break;
                        }
                        turn += one_in();
                        assert!(turn < 10_000, "{name} never returns");
                    }
                }
            }
        }
    });
}

#[test]
fn orders_and_equalities_that_lie() {
    without_messages(|| {
        let changes = CHANGES.map(|change| change.call);
        for call in changes.into_iter().chain(QUESTIONS.map(|(_, call)| call)) {
            for (ranges, case) in &CASES {
                for seed in (1..60).step_by(one_in()) {
                    let plan = Plan::Lie(u64::wrapping_mul(seed, 0x9e37_79b9_7f4a_7c15));
                    let found = catch_unwind(|| call_by(plan, call, *ranges, case));
                    drop(found);
                    assert_eq!(LIVE.with(Cell::get), 0, "of {ranges} ranges and {case:?}");
                }
            }
        }
    });
}

#[test]
fn a_map_whose_change_panicked_is_of_use() {
    without_messages(|| {
        let mut map = map(8);
        let range = Hostile::of(12)..Hostile::of(53);
        PLAN.with(|plan| plan.set(Plan::PanicAtDrop(1)));
        assert!(catch_unwind(AssertUnwindSafe(|| map.remove(range))).is_err());
        PLAN.with(|plan| plan.set(Plan::Honest));
        map.clear();
        map.insert(Hostile::of(4)..Hostile::of(6), Hostile::of(7));
        let mut expected = [None; 100];
        put(&mut expected, 4..6, Some(7));
        assert_eq!(read(&map), expected);
        let range = RangeSetRange::from(&Hostile::of(4)..&Hostile::of(6)).cloned();
        map.remove(range);
        assert!(map.is_empty());
    });
}

/// Appends two ranges by a plan. Whether the call returned, and the cells of both maps then.
fn append_by(plan: Plan, ranges: u16, (range, value): &(Range<u16>, u16)) -> (bool, [Cells; 2]) {
    let found = {
        let more = [(range.clone(), *value), (90..95, 7)];
        let more = more.map(|(it, value)| (Hostile::of(it.start)..Hostile::of(it.end), value));
        let more = more.map(|(range, value)| (range, Hostile::of(value)));
        let (mut own, mut that) = (map(ranges), more.into_iter().collect());
        PLAN.with(|it| it.set(plan));
        let returned = catch_unwind(AssertUnwindSafe(|| own.append(&mut that))).is_ok();
        PLAN.with(|it| it.set(Plan::Honest));
        (returned, [read(&own), read(&that)])
    };
    assert_eq!(LIVE.with(Cell::get), 0, "of {ranges} ranges and {range:?}");
    found
}

/// No value of either map stays on its own if one panics between two ranges.
#[test]
fn maps_are_empty_after_an_append_that_panics() {
    const NONE: Cells = [None; 100];
    without_messages(|| {
        for (plan, name) in [
            (Plan::PanicAtComparison as fn(usize) -> Plan, "comparison"),
            (Plan::PanicAtClone, "clone"),
            (Plan::PanicAtDrop, "drop"),
        ] {
            let mut panicked = 0;
            for (ranges, case) in &CASES {
                let mut asked = cells(*ranges);
                put(&mut asked, case.0.clone(), Some(case.1));
                put(&mut asked, 90..95, Some(7));
                for turn in (0..).step_by(one_in()) {
                    let (returned, found) = append_by(plan(turn), *ranges, case);
                    let what = format!("{ranges} ranges and {case:?}, {name} {turn}");
                    if returned {
                        assert_eq!(found, [asked, NONE], "{what}");
                        break;
                    }
                    assert_eq!(found, [NONE, NONE], "{what}");
                    panicked += 1;
                }
            }
            assert!(panicked > 0, "no {name} panicked");
        }
    });
}
