//! Memory refused at each request in turn: a change of a map answers an error, and leaves the map
//! as it was.

use crate::refusing::{each_refusal, refusing, unrefused, Refusal};
use range_sets::fallible::{AllocError, InsertError, MapValue, RangeMap};
use range_sets::RangeSetRange;
use std::ops::Range;

type Map = RangeMap<u32, String>;

fn value(number: u32) -> String {
    format!("{number:03}, and more that lies on the heap")
}

/// The map of `ranges` ranges, each of which takes half of ten numbers.
fn map(ranges: u32) -> Map {
    RangeMap::from_ranges((0..ranges).map(|i| (10 * i + 10..10 * i + 15, value(i % 3))))
        .expect("no memory is refused")
}

fn listed(map: &Map) -> Vec<(RangeSetRange<u32>, String)> {
    unrefused(|| {
        map.iter()
            .map(|(range, value)| (range.cloned(), value.clone()))
            .collect()
    })
}

type Change = fn(&mut Map, Range<u32>) -> Result<(), AllocError>;

struct Row {
    what: &'static str,
    change: Change,
    ranges: u32,
    range: Range<u32>,
    /// Whether it asks for memory: if there are more steps after it than there is room for, or a
    /// range becomes two.
    asks: bool,
}

const INSERT: Change = |map, range| map.insert(range, unrefused(|| value(7)));
const SAME: Change = |map, range| map.insert(range, unrefused(|| value(0)));
const BOOK: Change = |map, range| {
    map.insert_free(range, unrefused(|| value(7)))
        .or_else(|refused| match refused {
            InsertError::NotFree(_) => Ok(()),
            InsertError::OutOfMemory(back) => {
                assert!(unrefused(|| back == value(7)));
                Err(AllocError)
            }
        })
};
const REMOVE: Change = |map, range| map.remove(range);
const UPDATE: Change =
    |map, range| map.update(range, |it| it.map(MapValue::copy_value).transpose());
const UPDATE_FROM: Change =
    |map, range| map.update(range.start.., |it| it.map(MapValue::copy_value).transpose());
const INSERT_FROM: Change = |map, range| map.insert(range.start.., unrefused(|| value(7)));
const REMOVE_FROM: Change = |map, range| map.remove(range.start..);

/// A map has two keys for each range, and room for a power of two.
const ROWS: [Row; 20] = [
    Row {
        what: "a range updated",
        change: UPDATE,
        ranges: 9,
        range: 12..43,
        asks: true,
    },
    Row {
        what: "all from a start on updated",
        change: UPDATE_FROM,
        ranges: 9,
        range: 12..12,
        asks: true,
    },
    Row {
        what: "an empty range updated",
        change: UPDATE,
        ranges: 9,
        range: 12..12,
        asks: false,
    },
    Row {
        what: "a free range where there is room",
        change: BOOK,
        ranges: 9,
        range: 16..18,
        asks: false,
    },
    Row {
        what: "a free range where there is none",
        change: BOOK,
        ranges: 8,
        range: 16..18,
        asks: true,
    },
    Row {
        what: "a range that isn't free",
        change: BOOK,
        ranges: 8,
        range: 12..18,
        asks: false,
    },
    Row {
        what: "the first range",
        change: INSERT,
        ranges: 0,
        range: 5..8,
        asks: true,
    },
    Row {
        what: "a range that is there",
        change: INSERT,
        ranges: 3,
        range: 10..15,
        asks: false,
    },
    Row {
        what: "over some",
        change: INSERT,
        ranges: 9,
        range: 12..43,
        asks: false,
    },
    Row {
        what: "where there is room",
        change: INSERT,
        ranges: 9,
        range: 16..18,
        asks: false,
    },
    Row {
        what: "where there is none",
        change: INSERT,
        ranges: 8,
        range: 16..18,
        asks: true,
    },
    Row {
        what: "within a range",
        change: INSERT,
        ranges: 9,
        range: 12..13,
        asks: true,
    },
    Row {
        what: "within a range of that value",
        change: SAME,
        ranges: 9,
        range: 12..13,
        asks: false,
    },
    Row {
        what: "no range",
        change: INSERT,
        ranges: 8,
        range: 9..9,
        asks: false,
    },
    Row {
        what: "without an end",
        change: INSERT_FROM,
        ranges: 9,
        range: 42..50,
        asks: false,
    },
    Row {
        what: "the first one without an end",
        change: INSERT_FROM,
        ranges: 0,
        range: 42..50,
        asks: true,
    },
    Row {
        what: "taken out of a range",
        change: REMOVE,
        ranges: 9,
        range: 12..13,
        asks: true,
    },
    Row {
        what: "the end of a range taken out",
        change: REMOVE,
        ranges: 8,
        range: 12..15,
        asks: false,
    },
    Row {
        what: "all taken out",
        change: REMOVE,
        ranges: 9,
        range: 0..200,
        asks: false,
    },
    Row {
        what: "taken out without an end",
        change: REMOVE_FROM,
        ranges: 8,
        range: 12..20,
        asks: false,
    },
];

#[test]
fn changes_are_refused_and_leave_the_map_as_it_was() {
    for row in ROWS {
        let requests = each_refusal(
            row.what,
            || map(row.ranges),
            |map| (row.change)(map, row.range.clone()).map(|()| listed(map)),
            |map, before| listed(map) == listed(before),
        );
        assert_eq!(requests > 0, row.asks, "{}: {requests} requests", row.what);
        let mut changed = map(row.ranges);
        let (result, _) = refusing(Refusal::From(0), || {
            (row.change)(&mut changed, row.range.clone())
        });
        assert_eq!(result.is_err(), row.asks, "{}", row.what);
    }
}

#[test]
fn copies_are_refused_and_leave_the_map_as_it_was() {
    for ranges in [0, 3, 40] {
        let requests = each_refusal(
            "try_clone",
            || map(ranges),
            |map| map.try_clone().map(|copy| listed(&copy)),
            |map, before| listed(map) == listed(before),
        );
        // One for each value, and two for both lists.
        let least = if ranges == 0 { 0 } else { ranges as usize + 2 };
        assert_eq!(requests > 0, ranges > 0, "{ranges} ranges");
        assert!(requests >= least, "{ranges} ranges: {requests} requests");
    }
}

type Operation = fn(&Map, &Map) -> Result<Map, AllocError>;

const OPERATIONS: [(&str, Operation); 5] = [
    ("combine", |a, b| {
        a.combine(b, |a, b| a.or(b).map(MapValue::copy_value).transpose())
    }),
    ("union_with_left", |a, b| a.union_with_left(b)),
    ("union_with_right", |a, b| a.union_with_right(b)),
    ("restrict", |a, b| a.restrict(&b.domain::<[u32; 2]>()?)),
    ("without", |a, b| {
        a.without(&b.where_equal::<[u32; 2]>(&unrefused(|| value(1)))?)
    }),
];

#[test]
fn operations_are_refused_and_leave_both_maps_as_they_were() {
    for (name, operation) in OPERATIONS {
        for ranges in [3, 40] {
            let requests = each_refusal(
                name,
                || (map(ranges), map(ranges / 2)),
                |(a, b)| operation(a, b).map(|made| listed(&made)),
                |(a, b), (left, right)| listed(a) == listed(left) && listed(b) == listed(right),
            );
            assert!(requests as u32 > ranges / 2, "{name}: {requests} requests");
        }
    }
}

#[test]
fn depths_are_refused() {
    let requests = each_refusal(
        "depth",
        // Keys that are no numbers, which sorting asks memory for.
        || {
            let ranges = (0..40u32).map(|i| Some(41 - i)..Some(45 + i));
            ranges.collect::<Vec<_>>()
        },
        |ranges| {
            let depth = RangeMap::depth(ranges)?;
            Ok::<_, AllocError>(unrefused(|| {
                let entries = depth.iter();
                entries.map(|(range, &n)| (range.cloned(), n)).collect()
            }))
        },
        |_, _| true,
    );
    assert!(requests > 8, "{requests} requests");
}

#[test]
fn what_grows_is_refused_in_the_end() {
    let mut map = map(0);
    let ranges = [5..8, 10..12].map(|range| (range, value(1)));
    let (refused, _) = refusing(Refusal::From(0), || map.extend(ranges));
    assert_eq!((refused, map.is_empty()), (Err(AllocError), true));
    let numbers = || (0..100_000u32).map(|i| (10 * i..10 * i + 5, i));
    let (refused, _) = refusing(Refusal::From(20), || {
        RangeMap::from_ranges(numbers()).map(drop)
    });
    assert_eq!(refused, Err(AllocError));
    let mut numbered = RangeMap::new();
    let (refused, _) = refusing(Refusal::From(20), || numbered.extend(numbers()));
    assert_eq!(refused, Err(AllocError));
    assert!(numbered[&14] == 1 && !numbered.contains_key(&999_990));
}

#[test]
fn one_refusal_ends_what_extends_a_map() {
    let all = || (0..3_000u32).map(|i| (10 * i..10 * i + 5, i));
    for turn in 0..20 {
        let mut map = RangeMap::new();
        let (result, refused) = refusing(Refusal::One(turn), || map.extend(all()));
        assert_eq!((result, refused), (Err(AllocError), 1), "request {turn}");
        assert!(map.len() < 3_000, "request {turn}");
        let found = map.iter().map(|(range, &value)| (range.cloned(), value));
        let before = all().map(|(range, value)| (range.into(), value));
        assert!(found.eq(before.take(map.len())), "request {turn}");
    }
}

#[test]
fn what_takes_no_memory_asks_for_none() {
    let (empty, _) = refusing(Refusal::From(0), Map::new);
    assert!(empty.is_empty());
    let (before, mut other) = (listed(&map(40)), Some(map(40)));
    let (turned, refused) = refusing(Refusal::From(0), || {
        let other: range_sets::RangeMap<_, _> = other.take().expect("it is there").into();
        Map::from(other)
    });
    assert_eq!((listed(&turned), refused), (before, 0));
}
