//! Memory refused at each request in turn: a change of a set in chunks answers an error, and leaves
//! the set as it was.

use crate::refusing::{each_refusal, refusing, unrefused, Refusal, LARGEST};
use range_sets::fallible::{AllocError, ChunkedRangeSet, RangeSet2};
use std::ops::Range;

/// The set of `ranges` ranges, each of which takes half of ten numbers.
fn set(ranges: u32) -> ChunkedRangeSet<u32> {
    let mut set = ChunkedRangeSet::new();
    set.extend((0..ranges).map(|i| 10 * i + 10..10 * i + 15))
        .expect("no memory is refused");
    set
}

fn listed(set: &ChunkedRangeSet<u32>) -> Vec<Range<u32>> {
    unrefused(|| {
        set.iter()
            .map(|range| match range.cloned() {
                range_sets::RangeSetRange::Range(range) => range,
                range_sets::RangeSetRange::RangeFrom(_) => unreachable!("none was put in"),
            })
            .collect()
    })
}

type Change = fn(&mut ChunkedRangeSet<u32>, Range<u32>) -> Result<(), AllocError>;

const INSERT: Change = |set, range| set.insert(range);
const REMOVE: Change = |set, range| set.remove(range);
const INSERT_CHANGED: Change = |set, range| set.insert_changed(range).map(drop);
const REMOVE_CHANGED: Change = |set, range| set.remove_changed(range).map(drop);
const UNION: Change = |set, range| set.union_with(&range_sets::RangeSet2::from(range));
const DIFFERENCE: Change = |set, range| set.difference_with(&range_sets::RangeSet2::from(range));

/// How many ranges a set has, a change, and whether it asks for memory: where the set grows, and
/// its list of chunks or the chunk has no room, or the chunk is full. A chunk has at most 512
/// boundaries, and room for a power of two.
struct Row {
    name: &'static str,
    change: Change,
    ranges: u32,
    range: Range<u32>,
    asks: bool,
}

#[rustfmt::skip]
const ROWS: [Row; 19] = [
    Row { name: "the first range", change: INSERT, ranges: 0, range: 5..8, asks: true },
    Row { name: "a range that is there", change: INSERT, ranges: 3, range: 11..14, asks: false },
    Row { name: "a range where there is room", change: INSERT, ranges: 129, range: 17..18, asks: false },
    Row { name: "a range where there is none", change: INSERT, ranges: 128, range: 17..18, asks: true },
    Row { name: "a range before a full chunk", change: INSERT, ranges: 256, range: 2..4, asks: true },
    Row { name: "a range behind a full chunk", change: INSERT, ranges: 256, range: 9000..9001, asks: true },
    Row { name: "a chunk where there is no room", change: INSERT, ranges: 639, range: 9000..9001, asks: true },
    Row { name: "a longer range", change: INSERT, ranges: 3000, range: 20_010..20_017, asks: false },
    Row { name: "one range of many", change: INSERT, ranges: 3000, range: 12..20_017, asks: false },
    Row { name: "no range", change: INSERT, ranges: 128, range: 9..9, asks: false },
    Row { name: "what isn't there", change: REMOVE, ranges: 128, range: 15..20, asks: false },
    Row { name: "the middle of a range", change: REMOVE, ranges: 128, range: 12..13, asks: true },
    Row { name: "the end of a range", change: REMOVE, ranges: 128, range: 12..15, asks: false },
    Row { name: "many ranges", change: REMOVE, ranges: 3000, range: 13..20_012, asks: false },
    Row { name: "all ranges", change: REMOVE, ranges: 3000, range: 0..40_000, asks: false },
    Row { name: "a range, and whether", change: INSERT_CHANGED, ranges: 128, range: 17..18, asks: true },
    Row { name: "a middle, and whether", change: REMOVE_CHANGED, ranges: 128, range: 12..13, asks: true },
    Row { name: "a set of one range", change: UNION, ranges: 300, range: 12..17, asks: true },
    Row { name: "a set out of many ranges", change: DIFFERENCE, ranges: 300, range: 12..1_017, asks: true },
];

#[test]
fn a_clone_asks_for_no_more_than_its_boundaries_take() {
    for ranges in [1, 20, 300] {
        let set = set(ranges);
        LARGEST.with(|largest| largest.set(0));
        let clone = set.try_clone().expect("no memory is refused");
        let largest = LARGEST.with(|largest| largest.get());
        assert!(largest <= 8 * ranges as usize + 64, "{ranges}: {largest}");
        assert_eq!(listed(&clone), listed(&set));
    }
}

#[test]
fn changes_are_refused_and_leave_the_set_as_it_was() {
    for row in ROWS {
        let requests = each_refusal(
            row.name,
            || set(row.ranges),
            |set| (row.change)(set, row.range.clone()).map(|()| listed(set)),
            |set, before| listed(set) == listed(before),
        );
        assert_eq!(requests > 0, row.asks, "{}: {requests} requests", row.name);
    }
}

#[test]
fn what_needs_no_room_asks_for_nothing() {
    for row in ROWS {
        let mut changed = set(row.ranges);
        let (result, _) = refusing(Refusal::From(0), || (row.change)(&mut changed, row.range));
        assert_eq!(result.is_err(), row.asks, "{}", row.name);
    }
    let (set, _) = refusing(Refusal::From(0), ChunkedRangeSet::<u32>::new);
    assert!(set.is_empty());
}

#[test]
fn what_grows_is_refused_in_the_end() {
    let mut set = set(0);
    let (refused, _) = refusing(Refusal::From(0), || set.extend([5..8, 10..12]));
    assert_eq!((refused, set.is_empty()), (Err(AllocError), true));
    for refusal in [Refusal::From(40), Refusal::One(40)] {
        let (refused, _) = refusing(refusal, || {
            set.extend((0..100_000).map(|i| 10 * i..10 * i + 5))
        });
        assert_eq!(refused, Err(AllocError), "{refusal:?}");
        assert!(set.contains_range(0..5) && !set.contains(&999_990));
        set.clear();
    }
}

#[test]
fn copies_and_moves_are_refused_and_leave_the_set_as_it_was() {
    let same = |set: &ChunkedRangeSet<u32>, before: &_| listed(set) == listed(before);
    for (ranges, asks) in [(0, false), (3, true), (300, true), (3000, true)] {
        let copied = |set: &mut ChunkedRangeSet<u32>| set.try_clone().map(|it| listed(&it));
        let requests = each_refusal("try_clone", || set(ranges), copied, same);
        assert_eq!(requests > 0, asks, "{ranges} ranges");
        let moved = |set: &mut ChunkedRangeSet<u32>| {
            let moved = std::mem::take(set).into_set::<[u32; 2]>();
            moved
                .map(|list| unrefused(|| list.boundaries().to_vec()))
                .map_err(|(refused, back)| {
                    *set = back;
                    refused
                })
        };
        let requests = each_refusal(
            "into_set",
            || set(ranges),
            moved,
            |a, b| listed(a) == listed(b),
        );
        assert_eq!(requests > 0, asks, "{ranges} ranges");
        let list = || {
            set(ranges)
                .into_set::<[u32; 2]>()
                .expect("no memory is refused")
        };
        let chunked = |list: &mut RangeSet2<u32>| {
            ChunkedRangeSet::try_from(std::mem::take(list)).map(|it| listed(&it))
        };
        let requests = each_refusal("try_from", list, chunked, |_, _| true);
        assert_eq!(requests > 0, asks, "{ranges} ranges");
        let loaded =
            |list: &mut RangeSet2<u32>| ChunkedRangeSet::try_from(&**list).map(|it| listed(&it));
        let requests = each_refusal("try_from a view", list, loaded, |_, _| true);
        assert_eq!(requests > 0, asks, "{ranges} ranges");
    }
}

#[test]
fn ranges_without_an_end_are_refused_and_leave_the_set_as_it_was() {
    for (ranges, start, asks) in [
        (0, 5, true),
        (128, 12, false),
        (639, 9000, true),
        (256, 9000, false),
        (3, 2, false),
    ] {
        let change = |set: &mut ChunkedRangeSet<u32>| {
            set.insert(start..)?;
            Ok::<_, AllocError>(unrefused(|| vec![set.boundaries_len()]))
        };
        let same = |set: &ChunkedRangeSet<u32>, before: &_| listed(set) == listed(before);
        let requests = each_refusal("insert without an end", || set(ranges), change, same);
        assert_eq!(requests > 0, asks, "{ranges} ranges and {start}..");
    }
}
