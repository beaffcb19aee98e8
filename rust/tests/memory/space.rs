//! Memory refused at each request in turn: a change of a space answers an error and leaves it as it
//! was, and a search that can't remember what it learned finds the same place.

use crate::refusing::{each_refusal, refusing, unrefused, Refusal};
use range_sets::fallible::{AllocError, ChunkedSpace};
use range_sets::RangeSetRange;

/// A space with `ranges` ranges, each of which takes half of ten numbers.
fn space(ranges: u64) -> ChunkedSpace<u64> {
    let mut space = ChunkedSpace::new();
    for i in 0..ranges {
        space
            .insert(10 * i + 10..10 * i + 15)
            .expect("no memory is refused");
    }
    space
}

fn listed(space: &ChunkedSpace<u64>) -> Vec<RangeSetRange<u64>> {
    unrefused(|| space.iter().map(|range| range.cloned()).collect())
}

type Change = fn(&mut ChunkedSpace<u64>) -> Result<(), AllocError>;

/// A change, how many ranges the space has, and whether it asks for memory.
struct Row {
    name: &'static str,
    ranges: u64,
    change: Change,
    asks: bool,
}

#[rustfmt::skip]
const ROWS: [Row; 8] = [
    Row { name: "the first range", ranges: 0, change: |space| space.insert(5..8), asks: true },
    Row { name: "a full chunk is split", ranges: 256, change: |space| space.insert(17..18), asks: true },
    Row { name: "all gaps at once", ranges: 3000, change: |space| space.insert(0..40_000), asks: false },
    Row { name: "all from a start on", ranges: 3000, change: |space| space.insert(12..), asks: false },
    Row { name: "the middle of a range", ranges: 256, change: |space| space.remove(12..13), asks: true },
    Row { name: "a first range that is new", ranges: 0, change: |space| space.insert_changed(5..8).map(|is_new| assert!(is_new)), asks: true },
    Row { name: "a middle that was there", ranges: 256, change: |space| space.remove_changed(12..13).map(|was_there| assert!(was_there)), asks: true },
    Row { name: "many ranges", ranges: 3000, change: |space| space.remove(13..20_012), asks: false },
];

#[test]
fn changes_are_refused_and_leave_the_space_as_it_was() {
    for row in ROWS {
        let requests = each_refusal(
            row.name,
            || space(row.ranges),
            |space| (row.change)(space).map(|()| listed(space)),
            |space, before| listed(space) == listed(before),
        );
        assert_eq!(requests > 0, row.asks, "{}: {requests} requests", row.name);
    }
}

#[test]
fn new_spaces_are_refused_and_leave_the_old_one_as_it_was() {
    let same = |space: &ChunkedSpace<u64>, before: &_| listed(space) == listed(before);
    for (ranges, asks) in [(0, false), (3, true), (300, true), (3000, true)] {
        let copied = |space: &mut ChunkedSpace<u64>| space.try_clone().map(|it| listed(&it));
        let requests = each_refusal("try_clone", || space(ranges), copied, same);
        assert_eq!(requests > 0, asks, "{ranges} ranges");
        let made = |_: &mut ChunkedSpace<u64>| {
            let all = (0..ranges).map(|i| 10 * i..10 * i + 5);
            ChunkedSpace::from_ranges(all).map(|it| listed(&it))
        };
        let requests = each_refusal("from_ranges", || space(0), made, same);
        assert_eq!(requests > 0, asks, "{ranges} ranges");
    }
}

#[test]
fn what_a_space_took_before_a_refusal_stays() {
    let mut space = space(0);
    let (refused, _) = refusing(Refusal::From(40), || {
        space.extend((0..100_000).map(|i| 10 * i..10 * i + 5))
    });
    assert_eq!(refused, Err(AllocError));
    assert!(space.contains(&4) && !space.contains(&999_990));
    let taken = 5 * space.as_set().ranges_len() as u128;
    assert_eq!(space.covered(), Some(taken));
}

#[test]
fn one_refusal_ends_what_extends_a_space() {
    let all = || (0..3_000).map(|i| 10 * i..10 * i + 5);
    for turn in 0..20 {
        let mut space = space(0);
        let (result, refused) = refusing(Refusal::One(turn), || space.extend(all()));
        let taken = space.as_set().ranges_len();
        assert_eq!((result, refused), (Err(AllocError), 1), "request {turn}");
        assert!(taken < 3_000, "request {turn}");
        let before: Vec<_> = all().take(taken).map(RangeSetRange::from).collect();
        assert_eq!(listed(&space), before, "request {turn}");
    }
}

#[test]
fn searches_that_cannot_remember_find_the_same_place() {
    let mut space = space(3000);
    for (len, place) in [(5, 0), (10, 0), (11, 30_005), (6, 0)] {
        let (found, refused) = refusing(Refusal::From(0), || space.first_fit(0..40_000, len));
        assert_eq!(found, Some(place), "{len} numbers");
        assert_eq!(refused > 0, place > 0, "{len} numbers");
        let (found, refused) = refusing(Refusal::From(0), || {
            space.first_fit_aligned(0..40_000, len.into(), 5)
        });
        assert_eq!(found, Some(place), "{len} numbers from a multiple of 5");
        assert_eq!(refused > 0, place > 0, "{len} numbers from a multiple of 5");
    }
    let (found, refused) = refusing(Refusal::Nothing, || {
        [11, 11].map(|len| space.first_fit(0..40_000, len))
    });
    assert_eq!((found, refused), ([Some(30_005); 2], 0));
}
