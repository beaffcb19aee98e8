//! Sets in chunks, and spaces of which nothing is remembered yet.

use super::{count, digits, each, ranges, Counted};
use range_sets::{ChunkedRangeSet, ChunkedSpace, RangeSet2};

type Set = ChunkedRangeSet<Counted>;

const RANGES: u32 = 2000;

/// A set of many ranges, and how many comparisons a search may make: its chunks have at least 128
/// boundaries.
fn many() -> (Set, usize) {
    let mut set = ChunkedRangeSet::new();
    ranges(RANGES).for_each(|range| set.insert(range));
    let search = digits(set.boundaries_len() / 128 + 1) + 10;
    (set, search)
}

fn space(set: &Set) -> ChunkedSpace<Counted> {
    set.clone().into()
}

#[test]
fn one_search() {
    let (set, search) = many();
    each! { &set, RANGES, search; |it, from, to|
        it.contains(&from);
        it.range_at(&from);
        it.next_member(&from);
        it.next_gap(&from);
        it.prev_member(&from);
        it.prev_gap(&from);
        it.rank(&from);
        it.contains_range(from..);
        it.gaps(&from..).count();
        it.gaps(from..).count();
        it.ranges_within(from..).count();
        it.intersects_range(from..);
        it.insert(from..);
        it.remove(from..);
        space(it).contains(&from);
        space(it).intersects_range(from..);
        space(it).insert(from..);
        space(it).remove(from..);
    }
    each! { &set, RANGES, search + 2; |it, from, to|
        it.intersects_range(from..to);
        space(it).intersects_range(from..to);
    }
}

#[test]
fn two_searches() {
    let (set, search) = many();
    each! { &set, RANGES, 2 * search + 1; |it, from, to|
        it.contains_range(from..to);
        it.overlapping(&from..&to).count();
        it.overlapping(from..).count();
        it.gaps(&from..&to).count();
        it.gaps(from..to).count();
        it.ranges_within(from..to).count();
        it.ranges_within(&from..&to).count();
        it.first_fit_aligned(from..to, 6, 4);
        it.first_run(from..to, 6);
        it.insert(from..to);
        it.remove(from..to);
        it.insert_changed(from..);
        it.remove_changed(from..);
        space(it).gaps(&from..&to).count();
        space(it).insert(from..to);
        space(it).remove(from..to);
    }
    each! { &set, RANGES, 4 * search + 2; |it, from, to|
        it.insert_changed(from..to);
        it.remove_changed(from..to);
        space(it).insert_changed(from..to);
        space(it).remove_changed(from..to);
    }
}

/// Also where the last range has no end.
#[test]
fn ranges_from_a_value_on() {
    let (mut set, search) = many();
    set.insert(Counted(10 * RANGES + 2)..);
    each! { &set, RANGES, search; |it, from, to|
        it.overlapping(from..).count();
        it.overlapping(&from..).next_back();
        space(it).overlapping(from..).count();
    }
}

#[test]
fn ends_and_places_alone_are_not_compared() {
    let (set, _) = many();
    each! { &set, RANGES, 0; |it, from, to|
        it.iter().count();
        it.members().take(100).count();
        it.first();
        it.last();
        it.span();
        it.ranges_len();
        it.covered();
        it.select(500);
        it.is_empty();
        it.is_all();
        it.pop_first();
        it.pop_last();
        it.clear();
        it.clone();
        it.clone().into_iter().count();
        RangeSet2::from(&*it);
        space(it).covered();
        space(it).is_empty();
        space(it).iter().count();
        space(it).clear();
    }
}

#[test]
fn a_range_near_one_boundary_is_searched_once() {
    let (chunked, a_search) = many();
    let rows = [
        ("put between two", 6, 8, true),
        ("put at the end of one", 5, 8, true),
        ("put from one to the next", 5, 10, true),
        ("put behind all", 10 * RANGES, 10 * RANGES + 1, true),
        ("taken out", 0, 5, false),
        ("taken out of one", 1, 4, false),
    ];
    for (name, from, to, put) in rows {
        let places = (0..RANGES).step_by(50);
        let all = places.len();
        let made: usize = places
            .map(|i| {
                let range = Counted(10 * i + from)..Counted(10 * i + to);
                let mut changed = chunked.clone();
                count(|| match put {
                    true => changed.insert(range),
                    false => changed.remove(range),
                })
            })
            .sum();
        assert!(made <= all * (a_search + 2), "{name}: {made} comparisons");
    }
}

/// Two short ranges.
fn two(from: Counted, to: Counted) -> RangeSet2<Counted> {
    let ends = [from, to].map(|at| at..Counted(at.0 + 3));
    ends.into_iter().collect()
}

/// An operation is a merge of two lists, here of one or two ranges beside many or of as many.
#[test]
fn operations_with_a_view() {
    let (set, search) = many();
    let d = digits(set.boundaries_len());
    each! { &set, RANGES, 2 * (3 * d + 2); |it, from, to|
        it.union_with(&RangeSet2::from(from..to));
        it.intersection_with(&RangeSet2::from(from..to));
        it.difference_with(&RangeSet2::from(from..to));
        it.symmetric_difference_with(&RangeSet2::from(from..to));
        *it |= ChunkedRangeSet::from(from..to);
        *it -= ChunkedRangeSet::from(from..to);
    }
    // Both ends of all, and of each range where the two lie far apart.
    each! { &set, RANGES, 6 * search + 30; |it, from, to|
        it.union_with(&two(from, to));
        it.difference_with(&two(from, to));
        it.symmetric_difference_with(&two(from, to));
    }
    each! { &set, RANGES, 2 * set.boundaries_len(); |it, from, to|
        *it &= it.clone();
        *it ^= it.clone();
        *it == it.clone();
    }
}
