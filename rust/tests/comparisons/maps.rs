//! Maps: their searches and changes, and how often an operation on two maps compares keys and asks
//! what it makes of them.

use super::{count, digits, each, ranges, Counted};
use range_sets::{RangeMap, RangeSet2};
use std::cell::Cell;
use std::ops::Range;

type Map = RangeMap<Counted, u32>;

const RANGES: u32 = 2000;

const KEYS: usize = 2 * RANGES as usize;

/// A map of `RANGES` ranges, each with its own value, and how many comparisons a search may make:
/// its chunks have at least 32 keys.
fn many() -> (Map, usize) {
    let map: Map = ranges(RANGES).zip(0..).collect();
    (map, digits(KEYS / 32 + 1) + 7)
}

#[test]
fn one_search() {
    let (map, search) = many();
    each! { &map, RANGES, search; |it, from, to|
        it.get(&from);
        it.contains_key(&from);
        it.get_key_value(&from);
        it.is_free(from..);
        it.gaps(&from..).count();
        it.gaps(from..).count();
        it.next_gap(&from);
        it.insert(from.., 7);
        it.remove(from..);
    }
    each! { &map, RANGES, search + 2; |it, from, to|
        it.is_free(from..to);
    }
}

#[test]
fn two_searches() {
    let (map, search) = many();
    each! { &map, RANGES, 2 * search + 1; |it, from, to|
        it.insert(from..to, 7);
        it.remove(from..to);
        it.overlapping(&from..&to).count();
        it.overlapping(from..).count();
        it.gaps(&from..&to).count();
        it.gaps(from..to).count();
        it.gaps(..to).count();
        it.insert_free(from.., 7);
        it.pop_first();
        it.pop_last();
    }
}

/// Also where the last range has no end.
#[test]
fn ranges_from_a_key_on() {
    let (mut map, search) = many();
    map.insert(Counted(10 * RANGES + 2).., 7);
    each! { &map, RANGES, search; |it, from, to|
        it.overlapping(from..).count();
        it.overlapping(&from..).next_back();
    }
}

/// One says whether the range is free, with a look at its ends and at the key behind its start.
#[test]
fn a_range_that_is_put_where_it_is_free_is_searched_three_times() {
    let (map, search) = many();
    each! { &map, RANGES, 3 * search + 3; |it, from, to|
        it.insert_free(from..to, 7);
    }
}

/// A value that is changed is looked up and put in again; a map in two is one change of each.
#[test]
fn calls_of_two_others() {
    let (map, search) = many();
    each! { &map, RANGES, 3 * search + 1; |it, from, to|
        it.modify(&from, |value| *value += 1);
        it.split_off(&from);
    }
}

#[test]
fn keys_that_are_only_read_are_not_compared() {
    let (map, _) = many();
    each! { &map, RANGES, 0; |it, from, to|
        it.iter().count();
        it.keys().count();
        it.values().count();
        it.first();
        it.last();
        it.span();
        it.len();
        it.is_empty();
        it.retain(|value| value % 2 == 0);
        it.retain_ranges(|_, value| value % 2 == 0);
        it.clear();
        it.clone();
        it.clone().into_iter().count();
    }
    each! { &map, RANGES, KEYS; |it, from, to|
        *it == it.clone();
    }
    // Their ranges come in order to a set.
    each! { &map, RANGES, 3 * RANGES as usize; |it, from, to|
        it.domain::<[Counted; 2]>();
        it.where_equal::<[Counted; 2]>(&7);
    }
}

/// Two keys beside many, in runs: a run before them, one between, one behind.
#[test]
fn operations_with_one_range() {
    let (map, _) = many();
    let at_most = 2 * (3 * digits(KEYS) + 2) + 1;
    each! { &map, RANGES, at_most; |it, from, to|
        it.update(from..to, |value| value.copied());
        it.update(from.., |value| value.copied());
        it.restrict(&RangeSet2::from(from..to));
        it.without(&RangeSet2::from(from..to));
        it.union_with_left(&Map::from([(from..to, 1)]));
        it.union_with_right(&Map::from([(from..to, 1)]));
        it.insert_all(&Map::from([(from..to, 1)]));
        it.insert_where_free(&Map::from([(from..to, 1)]));
        it.remove_all(&RangeSet2::from(from..to));
        it.retain_all(&RangeSet2::from(from..to));
    }
}

/// Two searches for each range of a short set, or a walk over the map and the set.
#[test]
fn the_keys_of_many_ranges() {
    let (map, search) = many();
    for (n, at_most) in [
        (1, 2 * search),
        (10, 20 * search),
        (1000, 2 * (KEYS + 2000)),
        (RANGES, 2 * (KEYS + KEYS)),
    ] {
        let part = RangeSet2::from_ranges(ranges(n));
        let made = count(|| map.restrict(&part));
        assert!(made <= at_most, "{made} comparisons for {n} ranges");
    }
}

/// Starts and ends are sorted, each with few comparisons more than their digits, and read once.
#[test]
fn depths() {
    for n in [1, 2, 3, 100, RANGES] {
        let ranges: Vec<_> = ranges(n).collect();
        let sort = 1 + 2 * digits(n as usize);
        let at_most = n as usize * (8 + 2 * sort);
        let made = count(|| RangeMap::depth(&ranges));
        assert!(made <= at_most, "{made} comparisons for {n} ranges");
    }
}

/// The map of these ranges, each with its own value.
fn map(ranges: &[Range<u32>]) -> RangeMap<u32, usize> {
    ranges.iter().cloned().zip(1..).collect()
}

/// The keys at which a map changes.
fn keys(map: &RangeMap<u32, usize>) -> impl Iterator<Item = u32> + '_ {
    map.iter().flat_map(|(range, _)| {
        let end = range.end().map(|end| **end);
        [Some(**range.start()), end].into_iter().flatten()
    })
}

/// Maps that touch, meet, lie apart, have many steps.
fn rows() -> Vec<RangeMap<u32, usize>> {
    vec![
        map(&[]),
        map(&[0..10]),
        map(&[0..10, 10..20, 30..40]),
        map(&[5..10, 12..35, 35..38]),
        map(&(0..300).map(|i| 4 * i..4 * i + 2).collect::<Vec<_>>()),
        map(&(0..300).map(|i| 5 * i..5 * i + 5).collect::<Vec<_>>()),
    ]
}

#[test]
fn an_operation_is_asked_once_a_step() {
    for a in rows() {
        for b in rows() {
            let mut steps: Vec<u32> = keys(&a).chain(keys(&b)).collect();
            steps.sort_unstable();
            steps.dedup();
            // It isn't asked about keys that have no value.
            steps.retain(|key| a.contains_key(key) || b.contains_key(key));
            let asked = Cell::new(0);
            let made = a.combine(&b, |left, right| {
                asked.set(asked.get() + 1);
                left.or(right).copied()
            });
            assert_eq!(made, a.union_with_left(&b));
            assert_eq!(asked.get(), steps.len(), "{a:?} with {b:?}");
        }
    }
}

#[test]
fn an_update_is_asked_once_a_step_of_its_range() {
    for map in rows() {
        for (start, end) in [(0, 7), (3, 36), (10, 600), (2000, 2001), (7, 7)] {
            let mut steps: Vec<u32> = keys(&map).chain([start]).collect();
            steps.sort_unstable();
            steps.dedup();
            steps.retain(|key| start <= *key && *key < end);
            let (asked, mut updated) = (Cell::new(0), map.clone());
            updated.update(start..end, |value| {
                asked.set(asked.get() + 1);
                value.map(|it| it + 1000)
            });
            assert_eq!(asked.get(), steps.len(), "{start}..{end} of {map:?}");
        }
    }
}
