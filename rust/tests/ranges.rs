//! Sets of many ranges, in any order.

mod common;

use common::{one_in, Random};
use range_sets::{fallible, ChunkedRangeSet, RangeSet, RangeSet2, RangeSetRange};
use std::ffi::{OsStr, OsString};
use std::ops::Range;

const NUMBERS: u16 = 1000;

fn made_up(random: &mut Random, many: usize, longest: u64) -> Vec<Range<u16>> {
    (0..many)
        .map(|_| {
            let start = random.below(u64::from(NUMBERS)) as u16;
            start..(start + random.below(longest) as u16).min(NUMBERS)
        })
        .collect()
}

/// The boundaries of the union, from one truth for each number.
fn expected(ranges: &[Range<u16>]) -> Vec<u16> {
    let mut inside = vec![false; usize::from(NUMBERS) + 1];
    for number in ranges.iter().cloned().flatten() {
        inside[usize::from(number)] = true;
    }
    (0..=NUMBERS)
        .filter(|&i| inside[usize::from(i)] != (i > 0 && inside[usize::from(i) - 1]))
        .collect()
}

#[test]
fn ranges_in_any_order() {
    let mut random = Random(21);
    for (many, longest) in [
        (0, 1),
        (1, 9),
        (2, 400),
        (3, 5),
        (10, 60),
        (100, 4),
        (300, 2),
        (500, 900),
    ] {
        for _ in (0..20).step_by(one_in()) {
            let ranges = made_up(&mut random, many, longest);
            let boundaries = expected(&ranges);
            let mut sorted = ranges.clone();
            sorted.sort_by_key(|range| (range.start, range.end));
            let backwards: Vec<_> = sorted.iter().rev().cloned().collect();
            for ranges in [ranges, sorted, backwards] {
                let set: RangeSet2<u16> = ranges.iter().cloned().collect();
                assert_eq!(set.boundaries(), boundaries, "{ranges:?}");
                assert_eq!(RangeSet::<[u16; 8]>::from_ranges(ranges.clone()), set);
                assert_eq!(
                    fallible::RangeSet2::from_ranges(ranges.clone()).unwrap(),
                    set
                );
                let mut extended = RangeSet2::from(400..500);
                extended.extend(ranges.clone());
                assert_eq!(extended, &set | &RangeSet2::from(400..500));
                let sets: Vec<RangeSet2<u16>> = ranges
                    .chunks(7)
                    .map(|some| some.iter().cloned().collect())
                    .collect();
                assert_eq!(RangeSet2::union_all(&sets), set);
                assert_eq!(fallible::RangeSet2::union_all(&sets).unwrap(), set);
            }
        }
    }
}

#[test]
fn ranges_without_an_end() {
    let ranges: [RangeSetRange<u8>; 5] = [
        (9..12).into(),
        (200..).into(),
        (1..2).into(),
        (100..).into(),
        (90..110).into(),
    ];
    assert_eq!(
        ranges
            .iter()
            .cloned()
            .collect::<RangeSet2<u8>>()
            .boundaries(),
        [1, 2, 9, 12, 90]
    );
    assert_eq!(
        [7.., 3.., 5..]
            .into_iter()
            .collect::<RangeSet2<u8>>()
            .boundaries(),
        [3]
    );
    assert_eq!(
        [7.., 9..]
            .into_iter()
            .collect::<RangeSet2<u8>>()
            .boundaries(),
        [7]
    );
    let mut set: RangeSet2<u8> = (0..3).into();
    set.extend([7..]);
    set.extend(RangeSet2::from(3..5));
    assert_eq!(set.boundaries(), [0, 5, 7]);
}

#[test]
fn ranges_put_in_and_taken_out_one_by_one() {
    let mut random = Random(8);
    for longest in [2, 20, 300] {
        let mut set = RangeSet2::<u16>::empty();
        let mut inside = vec![false; usize::from(NUMBERS) + 1];
        for (i, range) in made_up(&mut random, 400, longest).into_iter().enumerate() {
            let puts = i % 3 != 0;
            inside[usize::from(range.start)..usize::from(range.end)].fill(puts);
            if puts {
                set.insert(range);
            } else {
                set.remove(range);
            }
            let switches =
                |&i: &u16| inside[usize::from(i)] != (i > 0 && inside[usize::from(i) - 1]);
            assert_eq!(
                set.boundaries(),
                (0..=NUMBERS).filter(switches).collect::<Vec<u16>>()
            );
        }
    }
}

#[test]
fn long_unsorted_lists() {
    let mut random = Random(4);
    for len in [0, 1, 19, 20, 21, 22, 100, 1000] {
        let items: Vec<u64> = (0..len).map(|_| random.below(len as u64 + 1)).collect();
        let distinct: std::collections::BTreeSet<u64> = items.iter().copied().collect();
        assert!(RangeSet2::from_unsorted(items.clone())
            .boundaries()
            .iter()
            .eq(&distinct));
        assert!(fallible::RangeSet2::from_unsorted(items)
            .unwrap()
            .boundaries()
            .iter()
            .eq(&distinct));
    }
}

/// The questions of one range, between values and between references, beside those of std's ranges.
#[test]
fn one_range() {
    const ENDS: [i8; 6] = [-128, -3, 0, 1, 5, 127];
    for (a, b) in ENDS.iter().flat_map(|a| ENDS.map(|b| (*a, b))) {
        let (std, range) = (a..b, RangeSetRange::from(a..b));
        let (from, refs) = (RangeSetRange::from(a..), range.as_ref());
        assert_eq!(
            (range.len(), refs.len()),
            (Some(std.clone().count() as u128), range.len())
        );
        assert_eq!(
            (range.is_empty(), refs.is_empty()),
            (std.is_empty(), std.is_empty())
        );
        assert_eq!(
            (from.len(), from.as_ref().len(), from.is_empty()),
            (None, None, false)
        );
        for value in ENDS {
            assert_eq!(range.contains(&value), std.contains(&value));
            assert_eq!(refs.contains(&value), std.contains(&value));
            assert_eq!(refs.contains(&&value), std.contains(&value));
            assert_eq!(from.contains(&value), (a..).contains(&value));
        }
        assert_eq!((refs.copied(), refs.cloned()), (range.clone(), range));
    }
    // As with std's ranges, a value may be of a type that the ends are compared with.
    let names = RangeSetRange::from(OsString::from("b")..OsString::from("d"));
    assert!(names.contains(OsStr::new("c")) && !names.contains(OsStr::new("d")));
    assert!(names.as_ref().contains(OsStr::new("b")));
}

#[test]
fn iterators_between_values() {
    let set: RangeSet2<u16> = [3..5, 9..12].into();
    let values = [RangeSetRange::from(3..5), (9..12).into()];
    assert!(
        set.iter().copied().eq(values.clone())
            && set.iter().cloned().rev().eq(values.iter().rev().cloned())
    );
    assert_eq!(set.iter().copied().len(), 2);
    assert!(ChunkedRangeSet::from(&*set)
        .iter()
        .copied()
        .eq(values.clone()));
    assert!(ChunkedRangeSet::from(&*set)
        .iter()
        .cloned()
        .rev()
        .eq(values.into_iter().rev()));
}
