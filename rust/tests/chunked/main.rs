//! Sets in chunks: rows, and made-up changes compared with a `RangeSet`.
// Sets of one range are meant.
#![allow(clippy::single_range_in_vec_init)]

#[path = "../common/mod.rs"]
mod common;
mod operations;
mod trackers;

use common::{hash, one_in, Random};
use range_sets::{fallible, ChunkedRangeSet, RangeSet2, RangeSetRange};
use std::ops::Range;

fn ranges(of: &ChunkedRangeSet<u32>) -> Vec<RangeSetRange<u32>> {
    of.iter().map(|range| range.cloned()).collect()
}

/// A short range below `places`: now and then a long one, an empty or a reversed one.
fn any_range(random: &mut Random, places: u64) -> Range<u32> {
    let start = random.below(places) as u32;
    let len = match random.below(places) {
        0 => 0,
        1..=3 => random.below(places),
        _ => 1 + random.below(9),
    };
    if random.below(50) == 0 {
        start + len as u32..start
    } else {
        start..start + len as u32
    }
}

/// Asks both sets the same.
fn compare(chunked: &ChunkedRangeSet<u32>, set: &RangeSet2<u32>, random: &mut Random, places: u64) {
    let value = random.below(places + 20) as u32;
    let range = any_range(random, places);
    assert_eq!(chunked.contains(&value), set.contains(&value));
    assert_eq!(chunked.next_member(&value), set.next_member(&value));
    assert_eq!(chunked.next_gap(&value), set.next_gap(&value));
    assert_eq!(
        chunked.contains_range(range.clone()),
        set.contains_range(range.clone())
    );
    assert_eq!(
        chunked.intersects_range(range.clone()),
        set.intersects_range(range)
    );
    assert_eq!(chunked.is_empty(), set.is_empty());
    assert_eq!(chunked.range_at(&value), set.range_at(&value));
    assert_eq!(chunked.contains_range(value..), set.contains_range(value..));
    assert_eq!(
        chunked.intersects_range(value..),
        set.intersects_range(value..)
    );
    let ends = &value..&(value + random.below(places) as u32);
    assert!(chunked.gaps(ends.clone()).eq(set.gaps(ends.clone())));
    assert!(chunked
        .ranges_within(ends.clone())
        .eq(set.ranges_within(ends)));
    assert_eq!(chunked.is_all(), set.is_all());
    assert_eq!(chunked.covered(), set.covered());
    assert_eq!(chunked.first(), set.first());
    assert_eq!(chunked.last(), set.last());
    assert_eq!(chunked.span(), set.span());
    assert_eq!(chunked.boundaries_len(), set.boundaries().len());
    assert_eq!(chunked.ranges_len(), set.iter().len());
    assert_eq!(chunked.prev_member(&value), set.prev_member(&value));
    assert_eq!(chunked.prev_gap(&value), set.prev_gap(&value));
    assert_eq!(chunked.rank(&value), set.rank(&value));
    let k = random.below(places).into();
    assert_eq!(chunked.select(k), set.select(k));
    let (within, count) = (value / 2..value * 2, random.below(9).into());
    assert_eq!(
        chunked.first_run(within.clone(), count),
        set.first_run(within.clone(), count)
    );
    let align = random.below(9).into();
    assert_eq!(
        chunked.first_fit_aligned(within.clone(), count, align),
        set.first_fit_aligned(within, count, align)
    );
    let ends = &value..&(value + random.below(places) as u32);
    assert!(chunked.overlapping(ends.clone()).eq(set.overlapping(ends)));
}

/// Makes the same changes to both kinds of sets, and compares what they answer and what they are.
fn made_up(seed: u64, places: u64, changes: usize, puts_in_ten: u64) {
    let mut random = Random(seed.wrapping_mul(0x9e37_79b9_7f4a_7c15) | 1);
    let (mut chunked, mut set) = (ChunkedRangeSet::new(), RangeSet2::empty());
    for change in 0..changes {
        let range = any_range(&mut random, places);
        match (
            random.below(10) < puts_in_ten,
            random.below(places + 40) < 3,
        ) {
            (true, false) => {
                chunked.insert(range.clone());
                set.insert(range);
            }
            (false, false) => {
                chunked.remove(range.clone());
                set.remove(range);
            }
            (true, true) => {
                chunked.insert(range.start..);
                set.insert(range.start..);
            }
            (false, true) => {
                chunked.remove(range.start..);
                set.remove(range.start..);
            }
        }
        compare(&chunked, &set, &mut random, places);
        if change % 64 == 0 || change + 1 == changes {
            assert!(chunked.iter().eq(set.iter()), "seed {seed}");
            assert!(chunked.iter().rev().eq(set.iter().rev()), "seed {seed}");
        }
    }
    assert_eq!(chunked.to_string(), set.to_string());
    let again = ChunkedRangeSet::from(set.clone());
    let copy = chunked.clone();
    assert!(chunked == again && chunked == copy);
    for _ in 0..100 {
        compare(&copy, &set, &mut random, places);
    }
    assert_eq!(ChunkedRangeSet::from(&*set), chunked);
    assert_eq!(
        *fallible::ChunkedRangeSet::try_from(&*set).unwrap(),
        chunked
    );
    assert_eq!(RangeSet2::from(chunked.clone()), set);
    assert!(chunked.into_iter().eq(set.into_iter()));
}

/// Takes ranges out of both kinds of sets, at either end.
fn popped(seed: u64, chunked: &mut ChunkedRangeSet<u32>, set: &mut RangeSet2<u32>, pops: usize) {
    let mut random = Random(seed.wrapping_mul(0x9e37_79b9_7f4a_7c15) | 1);
    for _ in 0..pops {
        if random.below(2) == 0 {
            assert_eq!(chunked.pop_first(), set.pop_first(), "seed {seed}");
        } else {
            assert_eq!(chunked.pop_last(), set.pop_last(), "seed {seed}");
        }
        let value = random.below(20_000) as u32;
        assert_eq!(chunked.contains(&value), set.contains(&value));
    }
    assert!(chunked.iter().eq(set.iter()), "seed {seed}");
}

#[test]
fn ranges_are_taken_out_at_either_end() {
    for seed in (1..40).step_by(one_in()) {
        let mut random = Random(seed);
        let mut set: RangeSet2<u32> = (0..1_500).map(|_| any_range(&mut random, 20_000)).collect();
        if seed % 2 == 0 {
            set.insert(19_000..);
        }
        let mut chunked = ChunkedRangeSet::from(set.clone());
        popped(seed, &mut chunked, &mut set, 600);
        // In between, ranges that fill the chunks again.
        for _ in 0..300 {
            let range = any_range(&mut random, 20_000);
            chunked.insert(range.clone());
            set.insert(range);
        }
        popped(seed + 1, &mut chunked, &mut set, 2_000);
        assert!(
            chunked.is_empty() && chunked.pop_first().is_none() && chunked.pop_last().is_none()
        );
    }
}

#[test]
fn changes_tell_whether_they_changed_something() {
    for seed in (1..2_000).step_by(one_in()) {
        let mut random = Random(seed);
        let (mut chunked, mut set) = (ChunkedRangeSet::new(), RangeSet2::empty());
        for _ in 0..20 {
            let range = any_range(&mut random, 60);
            match random.below(4) {
                0 => assert_eq!(
                    chunked.insert_changed(range.clone()),
                    set.insert_changed(range)
                ),
                1 => assert_eq!(
                    chunked.remove_changed(range.clone()),
                    set.remove_changed(range)
                ),
                2 => assert_eq!(
                    chunked.insert_changed(range.start + 40..),
                    set.insert_changed(range.start + 40..)
                ),
                _ => assert_eq!(
                    chunked.remove_changed(range.start + 20..),
                    set.remove_changed(range.start + 20..)
                ),
            }
            assert!(chunked.iter().eq(set.iter()), "seed {seed}");
        }
    }
}

#[test]
fn members_and_values() {
    let values = [7u8, 3, 255, 4, 3, 0];
    let set = ChunkedRangeSet::from_values(values);
    assert_eq!(set.to_string(), "0..1, 3..5, 7..8, 255..");
    assert_eq!(
        *fallible::ChunkedRangeSet::from_values(values).unwrap(),
        set
    );
    assert!(set.members().eq([0, 3, 4, 7, 255]));
    assert!(set.members().rev().eq([255, 7, 4, 3, 0]));
    let mut both = set.members();
    assert_eq!(
        (both.next(), both.next_back(), both.next_back()),
        (Some(0), Some(255), Some(7))
    );
    assert!(both.clone().eq([3, 4]));
    assert_eq!((both.next(), both.next_back()), (Some(3), Some(4)));
    assert_eq!((both.next(), both.next_back()), (None, None));
    assert!(ChunkedRangeSet::<u8>::from_values([])
        .members()
        .next()
        .is_none());
}

#[test]
fn short_sequences_as_of_a_range_set() {
    for seed in (1..10_000).step_by(one_in()) {
        made_up(seed, 60, 24, 5);
    }
}

#[test]
fn sets_of_many_chunks_as_a_range_set() {
    for seed in (1..9).step_by(one_in()) {
        made_up(seed, 40_000, 6_000, 8);
        made_up(seed, 20_000, 6_000, 6);
    }
}

#[test]
fn a_set_grows_and_shrinks_at_either_end() {
    let all: Vec<Range<u32>> = (0..3_000).map(|i| 10 * i..10 * i + 4).collect();
    let (up, down) = (all.clone(), all.iter().rev().cloned());
    let (mut set, other) = (
        ChunkedRangeSet::from_iter(up),
        down.collect::<ChunkedRangeSet<_>>(),
    );
    assert!(set == other && set.iter().count() == 3_000);
    for (i, range) in all.iter().enumerate() {
        assert_eq!(set.next_member(&0), Some(&range.start));
        assert_eq!(set.iter().count(), 3_000 - i);
        set.remove(range.clone());
    }
    assert!(set.is_empty());
}

#[test]
fn ranges_in_any_order() {
    let mixed = [5..10, 0..3, 8..12, 4..4, Range { start: 9, end: 2 }];
    let set = ChunkedRangeSet::from_ranges(mixed.clone());
    assert_eq!(set.to_string(), "0..3, 5..12");
    assert_eq!(*fallible::ChunkedRangeSet::from_ranges(mixed).unwrap(), set);
    assert!(ChunkedRangeSet::<u8>::from_ranges([3..3]).is_empty());
}

#[test]
fn numbers_fit_as_beside_a_range_set() {
    let mut random = Random(7);
    let list: RangeSet2<u32> = (0..2_000).map(|_| any_range(&mut random, 20_000)).collect();
    let set = ChunkedRangeSet::from(list.clone());
    for _ in 0..300 {
        let (start, len) = (random.below(21_000) as u32, random.below(60) as u32);
        for within in [start..21_000, 0..start] {
            let fits = list.first_fit(within.clone(), len);
            assert_eq!(set.first_fit_unchanged(within, len), fits);
        }
    }
}

#[test]
fn texts() {
    let set = ChunkedRangeSet::from_iter([15..18, 9..11]);
    assert_eq!(format!("{set}"), "9..11, 15..18");
    assert_eq!(
        format!("{set:>15}|{set:<15}|{set:*^16}"),
        "  9..11, 15..18|9..11, 15..18  |*9..11, 15..18**"
    );
    assert_eq!(format!("{set:?}"), "ChunkedRangeSet{9..11, 15..18}");
    assert_eq!(
        format!("{:?}", fallible::ChunkedRangeSet::from(set)),
        "ChunkedRangeSet{9..11, 15..18}"
    );
    assert_eq!(ChunkedRangeSet::<u8>::new().to_string(), "");
    assert_eq!(
        format!("{:?}", ChunkedRangeSet::<u8>::new()),
        "ChunkedRangeSet{}"
    );
}

// The value, whose type can go to other threads.
fn of_any_thread<T: Send + Sync>(value: &T) -> &T {
    value
}

#[test]
fn values() {
    let (low, high) = (
        ChunkedRangeSet::from_iter([1..3]),
        ChunkedRangeSet::from_iter([1..2, 2..4]),
    );
    assert!(low != high && low < high && low == ChunkedRangeSet::from_iter([2..3, 1..2]));
    let longer = ChunkedRangeSet::from_iter([1..3, 5..7]);
    assert_ne!(low, longer);
    assert_ne!(longer, low);
    assert_eq!(hash(&high), hash(&ChunkedRangeSet::from_iter([1..4])));
    assert_ne!(hash(&high), hash(&low));
    let many = || (0..2_000).map(|i| 3 * i..3 * i + 1);
    let (mut grown, loaded) = (ChunkedRangeSet::new(), ChunkedRangeSet::from_iter(many()));
    grown.extend(many().rev());
    assert_eq!((&grown, hash(&grown)), (&loaded, hash(&loaded)));
    assert_eq!(ChunkedRangeSet::<u32>::default(), ChunkedRangeSet::new());
    let mut changed = ChunkedRangeSet::from_iter([1..3]);
    changed.extend([5..7, 3..4]);
    assert_eq!(ranges(&changed), [(1..4).into(), (5..7).into()]);
    let moved: ChunkedRangeSet<u32> = fallible::ChunkedRangeSet::from(changed).into();
    assert_eq!(of_any_thread(&moved).iter().count(), 2);
}

#[cfg(feature = "serde")]
#[test]
fn written_as_its_boundaries() {
    let set = ChunkedRangeSet::from_iter([15..18, 9..11]);
    assert_eq!(serde_json::to_string(&set).unwrap(), "[9,11,15,18]");
    let read: ChunkedRangeSet<u8> = serde_json::from_str("[20, 0, 10, 0]").unwrap();
    assert_eq!(read.to_string(), "0..10, 20..");
    let read: fallible::ChunkedRangeSet<u8> = serde_json::from_str("[20, 0, 10, 0]").unwrap();
    assert_eq!(serde_json::to_string(&read).unwrap(), "[0,10,20]");
}
