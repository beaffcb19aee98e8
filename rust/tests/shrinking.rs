//! Memory that a set in chunks holds while it grows and shrinks, counted by an allocator.

mod common;

use common::counting::{held, Counting};
use common::Random;
use range_sets::{ChunkedRangeSet, ChunkedSpace, RangeSet2};

#[global_allocator]
static COUNTING: Counting = Counting;

/// The numbers below `count` in a made-up order.
fn in_any_order(count: u64, seed: u64) -> Vec<u64> {
    let mut random = Random(seed);
    let mut numbers: Vec<u64> = (0..count).collect();
    for i in (1..numbers.len()).rev() {
        numbers.swap(i, random.below(i as u64 + 1) as usize);
    }
    numbers
}

/// A set of `ranges` ranges shrinks to a twentieth of them: the bytes that it holds then, for each
/// range that is left, are at most `most`.
fn shrinks(ranges: u64, made: impl FnOnce(&[u64]) -> ChunkedRangeSet<u64>, most: isize) {
    let (up, down) = (in_any_order(ranges, 7), in_any_order(ranges, 9));
    let before = held();
    let mut set = made(&up);
    let grown = held() - before;
    let left = ranges / 20;
    for i in &down[left as usize..] {
        set.remove(20 * i..20 * i + 10);
    }
    let held = held() - before;
    assert_eq!(set.ranges_len() as u64, left);
    assert!(
        held < grown / 4,
        "{held} bytes of {grown} for {left} ranges"
    );
    assert!(
        held <= most * left as isize,
        "{held} bytes for {left} ranges"
    );
}

#[test]
fn a_set_that_shrinks_gives_its_memory_back() {
    let one_by_one = |order: &[u64]| {
        let mut set = ChunkedRangeSet::new();
        for i in order {
            set.insert(20 * i..20 * i + 10);
        }
        set
    };
    let at_once =
        |order: &[u64]| ChunkedRangeSet::from_iter(order.iter().map(|i| 20 * i..20 * i + 10));
    shrinks(60_000, one_by_one, 80);
    shrinks(60_000, at_once, 80);
}

/// What is left in each chunk is little, or in a few of many.
#[test]
fn a_set_that_shrinks_by_operations_gives_its_memory_back() {
    for (block, stay) in [(20u64, 1), (500, 25), (2_000, 100)] {
        let before = held();
        let mut set: ChunkedRangeSet<u64> = (0..60_000).map(|i| 20 * i..20 * i + 10).collect();
        let grown = held() - before;
        for i in in_any_order(60_000 / block, 7) {
            let start = 20 * block * i;
            set.difference_with(&RangeSet2::from(start..start + 20 * (block - stay)));
        }
        let held = held() - before;
        assert_eq!(set.ranges_len(), 3_000);
        assert!(held < grown / 4, "{held} bytes of {grown} by {block}");
        assert!(held <= 80 * 3_000, "{held} bytes by {block}");
    }
}

/// A set that grows by operations has few chunks.
#[test]
fn a_set_that_grows_by_operations_is_dense() {
    let before = held();
    let mut set = ChunkedRangeSet::new();
    for i in in_any_order(6_000, 7) {
        let ranges = (10 * i..10 * i + 10).map(|at| 20 * at..20 * at + 10);
        set.union_with(&ranges.collect::<RangeSet2<u64>>());
    }
    let held = held() - before;
    assert_eq!(set.ranges_len(), 60_000);
    assert!(held <= 60 * 60_000, "{held} bytes for 60000 ranges");
}

/// What a space remembers takes little beside its ranges, however often it is searched and changed,
/// and goes with them.
#[test]
fn what_a_space_remembers_is_little() {
    let before = held();
    let mut space: ChunkedSpace<u64> = (0..60_000).map(|i| 20 * i..20 * i + 10).collect();
    let grown = held() - before;
    for i in in_any_order(60_000, 7).into_iter().take(600) {
        space.first_fit(20 * i..1_200_000, 11);
        space.remove(20 * i..20 * i + 10);
        space.first_fit(0..1_200_000, 40);
        space.insert(20 * i..20 * i + 10);
    }
    let remembered = held() - before - grown;
    assert!(remembered < grown / 10, "{remembered} bytes beside {grown}");
    space.remove(20..);
    space.first_fit(0..1_200_000, 2_000_000);
    let left = held() - before;
    assert!(left < grown / 20, "{left} bytes of {grown}");
}
