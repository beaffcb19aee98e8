//! Operations with a view, beside those of a `RangeSet`.

use crate::common::{one_in, Random};
use crate::{any_range, compare};
use range_sets::{fallible, ChunkedRangeSet, RangeSet2};
use std::cell::Cell;

/// Makes one of the operations with a view of all kinds of sets.
fn operated(seed: u64, mut set: RangeSet2<u32>, that: &RangeSet2<u32>) {
    let mut chunked = ChunkedRangeSet::from(set.clone());
    let mut refusing = fallible::ChunkedRangeSet::from(chunked.clone());
    let made = match seed % 4 {
        0 => &chunked | that,
        1 => &chunked & that,
        2 => &chunked - that,
        _ => &chunked ^ that,
    };
    match seed % 4 {
        0 => {
            chunked.union_with(that);
            refusing.union_with(that).unwrap();
            set.union_with(that);
        }
        1 => {
            chunked.intersection_with(that);
            refusing.intersection_with(that).unwrap();
            set.intersection_with(that);
        }
        2 => {
            chunked.difference_with(that);
            refusing.difference_with(that).unwrap();
            set.difference_with(that);
        }
        _ => {
            chunked.symmetric_difference_with(that);
            refusing.symmetric_difference_with(that).unwrap();
            set.symmetric_difference_with(that);
        }
    }
    assert!(chunked.iter().eq(set.iter()), "seed {seed}");
    assert!(
        chunked.boundaries_len() == set.boundaries().len(),
        "seed {seed}"
    );
    assert!(refusing.iter().eq(set.iter()), "seed {seed}");
    assert!(made == chunked, "seed {seed}");
    assert!(made.boundaries_len() == set.boundaries().len());
}

#[test]
fn operations_with_a_view_as_of_a_range_set() {
    for seed in 1..40u64 {
        let mut random = Random(seed.wrapping_mul(0x9e37_79b9_7f4a_7c15) | 1);
        let some = |random: &mut Random, ranges: u64| -> RangeSet2<u32> {
            (0..ranges).map(|_| any_range(random, 20_000)).collect()
        };
        let (set, that) = (some(&mut random, 1_500), some(&mut random, 60 * seed));
        operated(seed, set, &that);
    }
}

/// Ranges in a few places of a set of many chunks: some close together, some long, the last one
/// endless or not.
#[test]
fn operations_with_few_ranges_far_apart_as_of_a_range_set() {
    const PLACES: u64 = 100_000;
    let mut random = Random(0x9e37_79b9_7f4a_7c15);
    let few = |i: u32| 10 * i..10 * i + 1 + i % 7;
    let set: RangeSet2<u32> = (0..PLACES as u32 / 10).map(few).collect();
    for seed in (0..600).step_by(one_in()) {
        let mut that = RangeSet2::empty();
        for _ in 0..1 + random.below(5) {
            let at = random.below(PLACES);
            for _ in 0..1 + random.below(4) {
                let start = (at + random.below(2_000)) as u32;
                that.insert(start..start + 1 + random.below(300) as u32);
            }
            if random.below(8) == 0 {
                that.insert(at as u32..(at + random.below(PLACES / 4)) as u32);
            }
        }
        if random.below(6) == 0 {
            that.insert(random.below(PLACES + 9) as u32..);
        }
        operated(seed, set.clone(), &that);
    }
}

/// Operation after operation with a few ranges anywhere in a set of some chunks, both with an end
/// and without.
#[test]
fn operations_with_short_views_as_of_a_range_set() {
    for seed in (1..9u64).step_by(one_in()) {
        let mut random = Random(seed.wrapping_mul(0x9e37_79b9_7f4a_7c15) | 1);
        let mut set: RangeSet2<u32> = (0..1_500).map(|_| any_range(&mut random, 20_000)).collect();
        let mut chunked = ChunkedRangeSet::from(set.clone());
        let mut refusing = fallible::ChunkedRangeSet::from(chunked.clone());
        for _ in 0..150 {
            let start = random.below(20_000) as u32;
            let wide = 1 + random.below(1_500);
            let mut that: RangeSet2<u32> = (0..1 + random.below(12))
                .map(|_| start + random.below(wide) as u32)
                .map(|at| at..at + 1 + wide as u32 / 40)
                .collect();
            if random.below(8) == 0 {
                that.insert(start + wide as u32 / 2..);
            }
            match random.below(9) {
                0..=3 => {
                    chunked.union_with(&that);
                    refusing.union_with(&that).unwrap();
                    set.union_with(&that);
                }
                4 | 5 => {
                    chunked.difference_with(&that);
                    refusing.difference_with(&that).unwrap();
                    set.difference_with(&that);
                }
                6 | 7 => {
                    chunked.symmetric_difference_with(&that);
                    refusing.symmetric_difference_with(&that).unwrap();
                    set.symmetric_difference_with(&that);
                }
                _ => {
                    that.symmetric_difference_with(range_sets::RangeSetRef::single(&0));
                    chunked.intersection_with(&that);
                    refusing.intersection_with(&that).unwrap();
                    set.intersection_with(&that);
                }
            }
            assert!(chunked.iter().eq(set.iter()), "seed {seed}");
            assert!(refusing.iter().eq(set.iter()), "seed {seed}");
            assert_eq!(chunked.boundaries_len(), set.boundaries().len());
            for _ in 0..20 {
                compare(&chunked, &set, &mut random, 20_000);
            }
        }
    }
}

/// A number that counts its clones.
#[derive(Debug, PartialEq, Eq, PartialOrd, Ord)]
struct Cloned(u32);

thread_local! {
    static CLONES: Cell<usize> = const { Cell::new(0) };
}

impl Clone for Cloned {
    fn clone(&self) -> Self {
        CLONES.with(|clones| clones.set(clones.get() + 1));
        Cloned(self.0)
    }
}

/// Merges may clone an element without a drop more than once.
impl Drop for Cloned {
    fn drop(&mut self) {}
}

impl fallible::EntryClone for Cloned {
    fn entry_clone(&self) -> Result<Self, fallible::AllocError> {
        Ok(self.clone())
    }
}

#[test]
fn an_operation_copies_what_lies_beside_the_view_alone() {
    let all = (0..10_000).map(|i| Cloned(10 * i)..Cloned(10 * i + 4));
    let mut set = ChunkedRangeSet::from_ranges(all);
    let mut refusing = fallible::ChunkedRangeSet::from(set.clone());
    for at in [0, 3, 25_602, 49_995, 50_000, 99_950, 99_990] {
        let that = RangeSet2::from(Cloned(at)..Cloned(at + 30));
        let before = CLONES.with(Cell::get);
        set.union_with(&that);
        set.symmetric_difference_with(&that);
        set.difference_with(&that);
        refusing.union_with(&that).unwrap();
        refusing.symmetric_difference_with(&that).unwrap();
        refusing.difference_with(&that).unwrap();
        let clones = CLONES.with(Cell::get) - before;
        assert!(clones <= 60, "{clones} clones at {at}");
        assert!(refusing.iter().eq(set.iter()));
    }
}

#[test]
fn a_set_in_two_copies_the_upper_one_alone() {
    let all = (0..10_000).map(|i| Cloned(10 * i)..Cloned(10 * i + 4));
    let mut set = ChunkedRangeSet::from_ranges(all);
    for at in [99_990, 99_972, 99_960, 99_900] {
        let above = set.overlapping(&Cloned(at)..).count();
        let before = CLONES.with(Cell::get);
        assert_eq!(set.split_off(&Cloned(at)).ranges_len(), above);
        let clones = CLONES.with(Cell::get) - before;
        assert!(clones <= 4 * above + 4, "{clones} clones at {at}");
    }
}

/// Also if the view has ranges all over the set: these lie in one list first.
#[test]
fn a_new_set_of_both_copies_each_boundary_once() {
    let range = |i: u32| Cloned(10 * i)..Cloned(10 * i + 4);
    let set = ChunkedRangeSet::from_ranges((0..10_000).map(range));
    for few in [1, 2, 3, 40, 1_000, 5_000] {
        let that = (0..few).map(|i| 10_000 / few * i);
        let that = RangeSet2::from_ranges(that.map(|i| Cloned(10 * i + 2)..Cloned(10 * i + 7)));
        let before = CLONES.with(Cell::get);
        let made = [&set | &that, &set - &that, &set ^ &that];
        let clones = CLONES.with(Cell::get) - before;
        // A change in chunks copies what it changes once more.
        let at_most = 3 * (20_000 + 7 * few as usize);
        assert!(clones <= at_most, "{clones} clones for {few} ranges");
        let lens = made.map(|it| it.boundaries_len());
        assert_eq!(lens, [20_000, 20_000, 20_000 + 2 * few as usize]);
    }
}
