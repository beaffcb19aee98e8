//! What takes no memory, and what takes no more than it needs.

use crate::refusing::{refusing, unrefused, Refusal, LARGEST};
use crate::{sides, Element};
use range_sets::fallible::{AllocError, RangeSet, RangeSet2};
use range_sets::{Connective, RangeSetEntry};
use std::cell::Cell;
use std::cmp::Reverse;
use std::fmt::Debug;
use std::io::Write;

#[test]
fn questions_take_no_memory() {
    let (a, b) = sides::<String>(40, 40);
    let (x, y) = (String::of(7), String::of(90));
    let (_, refused) = refusing(Refusal::From(0), || {
        let _ = (
            a.contains(&x),
            a.is_all(),
            a.is_empty(),
            a.range_at(&x),
            a.first(),
            a.last(),
            a.span(),
        );
        let _ = (
            a.is_subset(&b),
            a.is_superset(&b),
            a.is_disjoint(&b),
            a.intersects(&b),
            a == b,
        );
        let _ = (
            a.gaps(&x..&y).count(),
            a.ranges_within(&x..&y).count(),
            a.iter().rev().count(),
            a.gaps(&x..).count(),
            a.ranges_within(..=&y).count(),
            a.overlapping(&x..&y).count(),
        );
        let _ = (
            a.merge_len(&b, Connective::SYMMETRIC_DIFFERENCE),
            a.cmp(&b),
            a.ranges_len(),
        );
    });
    assert_eq!(refused, 0);
    let numbers = sides::<u64>(40, 40);
    let mut out = [0; 80];
    let (_, refused) = refusing(Refusal::From(0), || {
        numbers
            .0
            .merge_into(&numbers.1, Connective::UNION, &mut out)
    });
    assert_eq!(refused, 0);
    let (_, refused) = refusing(Refusal::From(0), || {
        (numbers.0.covered(), numbers.0.first_fit(0..90, 2))
    });
    assert_eq!(refused, 0);
    let (_, refused) = refusing(Refusal::From(0), || {
        write!(std::io::sink(), "{:>900}", numbers.0).unwrap();
    });
    assert_eq!(refused, 0);
}

#[test]
fn what_takes_whole_ranges_out_takes_no_memory() {
    let mut set = sides::<u64>(40, 0).0;
    let (_, refused) = refusing(Refusal::From(0), || {
        set.retain(|range| **range.start() % 2 == 0);
        let _ = (set.pop_first(), set.pop_last());
        set.shrink_to_fit();
        set.clear();
    });
    assert_eq!((refused, set.is_empty()), (0, true));
    let mut set = RangeSet2::<u64>::with_capacity(9).unwrap();
    let (inserted, refused) = refusing(Refusal::From(0), || {
        set.insert(5..9)?;
        set.insert(20..)?;
        set.insert(10..=12)
    });
    assert_eq!((inserted, refused), (Ok(()), 0));
}

#[test]
fn a_copy_that_fits_into_the_set_takes_no_memory() {
    let set = RangeSet2::<u64>::try_from(5..9).unwrap();
    assert!(refusing(Refusal::From(0), || set.try_clone()).0.is_ok());
}

/// The set has room for both, and numbers are cloned as they are taken.
fn no_copy_before_a_change<T: RangeSetEntry + Debug + Clone + From<u8>>() {
    let range = |start: u8, end: u8| T::from(start)..T::from(end);
    let numbers = |all: &[u8]| -> Vec<T> { all.iter().map(|&it| T::from(it)).collect() };
    let mut set: range_sets::RangeSet<[T; 4]> = range(5, 9).into();
    let other: range_sets::RangeSet2<T> = range(7, 12).into();
    let ((), refused) = refusing(Refusal::From(0), || set.union_with(&other));
    assert_eq!((set.boundaries(), refused), (&numbers(&[5, 12])[..], 0));
    let mut set: range_sets::RangeSet2<T> = range(5, 9).into();
    let ((), _) = refusing(Refusal::From(1), || set.union_with(&other));
    assert_eq!(set.boundaries(), numbers(&[5, 12]));
    let other: range_sets::RangeSet2<T> = [range(1, 2), range(7, 12)].into_iter().collect();
    let ((), _) = refusing(Refusal::From(1), || set.union_with(&other));
    assert_eq!(set.boundaries(), numbers(&[1, 2, 5, 12]));
}

/// Short ones go into a new list, and long ones where the set lies.
#[test]
fn a_number_needs_no_copy_before_a_change() {
    no_copy_before_a_change::<u64>();
    no_copy_before_a_change::<u128>();
}

/// The other side is owned. Where both are a few and the set has room, no memory is asked for.
#[test]
fn a_few_numbers_move_in_room_that_is_there() {
    let ranges = |first: u64| (0..5).map(move |i| 10 * i + first..10 * i + first + 2);
    let mut set: range_sets::RangeSet2<u64> = ranges(0).collect();
    let other: range_sets::RangeSet2<u64> = ranges(5).collect();
    set.reserve(10);
    let room = set.capacity();
    let ((), refused) = refusing(Refusal::From(0), || set |= other);
    assert_eq!(
        (set.boundaries().len(), set.capacity(), refused),
        (20, room, 0)
    );
    let ((), refused) = refusing(Refusal::From(0), || set.remove(40..));
    assert_eq!(
        (set.boundaries().len(), set.capacity(), refused),
        (16, room, 0)
    );
    // Without memory for copies, many move too.
    let mut many: range_sets::RangeSet2<u64> = (0..50).flat_map(|i| ranges(100 * i)).collect();
    let other: range_sets::RangeSet2<u64> = (0..50).flat_map(|i| ranges(100 * i + 5)).collect();
    many.reserve(500);
    let ((), refused) = refusing(Refusal::From(0), || many |= other);
    assert_eq!((many.boundaries().len(), refused), (1000, 1));
}

/// What was reserved stays, whatever changes the set before it is used.
#[test]
fn room_that_was_reserved_is_there_after_a_change() {
    type Call = fn(&mut RangeSet2<u64>, &RangeSet2<u64>) -> Result<(), AllocError>;
    type OwnedCall =
        fn(&mut RangeSet2<u64>, RangeSet2<u64>) -> Result<(), (AllocError, RangeSet2<u64>)>;
    let owned = |call: OwnedCall, set: &mut RangeSet2<u64>, that: &RangeSet2<u64>| {
        let that = unrefused(|| that.try_clone()).unwrap();
        call(set, that).map_err(|(refused, _)| refused)
    };
    let borrowed: [(&str, Call); 4] = [
        ("union_with", |a, b| a.union_with(b)),
        ("intersection_with", |a, b| a.intersection_with(b)),
        ("difference_with", |a, b| a.difference_with(b)),
        ("symmetric_difference_with", |a, b| {
            a.symmetric_difference_with(b)
        }),
    ];
    let by_owned: [(&str, OwnedCall); 4] = [
        ("bitor_assign", RangeSet::bitor_assign),
        ("bitand_assign", RangeSet::bitand_assign),
        ("sub_assign", RangeSet::sub_assign),
        ("bitxor_assign", RangeSet::bitxor_assign),
    ];
    // The change finds memory, or none.
    for memory in [Refusal::Nothing, Refusal::From(0)] {
        let inserts = |name: &str, change: &dyn Fn(&mut RangeSet2<u64>, &RangeSet2<u64>)| {
            let (mut set, that) = sides::<u64>(40, 40);
            set.reserve(1000).unwrap();
            let room = set.capacity();
            refusing(memory, || change(&mut set, &that));
            assert_eq!(set.capacity(), room, "{name} {memory:?}");
            let (inserted, refused) = refusing(Refusal::From(0), || {
                (0..200).try_for_each(|i| set.insert(1000 + 3 * i..1001 + 3 * i))
            });
            assert_eq!((inserted, refused), (Ok(()), 0), "{name} {memory:?}");
            assert!(set.boundaries().len() >= 400, "{name}");
        };
        for (name, call) in borrowed {
            inserts(name, &|set, that| assert_eq!(call(set, that), Ok(())));
        }
        for (name, call) in by_owned {
            inserts(name, &|set, that| {
                assert_eq!(owned(call, set, that), Ok(()))
            });
        }
    }
}

/// A list that grows by one boundary at a time doubles its room.
#[test]
fn a_list_that_grows_asks_seldom() {
    let (set, _) = refusing(Refusal::From(20), || {
        RangeSet2::<u64>::from_unsorted(0..1000)
    });
    assert_eq!(set.unwrap().boundaries().len(), 1000);
}

/// Boundaries are sorted themselves. A list of their places would have eight bytes for each of one
/// byte.
#[test]
fn unsorted_boundaries_are_sorted_where_they_lie() {
    const BYTES: usize = 10_000;
    fn largest<T: Ord + Clone>(make: impl Fn() -> range_sets::RangeSet2<T>) -> usize {
        LARGEST.with(|largest| largest.set(0));
        let set = make();
        assert_eq!(set.boundaries().len(), 256);
        LARGEST.with(Cell::get)
    }
    let numbers = || (0..BYTES).map(|i| (7 * i % 256) as u8);
    assert!(largest(|| range_sets::RangeSet::from_unsorted(numbers())) <= 2 * BYTES);
    // Numbers are sorted so in any case, and other elements by std.
    let others = || range_sets::RangeSet::from_unsorted(numbers().map(Reverse));
    assert!(largest(others) <= 2 * BYTES);
    #[cfg(feature = "serde")]
    {
        let text = serde_json::to_string(&numbers().collect::<Vec<_>>()).unwrap();
        assert!(largest::<u8>(|| serde_json::from_str(&text).unwrap()) <= 2 * BYTES);
    }
}
