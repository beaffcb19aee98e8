//! Rows worked out by hand, beside those of the tables.

use range_sets::range_set::{RangeSetEntry, RangeSetRange};
use range_sets::tracker::{ChunkedTracker, TrackError, Tracker};
use range_sets::{fallible, RangeSet, RangeSet2, RangeSetRef};
use smallvec::smallvec;
use std::num::NonZeroU8;
use std::ops::{Bound, RangeBounds};

fn i64s(boundaries: &[i64]) -> RangeSet2<i64> {
    RangeSet::new(boundaries.iter().copied().collect()).expect("they are sorted")
}

#[test]
fn a_set_is_extended_by_another() {
    let mut set = i64s(&[0, 10]);
    set.extend(i64s(&[5, 15]));
    assert_eq!(set.boundaries(), [0, 15]);
}

#[test]
fn a_single_boundary() {
    let seven = RangeSetRef::single(&7);
    assert!(!seven.contains(&6) && seven.contains(&7));
}

#[test]
fn fallible_sets_change_as_others_do() {
    let mut set = fallible::RangeSet2::<i64>::try_from(0..10).unwrap();
    set.union_with(RangeSetRef::single(&20)).unwrap();
    assert_eq!(set.boundaries(), [0, 10, 20]);
}

/// A number with a name that its order doesn't look at.
#[derive(Clone, Debug)]
struct Named(u8, char);

impl PartialEq for Named {
    fn eq(&self, other: &Self) -> bool {
        self.0 == other.0
    }
}

impl Eq for Named {}

impl PartialOrd for Named {
    fn partial_cmp(&self, other: &Self) -> Option<std::cmp::Ordering> {
        Some(self.cmp(other))
    }
}

impl Ord for Named {
    fn cmp(&self, other: &Self) -> std::cmp::Ordering {
        self.0.cmp(&other.0)
    }
}

#[test]
fn of_two_equal_boundaries_the_sets_own_stays() {
    let names = |set: &RangeSetRef<Named>| {
        set.boundaries()
            .iter()
            .map(|it| (it.0, it.1))
            .collect::<Vec<_>>()
    };
    let left: RangeSet2<Named> = (Named(1, 'a')..Named(5, 'a')).into();
    let right: RangeSet2<Named> = (Named(1, 'b')..Named(9, 'b')).into();
    let expected = [(1, 'a'), (9, 'b')];
    assert_eq!(names(&(&left | &right)), expected);
    let mut with = left.clone();
    with.union_with(&right);
    assert_eq!(names(&with), expected);
    let mut assigned = left;
    assigned |= right;
    assert_eq!(names(&assigned), expected);
    assigned.insert(Named(1, 'c')..Named(9, 'c'));
    assert_eq!(names(&assigned), expected);
    assigned.remove(Named(4, 'd')..Named(9, 'd'));
    assert_eq!(names(&assigned), [(1, 'a'), (4, 'd')]);

    let first: RangeSet2<Named> =
        RangeSet::from_unsorted([Named(5, 'a'), Named(1, 'a'), Named(5, 'b')]);
    assert_eq!(names(&first), [(1, 'a'), (5, 'a')]);
    let many = (0..90).map(|i| Named(29 - i % 30, ['a', 'b', 'c'][usize::from(i / 30)]));
    let firsts: Vec<_> = (0..30).map(|i| (i, 'a')).collect();
    let first: RangeSet2<Named> = RangeSet::from_unsorted(many.clone());
    assert_eq!(names(&first), firsts);
    let first = fallible::RangeSet2::<Named>::from_unsorted(many).unwrap();
    assert_eq!(names(&first), firsts);
}

#[test]
fn non_zero_numbers() {
    let one = NonZeroU8::new(1).unwrap();
    let all = RangeSet2::<NonZeroU8>::all();
    assert_eq!(all.boundaries(), [one]);
    assert!((!all).is_empty());
    assert!(RangeSet2::from(..one).is_empty());
}

#[test]
fn unsorted_boundaries_are_none() {
    assert!(RangeSet2::<i64>::new(smallvec![3, 3]).is_none());
    assert!(RangeSet2::<i64>::new(smallvec![3, 2]).is_none());
    assert!(RangeSet2::<i64>::new(smallvec![]).unwrap().is_empty());
    assert!(RangeSetRef::new(&[3, 3]).is_none() && RangeSetRef::new(&[3, 2]).is_none());
    assert!(fallible::RangeSet2::<i64>::new(smallvec![3, 2]).is_none());
}

#[test]
fn everything_and_nothing() {
    for all in [
        RangeSet2::<u8>::all(),
        RangeSet::from(..),
        RangeSet::from(true),
    ] {
        assert_eq!(all.boundaries(), [0]);
        assert!(all.is_all());
    }
    assert!(RangeSet2::<u8>::from(false).boundaries().is_empty());
    for all in [
        fallible::RangeSet2::<u8>::all(),
        fallible::RangeSet::try_from(..),
        fallible::RangeSet::try_from(true),
    ] {
        assert_eq!(all.unwrap().boundaries(), [0]);
    }
    let nothing = fallible::RangeSet2::<u8>::try_from(false).unwrap();
    assert!(nothing.boundaries().is_empty());
    assert!(!RangeSetRef::new(&[0u8, 5]).unwrap().is_all());
    assert!(!RangeSetRef::<u8>::empty().is_all());
}

#[test]
fn the_ranges_of_a_set() {
    let set = i64s(&[0, 2, 4]);
    let mut ranges = set.iter();
    let (first, second) = (
        ranges.next().unwrap().cloned(),
        ranges.next().unwrap().cloned(),
    );
    assert!(ranges.next().is_none() && ranges.next().is_none());
    assert_eq!(
        (&first, &second),
        (&RangeSetRange::Range(0..2), &RangeSetRange::RangeFrom(4..))
    );
    assert_eq!(first.clone(), first);
    assert_eq!(
        (first.start_bound(), first.end_bound()),
        (Bound::Included(&0), Bound::Excluded(&2))
    );
    assert_eq!(
        (second.start_bound(), second.end_bound()),
        (Bound::Included(&4), Bound::Unbounded)
    );
    assert_eq!(RangeSet2::from(first).boundaries(), [0, 2]);
    assert_eq!(RangeSet2::from(second).boundaries(), [4]);
}

#[test]
fn copies_are_equal() {
    let set = i64s(&[0, 10]);
    assert_eq!(set.clone(), set);
    assert_eq!(set.clone().into_inner().as_slice(), [0, 10]);
    assert!(set != i64s(&[0, 11]));
}

#[test]
fn views_become_sets() {
    let texts = ["a", "ab", "b"].map(String::from);
    let rows: [&[String]; 4] = [&[], &texts[..1], &texts[..2], &texts];
    for row in rows {
        let view = RangeSetRef::new(row).unwrap();
        assert_eq!(view.to_owned().boundaries(), row);
        assert_eq!(RangeSet::<[String; 1]>::from(view).boundaries(), row);
        assert_eq!(RangeSet::<[String; 8]>::from(view).boundaries(), row);
    }
}

#[test]
fn least_values() {
    assert_eq!(String::min_value(), "");
    assert_eq!(Vec::<u8>::min_value(), []);
    assert_eq!(RangeSet2::<&str>::all().boundaries(), [""]);
    let texts = RangeSetRef::new(&["b", "d"]).unwrap();
    assert!(texts.contains(&"c") && !texts.contains(&"d"));
    assert_eq!(fallible::EntryClone::entry_clone(&Some(3u8)), Ok(Some(3)));
}

#[test]
fn the_default_view_is_empty() {
    assert!(<&RangeSetRef<i64>>::default().is_empty());
}

#[test]
fn a_tracker_under_a_limit() {
    let mut tracker = Tracker::new(4);
    assert_eq!(tracker.record(0..10), Ok(()));
    assert_eq!(tracker.record(20..30), Ok(()));
    assert_eq!(
        tracker.record(40..50),
        Err(TrackError::TooMany { boundaries: 6 })
    );
    assert_eq!(tracker.record(10..20), Ok(()));
    assert_eq!(format!("{tracker:?}"), "{0..30}");
    assert_eq!(tracker.forget(5..6), Ok(()));
    assert_eq!(
        tracker.forget(10..12),
        Err(TrackError::TooMany { boundaries: 6 })
    );
    assert_eq!(
        [0..5, 4..7, 7..7].map(|range| tracker.has(range)),
        [true, false, true]
    );
    assert_eq!(tracker.missing(40).unwrap().boundaries(), [5, 6, 30, 40]);
    assert!(tracker.missing(0).unwrap().is_empty());
    assert_eq!(tracker.covered(), 29);
}

#[cfg(panic = "unwind")]
#[test]
fn a_tracker_refuses_what_its_page_says() {
    assert!(std::panic::catch_unwind(|| Tracker::new(usize::MAX - 1)).is_err());
    assert!(std::panic::catch_unwind(|| Tracker::new(4).run(&[], &mut [Ok(())])).is_err());
    assert!(std::panic::catch_unwind(|| ChunkedTracker::new(usize::MAX - 1)).is_err());
    let mut chunked = ChunkedTracker::new(4).unwrap();
    assert!(std::panic::catch_unwind(move || chunked.run(&[], &mut [Ok(())])).is_err());
}
