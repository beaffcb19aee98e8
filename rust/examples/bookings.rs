//! Bookings of a room, a floor plan and a version table: a program written for range-collections
//! 0.4.6.
//!
//! Only its `use` lines were changed, from `range_collections::` to `range_sets::`.

use range_sets::range_set::{Iter, RangeSetEntry, RangeSetRange};
use range_sets::{RangeSet, RangeSet2, RangeSetRef};

use smallvec::{smallvec, SmallVec};
use std::borrow::Borrow;
use std::num::NonZeroU8;
use std::ops::{Bound, Deref, RangeBounds};

/// A time of the day. It has neither a default nor a text.
#[derive(Clone, PartialEq, Eq, PartialOrd, Ord)]
struct Time {
    hour: u8,
    minute: u8,
}

impl RangeSetEntry for Time {
    fn min_value() -> Self {
        Time { hour: 0, minute: 0 }
    }

    fn is_min_value(&self) -> bool {
        self.hour == 0 && self.minute == 0
    }
}

fn at(hour: u8, minute: u8) -> Time {
    Time { hour, minute }
}

type Bookings = RangeSet<[Time; 4]>;

/// Whether a meeting fits, asked of a set or of a view.
fn is_free<S: Borrow<RangeSetRef<Time>>>(booked: S, from: Time, to: Time) -> bool {
    let wanted: Bookings = RangeSet::from(from..to);
    booked.borrow().is_disjoint(&wanted)
}

/// How many ranges end, and how many don't.
fn kinds<T>(ranges: Iter<T>) -> (usize, usize) {
    let mut counts = (0, 0);
    for range in ranges {
        match range {
            RangeSetRange::Range(_) => counts.0 += 1,
            RangeSetRange::RangeFrom(_) => counts.1 += 1,
        }
    }
    counts
}

/// A day's bookings, changed by every assigning operator.
fn bookings() {
    let mut booked: Bookings = RangeSet::from(at(9, 0)..at(10, 30));
    booked |= RangeSet::from(at(13, 0)..at(14, 0));
    booked |= RangeSet::from(at(20, 0)..);
    assert!(is_free(booked.clone(), at(10, 30), at(13, 0)));
    assert!(!is_free(booked.deref(), at(10, 0), at(11, 0)));
    assert_eq!(kinds(booked.iter()), (2, 1));

    booked &= RangeSet::from(at(9, 30)..);
    booked -= RangeSet::from(at(22, 0)..);
    booked ^= RangeSet::from(at(13, 30)..at(15, 0));
    assert!(booked.contains(&at(9, 30)));
    assert!(!booked.contains(&at(13, 45)));
    assert!(booked.contains(&at(14, 30)));

    let free = !booked.clone();
    assert!((&free | &booked).is_all());
    assert!((&free & &booked).is_empty());
    assert!(!&free == booked);
}

/// Floors that a lift serves.
fn floors() {
    let floor = |n| NonZeroU8::new(n).unwrap();
    let mut served: RangeSet2<NonZeroU8> = RangeSet::from(floor(3)..floor(8));
    served |= RangeSet::from(..floor(2));
    assert!(served.contains(&floor(1)));
    served.union_with(RangeSetRef::single(&floor(12)));
    assert_eq!(served.boundaries(), [1, 2, 3, 8, 12].map(floor));
    served.difference_with(&RangeSet2::from(floor(5)..floor(6)));
    served.intersection_with(&RangeSet2::from(..floor(20)));
    served.symmetric_difference_with(&RangeSet2::from(true));
    assert_eq!(format!("{served:?}"), "RangeSet{2..3, 5..6, 8..12, 20..}");
    assert_eq!(!RangeSet2::<NonZeroU8>::from(false), RangeSet2::all());
}

/// Lines of a file, with results of another inline size than the operands'.
fn lines() {
    let seen: RangeSet<[i64; 4]> = RangeSet::new(smallvec![1, 10, 20, 30]).unwrap();
    let more: RangeSet2<i64> = RangeSet::from(25..);
    let all = seen.union::<[i64; 8]>(&more);
    let boundaries: SmallVec<[i64; 8]> = all.clone().into_inner();
    assert_eq!(boundaries.as_slice(), [1, 10, 20]);
    assert_eq!(
        seen.intersection::<[i64; 2]>(&more),
        RangeSet2::from(25..30)
    );
    assert_eq!(
        seen.difference::<[i64; 4]>(&more).boundaries(),
        [1, 10, 20, 25]
    );
    assert_eq!(
        seen.symmetric_difference::<[i64; 4]>(&more).boundaries(),
        [1, 10, 20, 25, 30]
    );

    let view: &RangeSetRef<i64> = RangeSetRef::new(&[1, 10, 20]).unwrap();
    assert!(all.deref() == view);
    assert!(view == &*all);
    assert!(RangeSetRef::new(&[3, 3]).is_none());
    let (before, after) = view.split(10);
    assert_eq!(
        (before.boundaries(), after.boundaries()),
        (&[1][..], &[20][..])
    );
    assert!(view.is_superset(&seen) && seen.is_subset(view) && view.intersects(&more));
    assert!(before < view && <&RangeSetRef<i64>>::default() == RangeSetRef::empty());
}

/// Ranges taken apart and put together again.
fn parts() {
    let names: RangeSet2<String> = RangeSet::from("f".to_string().."m".to_string());
    let ranges: Vec<RangeSetRange<String>> = names.iter().map(|range| range.cloned()).collect();
    assert_eq!(ranges[0].start_bound(), Bound::Included(&"f".to_string()));
    assert!(ranges[0].contains(&"hello".to_string()));
    let mut together: RangeSet2<String> = Default::default();
    for range in ranges {
        together |= RangeSet::from(range);
    }
    assert_eq!(together, names);
    assert!(RangeSet2::<Option<u8>>::from(..).contains(&None));
    assert!(RangeSet2::from("a".."c").contains(&"b"));
}

/// Sets written and read.
fn written() -> Result<(), serde_json::Error> {
    let set: RangeSet<[u32; 4]> = RangeSet::from(7..9) ^ RangeSet::from(20..);
    let text = serde_json::to_string(&set)?;
    assert_eq!(text, "[7,9,20]");
    let read: RangeSet<[u32; 4]> = serde_json::from_str(&text)?;
    assert_eq!(read, set);
    assert!(serde_json::from_str::<RangeSet2<u32>>("[1, true]").is_err());
    println!("{:?} is written as {}", read, text);
    Ok(())
}

fn main() -> Result<(), serde_json::Error> {
    bookings();
    floors();
    lines();
    parts();
    written()
}
