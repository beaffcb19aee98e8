//! Calls that read a set in chunks, or make another of it.

use super::with_view;
use crate::element::Hostile;
use range_sets::{fallible, ChunkedRangeSet, RangeSet2};
use std::ops::Range;

/// A call on a set, with its name.
type Call = (
    &'static str,
    fn(&mut ChunkedRangeSet<Hostile>, Range<Hostile>),
);

pub const QUESTIONS: [Call; 9] = [
    ("questions of a value", |set, range| {
        let _ = (set.contains(&range.start), set.is_empty());
        let _ = (set.next_member(&range.start), set.next_gap(&range.end));
    }),
    ("contains_range", |set, range| {
        let _ = set.contains_range(range);
    }),
    ("overlapping", |set, range| {
        let _ = set.overlapping(&range.start..&range.end).count();
        let _ = set.overlapping(&range.start..).rev().count();
    }),
    ("intersects_range", |set, range| {
        let _ = set.intersects_range(range);
    }),
    ("parts of a range", |set, range| {
        let _ = set.gaps(&range.start..&range.end).count();
        let _ = set.ranges_within(&range.start..&range.end).count();
        let _ = set.gaps(range.clone()).take(9).count();
        let _ = set.ranges_within(range.start..).take(9).count();
    }),
    ("copies", |set, _| {
        let _ = (
            set.clone(),
            fallible::ChunkedRangeSet::from(set.clone()).try_clone(),
        );
    }),
    ("a comparison of sets", |set, _| {
        let same = &*set;
        let _ = (same == &*set, same.cmp(set));
    }),
    ("new sets of both", |set, range| {
        let set = &*set;
        with_view(range, |that| {
            drop((set | that, set & that, set - that, set ^ that))
        });
    }),
    ("new sets of most boundaries", |set, _| {
        let (set, that) = (&*set, RangeSet2::from(&*set));
        drop((set | &that, set - &that));
    }),
];
