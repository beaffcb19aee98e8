//! Questions that views and sets in chunks have in common. None takes memory.

use crate::any_range::{AnyRange, Ended, Overlaps, Within};
use crate::chunked::{ChunkedRangeSet, Iter as ChunkedIter};
use crate::entry::{Length, RangeSetEntry};
use crate::fitting;
use crate::generated::range_collections::{Countable, FromPlace};
use crate::iter::Iter;
use crate::range::RangeSetRange;
use crate::view::RangeSetRef;

/// `$name` is the set of the examples.
#[rustfmt::skip]
macro_rules! questions {
    ($Set:ident, $Iter:ident, $name:literal) => {
        impl<T: Ord> $Set<T> {
            /// Returns `true` if `value` is a member.
            ///
            /// It makes *O*(log *n*) comparisons, where *n* is the number of boundaries.
            ///
            #[doc = example!(ends $name;
                "let set = " $name "::from(0..10);",
                "assert!(set.contains(&0));",
                "assert!(!set.contains(&10));",
            )]
            #[inline]
            #[must_use]
            pub fn contains(&self, value: &T) -> bool {
                self.proved().contains(value)
            }

            /// Returns `true` if all values are members.
            ///
            #[doc = example!(ends $name;
                "assert!(" $name "::from(0u8..).is_all());",
                "assert!(!" $name "::from(1u8..).is_all());",
            )]
            #[must_use]
            pub fn is_all(&self) -> bool
            where
                T: RangeSetEntry,
            {
                self.proved().is_all()
            }

            /// Returns `true` if every value of a range [of any kind](AnyRange) is a member. It is
            /// so for an empty or a reversed range.
            ///
            /// It makes *O*(log *n*) comparisons.
            ///
            #[doc = example!(ends $name;
                "let day = " $name "::from(9..17);",
                "assert!(day.contains_range(10..17));",
                "assert!(!day.contains_range(10..=17));",
                "assert!(!day.contains_range(16..));",
            )]
            #[inline]
            #[must_use]
            pub fn contains_range(&self, range: impl AnyRange<T>) -> bool {
                match range.into() {
                    RangeSetRange::Range(range) => self.proved().contains_range(range),
                    RangeSetRange::RangeFrom(range) => self.has_all_from(&range.start),
                }
            }

            /// Returns `true` if some value of a range [of any kind](AnyRange) is a member. An
            /// empty or a reversed range has none.
            ///
            /// It makes *O*(log *n*) comparisons.
            ///
            #[doc = example!(ends $name;
                "let day = " $name "::from(9..17);",
                "assert!(day.intersects_range(16..18));",
                "assert!(!day.intersects_range(17..));",
                "assert!(day.intersects_range(..=9));",
            )]
            #[inline]
            #[must_use]
            pub fn intersects_range(&self, range: impl AnyRange<T>) -> bool {
                match range.into() {
                    RangeSetRange::Range(range) => self.proved().intersects_range(range),
                    RangeSetRange::RangeFrom(range) => self.has_some_from(&range.start),
                }
            }

            /// Whether every value at or above `start` is a member.
            #[inline]
            pub(crate) fn has_all_from(&self, start: &T) -> bool {
                self.next_gap(start).is_none()
            }

            /// Whether some value at or above `start` is a member.
            #[inline]
            pub(crate) fn has_some_from(&self, start: &T) -> bool {
                self.next_member(start).is_some()
            }

            /// Returns the range that has `value`, or `None` if it is no member.
            ///
            /// It makes *O*(log *n*) comparisons.
            ///
            #[doc = example!(ends $name;
                "let busy = " $name "::from([9..11, 15..18]);",
                "assert_eq!(busy.range_at(&16), Some((&15..&18).into()));",
                "assert_eq!(busy.range_at(&11), None);",
            )]
            #[must_use]
            pub fn range_at(&self, value: &T) -> Option<RangeSetRange<&T>> {
                self.proved().range_at(value).map(RangeSetRange::from_proved)
            }

            /// Returns the lowest member at or above `from`, or `None` if there is none.
            ///
            /// It is `from` itself if that is a member, else the start of the next range. It makes
            /// *O*(log *n*) comparisons.
            ///
            #[doc = example!(ends $name;
                "let busy = " $name "::from([9..11, 15..18]);",
                "assert_eq!(busy.next_member(&10), Some(&10));",
                "assert_eq!(busy.next_member(&11), Some(&15));",
                "assert_eq!(busy.next_member(&18), None);",
            )]
            #[must_use]
            pub fn next_member<'a>(&'a self, from: &'a T) -> Option<&'a T> {
                self.proved().next_member(from)
            }

            /// Returns the lowest value at or above `from` that is no member, or `None` if there is
            /// none.
            ///
            /// It is `from` itself if that is no member, else the end of the range that has it. It
            /// makes *O*(log *n*) comparisons.
            ///
            /// # Examples
            ///
            /// The next byte of a download that is missing:
            ///
            #[doc = code!(ends $name;
                "let mut received = " $name "::from(0..10);",
                "received.insert(20..);",
                "assert_eq!(received.next_gap(&0), Some(&10));",
                "assert_eq!(received.next_gap(&15), Some(&15));",
                "assert_eq!(received.next_gap(&20), None);",
            )]
            #[must_use]
            pub fn next_gap<'a>(&'a self, from: &'a T) -> Option<&'a T> {
                self.proved().next_gap(from)
            }

            /// Returns the greatest member at or below `from`, or `None` if there is none.
            ///
            /// It is `from` itself if that is a member, else the value just below the end of the
            /// range before. It makes *O*(log *n*) comparisons.
            ///
            #[doc = example!(ends $name;
                "let busy = " $name "::from([9..11, 15..18]);",
                "assert_eq!(busy.prev_member(&9), Some(9));",
                "assert_eq!(busy.prev_member(&14), Some(10));",
                "assert_eq!(busy.prev_member(&8), None);",
            )]
            #[must_use]
            pub fn prev_member(&self, from: &T) -> Option<T>
            where
                T: FromPlace,
            {
                self.proved().prev_member(from)
            }

            /// Returns the greatest member, or `None` if the set is empty. It makes *O*(log *n*)
            /// comparisons.
            ///
            #[doc = example!(ends $name;
                "assert_eq!(" $name "::from([9u8..11, 15..18]).last_member(), Some(17));",
                "assert_eq!(" $name "::from(9u8..).last_member(), Some(255));",
            )]
            #[must_use]
            pub fn last_member(&self) -> Option<T>
            where
                T: FromPlace,
            {
                self.prev_member(&T::greatest())
            }

            /// Returns the greatest value at or below `from` that is no member, or `None` if there
            /// is none.
            ///
            /// It is `from` itself if that is no member, else the value just below the start of the
            /// range that has it. It makes *O*(log *n*) comparisons.
            ///
            #[doc = example!(ends $name;
                "let busy = " $name "::from([0u8..11, 15..18]);",
                "assert_eq!(busy.prev_gap(&16), Some(14));",
                "assert_eq!(busy.prev_gap(&18), Some(18));",
                "assert_eq!(busy.prev_gap(&10), None);",
            )]
            #[must_use]
            pub fn prev_gap(&self, from: &T) -> Option<T>
            where
                T: FromPlace,
            {
                self.proved().prev_gap(from)
            }

            /// Returns the lowest range, or `None` if the set is empty.
            ///
            #[doc = example!(ends $name;
                "let busy = " $name "::from([9..11, 15..18]);",
                "assert_eq!(busy.first(), Some((&9..&11).into()));",
            )]
            #[must_use]
            pub fn first(&self) -> Option<RangeSetRange<&T>> {
                self.proved().first().map(RangeSetRange::from_proved)
            }

            /// Returns the highest range, or `None` if the set is empty.
            ///
            #[doc = example!(ends $name;
                "let busy = " $name "::from([9..11, 15..18]);",
                "assert_eq!(busy.last(), Some((&15..&18).into()));",
            )]
            #[must_use]
            pub fn last(&self) -> Option<RangeSetRange<&T>> {
                self.proved().last().map(RangeSetRange::from_proved)
            }

            /// Returns the range from the start of the lowest range to the end of the highest, or
            /// `None` if the set is empty.
            ///
            #[doc = example!(ends $name;
                "let busy = " $name "::from([9..11, 15..18]);",
                "assert_eq!(busy.span(), Some((&9..&18).into()));",
            )]
            #[must_use]
            pub fn span(&self) -> Option<RangeSetRange<&T>> {
                self.proved().span().map(RangeSetRange::from_proved)
            }

            /// Returns an iterator over the parts of a range that aren't in the set, from the
            /// lowest on.
            ///
            /// None of them is empty. It makes *O*(log *n*) comparisons, and none for a step, if
            /// the ends are references. The range may be of any kind: [`Within`] says what its
            /// parts are.
            ///
            #[doc = example!(ends $name;
                "let busy = " $name "::from([9..11, 12..15]);",
                "assert!(busy.gaps(8..18).eq([8..9, 11..12, 15..18]));",
                "assert!(busy.gaps(12..).eq([(15..).into()]));",
                "",
                "let free: Vec<_> = busy.gaps(&8..&18).collect();",
                "assert_eq!(free, [&8..&9, &11..&12, &15..&18]);",
            )]
            pub fn gaps<'a, R: Within<'a, T, Self>>(&'a self, within: R) -> R::Parts {
                within.parts_of(self, false)
            }

            /// Returns an iterator over the parts of a range that are in the set, from the lowest
            /// on.
            ///
            /// None of them is empty. It makes *O*(log *n*) comparisons, and none for a step, if
            /// the ends are references. The range may be of any kind: [`Within`] says what its
            /// parts are. [`overlapping`](Self::overlapping) gives ranges that aren't cut.
            ///
            #[doc = example!(ends $name;
                "let busy = " $name "::from([9..11, 12..15]);",
                "assert!(busy.ranges_within(10..13).eq([10..11, 12..13]));",
            )]
            pub fn ranges_within<'a, R: Within<'a, T, Self>>(&'a self, within: R) -> R::Parts {
                within.parts_of(self, true)
            }

            /// Returns an iterator over the ranges of the set that share a value with a range [of
            /// any kind](Overlaps), from the lowest on. They aren't cut.
            ///
            /// It makes *O*(log *n*) comparisons, and none for a step.
            ///
            #[doc = example!(ends $name;
                "let busy = " $name "::from([9..11, 12..15, 20..30]);",
                "let met: Vec<_> = busy.overlapping(10..13).copied().collect();",
                "assert_eq!(met, [(9..11).into(), (12..15).into()]);",
            )]
            pub fn overlapping(&self, range: impl Overlaps<T>) -> $Iter<'_, T> {
                range.found(|range| match range {
                    RangeSetRange::Range(it) => $Iter::of_proved(self.proved().overlapping(it)),
                    RangeSetRange::RangeFrom(from) => self.overlapping_from(from.start),
                })
            }

            /// Returns how many values are members, or `None` if the set has no end. A set without
            /// an end has [`rank`](Self::rank) of the greatest value members, and that value.
            ///
            /// It looks at each boundary.
            ///
            #[doc = example!(ends $name;
                "assert_eq!(" $name "::from(['a'..'d', 'x'..'z']).covered(), Some(5));",
                "let open = " $name "::from(7u8..);",
                "assert_eq!(open.covered(), None);",
                "assert_eq!(open.rank(&u8::MAX) + 1, 249);",
            )]
            #[doc(alias = "count")]
            #[must_use]
            pub fn covered(&self) -> Option<u128>
            where
                T: Countable,
            {
                self.proved().covered()
            }

            /// Returns how many members are below `value`. The set may have no end.
            ///
            /// It takes time for each boundary below `value`.
            ///
            #[doc = example!(ends $name;
                "let set = " $name "::from([3..5, 9..12]);",
                "assert_eq!(set.rank(&4), 1);",
                "assert_eq!(set.rank(&12), 5);",
            )]
            #[must_use]
            pub fn rank(&self, value: &T) -> u128
            where
                T: Countable,
            {
                self.proved().rank(value)
            }

            /// Returns the member with `k` members below it, or `None` if there are no more than
            /// `k`.
            ///
            /// It takes time for each boundary up to the result.
            ///
            #[doc = example!(ends $name;
                "let set = " $name "::from([3u8..5, 9..12]);",
                "assert_eq!(set.select(2), Some(9));",
                "assert_eq!(set.select(5), None);",
            )]
            #[must_use]
            pub fn select(&self, k: u128) -> Option<T>
            where
                T: FromPlace,
            {
                self.proved().select(k)
            }

            /// Returns the least value of the range from which on `count` values of it are free,
            /// that is, not members, and which is a multiple of `align`.
            ///
            /// Multiples are counted from the number 0, in both directions, and from the first
            /// value of a type without numbers below it. It is `None` if there is none, or if
            /// `align` is 0. It takes time for each boundary up to the result.
            ///
            #[doc = example!(ends $name;
                "let used = " $name "::from([0u64..10, 80..128]);",
                "assert_eq!(used.first_fit_aligned(0..4096, 16, 16), Some(16));",
                "assert_eq!(used.first_fit_aligned(0..4096, 16, 0), None);",
                "",
                "let busy = " $name "::from(-40..-31);",
                "assert_eq!(busy.first_fit_aligned(-40..60, 30, 15), Some(-30));",
            )]
            #[must_use]
            pub fn first_fit_aligned(
                &self,
                within: impl Ended<T>,
                count: u128,
                align: u128,
            ) -> Option<T>
            where
                T: FromPlace,
            {
                self.proved().first_fit_aligned(within, count, align)
            }

            /// Returns the greatest value of the range from which on `len` values of it are free,
            /// that is, not members.
            ///
            /// It is `None` if there is no such stretch, and for a `len` of 0 the end of a range that
            /// isn't reversed. It takes time for each boundary down to the result.
            ///
            #[doc = example!(ends $name;
                "let used = " $name "::from([0u64..64, 80..128]);",
                "assert_eq!(used.last_fit(0..140, 10), Some(130));",
                "assert_eq!(used.last_fit(0..140, 16), Some(64));",
                "assert_eq!(used.last_fit(0..140, 20), None);",
            )]
            #[must_use]
            pub fn last_fit(&self, within: impl Ended<T>, len: T) -> Option<T>
            where
                T: Length + FromPlace,
            {
                fitting::last_fit(self, within, len)
            }

            /// Returns the least value of the range from which on `count` values of it are members:
            /// where they fit, in a set of what is free.
            ///
            /// It is `None` if there are no such values, and for a `count` of 0 the start of a
            /// range that isn't reversed. It takes time for each boundary up to the result.
            ///
            #[doc = example!(ends $name;
                "let free = " $name "::from([0u64..10, 80..128]);",
                "assert_eq!(free.first_run(0..4096, 16), Some(80));",
                "assert_eq!(free.first_run(0..4096, 49), None);",
            )]
            #[must_use]
            pub fn first_run(&self, within: impl Ended<T>, count: u128) -> Option<T>
            where
                T: Countable + Copy,
            {
                self.proved().first_run(within, count)
            }
        }
    };
}

questions!(RangeSetRef, Iter, "RangeSet2");
questions!(ChunkedRangeSet, ChunkedIter, "ChunkedRangeSet");
