//! The calls of both trackers, and the traits of std that they implement.

use super::{ended, ChunkedTracker, Command, TrackError, Tracker};
use crate::any_range::{AnyRange, Within};
use crate::chunked::{self, ChunkedRangeSet};
use crate::iter;
use crate::memory::{expect_memory, AllocError};
use crate::range::RangeSetRange;
use crate::range_set::{RangeSet2, RangeSetRef};
use crate::text::{padded, Ranges};
use core::fmt;

/// `$ok` ends the call of `new` in an example, and `$fails` in code. `$Set` is the set of what is
/// missing, `$There` has the gaps, and `$iter` the iterator over ranges.
macro_rules! calls {
    (
        $Tracker:ident, $name:literal, $ok:literal, [$($fails:tt)?],
        $Set:ident, $There:ty, $iter:ident
    ) => {
        impl $Tracker {
            /// Returns a tracker that has the members of a set as its offsets, by one
            /// [`record`](Self::record) for each range.
            ///
            /// # Errors
            ///
            /// If the tracker would keep more boundaries than the limit, or if memory runs out.
            ///
            /// # Panics
            ///
            /// Panics if the limit is more than `usize::MAX - 2`.
            ///
            /// # Examples
            ///
            /// ```
            #[doc = concat!("use range_sets::tracker::{", $name, ", TrackError};")]
            #[doc = concat!("use range_sets::{", stringify!($Set), ", RangeSetRef};")]
            ///
            /// let view = RangeSetRef::new(&[0, 10, 20, 30]).unwrap();
            #[doc = concat!("let file = ", $name, "::from_set(4, view)?;")]
            #[doc = concat!("assert_eq!(", stringify!($Set), "::from(file).to_string(), \"0..10, 20..30\");")]
            #[doc = concat!("let refused = ", $name, "::from_set(2, view).unwrap_err();")]
            /// assert_eq!(refused, TrackError::TooMany { boundaries: 4 });
            /// # Ok::<(), TrackError>(())
            /// ```
            pub fn from_set(limit: usize, set: &RangeSetRef<u64>) -> Result<Self, TrackError> {
                let mut tracker = Self::new(limit)$($fails)?;
                for range in set.iter() {
                    tracker.record(range.copied())?;
                }
                Ok(tracker)
            }

            /// Returns the limit: how many boundaries the tracker keeps at most.
            ///
            #[doc = example!(tracks $ok $name;
                "let file = " $name "::new(64)"?
                "assert_eq!(file.limit(), 64);",
            )]
            #[must_use]
            pub fn limit(&self) -> usize {
                self.0.limit
            }

            /// Records that no offset is there. It is a [`forget`](Self::forget) of all, which
            /// needs no memory.
            ///
            #[doc = example!(tracks $ok $name;
                "let mut file = " $name "::new(4)"?
                "file.record(0..10)?;",
                "file.clear();",
                "assert_eq!((file.covered(), file.limit()), (0, 4));",
            )]
            pub fn clear(&mut self) {
                let forgotten = self.forget(..);
                debug_assert!(
                    forgotten.is_ok(),
                    "a list that becomes empty fits and takes no memory"
                );
            }

            /// Returns a copy of the tracker, with the same limit. `clone` does the same, and ends
            /// the process if memory runs out.
            ///
            /// # Errors
            ///
            /// If memory runs out.
            ///
            #[doc = example!(tracks $ok $name;
                "let mut file = " $name "::new(4)"?
                "file.record(0..10)?;",
                "let before = file.try_clone()?;",
                "file.record(20..30)?;",
                "assert_eq!((before.covered(), file.covered()), (10, 20));",
            )]
            pub fn try_clone(&self) -> Result<Self, AllocError> {
                self.copied()
            }

            /// Records that the offsets of a range [of any kind](AnyRange) are there. An empty or a
            /// reversed range changes nothing.
            ///
            /// # Errors
            ///
            /// If the tracker would keep more boundaries than the limit, or if memory runs out. It
            /// is then as it was.
            ///
            #[doc = example!(tracks $ok "{" $name ", TrackError}";
                "let mut file = " $name "::new(2)"?
                "file.record(5..10)?;",
                "file.record(10..=19)?;",
                "assert_eq!(file.record(21..30), Err(TrackError::TooMany { boundaries: 4 }));",
            )]
            pub fn record(&mut self, range: impl AnyRange<u64>) -> Result<(), TrackError> {
                self.0.record(ended(range))
            }

            /// Records that the offsets of a range [of any kind](AnyRange) aren't there. An empty
            /// or a reversed range changes nothing.
            ///
            /// # Errors
            ///
            /// If the tracker would keep more boundaries than the limit, or if memory runs out. It
            /// is then as it was.
            ///
            #[doc = example!(tracks $ok $name;
                "let mut file = " $name "::new(4)"?
                "file.record(0..10)?;",
                "file.forget(4..6)?;",
                "assert!(!file.has(0..10));",
            )]
            pub fn forget(&mut self, range: impl AnyRange<u64>) -> Result<(), TrackError> {
                self.0.forget(ended(range))
            }

            /// Takes each command in turn, goes on after a refusal, and puts each answer at its
            /// command's place.
            ///
            /// # Panics
            ///
            /// Panics if the slices have different lengths.
            ///
            #[doc = example!(tracks $ok "{" $name ", Command, TrackError}";
                "let mut file = " $name "::new(2)"?
                "let mut replies = [Ok(()); 2];",
                "file.run(&[Command::Add(0..10), Command::Forget(4..6)], &mut replies);",
                "assert_eq!(replies, [Ok(()), Err(TrackError::TooMany { boundaries: 4 })]);",
            )]
            pub fn run(&mut self, commands: &[Command], replies: &mut [Result<(), TrackError>]) {
                assert_eq!(
                    commands.len(),
                    replies.len(),
                    "each command has a place for its reply"
                );
                self.0.run(commands, replies);
            }

            /// Returns `true` if every offset of the range is there. It is so for an empty or a
            /// reversed range.
            ///
            #[doc = example!(tracks $ok $name;
                "let file = " $name "::new(4)"?
                "assert!(!file.has(0..1));",
                "assert!(file.has(7..7));",
            )]
            #[must_use]
            pub fn has(&self, range: impl AnyRange<u64>) -> bool {
                self.0.has(ended(range))
            }

            /// Returns the set of the offsets below `len` that aren't there. [`gaps`](Self::gaps)
            /// takes no memory.
            ///
            /// # Errors
            ///
            /// If memory runs out.
            ///
            #[doc = example!(tracks $ok $name;
                "let mut file = " $name "::new(4)"?
                "file.record(5..10)?;",
                r#"assert_eq!(file.missing(20)?.to_string(), "0..5, 10..20");"#,
            )]
            pub fn missing(&self, len: u64) -> Result<$Set<u64>, AllocError> {
                self.missing_below(len)
            }

            /// Returns an iterator over the parts of a range [of any kind](Within) that aren't
            /// there, from the lowest on. It takes no memory.
            ///
            #[doc = example!(tracks $ok $name;
                "let mut file = " $name "::new(4)"?
                "file.record(5..10)?;",
                "assert_eq!(file.gaps(&0..&20).next(), Some(&0..&5));",
            )]
            pub fn gaps<'a, R: Within<'a, u64, $There>>(&'a self, within: R) -> R::Parts {
                within.parts_of(self.there(), false)
            }

            /// Returns an iterator over the ranges of the offsets that are there, from the lowest
            /// on. Each has an end.
            ///
            #[doc = example!(tracks $ok $name;
                "let mut file = " $name "::new(4)"?
                "file.record(5..10)?;",
                "assert_eq!(file.ranges().next().unwrap().cloned(), (5..10).into());",
            )]
            pub fn ranges(&self) -> $iter::Iter<'_, u64> {
                $iter::Iter::of_proved(self.0.ranges())
            }

            /// Returns how many offsets are there.
            ///
            /// # Panics
            ///
            /// Never: what is there has an end, which is proved.
            ///
            #[doc = example!(tracks $ok $name;
                "let mut file = " $name "::new(4)"?
                "file.record(5..10)?;",
                "assert_eq!(file.covered(), 5);",
            )]
            #[must_use]
            pub fn covered(&self) -> u128 {
                self.0
                    .covered()
                    .expect("no command makes a range without an end")
            }
        }

        impl Clone for $Tracker {
            fn clone(&self) -> Self {
                expect_memory::<u64, _, _>(self.try_clone())
            }
        }

        /// Two trackers are equal if the same offsets are there, and the limits are equal.
        impl PartialEq for $Tracker {
            fn eq(&self, that: &Self) -> bool {
                self.limit() == that.limit() && self.ranges().eq(that.ranges())
            }
        }

        impl Eq for $Tracker {}

        impl fmt::Debug for $Tracker {
            fn fmt(&self, f: &mut fmt::Formatter<'_>) -> fmt::Result {
                f.debug_set().entries(self.ranges()).finish()
            }
        }

        /// As `0..10, 20..30`. A width is that of the whole text.
        impl fmt::Display for $Tracker {
            fn fmt(&self, f: &mut fmt::Formatter<'_>) -> fmt::Result {
                padded(f, &Ranges(self))
            }
        }

        impl<'a> IntoIterator for &'a $Tracker {
            type Item = RangeSetRange<&'a u64>;
            type IntoIter = $iter::Iter<'a, u64>;

            fn into_iter(self) -> Self::IntoIter {
                self.ranges()
            }
        }
    };
}

calls! { Tracker, "Tracker", ";", [], RangeSet2, RangeSetRef<u64>, iter }
calls! { ChunkedTracker, "ChunkedTracker", "?;", [?], ChunkedRangeSet, Self, chunked }
