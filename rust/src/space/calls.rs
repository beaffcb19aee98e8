//! Calls that change a space or search it, and the traits of std that it implements.

use crate::any_range::{AnyRange, Ended, IntoRange};
use crate::chunked::{ChunkedRangeSet, IntoIter, Iter};
use crate::entry::Length;
use crate::fallible::EntryClone;
use crate::forms::{ends, fails};
use crate::generated::range_chunks as proved;
use crate::generated::range_collections::{Countable, FromPlace};
use crate::memory::AllocError;
use crate::range::RangeSetRange;
use crate::support::Global;
use crate::text::{ParseError, TextEntry};
use core::fmt;
use core::hash::{Hash, Hasher};
use core::str::FromStr;

#[rustfmt::skip]
macro_rules! changes {
    ($form:ident, $Clone:ident, $must_use:meta, $errors:ident, $from:literal) => {
        impl<T: Countable + Copy> $form::ChunkedSpace<T> {
            /// Returns the space where nothing is taken. It takes no memory.
            ///
            #[doc = example!($form "ChunkedSpace";
                "assert!(ChunkedSpace::<u64>::new().is_empty());",
            )]
            #[must_use]
            pub fn new() -> Self {
                $form::ChunkedRangeSet::new().into()
            }

            /// Returns the space where the values are taken that lie in one of the ranges at least,
            /// which stand in any order.
            ///
            #[doc = $errors!("`collect` does the same." or "If memory runs out.")]
            #[doc = example!($form "ChunkedSpace";
                "let mut used = ChunkedSpace::from_ranges([80u64..128, 0..64])"?
                "assert_eq!(used.first_fit(0..4096, 16), Some(64));",
            )]
            #[$must_use]
            pub fn from_ranges<R>(ranges: impl IntoIterator<Item = R>) -> $form::Returned<Self>
            where
                R: IntoRange<T>,
            {
                let taken = fails::ChunkedRangeSet::from_ranges(ranges);
                let taken =
                    taken.map(|set| proved::ChunkedSpace::from_set(Global, set.into_proved()));
                $form::returned::<T, _, _>(taken.map(Self::of_proved))
            }

            /// Takes the values of a range [of any kind](AnyRange). An empty or a reversed range
            /// changes nothing.
            ///
            #[doc = $errors!("If memory runs out. The same values are then taken as before.")]
            #[doc = example!($form "ChunkedSpace";
                "let mut ports = ChunkedSpace::new();",
                "ports.insert(0u16..1024)"?
                "assert!(ports.contains(&80));",
            )]
            #[inline]
            pub fn insert(&mut self, range: impl AnyRange<T>) -> $form::Returned<()> {
                $form::returned::<T, _, _>(set_taken(self.proved_mut(), range.into(), true))
            }

            /// Frees the values of a range [of any kind](AnyRange). An empty or a reversed range
            /// changes nothing.
            ///
            /// It takes memory only if it cuts a range in two, or ends one that had no end.
            ///
            #[doc = $errors!("If memory runs out. The same values are then taken as before.")]
            #[doc = example!($form "ChunkedSpace";
                "let mut ports = ChunkedSpace::from_ranges([0u16..1024])"?
                "ports.remove(80..81)"?
                "assert_eq!(ports.first_fit(0..9000, 1), Some(80));",
            )]
            #[inline]
            pub fn remove(&mut self, range: impl AnyRange<T>) -> $form::Returned<()> {
                $form::returned::<T, _, _>(set_taken(self.proved_mut(), range.into(), false))
            }

            /// Takes the values of a range, as [`insert`](Self::insert) does. Returns `true` if one
            /// of them was free.
            ///
            #[doc = $errors!("If memory runs out. The same values are then taken as before.")]
            #[doc = example!($form "ChunkedSpace";
                "let mut ports = ChunkedSpace::from_ranges([0u16..1024])"?
                "let changed = ports.insert_changed(1000..=1024)"?
                "let again = ports.insert_changed(1000..=1024)"?
                "assert!(changed && !again);",
            )]
            pub fn insert_changed(&mut self, range: impl AnyRange<T>) -> $form::Returned<bool> {
                let range = range.into();
                let changes = !self.contains_range(range.clone());
                let result = set_taken(self.proved_mut(), range, true);
                $form::returned::<T, _, _>(result.map(|()| changes))
            }

            /// Frees the values of a range, as [`remove`](Self::remove) does. Returns `true` if one
            /// of them was taken.
            ///
            #[doc = $errors!("If memory runs out. The same values are then taken as before.")]
            #[doc = example!($form "ChunkedSpace";
                "let mut ports = ChunkedSpace::from_ranges([0u16..1024])"?
                "let changed = ports.remove_changed(1000..)"?
                "let again = ports.remove_changed(1000..)"?
                "assert!(changed && !again);",
            )]
            pub fn remove_changed(&mut self, range: impl AnyRange<T>) -> $form::Returned<bool> {
                let range = range.into();
                let changes = self.intersects_range(range.clone());
                let result = set_taken(self.proved_mut(), range, false);
                $form::returned::<T, _, _>(result.map(|()| changes))
            }

            /// Frees all values.
            ///
            #[doc = example!($form "ChunkedSpace";
                "let mut ports = ChunkedSpace::from_ranges([0u16..1024])"?
                "ports.clear();",
                "assert_eq!(ports.first_fit(0..9000, 1), Some(0));",
            )]
            pub fn clear(&mut self) {
                self.proved_mut().clear();
            }

            /// Returns the least number of the range from which on `len` numbers of it are free, or
            /// `None` if there is no such stretch. The type's greatest number is never in one, as a
            /// range leaves its end out.
            ///
            /// Up to the result it takes one step for some 512 gaps that it remembers to be too
            /// short, and reads the others: after a load all of them, after changes those nearby.
            /// Without memory it remembers less. Among a million ranges it takes 61 microseconds to
            /// free one and to place one lowest, by bench/README.md.
            ///
            #[doc = example!($form "ChunkedSpace";
                "let mut used = ChunkedSpace::from_ranges([0u64..64, 80..128])"?
                "assert_eq!(used.first_fit(0..4096, 16), Some(64));",
                "assert_eq!(used.first_fit(0..4096, 20), Some(128));",
                "assert_eq!(used.first_fit(0..140, 20), None);",
            )]
            pub fn first_fit(&mut self, within: impl Ended<T>, len: T) -> Option<T>
            where
                T: Length,
            {
                self.first_fit_count(within, len.count()?)
            }

            /// Returns the least value of the range from which on `count` values of it are free, or
            /// `None` if there is no such stretch. It costs what [`first_fit`](Self::first_fit)
            /// does.
            ///
            #[doc = example!($form "ChunkedSpace";
                "let mut busy = ChunkedSpace::from_ranges([-64i64..-8, -6..0])"?
                "assert_eq!(busy.first_fit_count(-64..64, 2), Some(-8));",
                "assert_eq!(busy.first_fit_count(-64..64, 3), Some(0));",
            )]
            pub fn first_fit_count(&mut self, within: impl Ended<T>, count: u128) -> Option<T> {
                self.proved_mut().first_fit_count(within, count)
            }

            /// Returns the least multiple of `align` in the range from which on `count` values of
            /// it are free.
            ///
            /// It is `None` if there is none, or if `align` is 0. Multiples are those of
            /// [`RangeSetRef::first_fit_aligned`](crate::RangeSetRef::first_fit_aligned).
            ///
            /// It costs what [`first_fit`](Self::first_fit) does. Of gaps that are long enough, but
            /// hold no such value, it remembers that for the last `align` alone: calls that
            /// alternate between two read those gaps again.
            ///
            #[doc = example!($form "ChunkedSpace";
                "let mut used = ChunkedSpace::from_ranges([0u64..10, 30..128])"?
                "assert_eq!(used.first_fit_aligned(0..4096, 14, 16), Some(16));",
                "assert_eq!(used.first_fit_aligned(0..4096, 16, 16), Some(128));",
            )]
            pub fn first_fit_aligned(
                &mut self,
                within: impl Ended<T>,
                count: u128,
                align: u128,
            ) -> Option<T>
            where
                T: FromPlace,
            {
                self.proved_mut().first_fit_aligned(within, count, align)
            }
        }

        impl<T: Countable + Copy> Default for $form::ChunkedSpace<T> {
            fn default() -> Self {
                Self::new()
            }
        }

        /// The space where the set's members are taken, which are moved.
        impl<T: Countable + Copy> From<$form::ChunkedRangeSet<T>> for $form::ChunkedSpace<T> {
            fn from(taken: $form::ChunkedRangeSet<T>) -> Self {
                Self::of_proved(proved::ChunkedSpace::from_set(Global, taken.into_proved()))
            }
        }

        /// The set of what is taken, which is moved.
        ///
        #[doc = example!($form "{ChunkedRangeSet, ChunkedSpace}";
            "let used = ChunkedSpace::from_ranges([0u64..64])"?
            r#"assert_eq!(ChunkedRangeSet::from(used).to_string(), "0..64");"#,
        )]
        impl<T: Countable + Copy> From<$form::ChunkedSpace<T>> for $form::ChunkedRangeSet<T> {
            fn from(space: $form::ChunkedSpace<T>) -> Self {
                Self::of_proved(space.into_proved().into_set())
            }
        }

        impl<'a, T: Countable + Copy> IntoIterator for &'a $form::ChunkedSpace<T> {
            type Item = RangeSetRange<&'a T>;
            type IntoIter = Iter<'a, T>;

            fn into_iter(self) -> Iter<'a, T> {
                self.iter()
            }
        }

        impl<T: Countable + Copy> IntoIterator for $form::ChunkedSpace<T> {
            type Item = RangeSetRange<T>;
            type IntoIter = IntoIter<T>;

            fn into_iter(self) -> IntoIter<T> {
                $form::ChunkedRangeSet::from(self).into_iter()
            }
        }

        impl<T: Countable + Copy> AsRef<ChunkedRangeSet<T>> for $form::ChunkedSpace<T> {
            fn as_ref(&self) -> &ChunkedRangeSet<T> {
                self.as_set()
            }
        }

        /// Reads what is taken, as a `RangeSet` reads a text.
        ///
        /// # Errors
        ///
        /// Those of a `RangeSet`.
        ///
        #[doc = example!($form "ChunkedSpace";
            r#"let mut used: ChunkedSpace<u64> = "0..64, 80..128".parse()?;"#,
            "assert_eq!(used.first_fit(0..4096, 16), Some(64));",
            Ok "range_sets::ParseError"
        )]
        impl<T: Countable + Copy + EntryClone + TextEntry> FromStr for $form::ChunkedSpace<T> {
            type Err = ParseError;

            fn from_str(text: &str) -> Result<Self, ParseError> {
                text.parse::<$form::ChunkedRangeSet<T>>().map(Self::from)
            }
        }

        /// Two spaces are equal if the same values are taken.
        impl<T: Countable + Copy> PartialEq for $form::ChunkedSpace<T> {
            fn eq(&self, that: &Self) -> bool {
                self.as_set() == that.as_set()
            }
        }

        impl<T: Countable + Copy> Eq for $form::ChunkedSpace<T> {}

        impl<T: Countable + Copy + Hash> Hash for $form::ChunkedSpace<T> {
            fn hash<H: Hasher>(&self, state: &mut H) {
                self.as_set().hash(state);
            }
        }

        impl<T: Countable + Copy + fmt::Debug> fmt::Debug for $form::ChunkedSpace<T> {
            fn fmt(&self, f: &mut fmt::Formatter<'_>) -> fmt::Result {
                f.debug_set().entries(self.iter()).finish()
            }
        }

        /// What is taken, as `0..10, 20..`: the text of the set.
        impl<T: Countable + Copy + TextEntry> fmt::Display for $form::ChunkedSpace<T> {
            fn fmt(&self, f: &mut fmt::Formatter<'_>) -> fmt::Result {
                self.as_set().fmt(f)
            }
        }
    };
}

both_forms!(changes);

/// Takes the values of a range, or frees them.
#[inline(always)]
fn set_taken<T: Countable + Copy>(
    space: &mut proved::ChunkedSpace<T>,
    range: RangeSetRange<T>,
    taken: bool,
) -> Result<(), AllocError> {
    match (range, taken) {
        (RangeSetRange::Range(range), true) => space.insert(range),
        (RangeSetRange::Range(range), false) => space.remove(range),
        (RangeSetRange::RangeFrom(range), true) => space.insert_from(range),
        (RangeSetRange::RangeFrom(range), false) => space.remove_from(range),
    }
}
