//! Calls that make a set in chunks of ranges, or change one.

use crate::any_range::{AnyRange, IntoRange};
use crate::array::List;
use crate::entry::RangeSetEntry;
use crate::fallible::EntryClone;
use crate::forms::{ends, fails};
use crate::generated::range_chunks as proved;
use crate::generated::range_collections::FromPlace;
use crate::range::RangeSetRange;
use crate::range_set::{intersection_of_sets, union_of_sets, RangeSetRef};
use crate::support::{Global, SmallVec};

macro_rules! changes {
    ($form:ident, $Clone:ident, $must_use:meta, $errors:ident, $from:literal) => {
        impl<T: Ord> $form::ChunkedRangeSet<T> {
            /// Returns the empty set. It takes no memory.
            ///
            #[doc = example!($form "ChunkedRangeSet";
                "assert!(ChunkedRangeSet::<u64>::new().is_empty());",
            )]
            #[must_use]
            pub fn new() -> Self {
                Self::of_proved(proved::ChunkedRangeSet::new(Global))
            }

            /// Returns the set of the values that lie in one of the ranges at least, which stand in
            /// any order.
            ///
            #[doc = $errors!("`collect` does the same." or "If memory runs out.")]
            #[doc = example!($form "ChunkedRangeSet";
                "let busy = ChunkedRangeSet::from_ranges([15..18, 11..12, 12..13])"?
                "busy" => "11..13, 15..18",
            )]
            #[$must_use]
            pub fn from_ranges<R>(ranges: impl IntoIterator<Item = R>) -> $form::Returned<Self>
            where
                R: IntoRange<T>,
            {
                let ranges = ranges.into_iter().map(Into::into);
                let list = SmallVec::<T, 2>::of_ranges(ranges, $form::SORTING);
                let set = list.and_then(List::into_chunks).map(Self::of_proved);
                $form::returned::<T, _, _>(set)
            }

            /// Returns the set of these values, which may come in any order and more than once.
            ///
            #[doc = $errors!("If memory runs out.")]
            #[doc = example!($form "ChunkedRangeSet";
                "let set = ChunkedRangeSet::from_values([7u8, 3, 255, 4, 3])"?
                "set" => "3..5, 7..8, 255..",
            )]
            #[$must_use]
            pub fn from_values(values: impl IntoIterator<Item = T>) -> $form::Returned<Self>
            where
                T: FromPlace,
            {
                Self::from_ranges(values.into_iter().map(RangeSetRange::of_value))
            }

            /// Returns the set of the members of one of the sets at least, as
            /// [`RangeSet::union_all`](crate::RangeSet::union_all) does.
            ///
            #[doc = $errors!("If memory runs out or a copy fails.")]
            #[doc = example!($form "ChunkedRangeSet", "range_sets::RangeSetRef";
                "let sets = [&[9, 11][..], &[10, 12, 15, 18]].map(|set| RangeSetRef::new(set).unwrap());",
                "let busy: ChunkedRangeSet<u32> = ChunkedRangeSet::union_all(sets)"?
                "busy" => "9..12, 15..18",
            )]
            #[$must_use]
            pub fn union_all<S>(sets: impl IntoIterator<Item = S>) -> $form::Returned<Self>
            where
                T: $Clone,
                S: AsRef<RangeSetRef<T>>,
            {
                let list = union_of_sets::<_, SmallVec<T, 2>, _, _>(sets, &$form::Copier);
                let set = list.and_then(List::into_chunks).map(Self::of_proved);
                $form::returned::<T, _, _>(set)
            }

            /// Returns the set of the members of each of the sets, or of every value if there is no
            /// set, as [`RangeSet::intersection_all`](crate::RangeSet::intersection_all) does.
            ///
            #[doc = $errors!("If memory runs out or a copy fails.")]
            #[doc = example!($form "ChunkedRangeSet", "range_sets::RangeSetRef";
                "let sets = [&[9, 17][..], &[10, 12, 15, 18]].map(|set| RangeSetRef::new(set).unwrap());",
                "let free: ChunkedRangeSet<u32> = ChunkedRangeSet::intersection_all(sets)"?
                "free" => "10..12, 15..17",
            )]
            #[$must_use]
            pub fn intersection_all<S>(sets: impl IntoIterator<Item = S>) -> $form::Returned<Self>
            where
                T: RangeSetEntry + $Clone,
                S: AsRef<RangeSetRef<T>>,
            {
                let list = intersection_of_sets::<_, SmallVec<T, 2>, _, _>(sets, &$form::Copier);
                let set = list.and_then(List::into_chunks).map(Self::of_proved);
                $form::returned::<T, _, _>(set)
            }

            /// Adds the values of a range [of any kind](AnyRange). An empty or a reversed range
            /// changes nothing.
            ///
            /// Of two equal boundaries the set's own stays.
            ///
            #[doc = $errors!("If memory runs out, which is asked for only if the set grows. The set is \
                then as it was.")]
            #[doc = example!($form "ChunkedRangeSet";
                "let mut busy = ChunkedRangeSet::new();",
                "busy.insert(11..12)"?
                "busy.insert(12..14)"?
                "busy.insert(22..)"?
                "busy" => "11..14, 22..",
            )]
            #[inline]
            pub fn insert(&mut self, range: impl AnyRange<T>) -> $form::Returned<()> {
                $form::returned::<T, _, _>(match range.into() {
                    RangeSetRange::Range(range) => self.changed(|set| set.insert(range)),
                    RangeSetRange::RangeFrom(range) => self.changed(|set| set.insert_from(range)),
                })
            }

            /// Removes the values of a range [of any kind](AnyRange). An empty or a reversed range
            /// changes nothing.
            ///
            /// It takes memory only if it cuts a range in two, or ends one that had no end.
            ///
            #[doc = $errors!("If memory runs out. The set is then as it was.")]
            #[doc = example!($form "ChunkedRangeSet";
                "let mut open = ChunkedRangeSet::from_ranges([9..17])"?
                "open.remove(12..13)"?
                "open.remove(16..)"?
                "open" => "9..12, 13..16",
            )]
            #[inline]
            pub fn remove(&mut self, range: impl AnyRange<T>) -> $form::Returned<()> {
                $form::returned::<T, _, _>(match range.into() {
                    RangeSetRange::Range(range) => self.changed(|set| set.remove(range)),
                    RangeSetRange::RangeFrom(range) => self.changed(|set| set.remove_from(range)),
                })
            }

            /// Adds the values of a range, as [`insert`](Self::insert) does. Returns `true` if one
            /// of them wasn't a member.
            ///
            #[doc = $errors!("If memory runs out. The set is then as it was.")]
            #[doc = example!($form "ChunkedRangeSet";
                "let mut seen = ChunkedRangeSet::from_ranges([0..10])"?
                "let changed = seen.insert_changed(5..12)"?
                "let again = seen.insert_changed(3..=11)"?
                "assert!(changed && !again);",
            )]
            pub fn insert_changed(&mut self, range: impl AnyRange<T>) -> $form::Returned<bool> {
                $form::returned::<T, _, _>(match range.into() {
                    RangeSetRange::Range(range) => self.changed(|set| set.insert_changed(range)),
                    RangeSetRange::RangeFrom(range) => {
                        let changes = !self.has_all_from(&range.start);
                        self.changed(|set| set.insert_from(range)).map(|()| changes)
                    }
                })
            }

            /// Removes the values of a range, as [`remove`](Self::remove) does. Returns `true` if
            /// one of them was a member.
            ///
            #[doc = $errors!("If memory runs out. The set is then as it was.")]
            #[doc = example!($form "ChunkedRangeSet";
                "let mut free = ChunkedRangeSet::from_ranges([0..10])"?
                "let changed = free.remove_changed(8..)"?
                "let again = free.remove_changed(8..10)"?
                "assert!(changed && !again);",
            )]
            pub fn remove_changed(&mut self, range: impl AnyRange<T>) -> $form::Returned<bool> {
                $form::returned::<T, _, _>(match range.into() {
                    RangeSetRange::Range(range) => self.changed(|set| set.remove_changed(range)),
                    RangeSetRange::RangeFrom(range) => {
                        let changes = self.has_some_from(&range.start);
                        self.changed(|set| set.remove_from(range)).map(|()| changes)
                    }
                })
            }

            /// Removes the first range and returns it, or `None` if the set is empty. It takes no
            /// memory.
            ///
            #[doc = example!($form "ChunkedRangeSet";
                "let mut busy = ChunkedRangeSet::from_ranges([9..11, 15..18])"?
                "assert_eq!(busy.pop_first(), Some((9..11).into()));",
                "busy" => "15..18",
            )]
            pub fn pop_first(&mut self) -> Option<RangeSetRange<T>> {
                self.changed(|set| set.pop_first()).map(RangeSetRange::from_proved)
            }

            /// Removes the last range and returns it, or `None` if the set is empty. It takes no
            /// memory.
            ///
            #[doc = example!($form "ChunkedRangeSet";
                "let mut busy = ChunkedRangeSet::from_ranges([9..11, 15..18])"?
                "assert_eq!(busy.pop_last(), Some((15..18).into()));",
                "busy" => "9..11",
            )]
            pub fn pop_last(&mut self) -> Option<RangeSetRange<T>> {
                self.changed(|set| set.pop_last()).map(RangeSetRange::from_proved)
            }

            /// Removes all values.
            ///
            #[doc = example!($form "ChunkedRangeSet";
                "let mut open = ChunkedRangeSet::from_ranges([9..17])"?
                "open.clear();",
                "assert!(open.is_empty());",
            )]
            pub fn clear(&mut self) {
                self.changed(|set| set.clear());
            }
        }
    };
}

both_forms!(changes);
