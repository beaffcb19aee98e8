//! Calls that take whole ranges out of a set, or move them from one set to another.

use crate::array::{Array, List};
use crate::fallible::EntryClone;
use crate::forms::{ends, fails};
use crate::generated::range_merge::{DiffOp, IntersectionOp, UnionOp};
use crate::range::RangeSetRange;
use core::mem;
use core::slice;

macro_rules! taking {
    ($form:ident, $Clone:ident, $must_use:meta, $errors:ident, $from:literal) => {
        impl<T, A: Array<Item = T>> $form::RangeSet<A> {
            /// Takes all values out. The room stays.
            ///
            #[doc = example!($form "RangeSet2";
                "let mut set = RangeSet2::" $from "(0..10)"?
                "set.clear();",
                "assert!(set.is_empty());",
            )]
            pub fn clear(&mut self) {
                self.list.clear();
            }

            /// Takes the lowest range out and returns it, or `None` if the set is empty. It moves
            /// the other boundaries, and takes no memory.
            ///
            #[doc = example!($form "RangeSet2";
                "let mut set = RangeSet2::" $from "([0..10, 20..30])"?
                "assert_eq!(set.pop_first(), Some((0..10).into()));",
                "set" => "20..30",
            )]
            pub fn pop_first(&mut self) -> Option<RangeSetRange<T>> {
                self.list.take_first()
            }

            /// Takes the highest range out and returns it, or `None` if the set is empty. It takes
            /// no memory.
            ///
            #[doc = example!($form "RangeSet2";
                r#"let mut set: RangeSet2<u8> = "0..10, 20..".parse().unwrap();"#,
                "assert_eq!(set.pop_last(), Some((20..).into()));",
                "set" => "0..10",
            )]
            pub fn pop_last(&mut self) -> Option<RangeSetRange<T>> {
                self.list.take_last()
            }

            /// Keeps the ranges for which `keep` returns `true`, and takes the others out. It is
            /// called once for each, from the lowest on. It takes no memory.
            ///
            /// If it panics, the set is empty.
            ///
            /// # Examples
            ///
            /// Only the gaps of two hours or more:
            ///
            #[doc = code!($form "RangeSet2";
                "let mut free = RangeSet2::" $from "([9..10, 11..13, 14..17])"?
                "free.retain(|gap| gap.end().map_or(true, |end| **end - **gap.start() >= 2));",
                "free" => "11..13, 14..17",
            )]
            pub fn retain(&mut self, keep: impl FnMut(RangeSetRange<&T>) -> bool) {
                self.list.retain(keep);
            }
        }

        impl<T: Ord, A: Array<Item = T>> $form::RangeSet<A> {
            /// Takes the values from `at` on out, and returns them as a set.
            ///
            /// It makes *O*(log *n*) comparisons, and copies the boundaries that it returns.
            ///
            #[doc = $errors!("If memory runs out or a copy of a boundary fails. The set is then as it \
                was.")]
            #[doc = example!($form "RangeSet2";
                "let mut morning = RangeSet2::" $from "([9..11, 12..15])"?
                "let afternoon = morning.split_off(&13)"?
                "morning" => "9..11, 12..13",
                "afternoon" => "13..15",
            )]
            #[must_use = "`difference_with` takes the values out and returns none"]
            pub fn split_off(&mut self, at: &T) -> $form::Returned<Self>
            where
                T: $Clone,
            {
                let (list, from) = (&mut self.list, slice::from_ref(at));
                let above = A::List::merged(list.as_slice(), from, &$form::Copier, &IntersectionOp);
                let split = above.and_then(|above| {
                    list.merge_ref(from, &$form::Copier, &DiffOp)?;
                    Ok(Self::of_list(above))
                });
                $form::returned::<T, _, _>(split)
            }

            /// Moves all values of `that` into this set, and leaves `that` empty. It copies none.
            ///
            #[doc = $errors!("If memory runs out. Both sets are then as they were.")]
            #[doc = example!($form "RangeSet2";
                "let mut mine = RangeSet2::" $from "(9..11)"?
                "let mut yours = RangeSet2::" $from "(10..12)"?
                "mine.append(&mut yours)"?
                "mine" => "9..12",
                "assert!(yours.is_empty());",
            )]
            pub fn append(&mut self, that: &mut Self) -> $form::Returned<()> {
                let moved = mem::take(that).list;
                let merged = self.list.merge_owned(moved, &UnionOp);
                $form::returned::<T, _, _>(merged.map_err(|(refused, back)| {
                    that.list = back;
                    refused
                }))
            }
        }
    };
}

both_forms!(taking);
