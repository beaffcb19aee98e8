//! Calls that change a set. Of two equal boundaries the set's own stays. They ask for all memory
//! before they change anything.

use crate::any_range::AnyRange;
use crate::array::{Array, List};
use crate::fallible::EntryClone;
use crate::forms::{ends, fails};
use crate::generated::range_merge::{DiffOp, IntersectionOp, MergeOperation, UnionOp, XorOp};
use crate::view::RangeSetRef;

macro_rules! changes {
    ($form:ident, $Clone:ident, $must_use:meta, $errors:ident, $from:literal) => {
        impl<T: Ord, A: Array<Item = T>> $form::RangeSet<A> {
            /// Adds the values of a range [of any kind](AnyRange). An empty or a reversed range
            /// changes nothing.
            ///
            /// It makes *O*(log *n*) comparisons, and moves the boundaries after the range at most.
            ///
            #[doc = $errors!("If memory runs out. The set is then as it was. Memory is asked for only \
                if the set grows and has no room.")]
            #[doc = example!($form "RangeSet2";
                "let mut busy = RangeSet2::" $from "(11..12)"?
                "busy.insert(12..14)"?
                "busy.insert(9..10)"?
                "busy.insert(22..)"?
                "busy" => "9..10, 11..14, 22..",
            )]
            #[inline]
            pub fn insert(&mut self, range: impl AnyRange<T>) -> $form::Returned<()> {
                $form::returned::<T, _, _>(self.list.set_range(range.into(), true))
            }

            /// Adds the values of a range, as [`insert`](Self::insert) does. Returns `true` if one
            /// of them wasn't a member.
            ///
            #[doc = $errors!("If memory runs out. The set is then as it was.")]
            #[doc = example!($form "RangeSet2";
                "let mut seen = RangeSet2::" $from "(0..10)"?
                "let changed = seen.insert_changed(5..12)"?
                "let again = seen.insert_changed(3..=11)"?
                "assert!(changed && !again);",
            )]
            pub fn insert_changed(&mut self, range: impl AnyRange<T>) -> $form::Returned<bool> {
                let range = range.into();
                let changes = self.view().lacks_some(&range);
                $form::returned::<T, _, _>(self.list.set_range(range, true).map(|()| changes))
            }

            /// Takes the values of a range [of any kind](AnyRange) out. An empty or a reversed
            /// range changes nothing.
            ///
            /// It makes *O*(log *n*) comparisons, and moves the boundaries after the range at most.
            ///
            #[doc = $errors!("If memory runs out. The set is then as it was. Memory is asked for only \
                if the set grows and has no room.")]
            #[doc = example!($form "RangeSet2";
                "let mut open = RangeSet2::" $from "(9..17)"?
                "open.remove(12..13)"?
                "open" => "9..12, 13..17",
            )]
            #[inline]
            pub fn remove(&mut self, range: impl AnyRange<T>) -> $form::Returned<()> {
                $form::returned::<T, _, _>(self.list.set_range(range.into(), false))
            }

            /// Takes the values of a range out, as [`remove`](Self::remove) does. Returns `true` if
            /// one of them was a member.
            ///
            #[doc = $errors!("If memory runs out. The set is then as it was.")]
            #[doc = example!($form "RangeSet2";
                "let mut free = RangeSet2::" $from "(0..10)"?
                "let changed = free.remove_changed(8..)"?
                "let again = free.remove_changed(8..10)"?
                "assert!(changed && !again);",
            )]
            pub fn remove_changed(&mut self, range: impl AnyRange<T>) -> $form::Returned<bool> {
                let range = range.into();
                let changes = self.view().has_some(&range);
                $form::returned::<T, _, _>(self.list.set_range(range, false).map(|()| changes))
            }
        }

        /// These make as many comparisons as the operations that make a new set.
        impl<T: Ord + $Clone, A: Array<Item = T>> $form::RangeSet<A> {
            operations_with! { "RangeSet2", $form, $errors:
            /// Adds the members of `that`.
            pub fn union_with(self, that), 20 => "0..10, 20.." {
                self.merge_with(that, &UnionOp)
            }

            /// Keeps the members that are members of `that` too.
            pub fn intersection_with(self, that), 5 => "5..10" {
                self.merge_with(that, &IntersectionOp)
            }

            /// Removes the members of `that`.
            pub fn difference_with(self, that), 5 => "0..5" {
                self.merge_with(that, &DiffOp)
            }

            /// Removes the members of `that` and adds those that weren't in.
            pub fn symmetric_difference_with(self, that), 5 => "0..5, 10.." {
                self.merge_with(that, &XorOp)
            }
            }

            fn merge_with<O: MergeOperation>(
                &mut self,
                that: &RangeSetRef<T>,
                op: &O,
            ) -> $form::Returned<()> {
                let merged = self.list.merge_ref(that.boundaries(), &$form::Copier, op);
                $form::returned::<T, _, _>(merged)
            }
        }
    };
}

both_forms!(changes);
