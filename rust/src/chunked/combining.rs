//! Operations with a view.
//!
//! The calls of both forms are declared and documented here. Each calls a function that both forms
//! have under the same name: [`ChunkedRangeSet`](super::ChunkedRangeSet) in `by_clone`, and
//! [`fallible::ChunkedRangeSet`](crate::fallible::ChunkedRangeSet) in `by_entry_clone`.

mod by_clone;
mod by_entry_clone;

use crate::fallible::EntryClone;
use crate::forms::{ends, fails};
use crate::range_set::RangeSetRef;

macro_rules! operations {
    ($form:ident, $Clone:ident, $must_use:meta, $errors:ident, $from:literal) => {
        /// These go over the boundaries between the first one of `that` and its last one, or up to
        /// the end if `that` has a range without an end, and copy what stays of them. If `that` has
        /// few ranges, those between two that lie far apart stay where they are.
        impl<T: Ord + $Clone> $form::ChunkedRangeSet<T> {
            operations_with! { "ChunkedRangeSet", $form, $errors:
            /// Adds the members of `that`.
            pub fn union_with(self, that), 20 => "0..10, 20.." {
                self.add_members_of(that)
            }

            /// Keeps the members that are members of `that` too.
            pub fn intersection_with(self, that), 5 => "5..10" {
                self.keep_members_of(that)
            }

            /// Removes the members of `that`.
            pub fn difference_with(self, that), 5 => "0..5" {
                self.remove_members_of(that)
            }

            /// Removes the members of `that` and adds those that weren't in.
            pub fn symmetric_difference_with(self, that), 5 => "0..5, 10.." {
                self.flip_members_of(that)
            }
            }
        }
    };
}

both_forms!(operations);
