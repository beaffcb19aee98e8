//! Operations on two sets, each into a new one: of views, and of sets of `fallible`.

use crate::array::{Array, List};
use crate::entry::RangeSetEntry;
use crate::fallible::EntryClone;
use crate::forms::{ends, fails};
use crate::generated::range_merge::{DiffOp, IntersectionOp, UnionOp, XorOp};
use crate::operation::Connective;
use crate::view::RangeSetRef;

/// Operations with names of their own. An example has the right side, and the result by a name.
macro_rules! operations_named {
    (
        $form:ident, $must_use:meta, $errors:ident, $from:literal:
        $(
            $(#[$does:meta])*
            pub fn $call:ident by $op:ident, $that:literal => $made:literal, $boundaries:literal;
        )*
    ) => {$(
        $(#[$does])*
        ///
        #[doc = $errors!("If memory runs out or a copy fails.")]
        #[doc = example!($form "RangeSet2";
            "let a = RangeSet2::" $from "(0..10)"?
            "let b = RangeSet2::" $from "(" $that ")"?
            ["let ", $made, ": RangeSet2<i32> = a.", stringify!($call), "(&b)"]?
            "assert_eq!(" $made ".boundaries(), " $boundaries ");",
        )]
        #[$must_use]
        pub fn $call<B>(&self, that: &RangeSetRef<T>) -> $form::Returned<$form::RangeSet<B>>
        where
            B: Array<Item = T>,
        {
            let (left, right) = (self.boundaries(), that.boundaries());
            let list = B::List::merged(left, right, &$form::Copier, &$op);
            $form::returned::<T, _, _>(list.map($form::RangeSet::of_list))
        }
    )*};
}

macro_rules! operations {
    (ends, $($form:tt)*) => {
        operations! { @[T: Ord + Clone], RangeSetRef<T>, ends, $($form)* }
    };
    (fails, $($form:tt)*) => {
        operations! { @[T: EntryClone, A: Array<Item = T>], fails::RangeSet<A>, fails, $($form)* }
    };
    (
        @[$($generics:tt)*], $Left:ty, $form:ident, $Clone:ident, $must_use:meta, $errors:ident,
        $from:literal
    ) => {
        /// The result holds copies of both sides' boundaries: of two that are equal, this set's.
        /// Its inline size is that of `B`, which a caller names or which follows from the use of
        /// the result.
        ///
        /// An operation makes at most two comparisons for each binary digit of the length of each
        /// run, where a run is a longest stretch of one side's boundaries with none of the other's
        /// between. So a range beside 4,096 boundaries takes some seventy comparisons at most, and
        /// two sets with *n* boundaries in all take 2 *n* at most.
        impl<$($generics)*> $Left {
            operations_named! { $form, $must_use, $errors, $from:
            /// Returns the set of the members of one of the two sets, or of both.
            pub fn union by UnionOp, "10..20" => "either", "[0, 20]";

            /// Returns the set of the members of both.
            pub fn intersection by IntersectionOp, "5..20" => "both", "[5, 10]";

            /// Returns the set of the members of this set that aren't members of `that`.
            pub fn difference by DiffOp, "5..20" => "rest", "[0, 5]";

            /// Returns the set of the members of one of the two sets that aren't members of the
            /// other.
            pub fn symmetric_difference by XorOp, "5..20" => "one", "[0, 5, 10, 20]";
            }

            /// Returns the result of any of the sixteen operations on two sets.
            ///
            /// The operation may have members where both sets have none, as
            /// [`Connective::NOT_LEFT`] does. Those are values from the least one on.
            ///
            #[doc = $errors!("If memory runs out or a copy fails.")]
            #[doc = example!($form "RangeSet2", "range_sets::Connective";
                "let a = RangeSet2::<u8>::" $from "(0..10)"?
                "let b = RangeSet2::" $from "(5..20)"?
                "let rest: RangeSet2<u8> = a.combine(&b, Connective::NEITHER)"?
                "assert_eq!(rest.boundaries(), [20]);",
            )]
            #[$must_use]
            pub fn combine<B>(
                &self,
                that: &RangeSetRef<T>,
                op: Connective,
            ) -> $form::Returned<$form::RangeSet<B>>
            where
                B: Array<Item = T>,
                T: RangeSetEntry,
            {
                let (left, right) = (self.boundaries(), that.boundaries());
                let list = B::List::combined(left, right, &$form::Copier, op);
                $form::returned::<T, _, _>(list.map($form::RangeSet::of_list))
            }
        }
    };
}

both_forms!(operations);
