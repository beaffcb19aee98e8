//! `|`, `&`, `^`, `-` and `!` on sets and on references to sets, and `|=`, `&=`, `^=`, `-=` with
//! either.

use crate::array::{Array, List};
use crate::chunked::ChunkedRangeSet;
use crate::entry::RangeSetEntry;
use crate::generated::range_merge::{DiffOp, IntersectionOp, UnionOp, XorOp};
use crate::memory::expect_memory;
use crate::operation::Connective;
use crate::range_set::RangeSet;
use crate::view::RangeSetRef;
use core::ops::{
    BitAnd, BitAndAssign, BitOr, BitOrAssign, BitXor, BitXorAssign, Not, Sub, SubAssign,
};

macro_rules! operators {
    ($($(#[$doc:meta])* $operator:ident $call:ident = $named:ident;)*) => {$(
        operators!(@ $(#[$doc])* $operator $call = $named: RangeSet<A>, RangeSet<A>);
        operators!(@ $operator $call = $named: RangeSet<A>, &RangeSet<A>);
        operators!(@ $operator $call = $named: &RangeSet<A>, RangeSet<A>);
        operators!(@ $operator $call = $named: &RangeSet<A>, &RangeSet<A>);
    )*};
    (@ $(#[$doc:meta])* $operator:ident $call:ident = $named:ident: $left:ty, $right:ty) => {
        $(#[$doc])*
        impl<T: Ord + Clone, A: Array<Item = T>> $operator<$right> for $left {
            type Output = RangeSet<A>;

            fn $call(self, that: $right) -> RangeSet<A> {
                RangeSetRef::$named(&self, &that)
            }
        }
    };
}

operators! {
    /// The members of one of the two sets, or of both.
    BitOr bitor = union;
    /// The members of both.
    BitAnd bitand = intersection;
    /// The members of one of the two sets that aren't members of the other.
    BitXor bitxor = symmetric_difference;
    /// The members of the left set that aren't members of the right.
    Sub sub = difference;
}

macro_rules! assigning_operators {
    ($($(#[$doc:meta])* $operator:ident $call:ident = $op:ident $with:ident;)*) => {$(
        $(#[$doc])*
        ///
        /// It moves the right set's boundaries, and clones none.
        impl<T: Ord, A: Array<Item = T>> $operator for RangeSet<A> {
            fn $call(&mut self, that: Self) {
                expect_memory::<T, _, _>(self.list.merge_owned(that.list, &$op));
            }
        }

        $(#[$doc])*
        ///
        /// It clones the right set's boundaries.
        impl<T: Ord + Clone, A: Array<Item = T>> $operator<&RangeSet<A>> for RangeSet<A> {
            fn $call(&mut self, that: &RangeSet<A>) {
                self.$with(that);
            }
        }

        $(#[$doc])*
        ///
        /// It clones the right set's boundaries.
        impl<T: Ord + Clone, A: Array<Item = T>> $operator<&RangeSetRef<T>> for RangeSet<A> {
            fn $call(&mut self, that: &RangeSetRef<T>) {
                self.$with(that);
            }
        }

        assigning_operators!(@ $operator $call: ChunkedRangeSet<T>);
        assigning_operators!(@ $operator $call: &ChunkedRangeSet<T>);
    )*};
    (@ $operator:ident $call:ident: $chunked:ty) => {
        /// The right set is taken into one list.
        impl<T: Ord + Clone, A: Array<Item = T>> $operator<$chunked> for RangeSet<A> {
            fn $call(&mut self, that: $chunked) {
                self.$call(Self::from(that));
            }
        }
    };
}

assigning_operators! {
    /// Adds the members of the right set.
    BitOrAssign bitor_assign = UnionOp union_with;
    /// Keeps the members that are members of the right set too.
    BitAndAssign bitand_assign = IntersectionOp intersection_with;
    /// Takes the members of the right set out and adds those that weren't in.
    BitXorAssign bitxor_assign = XorOp symmetric_difference_with;
    /// Takes the members of the right set out.
    SubAssign sub_assign = DiffOp difference_with;
}

/// The values that are no members.
impl<T: RangeSetEntry, A: Array<Item = T>> Not for RangeSet<A> {
    type Output = RangeSet<A>;

    fn not(self) -> RangeSet<A> {
        RangeSet::of_list(expect_memory::<T, _, _>(self.list.negated()))
    }
}

/// The values that are no members.
impl<T: RangeSetEntry + Clone, A: Array<Item = T>> Not for &RangeSet<A> {
    type Output = RangeSet<A>;

    fn not(self) -> RangeSet<A> {
        self.combine(RangeSetRef::over(&[]), Connective::NOT_LEFT)
    }
}
