//! `|`, `&`, `^`, `-` and `!` on borrowed sets. Each gives a set that owns its boundaries.

use crate::entry::RangeSetEntry;
use crate::operation::Connective;
use crate::range_set::RangeSet2;
use crate::view::RangeSetRef;
use core::ops::{BitAnd, BitOr, BitXor, Not, Sub};

macro_rules! operators {
    ($($(#[$doc:meta])* $operator:ident $call:ident = $named:ident;)*) => {$(
        $(#[$doc])*
        impl<T: Ord + Clone> $operator for &RangeSetRef<T> {
            type Output = RangeSet2<T>;

            fn $call(self, that: Self) -> RangeSet2<T> {
                self.$named(that)
            }
        }
    )*};
}

operators! {
    /// The members of one of the two sets, or of both. A set on the right is borrowed as `&set`.
    ///
    /// # Examples
    ///
    /// ```
    /// use range_sets::{RangeSet2, RangeSetRef};
    ///
    /// let day = RangeSetRef::new(&[9, 17]).unwrap();
    /// let evening: RangeSet2<i32> = (17..22).into();
    /// assert_eq!(day | &evening, RangeSet2::from(9..22));
    /// ```
    BitOr bitor = union;
    /// The members of both.
    BitAnd bitand = intersection;
    /// The members of one of the two sets that aren't members of the other.
    BitXor bitxor = symmetric_difference;
    /// The members of the left set that aren't members of the right.
    Sub sub = difference;
}

/// The values that are no members.
impl<T: RangeSetEntry + Clone> Not for &RangeSetRef<T> {
    type Output = RangeSet2<T>;

    fn not(self) -> RangeSet2<T> {
        self.combine(RangeSetRef::over(&[]), Connective::NOT_LEFT)
    }
}
