//! Sets from ranges, and ranges from sets.

use crate::any_range::{IntoRange, NextValue};
use crate::array::{Array, List};
use crate::entry::RangeSetEntry;
use crate::fallible::{self, AllocError};
use crate::memory::expect_memory;
use crate::range::RangeSetRange;
use crate::range_set::RangeSet;
use core::ops::{Bound, Range, RangeFrom, RangeFull, RangeInclusive, RangeTo, RangeToInclusive};

/// A set of each kind of range: by `from`, and for a set of `fallible` by `try_from`.
macro_rules! from_ranges {
    ($($(#[$doc:meta])* $range:ty $(: $($bound:ident)+)? => |$it:ident| $list:expr;)*) => {$(
        $(#[$doc])*
        impl<T: Ord $($(+ $bound)+)?, A: Array<Item = T>> From<$range> for RangeSet<A> {
            fn from($it: $range) -> Self {
                Self::of_list(expect_memory::<T, _, _>($list))
            }
        }

        $(#[$doc])*
        impl<T: Ord $($(+ $bound)+)?, A: Array<Item = T>> TryFrom<$range> for fallible::RangeSet<A> {
            type Error = AllocError;

            fn try_from($it: $range) -> Result<Self, AllocError> {
                $list.map(Self::of_list)
            }
        }
    )*};
}

from_ranges! {
    /// The values of the range: none if it is empty or reversed.
    Range<T> => |range| A::List::of_range(range.into());
    /// The values from the start on.
    RangeFrom<T> => |range| A::List::of_range(range.into());
    /// The values below the end.
    RangeTo<T>: RangeSetEntry => |range| A::List::of_range_to(range);
    /// All values.
    RangeFull: RangeSetEntry => |_all| A::List::of_all();
    /// The values of the range: none if it is empty or reversed.
    RangeInclusive<T>: NextValue => |range| A::List::of_range(range.into());
    /// The values up to the last one.
    RangeToInclusive<T>: RangeSetEntry NextValue => |range| A::List::of_range(range.into());
    /// The values between the bounds: none if they are empty or reversed.
    (Bound<T>, Bound<T>): RangeSetEntry NextValue => |range| A::List::of_range(range.into());
    /// The values of the range: none if it is empty or reversed.
    RangeSetRange<T> => |range| A::List::of_range(range);
    /// All values for `true`, none for `false`.
    bool: RangeSetEntry => |all| all.then(A::List::of_all).unwrap_or(Ok(A::List::EMPTY));
}

/// The union of the ranges, which stand in any order.
///
/// # Examples
///
/// ```
/// use range_sets::RangeSet2;
///
/// assert_eq!(RangeSet2::from([15..18, 9..11, 10..12]).to_string(), "9..12, 15..18");
/// ```
impl<T: Ord, A: Array<Item = T>, const N: usize> From<[Range<T>; N]> for RangeSet<A> {
    fn from(ranges: [Range<T>; N]) -> Self {
        Self::from_ranges(ranges)
    }
}

/// The union of the ranges, which stand in any order.
impl<T: Ord, A: Array<Item = T>, const N: usize> TryFrom<[Range<T>; N]> for fallible::RangeSet<A> {
    type Error = AllocError;

    fn try_from(ranges: [Range<T>; N]) -> Result<Self, AllocError> {
        Self::from_ranges(ranges)
    }
}

/// The union of the ranges, which stand in any order.
impl<T: Ord, A: Array<Item = T>, R: IntoRange<T>> FromIterator<R> for RangeSet<A> {
    fn from_iter<I: IntoIterator<Item = R>>(ranges: I) -> Self {
        Self::from_ranges(ranges)
    }
}

/// Adds the values of the ranges, which stand in any order.
impl<T: Ord, A: Array<Item = T>, R: IntoRange<T>> Extend<R> for RangeSet<A> {
    fn extend<I: IntoIterator<Item = R>>(&mut self, ranges: I) {
        let that = Self::from_ranges(ranges);
        if self.is_empty() && self.capacity() <= that.capacity() {
            *self = that;
        } else {
            *self |= that;
        }
    }
}

impl<A: Array> From<RangeSet<A>> for fallible::RangeSet<A> {
    fn from(set: RangeSet<A>) -> Self {
        Self::of_list(set.list)
    }
}

impl<A: Array> From<fallible::RangeSet<A>> for RangeSet<A> {
    fn from(set: fallible::RangeSet<A>) -> Self {
        Self::of_list(set.list)
    }
}
