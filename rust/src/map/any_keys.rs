//! The keys that calls of maps take: those of a range or of a set.

use crate::any_range::{each_range, NextValue};
use crate::array::List;
use crate::chunks;
use crate::entry::RangeSetEntry;
use crate::generated::range_merge::Copier;
use crate::memory::AllocError;
use crate::range::RangeSetRange;
use crate::relations::{AnySet, Either};
use crate::support::{Global, SmallVec, Vec};
use crate::view::RangeSetRef;
use core::ops::{Bound, Range, RangeFrom, RangeFull, RangeInclusive, RangeTo, RangeToInclusive};

/// The keys that a call of a map takes: a set [of any kind](AnySet) by reference, or a range of any
/// kind that std has.
///
/// It is implemented for these, and for nothing else. A set in chunks is copied into one list.
///
/// # Examples
///
/// ```
/// use range_sets::{ChunkedRangeSet, RangeMap, RangeSet2};
///
/// let bookings = RangeMap::from([(9..14, "Ada")]);
/// let noon = bookings.restrict(12..=12);
/// assert_eq!(noon, bookings.restrict(&RangeSet2::from(12..13)));
/// assert_eq!(noon, bookings.restrict(&ChunkedRangeSet::from(12..13)));
/// ```
pub trait AnyKeys<K: Ord> {
    /// Calls `call` with the keys as a view.
    #[doc(hidden)]
    fn viewed<R>(
        self,
        copier: &impl Copier<K>,
        call: impl FnOnce(&RangeSetRef<K>) -> Result<R, AllocError>,
    ) -> Result<R, AllocError>;
}

macro_rules! any_keys {
    ([$($generics:tt)*] $set:ty) => {
        impl<$($generics)*> AnyKeys<K> for $set {
            fn viewed<R>(
                self,
                copier: &impl Copier<K>,
                call: impl FnOnce(&RangeSetRef<K>) -> Result<R, AllocError>,
            ) -> Result<R, AllocError> {
                let list = match self.either() {
                    Either::List(set) => return call(RangeSetRef::over(set.boundaries())),
                    Either::Chunked(set) => &set.list,
                };
                let mut copies = Vec::with_capacity(Global, list.len())?;
                for key in chunks::items(list) {
                    copies.push(copier.copy(key)?)?;
                }
                call(RangeSetRef::over(copies.as_slice()))
            }
        }
    };
    ($($range:ty $(: $($bound:ident)+)?;)*) => {$(
        impl<T: Ord $($(+ $bound)+)?> AnyKeys<T> for $range {
            fn viewed<R>(
                self,
                _: &impl Copier<T>,
                call: impl FnOnce(&RangeSetRef<T>) -> Result<R, AllocError>,
            ) -> Result<R, AllocError> {
                let list = SmallVec::<T, 2>::of_range(self.into())?;
                call(RangeSetRef::over(list.as_slice()))
            }
        }
    )*};
}

any_keys!([K: Ord, S: AnySet<K> + ?Sized] &S);
any_keys!([K: Ord, S: AnySet<K> + ?Sized] &mut S);
each_range!(any_keys);
