//! The types: sets, borrowed sets, their ranges and their elements.

mod constructors;
mod conversions;
mod in_place;
mod joining;
mod operators;
mod room;
mod taking;
mod traits;

pub use crate::array::Array;
pub use crate::entry::RangeSetEntry;
pub use crate::iter::{Gaps, IntoIter, Iter, Members, RangesWithin};
pub use crate::range::RangeSetRange;
pub use crate::view::RangeSetRef;
pub(crate) use joining::{intersection_of_sets, union_of_read, union_of_sets};

use crate::array::List;

/// A set of values of an ordered type, as the ranges that they make up.
///
/// `A` is an array type: a `RangeSet<[i64; 4]>` keeps up to four boundaries, which are two ranges,
/// in itself, and more in an allocation. [`RangeSet2`] is the usual size.
///
/// A set dereferences to [`RangeSetRef`], which has all the questions and the operations that make
/// a new set. What changes a set stands here.
///
/// # Examples
///
/// ```
/// use range_sets::RangeSet2;
///
/// let day: RangeSet2<u32> = (9..17).into();
/// let busy: RangeSet2<u32> = [11..12, 15..18].into_iter().collect();
///
/// let free = &day - &busy;
/// assert_eq!(free.to_string(), "9..11, 12..15");
/// assert!(free.contains(&14));
/// assert!(!(&free | &busy).contains(&8));
/// ```
///
/// # Ranges
///
/// A start is in its range, an end isn't. A range may have no end, so `!` always has a result.
/// Ranges that overlap or touch become one. An empty or a reversed range has no members.
///
/// # Memory
///
/// If memory runs out, a call ends the process, as std's collections do. The calls of [`fallible`]
/// return a `Result`.
///
/// [`fallible`]: crate::fallible
pub struct RangeSet<A: Array> {
    pub(crate) list: A::List,
}

/// A set that keeps up to two boundaries, which are one range, in itself.
///
/// # Examples
///
/// ```
/// use range_sets::RangeSet2;
///
/// let set: RangeSet2<char> = ('a'..'z').into();
/// assert!(set.contains(&'q'));
/// ```
pub type RangeSet2<T> = RangeSet<[T; 2]>;

impl<T, A: Array<Item = T>> RangeSet<A> {
    /// Returns an iterator over the ranges, from the lowest on.
    ///
    /// # Examples
    ///
    /// ```
    /// use range_sets::RangeSet2;
    ///
    /// let set: RangeSet2<i32> = (0..10).into();
    /// for range in set.iter() {
    ///     assert_eq!(range.cloned(), (0..10).into());
    /// }
    /// ```
    pub fn iter(&self) -> Iter<'_, T> {
        Iter::new(self.list.as_slice())
    }
}
