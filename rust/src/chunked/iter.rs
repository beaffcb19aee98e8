//! The ranges of a set in chunks, one by one.

use crate::any_range::{Boundaries, EndedParts};
use crate::chunks::IntoItems;
use crate::generated::range_chunks as proved;
use crate::iter::{adapted_ranges, owned_ranges, ranges_by_value, shown, wraps, Ranges};
use crate::range::RangeSetRange;
use core::fmt;

owned_ranges! {
    ['a, T] Iter<'a, T>: RangeSetRange<&'a T> => RangeSetRange<T>, |it| it.cloned(), of T;
}

wraps! {
    ['a, T] Iter<'a, T>: RangeSetRange<&'a T> = RangeSetRange::from_proved;
}

adapted_ranges! {
    ['a, T] Iter<'a, T>;
}

shown! {
    [T: fmt::Debug] Iter<'_, T>;
}

/// An iterator over the ranges of a set in chunks, from the lowest on and from the highest down.
/// [`ChunkedRangeSet::iter`] makes it.
///
/// [`ChunkedRangeSet::iter`]: crate::ChunkedRangeSet::iter
///
/// # Examples
///
/// ```
/// use range_sets::ChunkedRangeSet;
///
/// let busy = ChunkedRangeSet::from_iter([9..11, 15..18]);
/// let mut ranges = busy.iter();
/// assert_eq!(ranges.next_back().unwrap().cloned(), (15..18).into());
/// assert_eq!(ranges.next().unwrap().cloned(), (9..11).into());
/// assert!(ranges.next().is_none());
/// ```
#[must_use = "iterators are lazy and do nothing unless consumed"]
pub struct Iter<'a, T>(proved::Iter<'a, T>);

impl<'a, T> Iter<'a, T> {
    #[inline(always)]
    pub(crate) fn of_proved(ranges: proved::Iter<'a, T>) -> Self {
        Iter(ranges)
    }
}

/// [`ChunkedRangeSet::gaps`] makes it.
///
/// [`ChunkedRangeSet::gaps`]: crate::ChunkedRangeSet::gaps
///
/// # Examples
///
/// ```
/// use range_sets::{chunked::Gaps, ChunkedRangeSet};
///
/// let busy = ChunkedRangeSet::from_iter([9..11]);
/// let mut free: Gaps<i32> = busy.gaps(&10..&13);
/// assert_eq!(free.next(), Some(&11..&13));
/// assert_eq!(free.next(), None);
/// ```
pub type Gaps<'a, T> = RangesWithin<'a, T>;
/// The parts of a range that are in a set in chunks or not, from both ends.
/// [`ChunkedRangeSet::ranges_within`] makes it, and [`ChunkedRangeSet::gaps`].
///
/// [`ChunkedRangeSet::gaps`]: crate::ChunkedRangeSet::gaps
/// [`ChunkedRangeSet::ranges_within`]: crate::ChunkedRangeSet::ranges_within
///
/// # Examples
///
/// ```
/// use range_sets::{chunked::RangesWithin, ChunkedRangeSet};
///
/// let busy = ChunkedRangeSet::from_iter([9..11]);
/// let mut parts: RangesWithin<i32> = busy.ranges_within(&10..&13);
/// assert_eq!(parts.next(), Some(&10..&11));
/// assert_eq!(parts.next(), None);
/// ```
pub type RangesWithin<'a, T> = EndedParts<&'a T, Boundaries<'a, T>>;

/// An iterator over the ranges of a set in chunks that was taken by value. `into_iter` makes it. It
/// knows how many are left.
///
/// # Examples
///
/// ```
/// use range_sets::ChunkedRangeSet;
///
/// let names = ChunkedRangeSet::from_iter(["a".to_string().."c".to_string()]);
/// for range in names {
///     assert_eq!(format!("{range:?}"), r#""a".."c""#);
/// }
/// ```
#[must_use = "iterators are lazy and do nothing unless consumed"]
pub struct IntoIter<T>(IntoItems<T, bool>);

impl<T> IntoIter<T> {
    pub(super) fn new(set: proved::ChunkedRangeSet<T>) -> Self
    where
        T: Ord,
    {
        IntoIter(IntoItems::new(set.list))
    }
}

ranges_by_value!([T] IntoIter<T>);
