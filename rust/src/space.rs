//! Sets that are searched for room again and again.

mod calls;

use crate::any_range::IntoRange;
use crate::chunked::ChunkedRangeSet;
use crate::generated::range_chunks as proved;
use crate::generated::range_collections::Countable;
use core::ops::Deref;

/// A space whose values are taken and freed range by range, as an allocator's addresses.
///
/// It is a [`ChunkedRangeSet`] of what is taken that also remembers how long the gaps are, for some
/// 512 of them at a time. So [`first_fit`](Self::first_fit) passes over those that are too short.
/// What it remembers of gaps stays until one of their neighbours is freed; they are read again by
/// the next search that comes by.
///
/// It dereferences to the set, for all its questions. Blocks that touch become one range: where
/// each must be told from the next, keep a second set of the values at which they start.
///
/// # Examples
///
/// ```
/// use range_sets::ChunkedSpace;
///
/// let mut heap = ChunkedSpace::new();
/// heap.insert(0u64..4096);
/// assert_eq!(heap.first_fit(0..65_536, 512), Some(4096));
///
/// heap.remove(1024..2048);
/// assert_eq!(heap.first_fit(0..65_536, 512), Some(1024));
/// assert_eq!((heap.ranges_len(), heap.next_gap(&0)), (2, Some(&1024)));
/// ```
///
/// # Memory
///
/// If memory runs out for a change, the process ends, as in std's collections;
/// [`fallible::ChunkedSpace`](crate::fallible::ChunkedSpace) returns an error instead. A search
/// never fails: without memory it remembers less.
pub struct ChunkedSpace<T: Countable + Copy>(proved::ChunkedSpace<T>);

impl<T: Countable + Copy> ChunkedSpace<T> {
    /// Returns the set of what is taken.
    ///
    /// # Examples
    ///
    /// ```
    /// use range_sets::ChunkedSpace;
    ///
    /// let used = ChunkedSpace::from_ranges([0u64..10, 80..128]);
    /// assert!(used.as_set().contains_range(80..=127));
    /// assert_eq!(used.as_set().next_gap(&90), Some(&128));
    /// ```
    #[inline(always)]
    #[must_use]
    pub fn as_set(&self) -> &ChunkedRangeSet<T> {
        ChunkedRangeSet::over(self.0.as_set())
    }

    pub(crate) fn proved_mut(&mut self) -> &mut proved::ChunkedSpace<T> {
        &mut self.0
    }

    pub(crate) fn into_proved(self) -> proved::ChunkedSpace<T> {
        self.0
    }

    pub(crate) fn of_proved(space: proved::ChunkedSpace<T>) -> Self {
        ChunkedSpace(space)
    }
}

/// A space where the same values are taken. What is remembered of gaps isn't copied.
impl<T: Countable + Copy> Clone for ChunkedSpace<T> {
    fn clone(&self) -> Self {
        self.as_set().clone().into()
    }
}

/// The set of what is taken.
impl<T: Countable + Copy> Deref for ChunkedSpace<T> {
    type Target = ChunkedRangeSet<T>;

    #[inline(always)]
    fn deref(&self) -> &ChunkedRangeSet<T> {
        self.as_set()
    }
}

/// The space where the union of the ranges is taken, which stand in any order.
impl<T: Countable + Copy, R: IntoRange<T>> FromIterator<R> for ChunkedSpace<T> {
    fn from_iter<I: IntoIterator<Item = R>>(ranges: I) -> Self {
        Self::from_ranges(ranges)
    }
}

/// Takes the values of the ranges one after the other, which stand in any order.
impl<T: Countable + Copy, R: IntoRange<T>> Extend<R> for ChunkedSpace<T> {
    fn extend<I: IntoIterator<Item = R>>(&mut self, ranges: I) {
        for range in ranges {
            self.insert(range.into());
        }
    }
}
