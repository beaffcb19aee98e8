//! Sets that are changed one range at a time, and grow to millions of ranges.

mod changes;
mod combining;
mod cursor;
mod iter;
mod members;
mod taking;
mod traits;

pub use crate::relations::AnySet;
pub use cursor::Cursor;
pub use iter::{Gaps, IntoIter, Iter, RangesWithin};
pub use members::Members;

use crate::any_range::Ended;
use crate::chunks;
use crate::entry::Length;
use crate::generated::range_chunks as proved;
use crate::generated::range_list::chunk::Chunk;
use core::mem;

/// A set that is changed one range at a time, and may grow to millions of ranges.
///
/// A [`RangeSet`](crate::RangeSet) keeps its boundaries in one list, so a change moves all that
/// come after it. Here they lie in chunks of at most 512, and a change moves those of one chunk,
/// and now and then the list of chunks. Take a `RangeSet` for operations on whole sets, views and
/// text, and up to some 10,000 ranges; take this one for the pieces of a download or the blocks of
/// an allocator beyond that. [`ChunkedSpace`](crate::ChunkedSpace) is faster where room between the
/// ranges is looked for again and again.
///
/// # Examples
///
/// ```
/// use range_sets::ChunkedRangeSet;
///
/// let mut pieces = ChunkedRangeSet::new();
/// pieces.insert(40..50);
/// pieces.insert(10..20);
/// pieces.remove(12..15);
/// assert!(pieces.contains(&16));
/// assert_eq!(pieces.next_gap(&15), Some(&20));
/// assert_eq!(pieces.to_string(), "10..12, 15..20, 40..50");
/// ```
///
/// A sorted list of boundaries is looked over and copied, without a sort:
///
/// ```
/// use range_sets::{ChunkedRangeSet, RangeSetRef};
///
/// let load = |list: &[u64]| RangeSetRef::new(list).map(ChunkedRangeSet::from);
/// assert_eq!(load(&[10, 20, 40, 50]).unwrap().to_string(), "10..20, 40..50");
/// assert!(load(&[10, 40, 20, 50]).is_none());
/// ```
///
/// # Comparisons
///
/// Among *c* chunks a search makes at most as many comparisons as *c* has binary digits, and ten
/// more. A question with one value is one search. A change, or a question with a range, is two, and
/// one comparison of the range's ends.
///
/// # Memory
///
/// If memory runs out, a call ends the process, as std's collections do.
/// [`fallible::ChunkedRangeSet`](crate::fallible::ChunkedRangeSet) returns an error instead.
///
/// # Panics in elements
///
/// If a comparison or a drop panics, the set is as it was, changed as asked, or empty.
#[repr(transparent)]
pub struct ChunkedRangeSet<T: Ord>(proved::ChunkedRangeSet<T>);

impl<T: Ord> ChunkedRangeSet<T> {
    /// Returns the least number of the range from which on `len` numbers of it are free, that is,
    /// not members.
    ///
    /// It is `None` if there is no such stretch. It takes time for each boundary up to the result;
    /// for repeated searches there is [`ChunkedSpace::first_fit`](crate::ChunkedSpace::first_fit).
    ///
    /// # Examples
    ///
    /// ```
    /// use range_sets::ChunkedRangeSet;
    ///
    /// let used = ChunkedRangeSet::from_iter([0u64..64, 80..128]);
    /// assert_eq!(used.first_fit_unchanged(0..4096, 16), Some(64));
    /// assert_eq!(used.first_fit_unchanged(0..4096, 20), Some(128));
    /// ```
    #[must_use]
    pub fn first_fit_unchanged(&self, within: impl Ended<T>, len: T) -> Option<T>
    where
        T: Length,
    {
        self.0.first_fit_count_unchanged(within, len.count()?)
    }

    /// Returns `true` if the set has no member.
    ///
    /// # Examples
    ///
    /// ```
    /// use range_sets::ChunkedRangeSet;
    ///
    /// assert!(ChunkedRangeSet::from_iter([3..3]).is_empty());
    /// ```
    #[must_use]
    pub fn is_empty(&self) -> bool {
        self.0.is_empty()
    }

    /// Returns how many ranges there are. It adds up the chunks.
    ///
    /// # Examples
    ///
    /// ```
    /// use range_sets::ChunkedRangeSet;
    ///
    /// assert_eq!(ChunkedRangeSet::from_iter([9..11, 15..18]).ranges_len(), 2);
    /// ```
    #[doc(alias = "len")]
    #[must_use]
    pub fn ranges_len(&self) -> usize {
        self.0.ranges_len()
    }

    /// Returns how many boundaries there are. It adds up the chunks.
    ///
    /// # Examples
    ///
    /// ```
    /// use range_sets::ChunkedRangeSet;
    ///
    /// assert_eq!(ChunkedRangeSet::from_iter([9..11, 15..18]).boundaries_len(), 4);
    /// ```
    #[must_use]
    pub fn boundaries_len(&self) -> usize {
        self.0.boundaries_len()
    }

    /// Returns an iterator over the ranges, from the lowest on. It also runs from the highest range
    /// down.
    ///
    /// # Examples
    ///
    /// ```
    /// use range_sets::ChunkedRangeSet;
    ///
    /// let busy = ChunkedRangeSet::from_iter([15..18, 9..11]);
    /// let starts: Vec<_> = busy.iter().map(|range| format!("{range:?}")).collect();
    /// assert_eq!(starts, ["9..11", "15..18"]);
    /// ```
    pub fn iter(&self) -> Iter<'_, T> {
        Iter::of_proved(self.0.iter())
    }

    /// The boundaries, from the lowest on.
    pub(crate) fn boundaries(&self) -> impl Iterator<Item = &T> {
        chunks::items(&self.0.list)
    }

    #[allow(unsafe_code)]
    #[inline(always)]
    pub(crate) fn over(set: &proved::ChunkedRangeSet<T>) -> &Self {
        // SAFETY: the struct is a proved set and nothing else (`repr(transparent)`), so a pointer
        // to the one is a pointer to the other. Every proved set is a valid value: nothing more is
        // asked of it.
        unsafe { &*(set as *const proved::ChunkedRangeSet<T> as *const Self) }
    }

    pub(crate) fn proved(&self) -> &proved::ChunkedRangeSet<T> {
        &self.0
    }

    pub(crate) fn into_proved(self) -> proved::ChunkedRangeSet<T> {
        self.0
    }

    /// Changes the set. If something panics meanwhile, the boundaries that stay are counted anew.
    #[inline(always)]
    pub(crate) fn changed<R>(
        &mut self,
        change: impl FnOnce(&mut proved::ChunkedRangeSet<T>) -> R,
    ) -> R {
        let changing = Changing(&mut self.0);
        let result = change(changing.0);
        mem::forget(changing);
        result
    }

    pub(crate) fn of_proved(set: proved::ChunkedRangeSet<T>) -> Self {
        ChunkedRangeSet(set)
    }
}

/// A set that is being changed. A drop of it means that something panicked: its boundaries are
/// counted anew.
struct Changing<'a, T: Ord>(&'a mut proved::ChunkedRangeSet<T>);

impl<T: Ord> Drop for Changing<'_, T> {
    fn drop(&mut self) {
        let chunks = self.0.list.chunks.as_slice();
        self.0.list.len = chunks.iter().map(Chunk::len).sum();
    }
}
