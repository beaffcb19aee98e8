//! A set in chunks whose calls return an error if memory runs out.

use crate::any_range::IntoRange;
use crate::array::{Array, List};
use crate::chunked;
use crate::fallible::{AllocError, EntryClone, RangeSet};
use crate::generated::range_chunks as proved;
use crate::range_set::RangeSetRef;
use crate::support::Global;
use core::ops::Deref;

/// A set that is changed one range at a time, and whose calls return an error if memory runs out.
///
/// It dereferences to [`crate::ChunkedRangeSet`] for the questions, none of which takes memory, and
/// a set goes either way by `into` without a copy.
///
/// # Examples
///
/// ```
/// use range_sets::fallible::{AllocError, ChunkedRangeSet};
///
/// let mut pieces = ChunkedRangeSet::new();
/// pieces.insert(40..50)?;
/// pieces.insert(10..20)?;
/// pieces.remove(12..15)?;
/// assert_eq!(pieces.next_gap(&15), Some(&20));
/// assert_eq!(pieces.to_string(), "10..12, 15..20, 40..50");
/// # Ok::<(), AllocError>(())
/// ```
///
/// A sorted list of boundaries is looked over and copied, without a sort:
///
/// ```
/// use range_sets::fallible::{AllocError, ChunkedRangeSet};
/// use range_sets::RangeSetRef;
///
/// let view = RangeSetRef::new(&[10, 20, 40, 50]).expect("they are sorted");
/// let pieces = ChunkedRangeSet::try_from(view)?;
/// assert_eq!(pieces.to_string(), "10..20, 40..50");
/// # Ok::<(), AllocError>(())
/// ```
pub struct ChunkedRangeSet<T: Ord>(chunked::ChunkedRangeSet<T>);

second_form!([T: Ord] ChunkedRangeSet of chunked, "Adds");

impl<T: Ord> ChunkedRangeSet<T> {
    /// Returns a copy.
    ///
    /// # Errors
    ///
    /// If memory runs out or a copy of a boundary fails.
    ///
    /// # Examples
    ///
    /// ```
    /// use range_sets::fallible::{AllocError, ChunkedRangeSet};
    ///
    /// let mut busy = ChunkedRangeSet::new();
    /// busy.insert(9..17)?;
    /// assert_eq!(busy.try_clone()?, busy);
    /// # Ok::<(), AllocError>(())
    /// ```
    pub fn try_clone(&self) -> Result<Self, AllocError>
    where
        T: EntryClone,
    {
        self.proved().try_clone().map(Self::of_proved)
    }

    /// Returns the set in one list, with the boundaries of this one, which are moved.
    ///
    /// # Errors
    ///
    /// If memory runs out. This set then comes back as it was.
    ///
    /// # Examples
    ///
    /// ```
    /// use range_sets::fallible::{ChunkedRangeSet, RangeSet2};
    ///
    /// let mut busy = ChunkedRangeSet::new();
    /// busy.insert(9..17).unwrap();
    /// let list: RangeSet2<u32> = busy.into_set().unwrap();
    /// assert_eq!(list.boundaries(), [9, 17]);
    /// ```
    pub fn into_set<A: Array<Item = T>>(self) -> Result<RangeSet<A>, (AllocError, Self)> {
        match A::List::of_chunks(self.into_proved()) {
            Ok(list) => Ok(RangeSet::of_list(list)),
            Err((refused, set)) => Err((refused, Self::of_proved(set))),
        }
    }

    /// Adds copies of the members of `that`, and leaves it empty.
    ///
    /// # Errors
    ///
    /// If memory runs out or a copy of a boundary fails. Both sets are then as they were.
    ///
    /// # Examples
    ///
    /// ```
    /// use range_sets::fallible::{AllocError, ChunkedRangeSet};
    ///
    /// let mut busy = ChunkedRangeSet::from_ranges([9..11])?;
    /// let mut more = ChunkedRangeSet::from_ranges([10..12, 15..18])?;
    /// busy.append(&mut more)?;
    /// assert_eq!(busy.to_string(), "9..12, 15..18");
    /// assert!(more.is_empty());
    /// # Ok::<(), AllocError>(())
    /// ```
    pub fn append(&mut self, that: &mut Self) -> Result<(), AllocError>
    where
        T: EntryClone,
    {
        self.changed(|set| that.changed(|that| set.append(that)))
    }

    /// Removes the members at and above `at`, and returns the set of copies of them.
    ///
    /// # Errors
    ///
    /// If memory runs out or a copy of a boundary fails. The set is then as it was.
    ///
    /// # Examples
    ///
    /// ```
    /// use range_sets::fallible::{AllocError, ChunkedRangeSet};
    ///
    /// let mut busy = ChunkedRangeSet::from_ranges([9..11, 15..18])?;
    /// let late = busy.split_off(&16)?;
    /// assert_eq!((busy.to_string(), late.to_string()), ("9..11, 15..16".into(), "16..18".into()));
    /// # Ok::<(), AllocError>(())
    /// ```
    #[must_use = "`remove` takes the values out and returns none"]
    pub fn split_off(&mut self, at: &T) -> Result<Self, AllocError>
    where
        T: EntryClone,
    {
        self.changed(|set| set.split_off(at)).map(Self::of_proved)
    }

    #[inline(always)]
    pub(crate) fn changed<R>(
        &mut self,
        change: impl FnOnce(&mut proved::ChunkedRangeSet<T>) -> R,
    ) -> R {
        self.0.changed(change)
    }
}

/// The set with the boundaries of a `RangeSet`, which are moved. If memory runs out, they are
/// dropped.
impl<T: Ord, A: Array<Item = T>> TryFrom<RangeSet<A>> for ChunkedRangeSet<T> {
    type Error = AllocError;

    fn try_from(set: RangeSet<A>) -> Result<Self, AllocError> {
        set.list.into_chunks().map(Self::of_proved)
    }
}

/// The set of copies of a view's boundaries.
impl<T: EntryClone> TryFrom<&RangeSetRef<T>> for ChunkedRangeSet<T> {
    type Error = AllocError;

    fn try_from(view: &RangeSetRef<T>) -> Result<Self, AllocError> {
        proved::ChunkedRangeSet::from_view(Global, view.proved()).map(Self::of_proved)
    }
}
