//! A space whose calls return an error if memory runs out.

use crate::any_range::IntoRange;
use crate::fallible::{AllocError, EntryClone};
use crate::generated::range_chunks as proved;
use crate::generated::range_collections::Countable;
use crate::space;
use crate::support::Global;
use core::ops::Deref;

/// A space whose values are taken and freed range by range, and whose changes return an error if
/// memory runs out.
///
/// It dereferences to [`crate::ChunkedSpace`] for the questions, and goes either way by `into`
/// without a copy.
///
/// # Examples
///
/// ```
/// use range_sets::fallible::{AllocError, ChunkedSpace};
///
/// let mut heap = ChunkedSpace::new();
/// heap.insert(0u64..4096)?;
/// heap.remove(1024..2048)?;
/// assert_eq!(heap.first_fit(0..65_536, 512), Some(1024));
/// # Ok::<(), AllocError>(())
/// ```
pub struct ChunkedSpace<T: Countable + Copy>(space::ChunkedSpace<T>);

second_form!([T: Countable + Copy] ChunkedSpace of space, "Takes");

impl<T: Countable + Copy> ChunkedSpace<T> {
    /// Returns a space where the same values are taken. What is remembered of gaps isn't copied.
    ///
    /// # Errors
    ///
    /// If memory runs out or a copy of a boundary fails.
    ///
    /// # Examples
    ///
    /// ```
    /// use range_sets::fallible::{AllocError, ChunkedSpace};
    ///
    /// let used = ChunkedSpace::from_ranges([0u64..64])?;
    /// assert_eq!(used.try_clone()?, used);
    /// # Ok::<(), AllocError>(())
    /// ```
    pub fn try_clone(&self) -> Result<Self, AllocError>
    where
        T: EntryClone,
    {
        let taken = self.as_set().proved().try_clone()?;
        Ok(Self::of_proved(proved::ChunkedSpace::from_set(
            Global, taken,
        )))
    }

    pub(crate) fn proved_mut(&mut self) -> &mut proved::ChunkedSpace<T> {
        self.0.proved_mut()
    }
}
