//! A borrowed set: its boundaries as a slice.

mod cursor;
mod fitting;
mod operations;
mod operators;
mod parts;
mod questions;

use crate::generated::range_collections as proved;
pub use cursor::Cursor;

/// A borrowed set of values: a slice of strictly sorted boundaries behind a reference.
///
/// It stands to [`RangeSet`] as `str` to `String`: `&set` is one, and all that can be asked of a
/// set is asked of it. A value is a member if an odd number of boundaries is at or below it.
/// Nothing is copied to make one.
///
/// [`RangeSet`]: crate::RangeSet
///
/// # Examples
///
/// ```
/// use range_sets::RangeSetRef;
///
/// let open = RangeSetRef::new(&[9, 13, 15, 20]).unwrap();
/// assert!(open.contains(&12));
/// assert!(!open.contains(&13));
/// ```
#[derive(Debug, PartialEq, Eq, PartialOrd, Ord, Hash)]
#[repr(transparent)]
pub struct RangeSetRef<T>([T]);

impl<T> RangeSetRef<T> {
    /// Returns the empty set.
    ///
    /// # Examples
    ///
    /// ```
    /// use range_sets::RangeSetRef;
    ///
    /// const NOTHING: &RangeSetRef<u8> = RangeSetRef::empty();
    /// assert!(!NOTHING.contains(&0));
    /// ```
    #[must_use]
    pub const fn empty() -> &'static Self {
        Self::over(&[])
    }

    /// Returns the set of `value` and all values above it.
    ///
    /// # Examples
    ///
    /// ```
    /// use range_sets::RangeSetRef;
    ///
    /// let late = RangeSetRef::single(&18);
    /// assert!(late.contains(&18));
    /// assert!(!late.contains(&17));
    /// ```
    #[must_use]
    pub const fn single(value: &T) -> &Self {
        Self::over(core::slice::from_ref(value))
    }

    /// Returns the set with these boundaries, or `None` if they aren't strictly sorted.
    ///
    /// It compares each boundary with the next.
    ///
    /// # Examples
    ///
    /// ```
    /// use range_sets::RangeSetRef;
    ///
    /// assert!(RangeSetRef::new(&[0, 10, 20]).is_some());
    /// assert!(RangeSetRef::new(&[0, 10, 10]).is_none());
    /// assert!(RangeSetRef::new(&[10, 0]).is_none());
    /// ```
    #[must_use]
    pub fn new(boundaries: &[T]) -> Option<&Self>
    where
        T: Ord,
    {
        proved::RangeSetRef::new(boundaries).map(Self::of_proved)
    }

    /// Returns the set with these boundaries, and doesn't look whether they are strictly sorted.
    ///
    /// If they aren't, calls give wrong results or panic. Nothing is undefined.
    ///
    /// # Examples
    ///
    /// ```
    /// use range_sets::RangeSetRef;
    ///
    /// const OPEN: &RangeSetRef<u8> = RangeSetRef::new_unchecked(&[9, 17]);
    /// assert!(OPEN.contains(&12));
    /// ```
    #[cfg(feature = "new_unchecked")]
    #[cfg_attr(docsrs, doc(cfg(feature = "new_unchecked")))]
    #[must_use]
    pub const fn new_unchecked(boundaries: &[T]) -> &Self {
        Self::over(boundaries)
    }

    /// Returns the boundaries, strictly sorted.
    ///
    /// # Examples
    ///
    /// ```
    /// use range_sets::RangeSet2;
    ///
    /// let set: RangeSet2<i32> = (0..10).into();
    /// assert_eq!(set.boundaries(), [0, 10]);
    /// ```
    #[must_use]
    pub const fn boundaries(&self) -> &[T] {
        &self.0
    }

    #[allow(unsafe_code)]
    #[inline(always)]
    pub(crate) const fn over(boundaries: &[T]) -> &Self {
        // SAFETY: the struct is a slice and nothing else (`repr(transparent)`), so a pointer to the
        // one is a pointer to the other, of the same length. Every slice is a valid value: what
        // reads it asks nothing of its order.
        unsafe { &*(boundaries as *const [T] as *const Self) }
    }

    #[inline(always)]
    fn of_proved(view: proved::RangeSetRef<'_, T>) -> &Self
    where
        T: Ord,
    {
        Self::over(view.boundaries())
    }

    #[inline(always)]
    pub(crate) fn proved(&self) -> proved::RangeSetRef<'_, T>
    where
        T: Ord,
    {
        proved::RangeSetRef::new_unchecked(&self.0)
    }
}

/// The empty set.
impl<T> Default for &RangeSetRef<T> {
    fn default() -> Self {
        RangeSetRef::over(&[])
    }
}

/// So that a set is compared with a view by `==`.
impl<T> AsRef<RangeSetRef<T>> for RangeSetRef<T> {
    fn as_ref(&self) -> &RangeSetRef<T> {
        self
    }
}
