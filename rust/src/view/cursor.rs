//! Values looked up one after another.

use crate::generated::range_collections as proved;
use crate::view::RangeSetRef;
use core::fmt;

/// A cursor over a set: looks up values one after another, each from where the last one was found.
///
/// This struct is created by [`cursor`]. Values may come in any order. In ascending order, and
/// close to one another, each takes a few comparisons, however many boundaries there are. In no
/// order [`contains`] of the set is faster.
///
/// [`cursor`]: RangeSetRef::cursor
/// [`contains`]: RangeSetRef::contains
///
/// # Examples
///
/// ```
/// use range_sets::RangeSetRef;
///
/// let open = RangeSetRef::new(&[9, 13, 15, 20]).unwrap();
/// let mut cursor = open.cursor();
/// let asked = [8, 12, 14, 15];
/// assert_eq!(asked.map(|hour| cursor.contains(&hour)), [false, true, false, true]);
/// ```
pub struct Cursor<'a, T: Ord>(proved::Cursor<'a, T>);

impl<T: Ord> Cursor<'_, T> {
    /// Returns `true` if `value` is a member.
    ///
    /// It makes *O*(log *d*) comparisons, where *d* is the number of boundaries from the last value
    /// up to this one, and *O*(log *n*) for a lower value, where *n* is that of all boundaries.
    ///
    /// # Examples
    ///
    /// ```
    /// use range_sets::RangeSet2;
    ///
    /// let set = RangeSet2::from(0..10);
    /// let mut cursor = set.cursor();
    /// assert!(cursor.contains(&9));
    /// assert!(!cursor.contains(&10));
    /// ```
    #[inline]
    #[must_use]
    pub fn contains(&mut self, value: &T) -> bool {
        self.0.contains(value)
    }
}

impl<T: Ord> Clone for Cursor<'_, T> {
    #[inline]
    fn clone(&self) -> Self {
        *self
    }
}

impl<T: Ord> Copy for Cursor<'_, T> {}

/// Shows the boundaries before the place, which are at or below the last value, and those after it.
impl<T: Ord + fmt::Debug> fmt::Debug for Cursor<'_, T> {
    fn fmt(&self, f: &mut fmt::Formatter<'_>) -> fmt::Result {
        let (before, after) = self.0.set.boundaries.split_at(self.0.place);
        f.debug_struct("Cursor")
            .field("before", &before)
            .field("after", &after)
            .finish()
    }
}

impl<T: Ord> RangeSetRef<T> {
    /// Returns a cursor over the set, before its first boundary.
    ///
    /// # Examples
    ///
    /// ```
    /// use range_sets::RangeSet2;
    ///
    /// let free = RangeSet2::from_ranges([10..20, 30..40]);
    /// let mut cursor = free.cursor();
    /// let taken: Vec<_> = (15..35).filter(|at| !cursor.contains(at)).collect();
    /// assert_eq!(taken, (20..30).collect::<Vec<_>>());
    /// ```
    #[inline]
    #[must_use]
    pub fn cursor(&self) -> Cursor<'_, T> {
        Cursor(self.proved().cursor())
    }
}
