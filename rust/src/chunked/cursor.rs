//! Values of a set in chunks looked up one after another.

use super::ChunkedRangeSet;
use crate::generated::range_collections::{Boundaries, Comparisons};
use crate::generated::range_list::{Chunks, Place, FRONT};
use core::fmt;

/// A cursor over a set in chunks: looks up values one after another, each from where the last one
/// was found, as [`Cursor`](crate::Cursor) does in one list. [`ChunkedRangeSet::cursor`] makes it.
pub struct Cursor<'a, T> {
    list: &'a Chunks<T, bool>,
    place: Place,
}

impl<T: Ord> Cursor<'_, T> {
    /// Returns `true` if `value` is a member.
    ///
    /// It makes three comparisons at most if the value is above the last one, with one boundary at
    /// most between them, and else a search more.
    ///
    /// # Examples
    ///
    /// ```
    /// use range_sets::ChunkedRangeSet;
    ///
    /// let set = ChunkedRangeSet::from([9..13, 15..20]);
    /// let mut cursor = set.cursor();
    /// assert_eq!([8, 12, 14, 9].map(|hour| cursor.contains(&hour)), [false, true, false, true]);
    /// ```
    #[inline]
    #[must_use]
    pub fn contains(&mut self, value: &T) -> bool {
        let (list, place) = (self.list, self.place);
        let is_above = |at| list.item_at(at).map_or(true, |item| item > value);
        let is_on = list.item_before(place).map_or(true, |item| item <= value);
        if !is_on || !is_above(place) {
            let next = if is_on {
                list.place_after(place)
            } else {
                place
            };
            self.place = if is_on && is_above(next) {
                next
            } else {
                list.up_to(value, &mut Comparisons::new())
            };
        }
        list.mark_at(self.place)
    }
}

impl<T> Clone for Cursor<'_, T> {
    fn clone(&self) -> Self {
        Cursor { ..*self }
    }
}

impl<T> fmt::Debug for Cursor<'_, T> {
    fn fmt(&self, f: &mut fmt::Formatter<'_>) -> fmt::Result {
        f.debug_struct("Cursor").finish_non_exhaustive()
    }
}

impl<T: Ord> ChunkedRangeSet<T> {
    /// Returns a cursor over the set, before its first boundary.
    ///
    /// # Examples
    ///
    /// ```
    /// use range_sets::ChunkedRangeSet;
    ///
    /// let free = ChunkedRangeSet::from([10..20, 30..40]);
    /// let mut cursor = free.cursor();
    /// assert_eq!((15..35).filter(|at| !cursor.contains(at)).count(), 10);
    /// ```
    #[inline]
    #[must_use]
    pub fn cursor(&self) -> Cursor<'_, T> {
        Cursor {
            list: &self.proved().list,
            place: FRONT,
        }
    }
}
