//! The parts of a range that have values, and what is free: calls that sets have, too.

use super::Map;
use crate::any_range::{AnyRange, Ended};
use crate::entry::Length;
use crate::fitting;
use crate::generated::range_collections::Countable;
use crate::range::RangeSetRange;

impl<K: Ord, V: Eq, C> Map<K, V, C> {
    /// Returns an iterator over the parts of a range [of any kind](AnyRange) that have a value, from
    /// the lowest on and from the highest down, each with it.
    ///
    /// It makes *O*(log *n*) comparisons, and two for a step. [`overlapping`](Self::overlapping)
    /// gives ranges that aren't cut.
    ///
    /// # Examples
    ///
    /// ```
    /// use range_sets::RangeMap;
    ///
    /// let bookings = RangeMap::from([(9..11, "Ada"), (11..14, "Bob"), (15..16, "Eve")]);
    /// let parts = bookings.ranges_within(10..=12);
    /// assert!(parts.eq([((10..11).into(), &"Ada"), ((11..13).into(), &"Bob")]));
    /// ```
    pub fn ranges_within<'a>(
        &'a self,
        within: impl AnyRange<K>,
    ) -> impl DoubleEndedIterator<Item = (RangeSetRange<K>, &'a V)> + Clone + 'a
    where
        K: Clone,
    {
        let within = within.into();
        let met = self.overlapping(within.as_ref());
        met.map(move |(range, value)| (range.common_with(&within), value))
    }

    /// Returns how many keys have a value, or `None` if the last range has no end. It looks at each
    /// range.
    ///
    /// # Examples
    ///
    /// ```
    /// use range_sets::RangeMap;
    ///
    /// assert_eq!(RangeMap::from([(9..11, "Ada"), (11..14, "Bob")]).covered(), Some(5));
    /// assert_eq!(RangeMap::from([(9.., "Ada")]).covered(), None);
    /// ```
    #[must_use]
    pub fn covered(&self) -> Option<u128>
    where
        K: Countable,
    {
        self.iter().map(|(range, _)| range.len()).sum()
    }

    /// Returns the lowest key at or above `from` that has no value, or `None` if there is none.
    ///
    /// It takes one step for each range from there on that touches the one before.
    ///
    /// # Examples
    ///
    /// ```
    /// use range_sets::RangeMap;
    ///
    /// let bookings = RangeMap::from([(9..11, "Ada"), (11..14, "Bob")]);
    /// assert_eq!(bookings.next_gap(&10), Some(&14));
    /// assert_eq!(bookings.next_gap(&20), Some(&20));
    /// ```
    #[must_use]
    pub fn next_gap<'a>(&'a self, from: &'a K) -> Option<&'a K> {
        let (has_value, mut changes, _) = self.changes_within(from, None);
        if has_value {
            changes.next()
        } else {
            Some(from)
        }
    }

    /// Returns the least key of a range from which on `len` keys of it have no value, or `None` if
    /// there is no such stretch. It takes time for each range up to the result.
    ///
    /// # Examples
    ///
    /// ```
    /// use range_sets::RangeMap;
    ///
    /// let bookings = RangeMap::from([(9..11, "Ada"), (12..14, "Bob")]);
    /// assert_eq!(bookings.first_fit(9..17, 1), Some(11));
    /// assert_eq!(bookings.first_fit(9..17, 3), Some(14));
    /// assert_eq!(bookings.first_fit(9..17, 4), None);
    /// ```
    #[must_use]
    pub fn first_fit(&self, within: impl Ended<K>, len: K) -> Option<K>
    where
        K: Length,
    {
        fitting::first_fit(self, within, len)
    }
}
