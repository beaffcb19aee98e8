//! Room for values in a row, none of which is a member. None of the calls takes memory.

use crate::any_range::Ended;
use crate::entry::Length;
use crate::generated::range_collections::Countable;
use crate::view::RangeSetRef;

impl<T: Ord> RangeSetRef<T> {
    /// Returns the least number of the range from which on `len` numbers of it are free, that is,
    /// not members.
    ///
    /// It is `None` if there is no such stretch. It takes time for each boundary up to the result;
    /// for repeated searches there is [`ChunkedSpace`](crate::ChunkedSpace::first_fit).
    ///
    /// # Examples
    ///
    /// Room for 20 bytes beside those that are in use:
    ///
    /// ```
    /// use range_sets::RangeSetRef;
    ///
    /// let used = RangeSetRef::new(&[0u64, 64, 80, 128]).unwrap();
    /// assert_eq!(used.first_fit(0..4096, 16), Some(64));
    /// assert_eq!(used.first_fit(0..4096, 20), Some(128));
    /// assert_eq!(used.first_fit(0..140, 20), None);
    /// ```
    #[must_use]
    pub fn first_fit(&self, within: impl Ended<T>, len: T) -> Option<T>
    where
        T: Length,
    {
        self.first_fit_count(within, len.count()?)
    }

    /// Returns the least value of the range from which on `count` values of it are free, that is,
    /// not members.
    ///
    /// It is `None` if there are no such values, and for a `count` of 0 the start of a range that
    /// isn't reversed. It takes time for each boundary up to the result.
    ///
    /// # Examples
    ///
    /// ```
    /// use range_sets::RangeSetRef;
    ///
    /// let busy = RangeSetRef::new(&[-9, -5, 0, 3]).unwrap();
    /// assert_eq!(busy.first_fit_count(-9..10, 5), Some(-5));
    /// assert_eq!(busy.first_fit_count(-9..10, 6), Some(3));
    /// assert_eq!(busy.first_fit_count(-9..8, 6), None);
    /// ```
    #[must_use]
    pub fn first_fit_count(&self, within: impl Ended<T>, count: u128) -> Option<T>
    where
        T: Countable + Copy,
    {
        self.proved().first_fit_count(within, count)
    }
}
