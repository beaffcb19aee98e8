//! The ranges of a set, and what of it lies before, within or after something.

use crate::generated::range_collections::Comparisons;
use crate::generated::range_merge::count_up_to;
use crate::iter::Iter;
use crate::range::RangeSetRange;
use crate::view::RangeSetRef;

impl<T> RangeSetRef<T> {
    /// Returns an iterator over the ranges, from the lowest on. They lie between references, by
    /// [`copied`](Iter::copied) or [`cloned`](Iter::cloned) between values.
    ///
    /// # Examples
    ///
    /// ```
    /// use range_sets::RangeSetRef;
    ///
    /// let set = RangeSetRef::new(&[0, 10, 20]).unwrap();
    /// let ranges: Vec<_> = set.iter().copied().collect();
    /// assert_eq!(ranges, [(0..10).into(), (20..).into()]);
    /// ```
    pub fn iter(&self) -> Iter<'_, T> {
        Iter::new(self.boundaries())
    }

    /// Returns how many ranges there are.
    ///
    /// # Examples
    ///
    /// ```
    /// use range_sets::RangeSetRef;
    ///
    /// assert_eq!(RangeSetRef::new(&[0, 10, 20]).unwrap().ranges_len(), 2);
    /// ```
    #[doc(alias = "len")]
    #[must_use]
    pub fn ranges_len(&self) -> usize {
        self.iter().len()
    }
}

impl<T: Ord> RangeSetRef<T> {
    /// Splits the set at a value: the left part has the same members below it, the right part the
    /// same from it on.
    ///
    /// Both are the shortest such slices of this set's boundaries. The left part may have members
    /// from `at` on, and the right part below it. It makes *O*(log *n*) comparisons and copies
    /// nothing.
    ///
    /// # Examples
    ///
    /// ```
    /// use range_sets::RangeSetRef;
    ///
    /// let set = RangeSetRef::new(&[0, 2, 4, 8]).unwrap();
    /// let (left, right) = set.split(6);
    /// assert_eq!(left.boundaries(), [0, 2, 4]);
    /// assert_eq!(right.boundaries(), [4, 8]);
    /// ```
    #[must_use]
    pub fn split(&self, at: T) -> (&Self, &Self) {
        let (left, right) = self.proved().split(at);
        (Self::of_proved(left), Self::of_proved(right))
    }

    /// The ranges from the one that holds the value on, or else from the next one on.
    pub(crate) fn overlapping_from(&self, value: &T) -> Iter<'_, T> {
        let items = self.boundaries();
        let from = count_up_to(items, value, &mut Comparisons::new());
        Iter::new(&items[from - from % 2..])
    }
}

impl<'a, T> IntoIterator for &'a RangeSetRef<T> {
    type Item = RangeSetRange<&'a T>;
    type IntoIter = Iter<'a, T>;

    fn into_iter(self) -> Iter<'a, T> {
        self.iter()
    }
}
