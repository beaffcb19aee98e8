//! Questions of one set, or of two. None takes memory.

use crate::generated::range_collections::{questions, Comparisons, FromPlace};
use crate::generated::range_merge::NoRoom;
use crate::iter::Members;
use crate::operation::Connective;
use crate::range::RangeSetRange;
use crate::relations::check_merge;
use crate::view::RangeSetRef;

impl<T> RangeSetRef<T> {
    /// Returns `true` if the set has no member.
    ///
    /// # Examples
    ///
    /// ```
    /// use range_sets::RangeSetRef;
    ///
    /// assert!(RangeSetRef::<u8>::empty().is_empty());
    /// ```
    #[must_use]
    pub const fn is_empty(&self) -> bool {
        self.boundaries().is_empty()
    }
}

impl<T: Ord> RangeSetRef<T> {
    /// Whether some value of the range is no member.
    pub(crate) fn lacks_some(&self, range: &RangeSetRange<T>) -> bool {
        match range {
            RangeSetRange::Range(range) => {
                let mut count = Comparisons::new();
                !questions::has_all(self.boundaries(), &range.start, &range.end, &mut count)
            }
            RangeSetRange::RangeFrom(range) => !self.has_all_from(&range.start),
        }
    }

    /// Whether some value of the range is a member.
    pub(crate) fn has_some(&self, range: &RangeSetRange<T>) -> bool {
        match range {
            RangeSetRange::Range(range) => {
                questions::has_some(self.boundaries(), &range.start, &range.end)
            }
            RangeSetRange::RangeFrom(range) => self.has_some_from(&range.start),
        }
    }

    /// Returns the members one by one, from the lowest on or from the highest down.
    ///
    /// # Examples
    ///
    /// ```
    /// use range_sets::RangeSetRef;
    ///
    /// let set = RangeSetRef::new(&[3u8, 5, 254]).unwrap();
    /// assert!(set.members().eq([3, 4, 254, 255]));
    /// assert!(set.members().rev().take(3).eq([255, 254, 4]));
    /// ```
    pub fn members(&self) -> Members<'_, T>
    where
        T: FromPlace,
    {
        self.proved().members()
    }

    /// Writes the boundaries of an operation's result to the front of `out`, and returns how many
    /// there are.
    ///
    /// What lies after them in `out` stays.
    ///
    /// # Errors
    ///
    /// If `out` is too short, the error has the length that is needed, and what `out` then holds
    /// isn't specified.
    ///
    /// # Panics
    ///
    /// Panics if the operation has members where both sets have none, as
    /// [`merge_len`](Self::merge_len) does.
    ///
    /// # Examples
    ///
    /// ```
    /// use range_sets::{Connective, RangeSetRef};
    ///
    /// let day = RangeSetRef::new(&[9, 17]).unwrap();
    /// let busy = RangeSetRef::new(&[11, 12, 15, 18]).unwrap();
    /// let mut out = [0; 4];
    /// assert_eq!(day.merge_into(busy, Connective::DIFFERENCE, &mut out), Ok(4));
    /// assert_eq!(out, [9, 11, 12, 15]);
    ///
    /// let refused = day.merge_into(busy, Connective::DIFFERENCE, &mut out[..2]);
    /// assert_eq!(refused.unwrap_err().needed, 4);
    /// ```
    pub fn merge_into(
        &self,
        that: &RangeSetRef<T>,
        op: Connective,
        out: &mut [T],
    ) -> Result<usize, NoRoom>
    where
        T: Copy,
    {
        check_merge(self, that, op);
        self.proved()
            .merge_into(that.proved(), &op, out, &mut Comparisons::new())
    }
}
