//! Calls of a set in place of traits, whose calls return no error, and copies of one range.

use crate::any_range::IntoRange;
use crate::array::{Array, List};
use crate::entry::RangeSetEntry;
use crate::fallible::{AllocError, EntryClone, RangeSet};
use crate::generated::range_collections::EntryCopier;
use crate::generated::range_merge::{DiffOp, IntersectionOp, UnionOp, XorOp};
use crate::range::RangeSetRange;
use crate::view::RangeSetRef;

impl<T: EntryClone, A: Array<Item = T>> RangeSet<A> {
    /// Returns a copy of any set or view.
    ///
    /// # Errors
    ///
    /// If memory runs out or a copy fails.
    ///
    /// # Examples
    ///
    /// ```
    /// use range_sets::fallible::{AllocError, RangeSet2};
    /// use range_sets::RangeSetRef;
    ///
    /// let view = RangeSetRef::new(&[0, 10, 20]).unwrap();
    /// let set: RangeSet2<i32> = RangeSet2::copied(view)?;
    /// assert_eq!(set, view);
    /// # Ok::<(), AllocError>(())
    /// ```
    pub fn copied(set: &RangeSetRef<T>) -> Result<Self, AllocError> {
        A::List::copied(set.boundaries(), &EntryCopier).map(Self::of_list)
    }

    /// Returns a copy of the set.
    ///
    /// # Errors
    ///
    /// If memory runs out or a copy fails.
    ///
    /// # Examples
    ///
    /// ```
    /// use range_sets::fallible::{AllocError, RangeSet2};
    ///
    /// let set = RangeSet2::try_from("a".to_string().."b".to_string())?;
    /// assert_eq!(set.try_clone()?, set);
    /// # Ok::<(), AllocError>(())
    /// ```
    pub fn try_clone(&self) -> Result<Self, AllocError> {
        Self::copied(self)
    }
}

impl<T: RangeSetEntry, A: Array<Item = T>> RangeSet<A> {
    /// Returns the set of the values that are no members. It is `!` of other sets.
    ///
    /// # Errors
    ///
    /// If memory runs out. The set is then dropped; [`combine`](Self::combine) leaves it.
    ///
    /// # Examples
    ///
    /// ```
    /// use range_sets::fallible::{AllocError, RangeSet2};
    ///
    /// let set = RangeSet2::<u8>::try_from(0..10)?;
    /// assert_eq!(set.negated()?.boundaries(), [10]);
    /// # Ok::<(), AllocError>(())
    /// ```
    pub fn negated(self) -> Result<Self, AllocError> {
        self.list.negated().map(Self::of_list)
    }
}

impl<T: Ord, A: Array<Item = T>> RangeSet<A> {
    /// Adds the values of the ranges, which stand in any order.
    ///
    /// # Errors
    ///
    /// If memory runs out. None of the ranges is then added.
    ///
    /// # Examples
    ///
    /// ```
    /// use range_sets::fallible::{AllocError, RangeSet2};
    ///
    /// let mut busy = RangeSet2::try_from(11..12)?;
    /// busy.extend([15..18, 12..13])?;
    /// assert_eq!(busy.boundaries(), [11, 13, 15, 18]);
    /// # Ok::<(), AllocError>(())
    /// ```
    pub fn extend<R>(&mut self, ranges: impl IntoIterator<Item = R>) -> Result<(), AllocError>
    where
        R: IntoRange<T>,
    {
        self.bitor_assign(Self::from_ranges(ranges)?)
            .map_err(|(refused, _)| refused)
    }
}

macro_rules! with_owned {
    ($($(#[$doc:meta])* pub fn $call:ident by $op:ident, $boundaries:literal;)*) => {
        /// These move the boundaries of an owned set, and copy none.
        impl<T: Ord, A: Array<Item = T>> RangeSet<A> {$(
            $(#[$doc])*
            ///
            /// # Errors
            ///
            /// If memory runs out. The set is then as it was, and the other one comes back as it
            /// was.
            ///
            #[doc = example!(fails "RangeSet2";
                "let mut set = RangeSet2::try_from(0..10)"?
                "let other = RangeSet2::try_from(5..)"?
                ["set.", stringify!($call), "(other).map_err(|(refused, _)| refused)"]?
                "assert_eq!(set.boundaries(), " $boundaries ");",
            )]
            pub fn $call(&mut self, that: Self) -> Result<(), (AllocError, Self)> {
                let merged = self.list.merge_owned(that.list, &$op);
                merged.map_err(|(refused, list)| (refused, Self::of_list(list)))
            }
        )*}
    };
}

with_owned! {
    /// Adds the members of an owned set, as `|=` does.
    pub fn bitor_assign by UnionOp, "[0]";
    /// Keeps the members that are members of an owned set too, as `&=` does.
    pub fn bitand_assign by IntersectionOp, "[5, 10]";
    /// Takes the members of an owned set out and adds those that weren't in, as `^=` does.
    pub fn bitxor_assign by XorOp, "[0, 5, 10]";
    /// Takes the members of an owned set out, as `-=` does.
    pub fn sub_assign by DiffOp, "[0, 5]";
}

impl<T: EntryClone> RangeSetRange<&T> {
    /// Returns the range of copies of both ends: [`cloned`](Self::cloned) for those who can't let
    /// memory run out.
    ///
    /// # Errors
    ///
    /// If a copy fails.
    ///
    /// # Examples
    ///
    /// ```
    /// use range_sets::fallible::{AllocError, RangeSet2};
    ///
    /// let set = RangeSet2::try_from("a".to_string()..)?;
    /// assert_eq!(set.first().unwrap().try_cloned()?, ("a".to_string()..).into());
    /// # Ok::<(), AllocError>(())
    /// ```
    pub fn try_cloned(&self) -> Result<RangeSetRange<T>, AllocError> {
        self.copied_by(&EntryCopier)
    }
}
