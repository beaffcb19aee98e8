//! Whole ranges taken out, or moved between two sets, and whole ranges that meet another.

use super::{ChunkedRangeSet, Iter};
use crate::chunks::{self, ByCall};
use crate::forms::{ends, fails};
use crate::generated::range_chunks as proved;
use crate::generated::range_collections::{self as lists, Boundaries, Comparisons};
use crate::range::RangeSetRange;
use crate::range_set::RangeSetRef;
use core::mem;

#[rustfmt::skip]
macro_rules! taking {
    ($form:ident, $Clone:ident, $must_use:meta, $errors:ident, $from:literal) => {
        impl<T: Ord> $form::ChunkedRangeSet<T> {
            /// Keeps the ranges that `keep` returns `true` for, and removes the others. It is
            /// called once for each range, from the lowest on. It takes no memory.
            ///
            /// If it panics, the set is empty.
            ///
            #[doc = example!($form "ChunkedRangeSet";
                "let mut free = ChunkedRangeSet::from_ranges([9..11, 12..15, 20..30])"?
                "free.retain(|range| range.len() != Some(3));",
                "free" => "9..11, 20..30",
            )]
            pub fn retain(&mut self, keep: impl FnMut(RangeSetRange<&T>) -> bool) {
                let keep = ByCall::new(keep);
                let mut set = mem::take(self);
                set.changed(|set| set.retain(&keep));
                *self = set;
            }
        }
    };
}

both_forms!(taking);

impl<T, F: FnMut(RangeSetRange<&T>) -> bool> proved::RangeFilter<T> for ByCall<F> {
    #[inline(always)]
    fn keeps(&self, range: lists::RangeSetRange<&T>) -> bool {
        (self.0.borrow_mut())(RangeSetRange::from_proved(range))
    }
}

impl<T: Ord> ChunkedRangeSet<T> {
    /// Adds the members of `that`, which is empty then. It inserts range after range. If something
    /// panics meanwhile, the set is empty.
    ///
    /// # Examples
    ///
    /// ```
    /// use range_sets::ChunkedRangeSet;
    ///
    /// let mut busy = ChunkedRangeSet::from_iter([9..11]);
    /// let mut more = ChunkedRangeSet::from_iter([10..12, 15..18]);
    /// busy.append(&mut more);
    /// assert_eq!(busy.to_string(), "9..12, 15..18");
    /// assert!(more.is_empty());
    /// ```
    pub fn append(&mut self, that: &mut Self) {
        chunks::append(self, that);
    }

    /// Removes the members at and above `at`, and returns the set of them.
    ///
    /// It is a clone without the members below, by [`intersection_with`](Self::intersection_with),
    /// and a [`remove`](Self::remove).
    ///
    /// # Examples
    ///
    /// ```
    /// use range_sets::ChunkedRangeSet;
    ///
    /// let mut busy = ChunkedRangeSet::from_iter([9..11, 15..18]);
    /// let late = busy.split_off(&16);
    /// assert_eq!((busy.to_string(), late.to_string()), ("9..11, 15..16".into(), "16..18".into()));
    /// ```
    #[must_use = "`remove` takes the values out and returns none"]
    pub fn split_off(&mut self, at: &T) -> Self
    where
        T: Clone,
    {
        let above = self.clone_members_of(RangeSetRef::single(at));
        self.remove(at.clone()..);
        above
    }

    /// The ranges from the one that holds the value on, or else from the next one on.
    pub(crate) fn overlapping_from(&self, value: &T) -> Iter<'_, T> {
        let list = &self.0.list;
        let above = list.up_to(value, &mut Comparisons::new());
        let from = if list.mark_at(above) {
            list.place_before(above)
        } else {
            above
        };
        Iter::of_proved(proved::Iter::between(list, from, list.end()))
    }
}
