//! Operations on a set in chunks by `EntryClone`, whose copies may fail. These are the proved ones.

use crate::fallible::{AllocError, ChunkedRangeSet, EntryClone};
use crate::range_set::RangeSetRef;

impl<T: EntryClone> ChunkedRangeSet<T> {
    pub(super) fn add_members_of(&mut self, that: &RangeSetRef<T>) -> Result<(), AllocError> {
        self.changed(|set| set.union_with(that.proved()))
    }

    pub(super) fn keep_members_of(&mut self, that: &RangeSetRef<T>) -> Result<(), AllocError> {
        self.changed(|set| set.intersection_with(that.proved()))
    }

    pub(super) fn remove_members_of(&mut self, that: &RangeSetRef<T>) -> Result<(), AllocError> {
        self.changed(|set| set.difference_with(that.proved()))
    }

    pub(super) fn flip_members_of(&mut self, that: &RangeSetRef<T>) -> Result<(), AllocError> {
        self.changed(|set| set.symmetric_difference_with(that.proved()))
    }
}
