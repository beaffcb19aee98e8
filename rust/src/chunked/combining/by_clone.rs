//! Operations on a set in chunks by `Clone`. The boundaries that can change are cloned, and
//! replaced by those of the result.

use crate::array::Storage;
use crate::chunked::ChunkedRangeSet;
use crate::generated::range_chunks::window::window;
use crate::generated::range_list::Place;
use crate::memory::expect_memory;
use crate::range_set::{RangeSet2, RangeSetRef};
use alloc::vec;
use alloc::vec::Vec;
use core::mem;

/// The place of the first one of some boundaries, and the place behind the last one.
type Window = (Place, Place);

impl<T: Ord + Clone> ChunkedRangeSet<T> {
    pub(super) fn add_members_of(&mut self, that: &RangeSetRef<T>) {
        self.change_apart(that, |set, that| set.union_with(that));
    }

    pub(super) fn keep_members_of(&mut self, that: &RangeSetRef<T>) {
        *self = self.clone_members_of(that);
    }

    pub(super) fn remove_members_of(&mut self, that: &RangeSetRef<T>) {
        self.change_apart(that, |set, that| set.difference_with(that));
    }

    pub(super) fn flip_members_of(&mut self, that: &RangeSetRef<T>) {
        self.change_apart(that, |set, that| set.symmetric_difference_with(that));
    }

    /// A clone with a change by `that`: `change_list` makes it in one list, and `change` in chunks.
    /// If most boundaries can change, the clones lie in one list, since a change in chunks would
    /// clone them again.
    pub(in crate::chunked) fn with_change(
        &self,
        that: &RangeSetRef<T>,
        change_list: impl FnOnce(&mut RangeSet2<T>),
        change: impl FnOnce(&mut Self),
    ) -> Self {
        let list = &self.proved().list;
        let (from, to) = self.window(that);
        let inside = list.len_between(from, to) as usize;
        if that.boundaries().len() >= list.chunks_len() && inside > list.len() / 2 {
            let mut clones = RangeSet2::from(self);
            change_list(&mut clones);
            return clones.into();
        }
        let mut set = self.clone();
        change(&mut set);
        set
    }

    /// The set of clones of the members that are members of `that` too. All of them lie in the
    /// window, so nothing else is cloned.
    pub(in crate::chunked) fn clone_members_of(&self, that: &RangeSetRef<T>) -> Self {
        let members = self.aside(self.window(that), |set| set.intersection_with(that));
        members.into()
    }

    /// The boundaries that an operation with `that` can change.
    fn window(&self, that: &RangeSetRef<T>) -> Window {
        window(&self.proved().list, that.boundaries())
    }

    /// The set of clones of the boundaries in a window, after a change.
    fn aside(&self, (from, to): Window, change: impl FnOnce(&mut RangeSet2<T>)) -> RangeSet2<T> {
        let list = &self.proved().list;
        let mut clones = Vec::with_capacity(list.len_between(from, to) as usize);
        let mut own = list.between(from, to);
        while let Some(boundary) = own.take_first() {
            clones.push(boundary.clone());
        }
        let mut set = RangeSet2::of_list(<[T; 2]>::list(clones.into()));
        change(&mut set);
        set
    }

    /// Makes the change with each part of `that` in the part's window. All results are made first.
    /// Then the last window is replaced first, so that the places of the earlier ones stay true.
    fn change_apart(
        &mut self,
        that: &RangeSetRef<T>,
        change: impl Fn(&mut RangeSet2<T>, &RangeSetRef<T>),
    ) {
        let parts = self.parts(that).into_iter();
        let made: Vec<_> = parts
            .map(|(window, part)| (window, self.aside(window, |set| change(set, part))))
            .collect();
        // The set is empty while several windows are replaced: a drop that panics between two must
        // not leave a part of the change.
        let mut own = mem::take(self);
        for (window, set) in made.into_iter().rev() {
            own.replace(window, set);
        }
        *self = own;
    }

    /// `that` in parts, between whose windows at least one whole chunk lies, each with its window.
    /// It is one part if its own window has no more chunks than it has boundaries.
    fn parts<'a>(&self, that: &'a RangeSetRef<T>) -> Vec<(Window, &'a RangeSetRef<T>)> {
        let (whole, boundaries) = (self.window(that), that.boundaries());
        let chunks = whole.1.chunk.saturating_sub(whole.0.chunk);
        if boundaries.len() <= 2 || chunks <= boundaries.len() {
            return vec![(whole, that)];
        }
        let mut parts: Vec<(Window, &RangeSetRef<T>)> = Vec::new();
        let mut begin = 0;
        for (i, range) in boundaries.chunks(2).enumerate() {
            let (from, to) = self.window(RangeSetRef::over(range));
            let end = 2 * i + range.len();
            match parts.last_mut() {
                Some((last, part)) if from.chunk <= last.1.chunk + 1 => {
                    last.1 = to;
                    *part = RangeSetRef::over(&boundaries[begin..end]);
                }
                _ => {
                    begin = 2 * i;
                    parts.push(((from, to), RangeSetRef::over(range)));
                }
            }
        }
        parts
    }

    /// Replaces the boundaries in a window by those of a set: those of one range as a change of one
    /// range does, which moves fewer chunks.
    fn replace(&mut self, (from, to): Window, set: RangeSet2<T>) {
        let mut boundaries = set.into_inner();
        let is_one = boundaries.len() == 2 && !self.proved().list.mark_at(to);
        let replaced = self.changed(|own| {
            if is_one {
                let end = boundaries.pop();
                let start = boundaries.pop();
                own.list.splice(from, to, start, end).map_err(drop)
            } else {
                let boundaries = boundaries.into_vec().into();
                own.list.replace_between(from, to, boundaries).map_err(drop)
            }
        });
        expect_memory::<T, _, _>(replaced);
    }
}
