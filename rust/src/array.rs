//! Arrays that say how many boundaries lie in a set itself, and the calls that a set's list has.

use crate::entry::RangeSetEntry;
use crate::generated::range_chunks::ChunkedRangeSet;
use crate::generated::range_collections::changes::set_range;
use crate::generated::range_collections::range_set::copying::copies;
use crate::generated::range_collections::range_set::joining::union_of;
use crate::generated::range_collections::range_set::many_ranges::{self, Aside};
use crate::generated::range_collections::{self as proved, Comparisons, WholeNumber};
use crate::generated::range_map::RangeMap;
use crate::generated::range_merge::{
    Copier, DiffOp, InPlaceMergeState, InPlaceMergeStateRef, MergeOperation, SmallVecMergeState,
    UnionOp,
};
use crate::memory::AllocError;
use crate::operation::Connective;
use crate::range::RangeSetRange;
use crate::support::{self, Global};
use core::mem;
use core::ops::RangeTo;
use proved::{EntryClone, ParseError, RangeSetRef};
use smallvec::SmallVec;

/// An array type: its length is the number of boundaries that a set keeps in itself.
///
/// It is implemented for `[T; N]` at every length `N`, and for nothing else. A set with more
/// boundaries than that keeps them in an allocation.
///
/// # Examples
///
/// A function that takes sets of any inline size:
///
/// ```
/// use range_sets::{Array, RangeSet};
///
/// fn minutes<A: Array<Item = u32>>(busy: &RangeSet<A>) -> u128 {
///     busy.covered().unwrap_or(0)
/// }
///
/// let busy: RangeSet<[u32; 8]> = (540..600).into();
/// assert_eq!(minutes(&busy), 60);
/// ```
#[cfg_attr(
    range_sets_messages,
    diagnostic::on_unimplemented(
        message = "`{Self}` is no array type",
        note = "a set of `{Self}` is a `RangeSet2<{Self}>`, or a `RangeSet<[{Self}; N]>` for more boundaries in itself"
    )
)]
pub trait Array: Storage {}

impl<T, const N: usize> Array for [T; N] {}

/// The list of boundaries that belongs to an array type.
pub trait Storage: smallvec::Array + Sized {
    type List: List<Item = Self::Item>;

    fn list(inner: SmallVec<Self>) -> Self::List;

    fn inner(list: Self::List) -> SmallVec<Self>;
}

impl<T, const N: usize> Storage for [T; N] {
    type List = support::SmallVec<T, N>;

    #[inline(always)]
    fn list(inner: SmallVec<Self>) -> Self::List {
        inner.into()
    }

    #[inline(always)]
    fn inner(list: Self::List) -> SmallVec<Self> {
        list.into()
    }
}

/// How starts and ends are sorted if they aren't numbers, whose sorting takes no memory.
#[derive(Clone, Copy)]
pub enum Sorting {
    /// By std's sort, which ends the process if memory runs out.
    ByStd,
    /// By a sort that returns an error if memory runs out. It takes longer.
    Fallible,
}

/// The list of boundaries of a set. Most functions are those of the generated code, which have the
/// array's length as a parameter.
///
/// A list that a function returns or changes is strictly sorted if those that it was given were.
pub trait List: Sized {
    type Item;

    /// The empty list.
    const EMPTY: Self;

    fn with_capacity(n: usize) -> Result<Self, AllocError>;

    /// Copies of the items, in their order. It asks for room once.
    fn copied<P>(items: &[Self::Item], copier: &P) -> Result<Self, AllocError>
    where
        P: Copier<Self::Item>;

    fn as_slice(&self) -> &[Self::Item];

    /// Appends an item.
    fn push(&mut self, item: Self::Item) -> Result<(), AllocError>;

    /// The boundaries of the union of ranges. Ranges that don't come in order are sorted first.
    fn of_ranges(
        ranges: impl Iterator<Item = RangeSetRange<Self::Item>>,
        sorting: Sorting,
    ) -> Result<Self, AllocError>
    where
        Self::Item: Ord;

    /// The boundaries of the union of sets, with copies of theirs.
    fn union_of<P>(sets: &[RangeSetRef<'_, Self::Item>], copier: &P) -> Result<Self, AllocError>
    where
        Self::Item: Ord,
        P: Copier<Self::Item>;

    /// The boundaries of one range.
    fn of_range(range: RangeSetRange<Self::Item>) -> Result<Self, AllocError>
    where
        Self::Item: Ord;

    /// The boundaries of the values below an end.
    fn of_range_to(range: RangeTo<Self::Item>) -> Result<Self, AllocError>
    where
        Self::Item: RangeSetEntry;

    /// The boundary of all values.
    fn of_all() -> Result<Self, AllocError>
    where
        Self::Item: RangeSetEntry;

    /// The distinct items in order: of equal ones the first.
    fn sorted(self, sorting: Sorting) -> Result<Self, AllocError>
    where
        Self::Item: Ord;

    /// The boundaries of the values that are no members.
    fn negated(self) -> Result<Self, AllocError>
    where
        Self::Item: RangeSetEntry;

    /// The boundaries of the union of the ranges in a text.
    fn parsed(text: &str) -> Result<Self, ParseError>
    where
        Self::Item: EntryClone + WholeNumber;

    /// Copies of the boundaries at which an operation on two lists switches.
    fn merged<P, O>(
        a: &[Self::Item],
        b: &[Self::Item],
        copier: &P,
        op: &O,
    ) -> Result<Self, AllocError>
    where
        Self::Item: Ord,
        P: Copier<Self::Item>,
        O: MergeOperation;

    /// Copies of the boundaries at which any of the sixteen operations switches.
    fn combined<P>(
        a: &[Self::Item],
        b: &[Self::Item],
        copier: &P,
        op: Connective,
    ) -> Result<Self, AllocError>
    where
        Self::Item: RangeSetEntry,
        P: Copier<Self::Item>,
    {
        let list = Self::merged(a, b, copier, &op)?;
        if op.neither {
            list.negated()
        } else {
            Ok(list)
        }
    }

    /// Keeps the boundaries at which an operation with a borrowed list switches, and adds copies of
    /// the other list's.
    fn merge_ref<P, O>(
        &mut self,
        that: &[Self::Item],
        copier: &P,
        op: &O,
    ) -> Result<(), AllocError>
    where
        Self::Item: Ord,
        P: Copier<Self::Item>,
        O: MergeOperation;

    /// Keeps the boundaries at which an operation with an owned list switches, and moves the other
    /// list's. An error gives that list back.
    fn merge_owned<O>(&mut self, that: Self, op: &O) -> Result<(), (AllocError, Self)>
    where
        Self::Item: Ord,
        O: MergeOperation;

    /// Adds the values of a range if `inside` is true, and else removes them.
    fn set_range(
        &mut self,
        range: RangeSetRange<Self::Item>,
        inside: bool,
    ) -> Result<(), AllocError>
    where
        Self::Item: Ord;

    /// The set in chunks with these boundaries. If memory runs out, they are dropped.
    fn into_chunks(self) -> Result<ChunkedRangeSet<Self::Item>, AllocError>
    where
        Self::Item: Ord;

    /// The boundaries of a set in chunks. An error gives the set back as it was.
    fn of_chunks(
        set: ChunkedRangeSet<Self::Item>,
    ) -> Result<Self, (AllocError, ChunkedRangeSet<Self::Item>)>
    where
        Self::Item: Ord;

    /// The boundaries of the keys of a map that have a value.
    fn of_domain<V: Eq>(map: &RangeMap<Self::Item, V>) -> Result<Self, AllocError>
    where
        Self::Item: EntryClone;

    /// The boundaries of the keys of a map that have this value.
    fn of_keys<V: Eq>(map: &RangeMap<Self::Item, V>, value: &V) -> Result<Self, AllocError>
    where
        Self::Item: EntryClone;

    fn capacity(&self) -> usize;

    /// Makes room for `n` more items.
    fn reserve(&mut self, n: usize) -> Result<(), AllocError>;

    /// Gives back the room that the items don't need, if the allocator takes it.
    fn shrink_to_fit(&mut self);

    /// Drops all items. The list is empty afterwards even if a drop panics.
    fn clear(&mut self);

    /// Takes the first range out.
    fn take_first(&mut self) -> Option<RangeSetRange<Self::Item>>;

    /// Takes the last range out.
    fn take_last(&mut self) -> Option<RangeSetRange<Self::Item>>;

    /// Keeps the ranges for which `keep` returns `true`. If `keep` or a drop panics, the list is
    /// empty.
    fn retain(&mut self, keep: impl FnMut(RangeSetRange<&Self::Item>) -> bool);
}

impl<T, const N: usize> List for support::SmallVec<T, N> {
    type Item = T;

    const EMPTY: Self = support::SmallVec::new(Global);

    fn with_capacity(n: usize) -> Result<Self, AllocError> {
        support::SmallVec::with_capacity(Global, n)
    }

    fn copied<P>(items: &[T], copier: &P) -> Result<Self, AllocError>
    where
        P: Copier<T>,
    {
        copies(Global, items, copier)
    }

    fn union_of<P>(sets: &[RangeSetRef<'_, T>], copier: &P) -> Result<Self, AllocError>
    where
        T: Ord,
        P: Copier<T>,
    {
        union_of(Global, sets, copier, &mut Comparisons::new()).map(proved::RangeSet::into_inner)
    }

    #[inline(always)]
    fn as_slice(&self) -> &[T] {
        support::SmallVec::as_slice(self)
    }

    #[inline]
    fn push(&mut self, item: T) -> Result<(), AllocError> {
        self.reserve(1)?;
        self.push_reserved(item);
        Ok(())
    }

    #[inline]
    fn of_ranges(
        ranges: impl Iterator<Item = RangeSetRange<T>>,
        sorting: Sorting,
    ) -> Result<Self, AllocError>
    where
        T: Ord,
    {
        let mut set = proved::RangeSet::<T, N>::new_unchecked(Self::EMPTY);
        let mut aside = Aside::new(Global);
        for range in ranges {
            many_ranges::add(&mut set, &mut aside, range.into_proved())?;
        }
        if matches!(sorting, Sorting::ByStd) && !support::is_number::<T>() {
            aside.starts.as_mut_slice().sort();
            aside.ends.as_mut_slice().sort();
        }
        many_ranges::finished(Global, set, aside).map(proved::RangeSet::into_inner)
    }

    fn of_range(range: RangeSetRange<T>) -> Result<Self, AllocError>
    where
        T: Ord,
    {
        let range = range.into_proved();
        proved::RangeSet::from_range_set_range(Global, range).map(proved::RangeSet::into_inner)
    }

    fn of_range_to(range: RangeTo<T>) -> Result<Self, AllocError>
    where
        T: RangeSetEntry,
    {
        proved::RangeSet::from_range_until(Global, range).map(proved::RangeSet::into_inner)
    }

    fn of_all() -> Result<Self, AllocError>
    where
        T: RangeSetEntry,
    {
        proved::RangeSet::all(Global).map(proved::RangeSet::into_inner)
    }

    fn sorted(mut self, sorting: Sorting) -> Result<Self, AllocError>
    where
        T: Ord,
    {
        if matches!(sorting, Sorting::ByStd) {
            self.as_mut_slice().sort();
        }
        proved::RangeSet::from_unsorted(self).map(proved::RangeSet::into_inner)
    }

    fn negated(self) -> Result<Self, AllocError>
    where
        T: RangeSetEntry,
    {
        (!proved::RangeSet::new_unchecked(self)).map(proved::RangeSet::into_inner)
    }

    fn parsed(text: &str) -> Result<Self, ParseError>
    where
        T: EntryClone + WholeNumber,
    {
        proved::RangeSet::parse(Global, text).map(proved::RangeSet::into_inner)
    }

    #[inline]
    fn merged<P, O>(a: &[T], b: &[T], copier: &P, op: &O) -> Result<Self, AllocError>
    where
        T: Ord,
        P: Copier<T>,
        O: MergeOperation,
    {
        let count = &mut Comparisons::new();
        let mut list = SmallVecMergeState::<T, P, N>::merge(Self::EMPTY, a, b, copier, op, count)?;
        proved::lists::give_back_room(&mut list);
        Ok(list)
    }

    #[inline]
    fn merge_ref<P, O>(&mut self, that: &[T], copier: &P, op: &O) -> Result<(), AllocError>
    where
        T: Ord,
        P: Copier<T>,
        O: MergeOperation,
    {
        InPlaceMergeStateRef::<T, P, N>::merge(self, that, copier, op, &mut Comparisons::new())
    }

    #[inline]
    fn merge_owned<O>(&mut self, that: Self, op: &O) -> Result<(), (AllocError, Self)>
    where
        T: Ord,
        O: MergeOperation,
    {
        InPlaceMergeState::<T, N>::merge(self, that, op, &mut Comparisons::new())
    }

    #[inline]
    fn set_range(&mut self, range: RangeSetRange<T>, inside: bool) -> Result<(), AllocError>
    where
        T: Ord,
    {
        match range {
            RangeSetRange::Range(range) => set_range(self, range, inside, &mut Comparisons::new()),
            RangeSetRange::RangeFrom(_) => {
                let that = Self::of_range(range)?;
                let merged = if inside {
                    self.merge_owned(that, &UnionOp)
                } else {
                    self.merge_owned(that, &DiffOp)
                };
                merged.map_err(|(refused, _)| refused)
            }
        }
    }

    fn into_chunks(self) -> Result<ChunkedRangeSet<T>, AllocError>
    where
        T: Ord,
    {
        ChunkedRangeSet::from_set(proved::RangeSet::new_unchecked(self))
    }

    fn of_chunks(set: ChunkedRangeSet<T>) -> Result<Self, (AllocError, ChunkedRangeSet<T>)>
    where
        T: Ord,
    {
        set.into_set().map(proved::RangeSet::<T, N>::into_inner)
    }

    fn of_domain<V: Eq>(map: &RangeMap<T, V>) -> Result<Self, AllocError>
    where
        T: EntryClone,
    {
        map.domain(Global).map(proved::RangeSet::<T, N>::into_inner)
    }

    fn of_keys<V: Eq>(map: &RangeMap<T, V>, value: &V) -> Result<Self, AllocError>
    where
        T: EntryClone,
    {
        map.where_equal(Global, value)
            .map(proved::RangeSet::<T, N>::into_inner)
    }

    fn capacity(&self) -> usize {
        support::SmallVec::capacity(self)
    }

    fn reserve(&mut self, n: usize) -> Result<(), AllocError> {
        support::SmallVec::reserve(self, n)
    }

    fn shrink_to_fit(&mut self) {
        support::SmallVec::shrink_to_fit(self);
    }

    fn clear(&mut self) {
        let len = self.len();
        self.drain(0..len);
    }

    fn take_first(&mut self) -> Option<RangeSetRange<T>> {
        let both = self.len().min(2);
        let mut items = self.as_inner_mut().drain(..both);
        Some(RangeSetRange::of_ends(items.next()?, items.next()))
    }

    fn take_last(&mut self) -> Option<RangeSetRange<T>> {
        let list = self.as_inner_mut();
        let is_odd = list.len() % 2 == 1;
        let last = list.pop()?;
        Some(if is_odd {
            RangeSetRange::of_ends(last, None)
        } else {
            RangeSetRange::of_ends(list.pop()?, Some(last))
        })
    }

    fn retain(&mut self, mut keep: impl FnMut(RangeSetRange<&T>) -> bool) {
        // If something panics, this list is dropped: its items may be out of order by then.
        let mut list = mem::replace(self, Self::EMPTY);
        let items = list.as_mut_slice();
        let (mut kept, pairs) = (0, items.len() / 2 * 2);
        for at in (0..pairs).step_by(2) {
            if keep(RangeSetRange::of_ends(&items[at], Some(&items[at + 1]))) {
                items.swap(kept, at);
                items.swap(kept + 1, at + 1);
                kept += 2;
            }
        }
        if pairs < items.len() && keep(RangeSetRange::of_ends(&items[pairs], None)) {
            items.swap(kept, pairs);
            kept += 1;
        }
        let len = list.len();
        list.drain(kept..len);
        *self = list;
    }
}
