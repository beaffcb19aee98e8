//! The parts of a range that are in a set or not. Also the ranges that calls take that look for
//! values in a row ([`Ended`]), or look at the ends alone ([`Overlaps`]).

use super::sealed::Sealed;
use super::{each_range, NextValue};
use crate::chunked::ChunkedRangeSet;
use crate::entry::RangeSetEntry;
use crate::generated::range_collections::questions::Within;
use crate::generated::range_collections::{
    self as proved, Comparisons, Countable, FromPlace, ValueEnds, ValueRange,
};
use crate::generated::range_list::{Chunks, Items};
use crate::iter::{cloned_range, owned_ranges, shown, wraps};
use crate::map::{Changes, Map};
use crate::range::RangeSetRange;
use crate::tracker::ChunkedTracker;
use crate::view::RangeSetRef;
use core::fmt;
use core::iter::FusedIterator;
use core::mem;
use core::ops::{Bound, Range, RangeFrom, RangeFull, RangeInclusive, RangeTo, RangeToInclusive};
use core::slice;

/// A set, a map or a tracker whose parts are found by two searches and then a step for each end.
pub trait Parted<'a, T: 'a> {
    /// The ends of parts, in order.
    type Ends: DoubleEndedIterator<Item = &'a T> + Clone;

    /// The ends of parts above a value and below a limit, if there is one. Before them stands
    /// whether the value is a member, or a key with a value, and behind them whether those are that
    /// come before the limit.
    fn ends_within(&'a self, start: &T, limit: Option<&T>) -> (bool, Self::Ends, bool);
}

impl<'a, T: Ord + 'a> Parted<'a, T> for RangeSetRef<T> {
    type Ends = slice::Iter<'a, T>;

    fn ends_within(&'a self, start: &T, limit: Option<&T>) -> (bool, Self::Ends, bool) {
        let items = self.boundaries();
        let (is_inside, between, is_left) = boundaries_within(items, start, limit, items.len());
        (is_inside, between.iter(), is_left)
    }
}

impl<'a, T: Ord + 'a> Parted<'a, T> for ChunkedRangeSet<T> {
    type Ends = Boundaries<'a, T>;

    fn ends_within(&'a self, start: &T, limit: Option<&T>) -> (bool, Self::Ends, bool) {
        chunked_ends(&self.proved().list, start, limit)
    }
}

/// A map has gaps alone.
impl<'a, K: Ord + 'a, V: Eq + 'a, C: 'a> Parted<'a, K> for Map<K, V, C> {
    type Ends = Changes<'a, K, V, C>;

    fn ends_within(&'a self, start: &K, limit: Option<&K>) -> (bool, Self::Ends, bool) {
        self.changes_within(start, limit)
    }
}

/// A tracker has gaps alone.
impl<'a> Parted<'a, u64> for ChunkedTracker {
    type Ends = Boundaries<'a, u64>;

    fn ends_within(&'a self, start: &u64, limit: Option<&u64>) -> (bool, Self::Ends, bool) {
        chunked_ends(self.boundaries(), start, limit)
    }
}

/// The boundaries in chunks that are left.
pub struct Boundaries<'a, T>(pub(crate) Items<'a, T, bool>);

impl<'a, T> Iterator for Boundaries<'a, T> {
    type Item = &'a T;

    #[inline]
    fn next(&mut self) -> Option<&'a T> {
        self.0.take_first()
    }
}

impl<'a, T> DoubleEndedIterator for Boundaries<'a, T> {
    #[inline]
    fn next_back(&mut self) -> Option<&'a T> {
        self.0.take_last()
    }
}

impl<T> Clone for Boundaries<'_, T> {
    fn clone(&self) -> Self {
        Boundaries(self.0.clone())
    }
}

fn chunked_ends<'a, T: Ord>(
    list: &'a Chunks<T, bool>,
    start: &T,
    limit: Option<&T>,
) -> (bool, Boundaries<'a, T>, bool) {
    let (is_inside, between, is_left) = boundaries_within(list, start, limit, list.end());
    (is_inside, Boundaries(between), is_left)
}

/// The boundaries above a value and below a limit, or else up to the end. Around them stands
/// whether an odd number comes before each.
fn boundaries_within<'a, T: Ord + 'a, L: proved::Boundaries<'a, T>>(
    list: L,
    start: &T,
    limit: Option<&T>,
    end: L::Position,
) -> (bool, L::Unread, bool) {
    let count = &mut Comparisons::new();
    let from = list.up_to(start, count);
    let to = limit.map_or(end, |limit| list.below(limit, count));
    (list.is_odd(from), list.between(from, to), list.is_odd(to))
}

/// An end of a part: a value, or a reference to one.
pub trait End<'a, T>: Clone {
    fn of(end: &'a T) -> Self;

    fn by_ref(&self) -> &T;
}

impl<'a, T: Clone> End<'a, T> for T {
    fn of(end: &'a T) -> T {
        end.clone()
    }

    fn by_ref(&self) -> &T {
        self
    }
}

impl<'a, T> End<'a, T> for &'a T {
    fn of(end: &'a T) -> Self {
        end
    }

    fn by_ref(&self) -> &T {
        self
    }
}

/// The parts of a range that are in a set or a map or not, from the lowest on and from the highest
/// down. It takes no memory. It is made by two searches, and a step makes none.
///
/// `gaps` and `ranges_within` make it, as [`PartsOf`] between values and [`PartsFrom`] between
/// references.
#[derive(Clone)]
#[must_use = "iterators are lazy and do nothing unless consumed"]
pub struct Parts<E, I> {
    first: Option<E>,
    /// `None` in an empty range.
    between: Option<I>,
    last: Option<E>,
    /// Whether the last part, if it is left, has no end.
    is_endless: bool,
}

/// [`Parts`] between values of a set, a map or a tracker `S`.
///
/// # Examples
///
/// ```
/// use range_sets::{ChunkedRangeSet, PartsOf};
///
/// let busy = ChunkedRangeSet::from_iter([9..11]);
/// let mut free: PartsOf<i32, ChunkedRangeSet<i32>> = busy.gaps(10..);
/// assert_eq!(free.next(), Some((11..).into()));
/// assert_eq!(free.next(), None);
/// ```
pub type PartsOf<'a, T, S> = Parts<T, <S as Parted<'a, T>>::Ends>;

/// [`Parts`] of `&a..` in a `RangeSet` or a view.
///
/// # Examples
///
/// ```
/// use range_sets::{PartsFrom, RangeSetRef};
///
/// let busy = RangeSetRef::new(&[9, 11]).unwrap();
/// let mut free: PartsFrom<i32> = busy.gaps(&10..);
/// assert_eq!(free.next(), Some((&11..).into()));
/// assert_eq!(free.next(), None);
/// ```
pub type PartsFrom<'a, T> = Parts<&'a T, slice::Iter<'a, T>>;

impl<'a, T: 'a, E: End<'a, T>, I: DoubleEndedIterator<Item = &'a T>> Parts<E, I> {
    /// The parts whose values are members where `inside` is true, or else no members.
    pub(crate) fn new<S>(set: &'a S, within: RangeSetRange<E>, inside: bool) -> Self
    where
        T: Ord,
        S: Parted<'a, T, Ends = I> + ?Sized,
    {
        let (start, limit) = within.into_ends();
        let end = limit.as_ref().map(E::by_ref);
        if end.map_or(false, |end| end <= start.by_ref()) {
            return Parts {
                first: None,
                between: None,
                last: None,
                is_endless: false,
            };
        }
        let (is_inside, between, is_left) = set.ends_within(start.by_ref(), end);
        Parts {
            first: (is_inside == inside).then_some(start),
            between: Some(between),
            is_endless: limit.is_none() && is_left == inside,
            last: limit.filter(|_| is_left == inside),
        }
    }

    #[inline]
    fn take_first(&mut self) -> Option<E> {
        let between = &mut self.between;
        let first = self.first.take();
        first
            .or_else(|| between.as_mut()?.next().map(E::of))
            .or_else(|| self.last.take())
    }

    #[inline]
    fn take_last(&mut self) -> Option<E> {
        let between = &mut self.between;
        let last = self.last.take();
        last.or_else(|| between.as_mut()?.next_back().map(E::of))
            .or_else(|| self.first.take())
    }
}

/// [`Parts`] of a range with an end, which have ends themselves. It is
/// [`RangesWithin`](crate::RangesWithin) between references.
#[must_use = "iterators are lazy and do nothing unless consumed"]
pub struct EndedParts<E, I>(pub(super) Parts<E, I>);

impl<'a, T, I> EndedParts<&'a T, I> {
    /// The parts between boundaries that were found.
    #[inline(always)]
    pub(super) fn found<U>(parts: Within<'a, T, U>, of: impl FnOnce(U) -> I) -> Self {
        EndedParts(Parts {
            first: parts.first,
            between: Some(of(parts.between)),
            last: parts.last,
            is_endless: false,
        })
    }
}

/// A part with its end.
#[inline(always)]
fn ended<T>(part: RangeSetRange<T>) -> Range<T> {
    match part {
        RangeSetRange::Range(part) => part,
        RangeSetRange::RangeFrom(_) => unreachable!("a part of a range with an end has one"),
    }
}

wraps! {
    ['a, T: 'a, E: End<'a, T>, I: DoubleEndedIterator<Item = &'a T> + Clone] EndedParts<E, I>:
        Range<E> = ended;
}

impl<'a, T: 'a, E: End<'a, T>, I: DoubleEndedIterator<Item = &'a T>> Iterator for Parts<E, I> {
    type Item = RangeSetRange<E>;

    #[inline]
    fn next(&mut self) -> Option<RangeSetRange<E>> {
        Some(RangeSetRange::of_ends(
            self.take_first()?,
            self.take_first(),
        ))
    }
}

impl<'a, T, E, I> DoubleEndedIterator for Parts<E, I>
where
    T: 'a,
    E: End<'a, T>,
    I: DoubleEndedIterator<Item = &'a T>,
{
    #[inline]
    fn next_back(&mut self) -> Option<RangeSetRange<E>> {
        let last = self.take_last()?;
        if mem::take(&mut self.is_endless) {
            return Some(RangeSetRange::of_ends(last, None));
        }
        Some(RangeSetRange::of_ends(self.take_last()?, Some(last)))
    }
}

impl<'a, T: 'a, E: End<'a, T>, I: DoubleEndedIterator<Item = &'a T>> FusedIterator for Parts<E, I> {}

owned_ranges! {
    ['a, T, I: DoubleEndedIterator<Item = &'a T>] Parts<&'a T, I>:
        RangeSetRange<&'a T> => RangeSetRange<T>, |it| it.cloned(), of T;
    ['a, T, I: DoubleEndedIterator<Item = &'a T> + Clone] EndedParts<&'a T, I>:
        Range<&'a T> => Range<T>, cloned_range, of T;
}

shown! {
    ['a, T: 'a, E: End<'a, T> + fmt::Debug, I: DoubleEndedIterator<Item = &'a T> + Clone] Parts<E, I>;
    ['a, T: 'a, E: End<'a, T> + fmt::Debug, I: DoubleEndedIterator<Item = &'a T> + Clone]
        EndedParts<E, I>;
}

/// A range, of any kind that std has, between values or references to values, that a call looks
/// for.
///
/// It is implemented for what [`AnyRange`](crate::AnyRange) is, for `&a..&b`, `&a..` and `&(a..b)`,
/// for what a set's `iter` yields, and for nothing else.
///
/// # Examples
///
/// ```
/// use range_sets::RangeSetRef;
///
/// let busy = RangeSetRef::new(&[9u8, 11, 15, 18]).unwrap();
/// assert_eq!(busy.overlapping(10..=15).count(), 2);
/// assert_eq!(busy.overlapping(12..).next(), busy.overlapping(&12..).next());
/// ```
pub trait Overlaps<T>: Sealed {
    /// Calls `find` with the range by reference.
    #[doc(hidden)]
    fn found<R>(self, find: impl FnOnce(RangeSetRange<&T>) -> R) -> R;
}

/// `Range<&&T>` is what [`start`](RangeSetRange::start) and [`end`](RangeSetRange::end) of a range
/// between references give.
macro_rules! overlaps_by_reference {
    ($($range:ty: |$it:ident| $found:expr;)*) => {$(
        impl<T> Overlaps<T> for $range {
            #[inline]
            fn found<R>(self, find: impl FnOnce(RangeSetRange<&T>) -> R) -> R {
                let $it = self;
                find($found)
            }
        }
    )*};
}

overlaps_by_reference! {
    Range<&T>: |it| it.into();
    RangeFrom<&T>: |it| it.into();
    RangeSetRange<&T>: |it| it;
    Range<&&T>: |it| (*it.start..*it.end).into();
    &Range<T>: |it| (&it.start..&it.end).into();
    &mut Range<T>: |it| (&it.start..&it.end).into();
}

/// A range, of any kind that std has, in which values in a row are looked for. One without an end
/// goes up to the type's greatest value, and so does `a..=b` if `b` is that value.
///
/// It is implemented for what [`AnyRange`](crate::AnyRange) is, and for nothing else.
///
/// # Examples
///
/// ```
/// use range_sets::RangeSetRef;
///
/// let used = RangeSetRef::new(&[0u8, 64, 80, 128]).unwrap();
/// assert_eq!(used.first_fit(70.., 128), Some(128));
/// assert_eq!(used.first_fit(70..=255, 128), Some(128));
/// assert_eq!(used.first_fit(70..255, 128), None);
/// assert_eq!(used.first_fit(..=79, 16), Some(64));
/// ```
pub trait Ended<T: Countable>: Sealed + ValueRange<T> {}

impl<T: Countable> Ended<T> for Range<T> {}
impl<T: FromPlace> Ended<T> for RangeFrom<T> {}
impl<T: Countable + Clone> Ended<T> for &Range<T> {}

impl<T: Countable + Clone> ValueRange<T> for &Range<T> {
    fn ends(self) -> ValueEnds<T> {
        self.clone().ends()
    }
}

macro_rules! ended {
    ($($range:ty $(: $($bound:ident)+)?;)*) => {$(
        impl<T: FromPlace $($(+ $bound)+)?> Ended<T> for $range {}

        impl<T: FromPlace $($(+ $bound)+)?> ValueRange<T> for $range {
            fn ends(self) -> ValueEnds<T> {
                match RangeSetRange::from(self).into_ends() {
                    (start, Some(end)) => (start..end).ends(),
                    (start, None) => (start..).ends(),
                }
            }
        }
    )*};
}

ended! {
    RangeTo<T>: RangeSetEntry;
    RangeFull: RangeSetEntry;
    RangeInclusive<T>: NextValue;
    RangeToInclusive<T>: RangeSetEntry NextValue;
    (Bound<T>, Bound<T>): RangeSetEntry NextValue;
    RangeSetRange<T>;
}

macro_rules! overlaps {
    ($($range:ty $(: $($bound:ident)+)?;)*) => {$(
        impl<T $(: $($bound +)+)?> Overlaps<T> for $range {
            fn found<R>(self, find: impl FnOnce(RangeSetRange<&T>) -> R) -> R {
                find(RangeSetRange::from(self).as_ref())
            }
        }
    )*};
}

each_range!(overlaps);
