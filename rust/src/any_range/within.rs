//! The parts of a range that are in a set or not, for ranges of any kind.

use super::by_value::{Boundaries, EndedParts, Parted, Parts, PartsOf};
use super::sealed::Sealed;
use super::NextValue;
use crate::chunked::ChunkedRangeSet;
use crate::entry::RangeSetEntry;
use crate::generated::range_collections::lists::is_odd;
use crate::generated::range_collections::questions::parts_within;
use crate::generated::range_collections::Comparisons;
use crate::generated::range_merge::{count_up_to, search};
use crate::iter::shown;
use crate::map::{self, Map as RangeMapBy};
use crate::range::RangeSetRange;
use crate::tracker::ChunkedTracker;
use crate::view::RangeSetRef;
use core::fmt;
use core::iter::FusedIterator;
use core::ops::{Bound, Range, RangeFrom, RangeFull, RangeInclusive, RangeTo, RangeToInclusive};
use core::slice;

/// A range, of any kind that std has, within which a set or a map is looked at. `S` is the set, if
/// it isn't a view.
///
/// Its ends are values, or references to values. What lies in it is returned as ranges of the same
/// kind, if they can say it:
///
/// | Range | Asks of the element | A part is |
/// |---|---|---|
/// | `a..b` | [`Clone`] | `Range<T>` |
/// | `a..`, `a..=b`, `..b`, `..=b`, `(Bound<T>, Bound<T>)`, a [`RangeSetRange`] | [`Clone`], and what [`AnyRange`](super::AnyRange) asks | [`RangeSetRange<T>`](RangeSetRange) |
/// | `&a..&b`, `&(a..b)` | nothing more | `Range<&T>` |
/// | `&a..` | nothing more | [`RangeSetRange<&T>`](RangeSetRange) |
///
/// Of a `RangeSet` or a view also these, where a part may have its last value within:
///
/// | Range | Asks of the element | A part is |
/// |---|---|---|
/// | `&a..=&b` | nothing more | `(Bound<&T>, Bound<&T>)` |
/// | `..&b`, `..=&b`, `..` | [`RangeSetEntry`], a least value | `(Bound<&T>, Bound<&T>)` |
///
/// For others `..` is as `a..` with the least value. It is implemented for these, and for nothing
/// else.
///
/// # Examples
///
/// ```
/// use range_sets::{RangeSetRange, RangeSetRef};
/// use std::ops::Bound::{Excluded, Included, Unbounded};
///
/// let busy = RangeSetRef::new(&[9u8, 11, 15, 18]).unwrap();
/// assert!(busy.gaps(10..17).eq([11..15]));
/// assert!(busy.gaps(10..).eq([(11..15).into(), (18..).into()]));
///
/// let from: Vec<RangeSetRange<&u8>> = busy.gaps(&10..).collect();
/// assert_eq!(from, [(&11..&15).into(), (&18..).into()]);
///
/// let up_to: Vec<_> = busy.gaps(..=&12).collect();
/// assert_eq!(up_to, [(Unbounded, Excluded(&9)), (Included(&11), Included(&12))]);
/// ```
pub trait Within<'a, T: 'a, S: ?Sized = RangeSetRef<T>>: Sealed {
    /// The iterator over the parts.
    type Parts: Iterator;

    /// The parts whose values are members where `inside` is true, or else no members.
    #[doc(hidden)]
    fn parts_of(self, set: &'a S, inside: bool) -> Self::Parts;
}

shown! {
    [T: fmt::Debug] PartsWithin<'_, T>;
}

impl<'a, T: 'a, S: ?Sized, P: Iterator> Within<'a, T, S> for &'a Range<T>
where
    Range<&'a T>: Within<'a, T, S, Parts = P>,
{
    type Parts = P;

    fn parts_of(self, set: &'a S, inside: bool) -> P {
        (&self.start..&self.end).parts_of(set, inside)
    }
}

/// What [`start`](RangeSetRange::start) and [`end`](RangeSetRange::end) of a range between
/// references give.
impl<'a: 'b, 'b, T: 'a, S: ?Sized, P: Iterator> Within<'a, T, S> for Range<&'b &'a T>
where
    Range<&'a T>: Within<'a, T, S, Parts = P>,
{
    type Parts = P;

    fn parts_of(self, set: &'a S, inside: bool) -> P {
        (*self.start..*self.end).parts_of(set, inside)
    }
}

impl<'a, T: Ord + Clone + 'a, S: Parted<'a, T> + ?Sized + 'a> Within<'a, T, S> for Range<T> {
    type Parts = EndedParts<T, S::Ends>;

    fn parts_of(self, set: &'a S, inside: bool) -> Self::Parts {
        EndedParts(Parts::new(set, self.into(), inside))
    }
}

/// Ranges of values, whose parts are cloned one by one.
macro_rules! by_value {
    ($([$($generics:tt)*] $range:ty, of $set:ty;)*) => {$(
        impl<'a, $($generics)*> Within<'a, T, $set> for $range {
            type Parts = PartsOf<'a, T, $set>;

            fn parts_of(self, set: &'a $set, inside: bool) -> Self::Parts {
                Parts::new(set, self.into(), inside)
            }
        }
    )*};
}

by_value! {
    [T: Ord + Clone + 'a, S: Parted<'a, T> + ?Sized + 'a] RangeFrom<T>, of S;
    [T: RangeSetEntry + Clone + 'a, S: Parted<'a, T> + ?Sized + 'a] RangeTo<T>, of S;
    [T: NextValue + Clone + 'a, S: Parted<'a, T> + ?Sized + 'a] RangeInclusive<T>, of S;
    [T: RangeSetEntry + NextValue + Clone + 'a, S: Parted<'a, T> + ?Sized + 'a] RangeToInclusive<T>, of S;
    [T: RangeSetEntry + NextValue + Clone + 'a, S: Parted<'a, T> + ?Sized + 'a] (Bound<T>, Bound<T>), of S;
    [T: Ord + Clone + 'a, S: Parted<'a, T> + ?Sized + 'a] RangeSetRange<T>, of S;
    [T: RangeSetEntry + Clone + 'a] RangeFull, of ChunkedRangeSet<T>;
    [T: RangeSetEntry + Clone + 'a, V: Eq + 'a, C: 'a] RangeFull, of RangeMapBy<T, V, C>;
}

macro_rules! between_references {
    ($([$($generics:tt)*] $T:ty, of $set:ty: |$it:ident| $list:expr, $of:expr;)*) => {$(
        impl<'a, $($generics)*> Within<'a, $T, $set> for Range<&'a $T> {
            type Parts = EndedParts<&'a $T, <$set as Parted<'a, $T>>::Ends>;

            #[inline]
            fn parts_of(self, $it: &'a $set, inside: bool) -> Self::Parts {
                let parts = parts_within($list, self, inside, &mut Comparisons::new());
                EndedParts::found(parts, $of)
            }
        }
    )*};
}

// A tracker has gaps alone.
between_references! {
    [T: Ord + 'a] T, of RangeSetRef<T>: |set| set.boundaries(), <[T]>::iter;
    [T: Ord + 'a] T, of ChunkedRangeSet<T>: |set| &set.proved().list, Boundaries;
    [] u64, of ChunkedTracker: |tracker| tracker.boundaries(), Boundaries;
}

impl<'a> Within<'a, u64, ChunkedTracker> for RangeFull {
    type Parts = PartsOf<'a, u64, ChunkedTracker>;

    fn parts_of(self, tracker: &'a ChunkedTracker, inside: bool) -> Self::Parts {
        Parts::new(tracker, self.into(), inside)
    }
}

/// A map has gaps alone.
impl<'a, K: Ord + 'a, V: Eq + 'a, C: 'a> Within<'a, K, RangeMapBy<K, V, C>> for Range<&'a K> {
    type Parts = map::Gaps<'a, K, V, C>;

    #[inline]
    fn parts_of(self, map: &'a RangeMapBy<K, V, C>, _: bool) -> Self::Parts {
        map.gaps_between(self)
    }
}

impl<'a, T: Ord + 'a, S: Parted<'a, T> + ?Sized + 'a> Within<'a, T, S> for RangeFrom<&'a T> {
    type Parts = Parts<&'a T, S::Ends>;

    fn parts_of(self, set: &'a S, inside: bool) -> Self::Parts {
        Parts::new(set, self.into(), inside)
    }
}

impl<'a, T: Ord + 'a> Within<'a, T> for RangeInclusive<&'a T> {
    type Parts = PartsWithin<'a, T>;

    fn parts_of(self, set: &'a RangeSetRef<T>, inside: bool) -> PartsWithin<'a, T> {
        if self.is_empty() {
            return PartsWithin::nothing();
        }
        let (start, last) = self.into_inner();
        let (from, to) = (up_to(set, start), up_to(set, last));
        PartsWithin {
            first: (is_odd(from) == inside).then_some(Bound::Included(start)),
            between: set.boundaries()[from..to].iter(),
            last: (is_odd(to) == inside).then_some(Bound::Included(last)),
        }
    }
}

impl<'a, T: RangeSetEntry + 'a> Within<'a, T> for RangeTo<&'a T> {
    type Parts = PartsWithin<'a, T>;

    fn parts_of(self, set: &'a RangeSetRef<T>, inside: bool) -> PartsWithin<'a, T> {
        if self.end.is_min_value() {
            return PartsWithin::nothing();
        }
        let to = match search(set.boundaries(), self.end, &mut Comparisons::new()) {
            Ok(i) | Err(i) => i,
        };
        PartsWithin::from_least(set, to, Bound::Excluded(self.end), inside)
    }
}

impl<'a, T: RangeSetEntry + 'a> Within<'a, T> for RangeToInclusive<&'a T> {
    type Parts = PartsWithin<'a, T>;

    fn parts_of(self, set: &'a RangeSetRef<T>, inside: bool) -> PartsWithin<'a, T> {
        PartsWithin::from_least(set, up_to(set, self.end), Bound::Included(self.end), inside)
    }
}

impl<'a, T: RangeSetEntry + 'a> Within<'a, T> for RangeFull {
    type Parts = PartsWithin<'a, T>;

    fn parts_of(self, set: &'a RangeSetRef<T>, inside: bool) -> PartsWithin<'a, T> {
        PartsWithin::from_least(set, set.boundaries().len(), Bound::Unbounded, inside)
    }
}

/// How many boundaries are at or below a value.
fn up_to<T: Ord>(set: &RangeSetRef<T>, value: &T) -> usize {
    count_up_to(set.boundaries(), value, &mut Comparisons::new())
}

/// The parts of `..&b`, `..`, `&a..=&b` or `..=&b` that are in a set or not, from the lowest on and
/// from the highest down.
///
/// [`RangeSetRef::gaps`] and [`RangeSetRef::ranges_within`] make it.
///
/// # Examples
///
/// ```
/// use range_sets::{PartsWithin, RangeSetRef};
/// use std::ops::Bound::{Excluded, Unbounded};
///
/// let busy = RangeSetRef::new(&[9, 11]).unwrap();
/// let mut free: PartsWithin<i32> = busy.gaps(..&10);
/// assert_eq!(free.next(), Some((Unbounded, Excluded(&9))));
/// assert_eq!(free.next(), None);
/// ```
#[must_use = "iterators are lazy and do nothing unless consumed"]
pub struct PartsWithin<'a, T> {
    first: Option<Bound<&'a T>>,
    between: slice::Iter<'a, T>,
    last: Option<Bound<&'a T>>,
}

impl<'a, T> PartsWithin<'a, T> {
    fn nothing() -> Self {
        PartsWithin {
            first: None,
            between: [].iter(),
            last: None,
        }
    }

    /// The parts from the least value up to an end with `to` boundaries before it.
    fn from_least(set: &'a RangeSetRef<T>, to: usize, end: Bound<&'a T>, inside: bool) -> Self
    where
        T: RangeSetEntry,
    {
        let items = set.boundaries();
        // Where the set begins at the least value, nothing lies before it.
        let has_least = items.first().map_or(false, RangeSetEntry::is_min_value);
        let from = usize::from(has_least && !inside);
        PartsWithin {
            first: (!inside && !has_least).then_some(Bound::Unbounded),
            between: items[from..to].iter(),
            last: (is_odd(to) == inside).then_some(end),
        }
    }
}

impl<'a, T> Iterator for PartsWithin<'a, T> {
    type Item = (Bound<&'a T>, Bound<&'a T>);

    fn next(&mut self) -> Option<Self::Item> {
        let between = &mut self.between;
        let first = self.first.take();
        let start = first.or_else(|| between.next().map(Bound::Included))?;
        let end = between.next().map(Bound::Excluded);
        Some((start, end.or_else(|| self.last.take())?))
    }
}

impl<'a, T> DoubleEndedIterator for PartsWithin<'a, T> {
    fn next_back(&mut self) -> Option<Self::Item> {
        let between = &mut self.between;
        let last = self.last.take();
        let end = last.or_else(|| between.next_back().map(Bound::Excluded))?;
        let start = between.next_back().map(Bound::Included);
        Some((start.or_else(|| self.first.take())?, end))
    }
}

impl<T> FusedIterator for PartsWithin<'_, T> {}

impl<T> Clone for PartsWithin<'_, T> {
    fn clone(&self) -> Self {
        let between = self.between.clone();
        PartsWithin { between, ..*self }
    }
}
