//! The ranges of a set, one by one.

use crate::any_range::EndedParts;
use crate::array::Array;
use crate::generated::range_collections::{self as proved, FromPlace};
use crate::range::RangeSetRange;
use core::fmt;
use core::ops::Range;
use core::slice;
use smallvec::SmallVec;

/// [`RangeSetRef::gaps`] makes it.
///
/// [`RangeSetRef::gaps`]: crate::RangeSetRef::gaps
///
/// # Examples
///
/// ```
/// use range_sets::{Gaps, RangeSetRef};
///
/// let busy = RangeSetRef::new(&[9, 11]).unwrap();
/// let mut free: Gaps<i32> = busy.gaps(&10..&13);
/// assert_eq!(free.next(), Some(&11..&13));
/// assert_eq!(free.next(), None);
/// ```
pub type Gaps<'a, T> = RangesWithin<'a, T>;
/// [`RangeSetRef::members`] makes it.
///
/// [`RangeSetRef::members`]: crate::RangeSetRef::members
///
/// # Examples
///
/// ```
/// use range_sets::{Members, RangeSetRef};
///
/// let free = RangeSetRef::new(&[3u8, 5, 9, 10]).unwrap();
/// let mut seats: Members<u8> = free.members();
/// assert_eq!((seats.next(), seats.next_back()), (Some(3), Some(9)));
/// assert_eq!(format!("{seats:?}"), "[4]");
/// ```
pub use crate::generated::range_collections::Members;
/// The parts of a range that are in a set or not, from both ends. [`RangeSetRef::ranges_within`]
/// makes it, and [`RangeSetRef::gaps`].
///
/// [`RangeSetRef::gaps`]: crate::RangeSetRef::gaps
/// [`RangeSetRef::ranges_within`]: crate::RangeSetRef::ranges_within
///
/// # Examples
///
/// ```
/// use range_sets::{RangeSetRef, RangesWithin};
///
/// let busy = RangeSetRef::new(&[9, 11]).unwrap();
/// let mut parts: RangesWithin<i32> = busy.ranges_within(&10..&13);
/// assert_eq!(parts.next(), Some(&10..&11));
/// assert_eq!(parts.next_back(), None);
/// ```
pub type RangesWithin<'a, T> = EndedParts<&'a T, slice::Iter<'a, T>>;

/// Gives an iterator over ranges between references `cloned` and `copied`, as those over references
/// have them.
macro_rules! owned_ranges {
    ($([$($generics:tt)*] $iter:ty: $item:ty => $owned:ty, $clone:expr, of $($T:ident)*;)*) => {$(
        impl<$($generics)*> $iter {
            /// Returns an iterator over clones of what this one yields by reference.
            pub fn cloned(self) -> core::iter::Map<Self, fn($item) -> $owned>
            where
                $($T: Clone),*
            {
                self.map($clone)
            }

            /// Returns an iterator over copies of what this one yields by reference.
            pub fn copied(self) -> core::iter::Map<Self, fn($item) -> $owned>
            where
                $($T: Copy),*
            {
                self.cloned()
            }
        }
    )*};
}

/// Gives an iterator over ranges of a set `rev` and `filter` whose iterators have `copied` too.
macro_rules! adapted_ranges {
    ($([$($generics:tt)*] $iter:ty;)*) => {$(
        impl<$($generics)*> $iter {
            /// Reverses the order, as [`Iterator::rev`] does. The ranges can be copied.
            pub fn rev(self) -> Ranges<core::iter::Rev<Self>>
            where
                Self: DoubleEndedIterator,
            {
                Ranges(Iterator::rev(self))
            }

            /// Keeps the ranges for which `keep` returns `true`, as [`Iterator::filter`] does. They
            /// can be copied.
            pub fn filter<P>(self, keep: P) -> Ranges<core::iter::Filter<Self, P>>
            where
                P: FnMut(&RangeSetRange<&'a T>) -> bool,
            {
                Ranges(Iterator::filter(self, keep))
            }
        }
    )*};
}

/// Ranges of a set between references that `rev` or `filter` of its iterator leave.
///
/// # Examples
///
/// ```
/// use range_sets::RangeSet2;
///
/// let busy = RangeSet2::from([9..11, 12..15, 20..24]);
/// let long = busy.iter().rev().filter(|range| range.len() > Some(2)).copied();
/// assert!(long.eq([(20..24).into(), (12..15).into()]));
/// ```
#[derive(Clone, Debug)]
#[must_use = "iterators are lazy and do nothing unless consumed"]
pub struct Ranges<I>(pub(crate) I);

impl<I: Iterator> Iterator for Ranges<I> {
    type Item = I::Item;

    #[inline]
    fn next(&mut self) -> Option<I::Item> {
        self.0.next()
    }

    #[inline]
    fn size_hint(&self) -> (usize, Option<usize>) {
        self.0.size_hint()
    }
}

impl<I: DoubleEndedIterator> DoubleEndedIterator for Ranges<I> {
    #[inline]
    fn next_back(&mut self) -> Option<I::Item> {
        self.0.next_back()
    }
}

impl<I: ExactSizeIterator> ExactSizeIterator for Ranges<I> {}

impl<I: core::iter::FusedIterator> core::iter::FusedIterator for Ranges<I> {}

adapted_ranges! {
    ['a, T] Iter<'a, T>;
    ['a, T: 'a, I: Iterator<Item = RangeSetRange<&'a T>>] Ranges<I>;
}

/// Has `Debug` show the items that an iterator still has.
macro_rules! shown {
    ($([$($generics:tt)*] $iter:ty;)*) => {$(
        /// The items that are left.
        impl<$($generics)*> core::fmt::Debug for $iter {
            fn fmt(&self, f: &mut core::fmt::Formatter<'_>) -> core::fmt::Result {
                f.debug_list().entries(self.clone()).finish()
            }
        }
    )*};
}

/// Has an iterator give what becomes of the items of the one in it: from both ends, and again from
/// a clone.
macro_rules! wraps {
    ($([$($generics:tt)*] $iter:ty: $item:ty $(= $of:expr)?;)*) => {$(
        impl<$($generics)*> Iterator for $iter {
            type Item = $item;

            #[inline]
            fn next(&mut self) -> Option<Self::Item> {
                self.0.next()$(.map($of))?
            }

            #[inline]
            fn size_hint(&self) -> (usize, Option<usize>) {
                self.0.size_hint()
            }
        }

        impl<$($generics)*> DoubleEndedIterator for $iter {
            #[inline]
            fn next_back(&mut self) -> Option<Self::Item> {
                self.0.next_back()$(.map($of))?
            }
        }

        impl<$($generics)*> core::iter::FusedIterator for $iter {}

        impl<$($generics)*> Clone for $iter {
            fn clone(&self) -> Self {
                Self(self.0.clone())
            }
        }
    )*};
}

/// Makes ranges, from both ends, of a list of boundaries that is taken by value.
macro_rules! ranges_by_value {
    ([$($generics:tt)*] $iter:ty) => {
        impl<$($generics)*> Iterator for $iter {
            type Item = RangeSetRange<T>;

            fn next(&mut self) -> Option<Self::Item> {
                Some(RangeSetRange::of_ends(self.0.next()?, self.0.next()))
            }

            fn size_hint(&self) -> (usize, Option<usize>) {
                let len = self.0.len();
                let left = len / 2 + len % 2;
                (left, Some(left))
            }
        }

        impl<$($generics)*> DoubleEndedIterator for $iter {
            fn next_back(&mut self) -> Option<Self::Item> {
                let is_endless = self.0.len() % 2 == 1;
                let last = self.0.next_back()?;
                Some(if is_endless {
                    RangeSetRange::of_ends(last, None)
                } else {
                    RangeSetRange::of_ends(self.0.next_back()?, Some(last))
                })
            }
        }

        impl<$($generics)*> ExactSizeIterator for $iter {}

        impl<$($generics)*> core::iter::FusedIterator for $iter {}
    };
}

pub(crate) use {adapted_ranges, owned_ranges, ranges_by_value, shown, wraps};

owned_ranges! {
    ['a, T] Iter<'a, T>: RangeSetRange<&'a T> => RangeSetRange<T>, |it| it.cloned(), of T;
    ['a, T: 'a, I: Iterator<Item = RangeSetRange<&'a T>>] Ranges<I>:
        RangeSetRange<&'a T> => RangeSetRange<T>, |it| it.cloned(), of T;
}

/// The range between clones of both ends.
pub(crate) fn cloned_range<T: Clone>(range: Range<&T>) -> Range<T> {
    range.start.clone()..range.end.clone()
}

shown! {
    [T: fmt::Debug] Iter<'_, T>;
    [T: FromPlace + fmt::Debug] Members<'_, T>;
}

/// An iterator over the ranges of a set, from the lowest on.
///
/// It also runs from the highest range down, and knows how many are left. [`RangeSetRef::iter`]
/// makes it.
///
/// [`RangeSetRef::iter`]: crate::RangeSetRef::iter
///
/// # Examples
///
/// ```
/// use range_sets::RangeSetRef;
///
/// let set = RangeSetRef::new(&[0, 10, 20]).unwrap();
/// let mut ranges = set.iter();
/// assert_eq!(ranges.len(), 2);
/// assert_eq!(format!("{:?}", ranges.next_back().unwrap()), "20..");
/// assert_eq!(format!("{:?}", ranges), "[0..10]");
/// assert_eq!(ranges.clone().count(), 1);
/// assert_eq!(format!("{:?}", ranges.next().unwrap()), "0..10");
/// assert!(ranges.next().is_none());
/// ```
///
/// [`copied`](Self::copied) and [`cloned`](Self::cloned) give ranges between values, not
/// references:
///
/// ```
/// use range_sets::RangeSet2;
///
/// let set: RangeSet2<u32> = "9..11, 15..".parse().unwrap();
/// let starts: Vec<u32> = set.iter().copied().map(|range| *range.start()).collect();
/// assert_eq!(starts, [9, 15]);
/// ```
#[must_use = "iterators are lazy and do nothing unless consumed"]
pub struct Iter<'a, T>(proved::Iter<'a, T>);

impl<'a, T> Iter<'a, T> {
    #[inline(always)]
    pub(crate) fn new(boundaries: &'a [T]) -> Self {
        Iter(proved::Iter::new(boundaries))
    }

    pub(crate) fn of_proved(ranges: proved::Iter<'a, T>) -> Self {
        Iter(ranges)
    }
}

wraps! {
    ['a, T] Iter<'a, T>: RangeSetRange<&'a T> = RangeSetRange::from_proved;
}

impl<T> ExactSizeIterator for Iter<'_, T> {}

/// An iterator over the ranges of a set that was taken by value. `into_iter` makes it.
///
/// # Examples
///
/// ```
/// use range_sets::RangeSet2;
///
/// let set: RangeSet2<String> = ("a".to_string()..).into();
/// for range in set {
///     assert_eq!(format!("{range:?}"), r#""a".."#);
/// }
/// ```
#[must_use = "iterators are lazy and do nothing unless consumed"]
pub struct IntoIter<A: Array>(smallvec::IntoIter<A>);

impl<A: Array> IntoIter<A> {
    pub(crate) fn new(boundaries: SmallVec<A>) -> Self {
        IntoIter(boundaries.into_iter())
    }
}

ranges_by_value!([T, A: Array<Item = T>] IntoIter<A>);

impl<A: Array> Clone for IntoIter<A>
where
    A::Item: Clone,
{
    fn clone(&self) -> Self {
        // smallvec's own asks for a `Clone` of the array type too.
        IntoIter::new(self.0.as_slice().iter().cloned().collect())
    }
}

/// The ranges that are left.
impl<A: Array> fmt::Debug for IntoIter<A>
where
    A::Item: fmt::Debug,
{
    fn fmt(&self, f: &mut fmt::Formatter<'_>) -> fmt::Result {
        f.debug_list()
            .entries(Iter::new(self.0.as_slice()))
            .finish()
    }
}
