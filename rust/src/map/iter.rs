//! The ranges of a map with their values, one by one.

use super::steps::IntoSteps;
use super::{Kept, Map};
use crate::generated::{range_collections, range_map as proved};
use crate::iter::{cloned_range, owned_ranges, shown, wraps};
use crate::range::RangeSetRange;
use core::fmt;
use core::iter::{FusedIterator, Peekable};
use core::ops::Range;

owned_ranges! {
    ['a, K, V, C] Iter<'a, K, V, C>: (RangeSetRange<&'a K>, &'a V) => (RangeSetRange<K>, V),
        |(range, value)| (range.cloned(), value.clone()), of K V;
    ['a, K, V, C] Gaps<'a, K, V, C>: Range<&'a K> => Range<K>, cloned_range, of K;
}

wraps! {
    ['a, K, V, C] Iter<'a, K, V, C>: (RangeSetRange<&'a K>, &'a V) = with_value;
    ['a, K, V, C] Gaps<'a, K, V, C>: Range<&'a K>;
}

shown! {
    [K: fmt::Debug, V: fmt::Debug, C] Iter<'_, K, V, C>;
    [K: fmt::Debug, V, C] Gaps<'_, K, V, C>;
}

/// An iterator over the ranges of a map that have a value, each with it, from the lowest on and
/// from the highest down. [`Map::iter`] makes it.
///
/// # Examples
///
/// ```
/// use range_sets::RangeMap;
///
/// let bookings = RangeMap::from_iter([(9..11, "Ada"), (11..14, "Bob")]);
/// let mut ranges = bookings.iter();
/// assert_eq!(ranges.next_back(), Some(((&11..&14).into(), &"Bob")));
/// assert_eq!(ranges.next(), Some(((&9..&11).into(), &"Ada")));
/// assert_eq!(ranges.next(), None);
/// assert_eq!(bookings.iter().copied().next(), Some(((9..11).into(), "Ada")));
/// ```
#[must_use = "iterators are lazy and do nothing unless consumed"]
pub struct Iter<'a, K, V, C>(proved::Iter<'a, K, Kept<V, C>>);

impl<'a, K, V, C> Iter<'a, K, V, C> {
    pub(super) fn new(ranges: proved::Iter<'a, K, Kept<V, C>>) -> Self {
        Iter(ranges)
    }
}

/// A range with its value, as callers see it.
#[inline(always)]
pub(super) fn with_value<'a, K, V, C>(
    (range, kept): (range_collections::RangeSetRange<&'a K>, &'a Kept<V, C>),
) -> (RangeSetRange<&'a K>, &'a V) {
    (RangeSetRange::from_proved(range), &kept.value)
}

/// An iterator over the parts of a range whose keys have no value, from both ends. [`Map::gaps`]
/// makes it.
///
/// # Examples
///
/// ```
/// use range_sets::RangeMap;
///
/// let bookings = RangeMap::from_iter([(9..11, "Ada")]);
/// let mut free = bookings.gaps(&10..&13);
/// assert_eq!(free.next(), Some(&11..&13));
/// assert_eq!(free.next(), None);
/// ```
#[must_use = "iterators are lazy and do nothing unless consumed"]
pub struct Gaps<'a, K, V, C>(proved::Gaps<'a, K, Kept<V, C>>);

impl<'a, K, V, C> Gaps<'a, K, V, C> {
    pub(super) fn new(gaps: proved::Gaps<'a, K, Kept<V, C>>) -> Self {
        Gaps(gaps)
    }
}

/// An iterator over the ranges of a map that was taken by value, each with its value, from both
/// ends. `into_iter` makes it.
///
/// A key at which one range ends and another one starts is cloned.
///
/// # Examples
///
/// ```
/// use range_sets::RangeMap;
///
/// let bookings = RangeMap::from_iter([(9..11, "Ada".to_string()), (11..14, "Bob".to_string())]);
/// let guests: Vec<String> = bookings.into_iter().map(|(_, guest)| guest).collect();
/// assert_eq!(guests, ["Ada", "Bob"]);
/// ```
#[must_use = "iterators are lazy and do nothing unless consumed"]
pub struct IntoIter<K, V, C> {
    steps: Peekable<IntoSteps<K, Kept<V, C>>>,
    /// The key of the lowest step that was taken from the back, at which the one before it ends.
    end: Option<K>,
}

impl<K: Ord, V: Eq, C> IntoIter<K, V, C> {
    pub(super) fn new(map: Map<K, V, C>) -> Self {
        IntoIter {
            steps: IntoSteps::new(map.0.steps).peekable(),
            end: None,
        }
    }
}

impl<K: Clone, V, C> Iterator for IntoIter<K, V, C> {
    type Item = (RangeSetRange<K>, V);

    fn next(&mut self) -> Option<Self::Item> {
        loop {
            let step = self.steps.next()?;
            if let Some(kept) = step.option {
                let next = self.steps.peek().map(|next| &next.key);
                let end = next.or(self.end.as_ref()).cloned();
                return Some((RangeSetRange::of_ends(step.key, end), kept.value));
            }
        }
    }
}

impl<K: Clone, V, C> DoubleEndedIterator for IntoIter<K, V, C> {
    fn next_back(&mut self) -> Option<Self::Item> {
        loop {
            let step = self.steps.next_back()?;
            let end = self.end.replace(step.key.clone());
            if let Some(kept) = step.option {
                return Some((RangeSetRange::of_ends(step.key, end), kept.value));
            }
        }
    }
}

impl<K: Clone, V, C> FusedIterator for IntoIter<K, V, C> {}
