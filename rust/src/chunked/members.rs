//! Members of a set in chunks one by one.

use super::{ChunkedRangeSet, Iter};
use crate::generated::range_collections::FromPlace;
use crate::iter::wraps;
use crate::range::RangeSetRange;
use core::iter::FlatMap;
use core::marker::PhantomData;
use core::ops::RangeInclusive;

impl<T: Ord> ChunkedRangeSet<T> {
    /// Returns the members one by one, from the lowest on or from the highest down.
    ///
    /// # Examples
    ///
    /// ```
    /// use range_sets::ChunkedRangeSet;
    ///
    /// let mut set = ChunkedRangeSet::from_iter([3u8..5]);
    /// set.insert(254..);
    /// assert!(set.members().eq([3, 4, 254, 255]));
    /// assert!(set.members().rev().take(3).eq([255, 254, 4]));
    /// ```
    pub fn members(&self) -> Members<'_, T>
    where
        T: FromPlace,
    {
        Members(self.iter().flat_map(places_of))
    }
}

/// An iterator over the members of a set in chunks, from the lowest on and from the highest down.
/// [`ChunkedRangeSet::members`] makes it.
///
/// # Examples
///
/// ```
/// use range_sets::ChunkedRangeSet;
///
/// let set = ChunkedRangeSet::from_iter([3u8..5, 9..10]);
/// let mut members = set.members();
/// assert_eq!((members.next(), members.next_back()), (Some(3), Some(9)));
/// assert!(members.eq([4]));
/// ```
pub struct Members<'a, T: FromPlace>(FlatMap<Iter<'a, T>, Places<T>, PlacesOf<'a, T>>);

wraps! {
    ['a, T: FromPlace] Members<'a, T>: T;
}

type PlacesOf<'a, T> = fn(RangeSetRange<&'a T>) -> Places<T>;

/// The values at the places of one range.
#[derive(Clone)]
struct Places<T> {
    places: RangeInclusive<u128>,
    values: PhantomData<T>,
}

fn places_of<T: FromPlace>(range: RangeSetRange<&T>) -> Places<T> {
    let (start, last) = match range {
        RangeSetRange::Range(range) => (range.start, range.end.place() - 1),
        RangeSetRange::RangeFrom(range) => (range.start, T::greatest().place()),
    };
    Places {
        places: start.place()..=last,
        values: PhantomData,
    }
}

impl<T: FromPlace> Iterator for Places<T> {
    type Item = T;

    fn next(&mut self) -> Option<T> {
        self.places.next().and_then(T::from_place)
    }
}

impl<T: FromPlace> DoubleEndedIterator for Places<T> {
    fn next_back(&mut self) -> Option<T> {
        self.places.next_back().and_then(T::from_place)
    }
}
