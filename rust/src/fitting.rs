//! Room in the gaps of a set or a map.

use crate::any_range::{Ended, Parted, PartsOf};
use crate::entry::Length;
use crate::generated::range_collections::{FromPlace, ValueEnds};
use crate::range::RangeSetRange;

/// The least value of the range from which on `len` values of it are in a gap.
pub(crate) fn first_fit<'a, T, S>(set: &'a S, within: impl Ended<T>, len: T) -> Option<T>
where
    T: Length + 'a,
    S: Parted<'a, T> + ?Sized,
{
    let (ends, count) = (within.ends(), len.count()?);
    if count == 0 {
        return (ends.start <= ends.end).then_some(ends.start);
    }
    let end = ends.end;
    let mut gaps = gaps(set, ends);
    gaps.find(|gap| has_room(gap, &end, count))
        .map(|gap| *gap.start())
}

/// The greatest value of the range from which on `len` values of it are in a gap.
pub(crate) fn last_fit<'a, T, S>(set: &'a S, within: impl Ended<T>, len: T) -> Option<T>
where
    T: Length + FromPlace + 'a,
    S: Parted<'a, T> + ?Sized,
{
    let (ends, count) = (within.ends(), len.count()?);
    if count == 0 {
        return (ends.start <= ends.end).then_some(ends.end);
    }
    let end = ends.end;
    let gap = gaps(set, ends).rfind(|gap| has_room(gap, &end, count))?;
    let last = gap.end().map_or(end.place(), |end| end.place() - 1);
    T::from_place(last - (count - 1))
}

/// The gaps in a range. One up to the greatest value has no end.
fn gaps<'a, T, S>(set: &'a S, ends: ValueEnds<T>) -> PartsOf<'a, T, S>
where
    T: Length + 'a,
    S: Parted<'a, T> + ?Sized,
{
    let limit = (!ends.closed).then_some(ends.end);
    PartsOf::<T, S>::new(set, RangeSetRange::of_ends(ends.start, limit), false)
}

/// Whether a gap has as many values, of a type whose greatest value is `last` if the gap has no end.
fn has_room<T: Length>(gap: &RangeSetRange<T>, last: &T, count: u128) -> bool {
    match gap.len() {
        Some(room) => room >= count,
        None => last.place() - gap.start().place() >= count - 1,
    }
}
