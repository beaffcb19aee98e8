//! Many sets, or ranges as they are read, joined into one.

use crate::array::{List, Sorting};
use crate::entry::RangeSetEntry;
use crate::generated::range_merge::{Copier, IntersectionOp};
use crate::memory::AllocError;
use crate::range::RangeSetRange;
use crate::view::RangeSetRef;
use alloc::vec::Vec;
use core::iter;

/// The boundaries of the union of copies of sets.
pub(crate) fn union_of_sets<T, L, S, P>(
    sets: impl IntoIterator<Item = S>,
    copier: &P,
) -> Result<L, AllocError>
where
    T: Ord,
    L: List<Item = T>,
    S: AsRef<RangeSetRef<T>>,
    P: Copier<T>,
{
    let mut parts = Vec::new();
    for set in sets {
        parts.try_reserve(1).map_err(|_| AllocError)?;
        parts.push(set);
    }
    let mut views = Vec::new();
    views
        .try_reserve_exact(parts.len())
        .map_err(|_| AllocError)?;
    views.extend(parts.iter().map(|set| set.as_ref().proved()));
    L::union_of(&views, copier)
}

/// The boundaries of the intersection of copies of sets, of every value if there is none.
pub(crate) fn intersection_of_sets<T, L, S, P>(
    sets: impl IntoIterator<Item = S>,
    copier: &P,
) -> Result<L, AllocError>
where
    T: RangeSetEntry,
    L: List<Item = T>,
    S: AsRef<RangeSetRef<T>>,
    P: Copier<T>,
{
    let mut sets = sets.into_iter();
    let mut common = match sets.next() {
        Some(first) => L::copied(first.as_ref().boundaries(), copier)?,
        None => L::of_range((T::min_value()..).into())?,
    };
    for that in sets {
        common.merge_ref(that.as_ref().boundaries(), copier, &IntersectionOp)?;
    }
    Ok(common)
}

/// The boundaries of the union of ranges that are read one by one. An error of the reader comes
/// first, and is apart from running out of memory.
pub(crate) fn union_of_read<L: List, E>(
    mut next: impl FnMut() -> Result<Option<RangeSetRange<L::Item>>, E>,
    sorting: Sorting,
) -> Result<Result<L, AllocError>, E>
where
    L::Item: Ord,
{
    let mut failed = None;
    let ranges = iter::from_fn(|| {
        next().unwrap_or_else(|error| {
            failed = Some(error);
            None
        })
    });
    let list = L::of_ranges(ranges, sorting);
    failed.map_or(Ok(list), Err)
}
