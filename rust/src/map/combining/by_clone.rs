//! A copy of a map, and its keys as a set, by `Clone`: those of its ranges, one after the other.

use crate::array::List;
use crate::forms::ends;
use crate::map::RangeMap;
use crate::memory::AllocError;

impl<K: Ord + Clone, V: Eq + Clone> RangeMap<K, V> {
    pub(super) fn try_copy(&self) -> Result<Self, AllocError> {
        Ok(self.clone())
    }

    pub(super) fn try_domain<L: List<Item = K>>(&self) -> Result<L, AllocError> {
        self.try_domain_where(|_| true, &ends::Copier, ends::SORTING)
    }

    pub(super) fn try_where_equal<L: List<Item = K>>(&self, value: &V) -> Result<L, AllocError> {
        self.try_domain_where(|it| it == value, &ends::Copier, ends::SORTING)
    }
}
