//! A copy of a map, and its keys as a set, by copies that may fail: of keys by `EntryClone`, and of
//! values by `MapValue`. These are the proved calls.

use crate::array::List;
use crate::fallible::{EntryClone, MapValue, RangeMap};
use crate::map::Kept;
use crate::memory::AllocError;

impl<K: EntryClone, V: MapValue> RangeMap<K, V> {
    pub(super) fn try_copy(&self) -> Result<Self, AllocError> {
        self.try_clone()
    }

    pub(super) fn try_domain<L: List<Item = K>>(&self) -> Result<L, AllocError> {
        L::of_domain(&self.0)
    }

    pub(super) fn try_where_equal<L: List<Item = K>>(&self, value: &V) -> Result<L, AllocError> {
        let value = value.copy_value()?;
        L::of_keys(&self.0, &Kept::new(value))
    }
}
