//! The values in a map, which are copied by their `Clone` or by a copy that may fail.

use crate::generated::range_map::MapValue;
use crate::memory::AllocError;
pub use crate::memory::ByClone;
use core::marker::PhantomData;

/// How values of a type are copied.
pub trait Copies<V> {
    /// A copy, or an error if memory runs out.
    fn copied(value: &V) -> Result<V, AllocError>;
}

impl<V: Clone> Copies<V> for ByClone {
    #[inline(always)]
    fn copied(value: &V) -> Result<V, AllocError> {
        Ok(value.clone())
    }
}

/// A value of a map, and how it is copied.
pub struct Kept<V, C> {
    pub value: V,
    by: PhantomData<C>,
}

impl<V, C> Kept<V, C> {
    #[inline(always)]
    pub fn new(value: V) -> Self {
        Kept {
            value,
            by: PhantomData,
        }
    }
}

impl<V: Clone, C> Clone for Kept<V, C> {
    #[inline(always)]
    fn clone(&self) -> Self {
        Self::new(self.value.clone())
    }
}

impl<V: PartialEq, C> PartialEq for Kept<V, C> {
    #[inline(always)]
    fn eq(&self, that: &Self) -> bool {
        self.value == that.value
    }
}

impl<V: Eq, C> Eq for Kept<V, C> {}

impl<V: Eq, C: Copies<V>> MapValue for Kept<V, C> {
    #[inline(always)]
    fn copy_value(&self) -> Result<Self, AllocError> {
        C::copied(&self.value).map(Self::new)
    }
}
