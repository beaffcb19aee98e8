//! The words of the allocator.

use super::Error;
use core::fmt;
use smallvec::CollectionAllocErr;

/// The global allocator. Rattle's calls take it as a value where they may ask for memory.
#[derive(Clone, Copy, Debug, Default, PartialEq, Eq)]
pub struct Global;

/// An allocation failed.
#[derive(Clone, Copy, Debug, PartialEq, Eq)]
pub struct AllocError;

impl fmt::Display for AllocError {
    fn fmt(&self, f: &mut fmt::Formatter<'_>) -> fmt::Result {
        f.write_str("memory allocation failed")
    }
}

impl Error for AllocError {}

impl From<CollectionAllocErr> for AllocError {
    fn from(_: CollectionAllocErr) -> Self {
        AllocError
    }
}

impl From<alloc::collections::TryReserveError> for AllocError {
    fn from(_: alloc::collections::TryReserveError) -> Self {
        AllocError
    }
}

/// An allocation for this value failed.
#[derive(Clone, Copy, Debug, PartialEq, Eq)]
pub struct AllocFailed<T> {
    /// The value that found no room.
    pub value: T,
}

impl<T> From<AllocFailed<T>> for AllocError {
    fn from(_: AllocFailed<T>) -> Self {
        AllocError
    }
}
