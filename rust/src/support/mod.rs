//! What the generated code takes from Rattle's library and Rust's hasn't: lists whose growth may be
//! refused, and the words of the allocator.
//!
//! Written by hand and not proved.

mod alloc_error;
#[cfg(feature = "c")]
mod boxed;
mod by_bits;
mod clones;
#[cfg(feature = "c")]
mod decimal;
mod error;
#[cfg(range_sets_heap)]
mod heap;
mod in_place;
mod opened;
mod since;
mod slot;
mod small_vec;
mod sorting;
#[cfg(test)]
mod tests;
mod turning;
mod vec;

pub use alloc_error::{AllocError, AllocFailed, Global};
#[cfg(feature = "c")]
pub use boxed::{items_at, room_at, Box, Parts};
pub use by_bits::{is_number, ByBits};
#[cfg(feature = "c")]
pub use decimal::{Buffer, Integer};
pub use error::Error;
pub use in_place::{InPlaceMergeState, InPlaceMergeStateRef};
// The sources need now these, now those.
#[allow(unused_imports)]
pub use since::{select_unpredictable, DivUp, Log2Down, NextMultipleUp, SELECTS};
pub use small_vec::{append_both, append_within, SmallVec};
pub use sorting::SortIn;
pub use turning::move_last_two;
pub use vec::Vec;
