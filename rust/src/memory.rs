//! Ends the process if memory runs out, as std's collections do. The calls of `fallible` return an
//! error instead.

use crate::generated::range_merge::Copier;
pub(crate) use crate::support::AllocError;
use crate::support::Vec;
use alloc::alloc::{handle_alloc_error, Layout};
use core::mem;

/// The value of a call on a list of `T`. It ends the process if memory ran out.
#[inline(always)]
pub(crate) fn expect_memory<T, R, E>(result: Result<R, E>) -> R {
    match result {
        Ok(value) => value,
        Err(_) => out_of_memory::<T>(),
    }
}

#[cold]
#[inline(never)]
pub(crate) fn out_of_memory<T>() -> ! {
    handle_alloc_error(Layout::new::<T>())
}

/// The value of a call that asked for room for `items` items. As std's lists do, it panics if no
/// list can have as many, and ends the process if there is no memory for them.
pub(crate) fn expect_room<T, R>(result: Result<R, AllocError>, items: Option<usize>) -> R {
    match (result, items.map(Layout::array::<T>)) {
        (Ok(value), _) => value,
        (Err(AllocError), Some(Ok(layout))) => handle_alloc_error(layout),
        (Err(AllocError), _) => panic!("capacity overflow"),
    }
}

/// Elements and values are copied by their own `Clone`, which returns no error.
pub struct ByClone;

impl<T: Clone> Copier<T> for ByClone {
    #[inline(always)]
    fn copy(&self, item: &T) -> Result<T, AllocError> {
        Ok(item.clone())
    }

    /// True of elements without a drop, such as numbers: if a clone panics, there is nothing to
    /// drop.
    #[inline(always)]
    fn all_infallible(&self) -> bool {
        !mem::needs_drop::<T>()
    }

    /// True of short elements without a drop: a copy can be copied again in place of the element.
    #[inline(always)]
    fn is_plain(&self) -> bool {
        !mem::needs_drop::<T>() && mem::size_of::<T>() <= mem::size_of::<u64>()
    }

    #[inline(always)]
    fn append(&self, list: &mut Vec<T>, items: &[T]) -> Result<(), AllocError> {
        list.reserve(items.len())?;
        list.as_inner_mut().extend_from_slice(items);
        Ok(())
    }
}
