//! Copies of elements that Rattle's sources don't know: std's own texts and lists, numbers other
//! than 0, addresses and durations.

use super::AllocError;
use crate::generated::range_entry::EntryClone;
use crate::generated::range_map::MapValue;
use alloc::string::String;
use alloc::vec::Vec;
use core::num::{
    NonZeroI128, NonZeroI16, NonZeroI32, NonZeroI64, NonZeroI8, NonZeroIsize, NonZeroU128,
    NonZeroU16, NonZeroU32, NonZeroU64, NonZeroU8, NonZeroUsize,
};
use core::time::Duration;
#[cfg(feature = "std")]
use std::net::{Ipv4Addr, Ipv6Addr};

/// The same text, or an error where there is no memory for it.
impl EntryClone for String {
    fn entry_clone(&self) -> Result<String, AllocError> {
        let mut copied = String::new();
        copied.try_reserve_exact(self.len())?;
        copied.push_str(self);
        Ok(copied)
    }
}

/// A list of clones of the items, in their order.
impl<T: EntryClone> EntryClone for Vec<T> {
    fn entry_clone(&self) -> Result<Vec<T>, AllocError> {
        let mut copied = Vec::new();
        copied.try_reserve_exact(self.len())?;
        for item in self {
            copied.push(item.entry_clone()?);
        }
        Ok(copied)
    }
}

impl MapValue for () {
    #[inline(always)]
    fn copy_value(&self) -> Result<Self, AllocError> {
        Ok(())
    }
}

/// The copy that it has as an element.
impl<T: EntryClone> MapValue for T {
    #[inline(always)]
    fn copy_value(&self) -> Result<Self, AllocError> {
        self.entry_clone()
    }
}

macro_rules! copied {
    ($($number:ty)*) => {$(
        /// The value itself.
        impl EntryClone for $number {
            #[inline(always)]
            fn entry_clone(&self) -> Result<$number, AllocError> {
                Ok(*self)
            }

            #[inline(always)]
            fn append_clones(list: &mut super::Vec<$number>, items: &[$number]) -> Result<(), AllocError> {
                list.extend_from_slice(items)
            }
        }
    )*};
}

copied! {
    NonZeroU8 NonZeroU16 NonZeroU32 NonZeroU64 NonZeroU128 NonZeroUsize
    NonZeroI8 NonZeroI16 NonZeroI32 NonZeroI64 NonZeroI128 NonZeroIsize
    Duration
}

#[cfg(feature = "std")]
copied!(Ipv4Addr Ipv6Addr);
