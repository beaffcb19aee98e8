//! Room for an item, in which one may lie or not.

use super::AllocError;
use crate::generated::range_merge::{Compare, Copier};
use core::cmp::Ordering;
use core::mem::MaybeUninit;

/// Room for an item. Merges in place run over these, so that a hole needs no items.
///
/// Only the list that they are of knows which hold an item: see [`Opened`](super::opened::Opened).
#[repr(transparent)]
pub struct Slot<K>(MaybeUninit<K>);

impl<K> Slot<K> {
    /// A slot with the item.
    #[inline(always)]
    pub fn of(item: K) -> Self {
        Slot(MaybeUninit::new(item))
    }

    /// The item.
    ///
    /// # Safety
    ///
    /// There is one in the slot.
    #[inline(always)]
    pub unsafe fn item(&self) -> &K {
        // SAFETY: by the caller.
        unsafe { self.0.assume_init_ref() }
    }

    /// The items of a slice as slots with an item each.
    #[inline(always)]
    pub fn slots(items: &[K]) -> &[Slot<K>] {
        // SAFETY: a slot lies in memory as its item does, and nothing is written through a shared
        // reference.
        unsafe { &*(items as *const [K] as *const [Slot<K>]) }
    }
}

/// Compares slots by the items in them. A merge compares those that are unread, each of which has
/// one.
pub struct BySlots<'c, C>(pub &'c mut C);

impl<K, C: Compare<K>> Compare<Slot<K>> for BySlots<'_, C> {
    #[inline(always)]
    fn compare(&mut self, a: &Slot<K>, b: &Slot<K>) -> Ordering {
        // SAFETY: a merge reads its sides by `Indexed::at`, which gives slots with an item alone.
        unsafe { self.0.compare(a.item(), b.item()) }
    }
}

/// Copies the items of slots.
pub struct OfSlots<'p, P>(pub &'p P);

impl<K, P: Copier<K>> Copier<Slot<K>> for OfSlots<'_, P> {
    #[inline(always)]
    fn copy(&self, slot: &Slot<K>) -> Result<Slot<K>, AllocError> {
        // SAFETY: a merge copies slots of the slice that it borrows, each of which has an item.
        Ok(Slot::of(self.0.copy(unsafe { slot.item() })?))
    }

    #[inline(always)]
    fn all_infallible(&self) -> bool {
        self.0.all_infallible()
    }
}
