//! The list of the crate `smallvec`, with calls that return an error if an allocation fails.

use super::opened::Opened;
use super::vec::list_calls;
use super::{AllocError, AllocFailed, Global, Vec};
use crate::generated::range_merge::in_place::list::GrowsByHole;
use crate::generated::range_merge::indexed::Indexed;
use crate::generated::range_merge::Copier;
use core::mem;
use core::ops::{Deref, DerefMut, Range};

/// A list with room for `N` items in the value itself.
#[derive(Debug)]
pub struct SmallVec<T, const N: usize>(smallvec::SmallVec<[T; N]>);

list_calls!([T, const N: usize] SmallVec<T, N>);

impl<T, const N: usize> SmallVec<T, N> {
    /// An empty list. It takes no memory.
    #[inline(always)]
    pub const fn new(_: Global) -> Self {
        SmallVec(smallvec::SmallVec::new_const())
    }

    /// An empty list with room for `n` items.
    #[inline]
    pub fn with_capacity(alloc: Global, n: usize) -> Result<Self, AllocError> {
        let mut list = Self::new(alloc);
        list.0.try_reserve_exact(n)?;
        Ok(list)
    }

    /// The list of a `Vec`, where it lies.
    #[inline]
    pub fn from_vec(list: Vec<T>) -> Self {
        SmallVec(smallvec::SmallVec::from_vec(list.into_inner()))
    }

    /// The items as a `Vec`: where they lie, if that is the heap.
    #[inline]
    pub fn into_vec(self) -> Result<Vec<T>, AllocError> {
        if self.0.spilled() {
            return Ok(self.0.into_vec().into());
        }
        let mut list = Vec::with_capacity(Global, self.0.len())?;
        list.as_inner_mut().extend(self.0);
        Ok(list)
    }

    /// The list of the crate `smallvec`.
    #[inline(always)]
    pub fn into_inner(self) -> smallvec::SmallVec<[T; N]> {
        self.0
    }

    /// The list of the crate `smallvec` within.
    #[inline(always)]
    pub(crate) fn as_inner_mut(&mut self) -> &mut smallvec::SmallVec<[T; N]> {
        &mut self.0
    }

    /// How many items there are.
    #[inline(always)]
    pub fn len(&self) -> usize {
        self.0.len()
    }

    /// Takes the items of a range out and drops them. If a drop panics, the list is left empty.
    #[inline]
    pub fn drain(&mut self, range: Range<usize>) {
        let mut list = Opened::over(self);
        let after = list.len() - range.end;
        list.move_down(range.start, range.end, after);
        list.truncate(range.start + after);
        list.close();
    }

    /// Drops each item that is equal to the one before it.
    #[inline]
    pub fn dedup(&mut self)
    where
        T: PartialEq,
    {
        self.0.dedup();
    }

    /// Gives back the room that the items don't need. They come to lie inline where they fit, and
    /// what the allocator doesn't take back stays.
    #[inline]
    pub fn shrink_to_fit(&mut self) {
        if self.0.spilled() {
            // smallvec's own ends the process where the allocator refuses.
            let _room_is_kept = self.0.try_grow(self.0.len());
        }
    }
}

/// Appends copies of plain items, all at once where the list lies on the heap.
///
/// # Panics
///
/// If there is no room for them, or a copy fails.
pub fn append_within<T, P: Copier<T>, const N: usize>(
    list: &mut SmallVec<T, N>,
    items: &[T],
    copier: &P,
) {
    assert!(
        items.len() <= list.capacity() - list.len(),
        "no room was reserved"
    );
    let copied = if list.0.spilled() {
        let mut within = Vec::from(mem::take(&mut list.0).into_vec());
        let copied = copier.append(&mut within, items);
        *list = SmallVec::from_vec(within);
        copied
    } else {
        items
            .iter()
            .try_for_each(|item| copier.copy(item).map(|copy| list.push_reserved(copy)))
    };
    assert!(copied.is_ok(), "no copy fails");
}

/// Puts two items at the end.
#[inline(always)]
pub fn append_both<T, const N: usize>(
    list: &mut SmallVec<T, N>,
    start: T,
    end: T,
) -> Result<(), AllocError> {
    // A list on the heap is a case of its own: asked once where it lies, it takes half the time.
    if list.0.spilled() && list.0.len() + 2 <= list.0.capacity() {
        // SAFETY: there is room for two more.
        unsafe { write_both(&mut list.0, start, end) };
        return Ok(());
    }
    list.reserve(2)?;
    // SAFETY: room for two more was reserved.
    unsafe { write_both(&mut list.0, start, end) };
    Ok(())
}

/// Writes two items behind the last one.
///
/// # Safety
///
/// There is room for two more.
#[inline(always)]
unsafe fn write_both<T, const N: usize>(list: &mut smallvec::SmallVec<[T; N]>, start: T, end: T) {
    let len = list.len();
    // SAFETY: the room is there, and both items are in it before they belong to the list.
    unsafe {
        let after = list.as_mut_ptr().add(len);
        after.write(start);
        after.add(1).write(end);
        list.set_len(len + 2);
    }
}

impl<T, const N: usize> From<smallvec::SmallVec<[T; N]>> for SmallVec<T, N> {
    #[inline(always)]
    fn from(list: smallvec::SmallVec<[T; N]>) -> Self {
        SmallVec(list)
    }
}

impl<T, const N: usize> From<SmallVec<T, N>> for smallvec::SmallVec<[T; N]> {
    #[inline(always)]
    fn from(list: SmallVec<T, N>) -> Self {
        list.0
    }
}
