//! What the exports for C need: boxes that C keeps as addresses, and slices of the pointers and
//! lengths that C passes.

use super::{AllocFailed, Global};
use core::alloc::Layout;
use core::mem::ManuallyDrop;
use core::ops::{Deref, DerefMut};
use core::ptr::NonNull;
use core::slice;

/// A value in memory of its own. Unlike std's box it may be made twice of one address, as long as
/// both are only read: so two threads of C may ask one set.
pub struct Box<T>(NonNull<T>);

impl<T> Box<T> {
    /// Moves a value into memory of its own, or gives it back where there is none.
    pub fn new(_: Global, value: T) -> Result<Self, AllocFailed<T>> {
        let layout = Layout::new::<T>();
        assert!(layout.size() > 0, "what takes no memory needs no box");
        // SAFETY: the layout's size isn't 0.
        let memory = NonNull::new(unsafe { alloc::alloc::alloc(layout) }.cast::<T>());
        match memory {
            None => Err(AllocFailed { value }),
            Some(at) => {
                // SAFETY: the memory is for one value of the type, and nothing else has its
                // address.
                unsafe { at.as_ptr().write(value) };
                Ok(Box(at))
            }
        }
    }
}

impl<T> Deref for Box<T> {
    type Target = T;

    #[inline(always)]
    fn deref(&self) -> &T {
        // SAFETY: a box has a value until it is dropped, and whoever has the box sees that none
        // changes it meanwhile.
        unsafe { self.0.as_ref() }
    }
}

impl<T> DerefMut for Box<T> {
    #[inline(always)]
    fn deref_mut(&mut self) -> &mut T {
        // SAFETY: as above, and none reads it meanwhile.
        unsafe { self.0.as_mut() }
    }
}

impl<T> Drop for Box<T> {
    fn drop(&mut self) {
        // SAFETY: std's allocator gave the memory, for this type. The value is dropped with std's
        // box.
        drop(unsafe { alloc::boxed::Box::from_raw(self.0.as_ptr()) });
    }
}

/// A box as its address, and its allocator. It owns what the box did, and a drop leaves that where
/// it is.
pub struct Parts<T, A> {
    pub ptr: *mut T,
    pub alloc: A,
}

impl<T> Parts<T, Global> {
    /// Takes a box apart.
    #[inline(always)]
    pub fn of(it: Box<T>) -> Self {
        Parts {
            ptr: ManuallyDrop::new(it).0.as_ptr(),
            alloc: Global,
        }
    }

    /// Makes the box again.
    #[inline(always)]
    pub fn into_box(self) -> Box<T> {
        // SAFETY: the contracts of the exports ask for a set or map here, so the address is that of
        // a box.
        Box(unsafe { NonNull::new_unchecked(self.ptr) })
    }
}

/// The items at an address.
///
/// # Safety
///
/// It is the address of `len` items, or of none, and nothing changes them while the slice is used.
#[inline(always)]
pub unsafe fn items_at<'a, T>(items: *const T, len: usize) -> &'a [T] {
    // SAFETY: by the caller.
    unsafe { slice::from_raw_parts(items, len) }
}

/// The same, to be changed.
///
/// # Safety
///
/// It is the address of `len` items, or of none, and nothing else uses them while the slice is
/// used.
#[inline(always)]
pub unsafe fn room_at<'a, T>(items: *mut T, len: usize) -> &'a mut [T] {
    // SAFETY: by the caller.
    unsafe { slice::from_raw_parts_mut(items, len) }
}
