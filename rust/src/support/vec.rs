//! std's list, with calls that return an error if an allocation fails.

use super::{AllocError, AllocFailed, Global};
use core::ops::{Deref, DerefMut, RangeBounds};

/// A list on the heap.
#[derive(Debug)]
pub struct Vec<T>(alloc::vec::Vec<T>);

/// The calls that both lists have, by those of the list within.
macro_rules! list_calls {
    ([$($generics:tt)*] $list:ty) => {
        impl<$($generics)*> $list {
            /// How many items have room.
            #[inline(always)]
            pub fn capacity(&self) -> usize {
                self.0.capacity()
            }

            /// The items.
            #[inline(always)]
            pub fn as_slice(&self) -> &[T] {
                self.0.as_slice()
            }

            /// The items, to change them.
            #[inline(always)]
            pub fn as_mut_slice(&mut self) -> &mut [T] {
                self.0.as_mut_slice()
            }

            /// Makes room for `n` more items.
            #[inline]
            pub fn reserve(&mut self, n: usize) -> Result<(), AllocError> {
                Ok(self.0.try_reserve(n)?)
            }

            /// Appends an item where there is room for it.
            ///
            /// # Panics
            ///
            /// Where there is none.
            #[inline(always)]
            pub fn push_reserved(&mut self, value: T) {
                assert!(self.0.len() < self.0.capacity(), "no room was reserved");
                self.0.push(value);
            }

            /// Inserts an item at `at`, or gives it back if there is no memory for it.
            #[inline]
            pub fn insert(&mut self, at: usize, value: T) -> Result<(), AllocFailed<T>> {
                if self.0.try_reserve(1).is_err() {
                    return Err(AllocFailed { value });
                }
                self.0.insert(at, value);
                Ok(())
            }

            /// Removes the item at `at`, and moves the later ones down.
            #[inline(always)]
            pub fn remove(&mut self, at: usize) -> T {
                self.0.remove(at)
            }

            /// Takes the last item out.
            #[inline(always)]
            pub fn pop(&mut self) -> Option<T> {
                self.0.pop()
            }

            /// Drops the items from `len` on. If a drop panics, the others are dropped too.
            #[inline(always)]
            pub fn truncate(&mut self, len: usize) {
                self.0.truncate(len);
            }

            /// The allocator.
            #[inline(always)]
            pub fn allocator(&self) -> &Global {
                &Global
            }
        }

        impl<$($generics)*> Deref for $list {
            type Target = [T];

            #[inline(always)]
            fn deref(&self) -> &[T] {
                self.0.as_slice()
            }
        }

        impl<$($generics)*> DerefMut for $list {
            #[inline(always)]
            fn deref_mut(&mut self) -> &mut [T] {
                self.0.as_mut_slice()
            }
        }
    };
}

pub(super) use list_calls;

list_calls!([T] Vec<T>);

impl<T> Vec<T> {
    /// An empty list. It takes no memory.
    #[inline]
    pub fn new(_: Global) -> Self {
        Vec(alloc::vec::Vec::new())
    }

    /// An empty list with room for `n` items.
    #[inline]
    pub fn with_capacity(_: Global, n: usize) -> Result<Self, AllocError> {
        let mut list = alloc::vec::Vec::new();
        list.try_reserve_exact(n)?;
        Ok(Vec(list))
    }

    /// Appends an item, or gives it back if there is no memory for it.
    #[inline(always)]
    pub fn push(&mut self, value: T) -> Result<(), AllocFailed<T>> {
        if self.0.try_reserve(1).is_err() {
            return Err(AllocFailed { value });
        }
        self.0.push(value);
        Ok(())
    }

    /// Moves the items of another list to the end.
    #[inline]
    pub fn append(&mut self, other: &mut Self) -> Result<(), AllocError> {
        self.0.try_reserve(other.0.len())?;
        self.0.append(&mut other.0);
        Ok(())
    }

    /// Keeps the items for which `keep` is true.
    #[inline]
    pub fn retain(&mut self, keep: impl FnMut(&T) -> bool) {
        self.0.retain(keep);
    }

    /// Drops the items of a range, and moves the later ones down. If a drop panics, the others are
    /// dropped too, and the list is as if none had.
    #[inline(always)]
    pub fn drain(&mut self, range: impl RangeBounds<usize>) {
        self.0.drain(range);
    }

    /// Drops all items, and keeps the room. If a drop panics, the others are dropped too.
    #[inline(always)]
    pub fn clear(&mut self) {
        self.0.clear();
    }

    /// Moves the items from `at` on to a list of their own.
    #[inline]
    pub fn split_off(&mut self, at: usize) -> Result<Self, AllocError> {
        let mut moved = Self::with_capacity(Global, self.0.len() - at)?;
        moved.0.extend(self.0.drain(at..));
        Ok(moved)
    }

    /// Appends copies of the items.
    #[inline]
    pub fn extend_from_slice(&mut self, items: &[T]) -> Result<(), AllocError>
    where
        T: Copy,
    {
        self.0.try_reserve(items.len())?;
        self.0.extend_from_slice(items);
        Ok(())
    }

    /// The list as std's.
    #[inline(always)]
    pub fn into_inner(self) -> alloc::vec::Vec<T> {
        self.0
    }

    /// std's list within.
    #[inline(always)]
    pub(crate) fn as_inner_mut(&mut self) -> &mut alloc::vec::Vec<T> {
        &mut self.0
    }
}

impl<T> IntoIterator for Vec<T> {
    type Item = T;
    type IntoIter = alloc::vec::IntoIter<T>;

    #[inline(always)]
    fn into_iter(self) -> Self::IntoIter {
        self.0.into_iter()
    }
}

impl<T> From<alloc::vec::Vec<T>> for Vec<T> {
    #[inline(always)]
    fn from(list: alloc::vec::Vec<T>) -> Self {
        Vec(list)
    }
}
