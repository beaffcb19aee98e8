//! Lists that are open for changes in place: some of their room may hold no item.

use super::slot::Slot;
use super::SmallVec;
use crate::generated::range_merge::in_place::list::{Exchanges, GrowsByHole};
use crate::generated::range_merge::in_place::right::Supply;
use crate::generated::range_merge::indexed::Indexed;
use core::marker::PhantomData;
use core::mem;
use core::ptr;
use core::slice;

/// A borrowed list whose items are moved within its room.
///
/// The items before `front` and those from `back` up to `len` are there; between them lies a hole
/// without items. While the list is open its own length is 0, so whatever happens, as a panic in a
/// comparison, no item is dropped twice: [`close`](Self::close) sets the length, and a drop without
/// it drops all items and leaves the list empty.
pub struct Opened<'a, K, const N: usize> {
    // A pointer, and no reference: it would be the only way to the items, which lie in the list
    // itself where they are few.
    list: *mut smallvec::SmallVec<[K; N]>,
    items: *mut Slot<K>,
    room: usize,
    front: usize,
    back: usize,
    len: usize,
    of: PhantomData<&'a mut SmallVec<K, N>>,
}

impl<'a, K, const N: usize> Opened<'a, K, N> {
    /// Opens a list.
    #[inline]
    pub fn over(list: &'a mut SmallVec<K, N>) -> Self {
        let list: *mut _ = list.as_inner_mut();
        // SAFETY: the list is borrowed for as long as this value lives, and none of its items is
        // within a length of 0.
        let (len, room, items) = unsafe {
            let len = (*list).len();
            (*list).set_len(0);
            (len, (*list).capacity(), (*list).as_mut_ptr().cast())
        };
        Opened {
            list,
            items,
            room,
            front: 0,
            back: 0,
            len,
            of: PhantomData,
        }
    }

    /// Closes the list, which has the items that are there.
    ///
    /// # Panics
    ///
    /// Where there is a hole.
    #[inline]
    pub fn close(self) {
        assert!(self.front == self.back, "the list has a hole");
        let (list, len) = (self.list, self.len);
        mem::forget(self);
        // SAFETY: without a hole the items up to `len` are there, and nothing else has the list.
        unsafe { (*list).set_len(len) };
    }

    /// Makes one hole of the places from `from` up to `to` and the hole that is there, and drops the
    /// items in it.
    #[inline(always)]
    fn clear(&mut self, from: usize, to: usize) {
        assert!(from <= to && to <= self.len, "out of range");
        if self.front == self.back {
            self.front = from;
            self.back = to;
            self.drop_items(from, to);
            return;
        }
        let (front, back) = (self.front, self.back);
        assert!(from <= front && back <= to.max(back), "a second hole");
        self.front = from;
        self.back = to.max(back);
        self.drop_items(from, front);
        if back < to {
            self.drop_items(back, to);
        }
    }

    /// Drops the items from `from` up to `to`. They are there, and lie in the hole by now.
    #[inline(always)]
    fn drop_items(&mut self, from: usize, to: usize) {
        // SAFETY: no item in the hole is dropped again, also where one of these panics.
        unsafe { drop_items(self.items, from, to) };
    }

    /// The places from `from` on, `n` of them.
    #[inline(always)]
    fn slots(&mut self, from: usize, n: usize) -> &mut [Slot<K>] {
        assert!(from <= self.len && n <= self.len - from, "out of range");
        // SAFETY: the places up to `len` are within the room, and a slot may hold no item.
        unsafe { slice::from_raw_parts_mut(self.items.add(from), n) }
    }
}

/// Drops the items in these slots.
///
/// # Safety
///
/// The slots are within the memory of `items`, and each has an item, which isn't dropped again.
#[inline(always)]
unsafe fn drop_items<K>(items: *mut Slot<K>, from: usize, to: usize) {
    // SAFETY: by the caller.
    unsafe {
        ptr::drop_in_place(ptr::slice_from_raw_parts_mut(
            items.add(from).cast::<K>(),
            to - from,
        ))
    };
}

impl<K, const N: usize> Indexed<Slot<K>> for Opened<'_, K, N> {
    #[inline(always)]
    fn len(&self) -> usize {
        self.len
    }

    #[inline(always)]
    fn at(&self, i: usize) -> &Slot<K> {
        assert!(self.back <= i && i < self.len, "out of range");
        // SAFETY: the place is within the room. It has an item, as those from `back` up to `len`
        // have.
        unsafe { &*self.items.add(i) }
    }
}

impl<K, const N: usize> GrowsByHole<Slot<K>> for Opened<'_, K, N> {
    #[inline(always)]
    fn move_down(&mut self, to: usize, from: usize, n: usize) {
        if to == from {
            return;
        }
        self.clear(to, from);
        assert!(self.back == from && n <= self.len - from, "out of range");
        // SAFETY: the items from `from` on are there, those before it down to `to` aren't, and all
        // are within the room.
        unsafe { ptr::copy(self.items.add(from), self.items.add(to), n) };
        self.front = to + n;
        self.back = from + n;
    }

    #[inline(never)]
    fn open_hole(&mut self, at: usize, n: usize) {
        assert!(n <= self.room - self.len, "no room");
        if self.front != self.back {
            self.clear(self.front, at);
        }
        assert!(
            at <= self.len && (self.front == self.back || self.back == at),
            "out of range"
        );
        // SAFETY: the items from `at` on are there, and there is room after them for `n` more.
        unsafe {
            let first = self.items.add(at);
            ptr::copy(first, first.add(n), self.len - at);
        }
        if self.front == self.back {
            self.front = at;
        }
        self.back = at + n;
        self.len += n;
    }

    #[inline(always)]
    fn put_from<R: Supply<Slot<K>>>(&mut self, at: usize, n: usize, right: &mut R) {
        self.clear(at, at + n);
        if !mem::needs_drop::<K>() {
            right.put_front(self.slots(at, n));
            self.front = at + n;
            return;
        }
        // One by one, so that those are known that are there if a copy panics.
        for i in at..at + n {
            right.put_front(self.slots(i, 1));
            self.front = i + 1;
        }
    }

    #[inline(always)]
    fn truncate(&mut self, n: usize) {
        if n < self.len {
            self.clear(n, self.len);
            self.front = 0;
            self.back = 0;
            self.len = n;
        }
    }
}

impl<K, const N: usize> Drop for Opened<'_, K, N> {
    fn drop(&mut self) {
        // SAFETY: these are the items that are there, and the list itself has none of them.
        unsafe {
            drop_items(self.items, 0, self.front);
            drop_items(self.items, self.back, self.len);
        }
    }
}

/// A borrowed list whose items are taken from its front. What isn't taken is dropped, and the list
/// is left empty.
///
/// A merge borrows it, so that what is left is dropped once the merge's own list is closed.
pub struct Emptied<'a, K, const N: usize> {
    items: *mut Slot<K>,
    front: usize,
    len: usize,
    of: PhantomData<&'a mut SmallVec<K, N>>,
}

impl<'a, K, const N: usize> Emptied<'a, K, N> {
    /// All items of the list.
    #[inline]
    pub fn over(list: &'a mut SmallVec<K, N>) -> Self {
        let list = list.as_inner_mut();
        let len = list.len();
        // SAFETY: none of its items is within a length of 0.
        unsafe { list.set_len(0) };
        Emptied {
            items: list.as_mut_ptr().cast(),
            front: 0,
            len,
            of: PhantomData,
        }
    }

    /// Drops the items before `at` that are there.
    #[inline(always)]
    fn skip_to(&mut self, at: usize) {
        assert!(self.front <= at && at <= self.len, "out of range");
        let front = mem::replace(&mut self.front, at);
        // SAFETY: the items from the former front on are there, and they lie before the new one by
        // now.
        unsafe { drop_items(self.items, front, at) };
    }
}

impl<K, const N: usize> Indexed<Slot<K>> for &mut Emptied<'_, K, N> {
    #[inline(always)]
    fn len(&self) -> usize {
        self.len
    }

    #[inline(always)]
    fn at(&self, i: usize) -> &Slot<K> {
        assert!(self.front <= i && i < self.len, "out of range");
        // SAFETY: the items from `front` up to `len` are there.
        unsafe { &*self.items.add(i) }
    }
}

impl<K, const N: usize> Exchanges<Slot<K>> for &mut Emptied<'_, K, N> {
    #[inline(always)]
    fn swap_with(&mut self, at: usize, others: &mut [Slot<K>]) {
        let n = others.len();
        assert!(at <= self.len && n <= self.len - at, "out of range");
        self.skip_to(at);
        self.front = at + n;
        // SAFETY: the items are there, and lie before the front by now. The slots are those of a
        // hole in another list.
        unsafe { ptr::copy_nonoverlapping(self.items.add(at), others.as_mut_ptr(), n) };
    }
}

impl<K, const N: usize> Drop for Emptied<'_, K, N> {
    fn drop(&mut self) {
        // SAFETY: the items from `front` on are there, and the list itself has none of them.
        unsafe { drop_items(self.items, self.front, self.len) };
    }
}
