//! An allocator that counts the bytes that a thread holds.

use std::alloc::{GlobalAlloc, Layout, System};
use std::cell::Cell;

/// The system's allocator, which counts for each thread what it asked for and didn't give back.
pub struct Counting;

thread_local! {
    static HELD: Cell<isize> = const { Cell::new(0) };
    static MOST: Cell<isize> = const { Cell::new(0) };
}

/// How many more bytes this thread asked for than it gave back. It is below zero in a thread that
/// gives back what another one asked for, such as its own name, so only two counts of one thread
/// can be compared.
pub fn held() -> isize {
    HELD.with(Cell::get)
}

/// How many bytes more than before this thread holds at most while it makes a call.
pub fn most_held<R>(call: impl FnOnce() -> R) -> isize {
    let before = held();
    MOST.with(|most| most.set(before));
    call();
    MOST.with(Cell::get) - before
}

fn count(more: usize, less: usize) {
    let now = held() + more as isize - less as isize;
    HELD.with(|held| held.set(now));
    MOST.with(|most| most.set(most.get().max(now)));
}

// Safety: each call is the system's.
unsafe impl GlobalAlloc for Counting {
    unsafe fn alloc(&self, layout: Layout) -> *mut u8 {
        count(layout.size(), 0);
        System.alloc(layout)
    }

    unsafe fn dealloc(&self, pointer: *mut u8, layout: Layout) {
        count(0, layout.size());
        System.dealloc(pointer, layout);
    }

    unsafe fn realloc(&self, pointer: *mut u8, layout: Layout, size: usize) -> *mut u8 {
        count(size, layout.size());
        System.realloc(pointer, layout, size)
    }
}
