//! The memory of the library for C: from the functions that its caller named, or from malloc.

use core::alloc::{GlobalAlloc, Layout};
use core::ptr;

// The layer in C has these.
extern "C" {
    fn range_heap_malloc(size: usize) -> *mut u8;
    fn range_heap_realloc(memory: *mut u8, size: usize) -> *mut u8;
    fn range_heap_free(memory: *mut u8);
}

/// How all of it is aligned, at least.
const ALIGN: usize = 16;

struct Heap;

#[global_allocator]
static HEAP: Heap = Heap;

// SAFETY: the layer's functions are malloc, realloc and free, or behave as they do.
unsafe impl GlobalAlloc for Heap {
    unsafe fn alloc(&self, layout: Layout) -> *mut u8 {
        if layout.align() > ALIGN {
            return ptr::null_mut();
        }
        unsafe { range_heap_malloc(layout.size()) }
    }

    unsafe fn dealloc(&self, memory: *mut u8, _: Layout) {
        unsafe { range_heap_free(memory) }
    }

    unsafe fn realloc(&self, memory: *mut u8, _: Layout, size: usize) -> *mut u8 {
        unsafe { range_heap_realloc(memory, size) }
    }
}
