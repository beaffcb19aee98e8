//! What the page calls: sets and a tracker of u64 in numbered places.
//!
//! WebAssembly passes numbers alone. So a text goes in through the bytes that [`input`] opens; a
//! text comes out at [`text`], and boundaries come out at [`numbers`], each with the length that
//! the call before returned. A place that isn't there is an error of the page, and ends the
//! program.
#![forbid(unsafe_op_in_unsafe_fn)]
#![warn(missing_docs)]

mod page;
pub mod sets;
pub mod tracking;

use page::with_page;

/// Opens `len` bytes for a text, and returns where they begin.
#[no_mangle]
pub extern "C" fn input(len: usize) -> *mut u8 {
    with_page(|page| {
        page.input.clear();
        page.input.resize(len, 0);
        page.input.as_mut_ptr()
    })
}

/// Returns where the text begins that the last call wrote.
#[no_mangle]
pub extern "C" fn text() -> *const u8 {
    with_page(|page| page.text.as_ptr())
}

/// Returns where the numbers begin that the last call wrote.
#[no_mangle]
pub extern "C" fn numbers() -> *const u64 {
    with_page(|page| page.numbers.as_ptr())
}
