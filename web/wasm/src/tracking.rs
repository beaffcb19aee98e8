//! The tracker of the pieces of a file.

use crate::page::{with_page, Page, Set};
use range_sets::tracker::{TrackError, Tracker};

/// Begins a new tracker of at most `limit` boundaries.
#[no_mangle]
pub extern "C" fn track(limit: usize) {
    with_page(|page| page.tracker = Tracker::new(limit));
}

/// Records that a piece is there. Returns 0, or 1 if that would take as many boundaries as
/// [`needed`] says: too many.
#[no_mangle]
pub extern "C" fn record(start: u64, end: u64) -> u32 {
    with_page(|page| {
        let answer = page.tracker.record(start..end);
        status_of(page, answer)
    })
}

/// Records that a piece isn't there, and returns what [`record`] does.
#[no_mangle]
pub extern "C" fn forget(start: u64, end: u64) -> u32 {
    with_page(|page| {
        let answer = page.tracker.forget(start..end);
        status_of(page, answer)
    })
}

fn status_of(page: &mut Page, answer: Result<(), TrackError>) -> u32 {
    match answer {
        Ok(()) => 0,
        Err(TrackError::TooMany { boundaries }) => {
            page.needed = boundaries;
            1
        }
        // `OutOfMemory`, which alone is left.
        Err(_) => panic!("no memory for one more range"),
    }
}

/// Returns how many boundaries the command that was last refused would have taken.
#[no_mangle]
pub extern "C" fn needed() -> usize {
    with_page(|page| page.needed)
}

/// Returns 1 if every offset of a piece is there.
#[no_mangle]
pub extern "C" fn has(start: u64, end: u64) -> u32 {
    with_page(|page| page.tracker.has(start..end).into())
}

/// Writes how many offsets are there, as a text, and returns its length.
#[no_mangle]
pub extern "C" fn received() -> usize {
    with_page(|page| {
        let many = page.tracker.covered();
        page.write_text(many)
    })
}

/// Puts the offsets that are there into a place.
#[no_mangle]
pub extern "C" fn received_set(to: usize) {
    with_page(|page| page.sets[to] = page.tracker.ranges().map(|range| range.cloned()).collect());
}

/// Puts the offsets below the file's length that aren't there into a place.
#[no_mangle]
pub extern "C" fn missing_set(len: u64, to: usize) {
    with_page(|page| {
        let missing: Set = page
            .tracker
            .missing(len)
            .expect("there is memory for the gaps");
        page.sets[to] = missing;
    });
}
