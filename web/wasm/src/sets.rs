//! Sets by the number of their place.

use crate::page::{with_page, Set};
use range_sets::{Connective, Expected, ParseError, RangeSetRange};
use std::ops::Range;

/// Reads the input as a set into a place. Returns 0, or what is wrong: 1, 2 or 3 if a number, a dot
/// or a comma was expected at the byte of [`fault`], 4 if a number is none of u64, 5 if the input
/// is no text, 6 if memory ran out. The place then keeps what it had.
#[no_mangle]
pub extern "C" fn parse(place: usize) -> u32 {
    with_page(|page| {
        let text = match std::str::from_utf8(&page.input) {
            Ok(text) => text,
            Err(_) => return 5,
        };
        match text.parse::<Set>() {
            Ok(set) => {
                page.sets[place] = set;
                0
            }
            Err(ParseError::Malformed { at, expected }) => {
                page.fault = at;
                match expected {
                    Expected::Number => 1,
                    Expected::Dot => 2,
                    // `Comma`, which alone is left; the type may grow.
                    _ => 3,
                }
            }
            Err(ParseError::OutOfRange) => 4,
            // `OutOfMemory`, which alone is left.
            Err(_) => 6,
        }
    })
}

/// Returns the byte at which [`parse`] found something else than it expected.
#[no_mangle]
pub extern "C" fn fault() -> usize {
    with_page(|page| page.fault)
}

/// Copies the set of one place to another.
#[no_mangle]
pub extern "C" fn copy(from: usize, to: usize) {
    with_page(|page| page.sets[to] = page.sets[from].clone());
}

/// Puts the result of an operation on two sets into a place. The operation is given by its four
/// answers: 1 for values in the left set alone, 2 for those in the right one alone, 4 for those in
/// both, 8 for those in neither.
#[no_mangle]
pub extern "C" fn combine(left: usize, right: usize, answers: u32, to: usize) {
    with_page(|page| {
        let op = Connective {
            left: answers & 1 != 0,
            right: answers & 2 != 0,
            both: answers & 4 != 0,
            neither: answers & 8 != 0,
        };
        page.sets[to] = page.sets[left].combine(&page.sets[right], op);
    });
}

/// Puts a range into a set.
#[no_mangle]
pub extern "C" fn insert(place: usize, start: u64, end: u64) {
    with_page(|page| page.sets[place].insert(start..end));
}

/// Takes a range out of a set.
#[no_mangle]
pub extern "C" fn remove(place: usize, start: u64, end: u64) {
    with_page(|page| page.sets[place].remove(start..end));
}

/// Puts a range without an end into a set.
#[no_mangle]
pub extern "C" fn insert_from(place: usize, start: u64) {
    with_page(|page| page.sets[place].insert(start..));
}

/// Takes a range without an end out of a set.
#[no_mangle]
pub extern "C" fn remove_from(place: usize, start: u64) {
    with_page(|page| page.sets[place].remove(start..));
}

/// Returns 1 if a value is a member.
#[no_mangle]
pub extern "C" fn contains(place: usize, value: u64) -> u32 {
    with_page(|page| page.sets[place].contains(&value).into())
}

/// Returns how many boundaries lie below a value.
#[no_mangle]
pub extern "C" fn boundaries_below(place: usize, value: u64) -> usize {
    with_page(|page| page.sets[place].split(value).0.boundaries().len())
}

/// Returns how many ranges a set has.
#[no_mangle]
pub extern "C" fn ranges_len(place: usize) -> usize {
    with_page(|page| page.sets[place].ranges_len())
}

/// Returns how many boundaries a set has.
#[no_mangle]
pub extern "C" fn boundaries_len(place: usize) -> usize {
    with_page(|page| page.sets[place].boundaries().len())
}

/// Writes how many values are members, as a text, and returns its length: 0 if the set has no
/// end.
#[no_mangle]
pub extern "C" fn covered(place: usize) -> usize {
    with_page(|page| match page.sets[place].covered() {
        Some(many) => page.write_text(many),
        None => page.write_text(""),
    })
}

/// Writes a set as a text, and returns its length.
#[no_mangle]
pub extern "C" fn display(place: usize) -> usize {
    with_page(|page| {
        let text = page.sets[place].to_string();
        page.write_text(text)
    })
}

/// Writes the boundaries of a set, and returns how many there are.
#[no_mangle]
pub extern "C" fn boundaries(place: usize) -> usize {
    with_page(|page| {
        let boundaries = page.sets[place].boundaries().to_vec();
        page.write_numbers(boundaries)
    })
}

/// Writes the boundaries of the ranges that reach into a window, whole, and returns how many there
/// are. A range that starts at the window's end is one of them.
#[no_mangle]
pub extern "C" fn part(place: usize, start: u64, end: u64) -> usize {
    with_page(|page| {
        let rest = page.sets[place].split(start).1;
        let within = match end.checked_add(1) {
            Some(past) => rest.split(past).0.boundaries().len(),
            None => rest.boundaries().len(),
        };
        let whole = within + within % 2;
        let part = rest.boundaries().iter().take(whole).copied().collect();
        page.write_numbers(part)
    })
}

/// Writes the range that has a value, and returns how many boundaries it has: 0 if the value is no
/// member.
#[no_mangle]
pub extern "C" fn range_at(place: usize, value: u64) -> usize {
    with_page(|page| {
        let boundaries = match page.sets[place].range_at(&value) {
            Some(RangeSetRange::Range(range)) => vec![*range.start, *range.end],
            Some(RangeSetRange::RangeFrom(range)) => vec![*range.start],
            None => Vec::new(),
        };
        page.write_numbers(boundaries)
    })
}

/// Writes the lowest and the highest boundary, and returns how many numbers these are: 0 if the set
/// is empty.
#[no_mangle]
pub extern "C" fn ends(place: usize) -> usize {
    with_page(|page| {
        let boundaries = page.sets[place].boundaries();
        let ends = boundaries
            .first()
            .into_iter()
            .chain(boundaries.last())
            .copied()
            .collect();
        page.write_numbers(ends)
    })
}

/// Writes the start and the end of each gap within a window, and returns how many numbers there
/// are.
#[no_mangle]
pub extern "C" fn gaps(place: usize, start: u64, end: u64) -> usize {
    with_page(|page| {
        let gaps = page.sets[place].gaps(&start..&end);
        let ends = gaps.flat_map(|gap| [*gap.start, *gap.end]).collect();
        page.write_numbers(ends)
    })
}

/// Writes for each of some columns of a window whether none of its values are members (0), some (1)
/// or all (2).
#[no_mangle]
pub extern "C" fn shades(place: usize, start: u64, end: u64, columns: u64) -> usize {
    with_page(|page| {
        let set = &page.sets[place];
        let shades = (0..columns).map(|i| {
            let column = column(start..end, columns, i);
            let some = set.intersects_range(column.clone());
            u64::from(some) + u64::from(some && set.contains_range(column))
        });
        let shades = shades.collect();
        page.write_numbers(shades)
    })
}

/// The values of one of the columns that a window is cut into: one value at least.
fn column(window: Range<u64>, columns: u64, i: u64) -> Range<u64> {
    let width = u128::from(window.end.saturating_sub(window.start));
    let at = |i: u64| window.start + (width * u128::from(i) / u128::from(columns)) as u64;
    at(i)..at(i + 1).max(at(i).saturating_add(1))
}
