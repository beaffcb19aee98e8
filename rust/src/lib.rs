//! Sets of ranges of any ordered type: free addresses, busy hours, downloaded bytes, character
//! classes.
//!
//! ```
//! use range_sets::RangeSet2;
//!
//! let mut busy: RangeSet2<u32> = (9..11).into();
//! busy.insert(15..18);
//! let free = RangeSet2::from(8..20) - &busy;
//! assert_eq!(free.to_string(), "8..9, 11..15, 18..20");
//! assert!(free.contains(&12));
//! ```
//!
//! - [`RangeSet`] owns its boundaries, and [`RangeSetRef`] borrows them, as `String` and `str` do.
//! - [`ChunkedRangeSet`] is changed one range at a time, and grows to millions of ranges.
//! - Union, intersection, difference, complement, as operators and by name; ranges put in and taken
//!   out; gaps; counts.
//! - The calls are those of the crate range-collections 0.4.6, so a program changes its `use` lines
//!   and compiles.
//! - [`fallible`] has the same calls for those who can't let memory run out.
//! - [`tracker`] keeps which pieces of a file have come.
//!
//! # Features
//!
//! - `std` (on by default): `std::error::Error` for the error types. Without it the crate asks for
//!   `alloc` alone.
//! - `serde`: sets are written and read as sequences of boundaries, and by the module `pairs` as
//!   pairs of them.
//! - `new_unchecked`: `new_unchecked` of sets and views.
//! - `c`: internal. What the layer in C of `range_set.h` calls, which is no part of the crate's
//!   promises.
#![cfg_attr(not(feature = "std"), no_std)]
#![cfg_attr(docsrs, feature(doc_cfg))]
#![deny(unsafe_code, unsafe_op_in_unsafe_fn)]
#![warn(missing_docs, clippy::undocumented_unsafe_blocks)]

extern crate alloc;

#[macro_use]
mod forms;

mod any_range;
mod array;
mod asked;
pub mod chunked;
mod chunks;
mod entry;
pub mod fallible;
mod fitting;
// The modules beside it re-export its names.
#[allow(missing_docs, clippy::undocumented_unsafe_blocks)]
mod generated;
mod iter;
#[cfg(feature = "serde")]
mod json;
pub mod map;
mod memory;
mod multirange;
mod operation;
#[cfg(feature = "serde")]
#[cfg_attr(docsrs, doc(cfg(feature = "serde")))]
pub mod pairs;
mod range;
pub mod range_set;
mod relations;
mod space;
#[allow(dead_code, unsafe_code)]
mod support;
mod text;
pub mod tracker;
mod view;

pub use any_range::{
    AnyRange, Ended, EndedParts, IntoRange, NextValue, Overlaps, Parts, PartsFrom, PartsOf,
    PartsWithin, Within,
};
pub use array::Array;
pub use chunked::ChunkedRangeSet;
pub use entry::{Length, RangeSetEntry};
/// # Examples
///
/// ```
/// use range_sets::Countable;
///
/// assert_eq!('c'.place() - 'a'.place(), 2);
/// assert_eq!((-128i8).place(), 0);
/// ```
///
/// A type of your own has a least value too:
///
/// ```
/// use range_sets::{Countable, RangeSet2, RangeSetEntry};
///
/// #[derive(Clone, Copy, PartialEq, Eq, PartialOrd, Ord)]
/// struct Page(u32);
///
/// impl RangeSetEntry for Page {
///     fn min_value() -> Self {
///         Page(0)
///     }
///
///     fn is_min_value(&self) -> bool {
///         self.0 == 0
///     }
/// }
///
/// impl Countable for Page {
///     fn place(&self) -> u128 {
///         self.0.into()
///     }
/// }
///
/// let used = RangeSet2::from(Page(0)..Page(16));
/// assert_eq!(used.first_fit_count(Page(0)..Page(64), 8).map(|page| page.0), Some(16));
/// ```
pub use generated::range_collections::Countable;
/// # Examples
///
/// ```
/// use range_sets::FromPlace;
///
/// assert_eq!(char::from_place(97), Some('a'));
/// assert_eq!(i8::from_place(256), None);
/// ```
pub use generated::range_collections::FromPlace;
/// # Examples
///
/// ```
/// use range_sets::{RangeSetRef, Unsigned};
///
/// fn has_room<T: Unsigned>(used: &RangeSetRef<T>, start: T, end: T, len: T) -> bool {
///     used.first_fit(start..end, len).is_some()
/// }
///
/// assert!(has_room(RangeSetRef::new(&[0u8, 64]).unwrap(), 0, 80, 16));
/// ```
pub use generated::range_collections::Unsigned;
/// # Examples
///
/// ```
/// use range_sets::WholeNumber;
///
/// assert_eq!(u8::read("7"), Some(7));
/// assert_eq!(u8::read("700"), None);
/// ```
pub use generated::range_collections::WholeNumber;
pub use iter::{Gaps, IntoIter, Iter, Members, Ranges, RangesWithin};
pub use map::RangeMap;
pub use multirange::MultirangeError;
pub use operation::{Connective, NoRoom};
pub use range::RangeSetRange;
pub use range_set::{RangeSet, RangeSet2};
pub use space::ChunkedSpace;
pub use text::{Expected, ParseError, TextEntry};
pub use view::{Cursor, RangeSetRef};
