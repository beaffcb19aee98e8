//! std's trait of errors, and where there is no std one in its place, so that the generated code
//! reads the same.
//!
//! Enums of errors may grow. A match of another crate that has no arm for what may come is no
//! program:
//!
//! ```compile_fail,E0004
//! use range_sets::ParseError;
//! fn seen(it: ParseError) {
//!     match it {
//!         ParseError::OutOfRange => {}
//!         ParseError::OutOfMemory => {}
//!         ParseError::Malformed { .. } => {}
//!     }
//! }
//! ```
//!
//! ```compile_fail,E0004
//! use range_sets::Expected;
//! fn seen(it: Expected) {
//!     match it {
//!         Expected::Number => {}
//!         Expected::Dot => {}
//!         Expected::Comma => {}
//!     }
//! }
//! ```
//!
//! ```compile_fail,E0004
//! use range_sets::MultirangeError;
//! fn seen(it: MultirangeError) {
//!     match it {
//!         MultirangeError::OutOfRange { .. } => {}
//!         MultirangeError::OutOfMemory => {}
//!         MultirangeError::Malformed { .. } => {}
//!     }
//! }
//! ```
//!
//! ```compile_fail,E0004
//! use range_sets::tracker::TrackError;
//! fn seen(it: TrackError) {
//!     match it {
//!         TrackError::TooMany { .. } => {}
//!         TrackError::OutOfMemory => {}
//!     }
//! }
//! ```

#[cfg(feature = "std")]
pub use std::error::Error;

#[cfg(not(feature = "std"))]
/// An error.
pub trait Error: core::fmt::Debug + core::fmt::Display {}
