//! Sets as sequences of pairs, by serde: `[[0,10],[20,null]]`. It is [`crate::pairs`] for the sets
//! here, and a refusal of memory for a set is an error of the format.
//!
//! # Examples
//!
//! ```
//! use range_sets::fallible::{pairs, RangeSet2};
//!
//! let json = "[[0,10],[20,null]]";
//! let set: RangeSet2<u8> = pairs::deserialize(&mut serde_json::Deserializer::from_str(json))?;
//! assert_eq!(set.to_string(), "0..10, 20..");
//! assert_eq!(pairs::serialize(&set, serde_json::value::Serializer)?.to_string(), json);
//! # Ok::<(), serde_json::Error>(())
//! ```

use crate::array::Array;
use crate::forms::fails;
pub use crate::pairs::serialize;
use crate::pairs::{read, reading};
use serde::de::{Deserialize, Deserializer, Error};

reading!(fails);
