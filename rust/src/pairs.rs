//! Sets as sequences of pairs, by serde: `[[0,10],[20,null]]`.
//!
//! A set itself is written as the list of its boundaries, `[0,10,20]`. This module is for those who
//! read ranges in it. Name it at a field:
//!
//! ```text
//! #[derive(Serialize, Deserialize)]
//! struct Index {
//!     #[serde(with = "range_sets::pairs")]
//!     have: RangeSet2<u64>,
//! }
//! ```
//!
//! A range without an end is `[20,null]`. What is read may come in any order, overlap, touch or be
//! empty. As everywhere, a reversed range is empty. [`chunked`] is for sets in chunks, and
//! [`fallible::pairs`](crate::fallible::pairs) for sets of `fallible`.
//!
//! # Examples
//!
//! ```
//! use range_sets::{pairs, RangeSet2};
//!
//! let have: RangeSet2<u64> = "0..10, 20..".parse().unwrap();
//! let mut json = Vec::new();
//! pairs::serialize(&have, &mut serde_json::Serializer::new(&mut json))?;
//! assert_eq!(json, b"[[0,10],[20,null]]");
//!
//! let mut written = serde_json::Deserializer::from_slice(&json);
//! let read: RangeSet2<u64> = pairs::deserialize(&mut written)?;
//! assert_eq!(read, have);
//! # Ok::<(), serde_json::Error>(())
//! ```

use crate::array::{Array, Sorting};
use crate::forms::ends;
use crate::json::passed_over;
use crate::memory::AllocError;
use crate::range::RangeSetRange;
use crate::range_set::union_of_read;
use crate::view::RangeSetRef;
use core::fmt;
use core::marker::PhantomData;
use serde::de::{Deserialize, Deserializer, Error, SeqAccess, Visitor};
use serde::ser::{Serialize, Serializer};

/// Writes a set or a view as a sequence of pairs.
///
/// # Errors
///
/// Those of the format.
///
/// # Examples
///
/// ```
/// use range_sets::{pairs, RangeSetRef};
///
/// let set = RangeSetRef::new(&['a', 'd']).unwrap();
/// let json = pairs::serialize(set, serde_json::value::Serializer)?;
/// assert_eq!(json.to_string(), r#"[["a","d"]]"#);
/// # Ok::<(), serde_json::Error>(())
/// ```
pub fn serialize<R, T, S>(set: &R, serializer: S) -> Result<S::Ok, S::Error>
where
    R: AsRef<RangeSetRef<T>> + ?Sized,
    T: Serialize,
    S: Serializer,
{
    let ranges = set.as_ref().iter();
    serializer.collect_seq(ranges.map(RangeSetRange::into_ends))
}

/// The functions that read sets of a form, and those for sets in chunks.
macro_rules! reading {
    ($form:ident) => {
        /// Reads a sequence of pairs, in any order.
        ///
        /// # Errors
        ///
        /// Those of the format, and for a set of [`fallible`](crate::fallible) one if memory runs
        /// out.
        ///
        #[doc = example!($form "{pairs, RangeSet2}";
            "let read = |json| -> Result<RangeSet2<u8>, _> {",
            "    pairs::deserialize(&mut serde_json::Deserializer::from_str(json))",
            "};",
            r#"assert_eq!(read("[[20,null],[0,4],[2,9],[19,10]]")?.to_string(), "0..9, 20..");"#,
            r#"assert!(read("[[0,256]]").is_err());"#,
            Ok "serde_json::Error"
        )]
        pub fn deserialize<'de, T, A, D>(deserializer: D) -> Result<$form::RangeSet<A>, D::Error>
        where
            T: Deserialize<'de> + Ord,
            A: Array<Item = T>,
            D: Deserializer<'de>,
        {
            let list = read::<A, D>(deserializer, $form::SORTING)?;
            $form::or_error::<T, _, _>(list, D::Error::custom).map($form::RangeSet::of_list)
        }

        /// Sets in chunks as sequences of pairs. Name it at a field.
        ///
        #[doc = example!($form "{pairs, ChunkedRangeSet}";
            r#"let json = "[[0,10],[20,null]]";"#,
            "let set: ChunkedRangeSet<u8> =",
            "    pairs::chunked::deserialize(&mut serde_json::Deserializer::from_str(json))?;",
            "set" => "0..10, 20..",
            "let written = pairs::chunked::serialize(&set, serde_json::value::Serializer)?;",
            "assert_eq!(written.to_string(), json);",
            Ok "serde_json::Error"
        )]
        pub mod chunked {
            use crate::array::List;
            use crate::chunked::ChunkedRangeSet;
            use crate::forms::$form;
            use crate::json::sequence;
            use crate::pairs::read;
            use crate::range::RangeSetRange;
            use serde::de::{Deserialize, Deserializer, Error};
            use serde::ser::{Serialize, Serializer};

            /// Writes the set as a sequence of pairs.
            ///
            /// # Errors
            ///
            /// Those of the format.
            pub fn serialize<T, S>(set: &ChunkedRangeSet<T>, to: S) -> Result<S::Ok, S::Error>
            where
                T: Ord + Serialize,
                S: Serializer,
            {
                let ranges = set.iter().map(RangeSetRange::into_ends);
                sequence(to, set.ranges_len(), ranges)
            }

            /// Reads a sequence of pairs, in any order.
            ///
            /// # Errors
            ///
            /// Those of a `RangeSet`.
            pub fn deserialize<'de, T, D>(from: D) -> Result<$form::ChunkedRangeSet<T>, D::Error>
            where
                T: Deserialize<'de> + Ord,
                D: Deserializer<'de>,
            {
                let chunks = read::<[T; 2], D>(from, $form::SORTING)?.and_then(List::into_chunks);
                $form::or_error::<T, _, _>(chunks, D::Error::custom)
                    .map($form::ChunkedRangeSet::of_proved)
            }
        }
    };
}

pub(crate) use reading;

reading!(ends);

/// Reads a sequence of pairs. Running out of memory is apart from the format's errors.
pub(crate) fn read<'de, A: Array, D: Deserializer<'de>>(
    deserializer: D,
    sorting: Sorting,
) -> Result<Result<A::List, AllocError>, D::Error>
where
    A::Item: Deserialize<'de> + Ord,
{
    deserializer.deserialize_seq(Pairs {
        array: PhantomData::<A>,
        sorting,
    })
}

struct Pairs<A> {
    array: PhantomData<A>,
    sorting: Sorting,
}

impl<'de, T: Deserialize<'de> + Ord, A: Array<Item = T>> Visitor<'de> for Pairs<A> {
    type Value = Result<A::List, AllocError>;

    fn expecting(&self, f: &mut fmt::Formatter<'_>) -> fmt::Result {
        f.write_str("a sequence of pairs")
    }

    fn visit_seq<S: SeqAccess<'de>>(self, mut pairs: S) -> Result<Self::Value, S::Error> {
        let next = || {
            let pair = pairs.next_element::<(T, Option<T>)>()?;
            Ok(pair.map(|(start, end)| RangeSetRange::of_ends(start, end)))
        };
        match union_of_read(next, self.sorting)? {
            Err(refused) => passed_over(pairs, refused),
            list => Ok(list),
        }
    }
}
