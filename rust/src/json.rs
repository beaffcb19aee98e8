//! Sets as sequences of boundaries, by serde. A range is a pair of ends, a tracker its limit and
//! its set.

use crate::array::{Array, List};
use crate::chunked::ChunkedRangeSet;
use crate::forms::{ends, fails};
use crate::generated::range_collections::Countable;
use crate::memory::AllocError;
use crate::range::RangeSetRange;
use crate::range_set::RangeSet2;
use crate::tracker::{self, ChunkedTracker, Tracker};
use crate::view::RangeSetRef;
use core::fmt;
use core::marker::PhantomData;
use core::mem::size_of;
use serde::de::{Deserialize, Deserializer, Error, IgnoredAny, SeqAccess, Visitor};
use serde::ser::{Serialize, SerializeSeq, Serializer};

/// How many bytes are reserved at most for what a format announces. What comes makes the list grow.
const TRUSTED: usize = 4096;

/// Writes a sequence whose length is known, which is what formats without brackets ask for.
pub(crate) fn sequence<S: Serializer>(
    serializer: S,
    len: usize,
    items: impl Iterator<Item = impl Serialize>,
) -> Result<S::Ok, S::Error> {
    let mut sequence = serializer.serialize_seq(Some(len))?;
    for item in items {
        sequence.serialize_element(&item)?;
    }
    sequence.end()
}

/// A sequence of the boundaries.
impl<T: Serialize> Serialize for RangeSetRef<T> {
    fn serialize<S: Serializer>(&self, serializer: S) -> Result<S::Ok, S::Error> {
        serializer.collect_seq(self.boundaries())
    }
}

#[rustfmt::skip]
macro_rules! sequences {
    ($form:ident, $Clone:ident, $must_use:meta, $errors:ident, $from:literal) => {
        /// A sequence of the boundaries.
        impl<T: Serialize, A: Array<Item = T>> Serialize for $form::RangeSet<A> {
            fn serialize<S: Serializer>(&self, serializer: S) -> Result<S::Ok, S::Error> {
                self.view().serialize(serializer)
            }
        }

        /// Reads a sequence of boundaries in any order. Of those that come twice one stays, so no
        /// list of elements is refused.
        ///
        /// To refuse a damaged list, read a `Vec` and use [`RangeSetRef::new`], which returns
        /// `None` for boundaries that aren't strictly sorted.
        ///
        #[doc = $errors!("Those of the format, and one if memory for the set runs out.")]
        #[doc = example!($form "RangeSet2";
            r#"let set: RangeSet2<i64> = serde_json::from_str("[20, 0, 10, 0]")?;"#,
            "set" => "0..10, 20..",
            r#"assert_eq!(serde_json::to_string(&set)?, "[0,10,20]");"#,
            "",
            r#"let error = serde_json::from_str::<RangeSet2<i64>>("[0, x]").unwrap_err();"#,
            "assert_eq!((error.line(), error.column()), (1, 5));",
            Ok "serde_json::Error"
        )]
        impl<'de, T: Deserialize<'de> + Ord, A: Array<Item = T>> Deserialize<'de>
            for $form::RangeSet<A>
        {
            fn deserialize<D: Deserializer<'de>>(deserializer: D) -> Result<Self, D::Error> {
                let list = deserializer.deserialize_seq(Boundaries::<A>(PhantomData))?;
                let sorted = list.and_then(|list| list.sorted($form::SORTING));
                $form::or_error::<T, _, _>(sorted, D::Error::custom).map(Self::of_list)
            }
        }

        /// A sequence of the boundaries.
        impl<T: Ord + Serialize> Serialize for $form::ChunkedRangeSet<T> {
            fn serialize<S: Serializer>(&self, serializer: S) -> Result<S::Ok, S::Error> {
                sequence(serializer, self.boundaries_len(), self.boundaries())
            }
        }

        /// Reads a sequence of boundaries in any order, as a `RangeSet` does.
        ///
        /// To refuse a damaged list, read a `Vec`, use [`RangeSetRef::new`], and make the set of
        /// that view.
        ///
        #[doc = $errors!("Those of the format, and one if memory for the set runs out.")]
        #[doc = example!($form "ChunkedRangeSet", "range_sets::RangeSetRef";
            r#"let set: ChunkedRangeSet<i64> = serde_json::from_str("[20, 0, 10, 0]")?;"#,
            "set" => "0..10, 20..",
            "",
            r#"let list: Vec<i64> = serde_json::from_str("[20, 0, 10, 0]")?;"#,
            "assert!(RangeSetRef::new(&list).is_none());",
            Ok "serde_json::Error"
        )]
        impl<'de, T: Deserialize<'de> + Ord> Deserialize<'de> for $form::ChunkedRangeSet<T> {
            fn deserialize<D: Deserializer<'de>>(deserializer: D) -> Result<Self, D::Error> {
                let set = $form::RangeSet::<[T; 2]>::deserialize(deserializer)?;
                let chunks = set.list.into_chunks();
                $form::or_error::<T, _, _>(chunks, D::Error::custom).map(Self::of_proved)
            }
        }

        /// A sequence of the boundaries of what is taken.
        impl<T: Countable + Copy + Serialize> Serialize for $form::ChunkedSpace<T> {
            fn serialize<S: Serializer>(&self, serializer: S) -> Result<S::Ok, S::Error> {
                self.as_set().serialize(serializer)
            }
        }

        /// Reads a sequence of boundaries in any order and with repeats, as a `ChunkedRangeSet`
        /// does.
        impl<'de, T: Deserialize<'de> + Countable + Copy> Deserialize<'de>
            for $form::ChunkedSpace<T>
        {
            fn deserialize<D: Deserializer<'de>>(deserializer: D) -> Result<Self, D::Error> {
                $form::ChunkedRangeSet::deserialize(deserializer).map(Self::from)
            }
        }
    };
}

both_forms!(sequences);

/// A pair of the ends, as in [`pairs`](crate::pairs): `[0,10]`, or `[20,null]` for a range without
/// an end.
///
/// # Examples
///
/// ```
/// use range_sets::RangeSetRange;
///
/// let ranges: Vec<RangeSetRange<u8>> = serde_json::from_str("[[0,10],[20,null]]")?;
/// assert_eq!(ranges, [(0..10).into(), (20..).into()]);
/// assert_eq!(serde_json::to_string(&ranges)?, "[[0,10],[20,null]]");
/// # Ok::<(), serde_json::Error>(())
/// ```
impl<T: Serialize> Serialize for RangeSetRange<T> {
    fn serialize<S: Serializer>(&self, serializer: S) -> Result<S::Ok, S::Error> {
        self.as_ref().into_ends().serialize(serializer)
    }
}

/// Reads a pair of ends.
impl<'de, T: Deserialize<'de>> Deserialize<'de> for RangeSetRange<T> {
    fn deserialize<D: Deserializer<'de>>(deserializer: D) -> Result<Self, D::Error> {
        <(T, Option<T>)>::deserialize(deserializer).map(|(start, end)| Self::of_ends(start, end))
    }
}

macro_rules! trackers {
    ($($(#[$doc:meta])* $tracker:ident as $set:ident;)*) => {$(
        /// A pair of the limit and the sequence of the boundaries.
        $(#[$doc])*
        impl Serialize for $tracker {
            fn serialize<S: Serializer>(&self, serializer: S) -> Result<S::Ok, S::Error> {
                let set: $set<u64> = self.ranges().copied().collect();
                (self.limit(), set).serialize(serializer)
            }
        }

        /// Reads a pair of a limit and a sequence of boundaries in any order. More of them than the
        /// limit are an error, and so is a limit that `new` refuses.
        impl<'de> Deserialize<'de> for $tracker {
            fn deserialize<D: Deserializer<'de>>(deserializer: D) -> Result<Self, D::Error> {
                let (limit, set) = <(usize, RangeSet2<u64>)>::deserialize(deserializer)?;
                if limit > tracker::MOST {
                    return Err(D::Error::custom(tracker::TOO_MUCH));
                }
                $tracker::from_set(limit, &set).map_err(D::Error::custom)
            }
        }
    )*};
}

trackers! {
    /// # Examples
    ///
    /// ```
    /// use range_sets::tracker::Tracker;
    ///
    /// let file: Tracker = serde_json::from_str("[4,[0,10,20,30]]")?;
    /// assert_eq!((file.limit(), file.to_string()), (4, "0..10, 20..30".into()));
    /// assert_eq!(serde_json::to_string(&file)?, "[4,[0,10,20,30]]");
    ///
    /// let error = serde_json::from_str::<Tracker>("[2,[0,10,20,30]]").unwrap_err();
    /// assert_eq!(error.to_string(), "too many boundaries: 4");
    /// # Ok::<(), serde_json::Error>(())
    /// ```
    Tracker as RangeSet2;
    ChunkedTracker as ChunkedRangeSet;
}

/// Reads the list of a set, in any order. Running out of memory is apart from the format's errors.
struct Boundaries<A>(PhantomData<A>);

impl<'de, T: Deserialize<'de> + Ord, A: Array<Item = T>> Visitor<'de> for Boundaries<A> {
    type Value = Result<A::List, AllocError>;

    fn expecting(&self, f: &mut fmt::Formatter<'_>) -> fmt::Result {
        f.write_str("a sequence")
    }

    fn visit_seq<S: SeqAccess<'de>>(self, mut items: S) -> Result<Self::Value, S::Error> {
        let trusted = TRUSTED / size_of::<T>().max(1);
        let mut list = match A::List::with_capacity(items.size_hint().unwrap_or(0).min(trusted)) {
            Ok(list) => list,
            Err(refused) => return passed_over(items, refused),
        };
        while let Some(item) = items.next_element()? {
            if let Err(refused) = list.push(item) {
                return passed_over(items, refused);
            }
        }
        Ok(Ok(list))
    }
}

/// Passes over the rest of a sequence, since a format may take what isn't read for a fault. Then
/// memory was refused.
pub(crate) fn passed_over<'de, T, S: SeqAccess<'de>>(
    mut items: S,
    refused: AllocError,
) -> Result<Result<T, AllocError>, S::Error> {
    while items.next_element::<IgnoredAny>()?.is_some() {}
    Ok(Err(refused))
}
