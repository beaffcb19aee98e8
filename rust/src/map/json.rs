//! Maps as sequences of triples, by serde: `[[9,12,"Ada"],[20,null,"Eve"]]`.

use super::forms::both_maps;
use super::{Copies, Map};
use crate::fallible::MapValue;
use crate::forms::{ends, fails};
use crate::json::{passed_over, sequence};
use crate::memory::AllocError;
use crate::range::RangeSetRange;
use core::fmt;
use core::marker::PhantomData;
use serde::de::{Deserialize, Deserializer, Error, SeqAccess, Visitor};
use serde::ser::{Serialize, Serializer};

/// A sequence of triples: start, end, value. The end of a range without one is null.
impl<K: Ord + Serialize, V: Eq + Serialize, C> Serialize for Map<K, V, C> {
    fn serialize<S: Serializer>(&self, serializer: S) -> Result<S::Ok, S::Error> {
        let triples = self.iter().map(|(range, value)| {
            let (start, end) = range.into_ends();
            (start, end, value)
        });
        sequence(serializer, self.len(), triples)
    }
}

macro_rules! triples {
    (
        $form:ident, $Clone:ident, $Value:ident, $must_use:meta, $errors:ident,
        $from:literal, $of_pairs:literal, $returned:ident
    ) => {
        /// Reads a sequence of triples in any order. Where ranges overlap the later one's value
        /// holds, and a reversed range is empty.
        ///
        #[doc = $errors!("Those of the format, and one if memory for the map runs out.")]
        #[doc = example!($form "RangeMap";
            r##"let text = r#"[[20,null,"Eve"],[9,12,"Ada"]]"#;"##,
            "let bookings: RangeMap<u8, String> = serde_json::from_str(text)?;",
            r#"assert_eq!(bookings[&255], "Eve");"#,
            r##"assert_eq!(serde_json::to_string(&bookings)?, r#"[[9,12,"Ada"],[20,null,"Eve"]]"#);"##,
            Ok "serde_json::Error"
        )]
        impl<'de, K, V> Deserialize<'de> for $form::RangeMap<K, V>
        where
            K: Deserialize<'de> + Ord,
            V: Deserialize<'de> + Eq + $Value,
        {
            fn deserialize<D: Deserializer<'de>>(deserializer: D) -> Result<Self, D::Error> {
                let map = deserializer.deserialize_seq(Triples(PhantomData))?;
                $form::or_error::<K, _, _>(map, D::Error::custom)
            }
        }
    };
}

both_maps!(triples);

/// Reads the triples of a map. Out of memory is another error than the format's.
struct Triples<K, V, C>(PhantomData<(K, V, C)>);

impl<'de, K, V, C> Visitor<'de> for Triples<K, V, C>
where
    K: Deserialize<'de> + Ord,
    V: Deserialize<'de> + Eq,
    C: Copies<V>,
{
    type Value = Result<Map<K, V, C>, AllocError>;

    fn expecting(&self, f: &mut fmt::Formatter<'_>) -> fmt::Result {
        f.write_str("a sequence of triples")
    }

    fn visit_seq<S: SeqAccess<'de>>(self, mut triples: S) -> Result<Self::Value, S::Error> {
        let mut map = Map::new();
        while let Some((start, end, value)) = triples.next_element::<(K, Option<K>, V)>()? {
            if let Err(refused) = map.try_insert(RangeSetRange::of_ends(start, end), value) {
                return passed_over(triples, refused);
            }
        }
        Ok(Ok(map))
    }
}
