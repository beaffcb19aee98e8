//! Sets as sequences of boundaries.
#![cfg(feature = "serde")]

mod common;

use common::{boundaries, one_in, pairs, set};
use range_sets::{
    fallible, ChunkedRangeSet, ChunkedSpace, RangeMap, RangeSet, RangeSet2, RangeSetEntry,
    RangeSetRef,
};
use serde::de::{value, DeserializeOwned, DeserializeSeed, Deserializer, SeqAccess, Visitor};
use serde::{Deserialize, Serialize};
use serde_json::{from_str, to_string};
use std::fmt::Debug;

#[test]
fn what_is_written_is_read_back() {
    for (a, _) in pairs().step_by(11) {
        let set: RangeSet2<u8> = set(a);
        let text = to_string(&set).unwrap();
        assert_eq!(text, to_string(&boundaries(a)).unwrap());
        assert_eq!(text, to_string(&*set).unwrap());
        assert_eq!(from_str::<RangeSet2<u8>>(&text).unwrap(), set);
        assert_eq!(from_str::<fallible::RangeSet2<u8>>(&text).unwrap(), set);
        let mut mixed = boundaries(a);
        mixed.reverse();
        mixed.extend(boundaries(a));
        assert_eq!(
            from_str::<RangeSet2<u8>>(&to_string(&mixed).unwrap()).unwrap(),
            set
        );
    }
}

/// Sets in chunks and spaces are written as a set is, and read from a list in any order, or one
/// that is sorted alone.
#[test]
fn sets_in_chunks_and_spaces() {
    for (a, _) in pairs().step_by(11) {
        let list = boundaries(a);
        let chunked = ChunkedRangeSet::from(RangeSetRef::new(&list).unwrap());
        let space = ChunkedSpace::from(chunked.clone());
        let text = to_string(&list).unwrap();
        assert_eq!(to_string(&chunked).unwrap(), text);
        assert_eq!(to_string(&space).unwrap(), text);
        let refusing = fallible::ChunkedSpace::from(space.clone());
        assert_eq!(to_string(&refusing).unwrap(), text);

        let mixed: Vec<u8> = list.iter().rev().chain(&list).copied().collect();
        assert!(list.is_empty() || RangeSetRef::new(&mixed).is_none());
        for text in [text, to_string(&mixed).unwrap()] {
            assert_eq!(from_str::<ChunkedRangeSet<u8>>(&text).unwrap(), chunked);
            assert_eq!(from_str::<ChunkedSpace<u8>>(&text).unwrap(), space);
            assert_eq!(
                from_str::<fallible::ChunkedSpace<u8>>(&text).unwrap(),
                refusing
            );
        }
    }
    let said = |error: serde_json::Error| error.to_string();
    let set = from_str::<ChunkedRangeSet<u8>>("[1, 256]").map_err(said);
    let space = from_str::<ChunkedSpace<u8>>("[1, 256]").map_err(said);
    assert_eq!(set.unwrap_err(), space.unwrap_err());
}

/// It is put in in another order, asked, saved and read back.
#[test]
fn a_map_of_a_million_ranges() {
    let count = 1_000_000 / one_in() as u32;
    let mut map = RangeMap::new();
    for i in 0..count {
        let at = (u64::from(i) * 7_919 % u64::from(count)) as u32;
        map.insert(20 * at..20 * at + 10, at % 7);
    }
    assert_eq!(map.len(), count as usize);
    for at in 0..count {
        assert_eq!(map.get(&(20 * at + 9)), Some(&(at % 7)));
        assert_eq!(map.get(&(20 * at + 10)), None);
    }
    let text = to_string(&map).unwrap();
    assert!(text.starts_with("[[0,10,0],[20,30,1],"));
    let mut read: RangeMap<u32, u32> = from_str(&text).unwrap();
    assert_eq!(read, map);
    read.remove(0..10);
    assert_ne!(read, map);
}

/// A set as pairs, both ways, with and without an allocation failure.
fn pairs_of(text: &str) -> serde_json::Result<RangeSet2<u8>> {
    let set: RangeSet2<u8> = range_sets::pairs::deserialize(&mut json(text))?;
    let same: fallible::RangeSet2<u8> = fallible::pairs::deserialize(&mut json(text))?;
    assert_eq!(set, same);
    assert_eq!(as_pairs(&set), as_pairs(&same));
    assert_eq!(as_pairs(&set), as_pairs(&*set));
    let chunked: ChunkedRangeSet<u8> = range_sets::pairs::chunked::deserialize(&mut json(text))?;
    let same = fallible::pairs::chunked::deserialize::<u8, _>(&mut json(text))?;
    assert!(set == chunked && chunked == *same);
    let to = || serde_json::value::Serializer;
    let written = fallible::pairs::chunked::serialize(&same, to())?;
    assert_eq!(
        range_sets::pairs::chunked::serialize(&chunked, to())?,
        written
    );
    assert_eq!(written.to_string(), as_pairs(&set));
    Ok(set)
}

fn json(text: &str) -> serde_json::Deserializer<serde_json::de::StrRead<'_>> {
    serde_json::Deserializer::from_str(text)
}

fn as_pairs<R: AsRef<RangeSetRef<u8>> + ?Sized>(set: &R) -> String {
    let written = range_sets::pairs::serialize(set, serde_json::value::Serializer);
    written.unwrap().to_string()
}

#[test]
fn pairs_that_are_written_are_read_back() {
    for (a, _) in pairs().step_by(11) {
        let set: RangeSet2<u8> = set(a);
        let ends = boundaries(a);
        let expected: Vec<_> = ends.chunks(2).map(|it| (it[0], it.get(1))).collect();
        let text = as_pairs(&set);
        assert_eq!(text, to_string(&expected).unwrap());
        assert_eq!(pairs_of(&text).unwrap(), set);
        let backwards: Vec<_> = expected.iter().rev().chain(&expected).collect();
        assert_eq!(pairs_of(&to_string(&backwards).unwrap()).unwrap(), set);
    }
}

#[test]
fn pairs_of_all_kinds() {
    let rows: [(&str, &[u8]); 7] = [
        ("[]", &[]),
        ("[[5,5]]", &[]),
        ("[[9,5]]", &[]),
        ("[[1,2],[9,0],[3,4]]", &[1, 2, 3, 4]),
        ("[[20,null],[0,4],[4,9]]", &[0, 9, 20]),
        ("[[0,9],[3,null]]", &[0]),
        ("[[7,null],[9,null]]", &[7]),
    ];
    for (text, boundaries) in rows {
        assert_eq!(pairs_of(text).unwrap().boundaries(), boundaries, "{text}");
    }
    let refused = [
        ("[[1]]", "invalid length 1"),
        ("[[1,2,3]]", "trailing characters"),
        ("[1,2]", "invalid type: integer `1`"),
        ("[[null,3]]", "invalid type: null"),
        ("[[1,256]]", "invalid value: integer `256`"),
        ("7", "expected a sequence of pairs"),
    ];
    for (text, why) in refused {
        let said = pairs_of(text).unwrap_err().to_string();
        assert!(said.contains(why), "{text}: {said}");
        let read: serde_json::Result<fallible::RangeSet2<u8>> =
            fallible::pairs::deserialize(&mut json(text));
        assert_eq!(read.unwrap_err().to_string(), said);
    }
}

/// More boundaries than are sorted without memory, in order, in the opposite order, and each twice.
fn reads_in_any_order<T>(sorted: &[T])
where
    T: RangeSetEntry + Clone + Debug + Serialize + DeserializeOwned,
{
    let reversed: Vec<T> = sorted.iter().rev().cloned().collect();
    let twice = [&reversed[..], sorted].concat();
    for list in [sorted, &reversed, &twice] {
        let text = to_string(list).unwrap();
        let set: RangeSet2<T> = from_str(&text).unwrap();
        assert_eq!(set.boundaries(), sorted);
        let set: fallible::RangeSet2<T> = from_str(&text).unwrap();
        assert_eq!(set.boundaries(), sorted);
    }
}

#[test]
fn long_lists_in_any_order() {
    let numbers: Vec<i64> = (0..50).map(|n| 3 * n - 70).collect();
    reads_in_any_order(&numbers);
    let texts: Vec<String> = (10..60).map(|n| n.to_string()).collect();
    reads_in_any_order(&texts);
}

#[test]
fn elements_of_other_types() {
    let set: RangeSet<[Option<String>; 2]> = RangeSet::from(None..Some("m".to_string()));
    assert_eq!(to_string(&set).unwrap(), r#"[null,"m"]"#);
    assert_eq!(
        from_str::<RangeSet<[Option<String>; 2]>>(r#"["m",null,"m"]"#).unwrap(),
        set
    );
    assert_eq!(to_string(RangeSetRef::single(&'x')).unwrap(), r#"["x"]"#);
    assert_eq!(
        to_string(&fallible::RangeSet2::<u8>::empty()).unwrap(),
        "[]"
    );
}

#[test]
fn elements_without_a_size() {
    let set: RangeSet2<()> = from_str("[null, null]").unwrap();
    assert_eq!(set.boundaries(), [()]);
}

#[test]
fn faults_have_their_place() {
    let fault = |text: &str| {
        let error = from_str::<RangeSet2<u8>>(text).unwrap_err();
        assert_eq!(
            error.to_string(),
            from_str::<fallible::RangeSet2<u8>>(text)
                .unwrap_err()
                .to_string()
        );
        (error.line(), error.column())
    };
    assert_eq!(fault("[1, x]"), (1, 5));
    assert_eq!(fault("[1,\n 2.5]"), (2, 4));
    assert_eq!(fault("[1, 256]"), (1, 7));
    assert_eq!(fault("[1, 2"), (1, 5));
    assert!(from_str::<RangeSet2<u8>>("{}")
        .unwrap_err()
        .to_string()
        .contains("expected a sequence"));
}

/// A format that announces this many items, and has three.
struct Boasting(usize);

impl<'de> Deserializer<'de> for Boasting {
    type Error = value::Error;

    fn deserialize_any<V: Visitor<'de>>(self, visitor: V) -> Result<V::Value, value::Error> {
        visitor.visit_seq(Items {
            left: 3,
            boast: self.0,
        })
    }

    serde::forward_to_deserialize_any! {
        bool i8 i16 i32 i64 i128 u8 u16 u32 u64 u128 f32 f64 char str string bytes byte_buf option unit
        unit_struct newtype_struct seq tuple tuple_struct map struct enum identifier ignored_any
    }
}

struct Items {
    left: u64,
    boast: usize,
}

impl<'de> SeqAccess<'de> for Items {
    type Error = value::Error;

    fn next_element_seed<S: DeserializeSeed<'de>>(
        &mut self,
        seed: S,
    ) -> Result<Option<S::Value>, value::Error> {
        if self.left == 0 {
            return Ok(None);
        }
        self.left -= 1;
        seed.deserialize(value::U64Deserializer::new(self.left))
            .map(Some)
    }

    fn size_hint(&self) -> Option<usize> {
        Some(self.boast)
    }
}

#[test]
fn a_boast_of_the_format_reserves_little() {
    for boast in [0, 3, 1 << 20, usize::MAX] {
        let list = RangeSet2::<u64>::deserialize(Boasting(boast))
            .unwrap()
            .into_inner();
        assert_eq!(list.as_slice(), [0, 1, 2]);
        assert!(list.capacity() <= 4096 / 8);
        let list = fallible::RangeSet2::<u64>::deserialize(Boasting(boast))
            .unwrap()
            .into_inner();
        assert!(list.capacity() <= 4096 / 8);
    }
}
