//! Each sequence is written with its length, which formats without brackets, as bincode, ask for.
#![cfg(feature = "serde")]

use range_sets::{fallible, pairs, ChunkedRangeSet, ChunkedSpace, RangeMap, RangeSet2};
use serde::ser::{self, Impossible, Serialize, Serializer};
use std::fmt;

/// A format that refuses a sequence without a length, or with another one than it says.
struct Strict;

#[derive(Debug)]
struct Refused(String);

impl fmt::Display for Refused {
    fn fmt(&self, f: &mut fmt::Formatter<'_>) -> fmt::Result {
        f.write_str(&self.0)
    }
}

impl std::error::Error for Refused {}

impl ser::Error for Refused {
    fn custom<T: fmt::Display>(said: T) -> Self {
        Refused(said.to_string())
    }
}

/// How many items of a sequence are still to come.
struct Left(usize);

impl ser::SerializeSeq for Left {
    type Ok = ();
    type Error = Refused;

    fn serialize_element<T: Serialize + ?Sized>(&mut self, item: &T) -> Result<(), Refused> {
        let left = self.0.checked_sub(1);
        self.0 = left.ok_or_else(|| Refused("more items than were said".into()))?;
        item.serialize(Strict)
    }

    fn end(self) -> Result<(), Refused> {
        match self.0 {
            0 => Ok(()),
            left => Err(Refused(format!("{left} items fewer than were said"))),
        }
    }
}

impl ser::SerializeTuple for Left {
    type Ok = ();
    type Error = Refused;

    fn serialize_element<T: Serialize + ?Sized>(&mut self, item: &T) -> Result<(), Refused> {
        ser::SerializeSeq::serialize_element(self, item)
    }

    fn end(self) -> Result<(), Refused> {
        ser::SerializeSeq::end(self)
    }
}

/// Takes values of these types.
macro_rules! takes {
    ($($name:ident: $type:ty),*) => {
        $(fn $name(self, _: $type) -> Result<(), Refused> {
            Ok(())
        })*
    };
}

type Never = Impossible<(), Refused>;

impl Serializer for Strict {
    type Ok = ();
    type Error = Refused;
    type SerializeSeq = Left;
    type SerializeTuple = Left;
    type SerializeTupleStruct = Never;
    type SerializeTupleVariant = Never;
    type SerializeMap = Never;
    type SerializeStruct = Never;
    type SerializeStructVariant = Never;

    takes!(
        serialize_bool: bool, serialize_i8: i8, serialize_i16: i16, serialize_i32: i32, serialize_i64: i64,
        serialize_u8: u8, serialize_u16: u16, serialize_u32: u32, serialize_u64: u64, serialize_f32: f32,
        serialize_f64: f64, serialize_char: char, serialize_str: &str, serialize_bytes: &[u8],
        serialize_unit_struct: &'static str
    );

    fn serialize_none(self) -> Result<(), Refused> {
        Ok(())
    }

    fn serialize_some<T: Serialize + ?Sized>(self, value: &T) -> Result<(), Refused> {
        value.serialize(self)
    }

    fn serialize_unit(self) -> Result<(), Refused> {
        Ok(())
    }

    fn serialize_seq(self, len: Option<usize>) -> Result<Left, Refused> {
        len.map(Left)
            .ok_or_else(|| Refused("a sequence without a length".into()))
    }

    fn serialize_tuple(self, len: usize) -> Result<Left, Refused> {
        Ok(Left(len))
    }

    fn serialize_unit_variant(self, _: &str, _: u32, _: &str) -> Result<(), Refused> {
        unreachable!("no set has one")
    }

    fn serialize_newtype_struct<T>(self, _: &str, _: &T) -> Result<(), Refused>
    where
        T: Serialize + ?Sized,
    {
        unreachable!("no set has one")
    }

    fn serialize_newtype_variant<T>(self, _: &str, _: u32, _: &str, _: &T) -> Result<(), Refused>
    where
        T: Serialize + ?Sized,
    {
        unreachable!("no set has one")
    }

    fn serialize_tuple_struct(self, _: &str, _: usize) -> Result<Never, Refused> {
        unreachable!("no set has one")
    }

    fn serialize_tuple_variant(self, _: &str, _: u32, _: &str, _: usize) -> Result<Never, Refused> {
        unreachable!("no set has one")
    }

    fn serialize_map(self, _: Option<usize>) -> Result<Never, Refused> {
        unreachable!("no set has one")
    }

    fn serialize_struct(self, _: &str, _: usize) -> Result<Never, Refused> {
        unreachable!("no set has one")
    }

    fn serialize_struct_variant(
        self,
        _: &str,
        _: u32,
        _: &str,
        _: usize,
    ) -> Result<Never, Refused> {
        unreachable!("no set has one")
    }
}

/// The ranges from 0 on, of which every second number is in: none, one, or as many as fill several
/// chunks.
fn ranges(len: u32) -> impl Iterator<Item = std::ops::Range<u32>> {
    (0..len).map(|n| 2 * n..2 * n + 1)
}

#[test]
fn each_sequence_has_its_length() {
    for (len, is_endless) in [0, 1, 3, 2000]
        .into_iter()
        .flat_map(|len| [(len, false), (len, true)])
    {
        let mut set: RangeSet2<u32> = ranges(len).collect();
        if is_endless {
            set.insert(9999..);
        }
        let chunked = ChunkedRangeSet::from(&*set);
        let space = ChunkedSpace::from(chunked.clone());
        let map: RangeMap<u32, u32> = set.iter().map(|it| it.cloned()).zip(0..).collect();
        assert_eq!(map.len(), set.ranges_len());
        let rows = [
            ("a set", set.serialize(Strict)),
            ("a view", (*set).serialize(Strict)),
            ("pairs", pairs::serialize(&set, Strict)),
            ("a set in chunks", chunked.serialize(Strict)),
            ("a space", space.serialize(Strict)),
            ("a map", map.serialize(Strict)),
            (
                "a fallible set",
                fallible::RangeSet2::from(set.clone()).serialize(Strict),
            ),
            (
                "a fallible set in chunks",
                fallible::ChunkedRangeSet::from(chunked.clone()).serialize(Strict),
            ),
            (
                "a fallible space",
                fallible::ChunkedSpace::from(space.clone()).serialize(Strict),
            ),
            (
                "a fallible map",
                fallible::RangeMap::from(map.clone()).serialize(Strict),
            ),
        ];
        for (what, written) in rows {
            assert!(
                written.is_ok(),
                "{what} of {len} ranges: {}",
                written.unwrap_err()
            );
        }
    }
}

/// A set in chunks that is taken apart knows how many ranges are left.
#[test]
fn ranges_that_are_left() {
    for (len, is_endless) in [
        (0, false),
        (1, false),
        (2000, false),
        (0, true),
        (2000, true),
    ] {
        let mut set: ChunkedRangeSet<u32> = ranges(len).collect();
        if is_endless {
            set.insert(9999..);
        }
        let mut left = set.ranges_len();
        let mut iter = set.into_iter();
        assert_eq!(iter.len(), left);
        while iter.next().is_some() {
            left -= 1;
            assert_eq!(iter.len(), left, "{len} ranges, endless: {is_endless}");
        }
        assert_eq!(left, 0);
    }
}
