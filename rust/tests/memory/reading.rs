//! Memory refused at each request in turn while a set or a map is read: what is read is whole, or
//! there is an error.

use crate::refusing::{refusing, Refusal};
use range_sets::fallible::{self, ChunkedRangeSet, ChunkedSpace, RangeMap, RangeSet2};
use serde_json::{from_str, Deserializer, Result};
use std::fmt::Debug;

/// Refuses each request of a call alone, since the error takes memory itself. Whether one of them
/// made an error.
fn is_refused<T: PartialEq + Debug>(read: impl Fn() -> Result<T>) -> bool {
    let whole = read().expect("no memory is refused");
    let mut is_refused = false;
    for turn in 0.. {
        let (found, refused) = refusing(Refusal::One(turn), &read);
        if refused == 0 {
            break;
        }
        match found {
            Ok(found) => assert_eq!(found, whole, "request {turn}"),
            Err(error) => {
                assert_eq!(error.to_string(), "memory allocation failed");
                is_refused = true;
            }
        }
    }
    is_refused
}

#[test]
fn what_is_read_is_whole_or_an_error() {
    for (ranges, asks) in [(0, false), (3, true), (300, true)] {
        let list: Vec<u64> = (0..2 * ranges).rev().map(|i| 10 * i).collect();
        let text = format!("{list:?}");
        let refused = [
            is_refused(|| from_str::<RangeSet2<u64>>(&text)),
            is_refused(|| from_str::<ChunkedRangeSet<u64>>(&text)),
            is_refused(|| from_str::<ChunkedSpace<u64>>(&text)),
        ];
        assert_eq!(refused, [asks; 3], "{ranges} ranges");

        let pairs: Vec<_> = (0..ranges).map(|i| [10 * i, 10 * i + 5]).collect();
        let text = format!("{pairs:?}");
        let read = || fallible::pairs::deserialize(&mut Deserializer::from_str(&text));
        let chunked = || fallible::pairs::chunked::deserialize(&mut Deserializer::from_str(&text));
        let triples: Vec<_> = (0..ranges).map(|i| [10 * i, 10 * i + 5, i]).collect();
        let map = format!("{triples:?}");
        let refused = [
            is_refused(|| read().map(|set: RangeSet2<u64>| set)),
            is_refused(|| chunked().map(|set: ChunkedRangeSet<u64>| set)),
            is_refused(|| from_str::<RangeMap<u64, u64>>(&map)),
        ];
        assert_eq!(refused, [asks; 3], "{ranges} ranges");
    }
}
