//! Multiranges of PostgreSQL, read and written.

use range_sets::MultirangeError::{Malformed, OutOfRange};
use range_sets::{fallible, ChunkedRangeSet, MultirangeError, RangeSet2};

/// A text, the set that it is, and how the set is written.
const TEXTS: &[(&str, &str, &str)] = &[
    ("{}", "", "{}"),
    (" { } ", "", "{}"),
    ("{[0,10),[20,)}", "0..10, 20..", "{[0,10),[20,)}"),
    ("{(,5]}", "-128..6", "{(,6)}"),
    ("{(0,10]}", "1..11", "{[1,11)}"),
    ("{[,-127)}", "-128..-127", "{(,-127)}"),
    ("{(,)}", "-128..", "{(,)}"),
    ("[3,5)", "3..5", "{[3,5)}"),
    ("empty", "", "{}"),
    (
        " { [ 1 , +5 ) , EMPTY,(7,9] } ",
        "1..5, 8..10",
        "{[1,5),[8,10)}",
    ),
    ("{[7,9),[1,5),[4,8)}", "1..9", "{[1,9)}"),
    ("{(3,4),[5,5),[9,7)}", "", "{}"),
    ("{[-128,3),[126,127]}", "-128..3, 126..", "{(,3),[126,)}"),
    ("{(127,),[1,2)}", "1..2", "{[1,2)}"),
];

#[test]
fn texts_are_read_and_written() {
    for &(text, ranges, written) in TEXTS {
        let set: RangeSet2<i8> = ranges.parse().unwrap();
        assert_eq!(
            RangeSet2::from_multirange(text).as_ref(),
            Ok(&set),
            "{text}"
        );
        assert_eq!(set.to_multirange(), written, "{text}");
        assert_eq!(RangeSet2::from_multirange(written).as_ref(), Ok(&set));

        let chunked = ChunkedRangeSet::<i8>::from_multirange(text).unwrap();
        assert!(
            set == chunked && chunked.to_multirange() == written,
            "{text}"
        );
        let fallible = fallible::RangeSet2::<i8>::from_multirange(text).unwrap();
        assert_eq!(fallible.to_multirange(), Ok(written.into()), "{text}");
    }
}

#[test]
fn the_least_number_without_a_sign_is_written() {
    let set = RangeSet2::<u8>::from_multirange("{(,10),[255,)}").unwrap();
    assert_eq!(set.to_multirange(), "{[0,10),[255,)}");
}

/// A text that is refused, and why.
const REFUSED: &[(&str, MultirangeError)] = &[
    ("", Malformed { at: 0 }),
    ("{", Malformed { at: 1 }),
    ("{[0,10)", Malformed { at: 7 }),
    ("{[3,5),}", Malformed { at: 7 }),
    ("{[3,5) [7,9)}", Malformed { at: 7 }),
    ("{,[3,5)}", Malformed { at: 1 }),
    ("{}}", Malformed { at: 2 }),
    ("[3,5", Malformed { at: 4 }),
    ("[1,2)x", Malformed { at: 5 }),
    ("[1,2),[3,4)", Malformed { at: 5 }),
    ("{x}", Malformed { at: 1 }),
    ("{empt}", Malformed { at: 1 }),
    ("{[a,b)}", Malformed { at: 2 }),
    ("{[0.5,1.5)}", Malformed { at: 2 }),
    ("{[2026-05-01,)}", Malformed { at: 2 }),
    ("{[1,infinity)}", Malformed { at: 4 }),
    ("{[ ,5)}", Malformed { at: 2 }),
    ("{[-,5)}", Malformed { at: 2 }),
    ("{[1,2,3)}", Malformed { at: 5 }),
    ("{[128,)}", OutOfRange { at: 2 }),
    ("{[ 128 ,)}", OutOfRange { at: 3 }),
    ("{[1,9223372036854775808)}", OutOfRange { at: 4 }),
    ("{é}", Malformed { at: 1 }),
];

#[test]
fn other_texts_are_refused() {
    for &(text, error) in REFUSED {
        assert_eq!(RangeSet2::<i8>::from_multirange(text), Err(error), "{text}");
        let fallible = fallible::RangeSet2::<i8>::from_multirange(text);
        assert_eq!(fallible, Err(error), "{text}");
    }
}
