//! Sets written as text and read from it.

use range_sets::{
    fallible, ChunkedRangeSet, Expected, NoRoom, ParseError, RangeSet, RangeSet2, RangeSetRange,
    RangeSetRef,
};
use std::collections::HashSet;
use std::iter::once;
#[cfg(feature = "std")]
use std::net::{Ipv4Addr, Ipv6Addr};
use std::time::Duration;

#[test]
fn debug_text_is_made_of_the_elements_own() {
    assert_eq!(format!("{:?}", RangeSet2::<i32>::empty()), "RangeSet{}");
    assert_eq!(
        format!("{:?}", RangeSet2::from('a'..'c')),
        "RangeSet{'a'..'c'}"
    );
    assert_eq!(
        format!("{:?}", RangeSet2::from(Some("x")..)),
        r#"RangeSet{Some("x")..}"#
    );
    assert_eq!(
        format!("{:?}", fallible::RangeSet2::try_from(1..2).unwrap()),
        "RangeSet{1..2}"
    );
    assert_eq!(
        format!("{:#?}", RangeSet2::from(1..20)),
        "RangeSet{\n    1..20,\n}"
    );
    assert_eq!(
        format!("{:?}", RangeSetRef::new(&[1, 2]).unwrap()),
        "RangeSetRef([1, 2])"
    );
    assert_eq!(format!("{:?}", RangeSetRange::from(3..)), "3..");
}

/// As a set of std's, whose name isn't written.
#[test]
fn the_flags_of_debug_reach_the_elements() {
    let (set, std) = (
        RangeSet2::from(10..31),
        once(10..31).collect::<HashSet<_>>(),
    );
    macro_rules! alike {
        ($($format:literal)*) => {$(
            assert_eq!(format!($format, set), format!(concat!("RangeSet", $format), std));
            assert_eq!(
                format!($format, fallible::RangeSet2::try_from(10..31).unwrap()),
                format!(concat!("RangeSet", $format), std)
            );
        )*};
    }
    alike!("{:?}" "{:#?}" "{:x?}" "{:X?}" "{:#x?}" "{:4?}" "{:<4?}" "{:04?}" "{:+?}");
    let nothing = RangeSet2::<i32>::empty();
    assert_eq!(format!("{nothing:#?}"), "RangeSet{}");
}

/// The width, the fill and the alignment are those of the whole text, as they are of a text.
#[test]
fn a_width_is_that_of_the_whole_text() {
    let set: RangeSet2<i8> = RangeSet::from_unsorted([-5, 0, 10]);
    let text = "-5..0, 10..";
    let fallible = fallible::RangeSet::from(set.clone());
    macro_rules! alike {
        ($($format:literal)*) => {$(
            assert_eq!(format!($format, set), format!($format, text));
            assert_eq!(format!($format, &*set), format!($format, text));
            assert_eq!(format!($format, fallible), format!($format, text));
        )*};
    }
    alike!("{}" "{:20}" "{:<20}" "{:>20}" "{:^20}" "{:^19}" "{:é>20}" "{:020}" "{:3}" "{:>11}" "{:>12}" "{:#}");
    assert_eq!(format!("{set:>14}|"), "   -5..0, 10..|");
    assert_eq!(format!("{:>3}|", RangeSet2::<i8>::empty()), "   |");
    // A text that is cut short, or has signs that were asked for, would be another one.
    assert_eq!(format!("{set:.3}"), text);
    assert_eq!(format!("{set:+}"), text);
}

#[test]
fn text_of_whole_numbers() {
    let set: RangeSet2<i64> = RangeSet::from_unsorted([i64::MIN, -5, 0, 10, 20]);
    assert_eq!(set.to_string(), "-9223372036854775808..-5, 0..10, 20..");
    assert_eq!(RangeSet2::<u8>::empty().to_string(), "");
    assert_eq!(RangeSetRef::single(&7u128).to_string(), "7..");
}

#[test]
fn text_is_read_in_any_order() {
    let read = |text: &str| text.parse::<RangeSet2<i8>>().unwrap().into_inner().to_vec();
    assert_eq!(read(""), []);
    assert_eq!(read(" \n\t"), []);
    assert_eq!(read("0..10"), [0, 10]);
    assert_eq!(read(" 20.. ,0..10"), [0, 10, 20]);
    assert_eq!(read("-128..-5,-7..3"), [-128, 3]);
    assert_eq!(read("+5..007"), [5, 7]);
    assert_eq!(read("7..5, 9..9"), []);
    assert_eq!(
        "0..5"
            .parse::<fallible::RangeSet2<u8>>()
            .unwrap()
            .boundaries(),
        [0, 5]
    );
}

#[test]
fn faults_have_their_place() {
    let fault = |text: &str| text.parse::<RangeSet2<u8>>().unwrap_err();
    let malformed = |at, expected| ParseError::Malformed { at, expected };
    assert_eq!(fault("x"), malformed(0, Expected::Number));
    assert_eq!(fault("1"), malformed(1, Expected::Dot));
    assert_eq!(fault("1.2"), malformed(2, Expected::Dot));
    assert_eq!(fault("1..2; 3.."), malformed(4, Expected::Comma));
    assert_eq!(fault("1..2, "), malformed(6, Expected::Number));
    assert_eq!(fault("1..2, é"), malformed(6, Expected::Number));
    assert_eq!(fault("1..256"), ParseError::OutOfRange);
    assert_eq!(fault("-1..2"), ParseError::OutOfRange);
    assert_eq!(
        fault("1..2; 3..").to_string(),
        "a comma or the end was expected at byte 4"
    );
    assert_eq!(
        fault("1..256").to_string(),
        "a number is past those of its type"
    );
    assert_eq!(ParseError::OutOfMemory.to_string(), "memory ran out");
}

#[test]
fn texts_of_characters() {
    for (text, written) in [
        ("", ""),
        (" \n", ""),
        ("'a'..'c'", "'a'..'c'"),
        (" 'x'.. , 'a'..'c' ", "'a'..'c', 'x'.."),
        ("'b'..'a'", ""),
        (r"'\''..'\\'", r"'\''..'\\'"),
        (r#"'"'..'\"'"#, ""),
        (
            r"'\n'..'\r', '\t'..'\n', '\0'..'\u{1}'",
            r"'\0'..'\u{1}', '\t'..'\r'",
        ),
        (r"'\u{E000}'..'\u{10ffff}'", r"'\u{e000}'..'\u{10ffff}'"),
        ("' '..'é', '.'..", "' '.."),
        ("','..'.'", "','..'.'"),
    ] {
        let set: RangeSet2<char> = text.parse().unwrap();
        assert_eq!(set.to_string(), written, "{text}");
        assert_eq!(written.parse(), Ok(set.clone()));
        assert_eq!(
            text.parse::<ChunkedRangeSet<char>>().unwrap().to_string(),
            written
        );
        assert_eq!(
            format!("{:?}", text.parse::<fallible::RangeSet2<char>>().unwrap()),
            format!("{set:?}")
        );
    }
    let every_99th =
        ('\0'..=char::MAX)
            .step_by(99)
            .chain(['\'', '\\', '\u{d7ff}', '\u{e000}', char::MAX]);
    let set = RangeSet2::from_values(every_99th);
    assert_eq!(set.to_string().parse(), Ok(set));
}

#[test]
fn faults_in_texts_of_characters() {
    for (text, at, expected) in [
        ("a..b", 0, Expected::Number),
        ("'", 0, Expected::Number),
        ("''..'a'", 0, Expected::Number),
        ("'ab'..'c'", 0, Expected::Number),
        ("'a..'c'", 0, Expected::Number),
        (r"'\q'..", 0, Expected::Number),
        (r"'\u{d800}'..", 0, Expected::Number),
        (r"'\u{+41}'..", 0, Expected::Number),
        (r"'\u{}'..", 0, Expected::Number),
        (r"'\u41'..", 0, Expected::Number),
        ("'a'", 3, Expected::Dot),
        ("'a'.'b'", 4, Expected::Dot),
        ("'a' ..'b'", 3, Expected::Dot),
        ("'a'..b", 5, Expected::Number),
        ("'é'..'z'; 'a'..", 9, Expected::Comma),
        ("'a'.. 'b'", 6, Expected::Comma),
        ("'a'..'b', ", 10, Expected::Number),
        ("'a'..'b',, 'c'..", 9, Expected::Number),
        (",'a'..'b'", 0, Expected::Number),
    ] {
        let error = text.parse::<RangeSet2<char>>().unwrap_err();
        assert_eq!(error, ParseError::Malformed { at, expected }, "{text}");
        assert_eq!(
            text.parse::<fallible::RangeSet2<char>>().unwrap_err(),
            error
        );
    }
}

#[cfg(feature = "std")]
#[test]
fn texts_of_addresses() {
    for (text, written) in [
        ("", ""),
        ("10.0.0.0..10.1.0.0", "10.0.0.0..10.1.0.0"),
        (
            " 224.0.0.0.. ,\t10.0.0.0..10.1.0.0",
            "10.0.0.0..10.1.0.0, 224.0.0.0..",
        ),
        (
            "10.0.0.0..10.1.0.0,10.0.128.0..10.2.0.0",
            "10.0.0.0..10.2.0.0",
        ),
    ] {
        let set: RangeSet2<Ipv4Addr> = text.parse().unwrap();
        assert_eq!(set.to_string(), written);
        assert_eq!(ChunkedRangeSet::from(set).to_string(), written);
    }
    let text = "::..2001:db8::, 2001:db9::..::ffff:0:0:0:1.2.3.4, fe80::..";
    let set: RangeSet2<Ipv6Addr> = text.parse().unwrap();
    assert_eq!(set.to_string(), "::..2001:db8::, fe80::..");
    assert_eq!(format!("{set:>30}|"), "      ::..2001:db8::, fe80::..|");

    for (text, at, expected) in [
        ("10.0.0..10.1.0.0", 0, Expected::Number),
        ("10.0.0.256..", 0, Expected::Number),
        ("::1..", 0, Expected::Number),
        ("10.0.0.0", 8, Expected::Dot),
        ("10.0.0.0..10.1.0", 10, Expected::Number),
        ("10.0.0.0..10.1.0.0 10.2.0.0..", 19, Expected::Comma),
        ("10.0.0.0..10.1.0.0,", 19, Expected::Number),
    ] {
        let error = text.parse::<RangeSet2<Ipv4Addr>>().unwrap_err();
        assert_eq!(error, ParseError::Malformed { at, expected }, "{text}");
    }
}

/// By the `Display` of the ends, which of characters isn't in quotes.
#[test]
fn texts_of_ranges() {
    assert_eq!(RangeSetRange::from(-3..4).to_string(), "-3..4");
    assert_eq!(RangeSetRange::from(&7..).to_string(), "7..");
    assert_eq!(RangeSetRange::from('a'..'c').to_string(), "a..c");
    assert_eq!(
        format!(
            "{:>8}|{:<8}|{:^8}|",
            RangeSetRange::from(10..20),
            RangeSetRange::from(5..),
            RangeSetRange::from(1..2)
        ),
        "  10..20|5..     |  1..2  |"
    );
}

#[cfg(feature = "std")]
#[test]
fn errors_are_errors() {
    fn is_error<E: std::error::Error + Send + Sync + 'static>() {}
    is_error::<ParseError>();
    is_error::<fallible::AllocError>();
    is_error::<range_sets::tracker::TrackError>();
    is_error::<NoRoom>();
    assert_eq!(
        NoRoom { needed: 4 }.to_string(),
        "the result has 4 boundaries, and the slice has no room for them"
    );
    assert_eq!(fallible::AllocError.to_string(), "memory allocation failed");
}

#[test]
fn texts_of_durations() {
    for (text, written) in [
        ("", ""),
        ("0s..1s", "0ns..1s"),
        ("1.5s..2s,3s..", "1.5s..2s, 3s.."),
        ("1500ms..2000000µs", "1.5s..2s"),
        ("7ns..7.25µs", "7ns..7.25µs"),
        ("0.000000001s..1.000001ms", "1ns..1.000001ms"),
        ("2s..1s", ""),
    ] {
        let set: RangeSet2<Duration> = text.parse().unwrap();
        assert_eq!(set.to_string(), written, "{text}");
        assert_eq!(written.parse(), Ok(set));
    }
    let ends = [0, 1, 999, 1_000, 123_456_789, 10_000_000_007, u64::MAX];
    let ends = ends.map(Duration::from_nanos);
    let set = RangeSet2::from_unsorted(ends.into_iter().chain(once(Duration::MAX)));
    assert_eq!(set.to_string().parse(), Ok(set));
    for (text, at, expected) in [
        ("1..2s", 0, Expected::Number),
        ("1.5ns..", 0, Expected::Number),
        ("0.0000000001s..", 0, Expected::Number),
        ("18446744073709551616s..", 0, Expected::Number),
        ("1s..2", 4, Expected::Number),
        ("1s..2m", 4, Expected::Number),
        ("1s.2s", 3, Expected::Dot),
        ("1s..2s;", 6, Expected::Comma),
    ] {
        let error = text.parse::<RangeSet2<Duration>>().unwrap_err();
        assert_eq!(error, ParseError::Malformed { at, expected }, "{text}");
    }
}
