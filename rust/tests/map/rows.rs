//! Rows: what a change makes of a map.

use range_sets::{fallible, RangeMap};
use std::ops::Range;

/// A change of a map, and what the map is after it, as text.
struct Row {
    what: &'static str,
    before: &'static [(Range<u8>, char)],
    change: fn(&mut RangeMap<u8, char>),
    after: &'static str,
}

const ROWS: [Row; 18] = [
    Row {
        what: "the first range",
        before: &[],
        change: |map| map.insert(9..12, 'a'),
        after: "{9..12: 'a'}",
    },
    Row {
        what: "over an end",
        before: &[(9..12, 'a')],
        change: |map| map.insert(11..14, 'b'),
        after: "{9..11: 'a', 11..14: 'b'}",
    },
    Row {
        what: "within",
        before: &[(9..17, 'a')],
        change: |map| map.insert(12..13, 'b'),
        after: "{9..12: 'a', 12..13: 'b', 13..17: 'a'}",
    },
    Row {
        what: "within, the same value",
        before: &[(9..17, 'a')],
        change: |map| map.insert(12..13, 'a'),
        after: "{9..17: 'a'}",
    },
    Row {
        what: "between equal values",
        before: &[(0..5, 'a'), (9..17, 'a')],
        change: |map| map.insert(5..9, 'a'),
        after: "{0..17: 'a'}",
    },
    Row {
        what: "between other values",
        before: &[(0..5, 'a'), (9..17, 'a')],
        change: |map| map.insert(5..9, 'b'),
        after: "{0..5: 'a', 5..9: 'b', 9..17: 'a'}",
    },
    Row {
        what: "over all",
        before: &[(1..3, 'a'), (4..6, 'b')],
        change: |map| map.insert(0..9, 'c'),
        after: "{0..9: 'c'}",
    },
    Row {
        what: "an empty range",
        before: &[(9..12, 'a')],
        change: |map| map.insert(10..10, 'b'),
        after: "{9..12: 'a'}",
    },
    Row {
        what: "a reversed range",
        before: &[(9..12, 'a')],
        change: |map| map.insert(12..9, 'b'),
        after: "{9..12: 'a'}",
    },
    Row {
        what: "to a last key",
        before: &[],
        change: |map| map.insert(3..=5, 'a'),
        after: "{3..6: 'a'}",
    },
    Row {
        what: "to the greatest key",
        before: &[],
        change: |map| map.insert(3..=255, 'a'),
        after: "{3..: 'a'}",
    },
    Row {
        what: "without an end",
        before: &[(1..3, 'a'), (4..6, 'b')],
        change: |map| map.insert(2.., 'c'),
        after: "{1..2: 'a', 2..: 'c'}",
    },
    Row {
        what: "without a start",
        before: &[(1..3, 'a')],
        change: |map| map.insert(..2, 'c'),
        after: "{0..2: 'c', 2..3: 'a'}",
    },
    Row {
        what: "all keys",
        before: &[(1..3, 'a')],
        change: |map| map.insert(.., 'c'),
        after: "{0..: 'c'}",
    },
    Row {
        what: "taken out of the middle",
        before: &[(9..17, 'a')],
        change: |map| map.remove(12..13),
        after: "{9..12: 'a', 13..17: 'a'}",
    },
    Row {
        what: "taken out from a key on",
        before: &[(1..3, 'a'), (4..6, 'b')],
        change: |map| map.remove(2..),
        after: "{1..2: 'a'}",
    },
    Row {
        what: "taken out where nothing is",
        before: &[(1..3, 'a')],
        change: |map| map.remove(3..9),
        after: "{1..3: 'a'}",
    },
    Row {
        what: "cleared",
        before: &[(1..3, 'a'), (4..6, 'b')],
        change: |map| map.clear(),
        after: "{}",
    },
];

#[test]
fn rows() {
    for row in ROWS {
        let mut map: RangeMap<u8, char> = row.before.iter().cloned().collect();
        (row.change)(&mut map);
        assert_eq!(format!("{map:?}"), row.after, "{}", row.what);
    }
}

#[test]
fn later_ranges_win() {
    let ranges = [(0..9, 'a'), (3..12, 'b'), (5..6, 'a')];
    let expected = "{0..3: 'a', 3..5: 'b', 5..6: 'a', 6..12: 'b'}";
    let map: RangeMap<u8, char> = ranges.clone().into_iter().collect();
    assert_eq!(format!("{map:?}"), expected);
    let map = fallible::RangeMap::from_ranges(ranges).unwrap();
    assert_eq!(format!("{map:?}"), expected);
}

/// A map, one that is appended to it, and what the map is then, as text: the appended values hold
/// where both have one.
struct Appended {
    what: &'static str,
    own: &'static [(Range<u8>, char)],
    that: &'static [(Range<u8>, char)],
    after: &'static str,
}

#[rustfmt::skip]
const APPENDED: [Appended; 14] = [
    Appended { what: "nothing to nothing", own: &[], that: &[], after: "{}" },
    Appended { what: "nothing", own: &[(1..3, 'a')], that: &[], after: "{1..3: 'a'}" },
    Appended { what: "to nothing", own: &[], that: &[(1..3, 'a')], after: "{1..3: 'a'}" },
    Appended {
        what: "below",
        own: &[(6..9, 'a')],
        that: &[(1..3, 'b')],
        after: "{1..3: 'b', 6..9: 'a'}",
    },
    Appended {
        what: "above",
        own: &[(1..3, 'a')],
        that: &[(6..9, 'b')],
        after: "{1..3: 'a', 6..9: 'b'}",
    },
    Appended {
        what: "over a start",
        own: &[(3..6, 'a')],
        that: &[(1..4, 'b')],
        after: "{1..4: 'b', 4..6: 'a'}",
    },
    Appended {
        what: "over an end",
        own: &[(1..4, 'a')],
        that: &[(3..6, 'b')],
        after: "{1..3: 'a', 3..6: 'b'}",
    },
    Appended {
        what: "within",
        own: &[(1..6, 'a')],
        that: &[(3..4, 'b')],
        after: "{1..3: 'a', 3..4: 'b', 4..6: 'a'}",
    },
    Appended {
        what: "over all",
        own: &[(1..3, 'a'), (4..6, 'b')],
        that: &[(0..9, 'c')],
        after: "{0..9: 'c'}",
    },
    Appended {
        what: "the same range",
        own: &[(1..4, 'a')],
        that: &[(1..4, 'b')],
        after: "{1..4: 'b'}",
    },
    Appended {
        what: "touching an equal value",
        own: &[(1..4, 'a')],
        that: &[(4..6, 'a')],
        after: "{1..6: 'a'}",
    },
    Appended {
        what: "touching another value",
        own: &[(1..4, 'a')],
        that: &[(4..6, 'b')],
        after: "{1..4: 'a', 4..6: 'b'}",
    },
    Appended {
        what: "between equal values",
        own: &[(0..5, 'a'), (9..17, 'a')],
        that: &[(5..9, 'a')],
        after: "{0..17: 'a'}",
    },
    Appended {
        what: "several",
        own: &[(0..4, 'a'), (4..8, 'b'), (20..24, 'e')],
        that: &[(2..6, 'c'), (7..9, 'b'), (22..23, 'e')],
        after: "{0..2: 'a', 2..6: 'c', 6..9: 'b', 20..24: 'e'}",
    },
];

#[test]
fn appended_values_hold() {
    for row in APPENDED {
        let mut own: RangeMap<u8, char> = row.own.iter().cloned().collect();
        let mut that: RangeMap<u8, char> = row.that.iter().cloned().collect();
        own.append(&mut that);
        assert_eq!(format!("{own:?}"), row.after, "{}", row.what);
        assert_eq!(format!("{that:?}"), "{}", "{}", row.what);
    }
}
