//! Ranges of every kind that std has, between values and between references, wherever a call takes
//! one.

mod common;

use common::Random;
use range_sets::tracker::{ChunkedTracker, Tracker};
use range_sets::{
    ChunkedRangeSet, ChunkedSpace, Connective, RangeMap, RangeSet2, RangeSetRange, RangeSetRef,
};
use std::fmt::Debug;
use std::iter::once;
use std::ops::{Bound, Range, RangeBounds, RangeInclusive};
use std::rc::Rc;

type Part = RangeSetRange<u8>;

/// Each set of some boundaries: with the least value or without, with an end or without.
fn sets() -> Vec<Vec<u8>> {
    const BOUNDARIES: [u8; 6] = [0, 2, 3, 7, 8, 12];
    (0..1 << BOUNDARIES.len())
        .map(|mask| {
            (0..BOUNDARIES.len())
                .filter(|i| mask >> i & 1 == 1)
                .map(|i| BOUNDARIES[i])
                .collect()
        })
        .collect()
}

/// The ends of the ranges that are tried.
const ENDS: [u8; 7] = [0, 1, 3, 5, 8, 13, 255];

fn is_member(boundaries: &[u8], value: u8) -> bool {
    boundaries
        .iter()
        .filter(|&&boundary| boundary <= value)
        .count()
        % 2
        == 1
}

/// The parts of the values that are wanted, value by value. One up to the greatest value has no
/// end, unless the range has.
fn parts(within: &impl RangeBounds<u8>, is_wanted: impl Fn(u8) -> bool) -> Vec<Part> {
    let (mut found, mut start) = (Vec::new(), None);
    for value in 0..=255 {
        if within.contains(&value) && is_wanted(value) {
            start = start.or(Some(value));
        } else if let Some(start) = start.take() {
            found.push((start..value).into());
        }
    }
    found.extend(start.map(|start| RangeSetRange::from(start..)));
    found
}

/// The range itself.
fn parts_of_all(range: &impl RangeBounds<u8>) -> Vec<Part> {
    parts(range, |_| true)
}

/// The ranges of a set that have a value of a range.
fn met(boundaries: &[u8], range: &impl RangeBounds<u8>) -> Vec<Part> {
    let all = parts(&(..), |value| is_member(boundaries, value));
    let has = |part: &Part| (0..=255).any(|value| part.contains(&value) && range.contains(&value));
    all.into_iter().filter(has).collect()
}

/// A part that a view gives between bounds, within a range from the least value on.
fn of_bounds((start, end): (Bound<&u8>, Bound<&u8>)) -> Part {
    let start = match start {
        Bound::Included(start) => *start,
        _ => 0,
    };
    match end {
        Bound::Excluded(end) => (start..*end).into(),
        Bound::Included(last) => (start..=*last).into(),
        Bound::Unbounded => (start..).into(),
    }
}

/// Parts from the lowest on, from the highest down, and from both ends in turn.
fn both_ways(parts: impl DoubleEndedIterator<Item = Part> + Clone, wanted: &[Part], what: &str) {
    assert_eq!(parts.clone().collect::<Vec<_>>(), wanted, "{what}");
    assert!(
        parts.clone().rev().eq(wanted.iter().rev().cloned()),
        "{what}"
    );
    let (mut left, mut low, mut high) = (parts, Vec::new(), Vec::new());
    while let Some(part) = left.next() {
        low.push(part);
        high.extend(left.next_back());
    }
    assert!(left.next_back().is_none(), "{what}");
    low.extend(high.into_iter().rev());
    assert_eq!(low, wanted, "{what}");
}

/// Asks each type for its gaps, its parts and the ranges that are met. A view may give its parts in
/// another form.
macro_rules! ask {
    ($boundaries:expr, $range:expr, $of_view:expr) => {{
        let (boundaries, range): (&[u8], _) = ($boundaries, $range);
        let what = format!("{boundaries:?} in {range:?}");
        let gaps = parts(&range, |value| !is_member(boundaries, value));
        let inside = parts(&range, |value| is_member(boundaries, value));
        let met = met(boundaries, &range);

        let view = RangeSetRef::new(boundaries).unwrap();
        both_ways(view.gaps(range.clone()).map($of_view), &gaps, &what);
        both_ways(
            view.ranges_within(range.clone()).map($of_view),
            &inside,
            &what,
        );
        let found: Vec<Part> = view.overlapping(range.clone()).copied().collect();
        assert_eq!(found, met, "{what}");

        let chunked = ChunkedRangeSet::from(view);
        both_ways(chunked.gaps(range.clone()).map(Part::from), &gaps, &what);
        both_ways(
            chunked.ranges_within(range.clone()).map(Part::from),
            &inside,
            &what,
        );
        let found: Vec<Part> = chunked.overlapping(range.clone()).copied().collect();
        assert_eq!(found, met, "{what}");

        let space = ChunkedSpace::from(chunked);
        assert!(
            space.gaps(range.clone()).map(Part::from).eq(gaps.clone()),
            "{what}"
        );
        assert_eq!(
            space.intersects_range(range.clone()),
            !met.is_empty(),
            "{what}"
        );

        let mut map: RangeMap<u8, bool> = view.iter().copied().map(|part| (part, true)).collect();
        let found: Vec<Part> = map
            .overlapping(range.clone())
            .map(|(key, _)| key.copied())
            .collect();
        assert_eq!(found, met, "{what}");
        both_ways(
            map.ranges_within(range.clone()).map(|(key, _)| key),
            &inside,
            &what,
        );
        // Neighbours with other values have no gap between them.
        for start in view.iter().map(|part| **part.start()) {
            map.insert(start..=start, false);
        }
        both_ways(map.gaps(range.clone()).map(Part::from), &gaps, &what);
        let parts = map.ranges_within(range.clone());
        let joined: RangeSet2<u8> = parts.clone().map(|(key, _)| key).collect();
        assert!(joined.into_iter().eq(inside), "{what}");
        for (key, value) in parts {
            let whole = map.get_key_value(key.start()).map(|(_, value)| value);
            assert_eq!(whole, Some(value), "{what}");
        }

        // The keys that calls of maps take.
        let kept = map.restrict(range.clone());
        let within: RangeSet2<u8> = RangeSet2::from_ranges(parts_of_all(&range));
        assert_eq!(kept, map.restrict(&within), "{what}");
        assert_eq!(
            kept,
            map.restrict(&ChunkedRangeSet::from(within.clone())),
            "{what}"
        );
        assert!(kept.iter().copied().eq(map
            .ranges_within(range.clone())
            .map(|(key, value)| (key, *value))));
        let rest = map.without(range.clone());
        assert_eq!(rest, map.without(&mut within.clone()), "{what}");
        assert_eq!(rest.union_with_left(&kept), map, "{what}");
        let (mut own, mut others) = (map.clone(), map);
        own.retain_all(range.clone());
        others.remove_all(range.clone());
        assert_eq!((own, others), (kept, rest), "{what}");
    }};
}

#[test]
fn between_values() {
    for boundaries in sets() {
        ask!(&boundaries, .., of_bounds);
        for a in ENDS {
            ask!(&boundaries, a.., Part::from);
            ask!(&boundaries, ..a, Part::from);
            ask!(&boundaries, ..=a, Part::from);
            ask!(&boundaries, RangeSetRange::from(a..), Part::from);
            for b in ENDS {
                ask!(&boundaries, a..b, Part::from);
                ask!(&boundaries, a..=b, Part::from);
                ask!(&boundaries, RangeSetRange::from(a..b), Part::from);
                ask!(
                    &boundaries,
                    (Bound::Excluded(a), Bound::Included(b)),
                    Part::from
                );
            }
            ask!(
                &boundaries,
                (Bound::Included(a), Bound::<u8>::Unbounded),
                Part::from
            );
            ask!(
                &boundaries,
                (Bound::Unbounded, Bound::Excluded(a)),
                Part::from
            );
        }
    }
}

#[test]
fn between_references() {
    fn same<'a, P: Debug + PartialEq>(
        these: impl Iterator<Item = P> + 'a,
        those: impl Iterator<Item = P> + 'a,
    ) {
        assert_eq!(these.collect::<Vec<_>>(), those.collect::<Vec<_>>());
    }
    for boundaries in sets() {
        let view = RangeSetRef::new(&boundaries).unwrap();
        let chunked = ChunkedRangeSet::from(view);
        let map: RangeMap<u8, ()> = view.iter().map(|range| (range.cloned(), ())).collect();
        for (a, b) in ENDS.iter().flat_map(|a| ENDS.iter().map(move |b| (a, b))) {
            let range = *a..*b;
            // By reference to the range, and as the ends of a range between references have it.
            same(view.gaps(&range), view.gaps(a..b));
            same(view.gaps(&a..&b), view.gaps(a..b));
            same(view.ranges_within(&range), view.ranges_within(a..b));
            same(chunked.gaps(&range), chunked.gaps(a..b));
            same(chunked.gaps(&a..&b), view.gaps(a..b));
            same(chunked.ranges_within(&range), view.ranges_within(a..b));
            same(map.gaps(&range), view.gaps(a..b));
            same(map.gaps(&a..&b), view.gaps(a..b));
            for found in [&range, &(*a..*b)] {
                same(view.overlapping(found), view.overlapping(a..b));
                same(view.overlapping(&a..&b), view.overlapping(a..b));
                same(chunked.overlapping(found), chunked.overlapping(a..b));
                same(map.overlapping(found), map.overlapping(a..b));
            }
            same(view.overlapping(a..), view.overlapping(*a..));
            same(chunked.overlapping(a..), chunked.overlapping(*a..));
            same(chunked.gaps(a..).copied(), view.gaps(*a..));
            same(map.gaps(a..).copied(), view.gaps(*a..));
            same(
                view.gaps(a..b).rev().map(|gap| *gap.start..*gap.end),
                view.gaps(*a..*b).rev(),
            );
            same(chunked.gaps(a..b).rev(), view.gaps(a..b).rev());
            same(
                chunked.ranges_within(a..b).rev(),
                view.ranges_within(a..b).rev(),
            );
            let bounds =
                |(start, end): (Bound<&u8>, Bound<&u8>)| Part::from((start.cloned(), end.cloned()));
            both_ways(
                view.gaps(a..=b).map(bounds),
                &view.gaps(*a..=*b).collect::<Vec<_>>(),
                "gaps",
            );
            both_ways(
                view.ranges_within(..=b).map(bounds),
                &view.ranges_within(..=*b).collect::<Vec<_>>(),
                "parts",
            );
            same(view.gaps(a..b).cloned(), view.gaps(*a..*b));
            same(view.gaps(a..).copied(), view.gaps(*a..));
            same(chunked.gaps(a..b).cloned(), chunked.gaps(*a..*b));
            same(map.gaps(a..b).copied(), map.gaps(*a..*b));
        }
    }
}

/// The first of the numbers from which on `count` lie in the range, all of them members or none, by
/// looking at each.
fn first_by_hand(
    view: &RangeSetRef<u8>,
    within: Range<u16>,
    (count, align): (u16, u16),
    inside: bool,
) -> Option<u8> {
    let alike = |n| u8::try_from(n).map_or(false, |n| view.contains(&n) == inside);
    (within.start..=within.end.min(255))
        .filter(|at| at % align == 0 && at + count <= within.end)
        .find(|&at| (at..at + count).all(alike))
        .and_then(|at| u8::try_from(at).ok())
}

/// The last of the numbers from which on `count` that are no members lie in the range. None at all fit
/// at the end, or else at the greatest number.
fn last_by_hand(view: &RangeSetRef<u8>, within: Range<u16>, count: u16) -> Option<u8> {
    let is_free = |n| u8::try_from(n).map_or(false, |n| !view.contains(&n));
    (within.start..=within.end.min(255))
        .filter(|at| at + count <= within.end)
        .rfind(|&at| (at..at + count).all(is_free))
        .and_then(|at| u8::try_from(at).ok())
}

/// A range without an end goes up to the greatest value, with it.
#[test]
fn rows_of_values_in_every_kind_of_range() {
    for boundaries in sets() {
        let view = RangeSetRef::new(&boundaries).unwrap();
        let chunked = ChunkedRangeSet::from(view);
        let mut space = ChunkedSpace::from(chunked.clone());
        let map: RangeMap<u8, usize> = view.iter().copied().zip(0..).collect();
        for numbers in [
            (0, 1),
            (0, 256),
            (1, 3),
            (2, 4),
            (5, 1),
            (15, 16),
            (241, 2),
            (255, 1),
            (256, 1),
        ] {
            let (count, align) = (u128::from(numbers.0), u128::from(numbers.1));
            macro_rules! same {
                ($range:expr, $within:expr) => {{
                    let (range, within) = ($range, $within);
                    let fit = first_by_hand(view, within.clone(), (numbers.0, 1), false);
                    let aligned = first_by_hand(view, within.clone(), numbers, false);
                    let last = last_by_hand(view, within.clone(), numbers.0);
                    let run = first_by_hand(view, within, (numbers.0, 1), true);
                    if let Ok(len) = u8::try_from(count) {
                        assert_eq!(map.first_fit(range.clone(), len), fit);
                        assert_eq!(view.last_fit(range.clone(), len), last);
                        assert_eq!(chunked.last_fit(range.clone(), len), last);
                        assert_eq!(view.first_fit(range.clone(), len), fit);
                        assert_eq!(chunked.first_fit_unchanged(range.clone(), len), fit);
                        assert_eq!(space.first_fit(range.clone(), len), fit);
                    }
                    assert_eq!(view.first_fit_count(range.clone(), count), fit);
                    assert_eq!(view.first_fit_aligned(range.clone(), count, align), aligned);
                    assert_eq!(view.first_run(range.clone(), count), run);
                    assert_eq!(
                        chunked.first_fit_aligned(range.clone(), count, align),
                        aligned
                    );
                    assert_eq!(chunked.first_run(range.clone(), count), run);
                    assert_eq!(space.first_fit_count(range.clone(), count), fit);
                    assert_eq!(
                        space.first_fit_aligned(range.clone(), count, align),
                        aligned
                    );
                }};
            }
            same!(.., 0..256);
            for a in ENDS {
                let at = u16::from(a);
                same!(a.., at..256);
                same!(..a, 0..at);
                same!(..=a, 0..at + 1);
                same!(RangeSetRange::from(a..), at..256);
                for b in ENDS {
                    let end = u16::from(b);
                    same!(a..b, at..end);
                    same!(&(a..b), at..end);
                    same!(a..=b, at..if a <= b { end + 1 } else { end });
                }
            }
        }
    }
}

#[test]
fn offsets_of_trackers() {
    let ranges = [0..10, 20..30, u64::MAX - 5..u64::MAX];
    let mut small = Tracker::new(8);
    let mut large = ChunkedTracker::new(8).unwrap();
    for range in ranges {
        small.record(range.clone()).unwrap();
        large.record(range).unwrap();
    }
    let all: [RangeSetRange<u64>; 3] = [
        (10..20).into(),
        (30..u64::MAX - 5).into(),
        (u64::MAX..).into(),
    ];
    assert!(large.gaps(0..).eq(all.clone()));
    assert!(large.gaps(..).eq(all.clone()));
    assert!(small.gaps(0..).eq(all));
    assert!(large.gaps(..=10).eq([(10..11).into()]));
    assert!(large.gaps(5..25).eq(once(10..20)) && small.gaps(5..25).eq(once(10..20)));
    assert!(large.gaps(&(5..25)).eq([&10..&20]));
    assert!(large.gaps(u64::MAX..).eq([(u64::MAX..).into()]));
    assert!(large.gaps(u64::MAX - 3..u64::MAX).next().is_none());
    let empty = ChunkedTracker::new(8).unwrap();
    assert!(empty.gaps(7..).eq([(7..).into()]));
}

/// Sets of both kinds on both sides, and behind pointers.
#[test]
fn sets_of_either_kind_on_both_sides() {
    let sets = sets();
    let lists: Vec<RangeSet2<u8>> = sets
        .iter()
        .map(|it| RangeSetRef::new(it).unwrap().into())
        .collect();
    for (a, b) in lists
        .iter()
        .step_by(5)
        .flat_map(|a| lists.iter().map(move |b| (a, b)))
    {
        let (c, d) = (
            ChunkedRangeSet::from(a.clone()),
            ChunkedRangeSet::from(b.clone()),
        );
        macro_rules! alike {
            ($($call:ident($($op:expr)?) = $wanted:expr;)*) => {$({
                let wanted = $wanted;
                assert_eq!(a.$call(b $(, $op)?), wanted);
                assert_eq!(a.$call(&d $(, $op)?), wanted, "{a} and {b}");
                assert_eq!(c.$call(b $(, $op)?), wanted);
                assert_eq!(c.$call(&d $(, $op)?), wanted);
                assert_eq!(c.$call(&Box::new(&**b) $(, $op)?), wanted);
                assert_eq!(a.$call(&mut Rc::new(ChunkedSpace::from(d.clone())) $(, $op)?), wanted);
            })*};
        }
        alike! {
            intersects() = !(a & b).is_empty();
            is_disjoint() = (a & b).is_empty();
            is_subset() = (a - b).is_empty();
            is_superset() = (b - a).is_empty();
        }
        for op in [
            Connective::UNION,
            Connective::INTERSECTION,
            Connective::DIFFERENCE,
            Connective::SYMMETRIC_DIFFERENCE,
        ] {
            let made: RangeSet2<u8> = a.combine(b, op);
            alike! {
                merge_test(op) = !made.is_empty();
                merge_len(op) = made.boundaries().len();
            }
        }
        macro_rules! assigned {
            ($($sign:tt $assign:tt)*) => {$({
                let wanted = a $sign b;
                let (mut with, mut moved) = (a.clone(), a.clone());
                with $assign &d;
                moved $assign d.clone();
                assert_eq!((&with, &moved), (&wanted, &wanted));
                let (mut with, mut moved) = (c.clone(), c.clone());
                with $assign b;
                moved $assign b.clone();
                assert!(wanted == with && wanted == moved);
                assert!(wanted == c.clone() $sign b.clone());
            })*};
        }
        assigned!(| |= & &= - -= ^ ^=);
    }
}

#[test]
fn a_cursor_in_chunks() {
    let mut random = Random(91);
    let many = ChunkedRangeSet::from_ranges((0..3000u32).map(|i| 7 * i..7 * i + 1 + i % 6));
    let mut cursor = many.cursor();
    let mut value = 0;
    for turn in 0..20_000 {
        value = match turn % 50 {
            0 => random.below(22_000) as u32,
            1 => value.saturating_sub(9),
            _ => value + random.below(5) as u32,
        };
        assert_eq!(cursor.contains(&value), many.contains(&value), "{value}");
        assert_eq!(
            cursor.clone().contains(&(value / 2)),
            many.contains(&(value / 2))
        );
    }
    assert!(!ChunkedRangeSet::<u8>::new().cursor().contains(&7));
}

#[test]
fn ranges_that_are_turned_or_left_out_are_copied() {
    for boundaries in sets() {
        let view = RangeSetRef::new(&boundaries).unwrap();
        let chunked = ChunkedRangeSet::from(view);
        let mut all: Vec<Part> = view.iter().copied().collect();
        assert_eq!(chunked.last_member(), view.last_member());
        assert_eq!(
            view.last_member(),
            (0..=255).rfind(|value| view.contains(value))
        );
        for part in all.clone() {
            let inclusive = RangeInclusive::try_from(part.clone()).unwrap();
            assert!((0..=255).all(|value| inclusive.contains(&value) == part.contains(&value)));
            assert_eq!(Part::from(inclusive), part);
        }
        all.reverse();
        assert!(view.iter().rev().copied().eq(all.clone()));
        assert!(chunked.iter().rev().cloned().eq(all.clone()));
        assert_eq!(view.iter().rev().len(), all.len());
        all.retain(|part| part.contains(&2));
        assert!(view
            .iter()
            .filter(|part| part.contains(&2))
            .copied()
            .eq(all.clone()));
        assert!(chunked
            .iter()
            .rev()
            .filter(|part| part.contains(&2))
            .rev()
            .copied()
            .eq(all));
    }
}

#[test]
fn values_one_after_the_other() {
    let mut random = Random(92);
    for n in 0..300 {
        let step = 1 + random.below(3);
        let values: Vec<u8> = (0..n)
            .scan(random.below(256), |at, _| {
                *at += random.below(step + 1);
                Some(*at as u8)
            })
            .collect();
        let set = RangeSet2::from_values(values.iter().copied());
        assert!((0..=255).all(|value| set.contains(&value) == values.contains(&value)));
        assert_eq!(
            set,
            RangeSet2::from_ranges(values.iter().map(|&value| value..=value))
        );
    }
}

/// What a reader writes first, with the type that it gives.
#[test]
fn parts_have_the_kind_of_their_range() {
    let busy: RangeSet2<u32> = "9..11, 15..18".parse().unwrap();
    let free: Vec<std::ops::Range<u32>> = busy.gaps(8..20).collect();
    assert_eq!(free, [8..9, 11..15, 18..20]);
    let free: Vec<RangeSetRange<u32>> = busy.gaps(16..).collect();
    assert_eq!(free, [(18..).into()]);
    let mut left = busy.gaps(8..=20);
    let before = left.clone();
    assert_eq!(left.next(), Some((8..9).into()));
    assert_eq!(
        format!("{left:?} of {before:?}"),
        "[11..15, 18..21] of [8..9, 11..15, 18..21]"
    );
    assert_eq!(left.by_ref().count(), 2);
    assert_eq!((left.next(), left.next()), (None, None));
}
