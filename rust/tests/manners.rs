//! What collections of Rust have: operators with borrowed sets, iterators that are cloned and
//! shown, room, whole ranges taken out.

mod common;

use common::{bitmap, boundaries, one_in, pairs, set, Bitmap, Operation, OPERATIONS};
use range_sets::{
    fallible, ChunkedRangeSet, ChunkedSpace, RangeSet, RangeSet2, RangeSetRange, RangeSetRef,
};
use std::fmt::Debug;

static NOTHING: RangeSet<[String; 4]> = RangeSet::empty();
const NOTHING_FALLIBLE: fallible::RangeSet2<u8> = fallible::RangeSet::empty();

/// What a program may have written before `|=` took references.
#[test]
fn sets_on_the_right_take_their_room_from_the_left() {
    let mut busy: RangeSet<[u8; 3]> = RangeSet::from(1..5);
    busy |= RangeSet::from(20..);
    busy -= RangeSet::from(..2);
    busy &= RangeSet::from(0..30);
    busy ^= RangeSet::from(4..6);
    assert_eq!(busy.boundaries(), [2, 4, 5, 6, 20, 30]);
    assert_eq!((busy & RangeSet::from(3..=3)).boundaries(), [3, 4]);
}

#[test]
fn empty_sets_as_constants() {
    assert!(NOTHING.is_empty() && NOTHING_FALLIBLE.is_empty());
    let mut set = NOTHING_FALLIBLE;
    set.insert(3..5).unwrap();
    assert_eq!(set.boundaries(), [3, 5]);
}

#[test]
fn operators_with_borrowed_sets() {
    for (a, b) in pairs().step_by(2) {
        let (left, right): (RangeSet2<u8>, RangeSet2<u8>) = (set(a), set(b));
        let (one, other): (&RangeSetRef<u8>, &RangeSetRef<u8>) = (&left, &right);
        for op in OPERATIONS {
            let (mut by_set, mut by_view) = (left.clone(), left.clone());
            let of_views = match op {
                Operation::Union => {
                    by_set |= &right;
                    by_view |= other;
                    one | other
                }
                Operation::Intersection => {
                    by_set &= &right;
                    by_view &= other;
                    one & other
                }
                Operation::Difference => {
                    by_set -= &right;
                    by_view -= other;
                    one - &right
                }
                Operation::SymmetricDifference => {
                    by_set ^= &right;
                    by_view ^= other;
                    one ^ other
                }
            };
            let expected = boundaries(op.of(a, b));
            for found in [by_set, by_view, of_views] {
                assert_eq!(found.boundaries(), expected, "{op:?} of {a:x} and {b:x}");
            }
        }
        assert_eq!((!one).boundaries(), boundaries(!a));
    }
}

/// Clones an iterator at each step, from both ends: the clone gives what the iterator gives, and is
/// shown as that.
fn clones_alike<I>(ranges: I)
where
    I: DoubleEndedIterator + ExactSizeIterator + Clone + Debug,
    I::Item: PartialEq + Debug,
{
    let (mut forwards, mut backwards) = (ranges.clone(), ranges);
    while forwards.len() > 0 {
        let left: Vec<_> = forwards.clone().collect();
        assert_eq!(format!("{forwards:?}"), format!("{left:?}"));
        assert_eq!(backwards.clone().rev().count(), backwards.len());
        assert_eq!(forwards.next(), left.into_iter().next());
        let last = backwards.clone().last();
        assert_eq!(backwards.next_back(), last);
    }
    assert_eq!(
        (format!("{forwards:?}"), backwards.len()),
        ("[]".to_string(), 0)
    );
}

/// The same of one that goes forwards alone, or doesn't know how many are left.
fn clones_forwards<I>(mut parts: I)
where
    I: Iterator + Clone + Debug,
    I::Item: PartialEq + Debug,
{
    loop {
        let left: Vec<_> = parts.clone().collect();
        assert_eq!(format!("{parts:?}"), format!("{left:?}"));
        let next = parts.next();
        assert_eq!(next, left.into_iter().next());
        if next.is_none() {
            return;
        }
    }
}

#[test]
fn iterators_are_cloned_and_shown() {
    for (a, _) in pairs().step_by(5) {
        let set: RangeSet2<u8> = set(a);
        clones_alike(set.iter());
        clones_alike(set.clone().into_iter());
        clones_forwards(set.gaps(&9..&40));
        clones_forwards(set.gaps(&9..));
        clones_forwards(set.gaps(..=&40));
        clones_forwards(set.overlapping(&9..&40));
        clones_forwards((&set & RangeSet2::from(0..63)).members());
        let chunked = ChunkedRangeSet::from(set);
        clones_forwards(chunked.iter());
        clones_forwards(chunked.ranges_within(&9..&40));
        clones_forwards(chunked.gaps(&9..&40));
    }
    let texts: RangeSet2<String> = ("a".to_string()..).into();
    assert_eq!(format!("{:?}", texts.iter()), r#"["a"..]"#);
    assert_eq!(format!("{:?}", texts.into_iter()), r#"["a"..]"#);
}

#[test]
fn spaces_are_collected_extended_and_compared() {
    for (a, b) in pairs().step_by(5) {
        let (left, right): (RangeSet2<u8>, RangeSet2<u8>) = (set(a), set(b));
        let mut space: ChunkedSpace<u8> = left.clone().into_iter().collect();
        let mut same = fallible::ChunkedSpace::from_ranges(left.clone()).unwrap();
        assert_eq!(same, ChunkedSpace::from_ranges(left.clone()).into());
        assert_eq!(space.to_string(), left.to_string());
        assert_eq!(space == ChunkedSpace::from_ranges(right.clone()), a == b);

        let (before, kept) = (space.clone(), same.try_clone().unwrap());
        space.extend(right.clone());
        same.extend(right.clone()).unwrap();
        assert_eq!(*space.as_set(), ChunkedRangeSet::from(&left | &right));
        assert_eq!((&*same, same == kept), (&space, space == before));
        assert_eq!((before.as_set(), &*kept), (&left.into(), &before));
    }
}

#[test]
fn room() {
    let mut set: RangeSet2<u8> = RangeSet::with_capacity(20);
    assert!(set.capacity() >= 20 && set.is_empty());
    set.insert(3..9);
    set.reserve(30);
    assert!(set.capacity() >= 32);
    let capacity = set.capacity();
    set.clear();
    assert_eq!((set.capacity(), set.is_empty()), (capacity, true));
    set |= RangeSet::from([1..2, 3..4]);
    set.shrink_to_fit();
    assert_eq!((set.capacity(), set.boundaries()), (4, &[1, 2, 3, 4][..]));
    set.pop_last();
    set.shrink_to_fit();
    assert_eq!((set.capacity(), set.boundaries()), (2, &[1, 2][..]));

    let mut set: fallible::RangeSet2<u8> = fallible::RangeSet::with_capacity(20).unwrap();
    assert!(set.capacity() >= 20);
    set.reserve(40).unwrap();
    assert!(set.capacity() >= 40);
    set.clear();
    set.shrink_to_fit();
    assert_eq!(set.capacity(), 2);
    assert!(fallible::RangeSet2::<u64>::with_capacity(usize::MAX).is_err());
    assert!(set.reserve(usize::MAX).is_err());
}

/// More room than a list can have is a panic, as std's lists have it.
#[cfg(panic = "unwind")]
#[test]
fn room_past_any_list() {
    let rows: [(&str, fn()); 3] = [
        ("with_capacity", || {
            drop(RangeSet2::<u32>::with_capacity(usize::MAX))
        }),
        ("reserve", || {
            RangeSet2::<u32>::from(0..10).reserve(usize::MAX / 4)
        }),
        ("reserve past usize", || {
            RangeSet2::<u8>::from(0..10).reserve(usize::MAX)
        }),
    ];
    for (name, call) in rows {
        let said = std::panic::catch_unwind(call).unwrap_err();
        let said = said.downcast_ref::<&str>().copied();
        assert_eq!(said, Some("capacity overflow"), "{name}");
    }
}

/// The members of the first range of a bitmap, and those of the last.
fn first_and_last(bits: Bitmap) -> (Bitmap, Bitmap) {
    let above = |start: u8| !0 << start;
    let of = |both: &[u8]| above(both[0]) & !both.get(1).map_or(0, |&end| above(end));
    let list = boundaries(bits);
    let ranges = || list.chunks(2);
    (ranges().next().map_or(0, of), ranges().last().map_or(0, of))
}

#[test]
fn whole_ranges_taken_out() {
    for (a, _) in pairs().step_by(2) {
        let before: RangeSet2<u8> = set(a);
        let (first, last) = first_and_last(a);
        for ((range, left), taken) in [
            (taking(&before, RangeSet::pop_first), first),
            (taking(&before, RangeSet::pop_last), last),
        ] {
            assert_eq!(left, boundaries(a & !taken));
            let range: RangeSet2<u8> = range.into_iter().collect();
            assert_eq!(range.boundaries(), boundaries(taken));
        }
        let mut left = fallible::RangeSet::from(before);
        let mut taken = Vec::new();
        while let Some(range) = left.pop_first() {
            taken.push(range);
            taken.extend(left.pop_last());
        }
        assert_eq!(bitmap(&taken.into_iter().collect::<RangeSet2<u8>>()), a);
    }
}

type Taken = (Option<RangeSetRange<u8>>, Vec<u8>);

fn taking(
    before: &RangeSet2<u8>,
    take: fn(&mut RangeSet2<u8>) -> Option<RangeSetRange<u8>>,
) -> Taken {
    let mut set = before.clone();
    (take(&mut set), set.boundaries().to_vec())
}

#[test]
fn ranges_that_are_kept() {
    for (a, keep) in pairs().step_by(2) {
        let before: RangeSet2<u8> = set(a);
        let ranges: Vec<RangeSetRange<u8>> = before.iter().map(|range| range.cloned()).collect();
        let is_kept = |i: usize| keep >> (i % 64) & 1 == 1;
        let kept: Vec<u8> = (ranges.iter().enumerate().filter(|&(i, _)| is_kept(i)))
            .flat_map(|(_, range)| [Some(*range.start()), range.end().copied()])
            .flatten()
            .collect();
        let (mut set, mut calls) = (before.clone(), 0);
        set.retain(|range| {
            assert_eq!(range, ranges[calls].as_ref());
            calls += 1;
            is_kept(calls - 1)
        });
        assert_eq!((set.boundaries(), calls), (&kept[..], ranges.len()));
        let (mut set, mut calls) = (fallible::RangeSet::from(before), 0..);
        set.retain(|_| is_kept(calls.next().unwrap()));
        assert_eq!(set.boundaries(), kept);
    }
}

#[test]
fn sets_split_in_two_and_put_together() {
    for (a, b) in pairs().step_by(3) {
        let before: RangeSet2<u8> = set(a);
        for at in (0..63).step_by(7 * one_in()) {
            let below: Bitmap = (1 << at) - 1;
            let mut set = before.clone();
            let above = set.split_off(&at);
            assert_eq!(set.boundaries(), boundaries(a & below));
            assert_eq!(above.boundaries(), boundaries(a & !below));
            let mut set = fallible::RangeSet::from(before.clone());
            let mut above = set.split_off(&at).unwrap();
            assert_eq!((bitmap(&set), bitmap(&above)), (a & below, a & !below));
            above.append(&mut set).unwrap();
            assert_eq!((bitmap(&set), bitmap(&above)), (0, a));
        }
        let (mut one, mut other) = (before, set(b));
        one.append(&mut other);
        assert_eq!((bitmap(&one), bitmap(&other)), (a | b, 0));
    }
}
