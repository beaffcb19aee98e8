//! Calls that take ranges of any kind, beside a bitmap.

mod common;

use common::{bitmap, boundaries, pairs, set, Bitmap, Random};
use range_sets::tracker::{TrackError, Tracker};
use range_sets::{fallible, AnyRange, NextValue, RangeSet, RangeSet2, RangeSetRange, Within};
use std::fmt::Debug;
use std::ops::Bound::{self, Excluded, Included, Unbounded};
use std::ops::{Range, RangeInclusive};

/// The places of a range, the highest of which stands for all values above.
fn places(range: impl Iterator<Item = u8>) -> Bitmap {
    range.fold(0, |bits, i| bits | 1 << i)
}

/// Makes each call with a range on the set of a bitmap, where the range has the values of `within`.
fn each_call<R: AnyRange<u8> + Clone + Debug>(a: Bitmap, range: R, within: Bitmap) {
    let what = format!("{a:x} and {range:?}");
    let before: RangeSet2<u8> = set(a);
    let lacks_some = within & !a != 0;
    assert_eq!(before.contains_range(range.clone()), !lacks_some, "{what}");
    assert_eq!(
        before.intersects_range(range.clone()),
        within & a != 0,
        "{what}"
    );

    let changed = |change: &dyn Fn(&mut RangeSet2<u8>)| {
        let mut changed = before.clone();
        change(&mut changed);
        changed.boundaries().to_vec()
    };
    let (with, without) = (boundaries(a | within), boundaries(a & !within));
    assert_eq!(changed(&|set| set.insert(range.clone())), with, "{what}");
    assert_eq!(changed(&|set| set.remove(range.clone())), without, "{what}");
    let insert =
        |set: &mut RangeSet2<u8>| assert_eq!(set.insert_changed(range.clone()), lacks_some);
    assert_eq!(changed(&insert), with, "{what}");
    let remove =
        |set: &mut RangeSet2<u8>| assert_eq!(set.remove_changed(range.clone()), within & a != 0);
    assert_eq!(changed(&remove), without, "{what}");

    let mut fallibly = fallible::RangeSet::from(before.clone());
    assert_eq!(fallibly.insert_changed(range.clone()), Ok(lacks_some));
    assert_eq!(fallibly.boundaries(), with, "{what}");
    assert_eq!(fallibly.remove_changed(range.clone()), Ok(within != 0));
    assert_eq!(fallibly.boundaries(), boundaries(a & !within), "{what}");
    assert_eq!(fallibly.insert(range.clone()), Ok(()));
    assert_eq!(fallibly.remove(range.clone()), Ok(()));
    assert_eq!(fallibly.boundaries(), boundaries(a & !within), "{what}");

    let joined: RangeSet2<u8> = RangeSet::from_ranges([range.into()]);
    assert_eq!(bitmap(&joined), within, "{what}");
}

#[test]
fn ranges_of_any_kind() {
    let mut random = Random(43);
    for (a, _) in pairs().step_by(3) {
        let (start, end) = (random.below(63) as u8, random.below(63) as u8);
        each_call(a, start..end, places(start..end));
        each_call(a, start..=end, places(start..=end));
        each_call(a, start.., places(start..64));
        each_call(a, ..end, places(0..end));
        each_call(a, ..=end, places(0..=end));
        each_call(a, .., !0);
        each_call(a, RangeSetRange::from(start..end), places(start..end));
        each_call(a, RangeSetRange::from(start..), places(start..64));
    }
}

/// A range that was iterated to its end.
fn used_up(mut range: RangeInclusive<u8>) -> RangeInclusive<u8> {
    range.by_ref().for_each(drop);
    range
}

#[test]
#[allow(clippy::reversed_empty_ranges)]
fn empty_and_reversed_ranges_change_nothing() {
    for a in [0, 1, 0xff, 0x0ff0, !0, !1] {
        for range in [5..=3, 4..=3, 60..=0, used_up(3..=5), used_up(0..=0)] {
            each_call(a, range, 0);
        }
        for range in [5..3, 4..4, 60..0] {
            each_call(a, range, 0);
        }
        each_call(a, ..0, 0);
    }
}

#[test]
fn the_greatest_value_becomes_a_range_without_an_end() {
    let rows: [(RangeSet2<u8>, &[u8]); 5] = [
        ((3..=254).into(), &[3, 255]),
        ((3..=255).into(), &[3]),
        ((255..=255).into(), &[255]),
        ((..=255).into(), &[0]),
        ((..=0).into(), &[0, 1]),
    ];
    for (set, expected) in rows {
        assert_eq!(set.boundaries(), expected);
    }
    let rows: [(fallible::RangeSet2<u8>, &[u8]); 3] = [
        ((3..=255).try_into().unwrap(), &[3]),
        ((..=7).try_into().unwrap(), &[0, 8]),
        ([9..11, 2..5].try_into().unwrap(), &[2, 5, 9, 11]),
    ];
    for (set, expected) in rows {
        assert_eq!(set.boundaries(), expected);
    }
    assert!(RangeSet2::from(0u8..).contains_range(..=255));
    assert!(!RangeSet2::from(0u8..255).contains_range(..=255));
}

/// All values of a type one after the other, from the least on.
fn goes_through<T: NextValue + Copy + Debug>(all: impl Iterator<Item = T>) {
    let mut next = None;
    for value in all {
        assert!(next.map_or(true, |next| next == Some(value)), "{value:?}");
        next = Some(value.next_value());
    }
    assert_eq!(next, Some(None));
}

#[test]
fn next_values() {
    use std::num::{NonZeroU128, NonZeroU16, NonZeroU8, NonZeroUsize};
    use std::time::Duration;
    goes_through(u8::MIN..=u8::MAX);
    goes_through(i16::MIN..=i16::MAX);
    goes_through('\0'..=char::MAX);
    goes_through((1..=u8::MAX).map(|n| NonZeroU8::new(n).unwrap()));
    goes_through((1..=u16::MAX).map(|n| NonZeroU16::new(n).unwrap()));
    assert_eq!(i128::MAX.next_value(), None);
    assert_eq!((i128::MAX - 1).next_value(), Some(i128::MAX));
    assert_eq!((-1isize).next_value(), Some(0));
    assert_eq!(NonZeroU128::new(u128::MAX).unwrap().next_value(), None);
    assert_eq!(
        NonZeroUsize::new(1).unwrap().next_value(),
        NonZeroUsize::new(2)
    );
    assert_eq!(Duration::MAX.next_value(), None);
    assert_eq!(Duration::ZERO.next_value(), Some(Duration::from_nanos(1)));
    assert_eq!(
        Duration::new(7, 999_999_999).next_value(),
        Some(Duration::from_secs(8))
    );
}

#[test]
#[cfg(feature = "std")]
fn next_addresses() {
    use std::net::{Ipv4Addr, Ipv6Addr};
    let rows = [
        ([0, 0, 0, 0], Some([0, 0, 0, 1])),
        ([10, 0, 255, 255], Some([10, 1, 0, 0])),
        ([255, 255, 255, 254], Some([255, 255, 255, 255])),
        ([255, 255, 255, 255], None),
    ];
    for (address, next) in rows {
        assert_eq!(
            Ipv4Addr::from(address).next_value(),
            next.map(Ipv4Addr::from)
        );
    }
    let six = |text: &str| text.parse::<Ipv6Addr>().unwrap();
    assert_eq!(
        six("2001:db8::ffff:ffff").next_value(),
        Some(six("2001:db8:0:0:0:1::"))
    );
    assert_eq!(Ipv6Addr::from(u128::MAX).next_value(), None);
}

/// The longest stretches of ones: their starts, and their ends if they have one.
fn stretches(bits: Bitmap) -> Vec<(u8, Option<u8>)> {
    boundaries(bits)
        .chunks(2)
        .map(|both| (both[0], both.get(1).copied()))
        .collect()
}

/// What a part is: its first value, and the one after its last if there is one.
trait Part {
    fn ends(self) -> (u8, Option<u8>);
}

impl Part for Range<&u8> {
    fn ends(self) -> (u8, Option<u8>) {
        (*self.start, Some(*self.end))
    }
}

impl Part for RangeSetRange<&u8> {
    fn ends(self) -> (u8, Option<u8>) {
        (**self.start(), self.end().map(|&&end| end))
    }
}

impl Part for (Bound<&u8>, Bound<&u8>) {
    fn ends(self) -> (u8, Option<u8>) {
        let start = match self.0 {
            Included(start) => *start,
            Excluded(start) => panic!("a part after {start}"),
            Unbounded => 0,
        };
        match self.1 {
            Included(last) => (start, Some(last + 1)),
            Excluded(end) => (start, Some(*end)),
            Unbounded => (start, None),
        }
    }
}

/// Looks at the parts of a range, which has the values of `within`. A clone of what is left goes on
/// as the iterator does.
fn each_part<'a, R>(set: &'a RangeSet2<u8>, range: R, within: Bitmap)
where
    R: Within<'a, u8> + Clone,
    R::Parts: Clone + Debug,
    <R::Parts as Iterator>::Item: Part + Debug,
{
    let a = bitmap(set);
    for (mut parts, bits) in [
        (set.gaps(range.clone()), within & !a),
        (set.ranges_within(range), within & a),
    ] {
        let mut expected = stretches(bits).into_iter();
        loop {
            let left: Vec<_> = parts.clone().collect();
            assert_eq!(format!("{parts:?}"), format!("{left:?}"));
            assert!(
                left.into_iter().map(Part::ends).eq(expected.clone()),
                "{a:x}, {within:x}"
            );
            assert_eq!(parts.next().map(Part::ends), expected.next());
            if expected.len() == 0 {
                break;
            }
        }
        assert!(parts.next().is_none() && parts.next().is_none());
    }
}

#[test]
fn parts_of_ranges_of_any_kind() {
    let mut random = Random(44);
    for (a, _) in pairs().step_by(3) {
        let set: RangeSet2<u8> = set(a);
        let (start, end) = (random.below(63) as u8, random.below(63) as u8);
        each_part(&set, &start..&end, places(start..end));
        each_part(&set, &start..=&end, places(start..=end));
        each_part(&set, &start.., places(start..64));
        each_part(&set, ..&end, places(0..end));
        each_part(&set, ..=&end, places(0..=end));
        each_part(&set, .., !0);
        each_part(&set, ..&0, 0);
        each_part(&set, ..=&0, 1);
    }
}

#[test]
fn whole_ranges_that_overlap() {
    let mut random = Random(45);
    for (a, _) in pairs().step_by(3) {
        let set: RangeSet2<u8> = set(a);
        let (start, end) = (random.below(63) as u8, random.below(63) as u8);
        let meets = |&(from, to): &(u8, Option<u8>)| {
            start < end && from < end && to.map_or(true, |to| start < to)
        };
        let expected: Vec<_> = stretches(a).into_iter().filter(meets).collect();
        let found: Vec<_> = set.overlapping(&start..&end).map(Part::ends).collect();
        assert_eq!(found, expected, "{set:?} and {start}..{end}");
    }
}

#[test]
fn ends_and_the_order_of_ranges() {
    let sorted: [RangeSetRange<u8>; 5] = [
        (3..3).into(),
        (3..9).into(),
        (3..).into(),
        (4..5).into(),
        (4..).into(),
    ];
    for (i, range) in sorted.iter().enumerate() {
        for (j, other) in sorted.iter().enumerate() {
            assert_eq!(range.cmp(other), i.cmp(&j));
            assert_eq!(range.partial_cmp(other), Some(i.cmp(&j)));
        }
    }
    let ends: Vec<_> = sorted
        .iter()
        .map(|it| (*it.start(), it.end().copied()))
        .collect();
    assert_eq!(
        ends,
        [
            (3, Some(3)),
            (3, Some(9)),
            (3, None),
            (4, Some(5)),
            (4, None)
        ]
    );
    assert_eq!(Range::try_from(sorted[1].clone()), Ok(3..9));
    assert_eq!(Range::try_from(sorted[2].clone()), Err(3..));
}

#[test]
fn sets_of_lists_of_ranges() {
    let ranges = [15..18, 9..11, 10..12, 7..7];
    let expected = [9u8, 12, 15, 18];
    assert_eq!(RangeSet2::from(ranges.clone()).boundaries(), expected);
    assert_eq!(
        ranges.iter().collect::<RangeSet2<u8>>().boundaries(),
        expected
    );
    let mut set = RangeSet2::from(0u8..1);
    set.extend(&ranges);
    assert_eq!(set.boundaries(), [0, 1, 9, 12, 15, 18]);
    let inclusive: RangeSet2<u8> = [15..=17, 9..=11].into_iter().collect();
    assert_eq!(inclusive.boundaries(), expected);
    let values = [17, 9, 10, 16, 15, 11, 9];
    let one_by_one: RangeSet2<u8> = values.map(|value| value..=value).into_iter().collect();
    assert_eq!(one_by_one.boundaries(), expected);
    let mut fallibly = fallible::RangeSet2::from_ranges(&ranges).unwrap();
    assert_eq!(fallibly.boundaries(), expected);
    fallibly.extend([..=3]).unwrap();
    assert_eq!(fallibly.boundaries(), [0, 4, 9, 12, 15, 18]);
}

#[test]
fn a_tracker_takes_ranges_of_any_kind() {
    let mut file = Tracker::new(8);
    file.record(..4).unwrap();
    file.record(10..=19).unwrap();
    file.record(30..).unwrap();
    assert_eq!(
        format!("{file:?}"),
        format!("{{0..4, 10..20, 30..{}}}", u64::MAX)
    );
    assert!(file.has(30..) && file.has(30..=u64::MAX) && file.has(..=3) && !file.has(29..));
    assert!(file
        .gaps(&19..)
        .eq([RangeSetRange::from(&20..&30), (&u64::MAX..).into()]));
    assert!(file.gaps(..=&4).eq([(Included(&4), Included(&4))]));
    assert!(file.gaps(&0..&12).eq([&4..&10]));
    file.forget(40..).unwrap();
    file.forget(..=1).unwrap();
    assert_eq!(format!("{file:?}"), "{2..4, 10..20, 30..40}");
    let mut copy = file.clone();
    file.forget(..).unwrap();
    assert_eq!((file.covered(), copy.covered()), (0, 22));
    copy.record(50..51).unwrap();
    assert_eq!(format!("{copy:?}"), "{2..4, 10..20, 30..40, 50..51}");
    let refused = Err(TrackError::TooMany { boundaries: 10 });
    assert_eq!(copy.record(60..61), refused);
}
