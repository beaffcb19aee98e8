//! Sets of elements that own memory, that have no default, no text or no copy, and whose order is
//! one of their own.

mod common;

use common::{boundaries, pairs, Bitmap, Operation, OPERATIONS};
use range_sets::{
    fallible, Array, ChunkedRangeSet, ChunkedSpace, Countable, FromPlace, RangeSet, RangeSet2,
    RangeSetEntry, RangeSetRef,
};
use std::cmp::Ordering;
use std::num::NonZeroU8;
use std::time::Duration;

/// The element that stands for a place.
type Element<'a, T> = &'a dyn Fn(u8) -> T;

/// The set of a bitmap, where place `i` stands for the element `of(i)`.
fn set_of<T: Ord>(bits: Bitmap, of: Element<T>) -> RangeSet2<T> {
    RangeSet::new(boundaries(bits).into_iter().map(of).collect()).expect("they are sorted")
}

fn is<T: Ord>(set: &RangeSetRef<T>, bits: Bitmap, of: Element<T>) -> bool {
    let expected: Vec<T> = boundaries(bits).into_iter().map(of).collect();
    set.boundaries() == expected && (0..64).all(|i| set.contains(&of(i)) == (bits >> i & 1 == 1))
}

fn assign<T: Ord>(op: Operation, set: &mut RangeSet2<T>, that: RangeSet2<T>) {
    match op {
        Operation::Union => *set |= that,
        Operation::Intersection => *set &= that,
        Operation::Difference => *set -= that,
        Operation::SymmetricDifference => *set ^= that,
    }
}

/// What asks for an order alone.
fn moves<T: Ord>(of: Element<T>) {
    for (a, b) in pairs().step_by(61) {
        for op in OPERATIONS {
            let mut set = set_of(a, of);
            assign(op, &mut set, set_of(b, of));
            assert!(is(&set, op.of(a, b), of), "{op:?} of {a:x} and {b:x}");
        }
        let (start, end) = (
            b.trailing_zeros().min(40) as u8,
            b.count_ones().min(63) as u8,
        );
        let bits: Bitmap = (start..end).fold(0, |bits, i| bits | 1 << i);
        let mut set = set_of(a, of);
        set.insert(of(start)..of(end));
        assert!(is(&set, a | bits, of));
        set.remove(of(start)..of(end));
        assert!(is(&set, a & !bits, of));
        let unsorted = boundaries(a).into_iter().rev().chain(boundaries(a)).map(of);
        assert!(is(&RangeSet2::from_unsorted(unsorted), a, of));
        let ranges = set_of(b, of).into_iter().chain(set_of(a, of));
        assert!(is(&ranges.collect::<RangeSet2<T>>(), a | b, of));
    }
}

/// What also asks for clones.
fn clones<T: Ord + Clone>(of: Element<T>) {
    for (a, b) in pairs().step_by(61) {
        let (left, right) = (set_of(a, of), set_of(b, of));
        assert!(is(&(&left | &right), a | b, of));
        assert!(is(&(&left & &right), a & b, of));
        assert!(is(&(&left - &right), a & !b, of));
        assert!(is(&(&left ^ &right), a ^ b, of));
        let mut with = left.clone();
        with.symmetric_difference_with(&right);
        assert!(is(&with, a ^ b, of));
        with.union_with(&right);
        assert!(is(&with, a | b, of));
        with.intersection_with(&left);
        assert!(is(&with, a, of));
        with.difference_with(&right);
        assert!(is(&with, a & !b, of));
        assert!(is(&RangeSet2::union_all([&right, &left]), a | b, of));
        assert!(is(&left, a, of));
    }
    moves(of);
}

/// What also asks for copies that may be refused.
fn copies<T: Clone + fallible::EntryClone>(of: Element<T>) {
    for (a, b) in pairs().step_by(61) {
        let left = fallible::RangeSet::from(set_of(a, of));
        let right = fallible::RangeSet::from(set_of(b, of));
        assert!(is(&left.union::<[T; 2]>(&right).unwrap(), a | b, of));
        assert!(is(&left.intersection::<[T; 2]>(&right).unwrap(), a & b, of));
        assert!(is(&left.difference::<[T; 2]>(&right).unwrap(), a & !b, of));
        assert!(is(
            &left.symmetric_difference::<[T; 2]>(&right).unwrap(),
            a ^ b,
            of
        ));
        let mut with = left.try_clone().unwrap();
        with.symmetric_difference_with(&right).unwrap();
        assert!(is(&with, a ^ b, of));
        assert!(is(
            &fallible::RangeSet2::union_all([&right, &left]).unwrap(),
            a | b,
            of
        ));
    }
    clones(of);
}

/// What also asks for a least value, which is that of place 0.
fn values<T: RangeSetEntry + Clone>(of: Element<T>) {
    for (a, _) in pairs().step_by(61) {
        let set = set_of(a, of);
        assert!(is(&!&set, !a, of));
        assert!(is(&!set, !a, of));
    }
    assert!(RangeSet2::<T>::all().is_all());
    assert!(T::min_value() == of(0) && of(0).is_min_value() && !of(1).is_min_value());
    assert!(is(&RangeSet2::from(..of(9)), 0x1ff, of));
    assert!(is(&RangeSet2::from(..of(0)), 0, of));
}

#[test]
fn owned_and_borrowed_texts() {
    let text = |i: u8| {
        if i == 0 {
            String::new()
        } else {
            format!("{i:02}, and some more that lies on the heap")
        }
    };
    copies(&text);
    values(&text);
    let texts: Vec<String> = (0..64).map(text).collect();
    copies(&|i| texts[usize::from(i)].as_str());
    values(&|i| texts[usize::from(i)].as_str());
}

#[test]
fn lists_and_slices() {
    let list = |i: u8| {
        if i == 0 {
            Vec::new()
        } else {
            vec![format!("{i:02}")]
        }
    };
    copies(&list);
    values(&list);
    let longest = [1u16; 64];
    copies(&|i| &longest[..usize::from(i)]);
    values(&|i| &longest[..usize::from(i)]);
}

#[test]
fn options() {
    let option = |i: u8| i.checked_sub(1).map(|i| format!("{i:02}"));
    copies(&option);
    values(&option);
}

#[test]
fn numbers_and_characters() {
    copies(&|i| NonZeroU8::new(i + 1).unwrap());
    values(&|i| NonZeroU8::new(i + 1).unwrap());
    copies(&|i| i128::MIN + i128::from(i));
    values(&|i| i128::MIN + i128::from(i));
    copies(&char::from);
    values(&char::from);
}

/// A type with nothing but an order, which is that of its numbers turned round.
struct Bare(Box<u8>);

impl PartialEq for Bare {
    fn eq(&self, other: &Self) -> bool {
        self.0 == other.0
    }
}

impl Eq for Bare {}

impl PartialOrd for Bare {
    fn partial_cmp(&self, other: &Self) -> Option<Ordering> {
        Some(self.cmp(other))
    }
}

impl Ord for Bare {
    fn cmp(&self, other: &Self) -> Ordering {
        other.0.cmp(&self.0)
    }
}

impl RangeSetEntry for Bare {
    fn min_value() -> Self {
        Bare(Box::new(u8::MAX))
    }

    fn is_min_value(&self) -> bool {
        *self.0 == u8::MAX
    }
}

#[test]
fn a_type_with_an_order_alone() {
    let of: Element<Bare> = &|i| Bare(Box::new(u8::MAX - i));
    moves(of);
    for (a, _) in pairs().step_by(61) {
        assert!(is(&!set_of(a, of), !a, of));
    }
    assert!(is(&RangeSet2::from(..of(9)), 0x1ff, of));
    assert!(RangeSet2::<Bare>::from(true).is_all());
}

/// Even numbers first, then the odd ones from the highest down.
#[derive(Clone, PartialEq, Eq)]
struct Wild(u8);

impl Wild {
    fn key(&self) -> (bool, u8) {
        if self.0 % 2 == 0 {
            (false, self.0)
        } else {
            (true, u8::MAX - self.0)
        }
    }
}

impl PartialOrd for Wild {
    fn partial_cmp(&self, other: &Self) -> Option<Ordering> {
        Some(self.cmp(other))
    }
}

impl Ord for Wild {
    fn cmp(&self, other: &Self) -> Ordering {
        self.key().cmp(&other.key())
    }
}

#[test]
fn a_wild_order() {
    clones(&|i| {
        if i < 32 {
            Wild(2 * i)
        } else {
            Wild(63 - 2 * (i - 32))
        }
    });
}

/// A number with a fraction, in the total order of such numbers. The crate ordered-float has such
/// wrappers.
#[derive(Clone, Copy, PartialEq)]
struct Level(f64);

impl Eq for Level {}

impl PartialOrd for Level {
    fn partial_cmp(&self, other: &Self) -> Option<Ordering> {
        Some(self.cmp(other))
    }
}

impl Ord for Level {
    fn cmp(&self, other: &Self) -> Ordering {
        self.0.total_cmp(&other.0)
    }
}

#[test]
fn floats_in_an_order() {
    clones(&|i| Level(f64::from(i) / 8.0 - 3.0));
    let mut safe: RangeSet2<Level> = (Level(-0.5)..Level(1.25)).into();
    safe.insert(Level(7.5)..);
    safe.remove(Level(1.0)..Level(1.125));
    for (level, is_safe) in [
        (f64::NEG_INFINITY, false),
        (-0.5, true),
        (0.0, true),
        (1.0, false),
        (1.125, true),
        (1.25, false),
        (1e300, true),
        (f64::INFINITY, true),
    ] {
        assert_eq!(safe.contains(&Level(level)), is_safe, "{level}");
    }
}

#[test]
fn durations() {
    let duration = |i: u8| Duration::new(u64::from(i / 2), u32::from(i % 2) * 999_999_999);
    copies(&duration);
    values(&duration);
}

#[test]
#[cfg(feature = "std")]
fn addresses() {
    use std::net::{Ipv4Addr, Ipv6Addr};
    copies(&|i| Ipv4Addr::from(u32::from(i)));
    values(&|i| Ipv4Addr::from(u32::from(i)));
    copies(&|i| Ipv6Addr::from(u128::from(i)));
    values(&|i| Ipv6Addr::from(u128::from(i)));

    let last = Ipv4Addr::BROADCAST;
    let private = Ipv4Addr::new(10, 0, 0, 0)..Ipv4Addr::new(11, 0, 0, 0);
    let mut set: RangeSet2<Ipv4Addr> = private.into();
    set.insert(Ipv4Addr::new(192, 168, 0, 0)..=Ipv4Addr::new(192, 168, 255, 255));
    assert_eq!(set.covered(), Some((1 << 24) + (1 << 16)));
    // A block up to the greatest address has no end, and so has the set.
    set.insert(Ipv4Addr::new(224, 0, 0, 0)..=last);
    assert_eq!((set.covered(), set.contains(&last)), (None, true));
    assert_eq!(
        (!set).covered(),
        Some((1 << 32) - (1 << 24) - (1 << 16) - (1 << 29))
    );
    let six: RangeSet2<Ipv6Addr> = (..Ipv6Addr::from(1 << 100)).into();
    assert_eq!(six.covered(), Some(1 << 100));
}

#[test]
fn elements_without_size() {
    fn each_form<A: Array<Item = ()>>() {
        let all = || RangeSet::<A>::from(()..);
        let (mut set, mut none) = (all(), RangeSet::<A>::empty());
        set |= all();
        none |= all();
        assert_eq!(
            (set.boundaries(), none.boundaries()),
            (&[()][..], &[()][..])
        );
        set.union_with(&none);
        assert_eq!(&set & &none, all());
        set ^= none;
        assert!(set.is_empty() && RangeSet::<A>::from(()..()).is_empty());
        assert_eq!(RangeSet::<A>::from_unsorted([(); 30]), all());
    }
    each_form::<[(); 0]>();
    each_form::<[(); 2]>();
}

#[test]
fn sets_go_where_their_elements_may() {
    fn is_send_and_sync<T: Send + Sync>() {}
    is_send_and_sync::<RangeSet<[String; 4]>>();
    is_send_and_sync::<fallible::RangeSet2<u8>>();
    is_send_and_sync::<&RangeSetRef<String>>();
}

/// A length of the element's own type finds the same free values as their number.
#[test]
fn lengths_with_a_sign_and_of_time() {
    let busy: RangeSet2<i8> = "-128..-100, -3..4, 10..".parse().unwrap();
    let mut space = ChunkedSpace::from(ChunkedRangeSet::from(&*busy));
    for (start, end) in [(-128, 127), (-5, 10), (0, 3), (4, -4)] {
        for len in i8::MIN..=i8::MAX {
            let expected = u128::try_from(len)
                .ok()
                .and_then(|count| busy.first_fit_count(start..end, count));
            assert_eq!(
                busy.first_fit(start..end, len),
                expected,
                "{len} within {start}..{end}"
            );
            assert_eq!(space.first_fit(start..end, len), expected);
            assert_eq!(space.first_fit_unchanged(start..end, len), expected);
        }
    }
    assert_eq!(
        RangeSet2::from(0i128..5).first_fit(i128::MIN..9, i128::MAX),
        Some(i128::MIN)
    );

    let seconds = Duration::from_secs;
    let busy: RangeSet2<Duration> = [seconds(1)..seconds(3), seconds(4)..seconds(9)].into();
    assert_eq!(busy.first_fit(.., seconds(1)), Some(Duration::ZERO));
    assert_eq!(busy.first_fit(seconds(1).., seconds(1)), Some(seconds(3)));
    let longer = seconds(1) + Duration::from_nanos(1);
    assert_eq!(busy.first_fit(.., longer), Some(seconds(9)));
    assert_eq!(busy.first_fit(..seconds(10), longer), None);
    assert_eq!(
        busy.first_fit_aligned(seconds(9).., 1, 7_000_000_000),
        Some(seconds(14))
    );
}

/// The numbers whose width is the processor's, of which the tables know 64 bits alone.
#[test]
fn numbers_as_wide_as_an_address_are_counted() {
    let most = usize::MAX;
    assert_eq!(usize::from_place(most.place()), Some(most));
    assert_eq!(usize::from_place(most.place() + 1), None);
    assert_eq!(isize::from_place(most.place()), Some(isize::MAX));
    assert_eq!(isize::from_place(most.place() + 1), None);
    // Multiples are counted from 0, which no power of two shows.
    let busy: RangeSet2<isize> = (-3..1).into();
    assert_eq!(busy.first_fit_aligned(-20..20, 4, 7), Some(-14));
    assert_eq!(busy.first_fit_aligned(-6..20, 4, 7), Some(7));
}

#[test]
fn durations_and_non_zero_numbers_are_counted() {
    let busy: RangeSet2<Duration> = (Duration::from_millis(1)..Duration::new(2, 5)).into();
    assert_eq!(
        (busy.covered(), (!&busy).covered()),
        (Some(1_999_000_005), None)
    );
    assert_eq!(busy.rank(&Duration::from_secs(1)), 999_000_000);
    assert_eq!(busy.select(999_000_000), Some(Duration::from_secs(1)));
    assert_eq!(busy.members().next_back(), Some(Duration::new(2, 4)));
    assert_eq!(
        busy.prev_gap(&Duration::from_secs(1)),
        Some(Duration::new(0, 999_999))
    );
    assert_eq!(
        (
            Duration::MAX.place(),
            Duration::from_place(Duration::MAX.place() + 1)
        ),
        ((1 << 64) * 1_000_000_000 - 1, None)
    );

    let number = |n| NonZeroU8::new(n).unwrap();
    assert_eq!((number(1).place(), number(255).place()), (0, 254));
    let set = RangeSet2::from(number(1)..number(4)) | RangeSet2::from(number(9)..number(255));
    assert_eq!(
        (
            set.covered(),
            set.rank(&number(10)),
            set.first().unwrap().len()
        ),
        (Some(249), 4, Some(3))
    );
    assert_eq!(
        set.first_fit_count(number(1)..number(20), 5),
        Some(number(4))
    );
    assert_eq!(set.first_fit_count(number(1)..number(20), 6), None);
}
