//! Sets of one list: searches, changes, and many ranges or values.

use super::{count, digits, each, ranges, set, Counted};
use range_sets::fallible::{AllocError, EntryClone};
use range_sets::{ChunkedRangeSet, RangeSet2, RangeSetRange, WholeNumber};
use std::fmt::Write;
use std::iter;

type Set = RangeSet2<Counted>;

const RANGES: u32 = 2048;

/// A set of `RANGES` ranges, and how many comparisons a search of its boundaries may make.
fn many() -> (Set, usize) {
    let set = ranges(RANGES).collect::<Set>();
    let search = digits(set.boundaries().len());
    (set, search)
}

#[test]
fn one_search() {
    let (set, search) = many();
    each! { &set, RANGES, search; |it, from, to|
        it.contains(&from);
        it.range_at(&from);
        it.next_member(&from);
        it.next_gap(&from);
        it.prev_member(&from);
        it.prev_gap(&from);
        it.rank(&from);
        it.split(from).0.is_empty();
        it.contains_range(from..);
        it.intersects_range(from..);
        it.overlapping(from..).count();
        it.gaps(&from..).count();
        it.gaps(from..).count();
        it.ranges_within(from..).count();
        it.gaps(..&to).count();
        it.gaps(..=&to).count();
        it.ranges_within(&from..).count();
        it.ranges_within(..&to).count();
        it.ranges_within(..=&to).count();
    }
    each! { &set, RANGES, search + 2; |it, from, to|
        it.contains_range(from..to);
        it.intersects_range(from..to);
    }
}

/// Values next to each other in ascending order, however many boundaries there are.
#[test]
fn a_cursor_in_ascending_order() {
    let (set, search) = many();
    let last = set.boundaries()[set.boundaries().len() - 1].0;
    for step in 1..100 {
        let mut cursor = set.cursor();
        let mut passed = 0;
        for value in (0..last + 3).step_by(step) {
            let now = set.boundaries().partition_point(|it| it.0 <= value);
            let made = count(|| cursor.contains(&Counted(value)));
            assert!(made <= 2 * digits(now - passed) + 2, "{made} for {value}");
            passed = now;
        }
    }
    let mut cursor = set.cursor();
    for value in (0..last + 3).rev() {
        assert!(count(|| cursor.contains(&Counted(value))) <= 2 * search + 2);
    }
}

#[test]
fn two_searches() {
    let (set, search) = many();
    each! { &set, RANGES, 2 * search + 1; |it, from, to|
        it.overlapping(&from..&to).count();
        it.gaps(&from..&to).count();
        it.gaps(from..to).count();
        it.ranges_within(from..to).count();
        it.gaps(&from..=&to).count();
        it.ranges_within(&from..&to).count();
        it.ranges_within(&from..=&to).count();
        it.first_fit_count(from..to, 6);
        it.first_fit_aligned(from..to, 6, 4);
        it.first_run(from..to, 6);
        it.insert(from..to);
        it.remove(from..to);
    }
    // Whether something changes is one of them, and the end of the range that the start is in.
    each! { &set, RANGES, 3 * search + 3; |it, from, to|
        it.insert_changed(from..to);
        it.remove_changed(from..to);
    }
}

/// A range without an end is one boundary beside many. Where it is asked first whether something
/// changes, that is a search.
#[test]
fn ranges_without_an_end() {
    let (set, search) = many();
    let merge = 2 * (2 * search + 1);
    each! { &set, RANGES, merge; |it, from, to|
        it.insert(from..);
        it.remove(from..);
    }
    each! { &set, RANGES, merge + search; |it, from, to|
        it.insert_changed(from..);
        it.remove_changed(from..);
    }
    each! { &set, RANGES, 2 * merge; |it, from, to|
        it.split_off(&from);
    }
}

#[test]
fn ends_and_places_alone_are_not_compared() {
    let (set, _) = many();
    each! { &set, RANGES, 0; |it, from, to|
        it.iter().count();
        it.members().take(100).count();
        it.first();
        it.last();
        it.span();
        it.ranges_len();
        it.covered();
        it.select(500);
        it.is_empty();
        it.is_all();
        it.gaps(..).count();
        it.ranges_within(..).count();
        it.pop_first();
        it.pop_last();
        it.retain(|range| range.start().0 % 20 == 0);
        it.clear();
        it.clone();
        it.clone().into_iter().count();
        !&*it;
        !it.clone();
        RangeSet2::from(from..);
    }
}

#[test]
fn each_boundary_once() {
    let (set, _) = many();
    let n = set.boundaries().len();
    each! { &set, RANGES, n; |it, from, to|
        *it == it.clone();
    }
    each! { &set, RANGES, n - 1; |it, from, to|
        RangeSet2::new(it.boundaries().iter().copied().collect());
    }
    each! { &set, RANGES, 1; |it, from, to|
        RangeSet2::from(from..to);
    }
}

#[test]
fn sorted_and_unsorted_ranges() {
    let n = 1000;
    let per_range = 2 * digits(2 * n as usize) + 8;
    let in_order = count(|| ranges(n).collect::<Set>());
    assert!(in_order <= n as usize * per_range);
    let falling: Vec<_> = ranges(n).collect();
    let made = count(|| falling.into_iter().rev().collect::<Set>());
    assert!(made <= n as usize * 4 * digits(2 * n as usize));
}

const MANY: u32 = 100_000;

type Place = fn(u32) -> u32;

/// Orders of the places, and how many comparisons each range may make that comes so. Two sorts are
/// one of all starts and one of all ends.
fn orders() -> [(&'static str, Place, usize); 3] {
    let sorts = 2 * digits(MANY as usize);
    [
        ("in order", |i| i, 2),
        ("falling", |i| MANY - 1 - i, 9),
        (
            "in no order",
            |i| (u64::from(i) * 61_803 % u64::from(MANY)) as u32,
            sorts + 8,
        ),
    ]
}

impl EntryClone for Counted {
    fn entry_clone(&self) -> Result<Self, AllocError> {
        Ok(*self)
    }
}

impl WholeNumber for Counted {
    fn read(text: &str) -> Option<Self> {
        text.parse().ok().map(Counted)
    }
}

#[test]
fn many_ranges_in_any_order() {
    for (order, place, a_range) in orders() {
        let at_most = a_range * MANY as usize;
        let ranges = || {
            let starts = (0..MANY).map(place).map(|i| 10 * i);
            starts.map(|start| Counted(start)..Counted(start + 5))
        };
        let values = || (0..MANY).map(place).map(|i| Counted(2 * i));
        let mut made = Set::empty();
        let calls = [
            count(|| made = Set::from_ranges(ranges())),
            count(|| made = Set::from_values(values())),
            count(|| made = ChunkedRangeSet::from_ranges(ranges()).into()),
            count(|| made = ChunkedRangeSet::from_values(values()).into()),
        ];
        assert_eq!(made.boundaries().len(), 2 * MANY as usize, "{order}");
        assert!(
            calls.iter().all(|made| *made <= at_most),
            "{order}: {calls:?} comparisons, and {at_most} are allowed"
        );
    }
}

/// Ranges that touch become one with no more comparisons than such as lie apart.
#[test]
fn many_ranges_that_touch() {
    for (order, place, a_range) in orders() {
        let at_most = a_range * MANY as usize;
        let starts = || (0..MANY).map(place).map(|i| 10 * i);
        let ranges = || starts().map(|start| Counted(start)..Counted(start + 10));
        let mut made = [Set::empty(), Set::empty()];
        let calls = [
            count(|| made[0] = Set::from_ranges(ranges())),
            count(|| made[1] = Set::from_values((0..MANY).map(place).map(Counted))),
        ];
        assert!(made.iter().all(|it| it.boundaries().len() == 2), "{order}");
        assert!(
            calls.iter().all(|made| *made <= at_most),
            "{order}: {calls:?} comparisons, and {at_most} are allowed"
        );
    }
}

/// A range behind one without an end is compared with its start alone, not searched for.
#[test]
fn many_ranges_behind_one_without_an_end() {
    let at_most = 8 * 2 * MANY as usize;
    let ranges = || {
        let range = |i| RangeSetRange::from(Counted(10 * i)..Counted(10 * i + 5));
        let endless = RangeSetRange::from(Counted(10 * MANY)..);
        let behind = (MANY + 1..2 * MANY).map(range);
        (0..MANY)
            .map(range)
            .chain(iter::once(endless))
            .chain(behind)
    };
    let mut made = Set::empty();
    let calls = count(|| made = Set::from_ranges(ranges()));
    assert_eq!(made.boundaries().len(), 2 * MANY as usize + 1);
    assert!(
        calls <= at_most,
        "{calls} comparisons, and {at_most} are allowed"
    );
}

/// A text's numbers are read without a comparison, and its ranges joined by eight each, and the
/// sorts.
#[test]
fn many_ranges_of_a_text() {
    for (order, place, a_range) in orders() {
        let at_most = a_range.max(8) * MANY as usize;
        let mut text = String::new();
        for start in (0..MANY).map(place).map(|i| 10 * i) {
            write!(text, "{start}..{}, ", start + 5).unwrap();
        }
        let text = text.trim_end_matches(", ");
        let mut set = Set::empty();
        let calls = [
            count(|| set = text.parse().unwrap()),
            count(|| set = text.parse::<ChunkedRangeSet<_>>().unwrap().into()),
        ];
        assert_eq!(set.boundaries().len(), 2 * MANY as usize, "{order}");
        assert!(
            calls.iter().all(|made| *made <= at_most),
            "{order}: {calls:?} comparisons, and {at_most} are allowed"
        );
    }
}

/// A sort's comparisons, which may be some more than binary digits, and one for each item and the
/// next.
fn sorts(name: &str, order: &str, made: usize) {
    let at_most = MANY as usize * (digits(MANY as usize) + 5);
    assert!(
        made <= at_most,
        "{name} {order}: {made} comparisons, and {at_most} are allowed"
    );
}

#[test]
fn boundaries_in_any_order() {
    for (order, place, _) in orders() {
        let items = || (0..MANY).map(place).map(Counted);
        let made = count(|| Set::from_unsorted(items()));
        sorts("from_unsorted", order, made);
    }
}

#[cfg(feature = "serde")]
impl<'de> serde::Deserialize<'de> for Counted {
    fn deserialize<D: serde::Deserializer<'de>>(deserializer: D) -> Result<Self, D::Error> {
        u32::deserialize(deserializer).map(Counted)
    }
}

#[cfg(feature = "serde")]
#[test]
fn boundaries_in_any_order_that_are_read() {
    for (order, place, _) in orders() {
        let items: Vec<u32> = (0..MANY).map(place).collect();
        let text = serde_json::to_string(&items).unwrap();
        let made = count(|| serde_json::from_str::<Set>(&text).unwrap());
        sorts("a text", order, made);
    }
}

/// Each set has ranges of its own, or holes, so that what is made of them has all.
#[test]
fn many_sets() {
    const RANGES: u32 = 100;
    for k in [1, 2, 3, 4, 5, 8, 9, 40] {
        let own = |i| (0..RANGES).map(move |n| 2 * (k * n + i) + 1);
        let ends = |i| own(i).flat_map(|start| [start, start + 1]);
        let with_ranges: Vec<Set> = (0..k).map(|i| set(ends(i))).collect();
        let with_holes: Vec<Set> = (0..k)
            .map(|i| set([0].into_iter().chain(ends(i))))
            .collect();
        let (mut union, mut intersection) = (Set::empty(), Set::empty());
        let made = [
            count(|| union = Set::union_all(&with_ranges)),
            count(|| intersection = Set::intersection_all(&with_holes)),
        ];
        assert_eq!(union.ranges_len(), (k * RANGES) as usize);
        assert_eq!(intersection.ranges_len(), (k * RANGES) as usize + 1);
        let boundaries = (k * (2 * RANGES + 1)) as usize;
        let at_most = 2 * boundaries * digits(k as usize - 1);
        assert!(
            made.iter().all(|made| *made <= at_most),
            "{made:?} comparisons for {k} sets, and {at_most} are allowed"
        );
    }
}
