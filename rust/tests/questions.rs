//! What is asked of sets, beside a bitmap.

mod common;

use common::{bitmap, boundaries, pairs, set, Bitmap, Random};
use range_sets::{fallible, RangeSet2, RangeSetRange, RangeSetRef};
use std::net::{Ipv4Addr, Ipv6Addr};

fn bits_of_range(start: u8, end: u8) -> Bitmap {
    (start..end).fold(0, |bits, i| bits | 1 << i)
}

/// The ends of a range as a pair.
fn ends(range: RangeSetRange<&u8>) -> (u8, Option<u8>) {
    match range {
        RangeSetRange::Range(range) => (*range.start, Some(*range.end)),
        RangeSetRange::RangeFrom(range) => (*range.start, None),
    }
}

/// The longest stretches of ones, found bit by bit.
fn stretches(bits: Bitmap) -> Vec<(u8, Option<u8>)> {
    let mut found: Vec<(u8, Option<u8>)> = Vec::new();
    let mut start = None;
    for i in 0..64 {
        match (bits >> i & 1 == 1, start) {
            (true, None) => start = Some(i),
            (false, Some(from)) => {
                found.push((from, Some(i)));
                start = None;
            }
            _ => {}
        }
    }
    found.extend(start.map(|from| (from, None)));
    found
}

#[test]
fn members_are_those_of_the_bitmap() {
    for (a, _) in pairs() {
        assert_eq!(bitmap(&set::<[u8; 2]>(a)), a);
    }
}

/// Every value up to 70, in ascending order, in descending order, each twice, at random.
fn orders() -> [Vec<u8>; 4] {
    let mut random = Random(5);
    let ascending: Vec<u8> = (0..70).collect();
    [
        ascending.clone(),
        ascending.iter().rev().copied().collect(),
        ascending.iter().flat_map(|&value| [value; 2]).collect(),
        (0..300).map(|_| random.below(70) as u8).collect(),
    ]
}

#[test]
fn a_cursor_answers_as_its_set_in_every_order() {
    let empty_and_all = [(0, 0), (!0, 0)];
    for (a, _) in pairs().step_by(16).chain(empty_and_all) {
        let set: RangeSet2<u8> = set(a);
        for order in orders() {
            let mut cursor = set.cursor();
            for value in order {
                let copied = cursor;
                assert_eq!(cursor.contains(&value), set.contains(&value), "{copied:?}");
                assert_eq!(
                    { copied }.contains(&value),
                    set.contains(&value),
                    "{copied:?}"
                );
            }
        }
    }
}

#[test]
fn a_cursor_shows_its_place() {
    let set = RangeSet2::from_ranges([1..3, 5..8]);
    let mut cursor = set.cursor();
    assert!(cursor.contains(&2));
    assert_eq!(
        format!("{cursor:?}"),
        "Cursor { before: [1], after: [3, 5, 8] }"
    );
}

#[test]
fn questions_of_two_sets() {
    for (a, b) in pairs() {
        let (left, right): (RangeSet2<u8>, RangeSet2<u8>) = (set(a), set(b));
        assert_eq!(left.intersects(&right), a & b != 0);
        assert_eq!(left.is_disjoint(&right), a & b == 0);
        assert_eq!(left.is_subset(&right), a & !b == 0);
        assert_eq!(left.is_superset(&right), b & !a == 0);
        assert_eq!(left == right, a == b);
        assert_eq!(left.cmp(&right), boundaries(a).cmp(&boundaries(b)));
        assert_eq!(left.is_empty(), a == 0);
        assert_eq!(left.is_all(), a == !0);
    }
}

#[test]
fn ranges_within_and_without() {
    let mut random = Random(5);
    for (a, _) in pairs().step_by(2) {
        let set: RangeSet2<u8> = set(a);
        let (start, end) = (random.below(63) as u8, random.below(63) as u8);
        let within = bits_of_range(start, end);
        assert_eq!(
            set.contains_range(start..end),
            within & !a == 0,
            "{set:?} {start}..{end}"
        );
        assert_eq!(set.intersects_range(start..end), within & a != 0);
        let parts = |bits| {
            stretches(bits)
                .into_iter()
                .map(|(from, to)| (from, to.unwrap()))
                .collect::<Vec<_>>()
        };
        let gaps: Vec<_> = set
            .gaps(&start..&end)
            .map(|gap| (*gap.start, *gap.end))
            .collect();
        assert_eq!(gaps, parts(within & !a));
        let ranges: Vec<_> = set
            .ranges_within(&start..&end)
            .map(|part| (*part.start, *part.end))
            .collect();
        assert_eq!(ranges, parts(within & a));
    }
}

#[test]
fn the_range_at_a_value() {
    for (a, _) in pairs().step_by(5) {
        let set: RangeSet2<u8> = set(a);
        for value in 0..64 {
            let expected = stretches(a)
                .into_iter()
                .find(|&(start, end)| start <= value && end.map_or(true, |end| value < end));
            assert_eq!(set.range_at(&value).map(ends), expected);
        }
    }
}

#[test]
fn the_next_member_and_the_next_gap() {
    for (a, _) in pairs().step_by(5) {
        let set: RangeSet2<u8> = set(a);
        for from in 0..64 {
            // What is a member at 63 is one at all values above it.
            let next = |bits: u64| (from..64).find(|&at| bits >> at & 1 == 1);
            assert_eq!(set.next_member(&from).copied(), next(a), "{set:?} {from}");
            assert_eq!(set.next_gap(&from).copied(), next(!a), "{set:?} {from}");
        }
    }
}

#[test]
fn the_previous_member_and_the_previous_gap() {
    for (a, _) in pairs().step_by(5) {
        let set: RangeSet2<u8> = set(a);
        for from in 0..64 {
            let previous = |bits: u64| (0..=from).rev().find(|&at| bits >> at & 1 == 1);
            assert_eq!(set.prev_member(&from), previous(a), "{set:?} {from}");
            assert_eq!(set.prev_gap(&from), previous(!a), "{set:?} {from}");
        }
    }
}

#[test]
fn the_previous_address() {
    let block: RangeSet2<Ipv4Addr> = (Ipv4Addr::LOCALHOST..Ipv4Addr::BROADCAST).into();
    let last = Ipv4Addr::new(255, 255, 255, 254);
    assert_eq!(block.prev_member(&Ipv4Addr::BROADCAST), Some(last));
    let set: RangeSet2<Ipv6Addr> = (Ipv6Addr::LOCALHOST..).into();
    assert_eq!(
        set.prev_gap(&Ipv6Addr::LOCALHOST),
        Some(Ipv6Addr::UNSPECIFIED)
    );
    assert_eq!(set.prev_member(&Ipv6Addr::UNSPECIFIED), None);
}

#[test]
fn ranks_and_members_by_rank() {
    for (a, _) in pairs().step_by(5) {
        let set: RangeSet2<u8> = set(a);
        // What is a member at 63 is one at all values above it.
        let members: Vec<u8> = (0..=255).filter(|&i| a >> i.min(63) & 1 == 1).collect();
        for at in 0..=255 {
            let below = members.iter().filter(|&&member| member < at).count();
            assert_eq!(set.rank(&at), below as u128, "{set:?} {at}");
        }
        for k in 0..=members.len() {
            assert_eq!(
                set.select(k as u128),
                members.get(k).copied(),
                "{set:?} {k}"
            );
        }
    }
}

#[test]
fn members_from_both_ends_and_back_to_a_set() {
    let mut random = Random(11);
    for (a, _) in pairs().step_by(3) {
        let set: RangeSet2<u8> = set(a);
        let all: Vec<u8> = (0..=255).filter(|&i| a >> i.min(63) & 1 == 1).collect();
        assert!(set.members().eq(all.iter().copied()), "{set:?}");
        assert!(set.members().rev().eq(all.iter().rev().copied()), "{set:?}");
        let mut members = set.members();
        let mut left = all.as_slice();
        // The one end or the other, as it comes.
        while let [first, .., last] = left {
            if random.below(2) == 0 {
                assert_eq!(members.next(), Some(*first));
                left = &left[1..];
            } else {
                assert_eq!(members.next_back(), Some(*last));
                left = &left[..left.len() - 1];
            }
            assert!(members.clone().eq(left.iter().copied()));
        }
        assert_eq!(members.next_back(), left.first().copied());
        assert_eq!((members.next(), members.next_back()), (None, None));

        // In another order, each twice.
        let mut mixed: Vec<u8> = all.iter().chain(&all).copied().collect();
        for i in (1..mixed.len()).rev() {
            mixed.swap(i, random.below(i as u64 + 1) as usize);
        }
        assert_eq!(RangeSet2::from_values(mixed.iter().copied()), set);
        assert_eq!(fallible::RangeSet2::from_values(mixed).unwrap(), set);
    }
    let all = RangeSetRef::new(&[i128::MIN]).unwrap();
    let mut members = all.members();
    assert_eq!(members.next(), Some(i128::MIN));
    assert_eq!(members.next_back(), Some(i128::MAX));
    let hosts = RangeSet2::from_values([2, 1].map(|host| Ipv4Addr::new(10, 0, 0, host)));
    assert_eq!(
        hosts.boundaries(),
        [Ipv4Addr::new(10, 0, 0, 1), Ipv4Addr::new(10, 0, 0, 3)]
    );
    assert_eq!(
        hosts.members().next_back(),
        Some(Ipv4Addr::new(10, 0, 0, 2))
    );
    let last = RangeSet2::from_values([Ipv6Addr::from(u128::MAX), Ipv6Addr::UNSPECIFIED]);
    assert_eq!(last.members().next_back(), Some(Ipv6Addr::from(u128::MAX)));
}

#[test]
fn values_in_a_row() {
    let mut random = Random(12);
    // Below 63 a bit is a value's own.
    for (a, _) in pairs().step_by(3) {
        let signed: Vec<i8> = boundaries(a).iter().map(|&at| at as i8 - 30).collect();
        let set = RangeSetRef::new(&signed).unwrap();
        let (start, end) = (random.below(63) as u8, random.below(63) as u8);
        let (count, align) = (random.below(9) as u8, random.below(9) as u8);
        let at = |wanted: bool, align: u8| {
            (start..=end)
                .filter(|&at| (at as i8 - 30).unsigned_abs().checked_rem(align) == Some(0))
                .find(|&at| {
                    let row = at..at + count;
                    row.end <= end && { row }.all(|i| (a >> i & 1 == 1) == wanted)
                })
                .map(|at| at as i8 - 30)
        };
        let within = start as i8 - 30..end as i8 - 30;
        let row = format!("{set:?} {within:?} {count} {align}");
        let (count, step) = (count.into(), align.into());
        assert_eq!(
            set.first_fit_count(within.clone(), count),
            at(false, 1),
            "{row}"
        );
        assert_eq!(
            set.first_fit_aligned(within.clone(), count, step),
            at(false, align),
            "{row}"
        );
        assert_eq!(set.first_run(within, count), at(true, 1), "{row}");
    }
    let none = RangeSetRef::<i64>::empty();
    assert_eq!(none.first_fit_aligned(0..1_000_000, 5, 10), Some(0));
    assert_eq!(none.first_fit_aligned(-61..1_000_000, 5, 60), Some(-60));
    let none = RangeSetRef::<i32>::empty();
    assert_eq!(none.first_fit_aligned(1..1_000_000, 5, 60), Some(60));
    let (first, last) = (Ipv4Addr::UNSPECIFIED, Ipv4Addr::BROADCAST);
    let used = RangeSet2::from(Ipv4Addr::new(0, 0, 0, 1)..Ipv4Addr::new(10, 0, 0, 5));
    let block = used.first_fit_aligned(first..last, 256, 256);
    assert_eq!(block, Some(Ipv4Addr::new(10, 0, 1, 0)));
    assert_eq!(
        used.first_run(first..last, 1 << 24),
        Some(Ipv4Addr::new(0, 0, 0, 1))
    );
    assert_eq!(used.first_fit_count(first..last, 1 << 32), None);
}

#[test]
fn first_last_and_span() {
    for (a, _) in pairs() {
        let set: RangeSet2<u8> = set(a);
        let all = stretches(a);
        assert_eq!(set.first().map(ends), all.first().copied());
        assert_eq!(set.last().map(ends), all.last().copied());
        let span = all
            .first()
            .zip(all.last())
            .map(|(first, last)| (first.0, last.1));
        assert_eq!(set.span().map(ends), span);
        assert_eq!(set.ranges_len(), all.len());
    }
}

#[test]
fn split_agrees_on_each_side_and_is_least() {
    for (a, _) in pairs().step_by(3) {
        let set: RangeSet2<u8> = set(a);
        for at in 0..64 {
            let (left, right) = set.split(at);
            let below = bits_of_range(0, at);
            assert_eq!(bitmap(left) & below, a & below);
            assert_eq!(bitmap(right) & !below, a & !below);
            assert!(left.boundaries().iter().all(|&x| x < at));
            assert!(right.boundaries().iter().filter(|&&x| x < at).count() <= 1);
        }
    }
}

#[test]
fn how_many_are_covered() {
    for (a, _) in pairs() {
        let expected = (a >> 63 == 0).then(|| u128::from(a.count_ones()));
        assert_eq!(set::<[u8; 2]>(a).covered(), expected);
    }
    assert_eq!(
        RangeSetRef::new(&[i128::MIN, i128::MAX]).unwrap().covered(),
        Some(u128::MAX)
    );
    assert_eq!(
        RangeSetRef::new(&['\u{d7ff}', '\u{e000}'])
            .unwrap()
            .covered(),
        Some(1)
    );
}

#[test]
fn the_first_stretch_that_is_free() {
    let mut random = Random(11);
    for (a, _) in pairs().step_by(2) {
        let set: RangeSet2<u8> = set(a);
        let (start, end, len) = (
            random.below(63) as u8,
            random.below(63) as u8,
            random.below(9) as u8,
        );
        let fits = |x: u8| x + len <= end && bits_of_range(x, x + len) & a == 0;
        let expected = if len == 0 {
            (start <= end).then_some(start)
        } else {
            (start..end).find(|&x| fits(x))
        };
        assert_eq!(
            set.first_fit(start..end, len),
            expected,
            "{set:?} {start}..{end} {len}"
        );
    }
    assert_eq!(
        RangeSetRef::new(&[0u8, 250]).unwrap().first_fit(0..255, 10),
        None
    );
    assert_eq!(
        RangeSetRef::<u128>::empty().first_fit(1..u128::MAX, u128::MAX),
        None
    );
}

#[test]
fn ranges_from_both_ends() {
    for (a, _) in pairs().step_by(2) {
        let set: RangeSet2<u8> = set(a);
        let expected = stretches(a);
        assert_eq!(set.iter().map(ends).collect::<Vec<_>>(), expected);
        let mut backwards: Vec<_> = set.iter().rev().map(ends).collect();
        backwards.reverse();
        assert_eq!(backwards, expected);
        let mut ranges = set.iter();
        for left in (1..=expected.len()).rev() {
            assert_eq!(
                (ranges.len(), ranges.size_hint()),
                (left, (left, Some(left)))
            );
            let taken = if left % 2 == 0 {
                ranges.next()
            } else {
                ranges.next_back()
            };
            assert!(taken.is_some());
        }
        assert_eq!(ranges.len(), 0);
        assert!(ranges.next().is_none() && ranges.next_back().is_none() && ranges.next().is_none());
        let owned: Vec<_> = set
            .clone()
            .into_iter()
            .map(|range| ends(range.as_ref()))
            .collect();
        assert_eq!(owned, expected);
        let mut backwards: Vec<_> = set
            .clone()
            .into_iter()
            .rev()
            .map(|range| ends(range.as_ref()))
            .collect();
        backwards.reverse();
        assert_eq!(backwards, expected);
        assert_eq!(set.clone().into_iter().len(), expected.len());
    }
}
