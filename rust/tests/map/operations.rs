//! What makes new maps and sets, compared with arrays of options, and what `combine` asks.

use crate::common::{one_in, Random};
use crate::{any_range, has, read, stretches, Cells, KEYS};
use range_sets::{fallible, RangeMap, RangeSet2, RangeSetRange, RangeSetRef};
use std::cell::{Cell, RefCell};
use std::ops::{Range, RangeInclusive};

/// A map of a few ranges, and its cells.
fn some(random: &mut Random) -> (RangeMap<u8, u8>, Cells) {
    let (mut map, mut cells) = (RangeMap::new(), [None; KEYS]);
    for _ in 0..random.below(7) {
        let (range, value) = (any_range(random), random.below(3) as u8);
        for key in (0..KEYS as u8).filter(|&key| has(&range, key)) {
            cells[usize::from(key)] = Some(value);
        }
        map.insert(range, value);
    }
    (map, cells)
}

/// The keys of a set, which ends among the cells or has all above.
fn keys_of(set: &RangeSetRef<u8>) -> Vec<u8> {
    (0..KEYS as u8).filter(|key| set.contains(key)).collect()
}

#[test]
fn depths() {
    for seed in (1..2_000u64).step_by(one_in()) {
        let mut random = Random(seed.wrapping_mul(0x9e37_79b9_7f4a_7c15) | 1);
        let ranges: Vec<RangeSetRange<u8>> = (0..random.below(30))
            .map(|_| any_range(&mut random))
            .collect();
        let cells: Cells = std::array::from_fn(|key| {
            let depth = ranges.iter().filter(|range| has(range, key as u8));
            Some(depth.count() as u8).filter(|&depth| depth > 0)
        });
        let depth = RangeMap::depth(ranges.iter().map(RangeSetRange::as_ref));
        let found = depth.iter().map(|(range, &n)| (range.cloned(), n as u8));
        assert_eq!(found.collect::<Vec<_>>(), stretches(&cells), "{ranges:?}");
        let ended = ranges
            .iter()
            .cloned()
            .map(|range| Range::try_from(range).unwrap_or(0..0));
        let mut ended: Vec<Range<u8>> = ended.collect();
        let of_ended = RangeMap::depth(&ended);
        assert_eq!(RangeMap::depth(&mut ended), of_ended);
        let inclusive = ended
            .into_iter()
            .map(RangeSetRange::from)
            .filter(|range| !range.is_empty());
        assert_eq!(
            RangeMap::depth(inclusive.map(|range| RangeInclusive::try_from(range).unwrap())),
            of_ended
        );
        assert_eq!(fallible::RangeMap::depth(ranges).unwrap(), depth.into());
    }
}

#[test]
fn operations_key_by_key() {
    // Two values make one, none, or another one.
    let op = |a: Option<&u8>, b: Option<&u8>| match (a, b) {
        (None, None) => unreachable!("it isn't called without a value"),
        (Some(2), Some(1)) => None,
        (a, b) => Some(a.map_or(10, |a| *a) + b.map_or(20, |b| 3 * b)),
    };
    for seed in (1..3_000u64).step_by(one_in()) {
        let mut random = Random(seed.wrapping_mul(0x9e37_79b9_7f4a_7c15) | 1);
        let ((a, left), (b, right)) = (some(&mut random), some(&mut random));
        let both = |of: &dyn Fn(Option<u8>, Option<u8>) -> Option<u8>| -> Cells {
            std::array::from_fn(|key| of(left[key], right[key]))
        };
        let asked = both(&|a, b| (a.or(b)).and_then(|_| op(a.as_ref(), b.as_ref())));
        assert_eq!(read(&a.combine(&b, op)), stretches(&asked), "seed {seed}");
        let asked = both(&|a, b| a.or(b));
        assert_eq!(read(&a.union_with_left(&b)), stretches(&asked));
        let asked = both(&|a, b| b.or(a));
        assert_eq!(read(&a.union_with_right(&b)), stretches(&asked));

        let (domain, ones): (RangeSet2<u8>, RangeSet2<u8>) = (b.domain(), b.where_equal(&1));
        let keys = |of: &dyn Fn(Option<u8>) -> bool| -> Vec<u8> {
            (0..KEYS as u8)
                .filter(|&key| of(right[usize::from(key)]))
                .collect()
        };
        assert_eq!(keys_of(&domain), keys(&|value| value.is_some()));
        assert_eq!(keys_of(&ones), keys(&|value| value == Some(1)));
        let others: RangeSet2<u8> = b.domain_where(|value| *value != 1);
        assert_eq!(others, &domain - &ones);
        let made = a.map_values(|value| value / 2);
        assert_eq!(
            read(&made),
            stretches(&both(&|a, _| a.map(|value| value / 2)))
        );
        let count = |cells: &Cells| cells.iter().flatten().count() as u128;
        let has_end = left[KEYS - 1].is_none();
        assert_eq!(a.covered(), has_end.then(|| count(&left)), "seed {seed}");
        for key in 0..KEYS as u8 {
            let free = (key..KEYS as u8).find(|&key| left[usize::from(key)].is_none());
            assert_eq!(a.next_gap(&key).copied(), free, "seed {seed}, {key}");
        }
        let asked = both(&|a, b| b.and(a));
        assert_eq!(read(&a.restrict(&domain)), stretches(&asked));
        let asked = both(&|a, b| if b.is_some() { None } else { a });
        assert_eq!(read(&a.without(&domain)), stretches(&asked));

        // In place they make what a new map has.
        type Change = fn(&mut RangeMap<u8, u8>, &RangeMap<u8, u8>, &RangeSet2<u8>);
        let changes: [(Change, _); 4] = [
            (|map, that, _| map.insert_all(that), a.union_with_right(&b)),
            (
                |map, that, _| map.insert_where_free(that),
                a.union_with_left(&b),
            ),
            (|map, _, set| map.remove_all(set), a.without(&domain)),
            (|map, _, set| map.retain_all(set), a.restrict(&domain)),
        ];
        for (change, asked) in changes {
            let mut changed = a.clone();
            change(&mut changed, &b, &domain);
            assert_eq!(read(&changed), read(&asked), "seed {seed}");
        }

        let (mut updated, range) = (a.clone(), any_range(&mut random));
        let more = |value: Option<&u8>| {
            if value == Some(&2) {
                None
            } else {
                Some(value.map_or(9, |n| n + 1))
            }
        };
        updated.update(range.clone(), more);
        let asked: Cells = std::array::from_fn(|key| {
            if has(&range, key as u8) {
                more(left[key].as_ref())
            } else {
                left[key]
            }
        });
        assert_eq!(read(&updated), stretches(&asked), "seed {seed}");

        let (x, y) = (
            fallible::RangeMap::from(a.clone()),
            fallible::RangeMap::from(b.clone()),
        );
        let refused = x.combine(&y, |_, _| Err::<Option<u8>, _>(fallible::AllocError));
        assert_eq!(refused.is_err(), !(a.is_empty() && b.is_empty()));
        let mut same = fallible::RangeMap::from(a.clone());
        assert_eq!(
            same.update(range.clone(), |_| Err(fallible::AllocError))
                .is_err(),
            (0..KEYS as u8).any(|key| has(&range, key))
        );
        assert_eq!(read(&same), read(&a));
        same.update(range, |value| Ok(more(value))).unwrap();
        assert_eq!(read(&same), read(&updated));
        let found = x.combine(&y, |a, b| Ok(op(a, b))).unwrap();
        assert_eq!(read(&found), read(&a.combine(&b, op)));
        assert_eq!(x.union_with_left(&y).unwrap(), a.union_with_left(&b).into());
        assert_eq!(
            x.union_with_right(&y).unwrap(),
            a.union_with_right(&b).into()
        );
        assert_eq!(x.restrict(&domain).unwrap(), a.restrict(&domain).into());
        assert_eq!(x.without(&domain).unwrap(), a.without(&domain).into());
        assert_eq!(y.domain::<[u8; 2]>().unwrap(), domain);
        assert_eq!(y.where_equal::<[u8; 2]>(&1).unwrap(), ones);
    }
}

/// Two maps, and the values that `combine` asks of: once for each step of either at which one has a
/// value, in their order.
struct Asked {
    what: &'static str,
    left: &'static [(RangeSetRange<u8>, char)],
    right: &'static [(RangeSetRange<u8>, u8)],
    calls: &'static [(Option<char>, Option<u8>)],
}

const fn to(start: u8, end: u8) -> RangeSetRange<u8> {
    RangeSetRange::Range(start..end)
}

const fn from(start: u8) -> RangeSetRange<u8> {
    RangeSetRange::RangeFrom(start..)
}

#[rustfmt::skip]
const ASKED: [Asked; 12] = [
    Asked { what: "two empty maps", left: &[], right: &[], calls: &[] },
    Asked {
        what: "an empty right one",
        left: &[(to(1, 4), 'a'), (to(6, 9), 'b')],
        right: &[],
        calls: &[(Some('a'), None), (Some('b'), None)],
    },
    Asked {
        what: "an empty left one",
        left: &[],
        right: &[(to(1, 4), 1), (to(6, 9), 2)],
        calls: &[(None, Some(1)), (None, Some(2))],
    },
    Asked {
        what: "apart",
        left: &[(to(1, 2), 'a')],
        right: &[(to(5, 6), 1)],
        calls: &[(Some('a'), None), (None, Some(1))],
    },
    Asked {
        what: "touching",
        left: &[(to(3, 5), 'a')],
        right: &[(to(1, 3), 1)],
        calls: &[(None, Some(1)), (Some('a'), None)],
    },
    Asked {
        what: "the same keys",
        left: &[(to(1, 3), 'a')],
        right: &[(to(1, 3), 1)],
        calls: &[(Some('a'), Some(1))],
    },
    Asked {
        what: "a gap in both",
        left: &[(to(1, 3), 'a'), (to(6, 8), 'b')],
        right: &[(to(1, 3), 1), (to(6, 8), 2)],
        calls: &[(Some('a'), Some(1)), (Some('b'), Some(2))],
    },
    Asked {
        what: "a gap of one side in that of the other",
        left: &[(to(1, 3), 'a'), (to(8, 9), 'a')],
        right: &[(to(1, 4), 1), (to(6, 9), 1)],
        calls: &[
            (Some('a'), Some(1)), (None, Some(1)), (None, Some(1)), (Some('a'), Some(1)),
        ],
    },
    Asked {
        what: "over an end",
        left: &[(to(1, 4), 'a')],
        right: &[(to(3, 7), 1)],
        calls: &[(Some('a'), None), (Some('a'), Some(1)), (None, Some(1))],
    },
    Asked {
        what: "one within the other",
        left: &[(to(1, 9), 'a')],
        right: &[(to(3, 4), 1), (to(4, 5), 2)],
        calls: &[
            (Some('a'), None), (Some('a'), Some(1)), (Some('a'), Some(2)), (Some('a'), None),
        ],
    },
    Asked {
        what: "a left one without an end",
        left: &[(from(2), 'a')],
        right: &[(to(4, 6), 1)],
        calls: &[(Some('a'), None), (Some('a'), Some(1)), (Some('a'), None)],
    },
    Asked {
        what: "both without an end",
        left: &[(to(0, 1), 'a'), (from(7), 'b')],
        right: &[(from(5), 1)],
        calls: &[(Some('a'), None), (None, Some(1)), (Some('b'), Some(1))],
    },
];

#[test]
fn combine_asks_once_for_each_step_with_a_value() {
    for row in ASKED {
        let what = row.what;
        let left: RangeMap<u8, char> = row.left.iter().cloned().collect();
        let right: RangeMap<u8, u8> = row.right.iter().cloned().collect();
        let calls = RefCell::new(Vec::new());
        let asked = |a: Option<&char>, b: Option<&u8>| {
            calls.borrow_mut().push((a.copied(), b.copied()));
            Some(calls.borrow().len())
        };
        let made = left.combine(&right, asked);
        assert_eq!(*calls.borrow(), row.calls, "{what}");
        // Each call's result stands for a range of its own.
        assert!(
            made.values().copied().eq(1..=row.calls.len()),
            "{what}: {made:?}"
        );

        calls.borrow_mut().clear();
        let (left, right) = (left.into(), fallible::RangeMap::from(right));
        let left: &fallible::RangeMap<u8, char> = &left;
        let found = left.combine(&right, |a, b| Ok(asked(a, b))).unwrap();
        assert_eq!(
            *calls.borrow(),
            row.calls,
            "{what}, where memory may be refused"
        );
        assert_eq!(
            RangeMap::from(found),
            made,
            "{what}, where memory may be refused"
        );
    }
}

thread_local! {
    static CLONES: Cell<usize> = const { Cell::new(0) };
}

/// A number that counts its clones.
#[derive(Debug, PartialEq, Eq, PartialOrd, Ord)]
struct Cloned(u32);

impl Clone for Cloned {
    fn clone(&self) -> Self {
        CLONES.with(|clones| clones.set(clones.get() + 1));
        Cloned(self.0)
    }
}

/// The map of these ranges of 4 at distances of 10, with values by turns.
fn spread(places: impl Iterator<Item = u32>) -> RangeMap<Cloned, Cloned> {
    let range = |i: u32| Cloned(10 * i)..Cloned(10 * i + 4);
    places.map(|i| (range(i), Cloned(i % 3))).collect()
}

/// A change in place copies what lies between the first key and the last that change it, and a new
/// map each key and value once.
#[test]
fn few_ranges_copy_few() {
    let few = spread([500, 503].into_iter());
    let set: RangeSet2<Cloned> = few.domain();
    for ranges in [1_000, 30_000] {
        let map = spread(0..ranges);
        type Change =
            fn(&mut RangeMap<Cloned, Cloned>, &RangeMap<Cloned, Cloned>, &RangeSet2<Cloned>);
        let changes: [(Change, usize); 8] = [
            (|map, that, _| map.insert_all(that), 32),
            (|map, that, _| map.insert_where_free(that), 32),
            (|map, _, set| map.remove_all(set), 32),
            (|map, _, set| map.retain_all(set), 32),
            (|map, _, set| *map = map.restrict(set), 32),
            (
                |map, that, _| *map = map.union_with_left(that),
                3 * ranges as usize + 32,
            ),
            (
                |map, that, _| *map = map.union_with_right(that),
                3 * ranges as usize + 32,
            ),
            (
                |map, _, set| *map = map.without(set),
                3 * ranges as usize + 32,
            ),
        ];
        for (i, (change, at_most)) in changes.into_iter().enumerate() {
            let mut changed = map.clone();
            let before = CLONES.with(Cell::get);
            change(&mut changed, &few, &set);
            let clones = CLONES.with(Cell::get) - before;
            assert!(
                clones <= at_most,
                "{clones} clones by change {i} of {ranges}"
            );
        }
    }
}
