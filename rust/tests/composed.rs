//! Calls that are made of others, in maps, sets in chunks, spaces and trackers.

mod common;

use common::{hash, one_in, Random};
use range_sets::tracker::{ChunkedTracker, Command, TrackError, Tracker};
use range_sets::{fallible, ChunkedRangeSet, ChunkedSpace, RangeMap, RangeSet2, RangeSetRange};
use std::time::{Duration, SystemTime};

type Cells = [Option<u8>; 16];

/// A made-up map, and its value for each key.
fn made_up(random: &mut Random) -> (RangeMap<u8, u8>, Cells) {
    let (mut map, mut cells) = (RangeMap::new(), [None; 16]);
    for _ in 0..random.below(6) {
        let (start, value) = (random.below(14) as u8, random.below(3) as u8);
        let end = start + 1 + random.below(2) as u8;
        map.insert(start..end, value);
        cells[usize::from(start)..usize::from(end)].fill(Some(value));
    }
    (map, cells)
}

fn compare(map: &RangeMap<u8, u8>, cells: &Cells, what: &str) {
    for (key, cell) in (0..).zip(cells) {
        assert_eq!(map.get(&key), cell.as_ref(), "{what}: {key} of {map:?}");
    }
    let joined: RangeMap<u8, u8> = (0..16)
        .filter_map(|key: u8| Some((key..key + 1, cells[usize::from(key)]?)))
        .collect();
    assert_eq!(map, &joined, "{what}");
}

#[test]
fn maps_as_of_an_array_of_options() {
    let mut random = Random(62);
    for _ in (0..2000).step_by(one_in()) {
        let (map, cells) = made_up(&mut random);
        let ranges: Vec<_> = map.iter().collect();
        assert_eq!(
            (map.first(), map.last()),
            (ranges.first().cloned(), ranges.last().cloned())
        );
        assert!(map.keys().eq(ranges.iter().map(|it| it.0.clone())));
        assert!(map.values().rev().eq(ranges.iter().rev().map(|it| it.1)));
        let keys = || (0..16).filter(|&key| cells[usize::from(key)].is_some());
        let ends = map
            .span()
            .map(|span| (**span.start(), **span.end().unwrap() - 1));
        assert_eq!(ends, keys().next().zip(keys().next_back()));

        for pops_first in [true, false] {
            let (mut map, mut cells) = (map.clone(), cells);
            let wanted = if pops_first {
                ranges.first()
            } else {
                ranges.last()
            };
            let wanted = wanted.map(|(range, value)| (range.copied(), **value));
            let popped = if pops_first {
                map.pop_first()
            } else {
                map.pop_last()
            };
            assert_eq!(popped, wanted);
            if let Some((range, _)) = popped {
                (0..16)
                    .filter(|key| range.contains(key))
                    .for_each(|key: u8| cells[usize::from(key)] = None);
            }
            compare(&map, &cells, "popped");
        }

        let (mut own, mut wanted) = (map.clone().into_iter(), map.iter());
        for _ in 0..=ranges.len() {
            let (range, expected) = if random.below(2) == 0 {
                (own.next(), wanted.next())
            } else {
                (own.next_back(), wanted.next_back())
            };
            let expected = expected.map(|(range, value)| (range.copied(), *value));
            assert_eq!(range, expected, "by value: {map:?}");
        }

        let at = random.below(16) as u8;
        let (mut low, mut low_cells, mut high_cells) = (map.clone(), cells, [None; 16]);
        let mut high = low.split_off(&at);
        high_cells[usize::from(at)..].swap_with_slice(&mut low_cells[usize::from(at)..]);
        compare(&low, &low_cells, "below");
        compare(&high, &high_cells, "above");
        low.append(&mut high);
        compare(&low, &cells, "appended");
        assert!(high.is_empty());

        let (mut changed, mut changed_cells) = (map.clone(), cells);
        let around = map.get_key_value(&at).map(|(range, _)| range.copied());
        assert_eq!(
            changed.modify(&at, |value| *value = (*value + 1) % 3),
            around.is_some()
        );
        for key in
            (0..16u8).filter(|key| around.as_ref().map_or(false, |range| range.contains(key)))
        {
            let cell = &mut changed_cells[usize::from(key)];
            *cell = cell.map(|value| (value + 1) % 3);
        }
        compare(&changed, &changed_cells, "modified");

        let (mut kept, mut seen) = (map.clone(), Vec::new());
        kept.retain_ranges(|range, value| {
            seen.push((range.copied(), *value));
            *value == 1 || range.contains(&at)
        });
        assert!(seen.into_iter().eq(map.clone()));
        let mut kept_cells = cells;
        for (key, cell) in (0..16).zip(&mut kept_cells) {
            let is_around = around.as_ref().map_or(false, |range| range.contains(&key));
            *cell = cell.filter(|value| *value == 1 || is_around);
        }
        compare(&kept, &kept_cells, "retained");
    }
}

/// What the calls that make new maps and sets return, by the seconds since 1970 of its keys.
fn made_of_maps<K: Ord + Clone>(
    key: fn(u64) -> K,
    seconds: fn(&K) -> u64,
) -> Vec<Vec<(u64, u64, u32)>> {
    let of = |ranges: &[(u64, u64, u32)]| -> RangeMap<K, u32> {
        let ranges = ranges.iter();
        ranges
            .map(|&(start, end, value)| (key(start)..key(end), value))
            .collect()
    };
    let listed = |map: RangeMap<K, u32>| -> Vec<_> {
        let ends =
            |range: RangeSetRange<K>| (seconds(range.start()), range.end().map_or(0, seconds));
        let ranges = map.into_iter().map(|(range, value)| (ends(range), value));
        ranges
            .map(|((start, end), value)| (start, end, value))
            .collect()
    };
    let of_set = |set: RangeSet2<K>| set.into_iter().map(|range| (range, 0)).collect();
    let (mine, yours) = (
        of(&[(0, 10, 1), (10, 20, 2)]),
        of(&[(5, 12, 2), (30, 40, 3)]),
    );
    let set = RangeSet2::from([key(8)..key(11), key(35)..key(50)]);
    let mut updated = mine.clone();
    updated.update(key(5)..key(15), |value| value.map(|value| value + 1));
    let depth = RangeMap::depth(&[key(0)..key(5), key(3)..key(9)]);
    let depth = depth
        .into_iter()
        .map(|(range, n)| (range, u32::try_from(n).unwrap()));
    let maps = [
        updated,
        mine.combine(&yours, |a, b| a.xor(b).copied()),
        mine.union_with_left(&yours),
        mine.union_with_right(&yours),
        mine.restrict(&set),
        yours.without(&set),
        depth.collect(),
        of_set(mine.domain()),
        of_set(yours.where_equal(&3)),
    ];
    maps.into_iter().map(listed).collect()
}

#[test]
fn keys_of_another_crate_have_all_calls() {
    let time = |seconds| {
        (
            SystemTime::UNIX_EPOCH + Duration::from_secs(seconds),
            "a key",
        )
    };
    let seconds = |key: &(SystemTime, _)| {
        key.0
            .duration_since(SystemTime::UNIX_EPOCH)
            .unwrap()
            .as_secs()
    };
    let made = made_of_maps(time, seconds);
    assert_eq!(made, made_of_maps(|seconds| seconds, |seconds| *seconds));
    let wanted: [&[(u64, u64, u32)]; 9] = [
        &[(0, 5, 1), (5, 10, 2), (10, 15, 3), (15, 20, 2)],
        &[(0, 5, 1), (12, 20, 2), (30, 40, 3)],
        &[(0, 10, 1), (10, 20, 2), (30, 40, 3)],
        &[(0, 5, 1), (5, 20, 2), (30, 40, 3)],
        &[(8, 10, 1), (10, 11, 2)],
        &[(5, 8, 2), (11, 12, 2), (30, 35, 3)],
        &[(0, 3, 1), (3, 5, 2), (5, 9, 1)],
        &[(0, 20, 0)],
        &[(30, 40, 0)],
    ];
    assert_eq!(made, wanted);
}

/// Closures that count what they see.
#[test]
fn closures_of_maps_may_change_what_they_hold() {
    let mut map = RangeMap::from([(0..10, 1), (10..20, 2), (30..40, 3)]);
    let mut seen = 0;
    map.update(5..35, |value| {
        seen += 1;
        value.map(|value| value + 1)
    });
    assert_eq!(
        (seen, format!("{map:?}")),
        (
            4,
            "{0..5: 1, 5..10: 2, 10..20: 3, 30..35: 4, 35..40: 3}".into()
        )
    );

    let mut sum = 0;
    let doubled = map.combine(&RangeMap::<i32, ()>::new(), |value, _| {
        sum += value?;
        value.map(|value| 2 * value)
    });
    assert_eq!((sum, doubled.len()), (13, 5));

    let mut left = 2;
    map.retain(|_| {
        left -= 1;
        left >= 0
    });
    assert_eq!(format!("{map:?}"), "{0..5: 1, 5..10: 2}");
}

#[cfg(panic = "unwind")]
#[test]
fn a_map_is_empty_after_a_panic_of_what_retains() {
    use std::panic::{catch_unwind, AssertUnwindSafe};

    let mut map = RangeMap::from([(0..10, 1), (10..20, 2)]);
    let call =
        AssertUnwindSafe(|| map.retain(|value| if *value == 2 { panic!("two") } else { true }));
    assert!(catch_unwind(call).is_err());
    assert!(map.is_empty());

    let mut map = RangeMap::from([(0..10, 1), (10..20, 2)]);
    let call =
        AssertUnwindSafe(|| map.retain_ranges(|range, _| !range.contains(&10) || panic!("10")));
    assert!(catch_unwind(call).is_err());
    assert!(map.is_empty());

    let mut set = ChunkedRangeSet::from([0..10, 20..30]);
    let call = AssertUnwindSafe(|| {
        set.retain(|range| {
            if range.contains(&20) {
                panic!("twenty")
            } else {
                true
            }
        })
    });
    assert!(catch_unwind(call).is_err());
    assert!(set.is_empty());
}

/// Ranges of every kind and length, in hundreds of chunks.
fn large(is_endless: bool) -> RangeSet2<u32> {
    let mut set: RangeSet2<u32> = (0..20_000).map(|i| 7 * i..7 * i + 1 + i % 5).collect();
    if is_endless {
        set.insert(1_000_000..);
    }
    set
}

#[test]
fn sets_in_chunks_as_of_a_range_set() {
    for is_endless in [false, true] {
        let set = large(is_endless);
        let chunked = ChunkedRangeSet::from(set.clone());
        assert!(set == chunked && set != ChunkedRangeSet::new());
        assert_eq!(RangeSet2::from(&chunked), set);
        assert_eq!(set.to_string().parse(), Ok(chunked.clone()));

        let other: RangeSet2<u32> = (0..9_000).map(|i| 11 * i..11 * i + 6).collect();
        let others = ChunkedRangeSet::from(other.clone());
        macro_rules! same {
            ($($operator:tt $assigning:tt;)*) => {$(
                let wanted = &set $operator &other;
                let mut changed = chunked.clone();
                changed $assigning &others;
                assert!(wanted == changed);
                let mut changed = chunked.clone();
                changed $assigning others.clone();
                assert!(wanted == changed);
                let mut changed = chunked.clone();
                changed $assigning &other;
                assert!(wanted == changed);
                let mut changed = chunked.clone();
                changed $assigning &*other;
                assert!(wanted == changed);
                assert!(wanted == (&chunked $operator &others) && wanted == (chunked.clone() $operator &other));
            )*};
        }
        same!(| |=; & &=; ^ ^=; - -=;);
        let pair = [&set, &other];
        assert!(&set | &other == ChunkedRangeSet::union_all(pair));
        assert!(&set & &other == ChunkedRangeSet::intersection_all(pair));
        assert!(!&set == !&chunked && !set.clone() == !chunked.clone());

        let (mut kept, mut wanted) = (chunked.clone(), set.clone());
        kept.retain(|range| **range.start() % 2 == 0);
        wanted.retain(|range| **range.start() % 2 == 0);
        assert!(wanted == kept && !kept.is_empty());

        for at in [0, 3, 70_001, 140_000, 2_000_000] {
            let (mut low, mut wanted) = (chunked.clone(), set.clone());
            let mut high = low.split_off(&at);
            assert!(wanted.split_off(&at) == high && wanted == low, "{at}");
            low.append(&mut high);
            assert!(set == low && high.is_empty(), "{at}");
        }
    }
}

/// From both ends, in any order, with the length that is left.
#[test]
fn sets_in_chunks_by_value_from_both_ends() {
    let mut random = Random(7);
    for is_endless in [false, true] {
        for turns in 0..9 {
            let set = large(is_endless);
            let mut wanted = set.iter().copied();
            let mut ranges = ChunkedRangeSet::from(set.clone()).into_iter();
            loop {
                let from_back = match turns {
                    0 => false,
                    1 => true,
                    _ => random.below(turns) > 1,
                };
                assert_eq!(ranges.len(), wanted.len());
                let (range, expected) = if from_back {
                    (ranges.next_back(), wanted.next_back())
                } else {
                    (ranges.next(), wanted.next())
                };
                assert_eq!(range, expected);
                if range.is_none() {
                    break;
                }
            }
            assert_eq!((ranges.next(), ranges.next_back()), (None, None));
        }
    }
}

#[test]
fn sets_in_chunks_of_each_range() {
    let sets: [ChunkedRangeSet<u8>; 8] = [
        (3..5).into(),
        (3..=5).into(),
        (3..).into(),
        (..5).into(),
        (..=5).into(),
        (..).into(),
        RangeSetRange::Range(9..9).into(),
        [3..5, 4..9, 20..30].into(),
    ];
    let texts = sets.map(|set| set.to_string());
    assert_eq!(
        texts,
        [
            "3..5",
            "3..6",
            "3..",
            "0..5",
            "0..6",
            "0..",
            "",
            "3..9, 20..30"
        ]
    );
    assert!("3..5, x".parse::<ChunkedRangeSet<u8>>().is_err());
}

#[test]
fn a_space_is_its_set() {
    let set = ChunkedRangeSet::from([0u64..64, 80..128]);
    let space = ChunkedSpace::from(set.clone());
    assert_eq!(
        (space.ranges_len(), space.span(), space.rank(&100)),
        (2, set.span(), 84)
    );
    assert_eq!(hash(&space), hash(&set));
    assert!((&space).into_iter().eq(&set));
    assert!(space.clone().into_iter().rev().eq(set.into_iter().rev()));
    assert_eq!(space.to_string().parse().as_ref(), Ok(&space));
    let space = fallible::ChunkedSpace::from(space);
    assert_eq!((space.ranges_len(), space.select(64)), (2, Some(80)));
    assert_eq!(space.to_string().parse().as_ref(), Ok(&space));
}

#[allow(clippy::reversed_empty_ranges)]
#[test]
fn a_space_says_what_changed() {
    let mut space = ChunkedSpace::from_ranges([10u8..20, 30..40]);
    let before = space.clone();
    for range in [12..12, 25..20, 10..20, 31..39] {
        assert!(!space.insert_changed(range.clone()), "{range:?}");
    }
    for range in [5..5, 45..41, 20..30, 0..10] {
        assert!(!space.remove_changed(range.clone()), "{range:?}");
    }
    assert_eq!(space, before);
    assert!(space.insert_changed(15..25) && space.insert_changed(250..));
    assert!(
        !space.insert_changed(250..) && space.remove_changed(..=10) && space.remove_changed(39..)
    );
    assert_eq!(space.to_string(), "11..25, 30..39");
    space.extend([3..3, 5..9]);
    assert_eq!(space.to_string(), "5..9, 11..25, 30..39");
}

#[test]
fn trackers_of_sets() {
    let set: RangeSet2<u64> = [0..10, 20..30].into();
    macro_rules! compare {
        ($($tracker:ident)*) => {$(
            let mut file = $tracker::from_set(4, &set).unwrap();
            assert_eq!((file.limit(), file.to_string()), (4, "0..10, 20..30".into()));
            assert_eq!(format!("{file:>14}|"), " 0..10, 20..30|");
            assert!((&file).into_iter().copied().eq(set.iter().copied()));
            let refused = Err(TrackError::TooMany { boundaries: 4 });
            assert_eq!($tracker::from_set(3, &set), refused);
            let mut endless = $tracker::from_set(9, &RangeSet2::from(5..)).unwrap();
            assert_eq!(endless.to_string(), format!("5..{}", u64::MAX));
            endless.clear();
            assert_eq!(endless.to_string(), "");

            assert!(file == $tracker::from_set(4, &set).unwrap());
            assert!(file != $tracker::from_set(5, &set).unwrap());
            assert!(file != $tracker::from_set(4, &RangeSet2::from(0..10)).unwrap());
            file.clear();
            assert_eq!((file.covered(), file.limit(), file.to_string()), (0, 4, String::new()));
            file.record(7..9).unwrap();
            assert!(file.has(7..9));
        )*};
    }
    compare!(Tracker ChunkedTracker);
}

#[test]
fn trackers_become_sets() {
    let set: RangeSet2<u64> = [0..10, 20..30].into();
    assert_eq!(RangeSet2::from(Tracker::from_set(4, &set).unwrap()), set);
    let chunked = ChunkedTracker::from_set(4, &set).unwrap();
    assert!(set == ChunkedRangeSet::from(chunked));
    let commands = [Command::Add(0..10), Command::Forget(4..6)];
    assert_eq!(commands.clone(), commands);
}

#[cfg(feature = "serde")]
#[test]
fn trackers_and_ranges_in_json() {
    fn read<T: serde::de::DeserializeOwned>(json: &str) -> Result<T, String> {
        serde_json::from_str(json).map_err(|error| error.to_string())
    }
    let file =
        Tracker::from_set(4, &[0..10, 20..30].into_iter().collect::<RangeSet2<u64>>()).unwrap();
    let json = serde_json::to_string(&file).unwrap();
    assert_eq!(json, "[4,[0,10,20,30]]");
    assert_eq!(read::<Tracker>(&json), Ok(file));
    let chunked: ChunkedTracker = read(&json).unwrap();
    assert_eq!(serde_json::to_string(&chunked).unwrap(), json);
    let most = format!("[{},[]]", usize::MAX);
    for (json, error) in [
        ("[3,[0,10,20,30]]", "too many boundaries: 4"),
        (&most, "the limit is more than a list can have"),
    ] {
        assert_eq!(read::<Tracker>(json).unwrap_err(), error);
        assert_eq!(read::<ChunkedTracker>(json).unwrap_err(), error);
    }

    let ranges: Vec<RangeSetRange<i8>> = vec![(-3..4).into(), (5..).into()];
    assert_eq!(serde_json::to_string(&ranges).unwrap(), "[[-3,4],[5,null]]");
    let borrowed: Vec<_> = ranges.iter().map(RangeSetRange::as_ref).collect();
    assert_eq!(
        serde_json::to_string(&borrowed).unwrap(),
        "[[-3,4],[5,null]]"
    );
    assert_eq!(read("[[-3,4],[5,null]]"), Ok(ranges));
    assert!(
        read::<RangeSetRange<i8>>("[1]").is_err() && read::<RangeSetRange<i8>>("[1,200]").is_err()
    );
}
