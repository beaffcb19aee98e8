//! Maps: made-up changes compared with an array of options, texts, iterators, what a value has.
// Maps of one range are meant.
#![allow(clippy::single_range_in_vec_init, clippy::reversed_empty_ranges)]

#[path = "../common/mod.rs"]
mod common;
mod operations;
mod rows;

use common::{hash, one_in, Random};
use range_sets::fallible::InsertError;
use range_sets::{fallible, RangeMap, RangeSetRange};
use std::collections::HashSet;

/// How many keys are looked at. The last one also stands for all above.
const KEYS: usize = 40;

/// The value of each key.
type Cells = [Option<u8>; KEYS];

/// A range below `KEYS`, now and then an empty or a reversed one, or one without an end.
fn any_range(random: &mut Random) -> RangeSetRange<u8> {
    let (start, end) = (
        random.below(KEYS as u64) as u8,
        random.below(KEYS as u64) as u8,
    );
    match random.below(8) {
        0 => (start..).into(),
        1 => (start..end).into(),
        2 => (start..start).into(),
        3 => (start.min(37)..=start.min(38)).into(),
        _ => (start.min(end)..start.max(end)).into(),
    }
}

fn has(range: &RangeSetRange<u8>, key: u8) -> bool {
    *range.start() <= key && range.end().map_or(true, |&end| key < end)
}

/// The longest ranges of one value, by the cells alone.
fn stretches(cells: &Cells) -> Vec<(RangeSetRange<u8>, u8)> {
    let mut found = Vec::new();
    let mut key = 0;
    while key < KEYS {
        let end = (key..KEYS).find(|&i| cells[i] != cells[key]);
        if let Some(value) = cells[key] {
            let range = match end {
                Some(end) => (key as u8..end as u8).into(),
                None => (key as u8..).into(),
            };
            found.push((range, value));
        }
        key = end.unwrap_or(KEYS);
    }
    found
}

fn read<C>(map: &range_sets::map::Map<u8, u8, C>) -> Vec<(RangeSetRange<u8>, u8)> {
    map.iter()
        .map(|(range, &value)| (range.cloned(), value))
        .collect()
}

/// Asks a map all that the cells say.
fn compare(map: &RangeMap<u8, u8>, cells: &Cells, what: &str) {
    for (key, value) in cells.iter().enumerate() {
        assert_eq!(map.get(&(key as u8)), value.as_ref(), "{what}, {key}");
        assert_eq!(map.contains_key(&(key as u8)), value.is_some(), "{what}");
    }
    assert_eq!(map.get(&255), cells[KEYS - 1].as_ref(), "{what}");
    let expected = stretches(cells);
    assert_eq!(read(map), expected, "{what}");
    for key in 0..KEYS as u8 {
        let found = map.get_key_value(&key);
        let found = found.map(|(range, &value)| (range.cloned(), value));
        let around = expected.iter().find(|(range, _)| has(range, key));
        assert_eq!(found.as_ref(), around, "{what}, {key}");
    }
    assert!(map
        .iter()
        .rev()
        .eq(map.iter().collect::<Vec<_>>().into_iter().rev()));
    assert_eq!(map.len(), expected.len(), "{what}");
    let within = KEYS as u8 / 4..KEYS as u8 - 5;
    for range in [within.clone(), 0..3, 7..7, 9..5] {
        let met = expected
            .iter()
            .filter(|(it, _)| range.clone().any(|key| has(it, key)));
        let found = map.overlapping(&range.start..&range.end);
        let found: Vec<_> = found.map(|(it, &value)| (it.cloned(), value)).collect();
        assert!(found.iter().eq(met), "{what}, {range:?}: {found:?}");
        let free: Vec<u8> = range
            .clone()
            .filter(|&key| cells[usize::from(key)].is_none())
            .collect();
        let gaps: Vec<_> = map.gaps(&range.start..&range.end).collect();
        let back = map.gaps(&range.start..&range.end).rev();
        assert!(back.eq(gaps.iter().rev().cloned()), "{what}, {range:?}");
        let both = map.overlapping(&range.start..&range.end).rev();
        let both = both.map(|(it, &value)| (it.cloned(), value));
        assert!(both.eq(found.iter().rev().cloned()), "{what}, {range:?}");
        assert!(
            gaps.iter().all(|gap| gap.start < gap.end),
            "{what}, {range:?}"
        );
        assert!(
            gaps.windows(2).all(|two| two[0].end < two[1].start),
            "{what}, {range:?}"
        );
        let keys: Vec<u8> = gaps
            .into_iter()
            .flat_map(|gap| *gap.start..*gap.end)
            .collect();
        assert_eq!(keys, free, "{what}, {range:?}");
    }
    assert_eq!(map.is_empty(), expected.is_empty(), "{what}");
}

#[test]
fn made_up_changes_as_of_an_array_of_options() {
    for seed in (1..10_000u64).step_by(one_in()) {
        let mut random = Random(seed.wrapping_mul(0x9e37_79b9_7f4a_7c15) | 1);
        let (mut map, mut cells) = (RangeMap::new(), [None; KEYS]);
        let mut refusing = fallible::RangeMap::new();
        for change in 0..12 {
            let range = any_range(&mut random);
            let value = (random.below(3) > 0).then(|| random.below(3) as u8);
            for key in 0..KEYS as u8 {
                if has(&range, key) {
                    cells[usize::from(key)] = value;
                }
            }
            match value {
                Some(value) => {
                    map.insert(range.clone(), value);
                    refusing.insert(range, value).unwrap();
                }
                None => {
                    map.remove(range.clone());
                    refusing.remove(range).unwrap();
                }
            }
            compare(&map, &cells, &format!("seed {seed}, change {change}"));
            let (range, value) = (any_range(&mut random), random.below(3) as u8);
            let free =
                (0..KEYS as u8).all(|key| !has(&range, key) || cells[usize::from(key)].is_none());
            assert_eq!(map.is_free(range.clone()), free, "seed {seed}, {range:?}");
            let refused = if free {
                Ok(())
            } else {
                Err(InsertError::NotFree(value))
            };
            assert_eq!(refusing.insert_free(range.clone(), value), refused);
            assert_eq!(map.insert_free(range.clone(), value).is_ok(), free);
            for key in 0..KEYS as u8 {
                if free && has(&range, key) {
                    cells[usize::from(key)] = Some(value);
                }
            }
            compare(&map, &cells, &format!("seed {seed}, booking {change}"));
            assert_eq!(read(&refusing), read(&map), "seed {seed}");
        }
        let kept = cells.map(|cell| cell.filter(|&value| value != 1));
        let mut retained = map.clone();
        retained.retain(|&value| value != 1);
        compare(&retained, &kept, &format!("seed {seed}, retain"));
        let collected: RangeMap<u8, u8> = stretches(&cells).into_iter().rev().collect();
        assert!(collected == map && map == map.clone(), "seed {seed}");
        assert_eq!(RangeMap::from(refusing), map, "seed {seed}");
        assert_eq!(map.into_iter().collect::<Vec<_>>(), stretches(&cells));
    }
}

/// In many chunks, which are compared now and then.
#[test]
fn many_changes_as_of_a_long_array_of_options() {
    const PLACES: u32 = 40_000;
    let changes = 400_000 / one_in();
    let mut random = Random(0x9e37_79b9_7f4a_7c15);
    let (mut map, mut cells) = (RangeMap::new(), vec![None; PLACES as usize]);
    let mut most = 0;
    for change in 1..=changes {
        let start = random.below(u64::from(PLACES)) as u32;
        // Few of them lie over many chunks.
        let longest = if random.below(4_000) == 0 {
            PLACES / 2
        } else {
            12
        };
        let end = PLACES.min(start + random.below(u64::from(longest)) as u32);
        let value = (random.below(4) > 0).then(|| random.below(5) as u8);
        cells[start as usize..end as usize].fill(value);
        match value {
            Some(value) => map.insert(start..end, value),
            None => map.remove(start..end),
        }
        if change % (changes / 40) == 0 {
            let mut read = vec![None; PLACES as usize];
            for (range, &value) in &map {
                let end = range.end().expect("each range has an end");
                read[**range.start() as usize..**end as usize].fill(Some(value));
            }
            assert_eq!(read, cells, "change {change}");
            for (key, cell) in (0..).zip(&cells) {
                assert_eq!(map.get(&key), cell.as_ref(), "change {change}, key {key}");
            }
            most = most.max(map.len());
        }
    }
    assert!(most > 2_000 / one_in(), "{most} ranges are in few chunks");
}

#[test]
fn texts() {
    let map: RangeMap<u8, &str> = [(9..12, "Ada"), (20..24, "Eve")].into_iter().collect();
    assert_eq!(format!("{map:?}"), r#"{9..12: "Ada", 20..24: "Eve"}"#);
    assert_eq!(
        format!("{map:#?}"),
        "{\n    9..12: \"Ada\",\n    20..24: \"Eve\",\n}"
    );
    assert_eq!(
        format!("{:?}", map.iter()),
        r#"[(9..12, "Ada"), (20..24, "Eve")]"#
    );
    assert_eq!(format!("{:?}", RangeMap::<u8, u8>::new()), "{}");
}

// The value, whose type can go to other threads.
fn of_any_thread<T: Send + Sync>(value: &T) -> &T {
    value
}

#[test]
fn values() {
    let map = RangeMap::from_iter([(0..5, 'a'), (5..9, 'b')]);
    let others = [
        RangeMap::from_iter([(0..5, 'a'), (5..9, 'a')]),
        RangeMap::from_iter([(0..5, 'a'), (6..9, 'b')]),
        RangeMap::from_iter([(0..5, 'a'), (5..8, 'b')]),
        RangeMap::from_iter([(0..5, 'a')]),
        RangeMap::new(),
    ];
    for other in &others {
        assert_ne!(*other, map);
        assert_ne!(map, *other);
        assert_ne!(hash(other), hash(&map), "{other:?}");
    }
    let same = RangeMap::from_iter([(3..9, 'b'), (0..4, 'a'), (4..5, 'a')]);
    assert!(same == map && hash(&same) == hash(&map));
    assert_eq!(others.into_iter().collect::<HashSet<_>>().len(), 5);
    assert_eq!(RangeMap::<u8, char>::default(), RangeMap::new());
    assert_eq!(of_any_thread(&map)[&5], 'b');
    let refusing: fallible::RangeMap<_, _> = map.clone().into();
    assert_eq!(of_any_thread(&refusing).get(&4), Some(&'a'));
}

#[test]
#[should_panic = "the key has no value"]
fn a_key_without_a_value_panics() {
    let _ = RangeMap::from_iter([(0..5, 'a')])[&5];
}

#[test]
fn iterators_run_from_both_ends() {
    let map = RangeMap::from_iter([(0..2, 'a'), (2..3, 'b'), (5..9, 'c'), (9..12, 'd')]);
    let all: Vec<_> = map.iter().collect();
    for ends in 0..16u32 {
        let (mut ranges, mut front, mut back) = (map.iter(), vec![], vec![]);
        for step in 0..4 {
            if ends >> step & 1 == 1 {
                front.extend(ranges.next());
            } else {
                back.extend(ranges.next_back());
            }
        }
        assert_eq!((ranges.next(), ranges.next_back()), (None, None));
        front.extend(back.into_iter().rev());
        assert_eq!(front, all, "{ends:b}");
    }
}

#[cfg(feature = "serde")]
#[test]
fn written_as_triples() {
    let map: RangeMap<u8, String> = [
        (RangeSetRange::from(20..), "Eve".to_string()),
        ((9..12).into(), "Ada".to_string()),
    ]
    .into_iter()
    .collect();
    let json = r#"[[9,12,"Ada"],[20,null,"Eve"]]"#;
    assert_eq!(serde_json::to_string(&map).unwrap(), json);
    assert_eq!(
        serde_json::from_str::<RangeMap<u8, String>>(json).unwrap(),
        map
    );
    let read: fallible::RangeMap<u8, u8> =
        serde_json::from_str("[[5,9,1],[0,6,2],[3,3,4],[9,2,5]]").unwrap();
    assert_eq!(serde_json::to_string(&read).unwrap(), "[[0,6,2],[6,9,1]]");
    for (json, error) in [("[[2,9]]", "invalid length 2"), ("7", "invalid type")] {
        let found = serde_json::from_str::<RangeMap<u8, u8>>(json).unwrap_err();
        assert!(found.to_string().starts_with(error), "{json}: {found}");
    }
}

/// What an update makes of a value, or of none.
type Op = fn(Option<&u32>) -> Option<u32>;

/// Within a chunk of steps, across some, up to the ends of all, and such that no step is left.
#[test]
fn updates_of_a_part_of_many_ranges() {
    let map: RangeMap<u32, u32> = (0..400).map(|i| (10 * i..10 * i + 5, i % 3)).collect();
    let keys = [0, 3, 637, 640, 645, 2560, 3995, 9000];
    let ops: [Op; 5] = [
        |value| value.map(|it| it + 1),
        |value| value.copied().or(Some(1)),
        |value| value.copied(),
        |_| Some(2),
        |_| None,
    ];
    let of_range = |range: RangeSetRange<u32>, op: Op| {
        let mut updated = map.clone();
        updated.update(range.clone(), op);
        let asked = map.combine(
            &RangeMap::from([(range.clone(), ())]),
            |value, is_touched| match is_touched {
                Some(()) => op(value),
                None => value.copied(),
            },
        );
        assert_eq!(updated, asked, "{range:?}");
        assert_eq!(updated.len(), asked.len(), "{range:?}");

        let mut same = fallible::RangeMap::new();
        for (own, value) in &map {
            same.insert(own.cloned(), *value).unwrap();
        }
        same.update(range.clone(), |value| Ok(op(value))).unwrap();
        assert!(same.iter().eq(&updated), "{range:?}");
    };
    for op in ops {
        for start in keys {
            of_range((start..).into(), op);
            for end in keys {
                of_range((start..end).into(), op);
            }
        }
    }
}
