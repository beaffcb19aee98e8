//! Calls of maps and sets in chunks of `fallible` beside the same calls of those that end the
//! process.

mod common;

use common::{one_in, Random};
use range_sets::{fallible, ChunkedRangeSet, RangeMap};

fn made_up(random: &mut Random) -> RangeMap<u8, u8> {
    let ranges = (0..random.below(6)).map(|_| {
        let start = random.below(14) as u8;
        (
            start..start + 1 + random.below(2) as u8,
            random.below(3) as u8,
        )
    });
    ranges.collect()
}

/// A call of a map or a set, and of the same in `fallible`, in which it returns a `Result` or not:
/// both return the same, and make the same of it and of what they take from.
macro_rules! same {
    ($form:ident: $own:expr, |$it:ident| $call:expr, |$result:ident| $returned:expr) => {{
        let (mut own, mut fallible) = ($own.clone(), fallible::$form::from($own.clone()));
        let wanted = {
            let $it = &mut own;
            $call
        };
        let $it = &mut fallible;
        let $result = $call;
        assert_eq!($returned, wanted, "{}", stringify!($call));
        assert_eq!(own, fallible.into(), "{}", stringify!($call));
    }};
}

#[test]
fn fallible_maps_do_the_same() {
    let fallible_of = fallible::RangeMap::from;
    let mut random = Random(63);
    for _ in (0..2000).step_by(one_in()) {
        let (map, at) = (made_up(&mut random), random.below(16) as u8);
        same!(RangeMap: map, |map| map.pop_first(), |it| it.unwrap());
        same!(RangeMap: map, |map| map.pop_last(), |it| it.unwrap());
        same!(RangeMap: map, |map| map.split_off(&at), |it| RangeMap::from(
            it.unwrap()
        ));
        same!(
            RangeMap: map,
            |map| map.retain_ranges(|range, _| range.contains(&at)),
            |it| it
        );

        let (mut own, mut fallible) = (map.clone(), fallible_of(map));
        let is_changed = own.modify(&at, |value| *value = (*value + 1) % 3);
        let result = fallible.modify(&at, |value| {
            *value = (*value + 1) % 3;
            Ok(())
        });
        assert_eq!(result, Ok(is_changed));

        let mut more = made_up(&mut random);
        let mut fallible_more = fallible_of(more.clone());
        own.append(&mut more);
        fallible.append(&mut fallible_more).unwrap();
        assert!(fallible_more.is_empty());
        assert_eq!(own, fallible.into());
    }
}

#[test]
fn fallible_sets_in_chunks_do_the_same() {
    let fallible_of = fallible::ChunkedRangeSet::from;
    for is_endless in [false, true] {
        let mut set: ChunkedRangeSet<u32> = (0..20_000).map(|i| 7 * i..7 * i + 1 + i % 5).collect();
        if is_endless {
            set.insert(1_000_000..);
        }
        same!(
            ChunkedRangeSet: set,
            |set| set.retain(|range| **range.start() % 2 == 0),
            |it| it
        );
        for at in [0, 3, 70_001, 140_000, 2_000_000] {
            same!(ChunkedRangeSet: set, |set| set.split_off(&at), |it| {
                ChunkedRangeSet::from(it.unwrap())
            });
            let (mut low, mut high) = (fallible_of(set.clone()), fallible_of(set.clone()));
            low.retain(|range| **range.start() < at);
            high.retain(|range| **range.start() >= at);
            low.append(&mut high).unwrap();
            assert!(high.is_empty() && set == low.into(), "{at}");
        }
    }
}
