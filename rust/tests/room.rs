//! A change in place keeps the room of its set, and what is cleared the room that its page says.

mod common;

use common::counting::{held, most_held, Counting};
use range_sets::{Array, RangeMap, RangeSet, RangeSetEntry};
use std::fmt::Debug;
use std::mem::size_of;

#[global_allocator]
static COUNTING: Counting = Counting;

type Set<T> = RangeSet<[T; 2]>;

/// A set of the boundaries that the numbers give, with room for `room` more.
fn set<T: Ord + From<u8>>(numbers: impl Iterator<Item = u8>, room: usize) -> Set<T>
where
    [T; 2]: Array<Item = T>,
{
    let list = numbers.map(T::from).collect();
    let mut set = RangeSet::new(list).expect("they are sorted");
    set.reserve(room);
    set
}

type Change<T> = fn(&mut Set<T>, &Set<T>);

/// The changes in place, by a borrowed and by an owned set.
fn changes<T: RangeSetEntry + Clone>() -> [(&'static str, Change<T>); 13] {
    [
        ("union_with", |a, b| a.union_with(b)),
        ("intersection_with", |a, b| a.intersection_with(b)),
        ("difference_with", |a, b| a.difference_with(b)),
        ("symmetric_difference_with", |a, b| {
            a.symmetric_difference_with(b)
        }),
        ("|= &", |a, b| *a |= b),
        ("&= &", |a, b| *a &= b),
        ("-= &", |a, b| *a -= b),
        ("^= &", |a, b| *a ^= b),
        ("|=", |a, b| *a |= b.clone()),
        ("&=", |a, b| *a &= b.clone()),
        ("-=", |a, b| *a -= b.clone()),
        ("^=", |a, b| *a ^= b.clone()),
        ("extend", |a, b| a.extend(b.iter().cloned())),
    ]
}

/// How many boundaries each side has: a few, many, and many more on one side.
const LENGTHS: [(u8, u8); 8] = [
    (0, 0),
    (0, 40),
    (1, 1),
    (2, 9),
    (40, 40),
    (90, 2),
    (2, 90),
    (100, 0),
];

fn keep_room<T: RangeSetEntry + Clone + Debug + From<u8>>() {
    for (left, right) in LENGTHS {
        let sides = |room| {
            (
                set::<T>((0..left).map(|i| 2 * i + 2), room),
                set::<T>((0..right).map(|i| 2 * i + 3), 0),
            )
        };
        for (name, change) in changes::<T>() {
            let (mut changed, right_side) = sides(1000);
            let room = changed.capacity();
            change(&mut changed, &right_side);
            assert_eq!(changed.capacity(), room, "{name} {left} {right}");
            // A set without that room may get more.
            let (mut changed, right_side) = sides(0);
            let room = changed.capacity();
            change(&mut changed, &right_side);
            assert!(changed.capacity() >= room, "{name} {left} {right}");
        }
    }
}

/// Longer than eight bytes, without a drop.
#[derive(Clone, Debug, PartialEq, Eq, PartialOrd, Ord)]
struct Long([u64; 3]);

/// Eight bytes, without a drop.
#[derive(Clone, Debug, PartialEq, Eq, PartialOrd, Ord)]
struct Short([u32; 2]);

/// On the heap.
#[derive(Clone, Debug, PartialEq, Eq, PartialOrd, Ord)]
struct Boxed(Box<u8>);

macro_rules! elements {
    ($($name:ident, $of:expr;)*) => {
        $(
            impl From<u8> for $name {
                fn from(number: u8) -> Self {
                    $name($of(number))
                }
            }

            impl RangeSetEntry for $name {
                fn min_value() -> Self {
                    0.into()
                }

                fn is_min_value(&self) -> bool {
                    *self == Self::min_value()
                }
            }
        )*
    };
}

elements! {
    Long, |it: u8| [it.into(), 0, 0];
    Short, |it: u8| [it.into(), 0];
    Boxed, |it: u8| Box::new(it);
}

#[test]
fn numbers_keep_the_room() {
    keep_room::<u8>();
    keep_room::<u64>();
    keep_room::<i128>();
    keep_room::<char>();
}

#[test]
fn other_elements_keep_the_room() {
    keep_room::<Short>();
    keep_room::<Long>();
    keep_room::<Boxed>();
}

/// The most keys of a chunk.
const CHUNK: usize = 128;

/// The chunks' memory is given back, and the room for the list of them stays: it isn't asked for
/// again.
#[test]
fn a_map_that_is_cleared_keeps_the_room_for_its_list_of_chunks() {
    const RANGES: usize = 20_000;
    let before = held();
    let mut map = RangeMap::new();
    let mut rooms = [0; 3];
    for room in &mut rooms {
        for i in 0..RANGES {
            map.insert(10 * i..10 * i + 5, i);
        }
        let full = held() - before;
        map.clear();
        *room = held() - before;
        assert!(map.is_empty());
        assert!(*room < full / 20, "{room} of {full} bytes stay");
    }
    // A chunk in the list is a `Vec` at least.
    let least = (2 * RANGES / CHUNK * size_of::<Vec<usize>>()) as isize;
    assert!(rooms[0] >= least, "{rooms:?} bytes for a list of chunks");
    assert_eq!(rooms, [rooms[0]; 3]);
}

/// Nothing is made of the ranges beside it.
#[test]
fn a_part_of_a_map_takes_room_for_the_part() {
    let map: RangeMap<u64, u64> = (0..10_000).map(|i| (10 * i..10 * i + 6, i)).collect();
    for n in [1, 4, 100] {
        let part: RangeSet<[u64; 2]> = (0..n).map(|i| 980 * i + 3..980 * i + 15).collect();
        let most = most_held(|| map.restrict(&part));
        assert!(most <= 1000 * n as isize, "{most} bytes for {n} ranges");
    }
}
