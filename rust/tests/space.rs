//! Spaces find what a set finds that reads each gap.

mod common;

use common::{one_in, Random};
use range_sets::{fallible, ChunkedRangeSet, ChunkedSpace, Countable, FromPlace, RangeSetEntry};
use std::cell::Cell;
use std::net::Ipv4Addr;
use std::ops::Range;

/// Below which number the ends of a sequence's ranges lie, how long these are at most, how many
/// changes there are, and of how many one frees.
struct Shape {
    limit: u64,
    longest: u64,
    changes: u64,
    one_frees_of: u64,
}

const SHORT: Shape = Shape {
    limit: 64,
    longest: 12,
    changes: 24,
    one_frees_of: 3,
};

/// Many parts of which something is remembered, which are split and forgotten.
const LONG: Shape = Shape {
    limit: 100_000,
    longest: 8,
    changes: 30_000,
    one_frees_of: 4,
};

fn any_range(random: &mut Random, shape: &Shape) -> Range<u64> {
    let start = random.below(shape.limit);
    let longest = match random.below(256) {
        0 => shape.limit / 8,
        _ => shape.longest,
    };
    let end = (start + random.below(longest)).min(shape.limit);
    match random.below(16) {
        0 => end..start,
        _ => start..end,
    }
}

fn any_within(random: &mut Random, shape: &Shape) -> Range<u64> {
    match random.below(4) {
        0 => any_range(random, shape),
        1 => random.below(shape.limit)..shape.limit,
        _ => 0..shape.limit,
    }
}

/// Changes both alike.
fn change(
    random: &mut Random,
    shape: &Shape,
    space: &mut ChunkedSpace<u64>,
    set: &mut ChunkedRangeSet<u64>,
) {
    let range = any_range(random, shape);
    match random.below(8_000) {
        0 => {
            space.remove(range.start..);
            set.remove(range.start..);
        }
        1 => {
            space.insert(range.start..);
            set.insert(range.start..);
        }
        _ if random.below(shape.one_frees_of) == 0 => {
            space.remove(range.clone());
            set.remove(range);
        }
        _ => {
            space.insert(range.clone());
            set.insert(range);
        }
    }
}

fn follow(random: &mut Random, shape: &Shape) {
    let (mut space, mut set) = (ChunkedSpace::new(), ChunkedRangeSet::new());
    for _ in 0..shape.changes {
        change(random, shape, &mut space, &mut set);
        let within = any_within(random, shape);
        let len = random.below(shape.longest);
        assert_eq!(
            space.first_fit(within.clone(), len),
            set.first_fit_unchanged(within.clone(), len)
        );
        let (count, align) = (len.into(), random.below(5).into());
        assert_eq!(
            space.first_fit_aligned(within.clone(), count, align),
            set.first_fit_aligned(within, count, align)
        );
    }
    assert!(space.iter().eq(set.iter()));
    assert_eq!(space.covered(), set.covered());
    let mut copy = space.clone();
    for len in 0..shape.longest {
        let within = any_within(random, shape);
        assert_eq!(
            copy.first_fit(within.clone(), len),
            space.first_fit(within, len)
        );
    }
    copy.remove(..);
    assert_eq!((space.as_set(), copy.is_empty()), (&set, true));
    assert_eq!(ChunkedRangeSet::from(space), set);
}

#[test]
fn short_sequences_find_alike() {
    let mut random = Random(42);
    for _ in (0..10_000).step_by(one_in()) {
        follow(&mut random, &SHORT);
    }
}

#[test]
fn long_sequences_find_alike() {
    let mut random = Random(42);
    for _ in (0..4).step_by(one_in()) {
        follow(&mut random, &LONG);
    }
}

/// What asks for a set takes a space too.
fn lowest(set: impl AsRef<ChunkedRangeSet<u64>>) -> Option<u64> {
    set.as_ref().first().map(|range| **range.start())
}

#[test]
fn a_space_answers_what_its_set_does() {
    let mut space = ChunkedSpace::from_ranges([20u64..30, 3..5]);
    space.insert(250..);
    let set = space.as_set();
    assert_eq!(set.to_string(), "3..5, 20..30, 250..");
    assert_eq!(
        format!("{space}|{space:>21}|{space:*<21}"),
        "3..5, 20..30, 250..|  3..5, 20..30, 250..|3..5, 20..30, 250..**"
    );
    assert_eq!((set.next_gap(&22), set.next_gap(&260)), (Some(&30), None));
    assert!(set.contains_range(250..) && !set.intersects_range(5..=19));
    assert_eq!((set.rank(&25), set.ranges_len()), (7, 3));
    assert_eq!(set.first_fit_aligned(0..100, 8, 8), Some(8));
    assert!(set.gaps(&0..&20).eq([&0..&3, &5..&20]));
    let fallible = fallible::ChunkedSpace::from(space.clone());
    assert_eq!((lowest(fallible), lowest(space)), (Some(3), Some(3)));
}

/// Each gap has 8 numbers, of which 4 stand past a multiple of 8.
#[test]
fn gaps_without_a_multiple_are_passed() {
    let mut space: ChunkedSpace<u64> = (0..2_000).map(|i| 16 * i + 4..16 * i + 12).collect();
    assert_eq!(space.first_fit(4..64_000, 8), Some(12));
    for _ in 0..2 {
        assert_eq!(space.first_fit_aligned(4..64_000, 8, 8), Some(32_000));
        assert_eq!(space.first_fit_aligned(4..32_000, 8, 8), None);
        assert_eq!(space.first_fit_aligned(4..64_000, 8, 4), Some(12));
        assert_eq!(space.first_fit_aligned(4..64_000, 4, 8), Some(16));
        assert_eq!(space.first_fit_aligned(4..64_000, 4, 0), None);
    }
    space.remove(16_020..16_024);
    assert_eq!(space.first_fit_aligned(4..64_000, 8, 8), Some(16_016));
    assert_eq!(space.first_fit_aligned(16_020..64_000, 0, 8), Some(16_024));
}

/// A range leaves its end out, so the greatest value lies in one without an end.
#[test]
fn the_greatest_value_is_found() {
    let mut space = ChunkedSpace::new();
    space.insert(0u8..250);
    assert_eq!(space.first_fit(0..255, 5), Some(250));
    assert_eq!(space.first_fit(0..255, 6), None);
    assert_eq!(space.first_fit(0.., 6), Some(250));
    assert_eq!(space.first_fit_count(0..=255, 6), Some(250));
    assert_eq!(space.first_fit_count(0.., 7), None);
    assert_eq!(space.first_fit_aligned(.., 2, 254), Some(254));

    let mut pool = ChunkedSpace::new();
    pool.insert(..Ipv4Addr::new(255, 255, 255, 128));
    let block = Some(Ipv4Addr::new(255, 255, 255, 128));
    assert_eq!(pool.first_fit_aligned(.., 128, 128), block);
    pool.insert(Ipv4Addr::BROADCAST..);
    assert_eq!(pool.first_fit_aligned(.., 128, 128), None);
    assert_eq!(pool.first_fit_aligned(.., 64, 64), block);
}

#[test]
fn a_space_is_what_it_holds() {
    let mut space = ChunkedSpace::default();
    space.insert(3u64..5);
    assert_eq!(format!("{space:?}"), "{3..5}");
    assert!(space.contains(&4) && space.intersects_range(4..9) && !space.is_empty());
    assert!(space.gaps(&0..&9).eq([&0..&3, &5..&9]));

    let mut fallible = fallible::ChunkedSpace::from(space);
    assert!(fallible.insert(7..).is_ok() && fallible.remove(4..5).is_ok());
    assert_eq!(fallible.first_fit(0..9, 3), Some(0));
    assert_eq!(fallible.first_fit_count(1..9, 3), Some(4));
    assert_eq!(fallible.first_fit_aligned(1..9, 2, 5), Some(5));
    assert_eq!(format!("{fallible:?}"), "{3..4, 7..}");
    fallible.clear();
    assert!(ChunkedSpace::from(fallible).is_empty());
}

thread_local!(static ASKED: Cell<usize> = const { Cell::new(0) });

/// A number that counts how often the place of one is asked for.
#[derive(Clone, Copy, PartialEq, Eq, PartialOrd, Ord)]
struct Counted(u64);

impl RangeSetEntry for Counted {
    fn min_value() -> Self {
        Counted(0)
    }

    fn is_min_value(&self) -> bool {
        self.0 == 0
    }
}

impl Countable for Counted {
    fn place(&self) -> u128 {
        ASKED.with(|asked| asked.set(asked.get() + 1));
        self.0.into()
    }
}

impl FromPlace for Counted {
    fn zero() -> u128 {
        0
    }

    fn greatest() -> Self {
        Counted(u64::MAX)
    }

    fn from_place(place: u128) -> Option<Self> {
        u64::try_from(place).ok().map(Counted)
    }
}

/// The first of two numbers in a row that are free, and how many places were asked for.
fn first_two(space: &mut ChunkedSpace<Counted>) -> (Option<u64>, usize) {
    let before = ASKED.with(Cell::get);
    let first = space.first_fit_count(Counted(0)..Counted(1_000_000), 2);
    (first.map(|at| at.0), ASKED.with(Cell::get) - before)
}

/// Of 100,000 gaps of one number each some 200 bounds are remembered, of which a change forgets one
/// or two.
#[test]
fn what_is_remembered_is_not_read_again() {
    let mut space: ChunkedSpace<Counted> = ChunkedSpace::new();
    for i in 0..100_000 {
        space.insert(Counted(2 * i)..Counted(2 * i + 1));
    }
    let (first, all) = first_two(&mut space);
    assert!(first == Some(199_999) && all >= 100_000);
    let (first, again) = first_two(&mut space);
    assert!(first == Some(199_999) && again < 3_000, "{again}");
    let mut random = Random(42);
    for _ in (0..2_000).step_by(one_in()) {
        let at = 2 * random.below(100_000);
        space.remove(Counted(at)..Counted(at + 1));
        let (first, asked) = first_two(&mut space);
        assert!(
            first == Some(at.saturating_sub(1)) && asked < 10_000,
            "{at}: {asked}"
        );
        space.insert(Counted(at)..Counted(at + 1));
        let (first, asked) = first_two(&mut space);
        assert!(first == Some(199_999) && asked < 10_000, "{at}: {asked}");
    }
    space.insert(Counted(0)..Counted(199_999));
    let (first, once) = first_two(&mut space);
    assert!(first == Some(199_999) && once < 50, "{once}");
}

/// The first even number that is free, and how many places were asked for.
fn first_even(space: &mut ChunkedSpace<Counted>) -> (Option<u64>, usize) {
    let before = ASKED.with(Cell::get);
    let first = space.first_fit_aligned(Counted(0)..Counted(1_000_000), 1, 2);
    (first.map(|at| at.0), ASKED.with(Cell::get) - before)
}

/// What is learned of a part for another multiple doesn't take the place of what is known of the
/// whole.
#[test]
fn what_is_remembered_of_the_whole_stays() {
    let mut space: ChunkedSpace<Counted> = ChunkedSpace::new();
    for i in 0..100_000 {
        space.insert(Counted(2 * i)..Counted(2 * i + 1));
    }
    let (first, all) = first_even(&mut space);
    assert!(first == Some(200_000) && all >= 100_000);
    // Each search begins within the numbers of 512 gaps, and ends within those of the next.
    for start in (512..190_000).step_by(1_024) {
        let within = Counted(start)..Counted(start + 900);
        assert!(space.first_fit_aligned(within, 1, 4).is_none());
    }
    let (first, again) = first_even(&mut space);
    assert!(first == Some(200_000) && again < 3_000, "{again}");
}

/// What is known of the multiples of 2 holds of those of 4 and 8 too, so a search for these leaves
/// it.
#[test]
fn what_is_remembered_of_multiples_is_not_read_again() {
    let mut space: ChunkedSpace<Counted> = ChunkedSpace::new();
    for i in 0..100_000 {
        space.insert(Counted(4 * i)..Counted(4 * i + 1));
    }
    let mut aligned = |align| {
        let before = ASKED.with(Cell::get);
        let first = space.first_fit_aligned(Counted(0)..Counted(1_000_000), 3, align);
        let expected = if align == 2 { 399_998 } else { 400_000 };
        assert_eq!(first.map(|at| at.0), Some(expected), "{align}");
        ASKED.with(Cell::get) - before
    };
    assert!(aligned(2) >= 100_000);
    for align in [4, 2, 8, 2, 4] {
        let asked = aligned(align);
        assert!(asked < 3_000, "{asked} for {align}");
    }
}
