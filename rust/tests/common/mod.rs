//! What the tests share: sets as bitmaps, and made-up numbers.
#![allow(dead_code)]

pub mod counting;

use range_sets::{Array, RangeSet, RangeSetRef};
use std::collections::hash_map::DefaultHasher;
use std::hash::{Hash, Hasher};

/// A set as its members among 0 to 63, bit by bit. The highest bit also stands for all values
/// above.
pub type Bitmap = u64;

/// The strictly sorted list of the places at which a bitmap switches.
pub fn boundaries(bits: Bitmap) -> Vec<u8> {
    let is_on = |i: u8| bits >> i & 1 == 1;
    (0..64)
        .filter(|&i| is_on(i) != (i > 0 && is_on(i - 1)))
        .collect()
}

/// The set of a bitmap, made without an operation.
pub fn set<A: Array<Item = u8>>(bits: Bitmap) -> RangeSet<A> {
    RangeSet::new(boundaries(bits).into_iter().collect()).expect("they are sorted")
}

/// The bitmap of a set, by asking for each value.
pub fn bitmap(set: &RangeSetRef<u8>) -> Bitmap {
    (0..64)
        .filter(|i| set.contains(i))
        .fold(0, |bits, i| bits | 1 << i)
}

/// The hash of a value, the same in every run.
pub fn hash(value: &(impl Hash + ?Sized)) -> u64 {
    let mut hasher = DefaultHasher::new();
    value.hash(&mut hasher);
    hasher.finish()
}

/// The four operations that have names of their own.
#[derive(Clone, Copy, Debug)]
pub enum Operation {
    Union,
    Intersection,
    Difference,
    SymmetricDifference,
}

pub const OPERATIONS: [Operation; 4] = [
    Operation::Union,
    Operation::Intersection,
    Operation::Difference,
    Operation::SymmetricDifference,
];

impl Operation {
    pub fn of(self, a: Bitmap, b: Bitmap) -> Bitmap {
        match self {
            Self::Union => a | b,
            Self::Intersection => a & b,
            Self::Difference => a & !b,
            Self::SymmetricDifference => a ^ b,
        }
    }
}

/// Made-up numbers, the same in every run.
pub struct Random(pub u64);

impl Random {
    pub fn next(&mut self) -> u64 {
        self.0 ^= self.0 << 13;
        self.0 ^= self.0 >> 7;
        self.0 ^= self.0 << 17;
        self.0
    }

    pub fn below(&mut self, n: u64) -> u64 {
        (self.next() >> 16) % n
    }

    /// A bitmap of few or of many ranges.
    pub fn bitmap(&mut self) -> Bitmap {
        match self.below(4) {
            0 => self.next(),
            1 => self.next() & self.next() & self.next(),
            2 => ((1 << self.below(63)) - 1) ^ ((1 << self.below(63)) - 1),
            _ => {
                let (mut bits, mut place, mut on) = (0, 0, false);
                while place < 64 {
                    let len = (1 + self.below(20)).min(64 - place);
                    if on {
                        bits |= (!0 >> (64 - len)) << place;
                    }
                    place += len;
                    on = !on;
                }
                bits
            }
        }
    }
}

/// Of how many cases one is tried: of each, or of as many as RANGE_SETS_ONE_IN says, for a
/// processor that is emulated.
pub fn one_in() -> usize {
    std::env::var("RANGE_SETS_ONE_IN").map_or(1, |it| it.parse().expect("it is a number"))
}

/// Pairs of bitmaps: all of six places, and made-up ones of all 64.
pub fn pairs() -> impl Iterator<Item = (Bitmap, Bitmap)> {
    let spread = |bits: u64| {
        (0..6)
            .filter(|i| bits >> i & 1 == 1)
            .fold(0u64, |wide, i| wide | SPREAD[i as usize])
    };
    let all = (0..64).flat_map(move |a| (0..64).map(move |b| (spread(a), spread(b))));
    let mut random = Random(0x2545_f491_4f6c_dd1d);
    all.chain((0..MADE_UP).map(move |_| (random.bitmap(), random.bitmap())))
        .step_by(one_in())
}

/// Where six places lie among 64: the first is the least value, the last has no end.
const SPREAD: [u64; 6] = [0x1, 0x2, 0xfc, 0xff00, 0x0fff_0000, 0xffff_ffff_f000_0000];

const MADE_UP: usize = 3000;
