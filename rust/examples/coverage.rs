//! How deep a genome is covered by a million reads: how many of them have each base. The reads are
//! made here.

use range_sets::RangeMap;
use std::ops::Range;

const READS: usize = 1_000_000;
const BASES: u64 = 5_000_000;

/// The places of reads of 100 to 200 bases, in no order. The middle of the genome is read twice as
/// often as the rest.
fn reads() -> Vec<Range<u32>> {
    let mut random = 1u64;
    let mut below = |n: u64| {
        random ^= random << 13;
        random ^= random >> 7;
        random ^= random << 17;
        (random >> 16) % n
    };
    (0..READS)
        .map(|_| {
            let start = if below(3) == 0 {
                BASES / 3 + below(BASES / 3)
            } else {
                below(BASES)
            };
            start as u32..(start + 100 + below(101)) as u32
        })
        .collect()
}

/// How many bases are covered at least `least` times.
fn bases_at(depth: &RangeMap<u32, usize>, least: usize) -> u64 {
    depth
        .iter()
        .filter(|(_, &n)| n >= least)
        .filter_map(|(range, _)| Some(u64::from(**range.end()? - **range.start())))
        .sum()
}

fn main() {
    let depth = RangeMap::depth(reads());
    println!("{READS} reads make {} ranges of one depth", depth.len());
    for least in [1, 20, 40] {
        let share = bases_at(&depth, least) * 100 / BASES;
        println!("{share}% of the bases are covered {least} times or more");
    }
    let (range, n) = depth
        .iter()
        .max_by_key(|(_, &n)| n)
        .expect("there are reads");
    println!("{n} reads have {range:?}");
}
