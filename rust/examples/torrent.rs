//! A file of a million pieces that come in random order: which are here, which one to ask for next,
//! and what a player may read already.

use range_sets::ChunkedRangeSet;
use std::ops::Range;

const PIECES: u64 = 1_000_000;
/// Bytes in a piece.
const PIECE: u64 = 16 * 1024;

struct Download {
    here: ChunkedRangeSet<u64>,
}

impl Download {
    /// Notes that a piece has come. A piece that comes twice changes nothing.
    fn put(&mut self, piece: u64) {
        self.here.insert(piece * PIECE..(piece + 1) * PIECE);
    }

    /// Gives a piece up whose checksum is wrong.
    fn give_up(&mut self, piece: u64) {
        self.here.remove(piece * PIECE..(piece + 1) * PIECE);
    }

    /// The first piece from this one on that isn't here.
    fn next_missing(&self, piece: u64) -> Option<u64> {
        let byte = *self.here.next_gap(&(piece * PIECE))?;
        (byte < PIECES * PIECE).then_some(byte / PIECE)
    }

    /// Whether a player may read these bytes.
    fn has(&self, bytes: Range<u64>) -> bool {
        self.here.contains_range(bytes)
    }
}

/// All pieces, shuffled: the same in every run.
fn shuffled() -> Vec<u64> {
    let mut pieces: Vec<u64> = (0..PIECES).collect();
    let mut random = 1u64;
    for last in (1..pieces.len()).rev() {
        random ^= random << 13;
        random ^= random >> 7;
        random ^= random << 17;
        pieces.swap(last, (random % (last as u64 + 1)) as usize);
    }
    pieces
}

fn main() {
    let here = ChunkedRangeSet::new();
    let mut download = Download { here };
    let pieces = shuffled();
    let (first_half, second_half) = pieces.split_at(pieces.len() / 2);
    for &piece in first_half {
        download.put(piece);
    }
    println!(
        "{} ranges after half of the pieces",
        download.here.ranges_len()
    );

    let missing = download.next_missing(0).expect("half of them are missing");
    assert!(!first_half.contains(&missing) && !download.has(missing * PIECE..missing * PIECE + 1));
    for &piece in second_half {
        download.put(piece);
    }
    download.give_up(70_000);
    assert_eq!(download.next_missing(0), Some(70_000));
    download.put(70_000);
    assert_eq!(download.next_missing(0), None);
    assert!(download.has(0..PIECES * PIECE));
    println!("{} range in the end", download.here.ranges_len());
}
