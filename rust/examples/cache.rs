//! A cache of the parts of a file: which bytes are here, which a reader still waits for, and an
//! index that a later run reads.

use range_sets::{RangeSet, RangeSetRef};
use std::error::Error;
use std::ops::Range;

/// Byte offsets. Up to four ranges lie in the value itself.
type Bytes = RangeSet<[u64; 8]>;

struct Cache {
    length: u64,
    here: Bytes,
}

impl Cache {
    fn new(length: u64) -> Self {
        let here = Bytes::empty();
        Cache { length, here }
    }

    /// Notes that a part has come. A server may send more than there is, so what lies beyond the
    /// file's end is dropped.
    fn put(&mut self, part: Range<u64>) {
        self.here.insert(part);
        self.here &= Bytes::from(..self.length);
    }

    /// Gives up a part, say to make room on the disk.
    fn drop_part(&mut self, part: Range<u64>) {
        self.here.remove(part);
    }

    /// The parts to fetch before these bytes can be read: none if all are here.
    fn to_fetch(&self, wanted: &Range<u64>) -> Vec<Range<u64>> {
        let end = wanted.end.min(self.length);
        self.here
            .gaps(&wanted.start..&end)
            .map(|gap| *gap.start..*gap.end)
            .collect()
    }

    /// How many of a hundred bytes are here. A set without an end has no count, and `put` leaves
    /// none.
    fn percent(&self) -> u128 {
        self.here.covered().unwrap_or(0) * 100 / u128::from(self.length.max(1))
    }

    /// The index that is kept beside the file.
    fn index(&self) -> serde_json::Result<String> {
        serde_json::to_string(&(self.length, &self.here))
    }

    /// Reads an index. A damaged one is refused, since bytes that never came could count as here:
    /// its boundaries have to be strictly sorted, and no range may go past the file's end.
    fn of_index(text: &str) -> Result<Self, Box<dyn Error>> {
        let (length, boundaries): (u64, Vec<u64>) = serde_json::from_str(text)?;
        let here = RangeSetRef::new(&boundaries).ok_or("the boundaries aren't strictly sorted")?;
        if !here.is_subset(&Bytes::from(..length)) {
            return Err("a range goes past the end of the file".into());
        }
        let here = here.into();
        Ok(Cache { length, here })
    }
}

// Lists of one range are meant.
#[allow(clippy::single_range_in_vec_init)]
fn main() -> Result<(), Box<dyn Error>> {
    let mut cache = Cache::new(1000);
    cache.put(0..100);
    cache.put(300..400);
    cache.put(900..2000);
    assert_eq!(cache.to_fetch(&(50..350)), [100..300]);
    assert_eq!(cache.to_fetch(&(920..5000)), []);

    cache.drop_part(50..60);
    let index = cache.index()?;
    println!(
        "{}% are here: {}, kept as {index}",
        cache.percent(),
        cache.here
    );

    let again = Cache::of_index(&index)?;
    assert_eq!((again.length, &again.here), (1000, &cache.here));
    assert_eq!(again.to_fetch(&(0..100)), [50..60]);
    let damaged = [
        r#"[1000, [0, "ten"]]"#,
        "[1000, [100, 0]]",
        "[1000, [0, 60, 100]]",
    ];
    for index in damaged {
        assert!(Cache::of_index(index).is_err(), "{index}");
    }
    Ok(())
}
