//! Which parts of a file have come: offsets under a limit.
//!
//! Pieces of a file, or of a stream, come in any order. A [`Tracker`] knows which offsets are there
//! and which are missing, and never keeps more boundaries than its limit, so that a peer who sends
//! pieces far apart can't make it grow. A refusal is an error, and leaves the tracker as it was.

mod calls;

use crate::any_range::AnyRange;
use crate::chunked::ChunkedRangeSet;
use crate::generated::range_chunked_tracker;
use crate::generated::range_list::Chunks;
use crate::generated::range_tracker;
use crate::memory::AllocError;
use crate::range::RangeSetRange;
use crate::range_set::{RangeSet2, RangeSetRef};
use crate::support::Global;
use core::ops::Range;

/// # Examples
///
/// ```
/// use range_sets::tracker::{Command, Tracker};
///
/// let mut replies = [Ok(())];
/// Tracker::new(4).run(&[Command::Add(0..10)], &mut replies);
/// assert_eq!(replies, [Ok(())]);
/// ```
pub use crate::generated::range_tracker::Command;
/// # Examples
///
/// ```
/// use range_sets::tracker::{TrackError, Tracker};
///
/// assert_eq!(Tracker::new(0).record(0..10), Err(TrackError::TooMany { boundaries: 2 }));
/// ```
pub use crate::generated::range_tracker::TrackError;

/// Which offsets are there, in at most as many ranges as a limit allows.
///
/// Offsets are the numbers below `u64::MAX`: a range without an end, as `20..`, ends there.
///
/// # Examples
///
/// ```
/// use range_sets::tracker::{TrackError, Tracker};
///
/// let mut file = Tracker::new(4);
/// file.record(0..10)?;
/// file.record(20..30)?;
/// assert_eq!(file.record(40..50), Err(TrackError::TooMany { boundaries: 6 }));
/// file.record(10..20)?;
/// assert!(file.has(0..30));
/// assert_eq!(file.missing(40).unwrap().to_string(), "30..40");
/// # Ok::<(), TrackError>(())
/// ```
pub struct Tracker(range_tracker::Tracker);

impl Tracker {
    /// Returns a tracker without offsets that keeps at most `limit` boundaries, two for each range.
    ///
    /// # Panics
    ///
    /// Panics if the limit is more than `usize::MAX - 2`.
    ///
    /// # Examples
    ///
    /// ```
    /// use range_sets::tracker::Tracker;
    ///
    /// assert_eq!(Tracker::new(64).covered(), 0);
    /// ```
    #[must_use]
    pub fn new(limit: usize) -> Self {
        Tracker(range_tracker::Tracker::new(Global, checked(limit)))
    }

    fn copied(&self) -> Result<Self, AllocError> {
        let mut copy = Self::new(self.0.limit);
        copy.0.set = self.0.set.try_clone()?;
        Ok(copy)
    }

    fn missing_below(&self, len: u64) -> Result<RangeSet2<u64>, AllocError> {
        let missing = self.0.missing(len)?;
        Ok(RangeSet2::of_list(missing.into_inner()))
    }

    /// The offsets that have come, as `gaps` looks at them.
    fn there(&self) -> &RangeSetRef<u64> {
        RangeSetRef::over(self.0.set.as_ref().boundaries())
    }
}

impl From<Tracker> for RangeSet2<u64> {
    fn from(tracker: Tracker) -> Self {
        RangeSet2::of_list(tracker.0.set.into_inner())
    }
}

/// Which offsets are there, of a file with many gaps: a [`Tracker`] whose boundaries lie in chunks,
/// so that a piece takes about as long among a million ranges as among a few.
///
/// Offsets are the numbers below `u64::MAX`: a range without an end, as `20..`, ends there.
///
/// # Examples
///
/// ```
/// use range_sets::tracker::{ChunkedTracker, TrackError};
///
/// let mut file = ChunkedTracker::new(4)?;
/// file.record(0..10)?;
/// file.record(20..30)?;
/// assert_eq!(file.record(40..50), Err(TrackError::TooMany { boundaries: 6 }));
/// file.record(10..20)?;
/// assert!(file.has(0..30));
/// assert_eq!(file.missing(40)?.to_string(), "30..40");
/// # Ok::<(), Box<dyn std::error::Error>>(())
/// ```
pub struct ChunkedTracker(range_chunked_tracker::ChunkedTracker);

impl ChunkedTracker {
    /// Returns a tracker without offsets that keeps at most `limit` boundaries, two for each range.
    /// It asks for the memory of one range.
    ///
    /// # Errors
    ///
    /// If memory runs out.
    ///
    /// # Panics
    ///
    /// Panics if the limit is more than `usize::MAX - 2`.
    ///
    /// # Examples
    ///
    /// ```
    /// use range_sets::tracker::ChunkedTracker;
    ///
    /// assert_eq!(ChunkedTracker::new(64).unwrap().covered(), 0);
    /// ```
    pub fn new(limit: usize) -> Result<Self, AllocError> {
        range_chunked_tracker::ChunkedTracker::new(Global, checked(limit)).map(ChunkedTracker)
    }

    fn copied(&self) -> Result<Self, AllocError> {
        let mut copy = Self::new(self.0.limit)?;
        copy.0.list = self.0.list.cloned()?;
        copy.0.len = self.0.len;
        Ok(copy)
    }

    fn missing_below(&self, len: u64) -> Result<ChunkedRangeSet<u64>, AllocError> {
        self.0.missing(len).map(ChunkedRangeSet::of_proved)
    }

    /// The offsets that have come, as `gaps` looks at them.
    fn there(&self) -> &Self {
        self
    }

    pub(crate) fn boundaries(&self) -> &Chunks<u64, bool> {
        &self.0.list
    }
}

/// It is made as a `RangeSet` first.
impl From<ChunkedTracker> for ChunkedRangeSet<u64> {
    fn from(tracker: ChunkedTracker) -> Self {
        tracker.ranges().copied().collect()
    }
}

impl Clone for Command {
    fn clone(&self) -> Self {
        match self {
            Command::Add(range) => Command::Add(range.clone()),
            Command::Forget(range) => Command::Forget(range.clone()),
        }
    }
}

/// The limit itself. It panics if that leaves a list no room for one more range.
fn checked(limit: usize) -> usize {
    assert!(limit <= MOST, "{TOO_MUCH}");
    limit
}

/// The greatest limit: while a range is added, a list may have two boundaries more.
pub(crate) const MOST: usize = usize::MAX - 2;

/// The message about a greater limit.
pub(crate) const TOO_MUCH: &str = "the limit is more than a list can have";

/// The range, with the greatest offset as its end if it has none.
fn ended(range: impl AnyRange<u64>) -> Range<u64> {
    match range.into() {
        RangeSetRange::Range(range) => range,
        RangeSetRange::RangeFrom(range) => range.start..u64::MAX,
    }
}
