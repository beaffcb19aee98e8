//! Trackers that are refused memory.

use crate::list;
use crate::refusing::{each_refusal, refusing, unrefused, Refusal};
use range_sets::tracker::{ChunkedTracker, TrackError, Tracker};

#[test]
fn trackers() {
    let prepare = || {
        let mut tracker = Tracker::new(64);
        for i in 0..7 {
            tracker.record(10 * i..10 * i + 5).unwrap();
        }
        tracker
    };
    let ranges = |tracker: &Tracker| {
        tracker
            .ranges()
            .map(|range| range.cloned())
            .collect::<Vec<_>>()
    };
    let record = |tracker: &mut Tracker| {
        (0..20)
            .try_for_each(|i| tracker.record(100 + 2 * i..101 + 2 * i))
            .map(|()| unrefused(|| ranges(tracker)))
    };
    assert!(each_refusal("record", prepare, record, |_, _| true) > 0);
    let copied = |tracker: &mut Tracker| {
        let copy = tracker.try_clone();
        copy.map(|copy| unrefused(|| ranges(&copy)))
    };
    assert!(each_refusal("try_clone", prepare, copied, |a, b| ranges(a) == ranges(b)) > 0);
    let missing = |tracker: &mut Tracker| tracker.missing(200).map(|set| list(&set));
    assert!(each_refusal("missing", prepare, missing, |a, b| ranges(a) == ranges(b)) > 0);

    let mut tracker = prepare();
    tracker.record(70..71).unwrap();
    let (refused, _) = refusing(Refusal::From(0), || tracker.record(100..105));
    assert_eq!(refused, Err(TrackError::OutOfMemory));
    assert!(!tracker.has(100..101) && tracker.has(0..5));
}

#[test]
fn trackers_in_chunks() {
    let made = |_: &mut ()| ChunkedTracker::new(4).map(|_| vec![()]);
    assert!(each_refusal("new", || (), made, |_, _| true) > 0);
    let prepare = || {
        let mut tracker = ChunkedTracker::new(4_000).unwrap();
        for i in 0..300 {
            tracker.record(10 * i..10 * i + 5).unwrap();
        }
        tracker
    };
    let ranges = |tracker: &ChunkedTracker| {
        tracker
            .ranges()
            .map(|range| range.cloned())
            .collect::<Vec<_>>()
    };
    let record = |tracker: &mut ChunkedTracker| {
        (0..300)
            .try_for_each(|i| tracker.record(5_000 + 2 * i..5_001 + 2 * i))
            .map(|()| unrefused(|| ranges(tracker)))
    };
    assert!(each_refusal("record", prepare, record, |_, _| true) > 0);
    let copied = |tracker: &mut ChunkedTracker| {
        let copy = tracker.try_clone();
        copy.map(|copy| unrefused(|| ranges(&copy)))
    };
    assert!(each_refusal("try_clone", prepare, copied, |a, b| ranges(a) == ranges(b)) > 0);
    let missing = |tracker: &mut ChunkedTracker| {
        let missing = tracker.missing(3_000);
        missing.map(|set| unrefused(|| set.iter().map(|range| range.cloned()).collect::<Vec<_>>()))
    };
    assert!(each_refusal("missing", prepare, missing, |a, b| ranges(a) == ranges(b)) > 0);

    // One range never needs memory, and what is refused changes nothing.
    let mut tracker = ChunkedTracker::new(64).unwrap();
    for start in [0, 7] {
        let (one, _) = refusing(Refusal::From(0), || {
            tracker.record(start..start + 5)?;
            tracker.record(start + 5..start + 9)
        });
        assert_eq!((one, tracker.covered()), (Ok(()), 9));
        let (all, _) = refusing(Refusal::From(0), || tracker.forget(..));
        assert_eq!((all, tracker.covered()), (Ok(()), 0));
    }
    let mut full = prepare();
    let (refused, _) = refusing(Refusal::From(0), || {
        (0..600).find_map(|i| full.record(5_000 + 2 * i..5_001 + 2 * i).err())
    });
    assert_eq!(refused, Some(TrackError::OutOfMemory));
    assert!(full.has(0..5));
}
