//! Trackers in chunks, beside those in one list.

use crate::any_range;
use crate::common::Random;
use range_sets::tracker::{ChunkedTracker, Command, TrackError, Tracker};

/// A command of a short range below `places`, now and then of one that nearly has them all.
fn any_command(random: &mut Random, places: u64) -> Command {
    let range = any_range(random, places);
    let range = u64::from(range.start)..u64::from(range.end);
    match random.below(3) {
        0 => Command::Forget(range),
        _ => Command::Add(range),
    }
}

#[test]
fn trackers_answer_alike() {
    let mut random = Random(7);
    for (places, limit, commands) in [(20, 6, 20_000), (20_000, 1_200, 30_000)] {
        let mut chunked = ChunkedTracker::new(limit).unwrap();
        let mut flat = Tracker::new(limit);
        let mut refused = 0;
        for step in 0..commands {
            let command = [any_command(&mut random, places)];
            let (mut one, mut other) = ([Ok(())], [Ok(())]);
            chunked.run(&command, &mut one);
            flat.run(&command, &mut other);
            assert_eq!(one, other, "{command:?}");
            refused += u32::from(one[0].is_err());
            let value = random.below(places);
            assert_eq!(chunked.has(value..value + 3), flat.has(value..value + 3));
            if step % (commands / 100) == 0 {
                assert_eq!(chunked.covered(), flat.covered());
                assert!(chunked.ranges().eq(flat.ranges()));
                assert!(chunked.gaps(&0..&value).eq(flat.gaps(&0..&value)));
                let missing = flat.missing(value).unwrap();
                assert!(chunked.missing(value).unwrap().iter().eq(missing.iter()));
                (chunked, flat) = (chunked.clone(), flat.clone());
                assert_eq!(format!("{chunked:?}"), format!("{flat:?}"));
            }
        }
        assert!(
            refused > commands / 1000,
            "{refused} of {commands} are refused"
        );
    }
}

#[test]
fn a_tracker_that_lost_all_takes_another_range() {
    let mut file = ChunkedTracker::new(2).unwrap();
    file.record(5..20).unwrap();
    assert_eq!(
        file.forget(6..7),
        Err(TrackError::TooMany { boundaries: 4 })
    );
    file.forget(..).unwrap();
    assert_eq!((file.covered(), file.ranges().count()), (0, 0));
    file.record(1..2).unwrap();
    assert_eq!(format!("{file:?}"), "{1..2}");
}
