//! When several people can meet: what each has booked in minutes of a week, and the first hour that
//! suits all.

use range_sets::RangeSet2;
use std::collections::BTreeMap;
use std::fmt;
use std::ops::Range;

type Minutes = RangeSet2<u32>;

const DAY: u32 = 24 * 60;
const DAYS: [&str; 5] = ["Mon", "Tue", "Wed", "Thu", "Fri"];

/// A minute of the week, which begins on Monday at 0:00.
struct At(u32);

impl fmt::Display for At {
    fn fmt(&self, f: &mut fmt::Formatter<'_>) -> fmt::Result {
        let (day, minute) = (DAYS[(self.0 / DAY) as usize], self.0 % DAY);
        write!(f, "{day} {:02}:{:02}", minute / 60, minute % 60)
    }
}

fn at(day: u32, hour: u32, minute: u32) -> u32 {
    day * DAY + hour * 60 + minute
}

/// From 9 to 17 on each day but the weekend.
fn working_hours() -> Minutes {
    (0..5).map(|day| at(day, 9, 0)..at(day, 17, 0)).collect()
}

#[derive(Default)]
struct Calendar(BTreeMap<&'static str, Minutes>);

impl Calendar {
    /// Books a time for a person, if it is free.
    fn book(&mut self, person: &'static str, time: Range<u32>) -> bool {
        let busy = self.0.entry(person).or_insert_with(Minutes::empty);
        let is_free = !busy.intersects_range(time.clone());
        if is_free {
            busy.insert(time);
        }
        is_free
    }

    /// When all are free in working hours.
    fn free(&self) -> Minutes {
        working_hours() - Minutes::union_all(self.0.values())
    }
}

fn main() {
    let mut calendar = Calendar::default();
    for day in 0..5 {
        assert!(calendar.book("Ada", at(day, 9, 0)..at(day, 10, 30)));
        assert!(calendar.book("Grace", at(day, 11, 0)..at(day, 12 + day, 0)));
    }
    assert!(calendar.book("Emmy", at(0, 13, 0)..at(1, 14, 30)));
    assert!(
        !calendar.book("Emmy", at(1, 14, 0)..at(1, 15, 0)),
        "that overlaps a booked time"
    );

    let free = calendar.free();
    let hour = free
        .first_run(0..5 * DAY, 60)
        .expect("some hour of the week suits all");
    println!("an hour for all: {} to {}", At(hour), At(hour + 60));
    println!("{} minutes in all", free.covered().unwrap_or(0));
    for time in free.ranges_within(&at(1, 0, 0)..&at(2, 0, 0)) {
        println!("{} to {}", At(*time.start), At(*time.end));
    }
}
