//! The element: its comparisons, clones and drops go by a plan.

use range_sets::{fallible, Array, RangeSet, RangeSetEntry, RangeSetRef};
use std::cell::Cell;
use std::cmp::Ordering;

#[derive(Clone, Copy, PartialEq)]
pub enum Plan {
    /// Comparisons go by the number, and clones succeed.
    Honest,
    /// The comparison after this many panics.
    PanicAtComparison(usize),
    /// The clone after this many panics.
    PanicAtClone(usize),
    /// The drop after this many panics.
    PanicAtDrop(usize),
    /// What was to panic has: a second panic would end the process.
    Panicked,
    /// Comparisons answer anything.
    Lie(u64),
}

thread_local! {
    pub static PLAN: Cell<Plan> = const { Cell::new(Plan::Honest) };
    pub static LIVE: Cell<isize> = const { Cell::new(0) };
}

/// An element on the heap, so that a second drop is seen.
pub struct Hostile(pub Box<u16>);

impl Hostile {
    pub fn new(number: u8) -> Self {
        Self::of(number.into())
    }

    pub fn of(number: u16) -> Self {
        LIVE.with(|live| live.set(live.get() + 1));
        Hostile(Box::new(number))
    }
}

impl Drop for Hostile {
    fn drop(&mut self) {
        LIVE.with(|live| live.set(live.get() - 1));
        PLAN.with(|plan| match plan.get() {
            Plan::PanicAtDrop(0) => {
                plan.set(Plan::Panicked);
                panic!("a drop");
            }
            Plan::PanicAtDrop(left) => plan.set(Plan::PanicAtDrop(left - 1)),
            _ => {}
        });
    }
}

/// Panics if the plan has a clone panic now.
pub fn before_clone() {
    PLAN.with(|plan| match plan.get() {
        Plan::PanicAtClone(0) => panic!("a clone"),
        Plan::PanicAtClone(left) => plan.set(Plan::PanicAtClone(left - 1)),
        _ => {}
    });
}

impl Clone for Hostile {
    fn clone(&self) -> Self {
        before_clone();
        Hostile::of(*self.0)
    }
}

impl fallible::EntryClone for Hostile {
    fn entry_clone(&self) -> Result<Self, fallible::AllocError> {
        Ok(self.clone())
    }
}

/// Compares two numbers by the plan.
pub fn compare(a: u16, b: u16) -> Ordering {
    PLAN.with(|plan| match plan.get() {
        Plan::PanicAtComparison(0) => panic!("a comparison"),
        Plan::PanicAtComparison(left) => plan.set(Plan::PanicAtComparison(left - 1)),
        Plan::Lie(seed) => {
            let next = seed ^ seed << 13;
            let next = next ^ next >> 7;
            plan.set(Plan::Lie(next ^ next << 17));
        }
        _ => {}
    });
    match PLAN.with(Cell::get) {
        Plan::Lie(seed) => {
            [Ordering::Less, Ordering::Equal, Ordering::Greater][(seed >> 20) as usize % 3]
        }
        _ => a.cmp(&b),
    }
}

impl Ord for Hostile {
    fn cmp(&self, other: &Self) -> Ordering {
        compare(*self.0, *other.0)
    }
}

impl PartialOrd for Hostile {
    fn partial_cmp(&self, other: &Self) -> Option<Ordering> {
        Some(self.cmp(other))
    }
}

impl PartialEq for Hostile {
    fn eq(&self, other: &Self) -> bool {
        self.cmp(other) == Ordering::Equal
    }
}

impl Eq for Hostile {}

impl RangeSetEntry for Hostile {
    fn min_value() -> Self {
        Hostile::new(0)
    }

    fn is_min_value(&self) -> bool {
        self.cmp(&Hostile::new(0)) == Ordering::Equal
    }
}

pub fn set<A: Array<Item = Hostile>>(numbers: &[u8]) -> RangeSet<A> {
    RangeSet::new(numbers.iter().map(|&n| Hostile::new(n)).collect()).expect("they are sorted")
}

/// Reads every boundary.
pub fn read(set: &RangeSetRef<Hostile>) -> usize {
    set.boundaries().iter().map(|it| usize::from(*it.0)).sum()
}
