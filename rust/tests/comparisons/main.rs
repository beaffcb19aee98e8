//! How many comparisons calls make: what the pages say of it.
// Sets of one range are meant.
#![allow(clippy::single_range_in_vec_init, clippy::reversed_empty_ranges)]

mod chunked;
#[path = "../common/mod.rs"]
mod common;
mod maps;
mod merges;
mod sets;

use range_sets::{Countable, FromPlace, RangeSet, RangeSet2, RangeSetEntry};
use std::cell::Cell;
use std::cmp::Ordering;
use std::ops::Range;

thread_local! {
    static MADE: Cell<usize> = const { Cell::new(0) };
}

/// A number whose comparisons are counted.
#[derive(Clone, Copy, Debug)]
struct Counted(u32);

impl Ord for Counted {
    fn cmp(&self, other: &Self) -> Ordering {
        MADE.with(|made| made.set(made.get() + 1));
        self.0.cmp(&other.0)
    }
}

impl PartialOrd for Counted {
    fn partial_cmp(&self, other: &Self) -> Option<Ordering> {
        Some(self.cmp(other))
    }
}

impl PartialEq for Counted {
    fn eq(&self, other: &Self) -> bool {
        self.cmp(other).is_eq()
    }
}

impl Eq for Counted {}

impl RangeSetEntry for Counted {
    fn min_value() -> Self {
        Counted(0)
    }

    fn is_min_value(&self) -> bool {
        self.0 == 0
    }
}

impl Countable for Counted {
    fn place(&self) -> u128 {
        self.0.into()
    }
}

impl FromPlace for Counted {
    fn zero() -> u128 {
        0
    }

    fn greatest() -> Self {
        Counted(u32::MAX)
    }

    fn from_place(place: u128) -> Option<Self> {
        u32::try_from(place).ok().map(Counted)
    }
}

fn count<R>(call: impl FnOnce() -> R) -> usize {
    MADE.with(|made| made.set(0));
    call();
    MADE.with(Cell::get)
}

fn set(numbers: impl Iterator<Item = u32>) -> RangeSet2<Counted> {
    RangeSet::new(numbers.map(Counted).collect()).expect("they are sorted")
}

/// `n` ranges that don't touch: five numbers of each ten.
fn ranges(n: u32) -> impl Iterator<Item = Range<Counted>> {
    (0..n).map(|i| Counted(10 * i)..Counted(10 * i + 5))
}

/// How many binary digits a number has.
fn digits(n: usize) -> usize {
    (usize::BITS - n.leading_zeros()) as usize
}

/// A call on a set or a map by the ends of a range, or by one of them.
type Call<S> = fn(&mut S, Counted, Counted);

/// Makes each call on a set or a map from some places among `$n` ranges to others, with at most
/// `$at_most` comparisons.
macro_rules! each {
    ($set:expr, $n:expr, $at_most:expr; |$it:ident, $from:ident, $to:ident| $($call:expr;)*) => {
        $crate::make_each($set, $n, $at_most, &[$((stringify!($call), |$it, $from, $to| {
            let _ = (&mut *$it, $from, $to);
            let _ = $call;
        })),*])
    };
}
use each;

fn make_each<S: Clone>(it: &S, n: u32, at_most: usize, calls: &[(&str, Call<S>)]) {
    let middle = 10 * (n / 2);
    let end = 10 * n;
    let places = [
        0,
        3,
        5,
        middle,
        middle + 2,
        middle + 7,
        middle + 9,
        end - 10,
        end,
    ];
    for (text, call) in calls {
        for from in places {
            for to in places {
                let mut changed = it.clone();
                let made = count(|| call(&mut changed, Counted(from), Counted(to)));
                assert!(
                    made <= at_most,
                    "{text} of {from}..{to} made {made} comparisons, and {at_most} are allowed"
                );
            }
        }
    }
}
