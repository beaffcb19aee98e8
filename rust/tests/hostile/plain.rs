//! Elements without a drop, which a merge may hold copies of: in long lists short runs of them are
//! read item by item, and a change in place is made in a list of its own or, where the set has
//! room, over the set's by a copy of it.

use crate::common::one_in;
use crate::element::{before_clone, compare, Plan, PLAN};
use crate::without_messages;
use range_sets::{RangeSet, RangeSetEntry};
use std::cell::Cell;
use std::cmp::Ordering;
use std::panic::{catch_unwind, AssertUnwindSafe};
use std::sync::Mutex;

/// Its comparisons and clones go by the plan.
#[derive(Debug)]
struct Plain(u16);

impl Clone for Plain {
    fn clone(&self) -> Self {
        before_clone();
        Plain(self.0)
    }
}

impl Ord for Plain {
    fn cmp(&self, other: &Self) -> Ordering {
        compare(self.0, other.0)
    }
}

impl PartialOrd for Plain {
    fn partial_cmp(&self, other: &Self) -> Option<Ordering> {
        Some(self.cmp(other))
    }
}

impl PartialEq for Plain {
    fn eq(&self, other: &Self) -> bool {
        self.cmp(other) == Ordering::Equal
    }
}

impl Eq for Plain {}

impl RangeSetEntry for Plain {
    fn min_value() -> Self {
        Plain(0)
    }

    fn is_min_value(&self) -> bool {
        self.0 == 0
    }
}

type Set = RangeSet<[Plain; 2]>;

fn set(numbers: &[u16]) -> Set {
    RangeSet::new(numbers.iter().map(|&n| Plain(n)).collect()).expect("they are sorted")
}

fn numbers(set: &Set) -> Vec<u16> {
    set.boundaries().iter().map(|it| it.0).collect()
}

/// Two lists of 70 boundaries or more, whose runs are so long by turns; every tenth boundary is in
/// both.
fn sides(runs: &[u16]) -> (Vec<u16>, Vec<u16>) {
    let (mut left, mut right) = (vec![], vec![]);
    let (mut next, mut turn) = (1, 0);
    while left.len() < 70 || right.len() < 70 {
        for _ in 0..runs[turn % runs.len()] {
            let side = if turn % 2 == 0 { &mut left } else { &mut right };
            side.push(next);
            next += 1;
        }
        if turn % 10 == 9 {
            left.push(next);
            right.push(next);
            next += 1;
        }
        turn += 1;
    }
    (left, right)
}

/// Short runs, with longer ones between them.
const RUNS: [&[u16]; 5] = [
    &[1],
    &[2, 1],
    &[3, 1, 1, 4],
    &[1, 1, 1, 1, 9, 1],
    &[4, 7, 5, 2],
];

type Call = fn(&Set, &Set) -> Set;

const NEW: [(&str, Call); 4] = [
    ("|", |a, b| a | b),
    ("&", |a, b| a & b),
    ("-", |a, b| a - b),
    ("^", |a, b| a ^ b),
];

type Change = fn(&mut Set, &Set);

const CHANGES: [(&str, Change); 4] = [
    ("|=", |a, b| *a |= b),
    ("&=", |a, b| *a &= b),
    ("-=", |a, b| *a -= b),
    ("^=", |a, b| *a ^= b),
];

/// What is wanted of each operation, by sets of numbers of std's order.
fn wanted(name: &str, left: &[u16], right: &[u16]) -> Vec<u16> {
    let is_member = |list: &[u16], x| list.iter().filter(|&&it| it <= x).count() % 2 == 1;
    let answer = |x| {
        let (a, b) = (is_member(left, x), is_member(right, x));
        match &name[..1] {
            "|" => a | b,
            "&" => a & b,
            "-" => a & !b,
            _ => a != b,
        }
    };
    (1..400).filter(|&x| answer(x) != answer(x - 1)).collect()
}

#[test]
fn short_runs_give_what_is_wanted() {
    for runs in RUNS {
        let (left, right) = sides(runs);
        let (a, b) = (set(&left), set(&right));
        for (name, call) in NEW {
            let found = numbers(&call(&a, &b));
            assert_eq!(found, wanted(name, &left, &right), "{name} {runs:?}");
        }
        for (name, change) in CHANGES {
            for room in ROOMS {
                let mut changed = with_room(&a, room);
                change(&mut changed, &b);
                let found = numbers(&changed);
                let wanted = wanted(name, &left, &right);
                assert_eq!(found, wanted, "{name} {runs:?}, room for {room}");
            }
        }
    }
}

/// Room for no more boundaries, and for those of the other side.
const ROOMS: [usize; 2] = [0, 200];

fn with_room(set: &Set, room: usize) -> Set {
    let mut set = set.clone();
    set.reserve(room);
    set
}

/// Makes each call with each panic in turn. A change in place leaves such a set as it was; one that
/// has room, and so is written over, may be empty.
fn panic_in_turn(plan: fn(usize) -> Plan, at_least: usize) {
    let mut panicked = 0;
    let mut attempt = |turn, name: &str, call: &mut dyn FnMut()| {
        PLAN.with(|it| it.set(plan(turn)));
        let returned = catch_unwind(AssertUnwindSafe(call)).is_ok();
        PLAN.with(|it| it.set(Plan::Honest));
        panicked += usize::from(!returned);
        assert!(turn < 10_000, "{name} never returns");
        returned
    };
    for runs in RUNS {
        let (left, right) = sides(runs);
        let (a, b) = (set(&left), set(&right));
        for (name, call) in NEW {
            let mut turn = 0;
            while !attempt(turn, name, &mut || drop(call(&a, &b))) {
                turn += one_in();
            }
        }
        for (name, change) in CHANGES {
            let mut turn = 0;
            let mut changed = a.clone();
            while !attempt(turn, name, &mut || change(&mut changed, &b)) {
                assert_eq!(numbers(&changed), left, "{name} {runs:?}, panic {turn}");
                turn += one_in();
            }
            for turn in (0..).step_by(one_in()) {
                let mut changed = with_room(&a, 200);
                if attempt(turn, name, &mut || change(&mut changed, &b)) {
                    break;
                }
                let found = numbers(&changed);
                assert!(
                    found.is_empty() || found == left,
                    "{name} {runs:?}, panic {turn} with room"
                );
            }
        }
    }
    assert!(panicked >= at_least, "{panicked} calls panicked");
}

#[test]
fn short_runs_in_which_a_comparison_panics() {
    without_messages(|| panic_in_turn(Plan::PanicAtComparison, 1000 / one_in()));
}

#[test]
fn short_runs_in_which_a_clone_panics() {
    without_messages(|| panic_in_turn(Plan::PanicAtClone, 1000 / one_in()));
}

#[test]
fn short_runs_of_orders_that_lie() {
    without_messages(|| {
        for runs in RUNS {
            let (left, right) = sides(runs);
            for seed in (1..200u64).step_by(one_in()) {
                for ((_, call), (_, change)) in NEW.iter().zip(CHANGES) {
                    let room = ROOMS[seed as usize / one_in() % 2];
                    let (mut a, b) = (with_room(&set(&left), room), set(&right));
                    let plan = Plan::Lie(seed.wrapping_mul(0x9e37_79b9_7f4a_7c15));
                    PLAN.with(|it| it.set(plan));
                    let made = catch_unwind(AssertUnwindSafe(|| call(&a, &b)));
                    let _ = catch_unwind(AssertUnwindSafe(|| change(&mut a, &b)));
                    PLAN.with(|it| it.set(Plan::Honest));
                    if let Ok(made) = made {
                        assert!(numbers(&made).len() <= left.len() + right.len());
                    }
                    assert!(numbers(&a).len() <= left.len() + right.len());
                }
            }
        }
    });
}

#[test]
fn a_set_in_which_a_clone_without_a_drop_panicked_is_empty_or_as_it_was_and_of_use() {
    without_messages(|| {
        // A few elements are merged into a new list; into a much longer one they are moved.
        let (few, many) = (vec![1, 5, 9], (0..40).map(|it| 10 * it).collect());
        for (left, after) in [(few.clone(), few), (many, vec![])] {
            for turn in 0..3 {
                let (mut a, b) = (set(&left), set(&[2, 6, 7]));
                PLAN.with(|plan| plan.set(Plan::PanicAtClone(turn)));
                assert!(catch_unwind(AssertUnwindSafe(|| a ^= &b)).is_err());
                PLAN.with(|plan| plan.set(Plan::Honest));
                assert_eq!(numbers(&a), after, "panic {turn}");
                a |= &b;
                assert!(b.is_subset(&a));
            }
        }
    });
}

/// A number that is borrowed for good, and that a comparison of the left side takes away.
struct Taken(Cell<Option<&'static mut u32>>);

thread_local! {
    static TAKES: Cell<bool> = const { Cell::new(false) };
}

/// What was taken. It stays, as what is borrowed for good does.
static TAKEN: Mutex<Vec<&'static mut u32>> = Mutex::new(Vec::new());

impl Taken {
    fn number(&self) -> u32 {
        let borrowed = self.0.take();
        let number = borrowed.as_ref().map_or(0, |it| **it);
        self.0.set(borrowed);
        number
    }
}

impl Ord for Taken {
    fn cmp(&self, other: &Self) -> Ordering {
        let ordering = self.number().cmp(&other.number());
        if TAKES.with(Cell::get) {
            TAKEN.lock().unwrap().extend(self.0.take());
        }
        ordering
    }
}

impl PartialOrd for Taken {
    fn partial_cmp(&self, other: &Self) -> Option<Ordering> {
        Some(self.cmp(other))
    }
}

impl PartialEq for Taken {
    fn eq(&self, other: &Self) -> bool {
        self.cmp(other) == Ordering::Equal
    }
}

impl Eq for Taken {}

#[test]
fn what_a_comparison_takes_out_of_an_element_without_a_drop_is_there_once() {
    let set = |first: u32| -> RangeSet<[Taken; 2]> {
        let numbers: Box<[u32]> = (0..200).map(|i| 2 * i + first).collect();
        let borrowed = Box::leak(numbers).iter_mut();
        let list = borrowed.map(|it| Taken(Cell::new(Some(it)))).collect();
        RangeSet::new(list).unwrap_or_else(|| panic!("they are sorted"))
    };
    let (mut a, b) = (set(1), set(2));
    TAKES.with(|it| it.set(true));
    a |= b;
    TAKES.with(|it| it.set(false));
    let mut taken = TAKEN.lock().unwrap();
    let n = taken.len();
    taken.extend(a.boundaries().iter().filter_map(|it| it.0.take()));
    let mut all: Vec<*const u32> = taken.iter().map(|it| &**it as _).collect();
    all.sort();
    all.dedup();
    assert!(
        n > 0 && all.len() == taken.len(),
        "{n}, {} of {}",
        all.len(),
        taken.len()
    );
}
