//! Made-up changes of one set, one after the other, each with a panic at some place or none: the
//! set is as a bitmap says, and after a panic as it was, changed as asked, or empty.

use crate::changes::{changes, fallible_changes, members, Changes};
use crate::common::{boundaries, one_in, Random};
use crate::element::{set, Hostile, Plan, LIVE, PLAN};
use crate::without_messages;
use range_sets::{Array, RangeSet, RangeSetRef};
use std::cell::Cell;
use std::panic::{catch_unwind, AssertUnwindSafe};

/// How many changes each kind of set goes through: as many as RANGE_SETS_CHANGES says.
fn changes_made() -> usize {
    let changes = std::env::var("RANGE_SETS_CHANGES");
    changes.map_or(3000, |it| it.parse().expect("it is a number")) / one_in()
}

/// A panic at one of the first places, or none.
fn plan(random: &mut Random) -> Plan {
    let bits = random.below(7);
    let turn = random.below(1 << bits) as usize;
    match random.below(4) {
        0 => Plan::Honest,
        1 => Plan::PanicAtComparison(turn),
        2 => Plan::PanicAtClone(turn),
        _ => Plan::PanicAtDrop(turn),
    }
}

fn numbers(set: &RangeSetRef<Hostile>) -> Vec<u8> {
    set.boundaries().iter().map(|it| *it.0 as u8).collect()
}

/// Changes a set again and again. Returns how many of the calls panicked.
fn changed<S, A>(changes: &Changes<S, A>, random: &mut Random) -> usize
where
    S: From<RangeSet<A>> + AsRef<RangeSetRef<Hostile>>,
    A: Array<Item = Hostile>,
{
    let mut panicked = 0;
    let mut a = S::from(set(&[]));
    for _ in 0..changes_made() {
        if random.below(4) == 0 {
            a = S::from(set(&boundaries(random.bitmap())));
        }
        let (left, right) = (numbers(a.as_ref()), boundaries(random.bitmap()));
        let range = random.below(64) as u8..random.below(64) as u8;
        let &(name, call, asked) = &changes[random.below(changes.len() as u64) as usize];
        let asked = boundaries(asked(members(&left), members(&right), range.clone()));
        let what = format!("{name} of {left:?}, {right:?} and {range:?}");
        let b = set(&right);
        let (x, y) = (Hostile::new(range.start), Hostile::new(range.end));
        PLAN.with(|it| it.set(plan(random)));
        let returned = catch_unwind(AssertUnwindSafe(|| call(&mut a, b, x, y))).is_ok();
        PLAN.with(|it| it.set(Plan::Honest));
        let found = numbers(a.as_ref());
        let is_right = found == asked || !returned && (found == left || found.is_empty());
        assert!(is_right, "{what}, returned: {returned}: {found:?}");
        panicked += usize::from(!returned);
    }
    drop(a);
    assert_eq!(LIVE.with(Cell::get), 0);
    panicked
}

#[test]
fn made_up_changes() {
    let mut random = Random(0x2545_f491_4f6c_dd1d);
    without_messages(|| {
        for panicked in [
            changed(&changes::<[Hostile; 2]>(), &mut random),
            changed(&changes::<[Hostile; 24]>(), &mut random),
            changed(&fallible_changes::<[Hostile; 2]>(), &mut random),
            changed(&fallible_changes::<[Hostile; 24]>(), &mut random),
        ] {
            let made = changes_made();
            assert!(panicked > made / 5, "{panicked} of {made} panicked");
        }
    });
}
