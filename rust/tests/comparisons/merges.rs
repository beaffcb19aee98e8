//! Operations on two sets: at most twice the weight of their runs.

use super::common::one_in;
use super::{count, digits, set, Counted};
use range_sets::{Connective, RangeSet2};

/// Calls of each operation, in place and not, made with at most `at_most` comparisons.
fn each_operation(a: &RangeSet2<Counted>, b: &RangeSet2<Counted>, at_most: usize) {
    type Call = fn(&RangeSet2<Counted>, &RangeSet2<Counted>, &mut RangeSet2<Counted>);
    let calls: [(&str, Call); 21] = [
        ("|", |a, b, _| drop(a | b)),
        ("&", |a, b, _| drop(a & b)),
        ("-", |a, b, _| drop(a - b)),
        ("^", |a, b, _| drop(a ^ b)),
        ("|=", |_, b, c| *c |= b.clone()),
        ("&=", |_, b, c| *c &= b.clone()),
        ("-=", |_, b, c| *c -= b.clone()),
        ("^=", |_, b, c| *c ^= b.clone()),
        ("union_with", |_, b, c| c.union_with(b)),
        ("intersection_with", |_, b, c| c.intersection_with(b)),
        ("difference_with", |_, b, c| c.difference_with(b)),
        ("symmetric_difference_with", |_, b, c| {
            c.symmetric_difference_with(b)
        }),
        ("append", |_, b, c| c.append(&mut b.clone())),
        ("combine", |a, b, _| {
            drop(a.combine::<[Counted; 2]>(b, Connective::DIFFERENCE))
        }),
        ("merge_len", |a, b, _| {
            let _ = a.merge_len(b, Connective::INTERSECTION);
        }),
        ("merge_into", |a, b, _| {
            let mut room = vec![Counted(0); a.boundaries().len() + b.boundaries().len()];
            a.merge_into(b, Connective::UNION, &mut room)
                .expect("there is room for both");
        }),
        ("merge_test", |a, b, _| {
            let _ = a.merge_test(b, Connective::SYMMETRIC_DIFFERENCE);
        }),
        ("intersects", |a, b, _| {
            let _ = a.intersects(b);
        }),
        ("is_superset", |a, b, _| {
            let _ = a.is_superset(b);
        }),
        ("is_subset", |a, b, _| {
            let _ = a.is_subset(b);
        }),
        ("is_disjoint", |a, b, _| {
            let _ = a.is_disjoint(b);
        }),
    ];
    for (name, call) in calls {
        let mut changed = a.clone();
        let made = count(|| call(a, b, &mut changed));
        assert!(
            made <= at_most,
            "{name} made {made} comparisons, and {at_most} are allowed"
        );
    }
}

#[test]
fn a_few_boundaries_beside_many() {
    let many = set((0..4096).map(|i| 10 * i));
    let few = set([15_003, 25_004].into_iter());
    let runs = [1501, 1, 1000, 1, 1595].map(digits);
    let at_most = 2 * runs.iter().sum::<usize>();
    assert!(at_most < 80);
    each_operation(&many, &few, at_most);
    each_operation(&few, &many, at_most);
}

#[test]
fn interleaved_boundaries() {
    let (a, b) = (
        set((0..1000).map(|i| 2 * i)),
        set((0..1000).map(|i| 2 * i + 1)),
    );
    each_operation(&a, &b, 2 * 2000);
}

#[test]
fn blocks() {
    let block = |i: u32| i / 64 % 2 == 0;
    let (a, b) = (
        set((0..4096).filter(|&i| block(i))),
        set((0..4096).filter(|&i| !block(i))),
    );
    each_operation(&a, &b, 64 * 2 * digits(64));
}

/// Whose a boundary is.
#[derive(Clone, Copy, PartialEq, Eq, Debug)]
enum Owner {
    Left,
    Right,
    Both,
}

const OWNERS: [Owner; 3] = [Owner::Left, Owner::Right, Owner::Both];

/// The two sets of boundaries with these owners.
fn owned_by(owners: &[Owner]) -> (RangeSet2<Counted>, RangeSet2<Counted>) {
    let of = |other: Owner| {
        set((0u32..)
            .zip(owners)
            .filter(|it| *it.1 != other)
            .map(|it| it.0))
    };
    (of(Owner::Right), of(Owner::Left))
}

/// The binary digits of the lengths of the runs, added up. A boundary that both have is a run of
/// its own.
fn weight(owners: &[Owner]) -> usize {
    let mut runs: Vec<usize> = Vec::new();
    let mut before = Owner::Both;
    for &owner in owners {
        match runs.last_mut() {
            Some(run) if owner == before && owner != Owner::Both => *run += 1,
            _ => runs.push(1),
        }
        before = owner;
    }
    runs.into_iter().map(digits).sum()
}

/// Calls of each operation on two such sets make at most twice their weight in comparisons, also
/// those that stop.
fn within_the_weight(owners: &[Owner]) {
    let (a, b) = owned_by(owners);
    each_operation(&a, &b, 2 * weight(owners));
}

#[test]
fn the_weight_of_runs() {
    let (left, right, both) = (Owner::Left, Owner::Right, Owner::Both);
    assert_eq!(weight(&[]), 0);
    assert_eq!(
        weight(&[left, left, left, right, both, both, right]),
        2 + 1 + 1 + 1 + 1
    );
}

#[test]
fn all_pairs_of_few_boundaries() {
    let mut lists: Vec<Vec<Owner>> = vec![Vec::new()];
    for _ in 0..7 {
        lists = lists
            .iter()
            .flat_map(|list| OWNERS.map(|owner| [&list[..], &[owner]].concat()))
            .collect();
        lists.iter().for_each(|list| within_the_weight(list));
    }
}

#[test]
fn runs_of_all_lengths_about_powers_of_two() {
    const LENGTHS: [usize; 12] = [0, 1, 2, 3, 4, 5, 6, 7, 8, 15, 16, 17];
    for between in [None, Some(Owner::Both)] {
        for places in (0..LENGTHS.len().pow(4)).step_by(one_in()) {
            let (mut owners, mut rest) = (Vec::new(), places);
            for side in [Owner::Left, Owner::Right, Owner::Left, Owner::Right] {
                owners.extend(vec![side; LENGTHS[rest % LENGTHS.len()]]);
                owners.extend(between);
                rest /= LENGTHS.len();
            }
            within_the_weight(&owners);
        }
    }
}
