//! Each operation in each form, beside a bitmap.

mod common;

use common::{bitmap, boundaries, pairs, set, Bitmap, Operation, OPERATIONS};
use range_sets::{fallible, Array, Connective, RangeSet, RangeSet2};

/// The results of all forms of an operation on two sets, each with its name.
fn forms<A, B>(op: Operation, a: Bitmap, b: Bitmap) -> Vec<(&'static str, Vec<u8>)>
where
    A: Array<Item = u8>,
    B: Array<Item = u8>,
{
    macro_rules! forms {
        ($operator:tt, $assign:tt, $named:ident, $with:ident, $owned:ident, $connective:ident) => {{
            let (left, right) = (set::<A>(a), set::<A>(b));
            let mut assigned = set::<A>(a);
            assigned $assign set(b);
            let mut with = set::<A>(a);
            with.$with(&right);
            let (try_left, try_right) = (fallible::RangeSet::<A>::from(set(a)), fallible::RangeSet::<A>::from(set(b)));
            let mut try_with = fallible::RangeSet::<A>::from(set(a));
            try_with.$with(&right).unwrap();
            let mut try_owned = fallible::RangeSet::<A>::from(set(a));
            try_owned.$owned(set(b).into()).unwrap();
            vec![
                ("by references", (&left $operator &right).boundaries().to_vec()),
                ("reference and value", (&left $operator set(b)).boundaries().to_vec()),
                ("value and reference", (set::<A>(a) $operator &right).boundaries().to_vec()),
                ("by values", (set::<A>(a) $operator set(b)).boundaries().to_vec()),
                ("by name", left.$named::<B>(&right).boundaries().to_vec()),
                ("combined", left.combine::<B>(&right, Connective::$connective).boundaries().to_vec()),
                ("assigned", assigned.boundaries().to_vec()),
                ("with a view", with.boundaries().to_vec()),
                ("fallible by name", try_left.$named::<B>(&try_right).unwrap().boundaries().to_vec()),
                ("fallible with a view", try_with.boundaries().to_vec()),
                ("fallible with a set", try_owned.boundaries().to_vec()),
            ]
        }};
    }
    match op {
        Operation::Union => forms!(|, |=, union, union_with, bitor_assign, UNION),
        Operation::Intersection => {
            forms!(&, &=, intersection, intersection_with, bitand_assign, INTERSECTION)
        }
        Operation::Difference => forms!(-, -=, difference, difference_with, sub_assign, DIFFERENCE),
        Operation::SymmetricDifference => {
            forms!(^, ^=, symmetric_difference, symmetric_difference_with, bitxor_assign, SYMMETRIC_DIFFERENCE)
        }
    }
}

fn each_form_is_right<A: Array<Item = u8>, B: Array<Item = u8>>(
    pairs: impl Iterator<Item = (Bitmap, Bitmap)>,
) {
    for (a, b) in pairs {
        for op in OPERATIONS {
            let expected = boundaries(op.of(a, b));
            for (form, result) in forms::<A, B>(op, a, b) {
                assert_eq!(
                    result,
                    expected,
                    "{op:?} {form} of {:?} and {:?}",
                    boundaries(a),
                    boundaries(b)
                );
            }
        }
    }
}

#[test]
fn forms_of_sets_with_no_boundary_in_themselves() {
    each_form_is_right::<[u8; 0], [u8; 1]>(pairs().step_by(13));
}

#[test]
fn forms_of_sets_with_two_boundaries_in_themselves() {
    each_form_is_right::<[u8; 2], [u8; 4]>(pairs().step_by(3));
}

#[test]
fn forms_of_sets_with_all_boundaries_in_themselves() {
    each_form_is_right::<[u8; 64], [u8; 0]>(pairs().step_by(13));
}

#[test]
fn negation_in_each_form() {
    for (a, _) in pairs() {
        let expected = boundaries(!a);
        let set: RangeSet<[u8; 2]> = set(a);
        assert_eq!((!&set).boundaries(), expected);
        assert_eq!((&set ^ &RangeSet::all()).boundaries(), expected);
        assert_eq!(
            fallible::RangeSet::from(set.clone())
                .negated()
                .unwrap()
                .boundaries(),
            expected
        );
        assert_eq!((!set).boundaries(), expected);
    }
}

#[test]
fn all_sixteen_connectives() {
    for (a, b) in pairs().step_by(7) {
        let (left, right): (RangeSet<[u8; 2]>, RangeSet<[u8; 2]>) = (set(a), set(b));
        let try_left = fallible::RangeSet::from(left.clone());
        for table in 0..16 {
            let answer = |place: u32| table >> place & 1 == 1;
            let op = Connective {
                neither: answer(0),
                left: answer(1),
                right: answer(2),
                both: answer(3),
            };
            let mut bits = 0;
            for (on, of) in [
                (op.neither, !a & !b),
                (op.left, a & !b),
                (op.right, !a & b),
                (op.both, a & b),
            ] {
                if on {
                    bits |= of;
                }
            }
            assert_eq!(bitmap(&left.combine::<[u8; 2]>(&right, op)), bits);
            assert_eq!(
                left.combine::<[u8; 2]>(&right, op).boundaries(),
                boundaries(bits)
            );
            assert_eq!(
                try_left
                    .combine::<[u8; 4]>(&right, op)
                    .unwrap()
                    .boundaries(),
                boundaries(bits)
            );
        }
    }
}

#[test]
fn lengths_and_slices_of_results() {
    for (a, b) in pairs().step_by(3) {
        let (left, right): (RangeSet<[u8; 2]>, RangeSet<[u8; 2]>) = (set(a), set(b));
        for (op, bits) in [
            (Connective::UNION, a | b),
            (Connective::INTERSECTION, a & b),
            (Connective::DIFFERENCE, a & !b),
            (Connective::SYMMETRIC_DIFFERENCE, a ^ b),
        ] {
            let expected = boundaries(bits);
            assert_eq!(left.merge_len(&right, op), expected.len());
            assert_eq!(left.merge_test(&right, op), bits != 0);
            let mut out = vec![99; expected.len() + 2];
            assert_eq!(left.merge_into(&right, op, &mut out), Ok(expected.len()));
            assert_eq!(out[..expected.len()], expected);
            assert_eq!(out[expected.len()..], [99, 99]);
            if let Some(short) = expected.len().checked_sub(1) {
                let refused = left.merge_into(&right, op, &mut out[..short]).unwrap_err();
                assert_eq!(refused.needed, expected.len());
            }
        }
    }
}

#[cfg(panic = "unwind")]
#[test]
fn lengths_of_results_without_a_start_panic() {
    let set: RangeSet<[u8; 2]> = set(6);
    for op in [
        Connective::NEITHER,
        Connective::NOT_BOTH,
        Connective::NOT_LEFT,
        Connective::SAME,
    ] {
        assert!(std::panic::catch_unwind(|| set.merge_len(&set, op)).is_err());
        assert!(std::panic::catch_unwind(|| set.merge_test(&set, op)).is_err());
        assert!(std::panic::catch_unwind(|| set.merge_into(&set, op, &mut [0; 8])).is_err());
    }
}

/// Whether a value is a member, by whether it is one of each side.
type Member = fn(bool, bool) -> bool;

#[test]
fn long_lists_of_far_and_near_boundaries() {
    let mut random = common::Random(77);
    for round in (0..200).step_by(common::one_in()) {
        let a = made_up_list(&mut random, 1 + round);
        let b = made_up_list(&mut random, 400 - round);
        let inside = |list: &[i64], x: i64| list.partition_point(|&y| y <= x) % 2 == 1;
        let left: RangeSet<[i64; 4]> = RangeSet::new(a.iter().copied().collect()).unwrap();
        let right: RangeSet<[i64; 4]> = RangeSet::new(b.iter().copied().collect()).unwrap();
        let results: [(RangeSet<[i64; 4]>, Member); 4] = [
            (&left | &right, |a, b| a || b),
            (&left & &right, |a, b| a && b),
            (&left - &right, |a, b| a && !b),
            (&left ^ &right, |a, b| a != b),
        ];
        let mut in_place = [left.clone(), left.clone(), left.clone(), left.clone()];
        in_place[0] |= right.clone();
        in_place[1] &= right.clone();
        in_place[2] -= right.clone();
        in_place[3] ^= right.clone();
        for ((result, op), changed) in results.iter().zip(in_place) {
            assert!(result.boundaries().windows(2).all(|pair| pair[0] < pair[1]));
            assert_eq!(changed, *result);
            for x in a.iter().chain(&b).flat_map(|&x| [x - 1, x, x + 1]) {
                assert_eq!(
                    result.contains(&x),
                    op(inside(&a, x), inside(&b, x)),
                    "{x} in round {round}"
                );
            }
        }
    }
}

/// Room is asked for as long as both lists are. A result that is much shorter gives it back.
#[test]
fn a_short_result_of_long_sets_lies_in_the_set_itself() {
    let long: RangeSet2<u32> = (0..1000).map(|n| 2 * n..2 * n + 1).collect();
    let longer = &long ^ &RangeSet2::from(5000..);
    for result in [&long ^ &longer, &longer - &long] {
        assert_eq!(result.boundaries(), [5000]);
        assert!(!result.into_inner().spilled());
    }
}

/// The same where it is too long for the set itself: it has room for twice its boundaries at most.
#[test]
fn a_short_result_of_long_sets_has_little_room() {
    fn little_room<A: Array<Item = u32>>(result: RangeSet<A>, boundaries: &[u32]) {
        assert_eq!(result.boundaries(), boundaries);
        assert!(result.into_inner().capacity() <= 2 * boundaries.len());
    }
    let long: RangeSet2<u32> = (0..1000).map(|n| 2 * n..2 * n + 1).collect();
    let few: RangeSet2<u32> = (0..5).map(|n| 200 * n..200 * n + 1).collect();
    let boundaries = [0, 1, 200, 201, 400, 401, 600, 601, 800, 801];
    little_room(&long & &few, &boundaries);
    little_room::<[u32; 4]>(long.intersection(&few), &boundaries);
    little_room::<[u32; 4]>(long.combine(&few, Connective::INTERSECTION), &boundaries);
    let fallible = fallible::RangeSet::from(long);
    little_room::<[u32; 4]>(fallible.intersection(&few).unwrap().into(), &boundaries);
    let mut roomy = few.into_inner();
    roomy.grow(1000);
    little_room(!RangeSet2::new(roomy).unwrap(), &boundaries[1..]);
}

/// A strictly sorted list in blocks, some near to each other and some far apart.
fn made_up_list(random: &mut common::Random, len: usize) -> Vec<i64> {
    let mut at = random.below(100) as i64;
    let mut step = 1;
    (0..len)
        .map(|_| {
            if random.below(20) == 0 {
                step = [1, 3, 50, 1000][random.below(4) as usize];
            }
            at += 1 + random.below(step) as i64;
            at
        })
        .collect()
}

#[test]
fn the_intersection_of_many_sets() {
    assert!(RangeSet2::<u8>::intersection_all::<RangeSet2<u8>>([]).is_all());
    let none: [fallible::RangeSet2<u8>; 0] = [];
    assert!(fallible::RangeSet2::intersection_all(none)
        .unwrap()
        .is_all());
    for (a, b) in pairs().step_by(7) {
        let sets: [RangeSet2<u8>; 3] = [set(a), set(b), set(a.rotate_left(3))];
        let common: RangeSet2<u8> = RangeSet2::intersection_all(&sets);
        assert_eq!(bitmap(&common), a & b & a.rotate_left(3));
        let tried = fallible::RangeSet2::intersection_all(&sets).unwrap();
        assert_eq!(tried.boundaries(), common.boundaries());
        let one: RangeSet2<u8> = RangeSet2::intersection_all(&sets[..1]);
        assert_eq!(one, sets[0]);
    }
}
