//! Laws of sets, each over made-up sets.

mod common;

use common::{hash, pairs, set, Random};
use range_sets::{ChunkedRangeSet, ChunkedSpace, Connective, RangeMap, RangeSet2, RangeSetRange};

fn triples() -> impl Iterator<Item = [RangeSet2<u8>; 3]> {
    let mut random = Random(99);
    pairs()
        .step_by(4)
        .map(move |(a, b)| [set(a), set(b), set(random.bitmap())])
}

#[test]
fn commutative() {
    for [a, b, _] in triples() {
        assert_eq!(&a | &b, &b | &a);
        assert_eq!(&a & &b, &b & &a);
        assert_eq!(&a ^ &b, &b ^ &a);
    }
}

#[test]
fn associative() {
    for [a, b, c] in triples() {
        assert_eq!((&a | &b) | &c, &a | (&b | &c));
        assert_eq!((&a & &b) & &c, &a & (&b & &c));
        assert_eq!((&a ^ &b) ^ &c, &a ^ (&b ^ &c));
    }
}

#[test]
fn distributive_and_absorbing() {
    for [a, b, c] in triples() {
        assert_eq!(&a & (&b | &c), (&a & &b) | (&a & &c));
        assert_eq!(&a | (&b & &c), (&a | &b) & (&a | &c));
        assert_eq!(&a | (&a & &b), a);
        assert_eq!(&a & (&a | &b), a);
    }
}

#[test]
fn negation_turns_operations_round() {
    for [a, b, _] in triples() {
        assert_eq!(!!&a, a);
        assert_eq!(!(&a | &b), !&a & !&b);
        assert_eq!(!(&a & &b), !&a | !&b);
        assert_eq!(&a - &b, &a & !&b);
        assert_eq!(&a ^ &b, (&a - &b) | (&b - &a));
        assert!((&a | !&a).is_all());
        assert!((&a & !&a).is_empty());
        assert_eq!(a.combine::<[u8; 2]>(&b, Connective::NOT_BOTH), !(&a & &b));
        assert_eq!(a.combine::<[u8; 2]>(&b, Connective::SAME), !(&a ^ &b));
        assert_eq!(a.combine::<[u8; 2]>(&b, Connective::NOT_LEFT), !&a);
    }
}

#[test]
fn questions_agree_with_operations() {
    for [a, b, _] in triples() {
        assert_eq!(a.is_subset(&b), (&a - &b).is_empty());
        assert_eq!(a.is_subset(&b), &a | &b == b);
        assert_eq!(a.is_superset(&b), b.is_subset(&a));
        assert_eq!(a.is_disjoint(&b), (&a & &b).is_empty());
        assert_eq!(a.intersects(&b), !a.is_disjoint(&b));
        assert!(a.is_subset(&a) && a.is_superset(&a));
    }
}

#[test]
fn a_set_is_the_union_of_its_ranges() {
    for [a, b, _] in triples() {
        let ranges: Vec<RangeSetRange<u8>> = a.iter().map(|range| range.cloned()).collect();
        assert_eq!(ranges.iter().cloned().collect::<RangeSet2<u8>>(), a);
        assert_eq!(ranges.iter().rev().cloned().collect::<RangeSet2<u8>>(), a);
        let one_by_one = ranges
            .into_iter()
            .map(RangeSet2::from)
            .fold(RangeSet2::empty(), |all, one| all | one);
        assert_eq!(one_by_one, a);
        let mut extended = b.clone();
        extended.extend(a.clone());
        assert_eq!(extended, &a | &b);
        assert_eq!(RangeSet2::union_all([&a, &b, &a]), &a | &b);
    }
}

#[test]
fn insert_and_remove_are_operations_with_a_range() {
    let mut random = Random(3);
    for [a, _, _] in triples() {
        let (start, end) = (random.below(64) as u8, random.below(64) as u8);
        let range: RangeSet2<u8> = (start..end).into();
        let mut inserted = a.clone();
        inserted.insert(start..end);
        assert_eq!(inserted, &a | &range);
        let mut removed = a.clone();
        removed.remove(start..end);
        assert_eq!(removed, &a - &range);
    }
}

#[test]
fn gaps_and_parts_of_a_range_make_it_up() {
    let mut random = Random(4);
    for [a, _, _] in triples() {
        let (start, end) = (random.below(64) as u8, random.below(64) as u8);
        let owned = |range: std::ops::Range<&u8>| *range.start..*range.end;
        let gaps: RangeSet2<u8> = a.gaps(&start..&end).map(owned).collect();
        let parts: RangeSet2<u8> = a.ranges_within(&start..&end).map(owned).collect();
        assert!(gaps.is_disjoint(&parts));
        assert_eq!(gaps | parts, RangeSet2::from(start..end));
    }
}

#[test]
fn equal_sets_have_one_hash_and_one_view() {
    for [a, b, _] in triples() {
        let same = (&a | &b) ^ (&b - &a);
        assert_eq!(same, a);
        assert_eq!(hash(&same), hash(&a));
        assert_eq!(hash(&*a), hash(&a));
        assert_eq!(a.partial_cmp(&b), Some(a.cmp(&b)));
        assert_eq!((*a).cmp(&*b), a.cmp(&b));
    }
}

/// Of two values one after the other the hash says where the first one ends.
#[test]
fn a_hash_has_an_end() {
    macro_rules! ends {
        ($($some:expr;)*) => {$({
            let (mut some, mut none) = ($some, Default::default());
            let before = hash(&(&some, &none));
            std::mem::swap(&mut some, &mut none);
            assert_ne!(hash(&(&some, &none)), before, stringify!($some));
        })*};
    }
    ends! {
        RangeSet2::from(3..5);
        ChunkedRangeSet::from(3..5);
        ChunkedSpace::from_ranges([3..5, 7..9]);
        RangeMap::from([(3..5, 'a')]);
    }
}

#[test]
fn text_is_read_back() {
    for [a, _, _] in triples() {
        assert_eq!(a.to_string().parse::<RangeSet2<u8>>(), Ok(a.clone()));
        assert_eq!((*a).to_string(), a.to_string());
        assert_eq!(format!("{a:?}"), format!("RangeSet{{{a}}}"));
    }
}
