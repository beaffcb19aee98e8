//! What each call asks of an element: no more than range-collections 0.4.6 does. That these
//! functions compile is the test; they are called so that each also runs.

use range_sets::range_set::{Iter, RangeSetEntry, RangeSetRange};
use range_sets::{Array, RangeSet, RangeSet2, RangeSetRef};
use smallvec::SmallVec;
use std::borrow::Borrow;
use std::fmt::Debug;
use std::ops::{Deref, Range, RangeBounds, RangeFrom};

/// An element with nothing at all.
struct Nothing;

fn of_any_type<T, A: Array<Item = T>>(set: RangeSet<A>) -> SmallVec<A> {
    let view: &RangeSetRef<T> = set.deref();
    let ranges: Iter<T> = view.iter();
    assert_eq!(ranges.count(), set.iter().count());
    assert_eq!(
        view.boundaries().len(),
        AsRef::<RangeSetRef<T>>::as_ref(&set).boundaries().len()
    );
    let borrowed: &RangeSetRef<T> = set.borrow();
    assert_eq!(borrowed.is_empty(), RangeSet::<A>::default().is_empty());
    let _: &RangeSetRef<T> = Default::default();
    set.into_inner()
}

fn of_a_clone<A: Array>(set: &RangeSet<A>) -> RangeSet<A>
where
    A::Item: Clone,
{
    set.clone()
}

fn of_a_text<A: Array>(
    set: &RangeSet<A>,
    view: &RangeSetRef<A::Item>,
    range: &RangeSetRange<A::Item>,
) -> String
where
    A::Item: Debug,
{
    format!("{set:?} {view:?} {range:?}")
}

fn of_an_order<T: Ord, A: Array<Item = T>>(sets: [RangeSet<A>; 5], at: T) -> RangeSet<A> {
    let [mut set, a, b, c, d] = sets;
    set |= a;
    set &= b;
    set ^= c;
    set -= d;
    let view = RangeSetRef::new(set.boundaries()).unwrap();
    assert!(
        view.is_subset(&set)
            && view.is_superset(&set)
            && (view.intersects(&set) != view.is_disjoint(&set))
    );
    assert!(
        view == RangeSetRef::new(view.boundaries()).unwrap() && view.partial_cmp(view).is_some()
    );
    let _ = (view.contains(&at), view.split(at));
    RangeSet::new(set.into_inner()).unwrap()
}

fn of_an_entry<T: RangeSetEntry, A: Array<Item = T>>(
    range: Range<T>,
    start: RangeFrom<T>,
    end: T,
) -> [RangeSet<A>; 5] {
    assert!(
        RangeSet::<A>::from(..).is_all() && RangeSet::<A>::empty() == RangeSet::<A>::from(false)
    );
    let whole: RangeSetRange<T> = range.into();
    [
        whole.into(),
        start.into(),
        (..end).into(),
        true.into(),
        RangeSet::all(),
    ]
}

fn of_an_entry_with_clones<T: RangeSetEntry + Clone, A: Array<Item = T>>(
    a: RangeSet<A>,
    b: RangeSet<A>,
) {
    let _ = (&a | &b, &a & &b, &a - &b, &a ^ &b, !&a);
    let _ = (
        a.clone() | b.clone(),
        a.clone() & &b,
        &a - b.clone(),
        &a ^ b.clone(),
        !a.clone(),
    );
    let mut set: RangeSet<A> = a.union(&b);
    set.union_with(&a.intersection::<A>(&b));
    set.intersection_with(&a.difference::<A>(&b));
    set.difference_with(&a.symmetric_difference::<A>(&b));
    set.symmetric_difference_with(&a);
}

fn of_a_range<T: Clone + PartialOrd>(
    range: RangeSetRange<T>,
    borrowed: RangeSetRange<&T>,
) -> RangeSetRange<T> {
    let _ = (
        range.start_bound(),
        range.end_bound(),
        RangeSetRange::from(0..1),
        RangeSetRange::from(0..),
    );
    let _ = range.clone();
    borrowed.cloned()
}

#[cfg(feature = "serde")]
fn of_serde<'de, T: serde::Deserialize<'de> + Ord, A: Array<Item = T>>(
    text: &'de str,
) -> RangeSet<A>
where
    RangeSet<A>: serde::Deserialize<'de>,
{
    serde_json::from_str(text).unwrap()
}

#[cfg(feature = "serde")]
fn of_serde_out<T: serde::Serialize, A: Array<Item = T>>(set: &RangeSet<A>) -> String {
    serde_json::to_string(set).unwrap()
}

const EMPTY: &RangeSetRef<Nothing> = RangeSetRef::empty();
const SINGLE: &RangeSetRef<u8> = RangeSetRef::single(&7);
const LENGTH: usize = SINGLE.boundaries().len();
const IS_EMPTY: bool = EMPTY.is_empty();

#[test]
fn no_call_asks_for_more() {
    assert_eq!(of_any_type(RangeSet::<[Nothing; 4]>::default()).len(), 0);
    let sets = || of_an_entry::<u8, [u8; 4]>(3..9, 20.., 5);
    let [a, b, ..] = sets();
    of_an_entry_with_clones(a, b);
    let set = of_an_order(sets(), 4);
    assert_eq!(set, RangeSet2::<u8>::empty());
    assert_eq!(
        of_a_text(&of_a_clone(&set), SINGLE, &(1..2).into()),
        "RangeSet{} RangeSetRef([7]) 1..2"
    );
    assert_eq!(of_a_range((1..2).into(), (&3..).into()), (3..).into());
    assert_eq!((LENGTH, IS_EMPTY), (1, true));
    #[cfg(feature = "serde")]
    assert_eq!(of_serde_out(&of_serde::<u8, [u8; 4]>("[5, 1]")), "[1,5]");
}
