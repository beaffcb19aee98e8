//! Memory refused at each request in turn: every fallible call answers an error, and leaves its set
//! as it was.

mod calls;
mod chunked;
#[path = "../common/mod.rs"]
mod common;
mod map;
#[cfg(feature = "serde")]
mod reading;
mod refusing;
mod room;
mod space;
mod trackers;

use range_sets::fallible::{AllocError, EntryClone, RangeSet, RangeSet2};
use range_sets::{
    Array, Connective, MultirangeError, ParseError, RangeSetEntry, RangeSetRange, RangeSetRef,
};
use refusing::{each_refusal, refusals, refusing, unrefused, Refusal};
use std::fmt::Debug;

/// The element types: numbers, and those whose copies take memory.
trait Element: EntryClone + RangeSetEntry + Debug + Clone {
    fn of(number: u8) -> Self;
}

impl Element for u64 {
    fn of(number: u8) -> Self {
        number.into()
    }
}

impl Element for String {
    fn of(number: u8) -> Self {
        if number == 0 {
            String::new()
        } else {
            format!("{number:03}, and more that lies on the heap")
        }
    }
}

impl Element for Vec<Option<String>> {
    fn of(number: u8) -> Self {
        (0..number / 64)
            .map(|_| Some("full".to_string()))
            .chain((0..number % 64).map(|_| None))
            .collect()
    }
}

fn set<T: Element>(numbers: impl IntoIterator<Item = u8>) -> RangeSet2<T> {
    let mut numbers: Vec<T> = numbers.into_iter().map(T::of).collect();
    numbers.sort();
    RangeSet::new(numbers.into_iter().collect()).expect("they are sorted")
}

type Sides<T> = (RangeSet2<T>, RangeSet2<T>);

fn sides<T: Element>(left: u8, right: u8) -> Sides<T> {
    (
        set((0..left).map(|i| 3 * i)),
        set((0..right).map(|i| 2 * i + 1)),
    )
}

/// A copy of the boundaries, which a test compares.
fn list<T: Clone>(set: &RangeSetRef<T>) -> Vec<T> {
    unrefused(|| set.boundaries().to_vec())
}

fn same<T: Element>(a: &Sides<T>, b: &Sides<T>) -> bool {
    a.0 == b.0 && a.1 == b.1
}

/// Each call that makes a new set of two. How many requests all of them make.
fn new_sets<T: Element>(left: u8, right: u8) -> usize {
    type Call<T> = fn(&mut Sides<T>) -> Result<RangeSet2<T>, AllocError>;
    let calls: [(&str, Call<T>); 10] = [
        ("union", |(a, b)| a.union(b)),
        ("intersection", |(a, b)| a.intersection(b)),
        ("difference", |(a, b)| a.difference(b)),
        ("symmetric_difference", |(a, b)| a.symmetric_difference(b)),
        ("combine", |(a, b)| a.combine(b, Connective::NEITHER)),
        ("combine with all", |(a, b)| {
            a.combine(b, Connective::NOT_BOTH)
        }),
        ("try_clone", |(a, _)| a.try_clone()),
        ("copied", |(_, b)| RangeSet::copied(b)),
        ("union_all", |(a, b)| RangeSet::union_all([&*a, &*b, &*a])),
        ("union_all of one", |(a, _)| RangeSet::union_all([&*a])),
    ];
    let mut requests = 0;
    for (name, call) in calls {
        let listed = |sides: &mut Sides<T>| call(sides).map(|set| list(&set));
        requests += each_refusal(name, || sides(left, right), listed, same);
    }
    requests
}

/// Each call that changes a set by another one.
fn in_place<T: Element>(left: u8, right: u8) -> usize {
    type Call<T> = fn(&mut Sides<T>) -> Result<(), AllocError>;
    type OwnedCall<T> =
        fn(&mut RangeSet2<T>, RangeSet2<T>) -> Result<(), (AllocError, RangeSet2<T>)>;
    fn owned<T: Element>((a, b): &mut Sides<T>, call: OwnedCall<T>) -> Result<(), AllocError> {
        call(a, std::mem::take(b)).map_err(|(refused, that)| {
            *b = that;
            refused
        })
    }
    let calls: [(&str, Call<T>); 10] = [
        ("append", |(a, b)| a.append(b)),
        ("reserve", |(a, _)| a.reserve(500)),
        ("union_with", |(a, b)| a.union_with(b)),
        ("intersection_with", |(a, b)| a.intersection_with(b)),
        ("difference_with", |(a, b)| a.difference_with(b)),
        ("symmetric_difference_with", |(a, b)| {
            a.symmetric_difference_with(b)
        }),
        ("bitor_assign", |sides| owned(sides, RangeSet::bitor_assign)),
        ("bitand_assign", |sides| {
            owned(sides, RangeSet::bitand_assign)
        }),
        ("sub_assign", |sides| owned(sides, RangeSet::sub_assign)),
        ("bitxor_assign", |sides| {
            owned(sides, RangeSet::bitxor_assign)
        }),
    ];
    let mut requests = 0;
    for (name, call) in calls {
        let listed = |sides: &mut Sides<T>| call(sides).map(|()| list(&sides.0));
        requests += each_refusal(name, || sides(left, right), listed, same);
    }
    requests
}

/// Each call that changes a set by ranges. The ranges are made before anything is refused.
fn ranges<T: Element>(left: u8) -> usize {
    type Prepared<T> = (RangeSet2<T>, Vec<std::ops::Range<T>>);
    type Call<T> = fn(&mut Prepared<T>) -> Result<(), AllocError>;
    let prepare = || {
        let ranges = (0..12)
            .rev()
            .map(|i| T::of(5 * i)..T::of(5 * i + 4))
            .collect();
        (sides(left, 0).0, ranges)
    };
    let calls: [(&str, Call<T>); 10] = [
        ("insert from", |(set, ranges)| {
            set.insert(ranges.swap_remove(0).start..)
        }),
        ("remove from", |(set, ranges)| {
            set.remove(ranges.swap_remove(3).end..)
        }),
        ("insert up to", |(set, ranges)| {
            set.insert(..ranges.swap_remove(3).start)
        }),
        ("insert_changed", |(set, ranges)| {
            set.insert_changed(ranges.swap_remove(0)).map(drop)
        }),
        ("remove_changed", |(set, ranges)| {
            set.remove_changed(ranges.swap_remove(3)).map(drop)
        }),
        ("split_off", |(set, ranges)| {
            let at = ranges.swap_remove(9).start;
            let above = set.split_off(&at)?;
            unrefused(|| assert!(set.is_disjoint(&above) && !set.intersects_range(at..)));
            Ok(())
        }),
        ("insert", |(set, ranges)| set.insert(ranges.swap_remove(0))),
        ("remove", |(set, ranges)| set.remove(ranges.swap_remove(3))),
        ("extend", |(set, ranges)| set.extend(ranges.drain(..))),
        ("from_ranges", |(set, ranges)| {
            RangeSet::from_ranges(ranges.drain(..)).map(|made| *set = made)
        }),
    ];
    let mut requests = 0;
    for (name, call) in calls {
        let listed = |prepared: &mut Prepared<T>| call(prepared).map(|()| list(&prepared.0));
        requests += each_refusal(name, prepare, listed, |a, b| a.0 == b.0);
    }
    requests
}

/// Each call that makes a set of elements. They are made before anything is refused.
fn constructors<T: Element>() -> usize {
    type Prepared<T> = Vec<T>;
    type Call<T> = fn(&mut Prepared<T>) -> Result<RangeSet<[T; 0]>, AllocError>;
    let calls: [(&str, Call<T>); 10] = [
        ("with_capacity", |_| RangeSet::with_capacity(30)),
        ("a list of ranges", |it| {
            let (a, b) = (it.swap_remove(0), it.swap_remove(9));
            let (c, d) = (it.swap_remove(20), it.swap_remove(30));
            RangeSet::try_from([c..d, a..b])
        }),
        ("a range", |it| {
            RangeSet::try_from(it.swap_remove(0)..it.swap_remove(9))
        }),
        ("a start", |it| RangeSet::try_from(it.swap_remove(0)..)),
        ("an end", |it| RangeSet::try_from(..it.swap_remove(1))),
        ("a bool", |_| RangeSet::try_from(true)),
        ("all", |_| RangeSet::all()),
        ("from_unsorted", |it| {
            RangeSet::from_unsorted(it.drain(..).rev())
        }),
        ("from_unsorted of few", |it| {
            RangeSet::from_unsorted(it.drain(..9).rev())
        }),
        ("negated", |it| {
            RangeSet::try_from(it.swap_remove(1)..it.swap_remove(9)).and_then(RangeSet::negated)
        }),
    ];
    let mut requests = 0;
    for (name, call) in calls {
        let prepare = || (0..60).chain(20..30).map(T::of).collect::<Vec<T>>();
        let listed = |it: &mut Prepared<T>| call(it).map(|set| list(&set));
        requests += each_refusal(name, prepare, listed, |_, _| true);
    }
    requests
}

fn each_call<T: Element>() -> usize {
    let mut requests = constructors::<T>();
    for (left, right) in [(0, 1), (2, 1), (1, 6), (9, 9), (40, 3), (3, 40), (30, 30)] {
        requests += new_sets::<T>(left, right) + in_place::<T>(left, right);
    }
    for left in [0, 2, 4, 30] {
        requests += ranges::<T>(left);
    }
    requests
}

#[test]
fn sets_of_numbers() {
    assert!(each_call::<u64>() > 50);
}

#[test]
fn sets_of_texts() {
    assert!(each_call::<String>() > 1000);
}

#[test]
fn sets_of_lists() {
    assert!(each_call::<Vec<Option<String>>>() > 1000);
}

#[test]
fn copies_of_elements() {
    fn copy<T: EntryClone + Debug>(element: T, requests: usize) {
        let listed = |_: &mut ()| element.entry_clone().map(|it| unrefused(|| vec![it]));
        let made = refusals(1, "entry_clone", || (), listed, |_, _| true);
        assert_eq!(made, requests, "{element:?}");
    }
    copy(7u8, 0);
    copy('x', 0);
    copy("borrowed", 0);
    copy(&[String::from("a")][..], 0);
    copy(None::<String>, 0);
    copy(String::from("owned"), 1);
    copy(Some(String::from("owned")), 1);
    copy(vec![1u8, 2, 3], 1);
    copy(vec![String::from("a"), String::new(), String::from("b")], 3);
}

#[test]
fn copies_of_ranges() {
    let (start, end) = (String::from("a"), String::from("m"));
    let ranges: [(RangeSetRange<&String>, usize); 2] =
        [((&start..&end).into(), 2), ((&end..).into(), 1)];
    for (range, requests) in ranges {
        let listed = |_: &mut ()| range.try_cloned().map(|it| unrefused(|| vec![it]));
        assert_eq!(
            refusals(1, "try_cloned", || (), listed, |_, _| true),
            requests
        );
        assert_eq!(range.try_cloned(), Ok(range.cloned()));
    }
}

#[test]
fn a_refused_addition_gives_both_sides_back() {
    let prepare = || {
        (
            RangeSet2::<i64>::try_from(0..10).unwrap(),
            RangeSet2::try_from(20..).unwrap(),
        )
    };
    let (mut set, that) = prepare();
    let (refused, _) = refusing(Refusal::From(0), || set.union_with(&that));
    assert_eq!((refused, set.boundaries()), (Err(AllocError), &[0, 10][..]));
    let (refused, _) = refusing(Refusal::From(0), || set.bitor_assign(that));
    let (error, that) = refused.unwrap_err();
    assert_eq!(
        (error, set.boundaries(), that.boundaries()),
        (AllocError, &[0, 10][..], &[20][..])
    );
    set.bitor_assign(that).unwrap();
    assert_eq!(set.boundaries(), [0, 10, 20]);
}

#[test]
fn sets_from_texts() {
    let text = "0..3, 90..95, 5..9, 20..30, 40..50, 60..";
    let parse = |_: &mut ()| text.parse::<RangeSet2<u8>>().map(|set| list(&set));
    let requests = each_refusal("parse", || (), parse, |_, _| true);
    assert!(requests > 1);
    let (refused, _) = refusing(Refusal::From(0), || text.parse::<RangeSet2<u8>>());
    assert_eq!(refused, Err(ParseError::OutOfMemory));
    let (one, _) = refusing(Refusal::From(0), || "5..9".parse::<RangeSet2<u8>>());
    assert_eq!(one.unwrap().boundaries(), [5, 9]);
}

#[test]
fn sets_from_multiranges() {
    let text = "{[0,3),[90,95),[5,9),[20,30),[40,50),[60,)}";
    let read = |_: &mut ()| RangeSet2::<u8>::from_multirange(text).map(|set| list(&set));
    assert!(each_refusal("from_multirange", || (), read, |_, _| true) > 1);
    let (refused, _) = refusing(Refusal::From(0), || RangeSet2::<u8>::from_multirange(text));
    assert_eq!(refused, Err(MultirangeError::OutOfMemory));
}

#[test]
fn sets_of_values() {
    fn made<const N: usize>(room: usize)
    where
        [u64; N]: Array<Item = u64>,
    {
        // Ranges of two values, and the greatest value, in any order and twice.
        let values = || {
            let few = (0..room as u64).map(|i| 4 * (7 * i % 31));
            let pairs = few.flat_map(|at| [at + 1, at]);
            pairs.chain([u64::MAX, 0, u64::MAX]).collect::<Vec<u64>>()
        };
        let call = |values: &mut Vec<u64>| {
            RangeSet::<[u64; N]>::from_values(values.drain(..)).map(|set| list(&set))
        };
        let requests = each_refusal("from_values", values, call, |_, _| true);
        assert!(requests > 0, "{room} ranges, room for {N}");
    }
    made::<0>(1);
    made::<2>(3);
    made::<2>(31);
}

/// Sets that aren't fallible end the process where memory is refused, and the message is std's.
#[cfg(all(target_os = "linux", target_arch = "x86_64"))]
#[test]
fn other_sets_end_the_process() {
    use std::os::unix::process::ExitStatusExt;

    const CHILD: &str = "RANGE_SETS_TEST_ENDS_THE_PROCESS";
    // A name, what is said, and the call.
    let calls: [(&str, &str, fn()); 4] = [
        ("|=", "memory allocation of", || {
            let mut set: range_sets::RangeSet2<u64> = (0..10).into();
            let that: range_sets::RangeSet2<u64> = (20..30).into();
            refusing(Refusal::One(0), || set |= that);
        }),
        ("parse", "memory allocation of", || {
            let text = "1..2, 3..4, 5..6";
            let parse = || text.parse::<range_sets::RangeSet2<u64>>();
            let _ = refusing(Refusal::From(0), parse);
        }),
        (
            "with_capacity",
            "memory allocation of 800 bytes failed",
            || {
                let make = || range_sets::RangeSet2::<u64>::with_capacity(100);
                drop(refusing(Refusal::From(0), make));
            },
        ),
        ("reserve", "memory allocation of 816 bytes failed", || {
            let mut set: range_sets::RangeSet2<u64> = (0..10).into();
            refusing(Refusal::From(0), || set.reserve(100));
        }),
    ];
    if let Some(wanted) = std::env::var_os(CHILD) {
        calls.iter().find(|call| call.0 == wanted).unwrap().2();
        return;
    }
    for (name, message, _) in calls {
        let this = std::env::current_exe().unwrap();
        let child = std::process::Command::new(this)
            .args(["--exact", "other_sets_end_the_process", "--nocapture"])
            .env(CHILD, name)
            .output()
            .unwrap();
        assert_eq!(child.status.signal(), Some(6), "{name}");
        let said = String::from_utf8_lossy(&child.stderr);
        assert!(said.contains(message), "{name}: {said}");
    }
}
