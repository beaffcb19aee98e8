//! Every public call of `fallible`, by name: each of its requests for memory is refused in turn.
//! The names are those of the sources, so a new call has a row here or this fails.

// Not every call takes the second set, or the first.
#![allow(unused_variables)]

use crate::refusing::{each_refusal, unrefused};
use range_sets::fallible::{AllocError, ChunkedRangeSet, ChunkedSpace, RangeMap, RangeSet};
use range_sets::{Connective, RangeSetRef};
use std::collections::BTreeSet;
use std::fmt::Debug;
use std::fs;
use std::mem;
use std::ops::Range;
use std::path::Path;

type Set = RangeSet<[u32; 0]>;
type Map = RangeMap<u32, String>;

/// A call with two sets.
struct Row<S> {
    name: &'static str,
    /// Whether it asks for memory.
    asks: bool,
    call: fn(&mut S, &mut S) -> Result<(), ()>,
}

/// Rows of calls that take no memory, may fail for lack of it, or do without it.
macro_rules! calls {
    (
        |$a:ident, $b:ident: $S:ty|
        $($kind:ident { $($name:ident => $call:expr;)* })*
    ) => {
        vec![$($(Row::<$S> {
            name: stringify!($name),
            asks: calls!(@asks $kind),
            call: |$a, $b| calls!(@call $kind $call),
        }),*),*]
    };
    (@asks takes_none) => { false };
    (@asks $kind:ident) => { true };
    (@call may_fail $call:expr) => { $call.map(drop).map_err(drop) };
    (@call $kind:ident $call:expr) => {{
        let _ = $call;
        Ok(())
    }};
}

/// The questions that sets in one list, sets in chunks and spaces have in common.
macro_rules! questions {
    ($S:ty) => {
        calls! { |a, b: $S|
            takes_none {
                contains => a.contains(&12);
                is_all => a.is_all();
                contains_range => a.contains_range(10..=12);
                intersects_range => a.intersects_range(..12);
                range_at => a.range_at(&12);
                next_member => a.next_member(&12);
                next_gap => a.next_gap(&12);
                prev_member => a.prev_member(&12);
                prev_gap => a.prev_gap(&12);
                last_member => a.last_member();
                last_fit => a.last_fit(0..99, 3);
                first => a.first();
                last => a.last();
                span => a.span();
                gaps => (a.gaps(0..99).count(), a.gaps(&0..&99).count(), a.gaps(..).count());
                ranges_within => (a.ranges_within(0..).count(), a.ranges_within(&0..&99).count());
                overlapping => (a.overlapping(..=99).count(), a.overlapping(&9..).count());
                covered => a.covered();
                rank => a.rank(&99);
                select => a.select(9);
                first_run => a.first_run(0..99, 5);
                members => a.members().chain(b.members().rev()).count();
                iter => a.iter().chain(b.iter().rev()).count();
                ranges_len => a.ranges_len();
                is_empty => a.is_empty();
            }
            may_fail {
                to_multirange => a.to_multirange();
            }
        }
    };
}

/// The questions about two of them, of which the second is borrowed as a call takes it.
macro_rules! relations {
    ($S:ty, $borrowed:path) => {
        calls! { |a, b: $S|
            takes_none {
                intersects => a.intersects($borrowed(b));
                is_disjoint => a.is_disjoint($borrowed(b));
                is_subset => a.is_subset($borrowed(b));
                is_superset => a.is_superset($borrowed(b));
                merge_test => a.merge_test($borrowed(b), Connective::UNION);
                merge_len => a.merge_len($borrowed(b), Connective::UNION);
            }
        }
    };
}

fn view(set: &Set) -> &RangeSetRef<u32> {
    set
}

fn over(boundaries: &[u32]) -> &RangeSetRef<u32> {
    RangeSetRef::new(boundaries).expect("they are sorted")
}

fn in_chunks(set: &ChunkedRangeSet<u32>) -> &range_sets::ChunkedRangeSet<u32> {
    set
}

fn of_space(space: &ChunkedSpace<u32>) -> &range_sets::ChunkedRangeSet<u32> {
    space.as_set()
}

/// The changes that they have in common.
macro_rules! changes {
    ($S:ty) => {
        calls! { |a, b: $S|
            takes_none {
                clear => (a.clear(), b.clear());
            }
            may_fail {
                from_ranges => <$S>::from_ranges([20..30, 5..9, 10..12, 40..41]);
                insert => a.insert(7..8);
                remove => a.remove(12..13);
                insert_changed => a.insert_changed(7..8);
                remove_changed => a.remove_changed(12..13);
                try_clone => a.try_clone();
                extend => a.extend([7..8]);
            }
        }
    };
}

/// What sets in one list and sets in chunks have in common.
macro_rules! set_changes {
    ($S:ty) => {
        calls! { |a, b: $S|
            takes_none {
                pop_first => (a.pop_first(), b.pop_first());
                pop_last => (a.pop_last(), b.pop_last());
                retain => a.retain(|range| *range.start() % 20 == 0);
            }
            may_fail {
                from_values => <$S>::from_values([7, 3, 9, 3]);
                from_multirange => <$S>::from_multirange("{[20,30),[5,9),[10,12)}");
                union_with => a.union_with(RangeSetRef::new(&[12, 17]).unwrap());
                intersection_with => a.intersection_with(RangeSetRef::new(&[12, 13, 14, 99]).unwrap());
                difference_with => a.difference_with(RangeSetRef::new(&[12, 13]).unwrap());
                symmetric_difference_with =>
                    a.symmetric_difference_with(RangeSetRef::new(&[12, 13]).unwrap());
                append => a.append(b);
                split_off => a.split_off(&12);
            }
        }
    };
}

fn owned(
    a: &mut Set,
    b: &mut Set,
    call: impl Fn(&mut Set, Set) -> Result<(), (AllocError, Set)>,
) -> Result<(), ()> {
    call(a, mem::take(b)).map_err(|(_, back)| *b = back)
}

/// The copy of a set, which a call may take by value.
fn copy(set: &Set) -> Set {
    unrefused(|| set.try_clone().unwrap())
}

fn set_calls() -> Vec<Row<Set>> {
    let mut rows = calls! { |a, b: Set|
        takes_none {
            new => Set::new(mem::take(a).into_inner());
            empty => Set::empty();
            into_inner => mem::take(a).into_inner();
            capacity => a.capacity();
            shrink_to_fit => (a.shrink_to_fit(), b.shrink_to_fit());
            boundaries => a.boundaries();
            cursor => a.cursor().contains(&12);
            first_fit => a.first_fit(0..99, 3);
            first_fit_count => a.first_fit_count(0..99, 3);
            first_fit_aligned => a.first_fit_aligned(0..99, 3, 4);
            split => a.split(12);
            merge_into => a.merge_into(b, Connective::UNION, &mut [0; 200]).is_ok();
        }
        may_fail {
            all => Set::all();
            from_unsorted => Set::from_unsorted([7, 3, 9, 3]);
            union_all => Set::union_all([&*a, &*b, &*a]);
            intersection_all => Set::intersection_all([&*a, &*b]);
            with_capacity => Set::with_capacity(9);
            reserve => a.reserve(99);
            copied => Set::copied(b);
            negated => { let it = copy(a); it.negated() };
            bitor_assign => owned(a, b, Set::bitor_assign);
            bitand_assign => owned(a, b, Set::bitand_assign);
            bitxor_assign => owned(a, b, Set::bitxor_assign);
            sub_assign => owned(a, b, Set::sub_assign);
            union => a.union::<[u32; 2]>(b);
            intersection => a.intersection::<[u32; 2]>(b);
            difference => a.difference::<[u32; 2]>(b);
            symmetric_difference => a.symmetric_difference::<[u32; 2]>(b);
            combine => a.combine::<[u32; 2]>(b, Connective::NEITHER);
        }
    };
    rows.extend(questions!(Set));
    rows.extend(relations!(Set, view));
    rows.extend(changes!(Set));
    rows.extend(set_changes!(Set));
    #[cfg(feature = "new_unchecked")]
    rows.extend(calls! { |a, b: Set|
        takes_none {
            new_unchecked => Set::new_unchecked(mem::take(a).into_inner());
        }
    });
    rows
}

fn chunked_calls() -> Vec<Row<ChunkedRangeSet<u32>>> {
    let mut rows = calls! { |a, b: ChunkedRangeSet<u32>|
        takes_none {
            new => ChunkedRangeSet::<u32>::new();
            boundaries_len => a.boundaries_len();
            cursor => a.cursor().contains(&12);
            first_fit_unchanged => a.first_fit_unchanged(0..99, 3);
            first_fit_aligned => a.first_fit_aligned(0..99, 3, 4);
        }
        may_fail {
            into_set => mem::take(a).into_set::<[u32; 2]>().map_err(|(_, back)| *a = back);
            union_all => ChunkedRangeSet::union_all([&[5, 9, 20, 30][..], &[40]].map(over));
            intersection_all => ChunkedRangeSet::intersection_all([&[5, 9, 20, 30][..], &[7]].map(over));
        }
    };
    rows.extend(questions!(ChunkedRangeSet<u32>));
    rows.extend(relations!(ChunkedRangeSet<u32>, in_chunks));
    rows.extend(changes!(ChunkedRangeSet<u32>));
    rows.extend(set_changes!(ChunkedRangeSet<u32>));
    rows
}

fn space_calls() -> Vec<Row<ChunkedSpace<u32>>> {
    let mut rows = calls! { |a, b: ChunkedSpace<u32>|
        takes_none {
            new => ChunkedSpace::<u32>::new();
            as_set => a.as_set();
            boundaries_len => a.boundaries_len();
            cursor => a.cursor().contains(&12);
            first_fit_unchanged => a.first_fit_unchanged(0..99, 3);
        }
        goes_on {
            first_fit => a.first_fit(0..99_999, 300);
            first_fit_count => a.first_fit_count(0..99_999, 300);
            first_fit_aligned => a.first_fit_aligned(0..99_999, 300, 4);
        }
    };
    rows.extend(questions!(ChunkedSpace<u32>));
    rows.extend(relations!(ChunkedSpace<u32>, of_space));
    rows.extend(changes!(ChunkedSpace<u32>));
    rows
}

fn text(number: u32) -> String {
    unrefused(|| format!("{number}, and more that lies on the heap"))
}

fn map_calls() -> Vec<Row<Map>> {
    calls! { |a, b: Map|
        takes_none {
            new => Map::new();
            get => a.get(&12);
            get_key_value => a.get_key_value(&12);
            contains_key => a.contains_key(&12);
            is_free => a.is_free(12..);
            len => a.len();
            is_empty => a.is_empty();
            iter => a.iter().chain(b.iter().rev()).count();
            overlapping => (a.overlapping(..=99).count(), a.overlapping(&9..).count());
            gaps => (a.gaps(0..99).count(), a.gaps(&0..&99).count(), a.gaps(..).count());
            ranges_within => (a.ranges_within(..=99).count(), a.ranges_within(9..).rev().count());
            covered => a.covered();
            next_gap => a.next_gap(&12);
            first_fit => a.first_fit(0..99, 3);
            first => a.first();
            last => a.last();
            span => a.span();
            keys => a.keys().count();
            values => a.values().count();
            retain => a.retain(|value| value.starts_with('1'));
            retain_ranges => a.retain_ranges(|range, _| *range.start() % 20 == 0);
            clear => a.clear();
        }
        may_fail {
            from_ranges => Map::from_ranges([(20..30, text(1)), (5..9, text(2))]);
            try_clone => a.try_clone();
            insert => a.insert(12..13, text(7));
            insert_free => a.insert_free(7..8, text(7));
            remove => a.remove(12..13);
            extend => a.extend([(12..13, text(7))]);
            pop_first => a.pop_first();
            pop_last => a.pop_last();
            modify => a.modify(&12, |value| {
                value.try_reserve(99).map(|()| value.push('!')).map_err(|_| AllocError)
            });
            append => a.append(b);
            split_off => a.split_off(&12);
            combine => a.combine(b, |a, b| Ok(a.or(b).map(String::len)));
            update => a.update(12..40, |value| Ok(value.map(|_| text(7))));
            union_with_left => a.union_with_left(b);
            union_with_right => a.union_with_right(b);
            insert_all => a.insert_all(b);
            insert_where_free => a.insert_where_free(b);
            remove_all => a.remove_all(RangeSetRef::new(&[12, 40]).unwrap());
            retain_all => a.retain_all(RangeSetRef::new(&[12, 40]).unwrap());
            restrict => a.restrict(12..=40);
            without => a.without(RangeSetRef::new(&[12, 40]).unwrap());
            domain => a.domain::<[u32; 2]>();
            domain_where => a.domain_where::<[u32; 2]>(|value| value.starts_with('1'));
            map_values => a.map_values(|value| Ok(value.len()));
            where_equal => a.where_equal::<[u32; 2]>(&text(1));
            depth => RangeMap::depth([0..=5, 3..=8, 7..=u32::MAX]);
        }
    }
}

/// Whose calls an impl has, by how it names the type that it is for: all of them, and of types that
/// are dereferenced to those with `&self`.
const IMPLS: [(&str, &[&str], &[&str]); 15] = [
    ("RangeSet", &["RangeSet"], &[]),
    ("RangeSetRef", &[], &["RangeSet"]),
    ("$Left", &["RangeSet"], &[]),
    (
        "$Set",
        &[],
        &["RangeSet", "ChunkedRangeSet", "ChunkedSpace"],
    ),
    ("ChunkedRangeSet", &["ChunkedRangeSet"], &["ChunkedSpace"]),
    ("ChunkedSpace", &["ChunkedSpace"], &[]),
    ("$form", &["ChunkedRangeSet", "ChunkedSpace"], &[]),
    (
        "$set",
        &["RangeSet", "ChunkedRangeSet", "ChunkedSpace"],
        &[],
    ),
    ("Map", &["RangeMap"], &[]),
    ("RangeMap", &["RangeMap"], &[]),
    // Functions, whose refusals the tests of `reading` have.
    ("", &["pairs"], &[]),
    // `fallible` has ranges and iterators of the crate, and no trackers.
    ("RangeSetRange", &[], &[]),
    ("Cursor", &[], &[]),
    ("$iter", &[], &[]),
    ("Kept", &[], &[]),
];

/// The calls of each type of `fallible`, by the sources.
fn named(folder: &Path, names: &mut BTreeSet<(&'static str, String)>) {
    for entry in fs::read_dir(folder).expect("a folder of the sources") {
        let path = entry.expect("a file of them").path();
        let name = path.file_name().unwrap_or_default().to_string_lossy();
        if path.is_dir() && !matches!(&*name, "generated" | "support" | "tracker") {
            named(&path, names);
        } else if name.ends_with(".rs") && name != "tracker.rs" {
            named_in(&fs::read_to_string(&path).expect("a text"), names);
        }
    }
}

fn named_in(source: &str, names: &mut BTreeSet<(&'static str, String)>) {
    let mut of = "";
    let mut lines = source.lines().map(str::trim_start).peekable();
    while let Some(line) = lines.next() {
        if line.starts_with("impl<") {
            of = type_of(line);
        }
        let call = line
            .strip_prefix("pub fn ")
            .or_else(|| line.strip_prefix("pub const fn "));
        let (name, rest) = match call.and_then(|call| call.split_once(['(', '<', ' '])) {
            Some(found) if !found.0.starts_with('$') => found,
            _ => continue,
        };
        let (_, all, by_ref) = IMPLS
            .into_iter()
            .find(|row| row.0 == of)
            .unwrap_or_else(|| panic!("no row says whose call {name} is: {of}"));
        // The receiver stands on a line of its own where there are many arguments.
        let next = lines.peek().filter(|_| rest.is_empty()).unwrap_or(&rest);
        let asks_by_ref = next.contains("&self") || next.contains("&'a self");
        let by_ref = if asks_by_ref { by_ref } else { &[] };
        names.extend(all.iter().chain(by_ref).map(|of| (*of, name.to_string())));
    }
}

/// The name of the type that an impl is for.
fn type_of(header: &str) -> &str {
    let mut depth = 0;
    let end = header.find(|sign| {
        depth += i32::from(sign == '<') - i32::from(sign == '>');
        sign == '>' && depth == 0
    });
    let of = header[end.map_or(0, |end| end + 1)..].trim();
    let of = of.strip_prefix("$form::").unwrap_or(of);
    of.split(['<', ' ']).next().unwrap_or(of)
}

fn each_call<S: Debug>(of: &str, prepare: impl Fn() -> (S, S), rows: &[Row<S>]) {
    let shown = |sides: &(S, S)| unrefused(|| format!("{sides:?}"));
    for row in rows {
        let name = format!("{of}::{}", row.name);
        let requests = each_refusal(
            &name,
            &prepare,
            |sides| {
                let result = (row.call)(&mut sides.0, &mut sides.1);
                result.map(|()| unrefused(|| vec![shown(sides)]))
            },
            |sides, before| shown(sides) == shown(before),
        );
        assert_eq!(requests > 0, row.asks, "{name}: {requests} requests");
    }
}

fn ranges(n: u32) -> impl Iterator<Item = Range<u32>> {
    (0..n).map(|i| 10 * i + 10..10 * i + 15)
}

#[test]
fn each_public_call_survives_refusals() {
    // The left set has few ranges, so that each operation makes more of them.
    let few = [2..3, 4..5, 10..15, 20..25, 30..35, 50..3000];
    let sets = || {
        let mut few = Set::from_ranges(few.clone()).unwrap();
        few.shrink_to_fit();
        (few, Set::from_ranges(ranges(256)).unwrap())
    };
    each_call("RangeSet", sets, &set_calls());
    let chunked = || ChunkedRangeSet::from_ranges(ranges(256)).unwrap();
    each_call(
        "ChunkedRangeSet",
        || (chunked(), chunked()),
        &chunked_calls(),
    );
    // A search of a space remembers the gaps of a chunk, if it goes on behind it.
    let space = || ChunkedSpace::from_ranges(ranges(600)).unwrap();
    each_call("ChunkedSpace", || (space(), space()), &space_calls());
    let map = || {
        let ranges = ranges(32).map(|range| (range.clone(), text(range.start % 3)));
        Map::from_ranges(ranges).unwrap()
    };
    each_call("RangeMap", || (map(), map()), &map_calls());
}

#[cfg(not(target_arch = "wasm32"))]
#[test]
fn each_public_call_has_a_row() {
    fn rows<S>(
        of: &'static str,
        rows: Vec<Row<S>>,
    ) -> impl Iterator<Item = (&'static str, String)> {
        rows.into_iter().map(move |row| (of, row.name.to_string()))
    }
    let mut names = BTreeSet::new();
    named(
        &Path::new(env!("CARGO_MANIFEST_DIR")).join("src"),
        &mut names,
    );
    if !cfg!(feature = "new_unchecked") {
        names.remove(&("RangeSet", "new_unchecked".to_string()));
    }
    let rows: BTreeSet<_> = rows("RangeSet", set_calls())
        .chain(rows("ChunkedRangeSet", chunked_calls()))
        .chain(rows("ChunkedSpace", space_calls()))
        .chain(rows("RangeMap", map_calls()))
        .chain(["deserialize", "serialize"].map(|name| ("pairs", name.to_string())))
        .collect();
    let missing: Vec<_> = names.difference(&rows).collect();
    let unknown: Vec<_> = rows.difference(&names).collect();
    assert!(
        missing.is_empty() && unknown.is_empty(),
        "without a row: {missing:?}, no calls: {unknown:?}"
    );
}
