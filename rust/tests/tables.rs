//! The tables of rows that the proved calls are tested with: each row that Rust has a call for.
//! What the words of a row are, each table says in its first lines.

use range_sets::{
    fallible::EntryClone, Connective, Expected, FromPlace, ParseError, RangeSet, RangeSet2,
    RangeSetEntry, RangeSetRange, RangeSetRef, TextEntry,
};
use std::fmt::Debug;
use std::iter::from_fn;
use std::ops::Range;

/// The tables, each with its name.
macro_rules! tables {
    ($($name:literal)*) => {
        [$(($name, include_str!(concat!("../../crates/range_rows/data/", $name, ".txt")))),*]
    };
}

#[rustfmt::skip]
const TABLES: [(&str, &str); 33] = tables!(
    "connectives" "contains" "covered" "extent" "first_fit" "fitting" "from" "from_range"
    "from_ranges" "from_unsorted" "from_values" "gaps" "insert" "intersection_all"
    "intersects_range" "is_all" "members" "multiples" "negation" "next" "operations" "overlapping"
    "parse" "prev" "range_at" "ranges" "rank" "select" "sorted" "split" "to_string" "two_sets"
    "union_all"
);

/// The tables whose rows end with how many comparisons a call may make, which no call of Rust
/// counts.
const COUNTED: [&str; 3] = ["contains", "operations", "split"];

/// An element whose values are words of a row.
trait Word: FromPlace + RangeSetEntry + EntryClone + TextEntry + Debug {
    fn read(word: &str) -> Self;
    fn word(&self) -> String;

    /// The first value from which on `len` values of the range are free.
    fn first_fit(set: &RangeSetRef<Self>, within: RangeSetRange<Self>, len: Self) -> Option<Self>;
}

macro_rules! numbers {
    ($($number:ty)*) => {$(
        impl Word for $number {
            fn read(word: &str) -> Self {
                word.parse().unwrap()
            }

            fn word(&self) -> String {
                self.to_string()
            }

            fn first_fit(
                set: &RangeSetRef<Self>,
                within: RangeSetRange<Self>,
                len: Self,
            ) -> Option<Self> {
                set.first_fit(within, len)
            }
        }
    )*};
}

numbers!(i8 i16 i32 i64 i128 isize u8 u16 u32 u64 u128 usize);

/// A character stands for itself, or is written as its number in hexadecimal digits after `U+`.
impl Word for char {
    fn read(word: &str) -> Self {
        match word.strip_prefix("U+") {
            Some(number) => char::from_u32(u32::from_str_radix(number, 16).unwrap()).unwrap(),
            None => word.parse().unwrap(),
        }
    }

    fn word(&self) -> String {
        if self.is_ascii_graphic() {
            self.to_string()
        } else {
            format!("U+{:X}", u32::from(*self))
        }
    }

    fn first_fit(_: &RangeSetRef<Self>, _: RangeSetRange<Self>, _: Self) -> Option<Self> {
        unreachable!("a character is no length")
    }
}

/// The words of a row that are given.
struct Given<'a>(Vec<&'a str>);

impl Given<'_> {
    fn list<T: Word>(&self, at: usize) -> Vec<T> {
        parts(self.0[at]).map(T::read).collect()
    }

    fn set<T: Word>(&self, at: usize) -> RangeSet2<T> {
        RangeSet::new(self.list(at).into_iter().collect()).expect("they are sorted")
    }

    /// The sets of all words, unless they say that there is none.
    fn sets<T: Word>(&self) -> Vec<RangeSet2<T>> {
        let given = (0..self.0.len()).filter(|at| self.0[*at] != "none");
        given.map(|at| self.set(at)).collect()
    }

    fn value<T: Word>(&self, at: usize) -> T {
        T::read(self.0[at])
    }

    fn range<T: Word>(&self, at: usize) -> Range<T> {
        match range(self.0[at]) {
            RangeSetRange::Range(range) => range,
            RangeSetRange::RangeFrom(_) => panic!("it has no end"),
        }
    }

    /// The text between quotes of a row.
    fn text(&self) -> String {
        serde_json::from_str(&self.0.join(" ")).unwrap()
    }

    fn connective(&self, at: usize) -> Connective {
        match self.0[at].as_bytes() {
            &[neither, left, right, both] => Connective {
                neither: neither == b'1',
                left: left == b'1',
                right: right == b'1',
                both: both == b'1',
            },
            _ => panic!("no connective"),
        }
    }
}

/// The words between the commas of a word.
fn parts(word: &str) -> impl Iterator<Item = &str> {
    word.split(',').filter(move |_| word != "-")
}

fn range<T: Word>(word: &str) -> RangeSetRange<T> {
    match word.split_once("..") {
        Some((start, "")) => RangeSetRange::RangeFrom(T::read(start)..),
        Some((start, end)) => RangeSetRange::Range(T::read(start)..T::read(end)),
        None => panic!("no range"),
    }
}

fn joined(words: impl Iterator<Item = String>) -> String {
    match words.collect::<Vec<_>>() {
        none if none.is_empty() => "-".into(),
        some => some.join(","),
    }
}

fn listed<T: Word>(list: &[T]) -> String {
    joined(list.iter().map(T::word))
}

fn of_range<T: Word>(range: RangeSetRange<&T>) -> String {
    match range {
        RangeSetRange::Range(range) => format!("{}..{}", range.start.word(), range.end.word()),
        RangeSetRange::RangeFrom(range) => format!("{}..", range.start.word()),
    }
}

fn or_none(word: Option<String>) -> String {
    word.unwrap_or_else(|| "none".into())
}

fn value_or_none<T: Word>(value: Option<T>) -> String {
    or_none(value.as_ref().map(T::word))
}

fn ranges<'a, T: Word + 'a, R: Into<RangeSetRange<&'a T>>>(
    ranges: impl Iterator<Item = R>,
) -> String {
    joined(ranges.map(|range| of_range(range.into())))
}

/// The tables whose rows name each type.
const OF_EACH_TYPE: [&str; 9] = [
    "contains",
    "covered",
    "first_fit",
    "fitting",
    "from_values",
    "members",
    "multiples",
    "rank",
    "select",
];

/// What is answered to a row of such a table, which Rust has a call for.
fn answer_of_each<T: Word>(table: &str, row: &Given) -> String {
    let set = || row.set::<T>(0);
    match table {
        "contains" => set().contains(&row.value(1)).to_string(),
        "covered" => or_none(set().covered().map(|n| n.to_string())),
        "first_fit" => value_or_none(T::first_fit(&set(), range(row.0[1]), row.value(2))),
        "members" => {
            let (set, mut back) = (set(), row.set::<T>(0).members().rev().collect::<Vec<_>>());
            back.reverse();
            assert!(set.members().eq(back.iter().copied()));
            listed(&back)
        }
        "rank" => set().rank(&row.value(1)).to_string(),
        "select" => value_or_none(set().select(row.0[1].parse().unwrap())),
        "fitting" | "multiples" => {
            let (set, within) = (set(), range::<T>(row.0[1]));
            let (count, align) = (row.0[2].parse().unwrap(), row.0[3].parse().unwrap());
            let aligned = value_or_none(set.first_fit_aligned(within.clone(), count, align));
            if table == "multiples" {
                return aligned;
            }
            let fit = value_or_none(set.first_fit_count(within.clone(), count));
            format!(
                "{fit} {aligned} {}",
                value_or_none(set.first_run(within, count))
            )
        }
        "from_values" => listed(RangeSet2::from_values(row.list::<T>(0)).boundaries()),
        _ => panic!("no call for {table}"),
    }
}

/// The same of the other tables.
fn answer<T: Word>(table: &str, row: &Given) -> String {
    let set = || row.set::<T>(0);
    match table {
        "extent" => {
            let set = set();
            let ends = [set.first(), set.last(), set.span()].map(|it| or_none(it.map(of_range)));
            assert_eq!(set.is_empty(), set.ranges_len() == 0);
            format!("{} {}", ends.join(" "), set.ranges_len())
        }
        "from" => {
            let (set, start) = (set(), T::read(row.0[1].strip_suffix("..").unwrap()));
            let all = set.contains_range(start..);
            format!("{all} {}", set.intersects_range(start..))
        }
        "gaps" => {
            let (set, range) = (set(), row.range::<T>(1));
            let gaps = ranges(set.gaps(&range.start..&range.end));
            let within = ranges(set.ranges_within(&range.start..&range.end));
            assert_eq!(set.contains_range(range), gaps == "-");
            format!("{gaps} {within}")
        }
        "intersects_range" => set().intersects_range(row.range(1)).to_string(),
        "is_all" => set().is_all().to_string(),
        "next" => {
            let (set, from) = (set(), row.value(1));
            let (member, gap) = (
                set.next_member(&from).copied(),
                set.next_gap(&from).copied(),
            );
            format!("{} {}", value_or_none(member), value_or_none(gap))
        }
        "overlapping" => ranges(set().overlapping(row.range::<T>(1))),
        "prev" => {
            let (set, from) = (set(), row.value(1));
            let (member, gap) = (set.prev_member(&from), set.prev_gap(&from));
            format!("{} {}", value_or_none(member), value_or_none(gap))
        }
        "range_at" => or_none(set().range_at(&row.value(1)).map(of_range)),
        "ranges" => {
            let (set, mut first, mut last) = (set(), set(), set());
            let mut taken: Vec<_> = from_fn(|| last.pop_last()).collect();
            taken.reverse();
            assert!(from_fn(|| first.pop_first()).eq(taken.iter().cloned()));
            assert!(set.iter().eq(taken.iter().map(RangeSetRange::as_ref)));
            assert!(set
                .iter()
                .rev()
                .eq(taken.iter().rev().map(RangeSetRange::as_ref)));
            ranges(set.iter())
        }
        _ => changed::<T>(table, row),
    }
}

/// The same of the tables whose calls make a set.
fn changed<T: Word>(table: &str, row: &Given) -> String {
    match table {
        "connectives" => listed(
            row.set::<T>(1)
                .combine::<[T; 2]>(&row.set(2), row.connective(0))
                .boundaries(),
        ),
        "from_range" => {
            let set: RangeSet2<T> = match row.0[0] {
                ".." => (..).into(),
                word => match word.strip_prefix("..") {
                    Some(end) => (..T::read(end)).into(),
                    None => range(word).into(),
                },
            };
            listed(set.boundaries())
        }
        "from_ranges" => {
            listed(RangeSet2::from_ranges(parts(row.0[0]).map(range::<T>)).boundaries())
        }
        "from_unsorted" => listed(RangeSet2::from_unsorted(row.list::<T>(0)).boundaries()),
        "insert" => {
            let before = row.set::<T>(0);
            let (mut with, mut without) = (before.clone(), before.clone());
            assert_eq!(with.insert_changed(row.range(1)), with != before);
            assert_eq!(without.remove_changed(row.range(1)), without != before);
            let (mut inserted, mut removed) = (before.clone(), before);
            inserted.insert(row.range(1));
            removed.remove(row.range(1));
            assert_eq!((&inserted, &removed), (&with, &without));
            format!(
                "{} {}",
                listed(with.boundaries()),
                listed(without.boundaries())
            )
        }
        "intersection_all" => {
            let sets = row.sets::<T>();
            listed(RangeSet2::intersection_all(sets).boundaries())
        }
        "union_all" => {
            let sets = row.sets::<T>();
            listed(RangeSet2::union_all(sets).boundaries())
        }
        "negation" => {
            let set = row.set::<T>(0);
            let negated = !&set;
            assert_eq!(!&negated, set);
            assert_eq!(!set, negated);
            listed(negated.boundaries())
        }
        "operations" => {
            let (a, b) = (row.set::<T>(0), row.set(1));
            /// The operation in each form, all of which make one set.
            macro_rules! forms {
                ($operator:tt $assign:tt $named:ident $with:ident) => {{
                    let made = &a $operator &b;
                    let (mut assigned, mut with) = (a.clone(), a.clone());
                    assigned $assign b.clone();
                    with.$with(&b);
                    assert_eq!((&assigned, &with), (&made, &made));
                    assert_eq!(a.$named::<[T; 2]>(&b), made);
                    assert_eq!((a.clone() $operator b.clone(), a.clone() $operator &b), (made.clone(), made.clone()));
                    assert_eq!(&a $operator b.clone(), made);
                    listed(made.boundaries())
                }};
            }
            [
                forms!(| |= union union_with),
                forms!(& &= intersection intersection_with),
                forms!(- -= difference difference_with),
                forms!(^ ^= symmetric_difference symmetric_difference_with),
            ]
            .join(" ")
        }
        "sorted" => RangeSetRef::new(&row.list::<T>(0)).is_some().to_string(),
        "split" => {
            let set = row.set::<T>(0);
            let (below, from) = set.split(row.value(1));
            format!(
                "{} {}",
                listed(below.boundaries()),
                listed(from.boundaries())
            )
        }
        "two_sets" => {
            let (a, b) = (row.set::<T>(0), row.set(1));
            assert_eq!(
                (a.is_disjoint(&b), a == b),
                (!a.intersects(&b), a.cmp(&b).is_eq())
            );
            let (within, over) = (a.is_subset(&b), a.is_superset(&b));
            format!("{} {within} {over} {:?}", a.intersects(&b), a.cmp(&b)).to_lowercase()
        }
        _ => texts::<T>(table, row),
    }
}

/// What a text is read as, or why it isn't.
fn read<T: Word>(text: &str) -> String {
    let expected = |it| match it {
        Expected::Number => "number",
        Expected::Dot => "dot",
        Expected::Comma => "comma",
        _ => panic!("no row has {it:?}"),
    };
    match text.parse::<RangeSet2<T>>() {
        Ok(set) => listed(set.boundaries()),
        Err(ParseError::Malformed { at, expected: it }) => {
            format!("expected {} at {at}", expected(it))
        }
        Err(ParseError::OutOfRange) => "out_of_range".into(),
        Err(error) => error.to_string(),
    }
}

/// The same of the tables of texts.
fn texts<T: Word>(table: &str, row: &Given) -> String {
    match table {
        "parse" => read::<T>(&row.text()),
        "to_string" => {
            let set = row.set::<T>(0);
            assert_eq!(format!("{set:?}"), format!("RangeSet{{{set}}}"));
            serde_json::to_string(&set.to_string()).unwrap()
        }
        _ => panic!("no call for {table}"),
    }
}

/// What is answered to a row of a table, by the type that the row names.
fn answer_of(table: &str, words: &str) -> String {
    let (kind, rest) = words.split_once(' ').unwrap_or(("", words));
    // In the tables a usize has 64 bits.
    let kind = match kind {
        "usize" if usize::BITS < 64 => "u64",
        "isize" if usize::BITS < 64 => "i64",
        _ => kind,
    };
    macro_rules! by_kind {
        ($answer:ident: $($kind:ident)*) => {
            match kind {
                $(stringify!($kind) => $answer::<$kind>(table, &Given(rest.split(' ').collect())),)*
                _ => $answer::<i64>(table, &Given(words.split(' ').collect())),
            }
        };
    }
    if OF_EACH_TYPE.contains(&table) {
        by_kind!(answer_of_each: i8 i16 i32 i64 i128 isize u8 u16 u32 u64 u128 usize char)
    } else {
        by_kind!(answer: i8 i32 u8 u64 char)
    }
}

#[test]
fn each_row_is_answered() {
    for (table, text) in TABLES {
        let (mut right, mut wrong, mut unseen) = (0, 0, 0);
        for (number, line) in (1..).zip(text.lines()).filter(|it| !it.1.starts_with('#')) {
            let (is_wrong, row) = match line.strip_prefix("! ") {
                Some(row) => (true, row),
                None => (false, line),
            };
            let (given, mut wanted) = row.split_once(" = ").unwrap();
            if COUNTED.contains(&table) {
                wanted = wanted.rsplit_once(' ').unwrap().0;
            }
            let found = answer_of(table, given);
            if !is_wrong {
                right += 1;
                assert_eq!(found, wanted, "{table}.txt:{number}: {line}");
            } else if found != wanted {
                wrong += 1;
            } else {
                // It is wrong by its comparisons alone.
                assert!(COUNTED.contains(&table), "{table}.txt:{number}: {line}");
                unseen += 1;
            }
        }
        let comments = text.lines().filter(|line| line.starts_with('#')).count();
        let rows = text.lines().count() - comments;
        assert_eq!(right + wrong + unseen, rows, "{table}.txt: each row");
        assert!(
            right > 0 && wrong > 0,
            "{table}.txt: {right} rows, {wrong} wrong ones"
        );
    }
}
