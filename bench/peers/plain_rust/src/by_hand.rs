//! Calls beside what a user writes by hand: a list of pairs, a loop, std's tree. A row crosses as its place in [`ROWS`], and
//! one of its two ways as a pointer, which `by_hand_new` answers and `by_hand_free` takes back.

use crate::tree::TreeMap;
use range_sets::{ChunkedRangeSet, Connective, RangeMap, RangeSet2, RangeSetRef};
use std::os::raw::c_char;
use std::slice::from_raw_parts_mut as room;
use std::{iter, ops::Range, ptr};

/// Starts and ends, in order and apart where a set is meant.
type Pairs = Vec<(i64, i64)>;

/// Does it once. Where a list is given, it adds the numbers of the answer.
pub type Pass = Box<dyn FnMut(Option<&mut Vec<i64>>)>;

struct Row {
    name: &'static [u8],
    /// How many ranges there are.
    sizes: &'static [usize],
    /// Whether the time is that of a range, and not of a call.
    is_each: bool,
    /// The call, and by hand.
    make: fn(usize) -> [Pass; 2],
}

/// A pass over what lies ready. Behind a pointer, so that the whole answer is made.
fn pass<D: 'static, R: Answer + 'static>(mut data: D, run: fn(&mut D) -> R) -> Pass {
    Box::new(move |out| {
        let answer = run(&mut data);
        if let Some(out) = out {
            answer.write(out);
        }
    })
}

/// What is compared.
trait Answer {
    fn write(&self, out: &mut Vec<i64>);
}

impl Answer for i64 {
    fn write(&self, out: &mut Vec<i64>) {
        out.push(*self);
    }
}

impl Answer for Pairs {
    fn write(&self, out: &mut Vec<i64>) {
        out.extend(self.iter().flat_map(|it| [it.0, it.1]));
    }
}

impl Answer for Vec<i64> {
    fn write(&self, out: &mut Vec<i64>) {
        out.extend(self);
    }
}

impl Answer for RangeSet2<i64> {
    fn write(&self, out: &mut Vec<i64>) {
        out.extend(self.boundaries());
    }
}

impl Answer for ChunkedRangeSet<i64> {
    fn write(&self, out: &mut Vec<i64>) {
        RangeSet2::from(self).write(out);
    }
}

impl<V: Copy + Eq + TryInto<i64>> Answer for RangeMap<i64, V> {
    fn write(&self, out: &mut Vec<i64>) {
        for (range, value) in self {
            out.extend([**range.start(), range.end().map_or(-1, |end| **end)]);
            out.extend((*value).try_into());
        }
    }
}

impl Answer for TreeMap {
    fn write(&self, out: &mut Vec<i64>) {
        self.iter()
            .for_each(|(range, value)| out.extend([range.start, range.end, value as i64]));
    }
}

impl Answer for Vec<(i64, i64, i64)> {
    fn write(&self, out: &mut Vec<i64>) {
        out.extend(self.iter().flat_map(|it| [it.0, it.1, it.2]));
    }
}

/// Ranges of a length at distances of 10, from a place on.
fn pairs(from: i64, len: i64, ranges: usize) -> Pairs {
    let starts = (0..ranges as i64).map(|place| from + place * 10);
    starts.map(|start| (start, start + len)).collect()
}

/// What no compiler knows of a range without going over it.
fn mixed(before: i64, number: i64) -> i64 {
    before.rotate_left(1) ^ number
}

fn in_order(ranges: usize) -> Pairs {
    pairs(10, 6, ranges)
}

/// As many numbers, none of which says the next to a processor.
fn any(many: usize) -> impl Iterator<Item = usize> {
    let mut state = 1u64;
    iter::repeat_with(move || {
        state ^= state << 13;
        state ^= state >> 7;
        state ^= state << 17;
        state as usize
    })
    .take(many)
}

fn shuffled<T>(mut list: Vec<T>) -> Vec<T> {
    for (last, other) in (1..list.len()).rev().zip(any(list.len())) {
        list.swap(last, other % (last + 1));
    }
    list
}

fn set(pairs: &[(i64, i64)]) -> RangeSet2<i64> {
    RangeSet2::from_ranges(ranges(pairs))
}

fn chunks(ranges: usize) -> ChunkedRangeSet<i64> {
    set(&in_order(ranges)).into()
}

fn ranges(pairs: &[(i64, i64)]) -> impl DoubleEndedIterator<Item = Range<i64>> + '_ {
    pairs.iter().map(|&(start, end)| start..end)
}

/// The ranges of a set, of such as come by their starts.
fn joined(ranges: impl IntoIterator<Item = (i64, i64)>) -> Pairs {
    let mut all = Pairs::new();
    for (start, end) in ranges {
        match all.last_mut() {
            Some(last) if start <= last.1 => last.1 = last.1.max(end),
            _ => all.push((start, end)),
        }
    }
    all
}

fn sorted<T: Ord>(mut list: Vec<T>) -> Vec<T> {
    list.sort_unstable();
    list
}

/// The union of two sets.
fn merged(a: &[(i64, i64)], b: &[(i64, i64)]) -> Pairs {
    let (mut a, mut b) = (a.iter().copied().peekable(), b.iter().copied().peekable());
    joined(iter::from_fn(|| match (a.peek(), b.peek()) {
        (Some(left), Some(right)) if right < left => b.next(),
        (Some(_), _) => a.next(),
        _ => b.next(),
    }))
}

/// Puts a range in: those that it overlaps or touches become one with it.
fn put(set: &mut Pairs, (start, end): (i64, i64)) {
    let from = set.partition_point(|it| it.1 < start);
    let to = set.partition_point(|it| it.0 <= end);
    let met = set[from..to].iter().copied();
    let one = joined(sorted(met.chain([(start, end)]).collect()));
    set.splice(from..to, one);
}

fn contains(set: &[(i64, i64)], start: i64, end: i64) -> bool {
    let at = set.partition_point(|it| it.0 <= start);
    at > 0 && end <= set[at - 1].1
}

/// The range in the gap after one of the ranges: others at each call.
fn next_gap(calls: &mut usize, ranges: usize) -> (i64, i64) {
    *calls += 1;
    let start = 17 + (*calls * 7919 % ranges) as i64 * 10;
    (start, start + 2)
}

/// How many ranges lie over each stretch, where some do.
fn depths(ranges: &[Range<i64>]) -> Vec<(i64, i64, i64)> {
    let ends = ranges.iter().flat_map(|it| [(it.start, 1), (it.end, -1)]);
    let (mut all, mut depth, mut from) = (Vec::<(i64, i64, i64)>::new(), 0, 0);
    for (at, change) in sorted(ends.collect()) {
        match all.last_mut() {
            _ if at == from || depth == 0 => {}
            Some(last) if last.1 == from && last.2 == depth => last.1 = at,
            _ => all.push((from, at, depth)),
        }
        (depth, from) = (depth + change, at);
    }
    all
}

fn tree(ranges: &[Range<i64>]) -> TreeMap {
    let mut map = TreeMap::default();
    ranges.iter().for_each(|it| map.insert(it.clone(), it.start as u64 % 7));
    map
}

fn map(ranges: &[Range<i64>]) -> RangeMap<i64, u64> {
    ranges.iter().map(|it| (it.clone(), it.start as u64 % 7)).collect()
}

fn text(ranges: usize) -> String {
    set(&in_order(ranges)).to_string()
}

fn read(text: &str) -> Pairs {
    let ranges = text.split(", ").map(|it| it.split_once("..").expect("two ends"));
    joined(ranges.map(|(start, end)| (start.parse().expect("a number"), end.parse().expect("a number"))))
}

/// Boundaries at distances of 1 to 31.
fn at_random(seed: usize, ranges: usize) -> Vec<i64> {
    let distances = any(2 * ranges + seed).skip(seed).map(|it| 1 + (it % 31) as i64);
    let summed = |sum: &mut i64, distance| {
        *sum += distance;
        Some(*sum)
    };
    distances.scan(0, summed).collect()
}

fn into_list(a: &[i64], b: &[i64], out: &mut [i64]) -> usize {
    let (mut i, mut j, mut made) = (0, 0, 0);
    while i < a.len() || j < b.len() {
        let is_left = j == b.len() || (i < a.len() && a[i] <= b[j]);
        let both = is_left && j < b.len() && a[i] == b[j];
        out[made] = if is_left { a[i] } else { b[j] };
        i += usize::from(is_left);
        j += usize::from(!is_left || both);
        made += usize::from((i | j) & 1 != made & 1);
    }
    made
}

const GROWING: &[usize] = &[1000, 100_000, 1_000_000];
const MANY: &[usize] = &[1_000_000];

#[rustfmt::skip]
const ROWS: &[Row] = &[
    Row { name: b"from_ranges, in order\0", sizes: GROWING, is_each: true, make: |n| [
        pass(in_order(n), |it| RangeSet2::from_ranges(ranges(it))),
        pass(in_order(n), |it| joined(it.iter().copied()))] },
    Row { name: b"from_ranges, shuffled\0", sizes: GROWING, is_each: true, make: |n| [
        pass(shuffled(in_order(n)), |it| RangeSet2::from_ranges(ranges(it))),
        pass(shuffled(in_order(n)), |it| joined(sorted(it.clone())))] },
    Row { name: b"extend, in order\0", sizes: &[100_000], is_each: true, make: |n| [
        pass(in_order(n), |it| { let mut set = RangeSet2::empty(); set.extend(ranges(it)); set }),
        pass(in_order(n), |it| joined(it.iter().copied()))] },
    Row { name: b"from_values, in order\0", sizes: &[100_000], is_each: true, make: |n| [
        pass(in_order(n), |it| RangeSet2::from_values(it.iter().map(|it| it.0))),
        pass(in_order(n), |it| joined(it.iter().map(|it| (it.0, it.0 + 1))))] },
    Row { name: b"ChunkedRangeSet |= 2 ranges; insert\0", sizes: MANY, is_each: false, make: |n| [
        pass((chunks(n), 0, n), |it| {
            it.0 |= &set(&sorted(vec![next_gap(&mut it.1, it.2), next_gap(&mut it.1, it.2)]));
            it.0.boundaries_len() as i64 }),
        pass((chunks(n), 0, n), |it| {
            for (start, end) in [next_gap(&mut it.1, it.2), next_gap(&mut it.1, it.2)] { it.0.insert(start..end); }
            it.0.boundaries_len() as i64 })] },
    Row { name: b"ChunkedRangeSet | as many\0", sizes: GROWING, is_each: true, make: |n| [
        pass((chunks(n), set(&pairs(13, 6, n))), |it| &it.0 | &it.1),
        pass((in_order(n), pairs(13, 6, n)), |it| merged(&it.0, &it.1))] },
    Row { name: b"ChunkedRangeSet, clone\0", sizes: GROWING, is_each: true, make: |n| [
        pass(chunks(n), |it| it.clone()), pass(in_order(n), |it| it.clone())] },
    Row { name: b"ChunkedRangeSet, cmp\0", sizes: MANY, is_each: true, make: |n| [
        pass((chunks(n), chunks(n)), |it| it.0.cmp(&it.1) as i64),
        pass((in_order(n), in_order(n)), |it| it.0.cmp(&it.1) as i64)] },
    Row { name: b"ChunkedRangeSet into RangeSet\0", sizes: MANY, is_each: true, make: |n| [
        pass(chunks(n), |it| RangeSet2::from(&*it)), pass(in_order(n), |it| it.clone())] },
    Row { name: b"contains_range\0", sizes: &[100_000], is_each: true, make: |n| [
        pass((set(&in_order(n)), shuffled(pairs(11, 4, n))), |it| {
            let is_in = |range: &Range<i64>| it.0.contains_range(range.clone());
            ranges(&it.1).filter(is_in).count() as i64 }),
        pass((in_order(n), shuffled(pairs(11, 4, n))), |it|
            it.1.iter().filter(|&&(start, end)| contains(&it.0, start, end)).count() as i64)] },
    Row { name: b"RangeSet |= 1 range\0", sizes: MANY, is_each: false, make: |n| [
        pass((set(&in_order(n)), 0, n), |it| {
            it.0 |= set(&[next_gap(&mut it.1, it.2)]);
            it.0.boundaries().len() as i64 }),
        pass((in_order(n), 0, n), |it| {
            put(&mut it.0, next_gap(&mut it.1, it.2));
            it.0.len() as i64 * 2 })] },
    Row { name: b"RangeMap::depth\0", sizes: MANY, is_each: true, make: |n| [
        pass(ranges(&shuffled(pairs(10, 26, n))).collect::<Vec<_>>(), |it| RangeMap::depth(it)),
        pass(ranges(&shuffled(pairs(10, 26, n))).collect::<Vec<_>>(), |it| depths(it))] },
    Row { name: b"RangeMap, shuffled; BTreeMap\0", sizes: &[100_000], is_each: true, make: |n| [
        pass(ranges(&shuffled(in_order(n))).collect::<Vec<_>>(), |it| map(it)),
        pass(ranges(&shuffled(in_order(n))).collect::<Vec<_>>(), |it| tree(it))] },
    Row { name: b"RangeMap, descending; BTreeMap\0", sizes: &[20_000], is_each: true, make: |n| [
        pass(ranges(&in_order(n)).rev().collect::<Vec<_>>(), |it| map(it)),
        pass(ranges(&in_order(n)).rev().collect::<Vec<_>>(), |it| tree(it))] },
    Row { name: b"members\0", sizes: MANY, is_each: true, make: |n| [
        pass(set(&in_order(n)), |it| it.members().fold(0, mixed)),
        pass(in_order(n), |it| it.iter().flat_map(|it| it.0..it.1).fold(0, mixed))] },
    Row { name: b"retain, of a copy\0", sizes: MANY, is_each: true, make: |n| [
        pass(set(&in_order(n)), |it| { let mut set = it.clone(); set.retain(|it| **it.start() % 30 != 0); set }),
        pass(in_order(n), |it| { let mut set = it.clone(); set.retain(|it| it.0 % 30 != 0); set })] },
    Row { name: b"contains, as many in order\0", sizes: MANY, is_each: true, make: |n| [
        pass((set(&in_order(n)), pairs(14, 0, n)), |it| {
            let mut cursor = it.0.cursor();
            it.1.iter().filter(|value| cursor.contains(&value.0)).count() as i64 }),
        pass((in_order(n), pairs(14, 0, n)), |it| {
            let mut rest = it.0.as_slice();
            let is_in = |value: &&(i64, i64)| {
                while matches!(rest, [first, ..] if first.1 <= value.0) { rest = &rest[1..]; }
                matches!(rest, [first, ..] if first.0 <= value.0) };
            it.1.iter().filter(is_in).count() as i64 })] },
    Row { name: b"parse\0", sizes: &[100_000], is_each: true, make: |n| [
        pass(text(n), |it| it.parse::<RangeSet2<i64>>().expect("a set")), pass(text(n), |it| read(it))] },
    Row { name: b"merge_into, at random\0", sizes: &[2048], is_each: true, make: |n| [
        pass((at_random(1, n), at_random(9, n), vec![0; 4 * n]), |it| {
            let view = |list| RangeSetRef::new_unchecked(list);
            let made = view(&it.0).merge_into(view(&it.1), Connective::UNION, &mut it.2);
            made.expect("room for both") as i64 }),
        pass((at_random(1, n), at_random(9, n), vec![0; 4 * n]), |it|
            into_list(&it.0, &it.1, &mut it.2) as i64)] },
];

/// The name of a row, or null where there is none.
#[no_mangle]
pub extern "C" fn by_hand_name(row: usize) -> *const c_char {
    ROWS.get(row).map_or(ptr::null(), |row| row.name.as_ptr().cast())
}

/// One of a row's sizes, or 0 where there is none.
#[no_mangle]
pub extern "C" fn by_hand_size(row: usize, place: usize) -> usize {
    ROWS[row].sizes.get(place).copied().unwrap_or(0)
}

#[no_mangle]
pub extern "C" fn by_hand_is_each(row: usize) -> bool {
    ROWS[row].is_each
}

#[no_mangle]
pub extern "C" fn by_hand_new(row: usize, ranges: usize, is_by_hand: bool) -> *mut Pass {
    let [call, by_hand] = (ROWS[row].make)(ranges);
    Box::into_raw(Box::new(if is_by_hand { by_hand } else { call }))
}

#[no_mangle]
pub unsafe extern "C" fn by_hand_free(pass: *mut Pass) {
    drop(Box::from_raw(pass));
}

#[no_mangle]
pub unsafe extern "C" fn by_hand_run(pass: *mut Pass) {
    (*pass)(None);
}

/// Does it once more, writes the front of the answer's numbers, and tells how many there are.
#[no_mangle]
pub unsafe extern "C" fn by_hand_answer(pass: *mut Pass, out: *mut i64, out_len: usize) -> usize {
    let mut answer = Vec::new();
    (*pass)(Some(&mut answer));
    room(out, out_len)
        .iter_mut()
        .zip(&answer)
        .for_each(|(place, number)| *place = *number);
    answer.len()
}
