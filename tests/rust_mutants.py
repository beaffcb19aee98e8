#!/usr/bin/env python3
"""Tries mutants of what is written by hand in the Rust crate: each must compile, and make a test fail.

    tests/rust_mutants.py              all of them
    tests/rust_mutants.py WORD..       those whose names have one of the words

A mutant is one replacement in one file, whose text must be there exactly once, and the test file that must see it: one of
the crate's tests, or "c", the tests in C over the layer and what cargo builds with the feature `c`.
Everything happens in a copy in a folder of its own. The last line is 'N passed, M failed, K skipped', and the status
is 77 where a tool or a crate is missing.
"""

import os
import shutil
import subprocess
import sys
import tempfile
from dataclasses import dataclass
from pathlib import Path

RUST = Path(__file__).resolve().parent.parent / "rust"
C = RUST.parent / "c"
TABLES = "crates/range_rows/data"
PACKAGES = Path("/usr/share/cargo/registry")
OFFLINE = [
    "--offline",
    "--config", 'source.crates-io.replace-with="debian"',
    "--config", f'source.debian.directory="{PACKAGES}"',
]
SKIPPED = 77
# How many made-up cases of each type the tests in C run.
CASES = "300"
# A test that runs for this many seconds goes round in circles.
LONGEST = 600


@dataclass
class Mutant:
    name: str
    file: str
    text: str
    other: str
    test: str


MUTANTS = [
    Mutant("a list closed after a change forgets its last item", "support/opened.rs",
           "unsafe { (*list).set_len(len) };", "unsafe { (*list).set_len(len.saturating_sub(1)) };", "rows"),
    Mutant("items that are dropped in place stay alive", "support/opened.rs",
           "unsafe { drop_items(self.items, from, to) };", "let _ = (from, to);", "hostile"),
    Mutant("items that are passed over stay alive", "support/opened.rs",
           "unsafe { drop_items(self.items, front, at) };", "let _ = front;", "hostile"),
    Mutant("an item that was taken is dropped once more", "support/opened.rs",
           "self.skip_to(at);\n        self.front = at + n;", "self.skip_to(at);", "hostile"),
    Mutant("after a panic the kept items stay alive", "support/opened.rs",
           "drop_items(self.items, 0, self.front);", "", "hostile"),
    Mutant("plain elements are merged twice", "support/in_place.rs",
           "if merged_plainly(a, b, copier, op, cmp)? {", "if merged_plainly(a, b, copier, op, cmp)? && b.is_empty() {", "tables"),
    Mutant("numbers of a left side are lost beside an owned one", "support/in_place.rs",
           "Ok(true) => return Ok(()),", "Ok(true) => a.truncate(0),", "rows"),
    Mutant("each element without a drop is taken for a number", "support/by_bits.rs",
           "is_number::<K>().then_some", "(!mem::needs_drop::<K>()).then_some", "hostile"),
    Mutant("two items are turned one place short", "support/turning.rs", "rotate_right(2)", "rotate_right(1)", "rows"),
    Mutant("a list is cut while items are dropped", "support/small_vec.rs",
           "let mut list = Opened::over(self);",
           "if true {\n            self.0.drain(range);\n            return;\n        }\n        let mut list = Opened::over(self);", "hostile"),
    Mutant("items are written over before the list is cut", "generated/range_collections.rs",
           "(at + 1, Some(mem::replace(&mut items[at], item)))", "{\n            items[at] = item;\n            (at + 1, None)\n        }",
           "hostile"),
    Mutant("a chunk's first boundary is dropped before the chunk is whole", "generated/range_list.rs",
           "mem::swap(&mut self.first, &mut self.rest[len - 1]);\n                remove_first(&mut self.rest, len);",
           "self.first = self.rest.remove(len - 1);\n                remove_first(&mut self.rest, len - 1);", "hostile"),
    Mutant("a boundary that is replaced is dropped before the others are removed", "generated/range_list.rs",
           "let (mid, _first) = overwrite", "let (mid, _) = overwrite", "hostile"),
    Mutant("a set in chunks is cut where it lies", "generated/range_list.rs",
           "cut_across(&mut taken, from, to);\n        *chunks = taken;", "*chunks = taken;\n        cut_across(chunks, from, to);",
           "hostile"),
    Mutant("half of a chunk can't be refused", "support/vec.rs",
           "let mut moved = Self::with_capacity(Global, self.0.len() - at)?;", "let mut moved = Self::new(Global);",
           "memory"),
    Mutant("a set in chunks that was taken by value ends after a chunk", "chunks.rs",
           "self.lowest = rest.into_inner().into_iter();", "self.chunks = Vec::new().into_iter();\n            self.lowest = rest.into_inner().into_iter();",
           "chunked"),
    Mutant("sets in chunks with the same first boundaries are equal", "chunked/traits.rs",
           "self.proved() == that.proved()", "self.boundaries().zip(that.boundaries()).all(|(a, b)| a == b)", "chunked"),
    Mutant("a space's copy is empty", "space.rs", "self.as_set().clone().into()", "Self::new()", "manners"),
    Mutant("a space's copy can't be refused", "fallible/space.rs",
           "self.as_set().proved().try_clone()?", "self.as_set().clone().into_proved()", "memory"),
    Mutant("a space takes each place for an aligned one", "space/calls.rs",
           "first_fit_aligned(within, count, align)", "first_fit_aligned(within, count, 1)", "space"),
    Mutant("a space frees what it is extended by", "space.rs",
           "self.insert(range.into());", "self.remove(range.into());", "manners"),
    Mutant("spaces that are as full are equal", "space/calls.rs",
           "self.as_set() == that.as_set()", "self.covered() == that.covered()", "manners"),
    Mutant("what extends a space goes on after a refusal", "fallible.rs",
           ".try_for_each(|range| self.insert(range.into()))",
           ".map(|range| self.insert(range.into()))\n                    .last()\n                    .unwrap_or(Ok(()))", "memory"),
    Mutant("a space's text has no width", "space/calls.rs",
           "self.as_set().fmt(f)\n", 'write!(f, "{}", self.as_set())\n', "space"),
    Mutant("equal sets in chunks have the hash of their chunks", "chunked/traits.rs",
           "chunks::hash(self.boundaries(), state);", "chunks::hash(self.boundaries(), state);\n                state.write_usize(self.0.list.chunks.len());", "chunked"),
    Mutant("a clone of a tracker in chunks has no boundaries to count", "tracker.rs",
           "copy.0.len = self.0.len;", "", "chunked"),
    Mutant("a set in chunks that is refused memory is read as none", "json.rs",
           "$form::or_error::<T, _, _>(chunks, D::Error::custom).map(Self::of_proved)",
           "Ok(chunks.map_or_else(|_| Self::new(), Self::of_proved))", "memory"),
    Mutant("a view is loaded into an empty set", "fallible/chunked.rs",
           "view.proved()).map(Self::of_proved)", "view.proved()).map(|_| Self::new())", "chunked"),
    Mutant("a map is changed where it lies", "map.rs",
           "let mut taken = mem::replace(&mut self.0, proved::RangeMap::new(Global));\n        let result = change(&mut taken);\n        self.0 = taken;\n        result",
           "let _ = mem::size_of::<K>();\n        change(&mut self.0)", "hostile"),
    Mutant("a change of a map is lost", "map.rs",
           "        self.0 = taken;\n        result", "        result", "map"),
    Mutant("a range without an end is free if its start is", "map.rs",
           "self.0.is_free_from(range)", "!self.0.contains_key(&range.start)", "map"),
    Mutant("what is retained goes", "map.rs",
           "(self.0.borrow_mut())(RangeSetRange::", "!(self.0.borrow_mut())(RangeSetRange::", "map"),
    Mutant("a refused copy of a value is a panic", "map/kept.rs",
           "C::copied(&self.value).map(Self::new)", "match C::copied(&self.value) {\n            Ok(value) => Ok(Self::new(value)),\n            Err(_) => panic!(),\n        }", "memory"),
    Mutant("what extends a map goes on after a refusal", "fallible/map.rs", ".try_for_each(|(range, value)| self.insert(range, value))",
           ".map(|(range, value)| self.insert(range, value))\n            .last()\n            .unwrap_or(Ok(()))", "memory"),
    Mutant("a hash of a map or of a set in chunks has no end", "chunks.rs", "state.write_usize(len);", "let _ = len;", "laws"),
    Mutant("clones of a set's boundaries leave out the first of each chunk", "chunks.rs",
           "clones.push(chunk.first.clone());", "", "chunked"),
    Mutant("a map that was taken by value has ends of its own", "map/iter.rs",
           "let next = self.steps.peek().map(|next| &next.key);",
           "let taken = self.steps.next();\n                let next = taken.as_ref().map(|next| &next.key);", "map"),
    Mutant("hashes of maps are those of their values", "map/traits.rs",
           "chunks::hash(self.iter(), state);", "chunks::hash(self.values(), state);", "map"),
    Mutant("a value that comes back is out of memory", "map.rs",
           "InsertError::NotFree(kept) => InsertError::NotFree(kept.value),", "InsertError::NotFree(kept) => InsertError::OutOfMemory(kept.value),", "map"),
    Mutant("an open list still has its items", "support/opened.rs", "(*list).set_len(0);", "", "hostile"),
    Mutant("a few equal items are turned round", "support/sorting.rs",
           "== Ordering::Less {", "!= Ordering::Greater {", "rows"),
    Mutant("many equal items are turned round", "support/sorting.rs",
           ".then(i.cmp(&j))", ".then(j.cmp(&i))", "rows"),
    Mutant("a long list in descending order stays so", "support/sorting.rs",
           "pair[0] <= pair[1]", "pair[0] >= pair[1]", "json"),
    Mutant("a copy of a text can't be refused", "support/clones.rs",
           "let mut copied = String::new();\n        copied.try_reserve_exact(self.len())?;",
           "let mut copied = String::new();", "memory"),
    Mutant("a copy of a list can't be refused", "support/clones.rs",
           "let mut copied = Vec::new();\n        copied.try_reserve_exact(self.len())?;",
           "let mut copied = Vec::new();", "memory"),
    Mutant("a list with a capacity has none", "support/small_vec.rs",
           "list.0.try_reserve_exact(n)?;", "let _ = n;", "memory"),
    Mutant("a merge keeps its room", "array.rs", "proved::lists::give_back_room(&mut list);", "", "operations"),
    Mutant("a short result keeps its room", "support/small_vec.rs",
           "let _room_is_kept = self.0.try_grow(self.0.len());", "", "operations"),
    Mutant("numbers are copied before a change", "memory.rs",
           "fn all_infallible(&self) -> bool {\n        !mem::needs_drop::<T>()",
           "fn all_infallible(&self) -> bool {\n        false", "memory"),
    Mutant("no memory for a merge is no refusal", "support/in_place.rs",
           "return Err((error, b));", "let _ = error;", "memory"),
    Mutant("no memory is a panic", "memory.rs",
           "handle_alloc_error(Layout::new::<T>())", 'panic!("{:?}", handle_alloc_error as fn(Layout) -> !)', "memory"),
    Mutant("one isn't the least of non-zero numbers", "entry.rs", "it.get() == 1", "it.get() == 2", "rows"),
    Mutant("negation of a reference is a copy", "array.rs", "if op.neither {", "if !op.neither {", "tables"),
    Mutant("the last of many sets is lost", "range_set/joining.rs", "L::union_of(&views,", "L::union_of(&views[..views.len().min(3)],", "ranges"),
    Mutant("insert takes out", "range_set/in_place.rs", "set_range(range.into(), true)", "set_range(range.into(), false)", "rows"),
    Mutant("remove puts in", "range_set/in_place.rs", "set_range(range.into(), false)", "set_range(range.into(), true)", "rows"),
    Mutant("a range without an end is taken out where it is put in", "array.rs",
           "self.merge_owned(that, &UnionOp)", "self.merge_owned(that, &DiffOp)", "any_range"),
    Mutant("a range without an end is in if its start is", "asked.rs",
           "self.next_gap(start).is_none()", "self.contains(start)", "any_range"),
    Mutant("a range without an end meets what begins in it", "asked.rs",
           "self.next_member(start).is_some()", "self.contains(start)", "any_range"),
    Mutant("a range up to a last value leaves it out", "range.rs",
           "Self::of_ends(start, last.next_value())", "Self::of_ends(start, Some(last))", "any_range"),
    Mutant("a range that was iterated to its end has its last value", "range.rs", "if is_empty {", "if start > last {", "any_range"),
    Mutant("the next value has one between", "any_range.rs", "self.place().checked_add(1)?", "self.place().checked_add(2)?", "any_range"),
    Mutant("an order of ranges with no end below all", "range.rs",
           "end.is_none().cmp(&other.is_none())", "other.is_none().cmp(&end.is_none())", "any_range"),
    Mutant("a gap before the least value", "any_range/within.rs", "(!inside && !has_least)", "(!inside)", "any_range"),
    Mutant("a last value lies after its part", "any_range/within.rs",
           "let (from, to) = (up_to(set, start), up_to(set, last));",
           "let (from, to) = (up_to(set, start), set.boundaries().partition_point(|it| it < last));", "any_range"),
    Mutant("nothing is below the least value, and yet returned", "any_range/within.rs", "if self.end.is_min_value() {", "if false {", "any_range"),
    Mutant("a change is returned where there is none", "view/questions.rs",
           "!questions::has_all(self.boundaries(), &range.start, &range.end, &mut count)",
           "range.start < range.end", "any_range"),
    Mutant("a tracker takes the last number for an offset", "tracker.rs", "range.start..u64::MAX,", "range.start..range.start,", "any_range"),
    Mutant("a clone of a tracker has no limit", "tracker.rs", "Self::new(self.0.limit);", "Self::new(usize::MAX - 2);", "any_range"),
    Mutant("what isn't kept is dropped from a list that has it", "array.rs",
           "let len = list.len();\n        list.drain(kept..len);\n        *self = list;",
           "*self = list;\n        self.as_inner_mut().truncate(kept);", "hostile"),
    Mutant("the first range is taken without its end", "array.rs", "self.len().min(2)", "self.len().min(1)", "manners"),
    Mutant("the last range is taken without its start", "array.rs", "list.len() % 2 == 1", "list.len() % 2 == 0", "manners"),
    Mutant("items are cleared from the last on", "array.rs", "self.drain(0..len);", "self.as_inner_mut().clear();", "hostile"),
    Mutant("a set split in two keeps all", "range_set/taking.rs", "list.merge_ref(from, &$form::Copier, &DiffOp)?;", "", "manners"),
    Mutant("a refused append takes the other set", "range_set/taking.rs", "that.list = back;", "drop(back);", "memory"),
    Mutant("a set gives no room back", "array.rs", "support::SmallVec::shrink_to_fit(self);", "", "manners"),
    Mutant("a pair has no end", "pairs.rs", "RangeSetRange::of_ends(start, end)", "RangeSetRange::of_ends(start, None)", "json"),
    Mutant("an address isn't its number", "entry.rs", "$number::from(*self).into()", "$number::from(*self).swap_bytes().into()", "elements"),
    Mutant("&= is |=", "range_set/operators.rs",
           "BitAndAssign bitand_assign = IntersectionOp ", "BitAndAssign bitand_assign = UnionOp ", "tables"),
    Mutant("- is ^", "range_set/operators.rs", "Sub sub = difference;", "Sub sub = symmetric_difference;", "tables"),
    Mutant("the first of windows far apart is changed first", "chunked/combining/by_clone.rs", "made.into_iter().rev()", "made.into_iter()", "chunked"),
    Mutant("ranges close together have the first one's window", "chunked/combining/by_clone.rs", "last.1 = to;", "", "chunked"),
    Mutant("extend of an empty set gives room up", "range_set/conversions.rs", " && self.capacity() <= that.capacity()", "", "room"),
    Mutant("extend keeps what is shared", "range_set/conversions.rs",
           "*self |= that;", "*self &= that;", "rows"),
    Mutant("true gives nothing", "range_set/conversions.rs", "all.then(", "(!all).then(", "rows"),
    Mutant("the order of sets is turned round", "range_set/traits.rs",
           "self.view().cmp(that.view())", "that.view().cmp(self.view())", "laws"),
    Mutant("the hash of a set isn't its view's", "range_set/traits.rs",
           "self.view().hash(state)", "self.view().is_empty().hash(state)", "laws"),
    Mutant("a superset is a subset", "relations.rs", "that, is_superset(), ", "that, is_subset(), ", "kinds"),
    Mutant("a length without a start is returned", "relations.rs",
           "!op.neither,", "true,", "operations"),
    Mutant("the parts of a split are exchanged", "view/parts.rs",
           "(Self::of_proved(left), Self::of_proved(right))", "(Self::of_proved(right), Self::of_proved(left))", "tables"),
    Mutant("the next member is the next gap", "asked.rs",
           "self.proved().next_member(from)", "self.proved().next_gap(from)", "questions"),
    Mutant("the next gap is where it was asked", "asked.rs",
           "self.proved().next_gap(from)", "Some(from)", "questions"),
    Mutant("an owned iterator counts pairs alone", "iter.rs",
           "let left = len / 2 + len % 2;", "let left = len / 2;", "questions"),
    Mutant("a cloned range is turned round", "range.rs",
           "range.start.clone()..range.end.clone()", "range.end.clone()..range.start.clone()", "rows"),
    Mutant("a width is each number's", "text.rs", 'write!(f, "{text}")?;', "text.fmt(f)?;", "text"),
    Mutant("a text in the middle stands at the left", "text.rs", "=> missing / 2,", "=> 0,", "text"),
    Mutant("flags don't reach the elements", "range_set/traits.rs", "f.debug_set().entries(self.iter()).finish()",
           'write!(f, "{:?}", self.iter().collect::<alloc::collections::VecDeque<_>>())', "text"),
    Mutant("a boast of a format reserves all", "json.rs", ".min(trusted)", ".max(trusted)", "json"),
    Mutant("boundaries are read unsorted", "json.rs",
           "list.and_then(|list| list.sorted($form::SORTING))", "list", "json"),
    Mutant("boundaries are sorted by their places", "array.rs", "self.as_mut_slice().sort();", "", "memory"),
    Mutant("of equal boundaries any may stay", "array.rs",
           "self.as_mut_slice().sort();", "self.as_mut_slice().sort_unstable();", "rows"),
    Mutant("a fallible -= is ^=", "fallible/changes.rs", "sub_assign by DiffOp,", "sub_assign by XorOp,", "operations"),
    Mutant("a tracker takes a limit past a list's", "tracker.rs", "usize::MAX - 2;", "usize::MAX;", "rows"),
    Mutant("a range has what is below its start", "range.rs", "!self.start().is_above(value) && ", "", "ranges"),
    Mutant("a range is as long as its end is high", "range.rs",
           "Some(self.end()?.place().saturating_sub(self.start().place()))", "Some(self.end()?.place())", "ranges"),
    Mutant("an empty part comes last", "any_range/by_value.rs", "end <= start.by_ref()", "end < start.by_ref()", "kinds"),
    Mutant("a part ends where its range has ended", "any_range/by_value.rs", "limit.filter(|_| is_left == inside)", "limit", "kinds"),
    Mutant("a part begins where its range has ended", "any_range/by_value.rs", "list.below(limit, count)", "list.up_to(limit, count)", "kinds"),
    Mutant("gaps are ranges", "any_range/by_value.rs", "(list.is_odd(from), ", "(!list.is_odd(from), ", "kinds"),
    Mutant("a part without an end has one from the back", "any_range/by_value.rs", "if mem::take(&mut self.is_endless) {", "if false {", "kinds"),
    Mutant("gaps of a map are its ranges", "map.rs", "option_before(steps, at).is_some()", "option_before(steps, at).is_none()", "kinds"),
    Mutant("ranges of a map that touch have a gap from the back", "map/steps.rs",
           "step.option.is_some() != had_value", "step.option.is_some() || had_value", "kinds"),
    Mutant("a part of a map begins with its range", "range.rs", "(*self.start()).max(that.start())", "*self.start()", "kinds"),
    Mutant("a part of a map ends with the later end", "range.rs", "ends.min()", "ends.max()", "kinds"),
    Mutant("the next gap of a map is where it was asked", "map/parts.rs", "if has_value {", "if !has_value {", "map"),
    Mutant("a gap without an end lacks the greatest value", "fitting.rs", ">= count - 1", ">= count", "kinds"),
    Mutant("the last fit goes into a range", "fitting.rs", "end.place() - 1)", "end.place())", "kinds"),
    Mutant("a cursor in chunks doesn't go back", "chunked/cursor.rs", "if !is_on || !is_above(place) {", "if !is_above(place) {", "kinds"),
    Mutant("sets that change sides keep their operation", "relations.rs", "left: op.right,\n        right: op.left,",
           "left: op.left,\n        right: op.right,", "kinds"),
    Mutant("a last value is the end", "range.rs", "T::from_place(end.place() - 1)", "T::from_place(end.place())", "kinds"),
    Mutant("a fraction of a second is nanoseconds", "text/values.rs", " * 10u128.pow(zeros)", "", "text"),
    Mutant("ranges without an end don't count", "map/combining.rs", "if starts.is_empty() {", "if !starts.is_empty() || starts.is_empty() {", "map"),
    Mutant("starts of ranges without an end count as they come", "map/combining.rs", "starts.as_mut_slice().sort_unstable();", "", "map"),
    Mutant("another value is a gap of a map", "map/steps.rs", "step.option.is_some() != self.has_value", "true", "kinds"),
    Mutant("rows in a range without an end are nowhere", "any_range/by_value.rs", "(start, None) => (start..).ends()", "(start, None) => (start..start).ends()", "kinds"),
    Mutant("ranges that are met begin with an end", "view/parts.rs", "&items[from - from % 2..]", "&items[from..]", "kinds"),
    Mutant("ranges in chunks that are met begin with an end", "chunked/taking.rs", "if list.mark_at(above) {", "if false {", "kinds"),
    Mutant("of a map the range that is met first is left out", "map.rs", "steps.between(steps.place_before(above), ", "steps.between(above, ", "kinds"),
    Mutant("a length below 0 is one", "entry.rs", "u128::try_from(self).ok()", "Some(self.place())", "elements"),
    Mutant("a duration of a place has no seconds", "entry.rs", "u64::try_from(place / NANOS)", "u64::try_from(place % NANOS)", "elements"),
    Mutant("the least of non-zero numbers has one below it", "entry.rs", "(self.get() - 1).place()", "self.get().place()", "elements"),
    Mutant("an escape may have a sign", "text/values.rs", ".filter(|_| is_hex)", "", "text"),
    Mutant("a lone dot is named at its place", "text/values.rs", "dots.strip_prefix('.').unwrap_or(dots)", "dots", "text"),
    Mutant("a map's last range is its first", "map/composed.rs", "self.try_pop(Self::last, ", "self.try_pop(Self::first, ", "composed"),
    Mutant("what retains ranges of a map takes memory", "map/composed.rs", "map.retain_ranges(&keep)",
           "{\n            let _answers = alloc::vec![0u8; map.len()];\n            map.retain_ranges(&keep)\n        }", "memory"),
    Mutant("a change of a value that fails is made", "map/composed.rs", "change(&mut value)?;", "let _ = change(&mut value);", "memory"),
    Mutant("a map that is split keeps all", "map/composed.rs", "self.try_remove((copier.copy(at)?..).into())?;", "", "composed"),
    Mutant("a map that is split gives nothing", "map/composed.rs", "RangeSetRef::single(at)", "RangeSetRef::over(&[])", "composed"),
    Mutant("a fallible map keeps its values under what is appended", "fallible/map.rs",
           "self.insert_all(that)?", "self.insert_where_free(that)?", "fallible"),
    Mutant("a map by value has no end from the back", "map/iter.rs", "next.or(self.end.as_ref())", "next", "composed"),
    Mutant("the first pair of a set in chunks is left out", "pairs.rs", "set.ranges_len(), ranges)", "set.ranges_len(), ranges.skip(1))", "json"),
    Mutant("a set in chunks that retains some ranges is empty", "chunked/taking.rs", "*self = set;", "", "composed"),
    Mutant("the union in chunks leaves a set out", "chunked/changes.rs", "union_of_sets::<_, SmallVec<T, 2>, _, _>(sets,",
           "union_of_sets::<_, SmallVec<T, 2>, _, _>(sets.into_iter().skip(1),", "composed"),
    Mutant("the intersection in chunks leaves a set out", "chunked/changes.rs", "intersection_of_sets::<_, SmallVec<T, 2>, _, _>(sets,",
           "intersection_of_sets::<_, SmallVec<T, 2>, _, _>(sets.into_iter().skip(1),", "composed"),
    Mutant("the text of a multirange can't be refused", "multirange.rs",
           "self.0.try_reserve(text.len()).map_err(|_| fmt::Error)?;", "", "memory"),
    Mutant("a set in chunks that is split keeps all", "chunked/taking.rs", "self.remove(at.clone()..);", "", "composed"),
    Mutant("a part is there after a panic in append", "chunks.rs",
           "let mut taken = mem::take(own);\n    taken.extend(mem::take(that));\n    *own = taken;", "own.extend(mem::take(that));", "hostile"),
    Mutant("what is there stays under what is appended", "chunks.rs", "let mut taken = mem::take(own);\n    taken.extend(mem::take(that));",
           "let mut taken = mem::take(that);\n    taken.extend(mem::take(own));", "map"),
    Mutant("a map is as it was after a panic in append", "map/composed.rs", "chunks::append(self, that);",
           "let mut own = self.clone();\n        chunks::append(&mut own, that);\n        *self = own;", "hostile"),
    Mutant("an operation is called without a value", "map/combining.rs", "if left.is_none() && right.is_none() {", "if false {", "map"),
    Mutant("an operation is called twice for a step", "map/combining.rs",
           "let made = (self.0.borrow_mut())(left, right);",
           "(self.0.borrow_mut())(left, right)?;\n        let made = (self.0.borrow_mut())(left, right);", "map"),
    Mutant("a set in chunks by value has no end from the back", "iter.rs", "self.0.len() % 2 == 1;", "false;", "composed"),
    Mutant("from the front the highest chunk is lost", "chunks.rs",
           "self.highest_first.take().or_else(|| self.highest.next())", "None", "composed"),
    Mutant("&= of a set in chunks is |=", "chunked/traits.rs",
           "BitAndAssign bitand_assign = intersection_with;", "BitAndAssign bitand_assign = union_with;", "composed"),
    Mutant("- of a set in chunks keeps it", "chunked/traits.rs", "self.$assign(that);\n                self", "let _ = that;\n                self", "composed"),
    Mutant("! of a set in chunks is a copy", "chunked/traits.rs", "!self.clone()", "self.clone()", "composed"),
    Mutant("a space is always changed", "space/calls.rs", "let changes = !self.contains_range(range.clone());", "let changes = true;", "composed"),
    Mutant("what is free is freed", "space/calls.rs", "let changes = self.intersects_range(range.clone());", "let changes = true;", "composed"),
    Mutant("keys without a value are left out of an update", "map/combining.rs",
           "(self.0.borrow_mut())(option.map(|kept| &kept.value))",
           "option.map_or(Ok(None), |kept| (self.0.borrow_mut())(Some(&kept.value)))", "map"),
    Mutant("of two maps the other one's value stays", "map/combining.rs",
           "map.try_put_all(that, &LeftFirst, ", "map.try_put_all(that, &RightFirst, ", "composed"),
    Mutant("what is put in where a map is free goes over its values", "map/combining.rs",
           "self.try_put_all(that, &LeftFirst, ", "self.try_put_all(that, &RightFirst, ", "map"),
    Mutant("a map keeps what lies outside of a set", "map/combining.rs", "let kept = self.try_restrict(keys, &$form::Copier);",
           "let kept = self.try_copy().and_then(|mut map| map.try_remove_all(keys, &$form::Copier).map(|()| map));", "map"),
    Mutant("an iterator from the back runs from the front", "iter.rs", "self.0.next_back()$(.map($of))?", "self.0.next()$(.map($of))?", "map"),
    Mutant("keys have another value than the one", "map/combining/by_clone.rs", "|it| it == value", "|it| it != value", "composed"),
    Mutant("a start that is left out is in", "range.rs", "Bound::Excluded(before) => before.next_value()", "Bound::Excluded(before) => Some(before)", "multirange"),
    Mutant("an end is left out", "range.rs", "Bound::Included(last) => last.next_value()", "Bound::Included(last) => Some(last)", "multirange"),
    Mutant("a multirange ends with its brace", "multirange.rs", "self.expect(self.rest.is_empty()).map(|()| None)", "Ok(None)", "multirange"),
    Mutant("the least number without a sign is none", "multirange.rs", "T::zero() > 0 && ", "", "multirange"),
    Mutant("a number past its type is no bound", "multirange.rs", ".map(Some)\n            .ok_or(", ".map(Some)\n            .or(Some(None))\n            .ok_or(", "multirange"),
    Mutant("trackers of other limits are equal", "tracker/calls.rs", "self.limit() == that.limit() && ", "", "composed"),
    Mutant("a limit past a list's is read", "json.rs", "if limit > tracker::MOST {", "if false {", "composed"),
    Mutant("the hash of a space isn't its set's", "space/calls.rs", "self.as_set().hash(state);", "self.as_set().is_empty().hash(state);", "composed"),
    Mutant("a slice of C is one shorter", "support/boxed.rs",
           "unsafe { slice::from_raw_parts(items, len) }", "unsafe { slice::from_raw_parts(items, len.saturating_sub(1)) }", "c"),
    Mutant("room of C is one shorter", "support/boxed.rs",
           "unsafe { slice::from_raw_parts_mut(items, len) }", "unsafe { slice::from_raw_parts_mut(items, len.saturating_sub(1)) }", "c"),
]


def is_there(tool):
    """Whether a tool runs. Where rustup put a shim for cargo, there may be nothing behind it."""
    return bool(shutil.which(tool)) and subprocess.run([tool, "--version"], capture_output=True, check=False).returncode == 0


class Crate:
    """A copy of the crate, in which each mutant is built and tested."""

    def __init__(self, folder):
        self.source, self.built = folder / "rust", folder / "built"
        shutil.copytree(RUST, self.source, ignore=shutil.ignore_patterns("target", "Cargo.lock"))
        # The tables that a test reads stand beside the crate.
        shutil.copytree(RUST.parent / TABLES, folder / TABLES)

    def cargo(self, *words):
        command = ["cargo", *words[:1], *OFFLINE, "--quiet", "--features", "serde", *words[1:]]
        return subprocess.run(command, cwd=self.source, env={**os.environ, "CARGO_TARGET_DIR": str(self.built)},
                              stdin=subprocess.DEVNULL, stdout=subprocess.PIPE, stderr=subprocess.STDOUT, text=True,
                              errors="replace", timeout=LONGEST, check=False)

    def build(self, test):
        if test == "c":
            return self.cargo("rustc", "--features", "c", "--lib", "--crate-type", "staticlib")
        return self.cargo("test", "--test", test, "--no-run")

    def passes(self, test):
        """Whether a test that was built passes."""
        if test != "c":
            return self.cargo("test", "--test", test).returncode == 0
        program, library = self.built / "test_c", self.built / "debug" / "librange_sets.a"
        sources = [C / "tests" / "test.c", C / "range_set.c"]
        words = ["cc", "-std=c99", "-O1", "-DRANGE_SET_PLAIN", f"-I{C / 'include'}", *sources, library, "-lpthread", "-ldl", "-lm", "-o", program]
        subprocess.run(words, check=True)
        return subprocess.run([program, CASES], capture_output=True, timeout=LONGEST, check=False).returncode == 0

    def fault_of(self, mutant):
        """What is wrong with a mutant, or nothing where it compiles and its test fails."""
        path = self.source / "src" / mutant.file
        kept = path.read_text(encoding="utf-8")
        if kept.count(mutant.text) != 1:
            return f"its text stands {kept.count(mutant.text)} times in {mutant.file}"
        path.write_text(kept.replace(mutant.text, mutant.other), encoding="utf-8")
        is_built = False
        try:
            built = self.build(mutant.test)
            if built.returncode != 0:
                return f"it doesn't compile:\n{built.stdout[-2000:]}"
            is_built = True
            return "no test sees it" if self.passes(mutant.test) else None
        except subprocess.TimeoutExpired:
            return None if is_built else f"it isn't built after {LONGEST} s"
        finally:
            path.write_text(kept, encoding="utf-8")


def main(words):
    missing = [it for it in ("cargo", "cc") if not is_there(it)]
    missing += [f"the crate {it}" for it in ("smallvec", "serde", "serde_json") if not [*PACKAGES.glob(f"{it}-[0-9]*")]]
    if missing:
        print(f"rust_mutants: SKIPPED: {missing[0]} is missing")
        return SKIPPED
    mutants = [it for it in MUTANTS if not words or any(word in it.name for word in words)]
    passed = failed = 0
    with tempfile.TemporaryDirectory() as folder:
        crate = Crate(Path(folder))
        for test in sorted({it.test for it in mutants}):
            if crate.build(test).returncode != 0 or not crate.passes(test):
                print(f"rust_mutants: FAILED: {test} fails without a mutant")
                failed += 1
        for mutant in mutants:
            fault = crate.fault_of(mutant)
            if fault:
                print(f"rust_mutants: FAILED: {mutant.name}: {fault}", flush=True)
            passed, failed = passed + (not fault), failed + bool(fault)
    print(f"{passed} passed, {failed} failed, 0 skipped")
    return 1 if failed else 0


if __name__ == "__main__":
    sys.exit(main(sys.argv[1:]))
