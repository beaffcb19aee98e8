#!/usr/bin/env python3
"""Tests of generated.py: a change planted in a generated file is named with its function, and one of a contract isn't.

    tests/test_generated.py
"""

import re
import sys
import textwrap
import unittest
from collections import Counter
from unittest import mock

sys.dont_write_bytecode = True

import generated  # noqa: E402

# Changes of a generated file, and the item with which they are named: the file, the text, which is there once, and the item.
PLANTED = [
    # An operator, a constant, a literal, a text.
    ("range_merge/runs", "while low <= len / 2", "while low < len / 2", "fn doubled"),
    ("range_merge/runs", "2 * low - 1", "2 * low + 1", "fn doubled"),
    ("range_merge/fast/rounds", "const READ_FROM: usize = 24;", "const READ_FROM: usize = 25;", "const READ_FROM"),
    ("range_list/place", "Place = Place { chunk: 0, index: 0 }", "Place = Place { chunk: 0, index: 1 }", "const FRONT"),
    ("range_tracker/track_error", "boundaries > limit", "boundaries > limit + 1", "fn within_limit"),
    ("range_collections/parse", '"a comma or the end"', '"a comma or the  end"', "Display for Expected / fn fmt"),
    # A statement that is dropped, added, or moved.
    ("range_collections/range_set/insertion", "        self.insert(range)?;\n", "", "fn insert_changed"),
    ("range_collections/range_set/insertion", "        self.remove(range)?;\n", "        self.remove(range)?;\n        self.list.clear();\n", "fn remove_changed"),
    ("range_merge/merging", "        firsts = next;\n        remaining = one_less(remaining);", "        remaining = one_less(remaining);\n        firsts = next;", "fn take_rounds"),
    # A check that is removed, another way of an error, an arm.
    ("range_merge/runs", "    if side.len() < 2 {\n        return Below { len: 1, next: None };\n    }\n", "", "fn gallop"),
    ("range_tracker/tracker", "self.admit(&range, &DiffOp)?;", "let _ = self.admit(&range, &DiffOp);", "impl Tracker / fn forget"),
    ("range_tracker/track_error", "Err(TrackError::TooMany { boundaries })", "Ok(())", "fn within_limit"),
    ("range_merge/merging", "        (0, 0) => Ok(true),", "        (0, 0) => Ok(false),", "fn take_rest"),
    ("range_merge/merging", "Some(n) => Some(n - 1),", "Some(n) => { Some(n) },", "fn one_less"),
    # An argument, a receiver, a call.
    ("range_merge/merging", "gallop(&LeftOf(state), state.b_at(0), cmp)", "gallop(&LeftOf(state), state.a_at(0), cmp)", "fn left_run"),
    ("range_collections/range_set/insertion", "&range.start, &range.end)", "&range.end, &range.start)", "fn remove_changed"),
    ("range_merge/runs", "self.0.b_at(i)", "self.0.a_at(i)", "for RightOf < '_ , S > / fn at"),
    ("range_collections/range_set/insertion", "set_range(&mut self.list, range, true, count)", "set_range(&mut self.list, range, false, count)", "fn insert_counted"),
    # A signature: a type, a bound, an attribute, who may call it.
    ("range_tracker/track_error", "boundaries: usize, limit: usize", "limit: usize, boundaries: usize", "fn within_limit"),
    ("range_merge/merging", "fn advance_left<S: MergeStateMut>", "fn advance_left<S: MergeState>", "fn advance_left"),
    ("range_merge/operations", "#[derive(Clone, Copy, Debug, PartialEq, Eq)]\npub struct Connective", "pub struct Connective", "struct Connective"),
    ("range_merge/runs", "\nfn doubled", "\npub fn doubled", "fn doubled"),
    # An item that is added, dropped, doubled, or moved to another type; a field, and a variant.
    ("range_merge/fast/rounds", "const READ_FROM: usize = 24;", "const READ_FROM: usize = 24;\nfn read_from() -> usize {\n    READ_FROM\n}\n", "fn read_from"),
    ("range_merge/runs", "impl<S: MergeState> Indexed<S::Item> for LeftOf", "impl<S: MergeState> Drop for RightOf<'_, S> {}\nimpl<S: MergeState> Indexed<S::Item> for LeftOf", "Drop for RightOf < '_ , S >"),
    ("range_merge/merging", "    /// The state stopped.\n    Stopped,", "    Stopped,\n    Lost,", "enum Went"),
    ("range_merge/runs", "    low: usize,\n    high: usize,\n    next: Option<Ordering>,\n}", "    low: usize,\n    next: Option<Ordering>,\n}", "struct Bracket"),
    ("range_merge/mod", "pub(crate) mod runs {", "#[cfg(test)]\npub(crate) mod runs {", "mod runs"),
    # A name from elsewhere.
    ("range_merge/runs", "::range_merge::compare::Compare;", "::range_merge::merging::Compare;", "use crate :: generated :: range_merge :: merging :: Compare"),
    ("range_merge/merging", "use crate::support::AllocError;", "use crate::support::{merge, AllocError};", "use crate :: support :: merge"),
    ("range_merge/merging", "use core::cmp::Ordering;", "use core::cmp::{Ordering, Reverse as LeftOf};", "use core :: cmp :: Reverse as LeftOf"),
    ("range_merge/mod", "pub use crate::support::move_last_two;\n", "pub use crate::support::move_two;\n", "use crate :: support :: move_two"),
    ("range_merge/mod", "pub use runs::Run;", "use runs::Run;", "use runs :: Run"),
    # What is written in Rust alone: a clone of each field, and an export's slices.
    ("range_chunks/iter", "Clone::clone(&self.endless)", "Clone::clone(&self.unread)", "Clone for Iter < 'a , T > / fn clone"),
    ("range_c/generated/sets_i64", "    let out = unsafe { room_at(out, out_len) };\n    merge(range_of", "    let out = unsafe { room_at(out, a_len) };\n    merge(range_of", "fn plain_range_set_i64_gaps"),
    ("range_c/generated/sets_i64", "merge(range_of(&[start, end]), a, &DiffOp, out)", "merge(range_of(&[end, start]), a, &DiffOp, out)", "fn plain_range_set_i64_gaps"),
]
# Changes of a source that no generated file has: the file, and the text.
OF_PROOFS = [
    ("range_merge/runs", "(2 * digits result.len - 1) }", "(4 * digits result.len) }"),
    ("range_merge/runs", "    requires some { 0 < length (L.items side.now) }\n", ""),
    ("range_merge/runs", "    requires some { 0 < length", "    ensures more { {} ≡ [] }\n    requires some { 0 < length"),
    ("range_merge/compare", "    ghost order: { K → K → TheOrdering };", "    ghost order: { K → TheOrdering } by { x };\n    ghost more = { λ x. x };"),
    ("range_merge/compare", "// The order. It", '/* fn "x */ // The order. It'),
    ("range_collections/view", "    pub ghost sorted:", "    ghost set: { List T },\n    pub(crate) ghost sorted:"),
    ("range_merge/fast/short_runs", "#[inline(always)]\npub(crate) fn merge_reading", "#[tactic(auto, using(x))]\n#[inline(always)]\npub(crate) fn merge_reading"),
]


def generated_of(file):
    """The text of a module, with the modules that it has."""
    crate, *names = file.removesuffix("/mod").split("/")
    text = (generated.GENERATED / f"{crate}.rs").read_text()
    for name in names:
        text = textwrap.dedent(re.search(rf"^pub(?:\(crate\))? mod {name} \{{\n(.*?)^\}}", text, re.M | re.S)[1])
    return text


def all_modules(change=lambda text: text):
    """The modules of all crates, after a change of each crate's text."""
    for crate in generated.CRATES:
        yield from generated.modules(generated.tokens(change(generated_of(crate))), f"{crate}/mod")


def named(file, source=None, text=None):
    *_, (_, words) = generated.modules(generated.tokens(text or generated_of(file)), file)
    return generated.differences(file, source or generated.source_of(file), words, Counter())[0]


def planted(test, text, old, new):
    test.assertEqual(text.count(old), 1, old)
    return text.replace(old, new)


class Planted(unittest.TestCase):
    def test_each_is_told(self):
        for file, old, new, item in PLANTED:
            with self.subTest(file=file, new=new):
                (name,) = named(file, text=planted(self, generated_of(file), old, new))
                self.assertTrue(f" {name}".endswith(f" {item}"), name)

    def test_bodies_that_change_places(self):
        text = generated_of("range_merge/merging")
        left, right = (re.search(rf"fn advance_{side}.*?\n}}\n", text, re.S)[0] for side in ("left", "right"))
        body_of = {it: it[it.index("{\n") :] for it in (left, right)}
        moved = {left: left.replace(body_of[left], body_of[right]), right: right.replace(body_of[right], body_of[left])}
        text = text.replace(left, moved[left]).replace(right, moved[right])
        self.assertEqual(list(named("range_merge/merging", text=text)), ["fn advance_left", "fn advance_right"])

    def test_a_module_that_goes(self):
        text = generated_of("range_merge/mod")
        text = text[: text.index("pub(crate) mod runs {")] + text[text.index("pub(crate) mod fast {") :]
        self.assertEqual(list(named("range_merge/mod", text=text)), ["mod runs"])

    def test_a_statement_in_each_function(self):
        """Of all modules at once: each function that has a body is named."""
        functions = Counter()

        def changed(text):
            text, functions["planted"] = re.subn(r"(\bfn \w+[^;{]*\{)", r"\1 planted();", re.sub(r"//[^\n]*", "", text))
            functions["in all"] += functions["planted"]
            return text

        for file, words in all_modules(changed):
            found = generated.differences(file, generated.source_of(file), words, Counter())[0]
            functions["planted"] -= len(found)
            if file.endswith("/mod"):
                self.assertEqual(functions["planted"], 0, file)
        self.assertGreater(functions["in all"], 1400)

    def test_each_item_that_goes(self):
        """Of all modules at once: no row of LEFT_OUT is of an item that the module has."""
        gone = 0
        for file, words in all_modules():
            said, text = named(file, text="\n"), re.sub(generated.SAID, "", generated.laid_out(words))
            names = {name for name, _ in generated.items(text.split()) if not name.startswith("use ")}
            added = {it for it in names for row in generated.ADDED if row[0] == file and f" {row[1]} " in it}
            self.assertEqual(names - said.keys(), added, file)
            gone += len(names & said.keys())
        self.assertGreater(gone, 1900)

    def test_contracts_alone(self):
        for file, old, new in OF_PROOFS:
            with self.subTest(file=file, new=new):
                self.assertEqual(named(file, source=planted(self, generated.source_of(file), old, new)), {})

    def test_a_source_that_changes(self):
        source = planted(self, generated.source_of("range_merge/runs"), "low <= len / 2", "low < len / 2")
        self.assertEqual(len(named("range_merge/runs", source=source)), 1)

    def test_what_is_left_out_does_nothing(self):
        source = planted(self, generated.source_of("range_merge/in_place/owned"), "fn left_items_stay() {}", "fn left_items_stay() { wrong() }")
        self.assertEqual(len(named("range_merge/in_place/owned", source=source)), 1)
        source = planted(self, generated.source_of("range_chunks/set"), "let Self { list: _list } = self;", "wrong(self)")
        self.assertEqual(len(named("range_chunks/set", source=source)), 1)

    def test_a_row_of_no_use(self):
        with mock.patch.object(generated, "differences", lambda *_: ({}, 1)), mock.patch("builtins.print") as said:
            self.assertEqual(generated.main(), 1)
        self.assertIn("a row of no use: range_merge/in_place/list: fn set", said.call_args.args)
        rows = [*generated.INSTEAD, *generated.LEFT_OUT, *generated.ADDED, *generated.SUPPORT]
        self.assertEqual([it for it in said.call_args.args[:-1] if not it.startswith("a row of no use: ")], [])
        self.assertEqual(len(said.call_args.args), len(rows) + 1)


if __name__ == "__main__":
    unittest.main()
