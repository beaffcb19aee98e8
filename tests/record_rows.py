#!/usr/bin/env python3
"""Which mutants a change has tried again, as rows over a repository of three crates; what is read of a record, and of what a check
says; which edits are refused; and whether the mutants of each crate can be read, and those on record are there. It needs no toolchain.

    tests/record_rows.py

Its last line is 'N passed, M failed'. ./test pages runs it too.
"""

import sys
import tempfile
from pathlib import Path
from unittest import mock

import mutants
import record
from edits import BadEdit, edits_of
from record_files import FILES

FIRST, SECOND = {"first_is_wrong"}, {"second_is_wrong"}
BOTH = FIRST | SECOND
# What changes: the file, an old text and a new one; and the mutants that are tried again.
CHANGES = [
    ("the mutant's code", "app/mutants/lib.edits", "+ 1", "+ 2", FIRST),
    ("a line of a file that the mutant adds", "app/mutants/two.edits", "Three.", "The third.", SECOND),
    ("what the mutant says", "app/mutants/lib.edits", "It adds one.", "One is added.", set()),
    ("a function more of a mutant", "app/mutants/two.edits", "two::second", "two::second\nfunction: app::two::third", SECOND),
    ("the mutant's name", "app/mutants/lib.edits", "first_is_wrong", "first_adds", {"first_adds"}),
    ("the function's body", "app/src/one.rt", "    second(n)", "    let n = n;\n    second(n)", FIRST),
    ("the body of another in its file", "app/src/two.rt", "    4\n", "    5\n", SECOND),
    ("a comment in its file", "app/src/two.rt", "//! Two.", "//! The second.", SECOND),
    ("a tactic in its file", "app/src/two.rt", "tactic(auto)", "tactic(auto, using(own))", SECOND),
    ("the body of another in another file", "app/src/one.rt", "second(n)\n}", "second(n)\n    \n}", FIRST),
    ("what only that body names", "app/src/one.rt", "two::second;", "two::{second, third};", FIRST),
    ("what its contract names", "app/src/one.rt", "Low.{low, high}", "Lower.{low, high}", BOTH),
    ("what its contract could name", "app/src/one.rt", "Low.{low, high}", "Low.{low}", FIRST),
    ("the function's contract", "app/src/one.rt", "≡ low n", "≡ low (low n)", BOTH),
    ("the contract of a private function", "app/src/two.rt", "n: K) -> usize {", "n: K, m: usize) -> usize {", BOTH),
    ("a function more", "app/src/lib.rt", "mod two;", "mod two;\n\nfn fourth()\n    ensures none { 1 ≡ 1 }\n{\n}", BOTH),
    ("a field of a type", "app/src/lib.rt", "held: usize", "held: u64", BOTH),
    ("a constant", "app/src/lib.rt", "least(1)", "least(2)", BOTH),
    ("what computes a constant", "app/src/lib.rt", "n + 0", "n + 1", BOTH),
    ("a spec", "app/specs/App.antt", "app = 1", "app = 2", BOTH),
    ("a lemma's proof", "app/proofs/Own.antt", "own = cited", "own = refl", BOTH),
    ("the function's proof", "app/proofs/one/first/Answers.antt", "1", "2", FIRST),
    ("the proof of one that calls itself", "app/proofs/two/+second/Invariants.antt", "2", "3", SECOND),
    ("a body below", "low/src/lib.rt", "    help(n)", "    help(help(n))", set()),
    ("what only a body below names", "low/src/lib.rt", "helper::help;", "helper::{help, helped};", set()),
    ("the body of a trait's method below", "low/src/lib.rt", "self.kind() + self.kind()", "2 * self.kind()", set()),
    ("a comment and an attribute below", "low/src/lib.rt", "/// Shared.\n#[inline]", "/// Alike.\n#[inline(always)]", set()),
    ("the contract of a hidden function below", "low/src/lib.rt", "hides { result ≡ n }", "hides { n ≡ result }", set()),
    ("a contract below", "low/src/lib.rt", "same { result ≡ n }", "same { n ≡ result }", BOTH),
    ("what a contract below requires", "low/src/lib.rt", "n < 8", "n < 9", BOTH),
    ("the contract of a trait's method below", "low/src/lib.rt", "result ≡ 2", "result ≡ 1 + 1", BOTH),
    ("what a trait's method below requires", "low/src/lib.rt", "4 < 5", "4 < 6", BOTH),
    ("what is called by another name below", "low/src/lib.rt", "helper::{Helped", "helping::{Helped", BOTH),
    ("what is passed on and none names", "low/src/lib.rt", "Helped, Helper", "Helper", set()),
    ("what is passed on below and none there names", "low/src/lib.rt", "use inner::Inner", "use innermost::Inner", set()),
    ("the contract of a public function below that none names", "low/src/lib.rt", "uncalled { result", "uncalled { n", set()),
    ("a public type of a private module below", "low/src/inner.rt", "inner: usize", "inner: u64", set()),
    ("one with the name of one of the crate's own", "low/src/inner.rt", "low: usize", "low: u64", set()),
    ("the contract of a function of a type that is seen", "low/src/lib.rt", "len { result ≡ 3 }", "len { 3 ≡ result }", BOTH),
    ("one that is passed on", "low/src/inner.rt", "outer: usize", "outer: u64", BOTH),
    ("one of a public module", "low/src/shown.rt", "open: usize", "open: u64", BOTH),
    ("one of a module that is passed on", "low/src/given.rt", "given: usize", "given: u64", BOTH),
    ("a module below that none names", "low/src/lib.rt", "mod inner;", "mod inner;\nmod alone;", set()),
    ("a type of a crate below that, which a type that is seen names", "base/src/lib.rt", "origin: usize", "origin: u64", BOTH),
    ("a constant below", "low/src/lib.rt", "= 8", "= 9", BOTH),
    ("a constant below that none sees", "low/src/lib.rt", "= 4", "= 5", set()),
    ("a field below that none sees", "low/src/lib.rt", "unseen: usize", "unseen: u64", set()),
    ("a trait's method below of a type that none sees", "low/src/lib.rt", "unseen { result ≡ Less }", "unseen { Less ≡ result }", set()),
    ("what a macro makes below, after such a type", "low/src/lib.rt", "made!(u8", "made!(u32", BOTH),
    ("a trait's method below of such a type of others", "low/src/lib.rt", "aside { result ≡ Less }", "aside { Less ≡ result }", set()),
    ("a field below of a type of others that none sees", "low/src/lib.rt", "aside: T", "aside: Vec<T>", set()),
    ("a constant below that an import alone names", "low/src/limits.rt", "= 5", "= 8", set()),
    ("one that an import gives another name", "low/src/limits.rt", "= 6", "= 8", BOTH),
    ("one that a public import names", "low/src/limits.rt", "= 7", "= 8", BOTH),
    ("what is derived for it", "low/src/lib.rt", "derive(Clone)", "derive(Copy)", set()),
    ("a private type below that is in a public one", "low/src/lib.rt", "size: usize", "size: u64", BOTH),
    ("a private type below that a public one refers to", "low/src/lib.rt", "boxed: T", "boxed: Vec<T>", BOTH),
    ("a private type below that a spec names", "low/src/lib.rt", "told: usize", "told: u64", BOTH),
    ("one with the name of a spec's file", "low/src/lib.rt", "far: usize", "far: u64", set()),
    ("one with the name of a file that a block cites", "low/src/lib.rt", "shows: usize", "shows: u64", set()),
    ("a public type below", "low/src/lib.rt", "within: Within", "within: Unseen", BOTH),
    ("a spec below", "low/specs/Low.antt", "low n = n", "low n = n + 0", BOTH),
    ("a spec below it, which it can name by itself", "low/specs/Low/Part.antt", "= 1", "= 2", BOTH),
    ("a spec that it cites", "low/specs/Far.antt", "far = deep", "far = 1", BOTH),
    ("a spec that this one cites, of another crate", "base/specs/Deep.antt", "= 1", "= 2", BOTH),
    ("a spec at the end of a long way", "base/specs/Bottom.antt", "= 1", "= 2", BOTH),
    ("a spec that is passed on", "base/specs/Passed.antt", "= 1", "= 2", BOTH),
    ("a spec of that crate that isn't", "base/specs/Other.antt", "= 1", "= 2", set()),
    ("a spec below that a contract cites", "low/specs/Shows.antt", "⊤", "⊥", BOTH),
    ("a spec below that a hidden function's contract cites", "low/specs/Hides.antt", "⊤", "⊥", set()),
    ("a spec below that none cites", "low/specs/Aside.antt", "= 1", "= 2", set()),
    ("a spec below that a cited lemma's statement cites", "low/specs/Stated.antt", "= 1", "= 2", BOTH),
    ("a spec below that its proof cites", "low/specs/Proved.antt", "= 2", "= 3", set()),
    ("a spec more below", "low/specs/Lib.antt", "pub mod Far", "pub mod Far\npub mod Aside", set()),
    ("what a crate below passes on", "low/specs/Lib.antt", "Passed", "Other", BOTH),
    ("what a cited lemma below states", "low/proofs/Cited.antt", "deeper one ≡ 1", "1 ≡ deeper one", BOTH),
    ("the proof of a cited lemma below", "low/proofs/Cited.antt", "= deepest two", "= refl", set()),
    ("what a cited lemma's statement means", "low/proofs/Deeper.antt", "deeper n = n", "deeper n = n + 0", BOTH),
    ("the proof of a lemma below that", "low/proofs/Deeper.antt", "deepest = refl", "deepest = refl-1", set()),
    ("a lemma below that none cites", "low/proofs/Uncited.antt", "2 ≡ 2", "3 ≡ 3", set()),
    ("a function's proof below", "low/proofs/common/Answers.antt", "as goal", "as its", set()),
    ("the libraries of a crate below", "../crates.txt", "low: base", "low: itoa base", BOTH),
    ("the libraries of another crate", "../crates.txt", "beside: low", "beside: low app", set()),
]
# Which files move, and the mutants that are tried again.
MOVES = [
    ("a source below of which nothing is seen", "low/src/alone.rt", "low/src/left.rt", set()),
    ("a source below of which something is seen", "low/src/limits.rt", "low/src/limited.rt", BOTH),
    ("a spec below that none cites", "low/specs/Aside.antt", "low/specs/Beside.antt", set()),
    ("a spec below that is cited", "low/specs/Far.antt", "low/specs/Further.antt", BOTH),
    ("a cited lemma's file", "low/proofs/Deeper.antt", "low/proofs/Deep.antt", BOTH),
    ("a spec of its crate", "app/specs/App.antt", "app/specs/Apps.antt", BOTH),
]
# How else the crate may cite a spec below, and whether a change of that spec then has its mutants tried; and how a private type.
ASIDE = ("low/specs/Aside.antt", "= 1", "= 2")
UNSEEN = ("low/src/lib.rt", "unseen: usize", "unseen: u64")
CITED = [
    ("a spec by a module with a list", "ghost use Rattle.low.specs.{Aside};", ASIDE, True),
    ("a spec by another name for all specs", "ghost use Rattle.low.specs as s;", ASIDE, True),
    ("a spec by another name for the crate", "ghost use Rattle.low as l;", ASIDE, True),
    ("a spec by a list of what a crate has", "ghost use Rattle.low.{specs};", ASIDE, True),
    ("a spec by another name for all crates", "ghost use Rattle as r;", ASIDE, True),
    ("a spec by its whole path", "const ONE: usize = Rattle.low.specs.Aside.aside;", ASIDE, True),
    ("a spec by the path of its crate", "const ONE: usize = low.specs.Aside.aside;", ASIDE, True),
    ("a spec by an attribute", "#![tactic(auto, unfolding(low::specs::Aside::aside))]", ASIDE, True),
    ("all of another crate's", "ghost use Rattle.base.specs as s;", ASIDE, False),
    ("only the toolchain", "// As Rattle has it.", ASIDE, False),
    ("a private type", "ghost use Rattle.low.specs.declared.Unseen.{Unseen};", UNSEEN, True),
    ("a private type through a spec", "ghost use Rattle.low.specs.Low.Unseen.{Unseen};", UNSEEN, True),
    ("a type of that name", "ghost use Rattle.base.specs.declared.Unseen.{Unseen};", UNSEEN, False),
]
# Of these changes, the mutants that are tried first, since it is their own edit, file or proof that changed.
FIRST_TRIED = {
    "the mutant's code": FIRST,
    "the mutant's name": {"first_adds"},
    "the function's body": FIRST,
    "the function's proof": FIRST,
    "the function's contract": FIRST,
    "a function more": set(),
    "a spec": set(),
    "a contract below": set(),
}
BY = "logic 2"
FIRST_LINE = record.first_line(BY)
SUM = "0123456789abcdef01234567"
# The text of a record, and what is read of it.
RECORDS = [
    ("one line", f"{FIRST_LINE}\none {SUM}\n", {"one": SUM}),
    ("of another build of the logic", f"{record.first_line('kit-1 logic 2')}\none {SUM}\n", {"one": SUM}),
    ("of another logic", f"{record.first_line('logic 3')}\none {SUM}\n", {}),
    ("of a logic that it only begins with", f"{record.first_line('logic 23')}\none {SUM}\n", {}),
    ("no first line", f"one {SUM}\n", {}),
    ("a line that isn't of a mutant", f"{FIRST_LINE}\none {SUM}\n<<<<<<< HEAD\n", {}),
    ("a sum that is cut", f"{FIRST_LINE}\none {SUM}\ntwo {SUM[1:]}\n", {}),
    ("a name that stands twice", f"{FIRST_LINE}\none {SUM}\none {SUM}\n", {}),
    ("no text", "", {}),
    ("bytes", "\0\xff\n", {}),
]
# What a check says of a function with a mutant, and the goals of it that are known to be open.
OPEN = "note: src/one.rt:9:5: it is not proved that what the function ensures holds when it returns (`returns-clause-first`)"
INIT = "note: src/one.rt:9:5: it is not proved that the loop's invariant holds at first (`loop-init`)"
FALSE = INIT.replace("loop-init", "returns-clause-second") + f"; the facts known there {mutants.FALSE}"
ANSWER = "./proofs/one/first/Answers.antt:3:5: error: `returns-clause-first`: "
GONE, OTHER = f"{ANSWER}`Held` has no field `held`", f"{ANSWER}as printed, the two types differ"
SAID = [
    ("a goal that the search leaves open", [OPEN], {"returns-clause-first"}),
    ("a loop's goal", [INIT], set()),
    ("a goal that values make false", [OPEN, FALSE], {"returns-clause-second"}),
    ("an answer that doesn't fit", [OTHER, OPEN], {"returns-clause-first"}),
    ("an answer that names what is gone", [GONE, OPEN], set()),
    ("a goal that values make false beside it", [GONE, FALSE], {"returns-clause-second"}),
    ("an answer of which a line alone names what is gone", [GONE, OTHER, OPEN], {"returns-clause-first"}),
    ("another function's answer", [GONE.replace("one/first", "two/second"), OPEN], {"returns-clause-first"}),
]
# Mutants of a file that can't be read: an old text and a new one of it.
BAD = [
    ("a line that isn't read", "It adds one.", "It adds one.\nmore(n)"),
    ("an old text of two lines", "old: second(n)", "old: second(n)\n}"),
    ("no sentence", "It adds one.\n", ""),
    ("no function", "function: app::one::first\n", ""),
    ("nothing in the place of the old text", "new: second(n) + 1\n", ""),
    ("no old text", "old: second(n)\n", ""),
    ("an old text that isn't there", "old: second(n)", "old: second(m)"),
    ("an old text that stands in another source", "source: src/one.rt", "source: src/two.rt"),
    ("an old text that is there twice", "old: second(n)", "old: n"),
    ("the name of another", "mutant: first_is_wrong", "mutant: second_is_wrong"),
    ("a line before any mutant", "mutant: first_is_wrong", "second(n)\n\nmutant: first_is_wrong"),
    ("a key with a letter missing", "function: app", "functio: app"),
]


def laid(root, *changes):
    """The crate app of the repository, with these changes: each a path, an old text and a new one."""
    for name, text in FILES.items():
        file = root / name
        file.parent.mkdir(parents=True, exist_ok=True)
        for path, old, new in changes:
            if file.resolve() == (root / "crates" / path).resolve():
                assert text.count(old) == 1, f"{old!r} stands in {path} {text.count(old)} times"
                text = text.replace(old, new)
        file.write_text(text, encoding="utf-8")
    record.listed.cache_clear()
    return root / "crates/app"


def sums_of(root, *changes):
    return record.Repository(root).sums("app", edits_of(laid(root, *changes)))


def again(root, before, *changes):
    """The mutants whose sums aren't those of before."""
    return {name for name, it in sums_of(root, *changes).items() if before.get(name) != it}


def its_own(root, before, *changes):
    """The mutants of which something of their own changed since then."""
    return {*record.stages(sums_of(root, *changes), before, 0)[0]}


def moved(root, before, path, to):
    """The mutants whose sums aren't those of before, where a file has moved."""
    crate = laid(root)
    file = (root / "crates" / path).rename(root / "crates" / to)
    sums = record.Repository(root).sums("app", edits_of(crate))
    file.unlink()
    return {name for name, it in sums.items() if before.get(name) != it}


def amiss(crate):
    """What is amiss with a crate's mutants and their record, if anything is."""
    try:
        names = {edit.name for edit in edits_of(crate)}
    except BadEdit as why:
        return str(why)
    lost = {*record.rows(crate)[1]} - names
    return f"on record and not there: {', '.join(sorted(lost))}" if lost else ""


def of_every_tenth():
    """Whether a mutant on record is tried one time in ten, or if they are few oftener, and one not on record each time."""
    sums = {f"m{it}": SUM for it in range(25)}
    tried = [record.again({**sums, "new": SUM}, sums, number) for number in range(30)]
    yield "each in turn", [sum(name in it for it in tried) for name in sums] == [3] * 25
    yield "a tenth", all(2 <= len(it - {"new"}) <= 3 for it in tried)
    yield "one that isn't on record", all("new" in it for it in tried)
    yield "one with another sum", all("m1" in record.again(sums, {**sums, "m1": SUM[::-1]}, number) for number in range(30))
    yield "one of few", all(len(record.again({"one": SUM, "two": SUM}, sums | {"one": SUM, "two": SUM}, it)) == 1 for it in (0, 7))
    yield "first what is new, and last a tenth", [len(it) for it in record.stages({**sums, "new": SUM}, sums, 0)] == [1, 0, 3]
    changed = {**sums, "m1": SUM[: record.OWN_DIGITS] + SUM[: record.OWN_DIGITS - 1 : -1]}
    yield "then what rests on other things that changed", record.stages(changed, sums, 0)[:2] == ([], ["m1"])
    yield "all, where no commit is known", record.again(sums, sums, None) == {*sums}


def rows():
    """Each row by its name, and whether it holds."""
    with tempfile.TemporaryDirectory(prefix="record-") as folder:
        root = Path(folder)
        before = sums_of(root)
        yield "the same: none is tried", again(root, before) == set() and {*before} == BOTH
        with mock.patch.object(record, "RULE", record.RULE + 1):
            yield "another rule: all are tried", again(root, before) == BOTH
        for name, path, old, new, wanted in CHANGES:
            found = again(root, before, (path, old, new))
            yield f"{name}: {', '.join(sorted(wanted)) or 'none'} is tried", found == wanted
            if name in FIRST_TRIED:
                yield f"{name}: what is tried first", its_own(root, before, (path, old, new)) == FIRST_TRIED[name]
        for name, path, to, wanted in MOVES:
            found = moved(root, before, path, to)
            yield f"moved, {name}: {', '.join(sorted(wanted)) or 'none'} is tried", found == wanted
        for name, line, change, is_tried in CITED:
            cites = ("app/specs/App.antt", "pub app", f"{line}\n\npub app")
            found = again(root, sums_of(root, cites), cites, change)
            yield f"cited, {name}: {'all are' if is_tried else 'none is'} tried", found == (BOTH if is_tried else set())
        crate = laid(root, ("app/mutants/lib.edits", "function: app::one::first", "function: app::two::third"))
        elsewhere, file = record.Repository(root).sums("app", edits_of(crate)), crate / "src/two.rt"
        file.write_text(file.read_text(encoding="utf-8").replace("    4\n", "    5\n"), encoding="utf-8")
        found = record.Repository(root).sums("app", edits_of(crate))
        yield "the body of a function in a file that its mutant leaves", found["first_is_wrong"] != elsewhere["first_is_wrong"]
        for name, old, new in BAD:
            yield f"an edit with {name} is refused", amiss(laid(root, ("app/mutants/lib.edits", old, new))) != ""
        crate = laid(root)
        for name, text, wanted in RECORDS:
            (crate / "mutants/record").write_text(text, encoding="utf-8")
            yield f"a record: {name}", record.read(crate, BY) == wanted
        record.write(crate, BY, before)
        yield "a record that was written", record.read(crate, BY) == before and len(edits_of(crate)) == 2
        record.write(crate, BY, {**before, "lost": SUM})
        yield "a mutant on record that isn't there", amiss(crate) == "on record and not there: lost"
        record.write(crate, BY, {})
        yield "a record that would say nothing", not (crate / "mutants/record").exists() and record.read(crate, BY) == {}
        (crate / "mutants/stray.edit").write_text("", encoding="utf-8")
        yield "a file that is none of edits is refused", amiss(crate) != ""
    for name, lines, wanted in SAID:
        tried = mutants.Tried(mutants.read_said(Path("app"), [*lines, "fn app::one::first: no proof"])["app::one::first"])
        tried.first()
        yield f"what is open: {name}", tried.open == wanted
    used = record.with_its_names(["use A.{◌+◌, ◌-◌, x}", "a + b"])
    yield "of an import the operators that stand in the rest", used == "a + b\nuse A. ◌+◌"
    yield from ((f"every tenth: {name}", holds) for name, holds in of_every_tenth())
    for crate in sorted((record.ROOT / "crates").iterdir()):
        yield f"{crate.name}: {amiss(crate) or 'its mutants can be read'}", not amiss(crate)


def main():
    found = [*rows()]
    failed = [name for name, holds in found if not holds]
    for name in failed:
        print(f"record_rows: FAILED: {name}")
    print(f"{len(found) - len(failed)} passed, {len(failed)} failed")
    return 1 if failed else 0


if __name__ == "__main__":
    sys.exit(main())
