#!/usr/bin/env python3
"""Tests ./test itself over made-up parts: what fails, what is skipped, what is kept, and what its scripts share.

    tests/test_runner.py
"""

import importlib.machinery
import importlib.util
import io
import os
import re
import shutil
import subprocess
import sys
import tempfile
import time
import unittest
from contextlib import redirect_stderr, redirect_stdout
from dataclasses import dataclass
from pathlib import Path
from unittest import mock

ROOT = Path(__file__).resolve().parent.parent
sys.dont_write_bytecode = True


def loaded(file):
    """A script as a module."""
    loader = importlib.machinery.SourceFileLoader("runner", str(file))
    module = importlib.util.module_from_spec(importlib.util.spec_from_loader("runner", loader))
    sys.modules["runner"] = module
    loader.exec_module(module)
    return module


runner = loaded(ROOT / "test")
import built  # noqa: E402
import turns  # noqa: E402


def part(name, text, **more):
    """A part that is a line of the shell, and takes no time to speak of."""
    return runner.Part(name, f"the part {name}", 0.001, ["bash", "-c", text], **more)


def passes(name, **more):
    return part(name, "echo 2 passed, 0 failed", **more)


def hangs(name, **more):
    return part(name, "echo it runs; sleep 60", **more)


def counts_words(**more):
    """A part that counts the words that it is given."""
    command = ["bash", "-c", 'echo "$# passed, 0 failed, 1 skipped"', "m"]
    return runner.Part("m", "the part m", 0.001, command, may_wait=True, is_told=True, in_release=("--all",), **more)


@dataclass
class Row:
    """What it is, the quick parts, what is counted, the other parts, the words, TEST_MINUTES, and what is said."""

    what: str
    quick: list
    counts: str
    others: list = ()
    words: list = ()
    minutes: str = ""
    says: str = ""


# How many minutes are enough for what ends at all, on a slow machine too.
LITTLE = "0.08"
NO_TOOL = {"tool": "no-rt"}
WAITS = {"may_wait": True}
LEAVES = ["all", "--leave-out"]
A = passes("a")
ROWS = [
    Row("a part passes", [A], "2 0 0"),
    Row("a part fails", [A, part("b", "echo 1 passed, 1 failed; exit 1")], "3 1 0", says="FAILED: b"),
    Row("a status is a failure", [A, part("b", "echo 1 passed, 0 failed; exit 3")], "3 1 0", says="b counts 0"),
    Row("a part counts nothing", [A, part("b", "echo 0 passed, 0 failed")], "2 1 0", says="FAILED: b"),
    Row("a tool is missing", [A, passes("b", **NO_TOOL)], "2 0 1", says="b: SKIPPED: no-rt"),
    Row("a script lacks a tool", [A, part("b", "echo b: SKIPPED; exit 77")], "2 0 1", says="b: SKIPPED"),
    Row("nothing passed: no tool", [passes("a", **NO_TOOL)], "0 1 1", words=["a"], says="FAILED: nothing passed"),
    Row("nothing passed: a script's tool", [part("a", "exit 77")], "0 1 1", says="FAILED: nothing passed"),
    Row("the time is up in a part", [A, hangs("b")], "2 1 0", minutes=LITTLE, says="FAILED: b: the time was up"),
    Row("the time is up before all", [A, passes("b")], "0 2 0", minutes="0", says="FAILED: a: it takes"),
    Row("the time is up in the proofs", [A], "2 1 0", [hangs("ci", proves=True)], ["all"], LITTLE, "FAILED: ci"),
    Row("nothing may wait without the word", [A], "2 1 0", [hangs("m", **WAITS)], ["all"], LITTLE, "FAILED: m"),
    Row("what may wait is left out", [A], "2 0 1", [hangs("m", **WAITS)], LEAVES, "15.08", "m: SKIPPED: the time"),
    Row("what may wait isn't begun", [A], "2 0 1", [hangs("m", **WAITS)], LEAVES, "14", "m: SKIPPED: it takes"),
    Row("what must be done isn't left out", [A, hangs("b")], "2 1 0", [], ["--leave-out"], LITTLE, "FAILED: b"),
    Row("how many minutes are left is passed", [A], "4 0 1", [counts_words()], LEAVES, "100"),
    Row("it isn't passed where none may wait", [A], "2 0 1", [counts_words()], ["all"], "100"),
    Row("that it is before a release is passed", [A], "3 0 1", [counts_words()], ["release"]),
    Row("a group", [passes("a", group="g"), passes("b", group="g"), passes("c")], "4 0 0", words=["g"]),
    Row(
        "a part still runs", [part("a", "sleep 1; echo 1 passed, 0 failed")], "1 0 0", says="still running: a, 0 min"
    ),
]


def last_line(counts):
    return "{} passed, {} failed, {} skipped".format(*counts.split())


class Runs(unittest.TestCase):
    """Runs over made-up parts, in a repository and with a record of their own."""

    def setUp(self):
        room = tempfile.TemporaryDirectory()
        self.addCleanup(room.cleanup)
        self.addCleanup(os.chdir, os.getcwd())
        self.room = Path(room.name)
        (self.room / "read").write_text("as it was\n", encoding="utf-8")
        subprocess.run(["git", "init", "-q", self.room], check=True)

    def run_parts(self, quick, others, words, minutes="", tools="the tools"):
        """Runs ./test with these parts. Returns its status and what it says."""
        given = {"QUICK": quick, "PROVED": [*others], "NAMED": [], "STARVING": ()}
        # The real root has libraries that the proofs beside this test are building.
        given |= {"ROOT": self.room, "LOGS": self.room / "out"}
        given |= {"MINUTE": 0.3, "CLEARING": 2, "MISSING": {"no-rt": "no-rt"}}
        # On two processors the parts that prove nothing run in turn, so which one passed first is known.
        given |= {"processors": lambda: 2}
        here = {"PATH": "/usr/bin:/bin", "XDG_CACHE_HOME": str(self.room / "cache"), "TEST_MINUTES": minutes}
        record = mock.patch.multiple(runner.kept, ROOT=self.room, tools=lambda: tools)
        said = io.StringIO()
        with mock.patch.multiple(runner, **given), mock.patch.dict(os.environ, here), record:
            with redirect_stdout(said), redirect_stderr(said):
                status = runner.main(list(words))
        return status, said.getvalue()

    def test_rows(self):
        for row in ROWS:
            with self.subTest(row.what):
                status, said = self.run_parts(row.quick, row.others, row.words, row.minutes)
                self.assertEqual(last_line(row.counts), said.splitlines()[-1], said)
                self.assertEqual(int(row.counts.split()[1] != "0"), status)
                self.assertIn(row.says, said)

    def test_libraries_of_an_earlier_run_are_forgotten(self):
        old, stamped = (self.room / f"crates/{it}/out/rlib" for it in ("old", "stamped"))
        for it in (old, stamped):
            it.mkdir(parents=True)
        (stamped / "stamp").touch()
        there = passes("ci", folder=str(self.room / "crates"))
        for other, kept in ((passes("b"), True), (there, False)):
            self.run_parts([A], [other], ["all"])
            self.assertEqual((kept, True), (old.exists(), stamped.exists()), other.name)

    def test_words(self):
        self.assertEqual(2, self.run_parts([passes("a")], [], ["b"])[0])
        status, said = self.run_parts([passes("a")], [], ["--help"])
        self.assertEqual((0, runner.__doc__), (status, said))


# Rows: what changed since 'rt ci' put low, and then high, where they lie; and whether low and high fit.
FITTING = [
    ("nothing", "", (True, True)),
    ("a source of low", "touch crates/low/src/lib.rt", (False, True)),
    ("a source of high", "touch crates/high/src/lib.rt", (True, False)),
    ("the list of crates", "touch crates.txt", (False, False)),
    ("low was put there again", "rm -r crates/low/out && put low", (True, False)),
    ("low has rt's stamp", "touch crates/low/out/rlib/stamp", (False, True)),
    ("the toolchain", "echo rattle-build 2 >kit/rlibs/std.rlib/format", (False, False)),
    ("low is gone", "rm -r crates/low/out && mkdir -p crates/low/out/rlib/low.rlib", (False, False)),
]
# Puts a library there as 'rt ci' does one that it kept: its files are links to old ones.
PUTTING = """
put() {
    mkdir -p "crates/$1/out/rlib/$1.rlib" && ln kept "crates/$1/out/rlib/$1.rlib/format" && sleep 0.01
}
"""


class Libraries(unittest.TestCase):
    """Which libraries that 'rt ci' left are taken as they are."""

    def setUp(self):
        room = tempfile.TemporaryDirectory()
        self.addCleanup(room.cleanup)
        self.room = Path(room.name)

    def run_there(self, text):
        subprocess.run(["bash", "-ec", PUTTING + text], cwd=self.room, check=True)

    def test_rows(self):
        for what, change, fit in FITTING:
            with self.subTest(what):
                self.setUp()
                self.run_there(
                    """
                    mkdir -p kit/rlibs/std.rlib crates/{low,high}/src && touch crates/{low,high}/src/lib.rt
                    echo rattle-build 1 | tee kit/rlibs/std.rlib/format >kept && touch -d 2001-01-01 kept
                    printf 'low:\\nhigh: low\\n' >crates.txt && put low && put high
                    """
                )
                self.run_there(change)
                with mock.patch.object(built, "kit", lambda: self.room / "kit"):
                    self.assertEqual(fit, tuple(built.fits(it, self.room) for it in ("low", "high")))


# Rows: what it is, what changes between two runs, the words of the second, what it keeps, and what it counts.
KEPT = [
    ("nothing changed", "", "all", "a, b", "2 0 0"),
    ("a file changed", "echo more >>read", "all", "", "6 0 0"),
    ("another file changed", "echo more >other", "all", "a, b", "2 0 0"),
    ("a file came", "mkdir -p reads && echo more >reads/new", "all", "b", "4 0 0"),
    ("a file went", "rm read", "all", "", "6 0 0"),
    ("a file has another name", "mkdir reads && mv read reads/read", "all", "", "6 0 0"),
    ("a release runs all", "", "release", "", "6 0 0"),
    ("a part is run by name", "", "a", "", "2 0 0"),
    ("a record is bad", "echo '{' >cache/daleribbon/a.json", "all", "b", "4 0 0"),
    ("a record says something else", "echo '[]' >cache/daleribbon/a.json", "all", "b", "4 0 0"),
    ("a record is missing", "rm cache/daleribbon/b.json", "all", "a", "4 0 0"),
    ("git can't say", "rm -r .git", "all", "", "6 0 0"),
]


class Kept(Runs):
    """What a second run keeps."""

    test_rows = test_words = test_libraries_of_an_earlier_run_are_forgotten = None
    both = [passes("a", reads=("read", "reads/*")), passes("b", reads=("read",))]

    def counts(self, others, words=("all",), **more):
        """Runs a quick part and these. Returns what they count, and which are kept."""
        status, said = self.run_parts([passes("q")], others, words, **more)
        *_, before, last = said.splitlines()
        self.assertEqual(int(", 0 failed" not in last), status)
        return (
            " ".join(re.findall(r"\d+", last)),
            before.rpartition(": ")[2] if before.startswith("test: kept") else "",
        )

    def test_second_runs(self):
        for what, between, word, keeps, counts in KEPT:
            with self.subTest(what):
                self.setUp()
                self.assertEqual(("6 0 0", ""), self.counts(self.both))
                subprocess.run(between, shell=True, cwd=self.room, check=True)
                self.assertEqual((counts, keeps), self.counts(self.both, [word]))

    def test_another_command_or_other_tools(self):
        self.counts(self.both)
        other = [self.both[0], part("b", "echo 5 passed, 0 failed", reads=("read",))]
        self.assertEqual(("7 0 0", "a"), self.counts(other))
        self.assertEqual(("6 0 0", ""), self.counts(self.both, tools="other tools"))

    def test_without_git_nothing_is_kept(self):
        shutil.rmtree(self.room / ".git")
        self.assertEqual([("6 0 0", "")] * 2, [self.counts(self.both) for _ in range(2)])

    def test_what_failed_runs_again(self):
        text = "[ -e was ] && echo 1 passed, 0 failed || { touch was; echo 0 passed, 1 failed; exit 1; }"
        once = [part("a", text, folder=str(self.room), reads=("read",))]
        self.assertEqual(["2 1 0", "3 0 0", "2 0 0"], [self.counts(once)[0] for _ in range(3)])

    def test_what_was_edited_meanwhile_runs_again(self):
        edits = [part("a", "echo more >>read; echo 1 passed, 0 failed", folder=str(self.room), reads=("read",))]
        self.assertEqual(["3 0 0", "3 0 0"], [self.counts(edits)[0] for _ in range(2)])

    def test_one_of_a_group_runs_in_turn(self):
        three = [passes(it, reads=("read",), group="g") for it in "abc"]
        self.counts(three)
        second = [self.counts(three) for _ in range(4)]
        self.assertEqual([("4 0 0", it) for it in ("b, c", "a, c", "a, b", "b, c")], second)


class Tools(unittest.TestCase):
    """What a record knows of the tools: what each says of itself, and the variables that choose one or its flags."""

    SAYING = (
        "uname", "dpkg-query", "ls", "rustc", "cargo", "cc", "c++", "clang", "node", "python3", "chromedriver",
    )  # fmt: skip
    CHOOSING = (
        "CC", "CXX", "CFLAGS", "CXXFLAGS", "LDFLAGS", "CARGO_HOME", "RUSTFLAGS", "RUSTUP_TOOLCHAIN", "PYTHON", "PYTHONPATH",
    )  # fmt: skip

    def said(self, room, **variables):
        """What is known where a folder has all tools."""
        with mock.patch.dict(os.environ, {"PATH": str(room), **variables}, clear=True):
            return runner.kept.tools.__wrapped__()

    def put(self, room, tool, says):
        (room / tool).write_text(f"#!/bin/sh\necho {says}\n", encoding="utf-8")
        (room / tool).chmod(0o755)

    def test_each(self):
        with tempfile.TemporaryDirectory() as name:
            room = Path(name)
            for tool in self.SAYING:
                self.put(room, tool, "1.0")
            before = self.said(room)
            self.assertEqual(before, self.said(room))
            for tool in self.SAYING:
                self.put(room, tool, "2.0")
                self.assertNotEqual(before, self.said(room), tool)
                self.put(room, tool, "1.0")
                self.assertEqual(before, self.said(room), tool)
            (room / "clang").unlink()
            self.assertNotEqual(before, self.said(room), "one that is missing")
            self.put(room, "clang", "1.0")
            for variable in self.CHOOSING:
                self.assertNotEqual(before, self.said(room, **{variable: "x"}), variable)


# Rows: what it is, lines of a script over steps.sh, its status, what it counts, and what else it says.
LOOPS = f"{sys.executable} -X faulthandler -c 'while True: pass'"
STEPS = [
    ("a step", "step one true", 0, "1 0 0", r"s, \d+ s of processors: one"),
    ("a step fails", "step one false", 1, "0 1 0", "FAILED: one"),
    (
        "a tool is missing",
        "step_by no-tool its-package one true",
        0,
        "0 0 1",
        "one: no-tool is missing.* its-package ",
    ),
    ("rustup has no toolchain", "step_by cargo cargo one true", 0, "0 0 1", "cargo is missing"),
    ("rustup has no component", "needs rustfmt rustfmt", 77, "", "rustfmt is missing"),
    ("a step hangs", "step one within 1 sleep 60", 1, "0 1 0", "it hadn't ended after 1 s"),
    ("a step ends in time", "step one within 60 true", 0, "1 0 0", "one"),
    ("a step fails in time", "step one within 60 false", 1, "0 1 0", "one"),
    ("a Python that hangs says where", f"step one within 1 {LOOPS}", 1, "0 1 0", 'File "<string>", line 1'),
]


class Steps(unittest.TestCase):
    """What the scripts of the languages share."""

    def test_rows(self):
        for what, lines, status, counts, says in STEPS:
            with self.subTest(what), tempfile.TemporaryDirectory() as room:
                for shim in ("cargo", "rustfmt"):
                    Path(room, shim).write_text("#!/bin/sh\necho 'no toolchain' >&2\nexit 1\n", encoding="utf-8")
                    Path(room, shim).chmod(0o755)
                script = f". {ROOT}/tests/steps.sh\n{lines}\nended\n"
                env = {**os.environ, "PATH": f"{room}:/usr/bin:/bin"}
                ran = subprocess.run(["bash", "-c", script], env=env, timeout=60, capture_output=True, text=True)
                self.assertEqual(status, ran.returncode, ran.stdout)
                self.assertRegex(ran.stdout, says)
                self.assertEqual(last_line(counts) if counts else "", ran.stdout.splitlines()[-1] if counts else "")


# Rows: what 'rt ci' says of range_entry by itself, the processors, what it is called with, and the status of the last call.
KEEPS = "rt: range_entry and the crates below passed, and that is kept. This is not the gate"
CI = [
    ("what was proved is kept", KEEPS, 4, ["ci range_entry", "ci range_merge", "ci"], 0),
    ("a proof fails in the end", KEEPS, 4, ["ci range_entry", "ci range_merge", "ci"], 1),
    ("two processors", KEEPS, 2, ["ci"], 0),
    ("nothing is kept", "rt: range_entry and the crates below passed. This is not the gate", 4, ["ci range_entry", "ci"], 0),
    ("no names are taken", "rt: rt ci with names is not the gate", 4, ["ci range_entry", "ci"], 0),
    ("range_entry fails", "rt: FAILED: range_entry", 4, ["ci range_entry", "ci"], 1),
]


class Proofs(unittest.TestCase):
    """What is proved by itself before 'rt ci', which alone counts."""

    def test_rows(self):
        for what, says, processors, calls, status in CI:
            with self.subTest(what), tempfile.TemporaryDirectory() as room:
                rt = f"""
                echo "$*" >>{room}/calls
                [ $# = 1 ] || {{ echo '{says}'; echo '1 passed, 0 failed (range_entry alone)'; exit; }}
                [ {status} = 0 ] && echo 'rt: ok' && echo '22 passed, 0 failed'
                exit {status}
                """
                for name, text in (("rt", rt), ("nproc", f"echo {processors}")):
                    Path(room, name).write_text(f"#!/bin/bash\n{text}\n", encoding="utf-8")
                    Path(room, name).chmod(0o755)
                env = {**os.environ, "PATH": f"{room}:/usr/bin:/bin"}
                ran = subprocess.run(["bash", ROOT / "tests/ci.sh"], env=env, timeout=60, capture_output=True, text=True)
                self.assertEqual(calls, Path(room, "calls").read_text(encoding="utf-8").splitlines())
                counted = runner.counted(passes("ci"), ran.stdout, ran.returncode)
                self.assertEqual((status, runner.Count(22 * (not status), status)), (ran.returncode, counted), ran.stdout)
                self.assertEqual(len(calls) > 1, f"  {says}\n" in ran.stdout)


@dataclass(eq=False)
class Made:
    """A made-up trial: each stage takes some time, and one may fail. It notes what ran beside it, and its processes."""

    name: str
    seen: list
    fails: bool = False

    def run(self, stage, jobs):
        self.seen.append((self.name, stage, jobs()))
        time.sleep(0.05)
        self.seen.append((self.name, stage, "ended"))
        if self.fails:
            raise ValueError(self.name)


class Turns(unittest.TestCase):
    """In which order the mutants of several crates are tried."""

    def run_turns(self, names, many, fails=""):
        seen = []
        trials = {it: Made(it, seen, it == fails) for it in names}
        turns.in_turn([(trials[it], stage) for stage in range(2) for it in names], many, 4)
        return seen

    def test_first_stages_come_first_and_a_trial_runs_once_at_a_time(self):
        for many in (1, 2, 3):
            seen = self.run_turns("abcd", many)
            begun = [it[:2] for it in seen if it[2] != "ended"]
            self.assertEqual(sorted((it, stage) for it in "abcd" for stage in range(2)), sorted(begun))
            self.assertEqual([0] * 4, [stage for _, stage in begun][:4])
            self.assertLessEqual({it[2] for it in seen} - {"ended"}, {-(-4 // it) for it in range(1, many + 1)})
            for name in "abcd":
                of = [it[1:] for it in seen if it[0] == name]
                self.assertEqual(["ended", "ended"], [it[1] for it in of[1::2]])

    def test_the_last_has_all_processors(self):
        self.assertEqual([4, 4], [it[2] for it in self.run_turns("a", 3) if it[2] != "ended"])

    def test_a_failure_is_raised(self):
        with self.assertRaises(ValueError):
            self.run_turns("abc", 2, fails="b")


if __name__ == "__main__":
    ran = unittest.main(exit=False, verbosity=0).result
    bad = len(ran.failures) + len(ran.errors)
    print(f"{max(ran.testsRun - bad, 0)} passed, {bad} failed")
    sys.exit(1 if bad else 0)
