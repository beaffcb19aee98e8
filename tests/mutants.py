#!/usr/bin/env python3
"""Tries the mutants in crates/*/mutants/, and those that 'rt ci' tries, in crates/*/must-fail/: with each in the place of
the right body, a clause of the function that it names must be open, and the script says which. Some the language refuses
before, by an error that they name.

A function is proved against the contracts of those that it calls, never against their bodies. So mutants of different
functions stand side by side in a copy of the crate, and one check says what is amiss with each function: goals of its own
that aren't proved, or only that it calls a function that isn't. A function with a mutant must have such a goal, and one
that a mutant adds must have none. Of several mutants of one function each round of checks has one.

A goal is open where the prover's search doesn't prove it, or where the answer that a proof file gives doesn't fit. What
no longer fits may still be true; so its answer is taken away, and the search must fail, too. Where the answer names what
the mutant took away, that shows nothing: such a goal counts only if values are found at which it is false. Nor does the
search's failure show anything at a goal whose answer stands there under a name that the mutant changed.

edits.py says in which form mutants stand. What a clause refused is put on record with a sum of all that this rests on
(record.py). Only mutants are tried whose sum is another, and of the rest every tenth, by the commit's number. Of all crates
those come first that aren't on record, or whose own code or proofs changed.

    tests/mutants.py [--all] [--list] [--said FOLDER] [--only WORD] [--minutes N] [CRATE..]

It begins with the libraries that 'rt ci' or 'rt lib' left in crates/*/out, and with what 'rt check' kept. It names the
mutants that no clause refused, and ends with 0 if there is no such. --all tries all mutants; --only those with WORD in their
names; --list names those that it would try, and tries none. With --said it leaves all that the checks said in the folder.
When these minutes are over it ends what it does, and names the mutants that are left.

Every public function of the libraries has a mutant, except laws and those below. A trait's has one at some type, or in what
it calls.

- `From<RangeFrom<T>>`, `RangeSetRef::empty` and its `Default`, `new` of `ChunkedRangeSet`, `RangeMap`, `Chunks`, `clear` and
  `allocator` of `Chunks`, `copy_value`, the least list, `none` of `Items`, `key_of`, `into_key`: no other value is possible.
- Drops, `known`, `{:?}` of a `RangeMap`, `{}` of an `InsertError`, `?` into a `TrackError`: they do or promise nothing.
- `into_iter`, `limit_asked`, `move_last_two`, `SmallVecMergeState::merge`, `ChunkedRangeSet::intersects_range`, `combine`,
  `domain`, `where_equal`, `retain` of a `RangeMap`, `{}` of a `ChunkedRangeSet`, all of a `ChunkedSpace` except `first_fit`,
  `first_fit_aligned`, `insert` and `remove`, and those of `Chunks` that only call one other: what they call has one.
- `b_at`, `Status::code` of `range_calc_answers`: `a_at` and `exit_code` have one.
- The exports of `range_c` for i32, u32 and u64, which are written from i64's.
- `keeps` of a `MapFilter` and of a `RangeFilter`, which only callers write.
"""

import argparse
import os
import re
import shutil
import signal
import subprocess
import sys
import tempfile
import threading
import time
from dataclasses import dataclass, field
from pathlib import Path

import built
import record
from built import BUILT, CHECKED, ROOT, SOURCES
from edits import EDITS, BadEdit, edits_of
from turns import at_once, in_turn

# What the trial of a crate takes of memory at most, in gigabytes, and how many mutants a round has where time is short.
OF_MEMORY, MOST = 7, 30

# What a check says of a function, and of a goal: in the function's code, or where a proof file answers it.
VERDICT = re.compile(r"fn (\S+): (.*)")
SEARCHED = re.compile(r"note: src/\S+: (?:it is not proved .*?|`search` found no proof )\(`([^`]+)`\)(.*)")
ANSWERED = re.compile(r"(?:note: )?(?:\./)?proofs/(\S+)/\w+\.antt:\d+:\d+: (?:error: )?(?:`([^`]+)`: )?(.*)")
# What is said of a function that has no goal of its own left: that it is proved, or would be if what it uses were.
WELL = re.compile(r"proved|no proof: it (calls|passes) ")
# A goal of what a proof file says of a loop.
LOOP = re.compile(r"(?!returns).*-(init|preserved|smaller)(-|$)")
# What is said of a goal that values make false, and of an answer that names what isn't there.
FALSE = "allow values at which this goal is false"
GONE = re.compile(r"has no field|is not in scope|has no `|was not admitted")


class TimeUp(Exception):
    """A check was ended, since there was no more time."""


def side_by_side(edits, most=float("inf")):
    """Parts the edits into rounds, in each of which no two collide, and none has more than the most."""
    rounds = []
    for edit in edits:
        for others in rounds:
            if len(others) < most and not any(edit.collides(other) for other in others):
                others.append(edit)
                break
        else:
            rounds.append([edit])
    return rounds


def link_or_copy(one, other):
    """Gives a file a second name. A check replaces the files of what it built or kept, and changes none of these."""
    try:
        os.link(one, other)
    except OSError:
        shutil.copy2(one, other)


def lay(crate, copy, edits, parts=(*SOURCES, CHECKED)):
    """Lays the crate into the copy, with these edits and with what checks of its own bodies kept."""
    for part in parts:
        shutil.rmtree(copy / part, ignore_errors=True)
        if (crate / part).is_dir():
            linked = lambda one, other: (link_or_copy if one.endswith(".oantt") else shutil.copy2)(one, other)
            shutil.copytree(crate / part, copy / part, copy_function=linked)
    changes = {}
    for edit in edits:
        for path, made in edit.changes.items():
            changes.setdefault(path, []).extend(made)
    for path, made in changes.items():
        text = (copy / path).read_text(encoding="utf-8")
        for start, end, new in sorted(made, reverse=True):
            text = text[:start] + new + text[end:]
        (copy / path).write_text(text, encoding="utf-8")
    for edit in edits:
        for path, text in edit.added.items():
            (copy / path).parent.mkdir(parents=True, exist_ok=True)
            (copy / path).write_text(text, encoding="utf-8")


def copied(room):
    """Copies the crates into the room, with what was built of them."""
    shutil.copy(ROOT / "crates.txt", room)
    for crate in (ROOT / "crates").iterdir():
        for part in SOURCES:
            if (crate / part).is_dir():
                shutil.copytree(crate / part, room / "crates" / crate.name / part)
        if (crate / BUILT).is_dir():
            shutil.copytree(crate / BUILT, room / "crates" / crate.name / BUILT, copy_function=link_or_copy)


@dataclass
class Said:
    """What a check said of a function: its verdict, the goals that the search left open, those of them that values make
    false, and the goals whose answers don't fit, with what is said of each."""

    verdict: str = "no such function"
    searched: set = field(default_factory=set)
    false: set = field(default_factory=set)
    answered: dict = field(default_factory=dict)

    def gone(self):
        """The goals whose answers name what isn't there."""
        return {goal for goal, words in self.answered.items() if all(GONE.search(it) for it in words)}


def clauses(goals):
    """Those of the goals that are of a clause. What a proof file says of a loop is its own, and another may hold."""
    return {goal for goal in goals if not LOOP.match(goal)}


def read_said(crate, lines):
    """Reads what a check says of the functions of a crate. What is said of a goal stands above its function's verdict."""
    said, answered, searched, false = {}, {}, set(), set()
    lines = iter([*lines, ""])
    line = next(lines)
    while line is not None:
        words, line = line, next(lines, None)
        while line is not None and line.startswith("  "):
            words, line = f"{words}\n{line}", next(lines, None)
        first = words.partition("\n")[0]
        if at := VERDICT.match(first):
            of = answered.get(f"{crate.name}::{at[1].partition('::')[2]}", {})
            said[at[1]] = Said(at[2], searched, false, of)
            searched, false = set(), set()
        elif at := SEARCHED.match(first):
            searched.add(at[1])
            if FALSE in at[2]:
                false.add(at[1])
        elif (at := ANSWERED.match(words)) and (": error: " in first or GONE.search(first)):
            function = f"{crate.name}::{at[1].replace('/+', '/').replace('/', '::')}"
            answered.setdefault(function, {}).setdefault(at[2] or "", []).append(words)
    return said


def command(crate, jobs):
    """What checks a copy of a crate: rattle itself takes the libraries that 'rt ci' left, if they fit."""
    if built.all_fit(crate):
        return built.rattle("check", crate, "--incremental", CHECKED, jobs=jobs)
    return ["rt", "check", "--jobs", str(jobs)]


def check(copy, flags, keep, until=float("inf"), command=("rt", "check")):
    """Checks the copy. Returns what is said, line by line, and the processor seconds that it took."""
    left = until - time.monotonic()
    if left <= 0:
        raise TimeUp
    with open(keep, "a+", encoding="utf-8", errors="replace") as said:
        begun = said.tell()
        words = {"stdin": subprocess.DEVNULL, "stdout": said, "stderr": subprocess.STDOUT}
        # In a session of its own, all that the check began can be ended with it.
        ran = subprocess.Popen([*command, *flags], cwd=copy, start_new_session=left < float("inf"), **words)
        end = threading.Timer(left, os.killpg, (ran.pid, signal.SIGKILL)) if left < float("inf") else None
        if end:
            end.daemon = True
            end.start()
        _, status, used = os.wait4(ran.pid, 0)
        ran.returncode = os.waitstatus_to_exitcode(status)
        if end:
            end.cancel()
        if time.monotonic() >= until:
            raise TimeUp
        said.seek(begun)
        return said.read().splitlines(), used.ru_utime + used.ru_stime


def without(text, goals):
    """A proof file without its answers of these goals. A declaration goes on over lines that begin with a blank or a closing
    bracket, and may have a line 'unfolding' between its type and its body."""
    kept, name = [], None
    for line in text.splitlines(keepends=True):
        if line.strip() and line[0] not in " )]}" and not line.startswith("unfolding"):
            name = re.sub(r"^((pub|abbrev|unfoldable) )*", "", line).split()[0]
        if name not in goals:
            kept.append(line)
    return "".join(kept)


def answers_of(copy, function):
    """The file with the answers to a function's goals. A function that calls itself has a folder with a plus in front."""
    *parts, name = function.split("::")[1:]
    folder = copy.joinpath("proofs", *parts)
    return next((file for it in (name, f"+{name}") if (file := folder / it / "Answers.antt").is_file()), folder / name)


def lone_clause(crate, function):
    """The name of the one clause that a function ensures, where its source says so."""
    *parts, of = function.split("::")[1:]
    files = (crate.joinpath("src", *parts[:count], last) for count in range(len(parts), -1, -1) for last in ("lib.rt", "mod.rt"))
    named = (crate.joinpath("src", *parts[:count]).with_suffix(".rt") for count in range(len(parts), 0, -1))
    file = next((it for it in [*named, *files] if it.is_file()), None)
    found = re.findall(rf"\bfn {re.escape(of)}\b(.*?)^ *\{{$", file.read_text(encoding="utf-8"), re.M | re.S) if file else []
    names = re.findall(r"^ *ensures\b *(\w*)", found[0], re.M) if len(found) == 1 else []
    return names[0] if len(names) == 1 else ""


def clause(goal, lone):
    """What a goal is of: a clause of the function, of a call's conditions or of a type, by its name if it has one."""
    where, _, name = re.sub(r"-\d+$", "", goal).partition("-clause-")
    if where.split("-")[0] == "returns":
        return name or lone or "ensures"
    if where.startswith("invariant_of-"):
        where = f"invariant of {where.split('-')[1]}"
    elif at := re.match(r"(.+?)-requires", where):
        where = f"requires of {at[1]}"
    return f"{where}: {name}" if name else where


@dataclass
class Tried:
    """What a check said of a function with a mutant, and which of its goals are known to be open."""

    said: Said
    open: set = field(default_factory=set)

    def first(self):
        """After the check with all answers, the search's failure counts where no answer names what is gone."""
        self.open = clauses(self.said.false) or clauses(set() if self.said.gone() else self.said.searched)

    def again(self, said):
        """After a check without the answers that didn't fit, the search's failure counts where they named nothing gone."""
        answers = set(self.said.answered) - self.said.gone()
        left = {goal for goal in said.searched if not answers.isdisjoint((goal, goal.partition("-clause-")[0]))}
        self.open = clauses(said.false) or clauses(left)

    def why_not(self):
        """Why no clause is known to be open."""
        if self.said.gone():
            return f"answers name what is gone, at {', '.join(sorted(self.said.gone()))}"
        if loops := (self.said.searched | set(self.said.answered)) - clauses(self.said.searched | set(self.said.answered)):
            return f"the invariant of a loop alone is open, at {', '.join(sorted(loops))}"
        return self.said.verdict[:160]


class Crate:
    """The trial of a crate's mutants in a copy of it."""

    def __init__(self, crate, room, given, until, jobs):
        self.crate, self.copy, self.until = crate, room / "crates" / crate.name, until
        self.said = (given.said or room) / f"{crate.name}.txt"
        # Where libraries don't fit, rt builds what is missing, and once for all.
        self.jobs, self.seconds = jobs, 0
        first = command(crate.name, jobs())
        if first[0] == "rt":
            self.seconds = check(crate, ["--only", ""], os.devnull, until, first)[1]
            copied(room)
        (self.copy / CHECKED).mkdir(parents=True, exist_ok=True)
        # What a round checked is kept for the next.
        self.parts = (*SOURCES, CHECKED)
        self.refused, self.let_through, self.failed = set(), set(), []

    def check(self, functions):
        """Checks these functions of the copy."""
        only = [word for it in functions for word in ("--only", it.partition("::")[2])]
        lines, seconds = check(self.copy, only, self.said, self.until, command(self.crate.name, self.jobs()))
        self.seconds, self.last = self.seconds + seconds, lines[-1] if lines else "it said nothing"
        self.errors = [line for line in lines if ": error[" in line]
        return read_said(self.crate, lines)

    def fail(self, edit, text):
        self.let_through.add(edit.name)
        self.failed.append(f"{self.crate.name}: {edit.name}: {text}")

    def rounds(self, edits):
        """Tries the edits side by side. Those that no clause is known to refuse are tried once more, each alone: the search
        doesn't try the goals of a function that calls one whose proof another mutant took away. What a check says of a function
        comes at its end, so where the time may be up before, a round has fewer."""
        most = MOST if self.until < float("inf") else float("inf")
        rounds, alone, seen, number = side_by_side(edits, most), [], set(), 0
        while rounds or alone:
            number += 1
            these, start = rounds.pop(0) if rounds else [alone.pop(0)], time.monotonic()
            self.say(f"round {number} of {number + len(rounds) + len(alone)}, {len(these)} side by side")
            left = self.round(these, seen)
            alone += left
            seen |= {edit.name for edit in left}
            self.say(f"round {number} took {time.monotonic() - start:.0f} s")

    def say(self, text):
        print(f"mutants: {self.crate.name}: {text}", flush=True)

    def round(self, edits, seen):
        """Tries edits that stand side by side. Returns those to try again."""
        lay(self.crate, self.copy, edits, self.parts)
        self.parts = SOURCES
        functions = [function for edit in edits for function in edit.functions]
        said = self.check([*functions, *(it for edit in edits for it in edit.modules(self.crate.name))])
        if edits[0].error:
            self.tell_error(edits[0])
            return []
        tried = {function: Tried(said.get(function, Said())) for function in functions}
        for it in tried.values():
            it.first()
        try:
            self.without_answers(tried)
        except TimeUp:
            # What the first check said stands.
            for edit in edits:
                self.is_amiss(edit, said) or self.report(edit, tried, is_last=False)
            raise
        return [edit for edit in edits if not (self.is_amiss(edit, said) or self.report(edit, tried, edit.name in seen))]

    def tell_error(self, edit):
        """Says whether the language refuses a mutant, which was tried alone, by the error that it names, and by no other."""
        others = [it for it in self.errors if f": error[{edit.error}]: " not in it]
        if others or not self.errors:
            self.fail(edit, f"another error: {others[0][:160]}" if others else f"no error: {self.last[:160]}")
            return
        print(f"{self.crate.name}: {edit.name}: error: {edit.error}", flush=True)
        self.refused.add(edit.name)

    def is_amiss(self, edit, said):
        """Says whether nothing was tried with a mutant, or what it adds isn't proved."""
        if not said:
            self.fail(edit, f"no function was tried: {self.last[:160]}")
        for module in edit.modules(self.crate.name):
            added = {function: it.verdict for function, it in said.items() if function.startswith(f"{module}::")}
            if bad := [function for function, verdict in added.items() if not WELL.match(verdict)] or [module][: not added]:
                self.fail(edit, f"{bad[0]}, which it adds: {added.get(bad[0], 'no such function')}")
        return edit.name in self.let_through

    def without_answers(self, tried):
        """Tries those once more of which no clause is known to be open, without the answers that don't fit."""
        unknown = [function for function, it in tried.items() if not it.open and clauses(it.said.answered)]
        for function in unknown:
            file = answers_of(self.copy, function)
            if file.is_file():
                file.write_text(without(file.read_text(encoding="utf-8"), tried[function].said.answered), encoding="utf-8")
        for function, said in self.check(unknown).items() if unknown else ():
            if function in unknown:
                tried[function].again(said)

    def report(self, edit, tried, is_last):
        """Says which clauses a mutant leaves open. Returns whether it is done with."""
        for function in edit.functions:
            if not tried[function].open:
                if is_last:
                    self.fail(edit, f"{function}: no clause is known to be open: {tried[function].why_not()}")
                return is_last
        lone = lambda function: lone_clause(self.crate, function)
        open_of = lambda function: ", ".join(sorted({clause(goal, lone(function)) for goal in tried[function].open}))
        words = "; ".join(f"{function.rpartition('::')[2]}: {open_of(function)}" for function in edit.functions)
        print(f"{self.crate.name}: {edit.name}: {words}", flush=True)
        self.refused.add(edit.name)
        return True


@dataclass
class Count:
    """How many mutants were refused, how many are left since the time was up, how many stay as they are on record, the
    processor seconds, and what failed."""

    refused: int = 0
    skipped: int = 0
    kept: int = 0
    seconds: float = 0.0
    failed: list = field(default_factory=list)

    def add(self, other):
        self.refused, self.skipped, self.kept = self.refused + other.refused, self.skipped + other.skipped, self.kept + other.kept
        self.seconds, self.failed = self.seconds + other.seconds, self.failed + other.failed


class Trial:
    """The mutants of a crate that are to be tried, in stages, of which the first come before those of other crates too."""

    def __init__(self, crate, given, until):
        self.crate, self.given, self.until = crate, given, until
        self.edits, self.stages, self.sums, self.tried, self.room, self.is_up = [], [], {}, None, None, False
        self.count = Count()
        try:
            self.edits = edits_of(crate)
            self.sums = record.Repository().sums(crate.name, self.edits)
        except (BadEdit, OSError) as why:
            self.count.failed.append(f"{crate.name}: {why}")
            return
        self.recorded = record.read(crate, record.logic())
        all_at_once = [[*self.sums]] if given.all or given.only else None
        for names in all_at_once or record.stages(self.sums, self.recorded, record.commit()):
            self.stages.append([it for it in self.edits if it.name in names and given.only in it.name])
        self.these = [edit for stage in self.stages for edit in stage]
        self.count.kept = 0 if given.only else len(self.edits) - len(self.these)
        if given.list:
            print("\n".join(f"{crate.name}: {edit.name}" for edit in self.these))
        elif self.count.kept and self.these:
            what = f"{self.count.kept} of {len(self.edits)} are on record, with all that they rest on as it was"
            print(f"mutants: {crate.name}: {what}", flush=True)

    def run(self, stage, jobs):
        """Tries the mutants of a stage, each check with as many processes as the call says."""
        try:
            if self.tried is None and not self.is_up:
                self.room = tempfile.TemporaryDirectory(prefix="mutants-")
                self.tried = Crate(self.crate, Path(self.room.name), self.given, self.until, jobs)
            if not self.is_up:
                self.tried.rounds(self.stages[stage])
        except TimeUp:
            self.is_up = True

    def ended(self):
        """Names those that are left, and puts those on record that a clause refused. Returns what is counted."""
        if self.is_up:
            done = self.tried.refused | self.tried.let_through if self.tried else set()
            left = sorted({edit.name for edit in self.these} - done)
            self.count.skipped = len(left)
            what = f"{len(left)} of {len(self.edits)}, since the time was up: {', '.join(left)}"
            print(f"mutants: SKIPPED: {self.crate.name}: {what}", flush=True)
        if it := self.tried:
            self.count.add(Count(len(it.refused), 0, 0, it.seconds, it.failed))
            known = {name for name, sum in self.recorded.items() if self.sums.get(name) == sum} - it.let_through | it.refused
            record.write(self.crate, record.logic(), {name: self.sums[name] for name in known})
        if self.room:
            self.room.cleanup()
        return self.count


def lowest_first():
    """The crates with mutants, each after those that it uses."""
    lines = (ROOT / "crates.txt").read_text(encoding="utf-8").splitlines()
    crates = [ROOT / "crates" / re.split(r"[ :]", line)[0] for line in lines if line.strip()]
    return [it for it in crates if any((it / folder).is_dir() for folder in EDITS)]


def main():
    words = argparse.ArgumentParser(description="Tries mutants: each has to leave a clause open.")
    words.add_argument("crates", nargs="*", metavar="CRATE")
    words.add_argument("--all", action="store_true", help="tries those too that are on record as refused")
    words.add_argument("--list", action="store_true", help="names the mutants that it would try, and tries none")
    words.add_argument("--only", default="", metavar="WORD", help="tries the mutants with this in their names")
    words.add_argument("--minutes", type=float, default=float("inf"), metavar="N", help="skips what isn't done by then")
    words.add_argument("--said", type=Path, metavar="FOLDER", help="leaves what the checks said there")
    given = words.parse_args()
    crates = lowest_first()
    if unknown := set(given.crates) - {it.name for it in crates}:
        words.error(f"no mutants of {', '.join(sorted(unknown))}")
    crates = [it for it in crates if not given.crates or it.name in given.crates]
    if given.said:
        given.said.mkdir(parents=True, exist_ok=True)
    until = time.monotonic() + 60 * given.minutes
    trials = [Trial(it, given, until) for it in crates]
    if not given.list:
        turns = [(stage, -len(edits), it) for it in trials for stage, edits in enumerate(it.stages) if edits]
        turns.sort(key=lambda it: it[:2])
        in_turn([(it, stage) for stage, _, it in turns], at_once(OF_MEMORY), os.cpu_count() or 1)
    count = Count()
    for it in trials:
        count.add(it.count if given.list else it.ended())
    for failure in count.failed:
        print(f"mutants: FAILED: {failure}")
    if given.list:
        return 1 if count.failed else 0
    print(f"mutants: {count.seconds / 60:.1f} processor minutes")
    print(f"mutants: {count.refused} refused by a clause, {len(count.failed)} not, {count.kept} on record")
    print(f"{count.refused} passed, {len(count.failed)} failed, {count.skipped} skipped")
    return 1 if count.failed or not count.refused + count.skipped else 0


if __name__ == "__main__":
    sys.exit(main())
