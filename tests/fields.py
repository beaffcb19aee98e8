#!/usr/bin/env python3
"""Finds fields of definitions that nothing notices. A field of a record that a public contract names is read by the proof of
a law, or is what a mutant names as refusing it; or else it is taken away here, and a law, a mutant or a proof must fail.

    tests/fields.py                    takes away each field that no law's proof reads and no mutant names
    tests/fields.py --list             lists all fields and what is known to notice each, without a check
    tests/fields.py --crate CRATE      takes away, or lists, those of one crate
    tests/fields.py RECORD[.FIELD]..   takes away these fields, or all of a record, whether or not they are read

The parts of a definition that is no record are taken as fields, by their numbers through its equations: of a product each
that brings no name, of an equivalence each direction. IsRefusal.3 is the first of the second equation. 'Unit' stands where a
part was, at which a proof that gives it fails for no reason: of a part only what the search doesn't prove counts.

A law's proof reads a field where it, or a lemma that it cites, has '.FIELD' beside a word of the record. A mutant names the
field that refuses it by a line 'field: RECORD.FIELD'. A field is noticed, in its own crate, where another field of the record
names it in its type, and else where something fails because it is gone. Many fields are gone at once, so that counts only if
nothing else can be why:

- a clause of a law, whose words lead to no other record with a field gone, isn't proved by the search;
- a function isn't proved, since its proof, or a lemma that it cites, reads that very field;
- a law that failed, or a mutant that went through, without all fields of the crate that are left does so without this one;
- any function isn't proved without this one.

Where a proof gives a record of all its fields, the one that is gone is left out there, too. It begins with what 'rt check'
kept in crates/*/out. All fields take about an hour beside other work.
"""

import argparse
import os
import queue
import re
import sys
import tempfile
from concurrent.futures import ThreadPoolExecutor
from pathlib import Path

import mutants
from definitions import CRATES, FUNCTION, NAME, Definitions, fields_of, known, laws, lemmas
from definitions import named_by_mutants, public, sources, text_of, words_of
from edits import edits_of

PROVED = re.compile(r"proved|no holes")
# What a check says of a proof that reads a field which is gone.
UNREAD = re.compile(
    r"(?:note: )?(?:\./)?(proofs/\S+\.antt):(\d+):(\d+): error: `([^`]+)`: "
    r".*?record `(?:[^`]*\.)?([^`.]+)` has no field `([^`]+)`"
)
# What a check says of a record that a proof gives without a field which isn't gone, since it has the same fields as another.
MISSING = re.compile(r"(?:note: )?(?:\./)?(proofs/\S+\.antt):(\d+):\d+: error: .*?missing field\(s\) of `(?:[^`]*\.)?([^`.]+)`")
# What it says of proofs that rest on one which isn't admitted.
DEPENDS = re.compile(r"error: \d+ declarations? that depends? on `([^`]+)`, which was [^:]*: (.*)")
VIA = re.compile(r" \(via [^)]*\)| and \d+ more")
# How many crates are tried at once, and how many processors each check takes.
AT_ONCE = 2
JOBS = str(max((os.cpu_count() or 1) // AT_ONCE, 1))


def without(text, names, gone, kept):
    """A proof file in which no record with just these fields is given those that are gone, but for those in some lines."""
    for start in reversed([at.end() for at in re.finditer(r"record \{", text)]):
        depth, entries, begun = 0, [], start
        for end in range(start, len(text)):
            depth += (text[end] in "({[") - (text[end] in ")}]")
            if depth < 0 or (depth == 0 and text[end] == ";"):
                entries.append((begun, min(end + 1, len(text)) if depth == 0 else end))
                begun = end + 1
            if depth < 0:
                break
        given = {at[1]: entry for entry in entries if (at := re.match(rf"\s*({NAME})[^=:]*[=:]", text[slice(*entry)]))}
        if set(given) == set(names) and text.count("\n", 0, start) + 1 not in kept:
            for first, last in sorted((given[it] for it in gone), reverse=True):
                text = text[:first] + "\n" * text.count("\n", first, last) + text[last:]
    return text


class Trial:
    """A copy of all crates, in which fields are taken away."""

    def __init__(self, definitions, room):
        self.definitions, self.room, self.lemmas = definitions, room, lemmas()
        # Of which record something is that is given just the fields of another: by crate, file and line.
        self.others = {}
        room.mkdir()
        mutants.copied(room)

    def lay(self, gone, edits):
        """Lays the crate of these fields into the copy without them, and with these edits."""
        crate = gone[0].record.crate
        copy, records = self.room / "crates" / crate, {}
        # Of the directions of an equivalence, which stand in one place, one goes.
        mutants.lay(CRATES / crate, copy, [*{it.place: it for it in gone}.values(), *edits])
        for it in gone:
            records.setdefault(it.name, (it.record.fields, set()))[1].add(it.field)
        for file in copy.glob("proofs/**/*.antt"):
            text = text_of(file)
            for name, (fields, taken) in records.items():
                others = {line for (at, line), of in self.others.items() if at == file and of != name}
                text = without(text, fields, taken, others)
            file.write_text(text, encoding="utf-8")
        return copy

    def check(self, gone, functions=(), edits=()):
        """What a check without these fields says of these functions, or of all, and its lines. Where it shows that something
        was a record of another name, with the same fields, it is made whole, and checked again."""
        only, known = [word for it in functions for word in ("--only", it)], None
        while known != len(self.others):
            known, copy = len(self.others), self.lay(gone, edits)
            (copy / mutants.CHECKED).mkdir(parents=True, exist_ok=True)
            lines, _ = mutants.check(copy, only, self.room / "said.txt", command=mutants.command(copy.name, JOBS))
            for at in filter(None, map(MISSING.match, lines)):
                self.others.setdefault((copy / at[1], int(at[2])), at[3])
        said = mutants.read_said(copy, lines)
        if (missing := set(functions) - paths(said)) or not said:
            raise LookupError(f"the check says nothing of {', '.join(sorted(missing))}:\n" + "\n".join(lines[-20:]))
        return said, lines

    def by_laws(self, gone):
        """Takes fields of some records away at once. Returns the laws that notice each: the search doesn't prove a clause
        then, whose words lead to that record alone of these."""
        found, of = {}, {law.path: law.clauses for law in laws() if law.crate == gone[0].record.crate}
        reached = lambda text: [it for it in gone if it.name in self.definitions.of(words_of(text))]
        if not (naming := sorted(path for path, clauses in of.items() if reached("".join(clauses.values())))):
            return found
        said, _ = self.check(gone, naming)
        for path in naming:
            it = said[f"{gone[0].record.crate}::{path}"]
            for goal in () if is_well(it) else it.searched - it.answered.keys():
                text = of[path].get(goal.removeprefix("returns-clause-")) or "".join(of[path].values())
                if len(noticed := reached(text)) == 1:
                    found.setdefault(str(noticed[0]), []).append(path)
        return found

    def readers(self, gone):
        """Takes fields of one crate away at once. Returns the functions whose proofs read each, laws first."""
        copy, found = self.room / "crates" / gone[0].record.crate, {str(it): [] for it in gone}
        if not (functions := self.may_read(gone)):
            return found
        said, lines = self.check(gone, functions)
        reads = lambda at: {f"{at[5]}.{at[6]}"} & found.keys() if self.is_read(copy, at) else set()
        broken, resting = {}, [(at[1], VIA.sub("", at[2]).split(", ")) for at in filter(None, map(DEPENDS.search, lines))]
        for at in filter(None, map(UNREAD.match, lines)):
            broken.setdefault(at[4], set()).update(reads(at))
        for _ in resting:
            for lemma, names in resting:
                for name in names:
                    broken.setdefault(name, set()).update(broken.get(lemma, ()))
        for function, it in said.items():
            if not is_well(it):
                words = "\n".join(word for answers in it.answered.values() for word in answers)
                read = set().union(*map(reads, UNREAD.finditer(words)))
                for name in read.union(*(broken.get(lemma, ()) for lemma, _ in DEPENDS.findall(words))):
                    found[name].append(function.partition("::")[2])
        return {name: sorted(functions, key=is_no_law) for name, functions in found.items()}

    def is_read(self, copy, at):
        """Whether what a check says of a field is said of '.FIELD', and not of a record that is given it."""
        return text_of(copy / at[1]).splitlines()[int(at[2]) - 1].startswith(f".{at[6]}", int(at[3]) - 1)

    def may_read(self, gone):
        """The functions whose answers, or a lemma that they cite, read a field of such a name."""
        read = re.compile(rf"\.({'|'.join(sorted({it.field for it in gone}))})\b")
        reads = {name for name, text in self.lemmas.items() if read.search(text)}
        answers = ((path_of(file), text_of(file)) for file in (CRATES / gone[0].record.crate / "proofs").glob("**/Answers.antt"))
        return sorted(path for path, text in answers if read.search(text) or reads & self.cited(words_of(text)))

    def cited(self, words):
        """The lemmas that these words name, and those that they cite, directly or not."""
        found, left = set(), words & self.lemmas.keys()
        while left:
            found.add(lemma := left.pop())
            left |= (words_of(self.lemmas[lemma]) & self.lemmas.keys()) - found
        return found

    def suspects(self, gone):
        """Takes fields of one crate away at once. Returns the laws that aren't proved then, and the mutants that are."""
        crate, found = gone[0].record.crate, []
        naming = set().union(*(self.naming(name, crate) for name in {it.name for it in gone}))
        laws = {it for it in naming if not is_no_law(it)}
        edits = [it for it in edits_of(CRATES / crate) if not it.error and paths(it.functions) <= naming]
        rounds = mutants.side_by_side(edits)
        if laws:
            said, _ = self.check(gone, sorted(laws))
            laws = {it for it in laws if not is_well(said[f"{crate}::{it}"])}
        while rounds:
            edits, again = rounds.pop(0), []
            said, _ = self.check(gone, functions_of(edits), edits)
            for edit in edits:
                if all(PROVED.match(said[it].verdict) for it in edit.functions):
                    found.append(edit)
                # It may call a function whose proof another mutant took away.
                elif all(is_well(said[it]) for it in edit.functions):
                    again.append(edit)
            if len(again) < len(edits):
                rounds += [again] if again else []
            else:
                found += again
        return laws, found

    def noticed(self, gone, laws, edits):
        """Which of the laws and mutants that name the record notice that one field is gone, if any does."""
        naming = self.naming(gone.name, gone.record.crate)
        laws, edits = laws & naming, [it for it in edits if paths(it.functions) <= naming]
        rounds = mutants.side_by_side(edits) or ([[]] if laws else [])
        while rounds:
            these = rounds.pop(0)
            said, _ = self.check([gone], sorted({*laws, *functions_of(these)}), these)
            if failed := [it for it in sorted(laws) if is_missed(gone, said[f"{gone.record.crate}::{it}"])]:
                return named(failed[0])
            for edit in these:
                if all(PROVED.match(said[it].verdict) for it in edit.functions):
                    return f"the mutant `{edit.name}`"
            # One may call a function whose proof another took away.
            if len(these) > 1:
                rounds += [[it] for it in these if all(is_well(said[of]) for of in it.functions)]
        return None

    def whole(self, gone):
        """The first function that isn't proved without the field, and a law if there is one."""
        said, _ = self.check([gone])
        found = sorted((it.partition("::")[2] for it in said if is_missed(gone, said[it])), key=is_no_law)
        return named(found[0]) if found else None

    def naming(self, name, crate):
        """The functions whose contracts name the record, by the paths of their proofs or of the mutants' lines."""
        known = paths(of for it in edits_of(CRATES / crate) for of in it.functions)
        known |= {path_of(file) for file in (CRATES / crate / "proofs").glob("**/Answers.antt")}
        known |= {law.path for law in laws() if law.crate == crate}
        functions = [at for of, _, text in sources() if of == crate for at in FUNCTION.finditer(text)]
        last = {at[3] for at in functions if name in self.definitions.of(words_of(at[4]))}
        return {it for it in known if it.rpartition("::")[2] in last}


def is_well(said):
    """Whether a function is proved, or would be if what it calls were."""
    return PROVED.match(said.verdict) or mutants.WELL.match(said.verdict)


def is_missed(gone, said):
    """Whether a function isn't proved for a reason of its own. Where an answer gives all parts, that one is gone is none."""
    return not is_well(said) and bool(not gone.is_part or said.searched - said.answered.keys())


def functions_of(edits):
    """The paths of the functions of mutants."""
    return sorted(paths(of for it in edits for of in it.functions))


def is_no_law(path):
    return not path.startswith("laws::")


def named(function):
    return f"the proof of `{function}`" if is_no_law(function) else f"the law `{function}`"


def apart(definitions, gone):
    """Parts the fields into rounds, in each of which they are of different records that don't lead to one another."""
    rounds, leads = [], lambda one, other: other.name in definitions.of({one.name})
    for it in gone:
        for others in rounds:
            if not any(leads(it, other) or leads(other, it) for other in others):
                others.append(it)
                break
        else:
            rounds.append([it])
    return rounds


def at_once(gone, kept):
    """Those of the fields that can go at once. A record that would have none left keeps its first or last, by a place."""
    going = {str(it) for it in gone}
    whole = {it.name for it in gone if 1 < len(it.record.fields) and all(f"{it.name}.{of}" in going for of in it.record.fields)}
    return [it for it in gone if it.name not in whole or it.field != list(it.record.fields)[kept]]


def paths(functions):
    """The paths of functions within their crate."""
    return {it.partition("::")[2] for it in functions}


def path_of(answers):
    """The path of the function whose answers a file has."""
    return "::".join(part.removeprefix("+") for part in answers.parent.relative_to(CRATES).parts[2:])


class Run:
    """Takes fields away, in as many copies at once as mutants are tried in."""

    def __init__(self, definitions, folder):
        self.definitions, self.rooms, self.noticed = definitions, queue.SimpleQueue(), 0
        for number in range(AT_ONCE):
            self.rooms.put(Trial(definitions, folder / str(number)))

    def within(self, ask, *given):
        """Asks in a copy of its own. Returns what is answered, and else why it can't be."""
        trial = self.rooms.get()
        try:
            return ask(trial, *given), None
        except LookupError as error:
            return None, error
        finally:
            self.rooms.put(trial)

    def say(self, it, by):
        self.noticed += 1
        print(f"fields: {it}: {by}", flush=True)

    def step(self, ask, gone, left):
        """Asks what notices these fields, takes those that something does from what is left, and returns whether any is."""
        answer, why = self.within(ask, gone)
        found = {it: answer[str(it)] for it in gone if answer and answer.get(str(it))}
        for it, functions in found.items():
            self.say(it, named(functions[0]))
            left.remove(it)
        print(f"fields: {gone[0].record.crate}: {len(gone)} were gone, {len(left)} are left {why or ''}", flush=True)
        return bool(found)

    def of_crate(self, gone):
        """Takes the fields of a crate away at once. Returns those that no law and no proof is known to notice, and the laws and
        mutants that may."""
        # No proof has a word of its own for a part.
        left, kept, more = [it for it in gone if not it.record.within(it.field)], 0, not gone[0].is_part
        for it in gone:
            if it not in left:
                self.say(it, f"the field `{it.record.within(it.field)}` of the same record")
        for these in apart(self.definitions, left):
            self.step(Trial.by_laws, these, left)
        while left and more:
            more, kept = self.step(Trial.readers, at_once(left, kept), left) or not kept, -1
        answer, why = self.within(Trial.suspects, at_once(left, 0)) if left else (None, None)
        if why:
            print(f"fields: {why}", flush=True)
        return [(it, *(answer or (set(), []))) for it in left]

    def all(self, tried):
        crates = {}
        for it in tried:
            crates.setdefault((it.record.crate, it.is_part), []).append(it)
        with ThreadPoolExecutor(AT_ONCE) as pool:
            left = [it for found in pool.map(self.of_crate, sorted(crates.values(), key=len, reverse=True)) for it in found]
            for ask in (Trial.noticed, lambda trial, it, *_: trial.whole(it)):
                asked, left = left, []
                for (it, *may), (by, why) in zip(asked, pool.map(lambda given: self.within(ask, *given), asked)):
                    if by:
                        self.say(it, by)
                    else:
                        print(f"fields: {it}: not yet known: {why}" if why else f"fields: {it}: not yet noticed", flush=True)
                        left.append((it, *may))
            for it, *_ in left:
                print(f"fields: FAILED: {it}: nothing is known to notice that it is gone", flush=True)


def main():
    words = argparse.ArgumentParser(description="Takes fields of definitions away: something has to notice.")
    words.add_argument("named", nargs="*", metavar="RECORD[.FIELD]")
    words.add_argument("--crate", default="", help="tries the fields of this crate alone")
    words.add_argument("--list", action="store_true", help="lists all, with what is known to notice each, without a check")
    given = words.parse_args()
    definitions = Definitions()
    every, by = fields_of(definitions, sorted(definitions.records)), known(definitions)
    if unknown := {*given.named, *map(".".join, named_by_mutants())} - {word for it in every for word in (it.name, str(it))}:
        words.error(f"no record or field {', '.join(sorted(unknown))}")
    if given.named:
        tried = [it for it in every if {it.name, str(it)} & set(given.named)]
    else:
        tried = [it for it in fields_of(definitions, sorted(public(definitions))) if given.list or it.key not in by]
    tried = [it for it in tried if given.crate in ("", it.record.crate)]
    if given.list:
        for it in tried:
            print(f"{it}{f', `{it.text()}`' if it.is_part else ''}: {by.get(it.key, 'nothing known')}")
        return 0
    with tempfile.TemporaryDirectory(prefix="fields-") as folder:
        run = Run(definitions, Path(folder))
        run.all(tried)
    print(f"{run.noticed} passed, {len(tried) - run.noticed} failed")
    return 1 if run.noticed < len(tried) else 0


if __name__ == "__main__":
    sys.exit(main())
