#!/usr/bin/env python3
"""Runs the programs on their rows: words and input, the status, and what they write; and range_rows on its tables.

    tests/programs.py             before any proof: each program is compiled with checks, once; then README's first lines
    tests/programs.py --built     as 'rt ci' built them, by each compiler; then also into an output that fails, and on a
                                  table with a row that doesn't hold

Its last line is 'N passed, M failed', of rows and tables. A row that fails is named with what was seen.
"""

import re
import shutil
import subprocess
import sys
import tempfile
from dataclasses import dataclass
from pathlib import Path

from first_minute import first_minute

ROOT = Path(__file__).resolve().parent.parent
# How 'rt ci' names what each compiler makes of a program.
ENDINGS = ("", ".by-rattle")
CASE = re.compile(r"^case=(\S+) run=(\S+) status=(\d+) .* output=(\S+)", re.M)


@dataclass
class Row:
    """What a program is given, the status that it ends with, and what it writes."""

    words: list
    status: int
    written: str
    given: str = ""


# The rows of range_calc: its words, the status, its line.
CALC = [
    Row(words, status, line + "\n")
    for words, status, line in [
        ([], 0, "0,10,20"),
        (["union", "0,10", "20"], 0, "0,10,20"),
        (["contains", "0,10", "5"], 0, "true"),
        (["intersection", "0,5", "-"], 0, "-"),
        (["union", "1"], 2, "bad words"),
        (["UNION", "1", "2"], 2, "bad words"),
        ([""], 2, "bad words"),
        (["union", "3,2", "1"], 3, "not strictly sorted"),
        (["json", "{}"], 4, "bad json"),
        (["json", "[1,"], 4, "bad json"),
    ]
]
# The rows of range_track: its limit, the status, the lines that it reads, and those that it writes.
MOST = 2**64 - 1
TRACK = [
    Row(words, status, written, given)
    for words, status, given, written in [
        (["4"], 0, "", ""),
        (["4"], 0, "+ 0 10\nranges\n", "ok\n0..10\n"),
        (["4"], 0, "+ 0 10\nranges", "ok\n0..10\n"),
        (["0"], 0, "+ 0 10\n", "too many 2\n"),
        ([f"{MOST - 2}"], 0, f"+ 0 {MOST}\nmissing {MOST}\n", "ok\n-\n"),
        ([f"{MOST - 1}"], 2, "+ 0 10\n", "bad limit\n"),
        ([f"{MOST + 1}"], 2, "+ 0 10\n", "bad limit\n"),
        (["x"], 2, "+ 0 10\n", "bad limit\n"),
        ([""], 2, "+ 0 10\n", "bad limit\n"),
        (["-1"], 2, "+ 0 10\n", "bad limit\n"),
        (["\udcff"], 2, "+ 0 10\n", "bad limit\n"),
        (["4", "4"], 2, "+ 0 10\n", "bad limit\n"),
        ([], 0, "+ 0 10\n? 0 10\n", "ok\ntrue\n"),
    ]
]
# The tables of range_rows.
TABLES = ROOT / "crates/range_rows/data"
PROGRAMS = {"range_calc": CALC, "range_track": TRACK}


def report(name, row, seen):
    """Says what was seen of a row that failed."""
    print(f"programs: FAILED: {name} {row.words!r} on {row.given!r}: {seen}", flush=True)
    return False


def before_proof(name, rows):
    """Whether each row holds, of the program compiled with checks. It is compiled once, and each row is a case."""
    with tempfile.TemporaryDirectory(prefix="programs-") as room:
        cases = Path(room)
        for number, row in enumerate(rows):
            (cases / f"row{number}").write_text(row.given, encoding="utf-8")
            (cases / f"row{number}.stdout").write_text(row.written, encoding="utf-8")
            if row.words:
                words = "".join(f"{word}\n" for word in row.words)
                (cases / f"row{number}.args").write_bytes(words.encode(errors="surrogateescape"))
        ran = subprocess.run(["rt", "try", "--cases", room], cwd=ROOT / "crates" / name, stdin=subprocess.DEVNULL,
                             stdout=subprocess.PIPE, stderr=subprocess.STDOUT, text=True, errors="replace")
    seen = {case: (run, int(status), output) for case, run, status, output in CASE.findall(ran.stdout)}
    held = []
    for number, row in enumerate(rows):
        found = seen.get(f"row{number}", "no answer")
        held.append(found == ("ended", row.status, "expected") or report(name, row, found))
    if not all(held):
        print(ran.stdout[-3000:])
    return held


def built(name, rows):
    """Whether each row holds of the programs that 'rt ci' built, and each ends with 5 where its output fails."""
    programs = [it for ending in ENDINGS if (it := ROOT / "crates" / name / "out" / f"{name}{ending}").is_file()]
    if not programs:
        print(f"programs: FAILED: 'rt ci' has built no {name}")
        return [False]
    held = []
    for program in programs:
        for row in rows:
            words = [program, *row.words]
            ran = subprocess.run(words, input=row.given.encode(), capture_output=True, timeout=60)
            seen = ran.returncode, ran.stdout.decode(errors="replace")
            held.append(seen == (row.status, row.written) or report(program.name, row, seen))
        for words in (rows[1].words, ["x"]):
            with open("/dev/full", "wb") as full:
                status = subprocess.run([program, *words], input=rows[1].given.encode(), stdout=full, stderr=full, timeout=60).returncode
            held.append(status == 5 or report(program.name, Row(words, 5, ""), f"into a full output it ended with {status}"))
    return held


def tables_before_proof():
    """Whether each table of range_rows holds, of the program compiled with checks."""
    data = [word for file in sorted(TABLES.iterdir()) for word in ("--data", f"{file.name}=data/{file.name}")]
    ran = subprocess.run(["rt", "try", *data], cwd=TABLES.parent, stdin=subprocess.DEVNULL,
                         stdout=subprocess.PIPE, stderr=subprocess.STDOUT, text=True, errors="replace")
    return tables_hold("range_rows", ran.returncode, ran.stdout)


def tables_built():
    """Whether each table holds of the programs that 'rt ci' built, and each program sees a row that doesn't."""
    programs = [it for ending in ENDINGS if (it := TABLES.parent / f"out/range_rows{ending}").is_file()]
    if not programs:
        print("programs: FAILED: 'rt ci' has built no range_rows")
        return [False]
    held = []
    for program in programs:
        ran = subprocess.run([program], cwd=TABLES, capture_output=True, text=True, timeout=60)
        held += tables_hold(program.name, ran.returncode, ran.stdout)
        with tempfile.TemporaryDirectory(prefix="programs-") as room:
            changed = shutil.copytree(TABLES, Path(room) / "data")
            with (changed / "contains.txt").open("a", encoding="utf-8") as file:
                file.write("0,10 10 = true 2\n")
            number = len((changed / "contains.txt").read_text(encoding="utf-8").splitlines())
            ran = subprocess.run([program], cwd=changed, capture_output=True, text=True, timeout=60)
            seen = ran.returncode, f"contains.txt:{number}: 0,10 10 = true 2\n" in ran.stdout
            held.append(seen == (1, True) or report(program.name, Row([], 1, ""), f"on a row that doesn't hold: {seen}"))
    return held


def tables_hold(name, status, written):
    """Whether each line of what range_rows should write is there, and the status is 0."""
    wanted = (TABLES.parent / "stdout").read_text(encoding="utf-8").splitlines()
    found = {*written.splitlines()}
    held = [line in found or report(name, Row([], 0, line), f"no line {line!r}") for line in wanted]
    return [*held, status == 0 or report(name, Row([], 0, ""), f"status {status}: {written[-3000:]}")]


def main(words):
    run = built if words == ["--built"] else before_proof
    held = tables_built() if run is built else tables_before_proof()
    print(f"programs: range_rows: {sum(held)} of {len(held)} tables hold", flush=True)
    for name, rows in PROGRAMS.items():
        found = run(name, rows)
        print(f"programs: {name}: {sum(found)} of {len(found)} rows hold", flush=True)
        held += found
    held += first_minute() if run is before_proof else []
    print(f"{sum(held)} passed, {len(held) - sum(held)} failed")
    return 0 if all(held) else 1


if __name__ == "__main__":
    sys.exit(main(sys.argv[1:]))
