#!/usr/bin/env python3
"""Runs the first lines of README on a copy of the repository, in an environment with HOME and PATH alone.

    tests/first_minute.py

Its last line is 'N passed, M failed'. What fails is named with what was seen.
"""

import os
import re
import shutil
import subprocess
import sys
import tempfile
import time
from pathlib import Path

ROOT = Path(__file__).resolve().parent.parent
FIRST_LINES = re.compile(r"^```sh\n(.*?)^```", re.M | re.S)
# What the copy leaves out: what was built.
BUILT = shutil.ignore_patterns(".git", "out", "target", "build", "__pycache__")
# A later run only starts the program, so it takes no longer than this.
QUICK = 5


def run(words, folder, path=os.environ["PATH"]):
    """Runs a command in the empty environment, and returns its status, what it printed, and how long it took."""
    began = time.monotonic()
    env = {"HOME": os.environ.get("HOME", "/"), "PATH": path}
    ran = subprocess.run(words, cwd=folder, env=env, stdin=subprocess.DEVNULL, capture_output=True, text=True)
    return ran.returncode, ran.stdout, ran.stderr, time.monotonic() - began


def holds(is_so, what, seen):
    if not is_so:
        print(f"first_minute: FAILED: {what}: {seen}", flush=True)
    return is_so


def missing_rt(copy, when="without rt"):
    """Without rt, the script says what is missing and which page helps."""
    status, printed, said = without_rt(copy)
    return holds((status, printed) == (6, "") and said.startswith("range_calc: rt, ") and "README.md" in said, when, said)


def without_rt(copy):
    folders = [it for it in os.environ["PATH"].split(":") if it and not Path(it, "rt").exists()]
    return run(["./range_calc", "union", "0,10", "20"], copy, ":".join(folders))[:3]


def another_source(copy):
    """What was built stands for its sources alone, also where one comes with an older time."""
    status, printed, errors = without_rt(copy)
    yield holds((status, printed) == (0, "0,10,20\n"), "what was built runs without rt", (status, printed, errors))
    source = copy / "crates/range_merge/src/lib.rt"
    shutil.copy2(source, copy / "older")
    shutil.copy2(copy / "older", source)
    yield missing_rt(copy, "a source written anew with its old time")


def first_lines(copy):
    """Each line of the first block does what the comment behind it says."""
    clone, calc, tests = FIRST_LINES.search((ROOT / "README.md").read_text(encoding="utf-8"))[1].splitlines()
    yield holds(clone.startswith("git clone "), "the first line", clone)
    command, _, said = calc.partition("#")
    words, expected = command.split(), re.search(r"prints (\S+?)[:;. ]", said + " ")[1] + "\n"
    status, printed, errors, seconds = run(words, copy)
    yield holds((status, printed) == (0, expected) and " built in " in errors, "the first time", (status, printed, errors))
    status, printed, errors, seconds = run(words, copy)
    seen = status, printed, errors
    yield holds(seen == (0, expected, "") and seconds < QUICK, "the second time", (*seen, seconds))
    status, printed, *_ = run([words[0], "contains", "3,2", "1"], copy)
    yield holds((status, printed) == (3, "not strictly sorted\n"), "words that are refused", (status, printed))
    yield from another_source(copy)
    # One part stands for all of them, since these tests are a part too.
    status, printed, errors, _ = run([tests.split()[0], "pages"], copy)
    yield holds(status == 0 and re.search(r"\b0 failed", printed), tests, (status, printed[-300:], errors))


def first_minute():
    """Whether each holds."""
    with tempfile.TemporaryDirectory(prefix="first-minute-") as room:
        copy = Path(room, "daleribbon")
        shutil.copytree(ROOT, copy, ignore=BUILT, symlinks=True)
        held = [missing_rt(copy), *map(bool, first_lines(copy))]
    print(f"first_minute: {sum(held)} of {len(held)} hold", flush=True)
    return held


def main():
    held = first_minute()
    print(f"{sum(held)} passed, {len(held) - sum(held)} failed")
    return 0 if all(held) else 1


if __name__ == "__main__":
    sys.exit(main())
