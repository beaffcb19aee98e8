#!/usr/bin/env python3
"""What rattle wants to check or build a crate over the libraries that 'rt ci' built.

'rt ci' leaves each library in crates/NAME/out/rlib, as its statements alone and without the stamp by
which rt knows its own. So 'rt check' and 'rt lib' prove each of them again. rattle itself, with these
words, takes them as they are. A library fits if it was put there after all that it was made of.

    tests/built.py CRATE ARCHIVE

proves and builds a static library so, or by 'rt lib' if a library below it doesn't fit.
"""

import os
import re
import shutil
import subprocess
import sys
from functools import cache
from pathlib import Path

ROOT = Path(__file__).resolve().parent.parent
# What a crate is made of, where what was built of it lies, and where checks keep their work.
SOURCES, BUILT, CHECKED = ("src", "specs", "proofs"), "out/rlib", "out/incremental"


@cache
def kit():
    """The folder of the toolchain, which has the page that 'rt doc' names."""
    said = subprocess.run(["rt", "doc"], capture_output=True, text=True, check=True)
    return Path(said.stdout.strip()).parent


@cache
def listed(root=ROOT):
    """The libraries that each crate of crates.txt names."""
    lines = (root / "crates.txt").read_text(encoding="utf-8").splitlines()
    rows = (line.partition("#")[0].partition(":") for line in lines)
    return {crate.split()[0]: uses.split() for crate, _, uses in rows if crate.strip()}


def below(name, root=ROOT):
    """The repository's libraries below a crate, each after those that it uses."""
    found = []
    for it in listed(root)[name]:
        if it in listed(root):
            found += [low for low in (*below(it, root), it) if low not in found]
    return found


def library(name, root=ROOT):
    return root / "crates" / name / BUILT / f"{name}.rlib"


def put_at(name, root=ROOT):
    """When a library was put where it lies. The files of one that 'rt ci' kept are links to those of
    an earlier run, and as old as they are, so its folder tells."""
    return library(name, root).stat().st_mtime_ns


def built_by(rlib):
    """The line of a library that says which rattle built it."""
    return re.search(r"^rattle-build .*$", (rlib / "format").read_text(encoding="utf-8"), re.M)[0]


def fits(name, root=ROOT):
    """Whether 'rt ci' built a library, with the toolchain of today, of what lies there. One with a
    stamp is rt's, which looks itself."""
    rlib = library(name, root)
    if not (rlib / "format").is_file() or (rlib.parent / "stamp").exists():
        return False
    files = [it for part in SOURCES for it in (root / "crates" / name / part).rglob("*")]
    when = [it.stat().st_mtime_ns for it in [*files, root / "crates.txt"]]
    when += [put_at(it, root) for it in below(name, root)]
    return max(when) <= put_at(name, root) and built_by(rlib) == built_by(kit() / "rlibs/std.rlib")


def all_fit(name, root=ROOT):
    """Whether each library below a crate fits."""
    return all(fits(it, root) for it in below(name, root))


def words(name, *more, jobs=1, root=ROOT):
    """What 'rattle check' and 'rattle build' want, in the crate's folder or a copy of it: the
    libraries are those of the root."""
    of_kit = ["std", *(it for it in listed(root)[name] if it not in listed(root))]
    own = [it for it in listed(root)[name] if it in listed(root)]
    rlibs, top = kit() / "rlibs", "main" if (root / "crates" / name / "src/main.rt").is_file() else "lib"
    given = ["--crate-name", name, f"src/{top}.rt"]
    for it, at in [(it, rlibs / f"{it}.rlib") for it in of_kit] + [(it, library(it, root)) for it in own]:
        given += ["--extern", f"{it}={at}"]
    for at in [rlibs, *(library(it, root).parent for it in below(name, root))]:
        given += ["-L", f"dependency={at}"]
    given += ["--antt-project", f"{kit()}/rattle/logic/antt-project.json", "--logic-built", f"{kit()}/logic_built"]
    given += ["--jobs", str(jobs), "--links", f"{name}="]
    if re.search(rf"^{name} +staticlib\b", (root / "crates.txt").read_text(encoding="utf-8"), re.M):
        given += ["--crate-type", "staticlib"]
    return [*given, *more]


def rattle(verb, name, *more, jobs=1, root=ROOT):
    """The whole command, by its verb."""
    return [f"{kit()}/bin/rattle", verb, *words(name, *more, jobs=jobs, root=root)]


def build(name, archive):
    """Proves a static library and builds it, over what 'rt ci' built if that fits. Returns its status."""
    folder = ROOT / "crates" / name
    how = {"stdin": subprocess.DEVNULL, "check": False}
    if all_fit(name):
        (folder / CHECKED).mkdir(parents=True, exist_ok=True)
        more = ["--toolchain", f"{kit()}/toolchain", "--backend", "llvm", "--incremental", CHECKED]
        jobs = len(os.sched_getaffinity(0))
        return subprocess.run(rattle("build", name, *more, "-o", archive, jobs=jobs), cwd=folder, **how).returncode
    print(f"built: 'rt ci' built no libraries below {name} of what lies here, so 'rt lib' proves them too", flush=True)
    made = folder / "out" / f"lib{name}.a"
    made.unlink(missing_ok=True)
    status = subprocess.run(["rt", "lib"], cwd=folder, **how).returncode
    if status == 0 and made != archive:
        shutil.copyfile(made, archive)
    return status


if __name__ == "__main__":
    if len(sys.argv) != 3 or sys.argv[1] not in listed():
        sys.exit(f"built: it wants a crate of crates.txt and where to write its archive\n{__doc__}")
    sys.exit(build(sys.argv[1], Path(sys.argv[2]).resolve()))
