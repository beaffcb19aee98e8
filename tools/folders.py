#!/usr/bin/env python3
"""Writes how many files and lines each folder has into the table at the head of docs/ARCHITECTURE.md. The folders, their kinds and what
they hold are written there by hand; a file counts for the longest path that it lies below.

    tools/folders.py            writes the numbers
    tools/folders.py --check    says which are off by more than a sixth, and which files are in no folder of the table
"""

import os
import re
import sys
from fnmatch import fnmatch
from pathlib import Path

ROOT = Path(__file__).resolve().parent.parent
PAGE = ROOT / "docs" / "ARCHITECTURE.md"
# A row: a path, its files and lines, and what stands behind them.
ROW = re.compile(r"^([\w*/]+) +(\d+) +([\d,]+)  (.*)$", re.M)
# How the head of the table begins, and how its columns are written.
HEAD = "folder"
COLUMNS = "{:<21} {:>5} {:>7}  {}"
# Folders that hold what was built, and files without lines.
BUILT = {"out", "target", "build", "__pycache__", ".git"}
NO_TEXT = (".png", ".a", ".pyc")
# By how much numbers may be off before a check says so.
SHARE, LINES, FILES = 6, 500, 10


def files():
    """All files of the repository but what was built, by their paths from its top."""
    for folder, folders, names in os.walk(ROOT):
        folders[:] = [it for it in folders if it not in BUILT]
        yield from (str(Path(folder, it).relative_to(ROOT)) for it in names)


def rounded(number):
    """With two digits that count."""
    power = 10 ** max(0, len(str(number)) - 2)
    return round(number / power) * power


def counted(folders, paths):
    """The files and the lines of each folder, and the files that lie in none."""
    found, others = {it: [0, 0] for it in folders}, []
    for path in paths:
        above = [it for it in folders if fnmatch(path, f"{it}/*")]
        if not above:
            others.append(path)
            continue
        count = found[max(above, key=len)]
        count[0] += 1
        count[1] += 0 if path.endswith(NO_TEXT) else (ROOT / path).read_bytes().count(b"\n")
    return found, others


def with_numbers(text, paths):
    """The page with today's numbers."""
    found, _ = counted([it[0] for it in ROW.findall(text)], paths)
    number = lambda it: found[it][0], lambda it: f"{rounded(found[it][1]):,}"  # noqa: E731
    return ROW.sub(lambda row: COLUMNS.format(row[1], number[0](row[1]), number[1](row[1]), row[4]), text)


def faults(text, paths):
    """Numbers that are off, and folders that the table lacks."""
    rows = ROW.findall(text)
    found, others = counted([it[0] for it in rows], paths)
    for folder, many, lines, _ in rows:
        for said, is_so, least in ((int(many), found[folder][0], FILES), (int(lines.replace(",", "")), found[folder][1], LINES)):
            if abs(said - is_so) > max(said / SHARE, least):
                yield f"{folder} has {found[folder][0]} files and {found[folder][1]} lines: run tools/folders.py"
                break
    yield from (f"no folder of the table has {it}" for it in others if re.match(r"[^./].*/", it))
    if not rows:
        yield "there is no table of folders"


def main(words):
    text, paths = PAGE.read_text(encoding="utf-8"), list(files())
    if words == ["--check"]:
        found = list(faults(text, paths))
        print("".join(f"folders: {it}\n" for it in found), end="")
        return 1 if found else 0
    PAGE.write_text(with_numbers(text, paths), encoding="utf-8")
    return 0


if __name__ == "__main__":
    sys.exit(main(sys.argv[1:]))
