#!/usr/bin/env python3
"""Compares what range_set.h declares and says with the manual page, and the names of its calls with those of a shared library.

    tests/c_names.py man           what is for all types or for uint64_t, as groff sets it: names, comments, and each line of code in these
    tests/c_names.py LIBRARY.so    each call

Its last line is how many there are, and the status is 1 where some are missing.
"""

import re
import subprocess
import sys
from pathlib import Path

C = Path(__file__).resolve().parent.parent / "c"
NAME = r"\b(?:range_(?:set|map)|RANGE_SET)_\w+"
COMMENT = re.compile(r"^/\*(.*?)\*/$", re.S | re.M)


def said_by(*words):
    return subprocess.run(words, capture_output=True, text=True, check=True).stdout


def main(of):
    header = (C / "include/range_set.h").read_text(encoding="utf-8")
    if of != "man":
        wanted, found = set(re.findall(rf"{NAME}(?=\()", COMMENT.sub("", header))), set(re.findall(NAME, said_by("nm", "-D", "--defined-only", of)))
    else:
        header = re.sub(r"/\* ---- Sets of int32_t.*(?=/\* ---- Sets of uint64_t ----)|/\* (SPDX|@gen).*?\*/", "", header, flags=re.S)
        lines = [re.sub(r"^ \* ?", "", it, flags=re.M) for it in COMMENT.findall(header) if not it.startswith(" ----")]
        bold = re.findall(r"^\\fB(.*)\\fP$", (C / "range_set.3").read_text(encoding="utf-8"), re.M)
        page = said_by("groff", "-man", "-Tascii", "-P-c", "-rHY=0", "-rLL=150n", str(C / "range_set.3"))
        wanted = set(re.findall(NAME, COMMENT.sub("", header))) - {"RANGE_SET_H"}
        wanted |= {it.strip() for text in lines for it in text.split("\n") if it.startswith("  ")}
        found = set(re.findall(NAME, "\n".join(bold))) | {it.strip() for it in page.split("\n")}
        spoken = {" ".join(it.split()) for it in lines}
        wanted, found = wanted | spoken, found | {it for it in spoken if it in " ".join(page.split())}
    missing = sorted(wanted - found)
    for name in missing:
        print(f"c_names: {of} lacks {name}")
    print(f"{len(wanted)} in the header, {len(missing)} missing")
    return 1 if missing or not wanted else 0


if __name__ == "__main__":
    sys.exit(main(*sys.argv[1:]))
