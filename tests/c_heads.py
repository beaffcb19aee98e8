#!/usr/bin/env python3
"""Compares what the layer in C calls, as a C compiler reads it, with what the Rust crate exports: names, parameters one by one, and
answers. No compiler sees both, and one that is passed in another place is a wrong answer.

    tests/c_heads.py

Its last line is how many heads there are, and the status is 1 where some differ.
"""

import os
import re
import shlex
import subprocess
import sys
from pathlib import Path

ROOT = Path(__file__).resolve().parent.parent
COMPILER = shlex.split(os.environ.get("CC", "cc"))
PREPROCESSED = [*COMPILER, "-std=c99", "-E", "-P", "-DRANGE_SET_PLAIN", f"-I{ROOT / 'c/include'}", ROOT / "c/range_set.c"]
HEAD_IN_C = re.compile(r"^(\w[\w ]*?) (plain_\w+)\(([^()]*)\);", re.M)
HEAD_IN_RUST = re.compile(r'#\[no_mangle\]\s+pub unsafe extern "C" fn (\w+)\(([^()]*)\)(?: -> (\w+))? \{')
TYPES = {"_Bool": "bool", "size_t": "usize", "char": "u8", "void": ""} | {
    f"{sign}{bits}_t": f"{rust}{bits}" for sign, rust in (("int", "i"), ("uint", "u")) for bits in (32, 64)
}


def type_in_c(text):
    """A type of C as Rust has it: a handle by its field, and so a pointer."""
    const, name, pointer = re.fullmatch(r"(const )?(\w+) ?(\*?)\w*", text.strip()).groups()
    name = re.sub(r"range_(?:set|map)_\w+", "handle", name)
    return f"*{'const' if const else 'mut'} {TYPES.get(name, name)}" if pointer else TYPES[name]


def type_in_rust(text):
    """A type of the crate: a range is two numbers, and a reference is passed as a pointer."""
    text = re.sub(r"\b(Chunked|Mapped)[IU]\d+", "handle", text.strip().replace("&mut ", "*mut "))
    return re.sub(r"\bRange([IU]\d+)", lambda it: it[1].lower(), text)


def heads_in_c():
    said = subprocess.run(PREPROCESSED, capture_output=True, text=True, check=True).stdout
    # A prototype may go over several lines.
    said = re.sub(r",\s+", ", ", said)
    return {name: ([type_in_c(it) for it in words.split(",")], type_in_c(answer)) for answer, name, words in HEAD_IN_C.findall(said)}


def heads_in_rust():
    found = {}
    for file in sorted((ROOT / "rust/src/generated").rglob("*.rs")):
        for name, words, answer in HEAD_IN_RUST.findall(file.read_text(encoding="utf-8")):
            found[name] = ([type_in_rust(it.split(":", 1)[1]) for it in words.split(",") if it.strip()], answer)
    return found


def main():
    in_c, in_rust = heads_in_c(), heads_in_rust()
    differing = [name for name in sorted(in_c | in_rust) if in_c.get(name) != in_rust.get(name)]
    for name in differing:
        print(f"c_heads: {name}: in C {in_c.get(name)}, in Rust {in_rust.get(name)}")
    print(f"{len(in_c)} heads in C, {len(in_rust)} in Rust, {len(differing)} differ")
    return 1 if differing or not in_c else 0


if __name__ == "__main__":
    sys.exit(main())
