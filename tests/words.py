#!/usr/bin/env python3
"""Whether names of types and functions use the words of MODEL's last table in their one meaning, as far as a name shows it.

    tests/words.py      takes the names out of tests/words.txt that are gone, and says which are missing there
    pages.py            fails if a name isn't listed that uses a word otherwise, or one is that is gone
"""

import re
import sys
from fnmatch import fnmatch
from pathlib import Path

ROOT = Path(__file__).resolve().parent.parent
MODEL, LEFT = ROOT / "docs" / "MODEL.md", ROOT / "tests" / "words.txt"
# For words, and what is said in their place: the files where a name may have the word, and names that may have it anywhere. Of a name
# with `left` there is one with `right`, unless it is a law of the left's items.
WORDS = {
    "left": ((), r"left|left_own_item|left_items(_stay)?|.*_not_left|the_left_boundary_stays|.*_nothing_is_left"),
    "row": ((), r".*_in_a_row_.*"),
    "place": (("range_collections/*/[Cc]ountable*", "range_collections/*/members.rt", "range_collections/specs/Fits.antt"), r".*[iI]n_?[pP]lace.*|.*([fF]rom_?[pP]lace|_place_of_).*|place|.*_aligned_place|signed_place"),
    "step": (("range_map/*", "range_c/*"), ""),
    "window": (("range_map/*", "range_chunks/*"), ""),
    "part": (("range_collections/*", "range_chunks/*", "range_c/src/parts.rt", "range_c/specs/*"), r"parts|parts_line|(from|into)_parts"),
    "reader": (("range_merge/*",), ""),
    "answer": (("range_calc*", "range_track*"), ""),
    "hole": (("range_merge/src/in_place/*",), ""),
    "open": ((), r"open_hole\w*"),
    "endless": ((), ""),
    "behind": ((), ""),
}
# What declares a type or a function in Rattle, and a word in a definition; and the words of a name.
DECLARED = {".rt": re.compile(r"\b(?:fn|struct|enum|trait|type|mod) (\w+)"), ".antt": re.compile(r"\bpub (?:record |data )?([A-Za-z]\w*)")}
PARTS = re.compile(r"[A-Z]?[a-z0-9]+|[A-Z]+")


def sources():
    """The sources and definitions by hand of what is proved, by their paths below crates/."""
    crates = ROOT / "crates"
    for file in sorted(it for folder in ("src", "specs") for it in crates.glob(f"*/{folder}/**/*")):
        path = file.relative_to(crates).as_posix()
        if file.suffix in DECLARED and not re.match(r"\w*(?:_tests|_rows|_bench|_examples|_kit)/|.*/generated/", path):
            yield path, file.read_text(encoding="utf-8")


def otherwise(files):
    """The names that use a word otherwise, with the crate in which they stand: for each word, a set."""
    names = [(path, name) for path, text in files for name in DECLARED[Path(path).suffix].findall(text)]
    known = {name for _, name in names}
    found = {word: set() for word in WORDS}
    for path, name in names:
        for word in {it.lower().removesuffix("s") for it in PARTS.findall(name)} & {*WORDS}:
            where, may = WORDS[word]
            is_side = word == "left" and {name.replace("left", "right"), name.replace("Left", "Right")} & known - {name}
            if not is_side and not re.fullmatch(may, name) and not any(fnmatch(path, it) for it in where):
                found[word].add(f"{path.partition('/')[0]}/{name}")
    return found


def listed(text):
    """The names of each word in a list, by lines 'word: names'."""
    lines = [it.partition(": ") for it in text.splitlines() if it and not it.startswith("#")]
    return {word: set(names.split()) for word, _, names in lines}


def words_of(page):
    """The words of the model's last table."""
    rows = page.partition("\n## Words\n")[2].splitlines()
    return {word for row in rows if "|" in row for cell in (row.split("|")[0], row.split("|")[-1]) for word in re.findall(r"\w+", cell)}


def faults(files, text, page):
    """Names that use a word otherwise and aren't listed, listed ones that are gone, and words that the model's table lacks."""
    found, left = otherwise(files), listed(text)
    for word in sorted({*found, *left}):
        yield from (f"{it} uses the word '{word}' otherwise than MODEL says" for it in sorted(found.get(word, set()) - left.get(word, set())))
        yield from (f"tests/words.txt has {it}, which is gone" for it in sorted(left.get(word, set()) - found.get(word, set())))
    yield from (f"MODEL's table has no word '{it}'" for it in sorted({*WORDS} - words_of(page)))


def main():
    text = LEFT.read_text(encoding="utf-8")
    found, left = otherwise(sources()), listed(text)
    kept = {word: sorted(found[word] & left.get(word, set())) for word in WORDS}
    head = text[: text.index("\n\n") + 2]
    LEFT.write_text(head + "".join(f"{word}: {' '.join(names)}\n" for word, names in kept.items() if names), encoding="utf-8")
    missing = [f"{word}: {it}" for word in WORDS for it in sorted(found[word] - left.get(word, set()))]
    print("".join(f"words: not in tests/words.txt: {it}\n" for it in missing), end="")
    return 1 if missing else 0


if __name__ == "__main__":
    sys.exit(main())
