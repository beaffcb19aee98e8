#!/usr/bin/env python3
"""Whether docs/RULES.md is right: whether what each row says to look for is declared in the row's file, and whether each
definition of MODEL, and each call and clause that a table of PROMISES begins with, is in some row. pages.py calls it.

    tests/rules.py      gives each row whose names have moved together their file, and says what is still wrong
"""

import re
import sys
from pathlib import Path

ROOT = Path(__file__).resolve().parent.parent
PAGE = ROOT / "docs" / "RULES.md"
# A table of rules, and what all tables of rules begin with.
HEAD = "Rule|File|Look for\n---|---|---\n"
ROWS = re.compile(re.escape(HEAD) + r"((?:[^\n]+\n)+)")
# What stands between a row's cells, and a cell of names in code.
CELLS = re.compile(r"(?<!\\)\|")
NAMES = re.compile(r"`\w+`(?:, `\w+`)*")
# What declares a name, by the ending of its file; of a file without an ending a line that begins with it.
RUST = r"\b(?:fn|struct|enum|trait|type|const|static|mod|ghost|macro_rules!) {0}\b|\b(?:ensures|requires) {0} \{{|^ +(?:pub )?{0}(?:[,(:]|$)"
C = r"^#define {0}\b|^(?!return)\w[^\n;=]*\b{0}\)?(?:[(;]| =)|^ +{0} = |^enum \{{.*\b{0} = |^(?:typedef |\}} ?)[^\n(]*\b{0};"
CPP = C + r"|^ +(?!return|//)[\w:][^\n;=(]*\b{0}\(|\b(?:struct|class|bool) {0}\b"
DECLARED = {
    ".antt": r"\bpub (?:record |data )?{0}\b",
    ".rt": RUST,
    ".rs": RUST,
    ".c": C,
    ".h": C,
    ".hpp": CPP,
    ".py": r"\b(?:def|class) {0}\b|^(?:\w+, )*{0}(?:, \w+)*(?:: \w+)? = ",
    "": r"^{0}\b",
}
# A row of the table of limits: names, their file and their values; a constant in a source, and the files whose constants are names for
# numbers that are passed, or of what tests and the benchmark do.
LIMIT = re.compile(r"^((?:`\w+`(?:, )?)+) in ([^\s|]+)\|([^|]+)\|", re.M)
CONSTANT = re.compile(r"^ *(?:pub(?:\(\w+\))? )?const ([A-Z_]+): (?:usize|u32) = ([\d_]+);", re.M)
NO_LIMITS = re.compile(r"_tests|_kit|range_rows|range_bench|generated/|range_c/src/(?:calls|reading)\.rt|non_zero|numbers\.rt")
# Tables of PROMISES, whose first column has calls, and tables whose second one has them.
TABLE = re.compile(r"^([^\n|]+)\|[^\n]*\n[-:| ]+\n((?:[^\n]*\|[^\n]*\n)+)", re.M)
CALLS = {"Calls": 0, "Of": 0, "Call": 0, "Condition": 1}
# Names in these columns that are no calls: crates and types of std, and calls that only tests of this repository have.
NO_CALLS = {"len", "none", "range_c", "range_bench", "range_list", "fits", "Copy", "String", "Vec", "RangeSet", "RangeSetRef", "RangeMap"}


def file_of(name, root=ROOT):
    """A file of a row: below crates/, or from the top."""
    return next((it for it in (root / "crates" / name, root / name) if it.is_file()), None)


def declares(file, name):
    """Whether the file declares the name."""
    pattern = DECLARED.get(file.suffix)
    return pattern is not None and re.search(pattern.format(re.escape(name)), file.read_text(encoding="utf-8"), re.M) is not None


def rows_of(page):
    """The rows of the page's tables, each as its cells."""
    return [CELLS.split(line) for rows in ROWS.findall(page.read_text(encoding="utf-8")) for line in rows.splitlines()]


def homes_of(file, names, root=ROOT):
    """The files of the same crate or folder that declare all the names, as rows name them."""
    path = Path(file)
    top = root / "crates" / path.parts[0] if (root / "crates" / path.parts[0]).is_dir() else root / path.parent
    found = [it for it in sorted(top.rglob(f"*{path.suffix}")) if "generated" not in it.parts and all(declares(it, name) for name in names)]
    return [it.relative_to(root / "crates" if top.parent.name == "crates" else root).as_posix() for it in found]


def wrong_rows(page, root=ROOT):
    """Rows whose file isn't there, or doesn't declare what the row says to look for, and tables with another head."""
    rules = set()
    for row in rows_of(page):
        rule, file, names = row if len(row) == 3 else (row[0], "", "")
        found, wanted = file_of(file, root), re.findall(r"\w+", names)
        if rule in rules:
            yield f"the rule '{rule}' stands twice"
        rules.add(rule)
        if not file or not NAMES.fullmatch(names):
            yield f"the rule '{rule}' has no file, or nothing to look for there: {file}|{names}"
        elif lacking := [it for it in wanted if not found or not declares(found, it)]:
            homes = "; ".join(f"{it} stands in {', '.join(homes_of(file, [it], root)[:3]) or 'no file there'}" for it in lacking)
            yield f"the rule '{rule}': {file} doesn't declare {', '.join(lacking)}: {homes}"
    tables = len(re.findall(r"^-+(?:\|-+)*$", page.read_text(encoding="utf-8"), re.M))
    if not rules or tables != page.read_text(encoding="utf-8").count(HEAD):
        yield "a table has another head"


def constants(folder):
    """The constants of the proved crates that are numbers and choose what is fast or allowed: their file, name and value."""
    for file in sorted(folder.glob("range_*/src/**/*.rt")):
        path = file.relative_to(folder).as_posix()
        if not NO_LIMITS.search(path):
            yield from ((path, name, value) for name, value in CONSTANT.findall(file.read_text(encoding="utf-8")))


def wrong_limits(page, folder=ROOT / "crates"):
    """Constants that no row of the table of limits has with their value, and rows of none."""
    text = page.read_text(encoding="utf-8")
    said = {(file, name, value.replace(",", "_")) for names, file, values in LIMIT.findall(text)
            for name, value in zip(re.findall(r"\w+", names), values.split(", "))}  # fmt: skip
    found = {*constants(folder)}
    yield from (f"no row has {name} = {value} of {file}" for file, name, value in sorted(found - said))
    for file, name, value in sorted(said - found):
        if not name.isupper() and (it := file_of(file, folder.parent)) and declares(it, name):
            continue
        yield f"{file} has no {name} = {value}"


def words_of_model(page):
    """The definitions that the tables of MODEL begin with."""
    for line in page.read_text(encoding="utf-8").splitlines():
        if line.startswith("`") and "|" in line:
            yield from (code.split()[0] for code in re.findall(r"(?<!\()`(\w[^`]*)`", line.split("|")[0]))


def words_of_promises(page):
    """The calls in the tables of PROMISES, and the definitions that they cite."""
    for head, rows in TABLE.findall(page.read_text(encoding="utf-8")):
        for row in rows.splitlines():
            cells = CELLS.split(row)
            if head in CALLS and CALLS[head] < len(cells):
                yield from re.findall(r"`([a-z_]\w*)`", cells[CALLS[head]])
            yield from re.findall(r"`((?:Is|Are|Gives|Writes|May)[A-Z]\w*)`", row)


def missing(page, words):
    """Words that no row of the page says to look for."""
    names = {name for row in rows_of(page) for name in re.findall(r"`(\w+)`", row[-1])}
    return [f"no rule has {it}" for it in sorted({*words} - names - NO_CALLS)]


def moved(text):
    """The page's text, where a row whose names have moved together to one other file has that file."""
    for row in (CELLS.split(line) for rows in ROWS.findall(text) for line in rows.splitlines()):
        names = re.findall(r"\w+", row[-1])
        if len(row) == 3 and not ((found := file_of(row[1])) and all(declares(found, it) for it in names)):
            homes = homes_of(row[1], names)
            if len(homes) == 1:
                text = text.replace("|".join(row), "|".join((row[0], homes[0], row[2])))
    return text


def main():
    PAGE.write_text(moved(PAGE.read_text(encoding="utf-8")), encoding="utf-8")
    found = list(wrong_rows(PAGE))
    print("".join(f"rules: {it}\n" for it in found), end="")
    return 1 if found else 0


if __name__ == "__main__":
    sys.exit(main())
