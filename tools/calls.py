#!/usr/bin/env python3
"""Writes which language has which call into the tables of docs/CALLS.md, from the sources.

    tools/calls.py            writes them, takes the holes that are filled out of tools/calls_holes.txt, and says which have no word there
    tools/calls.py --check    says what it would write otherwise, and which holes have no word

A row is a call by its name in Rust or Rattle; a cell has the language's own name for it, or in one word why it has none. What a
language calls otherwise stands in OTHERWISE, and what is written otherwise than it is declared in SHOWN.
"""

import ast
import re
import sys
from functools import cache
from pathlib import Path

ROOT = Path(__file__).resolve().parent.parent
PAGE = ROOT / "docs" / "CALLS.md"
HOLES = ROOT / "tools" / "calls_holes.txt"
# The tables: what each type is called there, and the heading below which its table stands.
KINDS = {"s": ("set", "## Sets"), "c": ("chunks", "## Sets in chunks, and spaces"), "m": ("map", "## Maps")}
# Sets, sets in chunks and spaces, and maps, by their types.
RATTLE = {"RangeSetRef": "s", "RangeSet": "s", "ChunkedRangeSet": "c", "ChunkedSpace": "c", "RangeMap": "m"}
RUST = {**RATTLE, "Map": "m", "$Left": "s", "$Set": "sc"}
CPP = {"range_set_view": "s", "range_set": "s", "chunked_range_set": "c", "range_map": "m"}
PYTHON = {"RangeSet": "s", "MutableRangeSet": "c", "RangeMap": "m"}
# The traits by which a type of Rust or Rattle has a call, and the operators of Rust's macros and of C++.
TRAITS = {
    "Not": "!", "FromStr": "parse", "Display": "to_string", "PartialEq": "==", "BitOr": "union", "BitAnd": "intersection", "Sub": "difference",
    "BitXor": "symmetric_difference", "BitOrAssign": "union_with", "BitAndAssign": "intersection_with", "SubAssign": "difference_with",
    "BitXorAssign": "symmetric_difference_with", "FromIterator": "from_ranges",
}
SIGNS = {
    "|": "union", "&": "intersection", "-": "difference", "^": "symmetric_difference", "~": "!", "|=": "union_with", "&=": "intersection_with",
    "-=": "difference_with", "^=": "symmetric_difference_with", "==": "==",
}
# What makes, copies, frees or borrows a value, forms that one language needs for a call of another, and their own subjects.
LEFT_OUT = re.compile(
    r"""\w+_(counted|unchanged|from|owned|ref|assign|unchecked|len|until|full|set|range|bool|json|inner|unsorted|view|capacity|list|chunked)|
    merge_\w+|buffer_\w+|owned_\w+|members_\w+|from_boundaries|from_parts|new|of|all|empty|single|clone|copy|free|view|swap|end|
    boundaries|capacity|reserve|kind|unsigned|bounded|status_text|range_set|chunked_range_set|compare|set|range_set_view|
    shrink_to_fit|range_last|next_ranges|stretch|combine_with|_\w+""",
    re.X,
)
# Calls that those words would leave out.
KEPT = {"contains_range", "intersects_range", "ranges_len", "range_from"}
SET_OF_CPP = {"size": "ranges_len", "empty": "is_empty", "begin": "iter", "text": "to_string", "negation": "!"}
SET_OF_PYTHON = {
    "isdisjoint": "is_disjoint", "issubset": "is_subset", "issuperset": "is_superset", "covers": "contains_range", "contains": "contains_each",
    "overlaps": "intersects_range", "add": "insert", "discard": "remove", "update": "union_with", "difference_update": "difference_with",
    "intersection_update": "intersection_with", "symmetric_difference_update": "symmetric_difference_with", "__len__": "ranges_len",
    "__contains__": "contains", "__iter__": "iter", "__invert__": "!", "__bool__": "is_empty", "__getitem__": "first last", "__str__": "to_string",
    "__eq__": "==", "__new__": "from_ranges",
}
OTHERWISE = {
    "Rattle": {"m": {"range_at": "get_key_value"}},
    "C": {
        "s": {
            "negation": "!", "equal": "==", "print": "to_string", "get": "iter", "members_next": "members", "parse_by": "parse",
            "owned_clear": "clear",
        },
        "c": {
            "chunked_next": "iter", "chunked_of": "from_ranges", "chunked_print": "to_string", "chunked_equal": "==",
            "chunked_combine": "combine union_with intersection_with difference_with symmetric_difference_with",
        },
        "m": {"range_at": "get_key_value", "get": "get contains_key", "next": "iter", "of": "from_ranges"},
    },
    "C++": {
        "s": {**SET_OF_CPP, "range_set": "from_ranges"}, "c": {**SET_OF_CPP, "chunked_range_set": "from_ranges"},
        "m": {"size": "len", "empty": "is_empty", "begin": "iter", "range_at": "get_key_value", "contains": "contains_key", "range_map": "from_ranges"},
    },
    "Python": {
        "s": SET_OF_PYTHON, "c": SET_OF_PYTHON,
        "m": {
            "__len__": "len is_empty", "__contains__": "contains_key", "__iter__": "keys", "items": "iter", "__setitem__": "insert",
            "__delitem__": "remove remove_all", "range_at": "get_key_value", "find": "where_equal", "update": "insert insert_all", "put": "insert",
            "__eq__": "==",
            "__init__": "from_ranges", "__getitem__": "get",
        },
    },
}
# Of a map `s` stands for `m`.
SHOWN = {
    "__len__": "len(s)", "__contains__": "x in s", "__iter__": "for .. in s", "__invert__": "~s", "__bool__": "not s", "__getitem__": "s[i]",
    "__str__": "str(s)", "__eq__": "==", "__setitem__": "s[a:b] = v", "__delitem__": "del s[a:b]", "__new__": "RangeSet(..)",
    "__init__": "RangeMap(..)", "Not": "!", "FromStr": "parse", "Display": "to_string", "FromIterator": "collect",
}
# What declares a call in Rattle and Rust: the title of an impl, a public function in it, and the end of it. A macro for both
# forms of a type of Rust is indented.
DECLARED = re.compile(r"^( {8})?(?:impl\b(?P<impl>[^{;]*)\{|    pub (?:const )?fn (?P<name>\w+)|\})", re.M)


def title(impl):
    """The trait of an impl, or none, and its type, both without parameters."""
    plain = re.sub(r"->", "", impl.split("\nwhere")[0])
    while plain != (plain := re.sub(r"<[^<>]*>", "", plain)):
        pass
    trait, _, of = plain.strip().rpartition(" for ")
    last = lambda path: path.split("::")[-1].lstrip("&").strip()  # noqa: E731
    return last(trait), last(of)


def of_impls(files, types):
    """The calls of types as pairs of a kind and a name: their public functions, and those of TRAITS."""
    for file in files:
        kinds, depth = "", None
        for found in DECLARED.finditer(file.read_text(encoding="utf-8")):
            if found["impl"] is not None:
                depth = found[1]
                trait, of = title(found["impl"])
                kinds = types.get(of, "") if not trait else ""
                if trait in TRAITS and of in types:
                    yield from ((kind, trait) for kind in types[of])
            elif found[1] == depth:
                yield from ((kind, found["name"]) for kind in kinds if found["name"])
                kinds = kinds if found["name"] else ""


def of_rattle():
    crates = ("range_collections", "range_chunks", "range_map")
    return of_impls((it for crate in crates for it in (ROOT / "crates" / crate / "src").rglob("*.rt")), RATTLE)


def of_rust():
    source = ROOT / "rust" / "src"
    aside = ("generated", "support", "fallible")
    files = [it for it in source.rglob("*.rs") if it.relative_to(source).parts[0].removesuffix(".rs") not in aside]
    yield from of_impls(files, RUST)
    # Operators are written by macros, in the folder of their type.
    for file in files:
        kind = {"range_set": "s", "view": "s", "chunked": "c"}.get(file.parent.name)
        for block in re.findall(r"^(?:assigning_)?operators! \{(.*?)^\}", file.read_text(encoding="utf-8") if kind else "", re.M | re.S):
            yield from ((kind, it) for it in re.findall(r"^    .*;$", block, re.M) for it in re.findall(r"\w+", it) if it in TRAITS)


def of_c():
    for name in re.findall(r"\brange_(set|map)_i64_(\w+)\(", (ROOT / "c/include/range_set.h").read_text(encoding="utf-8")):
        yield "m" if name[0] == "map" else "c" if name[1].startswith("chunked_") else "s", name[1]


def of_cpp():
    text = "".join(it.read_text(encoding="utf-8") for it in (ROOT / "c/include").rglob("*.hpp"))

    def calls(name):
        found = re.search(rf"^template <class T[^;{{]*>\s(?:class|struct) {name}\b([^;{{]*)\{{(.*?)^\}};", text, re.M | re.S)
        if not found:
            return
        for base in re.findall(r"public (?:detail::)?(\w+)", found[1]):
            yield from calls(base)
        public = re.sub(r"^(?:private|protected):.*?(?=^public:|\Z)", "", found[2].partition("\npublic:")[2] or found[2], flags=re.M | re.S)
        yield from re.findall(r"^    (?!return |friend |static_assert)(?:[\w:][\w:.<>,&* \[\]]*[ &*])?([a-z]\w*)\(", public, re.M)
        yield from re.findall(r"operator([|&^-]=?|~|==)\(", public)

    yield from ((kind, it) for kind in "sc" for it in calls("operators"))
    yield from ((kind, it) for name, kind in CPP.items() for it in calls(name))


def of_python():
    files = [ast.parse(it.read_text(encoding="utf-8")) for it in sorted((ROOT / "python/src/range_sets").glob("*.py"))]
    classes = {it.name: it for file in files for it in file.body if isinstance(it, ast.ClassDef)}

    def calls(name):
        if name not in classes:
            return
        for base in classes[name].bases:
            yield from calls(getattr(base.value if isinstance(base, ast.Subscript) else base, "id", ""))
        yield from (it.name for it in classes[name].body if isinstance(it, ast.FunctionDef))

    return ((kind, it) for name, kind in PYTHON.items() for it in calls(name))


# In the file of holes this stands for each language that has no word of its own.
EACH = "*"
LANGUAGES = {"Rattle": of_rattle, "Rust": of_rust, "C": of_c, "C++": of_cpp, "Python": of_python}


@cache
def calls_of(language):
    """For each kind and call the names that the language has for it."""
    found = {}
    signs = {trait: sign for trait, call in TRAITS.items() for sign, of in SIGNS.items() if of == call and sign != "~"}
    for kind, name in LANGUAGES[language]():
        other = OTHERWISE.get(language, {}).get(kind, {}).get(name) or SIGNS.get(name) or TRAITS.get(name)
        for call in other.split() if other else [name.removeprefix("chunked_")]:
            if other or call in KEPT or not LEFT_OUT.fullmatch(call):
                own = signs.get(name) or SHOWN.get(name, name)
                found.setdefault((kind, call), {})[re.sub(r"\bs\b", kind.replace("c", "s"), own)] = None
    return found


def written_holes(text):
    """The words of the holes: for each kind, language and call its word."""
    found = {}
    for line in text.splitlines():
        if line and not line.startswith("#"):
            where, _, calls = line.partition(": ")
            kind, language, word = where.split()
            found |= {(kind, language, call): word for call in calls.split()}
    return found


def as_text(text, words):
    """The file of holes with its head, and these words."""
    lines = {}
    for (kind, language, call), word in words.items():
        lines.setdefault((kind, language, word), []).append(call)
    order = {name: at for at, name in enumerate([*(it for it, _ in KINDS.values()), EACH, *LANGUAGES])}
    rows = sorted(lines, key=lambda it: (order.get(it[0], 9), order.get(it[1], 9), it[2]))
    return text[: text.index("\n\n") + 2] + "".join(f"{' '.join(it)}: {' '.join(sorted(lines[it]))}\n" for it in rows)


def tables(words):
    """The table of each kind; the holes that have no word, and the words that are of no hole."""
    found = {language: calls_of(language) for language in LANGUAGES}
    made, without, used = {}, [], set()
    for kind, (name, _) in KINDS.items():
        rows = f"Call|{'|'.join(LANGUAGES)}\n---|{'|'.join('---' for _ in LANGUAGES)}\n"
        for call in sorted({it for calls in found.values() for of, it in calls if of == kind}):
            cells = []
            for language, calls in found.items():
                own = ", ".join(f"`{it}`" for it in calls.get((kind, call), {}))
                if own:
                    cells.append(own.replace("|", "\\|"))
                    continue
                hole = next((it for it in ((name, language, call), (name, EACH, call)) if it in words), None)
                cells.append(words.get(hole, "?"))
                used.add(hole)
                if hole is None:
                    without.append((name, language, call))
            rows += f"`{call}`|{'|'.join(cells)}\n"
        made[kind] = rows
    return made, without, {it for it in words if it not in used}


def with_tables(page, made):
    """The page with these tables, each below its heading and what is said there."""
    for kind, (_, heading) in KINDS.items():
        before, _, after = page.partition(f"{heading}\n\n")
        old = re.search(r"^Call\|.*?(?=\n\n|\Z)", after, re.M | re.S)
        page = f"{before}{heading}\n\n{after[:old.start()]}{made[kind].rstrip()}{after[old.end():]}"
    return page


def faults(page, text):
    """What a page, and a file of holes, have otherwise than they would be written."""
    words = written_holes(text)
    made, without, filled = tables(words)
    listed = set(re.findall(r"^- \*\*(\w+)\*\*", page, re.M))
    if with_tables(page, made) != page:
        yield "tools/calls.py writes other tables"
    if as_text(text, words) != text:
        yield "tools/calls.py writes the holes in another order"
    yield from (f"the hole {' '.join(it)} has no word" for it in without)
    yield from (f"{' '.join(it)} is no hole" for it in sorted(filled))
    yield from (f"the page doesn't say what the word {it} means" for it in sorted(set(words.values()) - listed))
    yield from (f"no hole has the word {it}" for it in sorted(listed - set(words.values())))


def main(words):
    page, text = PAGE.read_text(encoding="utf-8"), HOLES.read_text(encoding="utf-8")
    if words == ["--check"]:
        found = list(faults(page, text))
        print("".join(f"calls: {it}\n" for it in found), end="")
        return 1 if found else 0
    holes = written_holes(text)
    made, without, filled = tables(holes)
    HOLES.write_text(as_text(text, {it: word for it, word in holes.items() if it not in filled}), encoding="utf-8")
    PAGE.write_text(with_tables(page, made), encoding="utf-8")
    print("".join(f"calls: {' '.join(it)} has no word in tools/calls_holes.txt\n" for it in without), end="")
    return 1 if without else 0


if __name__ == "__main__":
    sys.exit(main(sys.argv[1:]))
