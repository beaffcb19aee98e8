"""The tables of rows that the proved calls are tested with: each row that Python has a call for."""

import json
import unittest
from pathlib import Path

from range_sets import ParseError, RangeSet

TABLES = Path(__file__).resolve().parents[2] / "crates" / "range_rows" / "data"
KINDS = {"i8", "i16", "i32", "i64", "isize", "u8", "u16", "u32", "u64", "usize"}
# The types of which Python has no sets.
OTHERS = {"i128", "u128", "char"}
EXPECTED = {"a number": "number", "a dot": "dot", "a comma or the end": "comma"}


def truth(word):
    return {"true": True, "false": False}[word]


def listed(word):
    return [] if word == "-" else [int(it) for it in word.split(",")]


def pair(word):
    if word == "none":
        return None
    start, end = word.split("..")
    return int(start), int(end) if end else None


def pairs(word):
    return [] if word == "-" else [pair(it) for it in word.split(",")]


def a_set(word, kind="i64"):
    return RangeSet.from_boundaries(listed(word), unsigned=kind.startswith("u"))


def parts(word, asked):
    found, (start, end) = a_set(word), pair(asked)
    if start > end:
        return [], [], True
    return list(found.gaps(start, end)), list(found & RangeSet([(start, end)])), found.covers(start, end)


def boundaries(*sets):
    return [it.boundaries.tolist() for it in sets]


def operations(a, b):
    a, b = a_set(a), a_set(b)
    return boundaries(a | b, a & b, a - b, a ^ b)


def compared(a, b):
    a, b = a_set(a), a_set(b)
    return not a.isdisjoint(b), a.issubset(b), a.issuperset(b), a == b


def changed(word, asked):
    start, end = pair(asked)
    return (
        boundaries(a_set(word).insert(start, end), a_set(word).remove(start, end)) if start < end else boundaries(a_set(word), a_set(word))
    )


def extent(found):
    return found[0] if found else None, found[-1] if found else None, found.span(), len(found)


def read(text):
    """The boundaries that a text is read as, or what was expected at which byte."""
    try:
        return RangeSet.parse(text).boundaries.tolist()
    except ParseError as error:
        return EXPECTED[error.expected], len(text[: error.position].encode())


def wanted(words):
    return (words[1], int(words[3])) if words[0] == "expected" else listed(words[0])


# For each table what is found and what is wanted, of a row's type, of what is given and of what is answered.
CALLS = {
    "contains": lambda kind, a, b: (int(a[1]) in a_set(a[0], kind), truth(b[0])),
    "extent": lambda kind, a, b: (extent(a_set(*a)), (pair(b[0]), pair(b[1]), pair(b[2]), int(b[3]))),
    "from_ranges": lambda kind, a, b: (boundaries(RangeSet(pairs(*a))), [listed(*b)]),
    "from_values": lambda kind, a, b: (boundaries(RangeSet.from_values(listed(*a))), [listed(*b)]),
    "insert": lambda kind, a, b: (changed(*a), [listed(it) for it in b]),
    "intersects_range": lambda kind, a, b: (bool(a_set(a[0], kind) & RangeSet([pair(a[1])], unsigned=kind.startswith("u"))), truth(*b)),
    "operations": lambda kind, a, b: (operations(*a), [listed(it) for it in b[:4]]),
    "two_sets": lambda kind, a, b: (compared(*a), (truth(b[0]), truth(b[1]), truth(b[2]), b[3] == "equal")),
    "union_all": lambda kind, a, b: (boundaries(RangeSet.union_all([a_set(it) for it in a if it != "none"])), [listed(*b)]),
    "gaps": lambda kind, a, b: (parts(*a), (pairs(b[0]), pairs(b[1]), b[0] == "-")),
    "overlapping": lambda kind, a, b: (list(a_set(a[0]).overlapping(*pair(a[1]))), pairs(*b)),
    "parse": lambda kind, a, b: (read(json.loads(" ".join(a))), wanted(b)),
    "range_at": lambda kind, a, b: (a_set(a[0]).range_at(int(a[1])), pair(*b)),
    "ranges": lambda kind, a, b: (list(a_set(*a)), pairs(*b)),
    "rank": lambda kind, a, b: (a_set(a[0]).rank(int(a[1])), int(*b)),
    "to_string": lambda kind, a, b: (str(a_set(*a)), json.loads(" ".join(b))),
}
# The types whose rows are read, where others have other ends than Python's.
OF_ENDS = {"parse": {"i64"}, "from_values": {"i64"}}


def rows(table):
    """Each row with its line's number: whether it is wrong, its type, what is given and what is answered."""
    for number, line in enumerate((TABLES / f"{table}.txt").read_text(encoding="utf-8").splitlines(), 1):
        if line and not line.startswith("#"):
            given, answered = line.removeprefix("! ").split(" = ")
            kind, *words = given.split(" ")
            if kind not in KINDS | OTHERS:
                kind, words = "i64", [kind, *words]
            yield number, line.startswith("!"), kind, words, answered.split(" ")


class Rows(unittest.TestCase):
    def test_each_row_that_python_has_a_call_for(self):
        for table, call in CALLS.items():
            right, wrong, passed_over = 0, 0, set()
            for number, is_wrong, kind, given, answered in rows(table):
                if kind in OF_ENDS.get(table, KINDS):
                    found, want = call(kind, given, answered)
                    right += not is_wrong
                    wrong += is_wrong and found != want
                    self.assertTrue(is_wrong or found == want, f"{table}.txt:{number}: {found} is answered, and {want} stands there")
                else:
                    passed_over.add(kind)
            # What a wrong row counts, Python may not count: some of them have to be seen.
            self.assertTrue(right and wrong, f"{table}.txt: {right} rows hold, {wrong} wrong ones don't")
            self.assertLessEqual(passed_over, OTHERS | KINDS - OF_ENDS[table] if table in OF_ENDS else OTHERS, table)

    def test_no_row_is_passed_over(self):
        """Each line that is no comment is a row, of a type that Python has or of three others; and each wrong row is seen to be wrong, but
        for those that are wrong by how many comparisons a call may make."""
        self.assertEqual((len(KINDS), sorted(OTHERS)), (10, ["char", "i128", "u128"]))
        for table, call in CALLS.items():
            lines = (TABLES / f"{table}.txt").read_text(encoding="utf-8").splitlines()
            self.assertEqual(len([*rows(table)]), sum(not line.startswith("#") for line in lines), table)
            for number, is_wrong, kind, given, answered in rows(table):
                if is_wrong and kind in OF_ENDS.get(table, KINDS) and table not in ("contains", "operations"):
                    found, want = call(kind, given, answered)
                    self.assertNotEqual(found, want, f"{table}.txt:{number} is wrong, and holds")
