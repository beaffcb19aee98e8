"""Each error's type and text, word for word."""

import importlib.util
import os
import pickle
import platform
import shlex
import shutil
import subprocess
import sys
import tempfile
import unittest
from array import array
from datetime import date, datetime, timedelta, timezone
from functools import partial
from ipaddress import IPv4Address
from operator import attrgetter
from pathlib import Path
from unittest import mock

import range_sets as sets
from range_sets import MutableRangeSet, NoRoom, NotSorted, ParseError, RangeMap, RangeSet, _core
from range_sets._kind import NO_KIND, SIGNED as KIND

if importlib.util.find_spec("_testcapi"):
    import _testcapi

FORMAT = (
    "expected 64-bit whole numbers in this machine's order of bytes, as array('q') and numpy's int64 and uint64 have them, "
    "not those of the format"
)
OF_SETS = "expected whole numbers of at most 64 bits or floats in this machine's order of bytes, not those of the format"
BUFFER = "expected a buffer of 64-bit whole numbers, as an array('q') or a numpy array, not"
SIDE = "expected numbers that lie side by side: copy the buffer first, as numpy's a.copy() does"
SIGNED = "expected a number from -2**63 to 2**63 - 1"
UNSIGNED = "expected a number from 0 to 2**64 - 1"
MIXED = "signed and unsigned numbers don't mix"
ONE_ARGUMENT = "made of one argument, not 2: a list of pairs, as [(3, 5), (7, 9)]"
NAN = "NaN is in no order, and no element of a set"
UNCOUNTED = "floats aren't counted one by one"
ONE_BY_ONE = f"{UNCOUNTED}: expected a start and an end"
PAIR = "expected a pair (start, end), a range or a set, not"
ENDS = "expected a number, a start and an end, a pair or a range, not"
FLOAT = "'float' object cannot be interpreted as an integer"
VALUES = "; from_values makes a set of elements"
OF_FLOATS = f"{FLOAT}: kind='float' makes a set of floats"
COLUMNS = "a list of starts and one of ends are no ranges: zip(starts, ends) has the pairs"
TABLE = "expected a table with two columns; RangeSet.from_boundaries reads a list of boundaries"
A = RangeSet([(0, 10)])


def q(*items):
    return array("q", items)


def strided():
    return memoryview(q(0, 1, 2, 3))[::2]


def crooked():
    return memoryview(bytearray(17))[1:].cast("q")


class Texts(unittest.TestCase):
    def compare(self, rows):
        for call, error, text in rows:
            with self.subTest(text=text):
                with self.assertRaises(error) as raised:
                    call()
                self.assertIs(type(raised.exception), error)
                self.assertEqual(str(raised.exception), text)

    def test_what_a_set_is_made_of(self):
        self.compare(
            (
                (lambda: RangeSet([1, 2]), TypeError, f"{PAIR} 1{VALUES}"),
                (lambda: RangeSet([(1, 2, 3)]), TypeError, f"{PAIR} (1, 2, 3)"),
                (lambda: RangeSet([(1,), (2, 3, 4)]), TypeError, f"{PAIR} (1,)"),
                (lambda: RangeSet([{1, 2}]), TypeError, PAIR + " {1, 2}"),
                (lambda: RangeSet(["ab"]), TypeError, f"{PAIR} 'ab'"),
                (lambda: RangeSet(5), TypeError, "expected pairs, ranges or sets, not 5" + VALUES),
                (lambda: RangeSet(None), TypeError, "expected pairs, ranges or sets, not None"),
                (lambda: RangeSet("0..3"), TypeError, "expected pairs, ranges or sets, not a text; RangeSet.parse reads one"),
                (lambda: RangeSet(q(0, 10)), TypeError, TABLE),
                (lambda: RangeSet(range(0, 10, 2)), ValueError, "expected a range with step 1, not range(0, 10, 2)"),
                (lambda: RangeSet([(0, 2.5)]), TypeError, OF_FLOATS),
                (lambda: RangeSet([(0, 2.5)], kind=int), TypeError, FLOAT),
                (lambda: RangeSet(3, 5), TypeError, f"RangeSet is {ONE_ARGUMENT}"),
                (lambda: MutableRangeSet(3, 5), TypeError, f"MutableRangeSet is {ONE_ARGUMENT}"),
                (lambda: RangeSet(([0, 10], [5, 15])), TypeError, COLUMNS),
                (lambda: RangeSet(([0, 10, 20], [5, 15, 25])), TypeError, COLUMNS),
                (lambda: RangeSet((q(0, 10), q(5, 15))), TypeError, COLUMNS),
                (lambda: A.union(([0, 10], [5, 15])), TypeError, COLUMNS),
                (lambda: RangeSet([(0.5, 2)], kind=int), TypeError, FLOAT),
                (lambda: RangeSet([(float("nan"), None)]), ValueError, NAN),
                (lambda: RangeSet([("0", 2)]), TypeError, "'<' not supported between instances of 'int' and 'str'"),
                (lambda: RangeSet([("9", "12")], kind="int"), TypeError, "'str' object cannot be interpreted as an integer"),
                (lambda: RangeSet([(0, "2")]), TypeError, "'str' object cannot be interpreted as an integer"),
                (lambda: RangeSet([(0, 2**63)]), OverflowError, SIGNED),
                (lambda: RangeSet([(-(2**63) - 1, None)]), OverflowError, SIGNED),
                (lambda: RangeSet([(-1, 5)], unsigned=True), OverflowError, UNSIGNED),
                (lambda: RangeSet([(0, 2**64)], unsigned=True), OverflowError, UNSIGNED),
            )
        )

    def test_boundaries(self):
        self.compare(
            (
                (lambda: RangeSet.from_boundaries([3, 3]), NotSorted, "a list isn't strictly sorted"),
                (lambda: RangeSet.from_boundaries([0, 1.5]), TypeError, OF_FLOATS),
                (lambda: RangeSet.from_boundaries([0, 2**63]), OverflowError, SIGNED),
                (lambda: RangeSet.from_boundaries(7), TypeError, "'int' object is not iterable"),
                (
                    lambda: RangeSet.from_boundaries(array("d", [0.0]), kind=int),
                    TypeError,
                    "two kinds of elements don't mix: one set has the kind int, and the other float",
                ),
                (lambda: RangeSet.from_boundaries(array("u", "a")), TypeError, f"{OF_SETS} 'w'"),
                (lambda: RangeSet.from_boundaries(q(1), unsigned=True), TypeError, f"{MIXED}: expected a set of unsigned ones"),
                (
                    lambda: RangeSet.from_boundaries(memoryview(q(0, 2**40)), kind="date"),
                    OverflowError,
                    "expected the boundaries of a set of the kind date, and these lie beyond",
                ),
                (
                    lambda: RangeSet.from_boundaries(memoryview(array("Q", [5])), kind="date"),
                    TypeError,
                    "two kinds of elements don't mix: one set has the kind date, and the other unsigned",
                ),
                (lambda: RangeSet.from_values([0, 1.5]), TypeError, OF_FLOATS),
                (lambda: RangeSet.from_values([2**63]), OverflowError, SIGNED),
                (lambda: RangeSet.from_values(array("b", [-1]), unsigned=True), OverflowError, UNSIGNED),
                (lambda: RangeSet.from_values(q(1), unsigned=True), TypeError, f"{MIXED}: expected a set of unsigned ones"),
                (lambda: RangeSet.from_values(array("d", [0.0])), TypeError, ONE_BY_ONE),
                (lambda: RangeSet.from_ranges(q(1, 2, 3)), ValueError, "expected a start and an end each"),
                (lambda: RangeSet.from_ranges([(1, 2)]), TypeError, f"{BUFFER} list"),
            )
        )

    def test_buffers(self):
        table = memoryview(bytes(48)).cast("q", [2, 3])
        self.compare(
            (
                (lambda: sets.union([0], q(1)), TypeError, f"{BUFFER} list"),
                (lambda: sets.union(q(1), array("i", [1])), TypeError, f"{FORMAT} 'i'"),
                (lambda: sets.union(q(1), b"12345678"), TypeError, f"{FORMAT} 'B'"),
                (lambda: sets.union(q(1), table), TypeError, "expected a list, with one dimension"),
                (lambda: sets.from_ranges(table), TypeError, "expected a list of starts and ends in turn, or a table with two columns"),
                (lambda: sets.union(q(1), strided()), TypeError, SIDE),
                (lambda: sets.union(q(1), array("Q", [1])), TypeError, f"{MIXED}: both lists have to be of one type"),
                (
                    lambda: sets.union(q(1), q(2), out=array("Q", [0, 0])),
                    TypeError,
                    f"{MIXED}: the buffer has to be of the type of the lists",
                ),
                (lambda: sets.union(q(1), q(2), out=memoryview(q(0, 0)).toreadonly()), TypeError, "the buffer can't be written to"),
                (lambda: sets.union(q(1), q(2), out=crooked()), ValueError, "the buffer's numbers don't lie at multiples of 8 bytes"),
                (lambda: (lambda a: sets.union(a, q(2), out=a))(q(1)), ValueError, "the buffer overlaps a list"),
                (lambda: sets.union(q(0, 1), q(5, 6), out=q(0)), NoRoom, "the set has 4 boundaries, and the buffer is shorter"),
                (lambda: sets.union(q(2, 1), q(5, 6)), NotSorted, "a list isn't strictly sorted"),
                (lambda: sets.covered(q(2, 1)), NotSorted, "a list isn't strictly sorted"),
                (lambda: sets.union(q(0), q(1), q(2)), TypeError, "union() takes 2 positional arguments but 3 were given"),
                (lambda: sets.contains(q(0), 2**63), OverflowError, SIGNED),
                (lambda: sets.contains(array("Q"), -1), OverflowError, UNSIGNED),
                (lambda: sets.contains(q(0), 10**5000), OverflowError, SIGNED),
                (lambda: RangeSet([(0, -(10**5000))]), OverflowError, SIGNED),
                (lambda: sets.contains(q(0), 1.0), TypeError, FLOAT),
            )
        )

    def test_questions_and_changes(self):
        self.compare(
            (
                (lambda: 1.5 in A, TypeError, OF_FLOATS),
                (lambda: "1" in A, TypeError, "'str' object cannot be interpreted as an integer"),
                (lambda: (0, 1) in A, TypeError, "expected an element, not (0, 1): s.covers(start, end) asks for all of a range"),
                (lambda: A.covers("5"), TypeError, "'str' object cannot be interpreted as an integer"),
                (lambda: A.insert(5.0), TypeError, FLOAT),
                (lambda: A.insert(2**63), OverflowError, SIGNED),
                (lambda: A.overlapping(None), TypeError, f"{ENDS} None"),
                (lambda: A.insert(0, "5"), TypeError, "'str' object cannot be interpreted as an integer"),
                (lambda: A.insert(5, 2**63), OverflowError, SIGNED),
                (lambda: A.split(2**63), OverflowError, SIGNED),
                (lambda: A.first_fit(-1), ValueError, "expected a length from 0 on"),
                (lambda: A.first_fit(1.0), TypeError, FLOAT),
                (lambda: A.select(-1), ValueError, "expected a number of members from 0 on"),
                (lambda: A.select(1.0), TypeError, FLOAT),
                (lambda: A.rank(2**63), OverflowError, SIGNED),
                (lambda: A.rank(None), TypeError, "expected an element, not None"),
                (lambda: A.split(None), TypeError, "expected an element, not None"),
                (lambda: A.rank("5"), TypeError, "'str' object cannot be interpreted as an integer"),
                (lambda: RangeSet((5, None)).bounded(), ValueError, "expected a set with an end, and this has none from 5 on"),
                (lambda: A[1], IndexError, "there is no such range: the set has 1"),
                (lambda: A[-(10**5000)], IndexError, "there is no such range: the set has 1"),
                (lambda: RangeSet.union_all([A, 5]), TypeError, "expected pairs, ranges or sets, not 5" + VALUES),
                (lambda: A | RangeSet(unsigned=True), TypeError, f"{MIXED}: both sets have to be of one kind"),
                (lambda: RangeSet.union_all([A], unsigned=True), TypeError, f"{MIXED}: expected a set of unsigned ones"),
                (lambda: A | [(1, 2)], TypeError, "operators take sets alone: union, and in place update, takes pairs and ranges too"),
                (lambda: hash(MutableRangeSet()), TypeError, "unhashable type: 'MutableRangeSet'"),
            )
        )

    def test_other_kinds(self):
        days = [date(2026, 5, 1), date(2026, 5, 4)]
        # Before midnight of the year's last day in New York it is past it in UTC.
        late = datetime(9999, 12, 31, 23, 30, tzinfo=timezone(timedelta(hours=-5)))
        early = datetime(1, 1, 1, tzinfo=timezone(timedelta(hours=2)))
        past = "expected a datetime with a time zone, of the years 1 to 9999 in UTC"
        self.compare(
            (
                (lambda: RangeSet([days]).covers(1, 2), TypeError, "expected a date, not int: the kind is 'date'"),
                (lambda: 1 in RangeSet([days]), TypeError, "expected a date, not int: the kind is 'date'"),
                (lambda: RangeMap([(days, "x")])[1], TypeError, "expected a date, not int: the kind is 'date'"),
                (lambda: RangeMap([(days, "x"), ((1, 2), "y")]), TypeError, "expected a date, not int: the kind is 'date'"),
                (lambda: RangeSet([(late, None)]), OverflowError, past),
                (lambda: RangeSet([(None, early)], kind="datetime[UTC]"), OverflowError, past),
                (lambda: RangeMap([((late, None), "x")]), OverflowError, past),
            )
        )

    def test_counts_of_floats(self):
        some, fit = RangeSet([(0.5, 1.5)]), f"{UNCOUNTED}, so no number of them fits anywhere: look at the lengths of gaps()"
        self.compare(
            (
                (lambda: some.rank(1.0), TypeError, UNCOUNTED),
                (lambda: some.select(0), TypeError, UNCOUNTED),
                (lambda: some.members(), TypeError, f"{UNCOUNTED}, so they can't be listed"),
                (lambda: some.first_fit(0.5, 0.0), TypeError, fit),
                (lambda: MutableRangeSet([(0.5, 1.5)]).add(0.7), TypeError, ONE_BY_ONE),
                (lambda: some.covers(0.7), TypeError, ONE_BY_ONE),
            )
        )

    def test_kinds_of_numpy(self):
        self.compare(
            (
                (
                    lambda: RangeSet(kind="datetime64[ns, UTC]"),
                    TypeError,
                    "times with a time zone have the kind 'datetime[UTC]', and not 'datetime64[ns, UTC]'",
                ),
            )
        )
        packed = pickle.dumps(RangeSet([(date(2026, 5, 1), None)])).replace(b"\x8c\x04date\x94", b"\x8c\x0ddatetime64[D]\x94")
        packed = packed.replace(packed[3:11], (len(packed) - 12).to_bytes(8, "little"))
        without = "numpy is missing, whose times are the elements of the kind datetime64[D]"
        with mock.patch.dict(sys.modules, numpy=None):
            self.compare(
                (
                    (lambda: pickle.loads(packed), ModuleNotFoundError, without),
                    (lambda: RangeSet(kind="datetime64[D]"), ModuleNotFoundError, without),
                )
            )

    def test_texts(self):
        for text, expected, position in (
            ("x", "a number", 0),
            ("  ,", "a number", 2),
            ("0", "a dot", 1),
            ("0.", "a dot", 2),
            ("0.5", "a dot", 2),
            ("0 ..5", "a dot", 1),
            ("0..x", "a number", 3),
            ("0..5x", "a comma or the end", 4),
            ("0.. x", "a comma or the end", 4),
            ("0..5 6..7", "a comma or the end", 5),
            ("0..5,", "a number", 5),
            ("0..5, ", "a number", 6),
            ("0..5,,", "a number", 5),
            ("-", "a number", 1),
            ("+x", "a number", 1),
            ("0..-", "a number", 4),
            ("0..-,", "a number", 4),
            ("0..٣", "a number", 3),
            ("..5", "a number", 0),
            ("0...5", "a number", 3),
            ("0..9223372036854775808", "a number from -2**63 to 2**63 - 1", 3),
        ):
            with self.subTest(text=text):
                with self.assertRaises(ParseError) as raised:
                    RangeSet.parse(text)
                self.assertEqual((raised.exception.expected, raised.exception.position), (expected, position))
                self.assertEqual(str(raised.exception), f"{expected} was expected at position {position}")
        unsigned = "a number from 0 to 2**64 - 1 was expected at position 2"
        self.compare(
            (
                (lambda: RangeSet.parse("0.-1", unsigned=True), ParseError, "a dot was expected at position 2"),
                (lambda: RangeSet.parse("  -1..0", unsigned=True), ParseError, unsigned),
                (lambda: RangeSet.parse(b"0..5"), TypeError, "expected a text, not bytes"),
            )
        )


# A million ranges, then calls for which the process has no memory, then the set once more.
IN_LITTLE_MEMORY = """
import pickle
import resource
from array import array
from pathlib import Path
from range_sets import MutableRangeSet, RangeSet

least, most = 0, 2_000_000
s = MutableRangeSet.from_boundaries(range(least, most))
more = RangeSet([(-2, -1)])
text, packed, values = str(s), pickle.dumps(s), array("q", range(least, most, 2))
pages = int(Path("/proc/self/statm").read_text().split()[0])
limits = resource.getrlimit(resource.RLIMIT_AS)
resource.setrlimit(resource.RLIMIT_AS, (pages * resource.getpagesize() + 4_000_000, limits[1]))
refused = 0
for call in (
    lambda: s | more, lambda: ~s, lambda: s.gaps(least, most), lambda: s.add(-2, -1), lambda: s.__ior__(more), lambda: s.add(-1),
    lambda: str(s), lambda: pickle.dumps(s), lambda: pickle.loads(packed), lambda: RangeSet.parse(text), lambda: RangeSet.from_values(values),
):
    try:
        call()
    except MemoryError:
        refused += 1
resource.setrlimit(resource.RLIMIT_AS, limits)
print(refused, s == MutableRangeSet.from_boundaries(range(least, most)), len(s | more))
"""

# Before the allocator of libc: it refuses the compiled module one request or all, after a number of others of its own.
REFUSING = """
#define _GNU_SOURCE
#include <dlfcn.h>
#include <stddef.h>
#include <string.h>
extern void *__libc_malloc(size_t size);
extern void *__libc_realloc(void *memory, size_t size);
static long left = -1, lasting = 0;
void refuse_after(long count, long lasts) { left = count; lasting = lasts; }
static int is_refused(void *caller)
{
    Dl_info found;
    return left >= 0 && dladdr(caller, &found) && strstr(found.dli_fname, "range_sets/_core")
           && (left == 0 ? (left = lasting ? 0 : -1, 1) : (left--, 0));
}
void *malloc(size_t size) { return is_refused(__builtin_return_address(0)) ? NULL : __libc_malloc(size); }
void *realloc(void *memory, size_t size) { return is_refused(__builtin_return_address(0)) ? NULL : __libc_realloc(memory, size); }
"""

# Each request of the library in turn is refused, in sets of no range, of few and of many, in chunks and not yet.
OF_THE_LIBRARY = """
import ctypes
import itertools
import os
from range_sets import MutableRangeSet, RangeSet

refuse_after = ctypes.CDLL(os.environ["LD_PRELOAD"]).refuse_after
refused = 0
few = RangeSet([(6, 7), (2501, 2509), (2600, 2900), (29991, 29999)])
# The first takes the place of some chunks, and the others want more room in one.
long = RangeSet([(5, 9000), *((10 * n + 6, 10 * n + 8) for n in range(1000, 1031))])
for count, in_chunks, lasts in itertools.product((0, 2, 255, 256, 257, 512, 3000), (False, True), (0, 1)):
    before = RangeSet([(10 * n, 10 * n + 4) for n in range(count)])
    for name, given in [
        *((name, (start, end)) for name in ("add", "discard") for start in (-5, 1, 6, 2500, 29991) for end in (start + 1, start + 700, None)),
        ("__ior__", (RangeSet([(6, 7)]),)), ("__ixor__", (RangeSet([(6, 7)]),)), ("__contains__", (5,)), ("covers", (1, 3)), ("clear", ()),
        *((name, (it,)) for name in ("__ior__", "__iand__", "__isub__", "__ixor__") for it in (few, long)), ("first_fit", (3,)),
    ]:
        for after in range(2000):
            made, again = MutableRangeSet(before), MutableRangeSet(before)
            if in_chunks:
                made.add(-99, -98)
                made.discard(-99, -98)
            kind = made.kind
            refuse_after(after, lasts)
            try:
                getattr(made, name)(*given)
                done = True
            except MemoryError:
                done = False
            if lasts and not done:
                # Nobody sees what it left off at.
                for ask in (list, len, bool, MutableRangeSet.span, MutableRangeSet.copy):
                    try:
                        assert ask(made) == ask(again), (name, given, after)
                    except MemoryError:
                        pass
            refuse_after(-1, 0)
            if done:
                break
            refused += 1
            assert made.kind == kind and len(made) == count and list(made) == list(before), (name, given, after)
            getattr(made, name)(*given)
            getattr(again, name)(*given)
            assert made == again, (name, given, after)
        assert done
print(refused > 300)
"""

# The same of maps. What was refused leaves each range and each value as it was, and no other value.
OF_A_MAP = """
import ctypes
import gc
import itertools
import os
from range_sets import RangeMap, RangeSet

refuse_after = ctypes.CDLL(os.environ["LD_PRELOAD"]).refuse_after
refused = 0
few = [((2, 4), "c"), ((3, 7), "d"), ((28, None), "a"), ((20, 30), "c")]
many = [((9 * n, 9 * n + 3), n % 3) for n in range(120)]
# Each of these wants room in a chunk of its own.
apart = [((2, 4), "c"), ((3902, 3904), "d")]
# The first takes all values away, which are put back.
wide = [((5, None), "w"), *many]
some = RangeSet([(2, 4), (6, 7), (2500, 2509), (29990, None)])
ends = [(start, end) for start in (-5, 3, 2500) for end in (start + 1, start + 700, None)]
searches = [("get", (3,)), ("overlapping", (5, 500)), ("part", (5, 500)), ("put", (3, 703, "x")), ("update", (few,)), ("clear", ())]
calls = [
    *(("put", (*it, "x")) for it in ends), *(("remove", it) for it in ends), ("update", (few,)), ("update", (many,)),
    ("update", (wide,)), ("update", (apart,)), ("__setitem__", (some, "x")), ("__delitem__", (some,)), ("clear", ()), ("copy", ()),
    ("__getitem__", (some,)), ("domain", ()), ("find", (7,)), ("gaps", (5, 500)), ("combine", (RangeMap(few), lambda a, b: 7)),
    ("combine", (RangeMap(few), lambda a, b: [a], 5)), ("modify", (slice(3, 300), lambda it: it + 1, 0)),
]
for count, lasts, is_list in itertools.product((0, 1, 3, 400), (0, 1), (False, True)):
    before = RangeMap([((10 * n, 10 * n + 6), 7 * n) for n in range(count)])
    # One that was searched is no list any more.
    is_list or before.get(3)
    for name, given in searches if is_list else calls:
        for after in range(5000):
            made, again = before.copy(), before.copy()
            refuse_after(after, lasts)
            try:
                getattr(made, name)(*given)
                done = True
            except MemoryError:
                done = False
            if lasts and not done:
                # Nobody sees what it left off at.
                for ask in (lambda it: [*it.items()], len, bool, RangeMap.span, RangeMap.copy, lambda it: it.get(3), lambda it: it.find(7),
                            lambda it: it.combine(it, max)):
                    try:
                        assert ask(made) == ask(again), (name, given, after)
                    except MemoryError:
                        pass
            refuse_after(-1, 0)
            if done:
                break
            refused += 1
            # The first of these calls goes back.
            for it in (made.copy() if after % 2 else RangeMap().combine(made, max), made):
                assert (len(it), [*it.items()], it.kind) == (count, [*before.items()], before.kind), (name, given, after)
            for it in (made, again):
                getattr(it, name)(*given)
                values = [it for it in gc.get_referents(it._steps) if it not in (made._kind, type(made._steps))]
                assert sorted(map(str, values)) == sorted({*map(str, it.values())}), (name, given, after)
            assert made == again, (name, given, after)
        assert done
print(refused > 300)
"""


class Memory(unittest.TestCase):
    @unittest.skipUnless(
        platform.libc_ver()[0] == "glibc" and shutil.which(shlex.split(os.environ.get("CC", "cc"))[0]), "expected glibc and a C compiler"
    )
    def test_each_request_of_the_library(self):
        with tempfile.TemporaryDirectory() as work:
            source, refusing = Path(work, "refusing.c"), Path(work, "refusing.so")
            source.write_text(REFUSING, encoding="utf-8")
            subprocess.run(
                [*shlex.split(os.environ.get("CC", "cc")), "-shared", "-fPIC", "-O1", source, "-o", refusing, "-ldl"], check=True
            )
            for program in (OF_THE_LIBRARY, OF_A_MAP):
                words = [sys.executable, "-c", program]
                said = subprocess.run(words, capture_output=True, text=True, env={**os.environ, "LD_PRELOAD": str(refusing)})
                self.assertEqual((said.stdout, said.stderr), ("True\n", ""))

    def test_refused_memory_changes_nothing(self):
        """In a process of its own, since it takes memory away."""
        said = subprocess.run([sys.executable, "-c", IN_LITTLE_MEMORY], capture_output=True, text=True, check=True).stdout
        self.assertEqual(said, "11 True 1000001\n")


@unittest.skipUnless(importlib.util.find_spec("_testcapi"), "this Python comes without _testcapi, which refuses memory")
class EachRequest(unittest.TestCase):
    def setUp(self):
        # Without memory Python can't say in full what went wrong.
        hook, sys.unraisablehook = sys.unraisablehook, lambda it: None
        self.addCleanup(setattr, sys, "unraisablehook", hook)

    def refuse_each(self, call, see):
        """Refuses each request for memory of a call in turn, and sees what stands after it, until the call goes through."""
        for count in range(2000):
            _testcapi.set_nomemory(count, count + 1)
            try:
                return call()
            except MemoryError:
                pass
            finally:
                _testcapi.remove_mem_hooks()
            see()
        self.fail("there is no end of requests")

    def test_of_the_compiled_module(self):
        a, b, packed = q(0, 10, 20), q(5, 15), _core.pack(q(0, 10, 20))
        for call, given in (
            (_core.union, (a, b)),
            (_core.negation, (a,)),
            (_core.from_boundaries, (a,)),
            (_core.from_ranges, (b,)),
            (_core.from_values, (b,)),
            (_core.places, (a, b)),
            (_core.ranks, (a, b)),
            (_core.range_at, (a, 5)),
            (_core.select, (a, 2**40)),
            (_core.parse, (b"0..10, 20..", False)),
            (_core.print, (a,)),
            (_core.pack, (a,)),
            (_core.unpack, (packed,)),
            (_core.lengths_of_floats, (q(0, 10, 2**62, 2**62 + 5),)),
            (_core.mirror, (memoryview(b"." + bytes(8))[1:].cast("q"), q(5))),
            (_core.moved, (_core.from_boundaries(a), -(2**63), 2**63 - 1, -(2**63) - 5, 2**63, True, False)),
            (_core.at_least, (_core.from_boundaries(a), 5)),
            (_core.first_fit_aligned, (a, 2**40, 2**41, 5, 2**36)),
            (_core.first_run, (a, 2**40, 2**41, 5)),
            (_core.union, (memoryview(b"." + bytes(16))[1:].cast("q")[:1], b)),
            (_core.from_values, (q(2**63 - 1),)),
        ):
            expected, found = call(*given), self.refuse_each(lambda: call(*given), lambda: None)
            if isinstance(expected, _core.Boundaries):
                expected, found = memoryview(expected), memoryview(found)
            self.assertEqual(found, expected)
        self.assertEqual((a, b), (q(0, 10, 20), q(5, 15)))

    def test_of_a_set_that_changes(self):
        two, now = _core.from_boundaries(q(-5, -3, 7, 9)), attrgetter("now")
        for name, given in (
            ("insert", (-5, 15)),
            ("insert", (None, None)),
            ("remove", (3, 5)),
            ("union", (two,)),
            ("union", (two[:2],)),
            ("intersection", (two,)),
            ("difference", (two,)),
            ("symmetric_difference", (two,)),
            ("near", (two,)),
            ("now", ()),
        ):
            for changed in (False, True):
                for has_kind in (False, True):
                    before = q(0, 10, 20) if has_kind else q()
                    made = _core.Chunks(_core.from_boundaries(before), KIND if has_kind else NO_KIND)
                    if changed:
                        made.insert(15, 16, made.kind, made.kind)
                        made.remove(15, 16, made.kind, made.kind)
                    kinds = (made.kind,) if name == "near" else (made.kind, KIND)
                    call = partial(now, made) if name == "now" else partial(getattr(made, name), *given, *kinds)
                    kind = made.kind

                    def see():
                        self.assertEqual((list(made.now[0]), made.now[1], made.kind), (before.tolist(), kind, kind))

                    self.refuse_each(call, see)

    def test_a_range_of_nothing_takes_no_memory(self):
        for before in (q(), q(0, 10, 20), q(*range(6000))):
            for name in ("insert", "remove"):
                for start, end in ((1, 1), (5, -5)):
                    made = _core.Chunks(_core.from_boundaries(before), KIND)
                    call = getattr(made, name)
                    _testcapi.set_nomemory(0)
                    try:
                        done = call(start, end, KIND, KIND)
                    finally:
                        _testcapi.remove_mem_hooks()
                    self.assertEqual((done, list(made.now[0])), (True, before.tolist()))

    # Later Pythons may end with a segmentation fault where a request of their own is refused, also in a generator of one line.
    @unittest.skipIf(sys.version_info >= (3, 12), "Pythons from 3.12 on don't outlive that a request of theirs is refused")
    def test_it_is_refused_and_nothing_changes(self):
        for start, end, more in (
            (0, 10, 20),
            (0.5, 1.5, 2.5),
            (date(2026, 5, 1), date(2026, 5, 3), date(2026, 5, 9)),
            (IPv4Address("10.0.0.0"), IPv4Address("10.0.0.9"), IPv4Address("10.0.1.0")),
            (datetime(2026, 5, 1), datetime(2026, 5, 2), datetime(2026, 5, 3)),
            (timedelta(1), timedelta(2), timedelta(4)),
        ):
            made, kept, other = MutableRangeSet((start, end)), RangeSet((start, end)), RangeSet((end, more))
            for call in (
                lambda: made | other,
                lambda: made.add(end, more),
                lambda: made.discard(start, end),
                lambda: made.__ior__(other),
                lambda: made.update([(end, more)]),
                lambda: made.__ixor__(other),
                lambda: made.intersection_update([(end, more)]),
                lambda: ~made,
                lambda: made.copy(),
                lambda: made.gaps(start, more),
                lambda: repr(made),
                lambda: list(made),
                lambda: str(made),
                lambda: RangeSet([(start, end), (end, more)]),
                lambda: made.split(end),
            ):
                self.refuse_each(call, lambda: self.assertEqual((made, made.kind, list(made)), (kept, kept.kind, list(kept))))
                made = MutableRangeSet(kept)


class Pickles(unittest.TestCase):
    def test_errors(self):
        for error in (NoRoom(4), NotSorted("a list isn't strictly sorted"), ParseError("a dot", 3)):
            again = pickle.loads(pickle.dumps(error))
            self.assertEqual((type(again), again.args, str(again)), (type(error), error.args, str(error)))
            self.assertEqual(vars(again), vars(error))


if __name__ == "__main__":
    unittest.main()
