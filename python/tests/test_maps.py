"""RangeMap: rows, made-up changes compared with a dict, and values whose `==` and release are watched."""

import contextlib
import copy
import gc
import pickle
import random
import signal
import sys
import threading
import time
import tracemalloc
import unittest
import warnings
import weakref
from array import array
from datetime import date, datetime, timezone
from ipaddress import IPv4Address, IPv4Network
from itertools import groupby, product

from range_sets import MutableRangeSet, RangeMap, RangeSet

try:
    import _testcapi
except ImportError:
    _testcapi = None

MOST, LEAST = 2**63 - 1, -(2**63)

ITEMS = [((0, 2), "b"), ((2, 4), "a"), ((4, 5), "b"), ((5, 6), "a"), ((9, None), "b")]

# What is changed, with what, and the items after it.
ROWS = [
    ("the first range", [], slice(9, 12), "a", [((9, 12), "a")]),
    ("over an end", [((9, 12), "a")], slice(11, 14), "b", [((9, 11), "a"), ((11, 14), "b")]),
    ("within", [((9, 17), "a")], slice(12, 13), "b", [((9, 12), "a"), ((12, 13), "b"), ((13, 17), "a")]),
    ("within, the same value", [((9, 17), "a")], slice(12, 13), "a", [((9, 17), "a")]),
    ("between equal values", [((0, 5), "a"), ((9, 17), "a")], slice(5, 9), "a", [((0, 17), "a")]),
    ("between other values", [((0, 5), "a"), ((9, 17), "a")], slice(5, 9), "b", [((0, 5), "a"), ((5, 9), "b"), ((9, 17), "a")]),
    ("an empty range", [((9, 12), "a")], slice(10, 10), "b", [((9, 12), "a")]),
    ("a reversed range", [((9, 12), "a")], slice(12, 9), "b", [((9, 12), "a")]),
    ("without an end", [((1, 3), "a"), ((4, 6), "b")], slice(2, None), "c", [((1, 2), "a"), ((2, None), "c")]),
    ("without a start", [((1, 3), "a")], slice(None, 2), "c", [((LEAST, 2), "c"), ((2, 3), "a")]),
    ("all keys", [((1, 3), "a")], slice(None, None), "c", [((LEAST, None), "c")]),
    ("a range of Python's", [], range(3, 6), "a", [((3, 6), "a")]),
    ("out of the middle", [((9, 17), "a")], slice(12, 13), None, [((9, 12), "a"), ((13, 17), "a")]),
    ("out from a key on", [((1, 3), "a"), ((4, 6), "b")], slice(2, None), None, [((1, 2), "a")]),
    ("out where nothing is", [((1, 3), "a")], slice(3, 9), None, [((1, 3), "a")]),
    ("out of all", [((1, 3), "a")], slice(None), None, []),
    ("a set", [((1, 6), "a")], RangeSet([(0, 2), (4, 5), (9, None)]), "b", ITEMS),
    ("a set of nothing", [((1, 3), "a")], RangeSet(), "b", [((1, 3), "a")]),
    ("out of a set", [((1, 6), "a")], RangeSet([(0, 2), (4, 5)]), None, [((2, 4), "a"), ((5, 6), "a")]),
    ("out of a set that changes", [((1, 6), "a")], MutableRangeSet([(2, 9)]), None, [((1, 2), "a")]),
]

# Which part of `ITEMS` is read, and what it has.
PARTS = [
    ("within a range", slice(3, 4), [((3, 4), "a")]),
    ("over ends", slice(1, 5), [((1, 2), "b"), ((2, 4), "a"), ((4, 5), "b")]),
    ("without an end", slice(5, None), [((5, 6), "a"), ((9, None), "b")]),
    ("without a start", slice(None, 3), [((0, 2), "b"), ((2, 3), "a")]),
    ("all", slice(None), ITEMS),
    ("nothing", slice(6, 9), []),
    ("an empty range", slice(3, 3), []),
    ("a reversed range", slice(5, 3), []),
    ("a range of Python's", range(8, 12), [((9, 12), "b")]),
    ("a set", RangeSet([(1, 3), (5, 20)]), [((1, 2), "b"), ((2, 3), "a"), ((5, 6), "a"), ((9, 20), "b")]),
    ("a set of nothing", RangeSet(), []),
]


def kept(made):
    """The values that a map keeps, each once."""
    others = {id(made._kind), id(type(made._steps))}
    return [it for it in gc.get_referents(made._steps) if id(it) not in others]


def pickle_twice(made):
    return pickle.loads(pickle.dumps(pickle.loads(pickle.dumps(made, 2))))


class Watched:
    """A value whose `==` raises the error that it is given, and which a weak reference can follow."""

    raises = None

    def __init__(self, name):
        self.name = name

    def __eq__(self, other):
        if Watched.raises:
            raise Watched.raises("an ==")
        return self.name == other.name


class Hashed(Watched):
    def __hash__(self):
        return hash(self.name)


class Rows(unittest.TestCase):
    def test_changes(self):
        for what, before, keys, value, after in ROWS:
            with self.subTest(what=what):
                changed = RangeMap(before)
                if value is None:
                    del changed[keys]
                else:
                    changed[keys] = value
                self.assertEqual(list(changed.items()), after)
                self.assertEqual(len(changed), len(after))
                self.assertEqual(list(changed), [keys for keys, _ in after])
                self.assertEqual([*zip(changed.keys(), changed.values())], after)
                self.assertEqual(changed.span(), (after[0][0][0], after[-1][0][1]) if after else None)
                self.assertEqual(changed, RangeMap(after))
                self.assertEqual(bool(changed), bool(after))

    def test_put_and_remove(self):
        for what, before, keys, value, after in ROWS:
            if isinstance(keys, slice):
                with self.subTest(what=what):
                    changed = RangeMap(before)
                    if value is None:
                        changed.remove(keys.start, keys.stop)
                    else:
                        changed.put(keys.start, keys.stop, value)
                    self.assertEqual(list(changed.items()), after)

    def test_parts(self):
        for what, keys, items in PARTS:
            with self.subTest(what=what):
                made = RangeMap(ITEMS)
                part = made[keys]
                self.assertEqual((type(part), [*part.items()], part.kind), (RangeMap, items, "int"))
                part[:] = "c"
                self.assertEqual([*made.items()], ITEMS)
        self.assertEqual(RangeMap()[3:5], RangeMap())
        self.assertEqual(RangeMap(unsigned=True)[RangeSet([(0, 5)], unsigned=True)].kind, "unsigned")

    def test_pop(self):
        for key, value, left in ((0, "b", ITEMS[1:]), (3, "a", [ITEMS[0], *ITEMS[2:]]), (MOST, "b", ITEMS[:4])):
            made = RangeMap(ITEMS)
            self.assertEqual((made.pop(key), [*made.items()]), (value, left))
        made = RangeMap(ITEMS)
        self.assertRaises(KeyError, made.pop, 6)
        self.assertRaises(KeyError, RangeMap().pop, 6)
        self.assertRaises(TypeError, made.pop, "x", None)
        self.assertEqual((made.pop(6, None), made.pop(2**70, 5), [*made.items()]), (None, 5, ITEMS))

    def test_sources(self):
        low, high = RangeSet([(0, 2), (4, 6)]), range(5, 9)
        expected = [((0, 2), "low"), ((4, 5), "low"), ((5, 9), "high")]
        for source in (
            {low: "low", high: "high"},
            [(low, "low"), (high, "high")],
            [[low, "low"], [[5, 9], "high"]],
            RangeMap({low: "low", high: "high"}),
        ):
            self.assertEqual([*RangeMap(source).items()], expected)

    def test_pairs_that_are_read_in_other_ways(self):
        """Pairs of Python's own numbers are read at once, and others one by one: both make the same map."""

        class Number(int):
            pass

        rows = [(0, 5), (3, 9), (7, 7), (9, 2), (20, None), (None, -5), (LEAST, LEAST), (MOST, None), (-3, LEAST), (4, MOST)]
        for unsigned in (False, True):
            pairs = [it for it in rows if not unsigned or all(end is None or end >= 0 for end in it)]
            plain = RangeMap([(it, at % 3) for at, it in enumerate(pairs)], unsigned=unsigned)
            one_by_one = RangeMap(unsigned=unsigned)
            for at, it in enumerate(pairs):
                one_by_one.put(*it, at % 3)
            self.assertEqual((plain, plain.kind), (one_by_one, one_by_one.kind))
            for form in (list, lambda it: slice(*it), lambda it: tuple(None if end is None else Number(end) for end in it)):
                self.assertEqual(RangeMap([[form(it), at % 3] for at, it in enumerate(pairs)], unsigned=unsigned), plain)
                self.assertEqual(RangeMap([(form(it), at % 3) for at, it in enumerate(pairs)], unsigned=unsigned), plain)
        self.assertEqual(
            (RangeMap([((0, 2), "a")]).kind, RangeMap([((7, 7), "a")]).kind, RangeMap([((5, 2), [])])), ("int", None, RangeMap())
        )
        for wrong in ((0, 2**63), (-(2**63) - 1, 0), (2**64, None)):
            self.assertRaises(OverflowError, RangeMap, [((0, 1), "a"), (wrong, "b")])
        self.assertRaises(OverflowError, RangeMap, [((0, 1), "a"), ((-1, 5), "b")], unsigned=True)
        for wrong in ([((0, 1), "a"), 5], [((0, 1, 2), "a")], [((0, 1), "a", "b")], [((0, 1.5), "a")], 5, [(("0", 1), "a")]):
            self.assertRaises((TypeError, ValueError), RangeMap, wrong)

    def test_later_ranges_win(self):
        items = [((0, 9), "a"), ((3, 12), "b"), (range(5, 6), "a")]
        expected = [((0, 3), "a"), ((3, 5), "b"), ((5, 6), "a"), ((6, 12), "b")]
        self.assertEqual(list(RangeMap(items).items()), expected)
        self.assertEqual(list(RangeMap(RangeMap(items)).items()), expected)
        self.assertEqual(list(RangeMap({(0, 9): "a", (9, 12): "b"}).items()), [((0, 9), "a"), ((9, 12), "b")])

    def test_questions(self):
        names = RangeMap([((0, 10), "low"), ((20, 30), "high"), ((30, None), "top")])
        self.assertEqual([names.get(x) for x in (-1, 0, 9, 10, 20, 29, 30, MOST)], [None, "low", "low", None, "high", "high", "top", "top"])
        self.assertEqual(names[25], "high")
        self.assertEqual(names.get(15, 7), 7)
        self.assertTrue(5 in names and 15 not in names and 2**70 not in names)
        self.assertEqual(names.range_at(25), ((20, 30), "high"))
        self.assertIsNone(names.range_at(15))
        self.assertEqual(names.overlapping(5, 25), [((0, 10), "low"), ((20, 30), "high")])
        self.assertEqual(names.overlapping(10, 20), [])
        self.assertEqual(names.overlapping(9, 10), [((0, 10), "low")])
        self.assertEqual(names.overlapping(None, 1), [((0, 10), "low")])
        self.assertEqual(names.overlapping(29, None), [((20, 30), "high"), ((30, None), "top")])
        self.assertEqual(names.overlapping(25, 5), [])
        for one in ((5, 25), [5, 25], range(5, 25)):
            self.assertEqual(names.overlapping(one), names.overlapping(5, 25))
        self.assertEqual((names.overlapping(29), names.overlapping(15)), ([((20, 30), "high")], []))
        self.assertEqual(names.gaps(5, 25), RangeSet([(10, 20)]))
        self.assertEqual(names.gaps(), RangeSet([(None, 0), (10, 20)]))
        self.assertEqual(names.domain(), RangeSet([(0, 10), (20, None)]))
        self.assertEqual(names.find("high"), RangeSet([(20, 30)]))
        self.assertEqual(names.find("none"), RangeSet())
        self.assertEqual(RangeMap().domain(), RangeSet())

    def test_what_the_compiled_module_is_given(self):
        made = RangeMap([((0, 10), "low")])
        steps, kind = made._steps, made._kind
        ends = array("q", [3, 5]).tobytes()
        for given in (
            (),
            (ends, ("a",), kind),
            (array("q", [3, 5]), ("a",), kind, kind),
            (ends, ["a"], kind, kind),
            (ends, ["a"]),
            (ends, None),
            (RangeSet([(3, 5)], unsigned=True)._now[0], ("a",), kind, kind),
        ):
            self.assertRaises(TypeError, steps.change, *given)
        self.assertIs(steps.change(ends, ("a",), object(), kind), False)
        for given in ((bytes(24), ("a",)), (ends, ("a", "b")), (ends, ("a",))):
            self.assertRaises(ValueError, steps.change, *given)
            if given[1] != ("a",) or len(given[0]) == 24:
                self.assertRaises(ValueError, steps.change, *given, kind, kind)
        self.assertRaises(TypeError, steps.part, [3, 5])
        self.assertRaises(TypeError, steps.part, ends)
        self.assertRaises(TypeError, steps.part, RangeSet([(3, 5)], unsigned=True)._now[0])
        self.assertRaises(TypeError, steps.equals, made)
        for given in ((), (steps, max, None), (made, max, None, None), (RangeMap(unsigned=True)._steps, max, None, None)):
            self.assertRaises(TypeError, steps.combine, *given)
        self.assertRaises(TypeError, steps.copy, None)
        for given in ((0,), (0, 1, 2), ("x", 5), (0, 5.5)):
            self.assertRaises(TypeError, steps.items, *given)
        self.assertRaises(OverflowError, steps.keys, 0, 2**64)
        self.assertRaises(TypeError, type(steps.items(0, 1)))
        # Without numpy there is no array of objects.
        for given in (
            (),
            (array("q", [3]), bytes(2), None, array("q", [0])),
            (array("Q", [3]), bytes(1), None, array("q", [0])),
            (array("q", [3]), [0], None, array("q", [0])),
            (array("q", [3]), bytes(1), None, array("q", [0])),
            (array("q", [3]), bytes(1), None, bytes(8)),
        ):
            self.assertRaises((TypeError, BufferError), steps.get_each, *given)
        self.assertRaises(TypeError, steps.get, "x", None)
        self.assertRaises(OverflowError, steps.range_at, 2**63, None)
        self.assertEqual(list(made.items()), [((0, 10), "low")])
        self.assertIs(steps.change(ends, ("a",), kind, kind), True)
        self.assertEqual(len(made), 3)

    def test_errors(self):
        names = RangeMap([((0, 10), "low")])
        other_sets = RangeSet([(3, 5)], unsigned=True), RangeSet([(date(2026, 1, 1), None)])
        for key in (10, -1, 2**70):
            with self.assertRaises(KeyError):
                names[key]
        for wrong in ("x", 5.5, None, date(2026, 1, 1), (0, 10)):
            with self.subTest(wrong=wrong):
                self.assertRaises(TypeError, lambda: names[wrong])
                self.assertRaises(TypeError, lambda: names.get(wrong))
                self.assertRaises(TypeError, lambda: wrong in names)
        for keys in (5, "x", (1, 2), slice(1, 9, 2), slice("a", "b"), slice(date(2026, 1, 1), None), *other_sets):
            with self.subTest(keys=keys):
                self.assertRaises(TypeError, names.__setitem__, keys, "a")
                self.assertRaises(TypeError, names.__delitem__, keys)
                if not isinstance(keys, int):
                    self.assertRaises(TypeError, names.__getitem__, keys)
        for start, end in (("a", 5), (date(2026, 1, 1), None)):
            self.assertRaises(TypeError, names.put, start, end, "a")
            self.assertRaises(TypeError, names.remove, start, end)
        self.assertRaisesRegex(TypeError, r"RangeMap\(unsigned=True\)", RangeMap().__setitem__, other_sets[0], "a")
        self.assertRaises(TypeError, dict, names)
        self.assertRaises(OverflowError, names.overlapping, 2**64)
        self.assertRaises(OverflowError, names.__setitem__, slice(0, 2**64), "a")
        self.assertRaises(OverflowError, RangeMap(unsigned=True).__setitem__, slice(-1, 5), "a")
        self.assertRaises(TypeError, hash, names)
        self.assertRaises(TypeError, names.combine, {}, max)
        self.assertRaises(TypeError, names.combine, RangeMap([((0, 1), "a")], unsigned=True), max)
        self.assertRaises(TypeError, names.overlapping, date(2026, 1, 1), None)
        self.assertRaises(TypeError, names.gaps, date(2026, 1, 1), None)
        self.assertEqual(list(names.items()), [((0, 10), "low")])


class Kinds(unittest.TestCase):
    def test_each_kind(self):
        zone = timezone.utc
        for kind, low, mid, high in [
            ("int", 1, 5, 9),
            ("unsigned", 1, 5, 2**64 - 1),
            ("float", 0.5, 1.0, 2.5),
            ("date", date(2026, 1, 1), date(2026, 1, 5), date(2026, 2, 1)),
            ("datetime", datetime(2026, 1, 1), datetime(2026, 1, 5), datetime(2026, 2, 1)),
            ("datetime[UTC]", datetime(2026, 1, 1, tzinfo=zone), datetime(2026, 1, 5, tzinfo=zone), datetime(2026, 2, 1, tzinfo=zone)),
            ("IPv4Address", IPv4Address("10.0.0.0"), IPv4Address("10.0.1.0"), IPv4Address("10.0.2.0")),
        ]:
            with self.subTest(kind=kind):
                made = RangeMap([((low, high), "a")], kind=kind)
                made.put(mid, high, "b")
                self.assertEqual(made[mid:], RangeMap([((mid, high), "b")], kind=kind))
                self.assertEqual(made[RangeSet([(low, mid)], kind=kind)], RangeMap([((low, mid), "a")], kind=kind))
                self.assertEqual((made.span(), made.overlapping((low, mid))), ((low, high), [((low, mid), "a")]))
                self.assertEqual(made.kind, kind)
                self.assertEqual(list(made.items()), [((low, mid), "a"), ((mid, high), "b")])
                self.assertEqual((made[low], made[mid], high in made), ("a", "b", False))
                self.assertEqual(made.domain(), RangeSet([(low, high)], kind=kind))
                self.assertEqual(made.find("b"), RangeSet([(mid, high)], kind=kind))
                self.assertEqual(pickle.loads(pickle.dumps(made)), made)
                if kind != "unsigned":
                    untold = RangeMap()
                    self.assertIsNone(untold.kind)
                    self.assertIsNone(untold.get(low))
                    untold[low:high] = "a"
                    self.assertEqual(untold.kind, kind)

    def test_networks(self):
        owners = RangeMap()
        owners[IPv4Network("10.0.0.0/8")] = "all"
        owners[IPv4Network("10.0.1.0/24")] = "one"
        self.assertEqual(owners[IPv4Address("10.0.1.7")], "one")
        self.assertEqual(owners[IPv4Address("10.0.2.7")], "all")
        owners[IPv4Network("255.0.0.0/8")] = "last"
        self.assertEqual(owners.range_at(IPv4Address("255.255.255.255")), ((IPv4Address("255.0.0.0"), None), "last"))

    def test_texts_of_addresses(self):
        for kind, texts in (
            ("IPv4Address", ["10.0.0.0/8", "9.0.0.1-10.0.0.3", "::/0"]),
            ("IPv6Address", ["2::/16", "::1-2::", "10.0.0.0/8"]),
        ):
            made = RangeMap(zip(texts[:2], "ab"), kind=kind)
            self.assertEqual((made.find("b"), made.domain()), (RangeSet(texts[1:2], kind=kind), RangeSet(texts[:2], kind=kind)))
            self.assertRaises(ValueError, made.update, {texts[2]: 1})
            self.assertRaises(TypeError, RangeMap, {texts[0]: 1}, kind="int")


class BesideCells:
    """A map beside a list that has a cell for each of its keys: the place of the key's value in a pool, or None."""

    def __init__(self, test, numbers, pool, keys):
        self.test, self.numbers, self.pool, self.keys = test, numbers, pool, keys
        self.made, self.cells = RangeMap(), [None] * keys

    def range_of(self, longest):
        start = self.numbers.randrange(self.keys)
        return start, min(self.keys, start + self.numbers.randrange(longest))

    def parts(self, count):
        """Made-up ranges, each with the place of a value."""
        return [(self.range_of(30), self.numbers.randrange(len(self.pool))) for _ in range(count)]

    def value(self, at):
        return copy.deepcopy(self.pool[at])

    def put(self, start, end, at):
        self.cells[start:end] = [at] * max(0, end - start)

    def items(self, start, end):
        """What the map should have between two keys."""
        runs = [(key, list(run)) for key, run in groupby(range(start, end), self.cells.__getitem__)]
        return [((run[0], run[-1] + 1), self.pool[at]) for at, run in runs if at is not None]

    def change(self):
        """Changes both in one of these ways."""
        parts = self.parts(self.numbers.choice([1, 3, 40, 200]))
        ways = [
            self.put_one,
            self.remove_one,
            self.put_set,
            self.remove_set,
            self.pop_one,
            self.refuse_last,
            self.copy_all,
            self.update_all,
        ]
        ways[self.numbers.randrange(len(ways))](parts)

    def put_one(self, parts):
        (start, end), at = parts[0]
        self.made.put(start, end, self.value(at))
        self.put(start, end, at)

    def remove_one(self, parts):
        start, end = self.range_of(300)
        self.made.remove(start, end)
        self.put(start, end, None)

    def put_set(self, parts):
        at, keys = parts[0][1], RangeSet([pair for pair, _ in parts])
        self.made[keys] = self.value(at)
        for start, end in keys:
            self.put(start, end, at)

    def remove_set(self, parts):
        keys = RangeSet([pair for pair, _ in parts[:5]])
        del self.made[keys]
        for start, end in keys:
            self.put(start, end, None)

    def pop_one(self, parts):
        key = self.numbers.randrange(self.keys)
        found = next((it for it in self.items(0, self.keys) if it[0][0] <= key < it[0][1]), None)
        self.test.assertEqual(self.made.pop(key, "nothing"), "nothing" if found is None else found[1])
        if found:
            self.put(*found[0], None)

    def refuse_last(self, parts):
        pairs = [(pair, self.value(at)) for pair, at in parts]
        self.test.assertRaises(OverflowError, self.made.update, [*pairs, ((0, 2**64), "a")])

    def copy_all(self, parts):
        """Goes on with a copy, which the first map's end doesn't change. An empty map is changed as by `update_all`."""
        if self.cells.count(None) == self.keys:
            self.update_all(parts)
            return
        copied = self.numbers.choice([RangeMap.copy, copy.deepcopy, lambda it: it[:], RangeMap, pickle_twice])
        same, self.made = self.made, copied(self.made)
        same.clear()

    def update_all(self, parts):
        self.made.update([(pair, self.value(at)) for pair, at in parts])
        for pair, at in parts:
            self.put(*pair, at)

    def check(self):
        """Asks the map what the cells say."""
        equal, made, cells, pool = self.test.assertEqual, self.made, self.cells, self.pool
        expected = self.items(0, self.keys)
        equal([*made.items()], expected)
        equal([*map(type, made.values())], [type(value) for _, value in expected])
        equal((len(made), {*map(id, kept(made))}), (len(expected), {*map(id, made.values())}))
        start, end = self.range_of(500)
        equal([*made[start:end].items()], self.items(start, end))
        equal(made.gaps(start, end), RangeSet([(x, x + 1) for x in range(start, end) if cells[x] is None]))
        equal(made.domain(), RangeSet([pair for pair, _ in expected]))
        at = self.numbers.randrange(len(pool))
        equal(made.find(self.value(at)), RangeSet([(x, x + 1) for x in range(self.keys) if cells[x] == at]))
        equal([made.get(x, pool) for x in range(start, end)], [pool if cells[x] is None else pool[cells[x]] for x in range(start, end)])
        equal(made.overlapping(start, end), [it for it in expected if it[0][0] < end and it[0][1] > start and start < end])


class MadeUp(unittest.TestCase):
    """Beside a dict of each key's value: the last key also stands for all above."""

    KEYS = 30

    def expected(self, cells):
        found, key = [], 0
        while key < self.KEYS:
            end = next((i for i in range(key, self.KEYS) if cells.get(i) != cells.get(key)), None)
            if key in cells:
                found.append(((key, end), cells[key]))
            key = self.KEYS if end is None else end
        return found

    def test_as_a_dict(self):
        numbers = random.Random(5)
        for case in range(300):
            made, cells = RangeMap(), {}
            for _ in range(12):
                start, end, value = numbers.randrange(self.KEYS), numbers.randrange(self.KEYS), numbers.choice(["a", "b", [1], None])
                end = None if numbers.random() < 0.1 else end
                for key in range(start, self.KEYS if end is None else end):
                    if case % 2 and key == self.KEYS // 2:
                        continue
                    cells.pop(key, None)
                    if value is not None:
                        cells[key] = value
                keys = RangeSet([(start, end)]).remove(self.KEYS // 2) if case % 2 else slice(start, end)
                if value is None:
                    del made[keys]
                else:
                    made[keys] = copy.copy(value)
                self.check(made, cells, case)

    def check(self, made, cells, case):
        expected = self.expected(cells)
        self.assertEqual(list(made.items()), expected, case)
        self.assertEqual([made.get(x) for x in range(self.KEYS)], [cells.get(x) for x in range(self.KEYS)])
        self.assertEqual(made.get(MOST), cells.get(self.KEYS - 1))
        for x in range(self.KEYS):
            self.assertEqual(made.range_at(x), next((it for it in expected if it[0][0] <= x and (it[0][1] is None or x < it[0][1])), None))
        keys = [x for x in range(self.KEYS) if x in cells]
        within = range(7, 21)
        self.assertEqual([*made.gaps(7, 21).members()], [x for x in within if x not in cells])
        meets = [it for it in expected if it[0][0] < 21 and (it[0][1] is None or it[0][1] > 7)]
        self.assertEqual(made.overlapping(7, 21), meets)
        some = RangeSet([(7, 11), (12, 21)])
        self.assertEqual([*made[some].items()], self.expected({x: cells[x] for x in some.members() if x in cells}))
        self.assertEqual([x for x in range(self.KEYS) if x in made.domain()], keys)
        for value in ("a", [1], "none"):
            self.assertEqual([x for x in range(self.KEYS) if x in made.find(value)], [x for x in keys if cells[x] == value])
        self.assertEqual({*map(id, kept(made))}, {*map(id, made.values())}, "what no range has is released")

    def test_of_many_ranges(self):
        """Maps of some hundred ranges beside a list of each key's value; of many values some are equal and of other types."""
        pool = ["a", "b", 1, True, 1.0, None, (1,), [1], [2], {"a": 1}, *range(2**20, 2**20 + 20 * 2**12, 2**12)]
        for seed in range(4):
            beside = BesideCells(self, random.Random(seed), pool, 4000)
            for _ in range(150):
                beside.change()
                beside.check()

    def test_a_million_ranges(self):
        """They are put in in any order, asked, saved and read back."""
        count = 10**6
        places = [*range(count)]
        random.Random(59).shuffle(places)
        made = RangeMap(((20 * at, 20 * at + 10), at % 7) for at in places)
        self.assertEqual(len(made), count)
        self.assertTrue(all(made.get(20 * at + 9) == at % 7 and made.get(20 * at + 10) is None for at in places[::10]))
        self.assertEqual(sum(item == ((20 * at, 20 * at + 10), at % 7) for at, item in enumerate(made.items())), count)
        read = pickle.loads(pickle.dumps(made))
        self.assertEqual(read, made)
        del read[:10]
        self.assertEqual((len(read), len(made), read == made), (count - 1, count, False))

    def test_iterators_beside_changes(self):
        """Between two steps values may change, and an iterator goes on with what the map then has. After a change of how many ranges there
        are each step raises an error, until the iterator has ended."""
        some, longest, raised = random.Random(9), 0, 0
        for case in range(600):
            made, cells = RangeMap([((3 * n, 3 * n + 2), str(n)) for n in range(10)]), {}
            for n in range(10):
                cells |= {3 * n: str(n), 3 * n + 1: str(n)}
            low, high = some.choice([(None, None), (7, 21), (7, None), (None, 21), (7, 7)])
            ways = {"items": made._steps.items, "keys": made._steps.keys, "values": made._steps.values}
            ways |= {"all": lambda *_: made.items(), "list": lambda *_: iter(made)} if (low, high) == (None, None) else {}
            way = some.choice([*ways])
            left, at, count, is_ended = ways[way](low, high), low or 0, 0, False
            while not is_ended:
                if some.random() < 0.3:
                    keys, value = some.choice([*made.keys()]), some.choice(["a", "b", [1]])
                    made.put(*keys, value)
                    cells |= {key: value for key in range(*keys)}
                if some.random() < 0.03:
                    keys = some.randrange(20), some.randrange(20, 30)
                    made.put(*keys, "z")
                    cells |= {key: "z" for key in range(*keys)}
                later = [it for it in self.expected(cells) if it[0][1] > at and at < (high or 99) and it[0][0] < (high or 99)]
                if len(made) != 10 and at < (high or 99):
                    for _ in range(2):
                        self.assertRaisesRegex(RuntimeError, "more or fewer ranges", next, left)
                    raised += 1
                    break
                is_ended = not later
                expected = later[0] if later else None
                at, count = (expected[0][1], count + 1) if later else (at, count)
                self.assertEqual(
                    next(left, None), expected if way in ("items", "all") or is_ended else expected[way == "values"], (case, way)
                )
            if is_ended:
                made.put(0, None, "z")
                self.assertEqual([*left], [], "it has ended")
            longest = max(longest, count)
        self.assertTrue(longest == 10 and raised > 50, (longest, raised))

    def test_equal_maps(self):
        """Maps are equal if each key has one value in both, however they were made."""
        some, answers = random.Random(13), []
        for case in range(600):
            maps, cells = [], []
            for _ in range(2):
                of = {}
                for _ in range(some.randrange(3)):
                    start, end, value = some.randrange(6), some.randrange(8), some.choice([1, True, 1.0, "a", [1]])
                    of |= {key: value for key in range(start, end)}
                keys = some.sample([*of], len(of))
                maps.append(RangeMap([((key, key + 1), copy.copy(of[key])) for key in keys], kind="int"))
                cells.append({key: (type(value), value) for key, value in of.items()})
            answers.append(cells[0] == cells[1])
            self.assertEqual((maps[0] == maps[1], maps[0] != maps[1]), (answers[-1], not answers[-1]), case)
        self.assertTrue(20 < sum(answers) < 580)
        for end in (5, None):
            self.assertNotEqual(RangeMap([((0, 4), "a")]), RangeMap([((0, end), "a")]))
        self.assertNotEqual(RangeMap([((LEAST, LEAST + 1), "a")]), RangeMap([((LEAST, None), "a")]))

    def test_combine(self):
        numbers = random.Random(7)
        for case in range(300):
            maps, cells = [], []
            for _ in range(2):
                made, of = RangeMap(), {}
                for _ in range(numbers.randrange(6)):
                    start, end, value = numbers.randrange(self.KEYS), numbers.randrange(self.KEYS), 1 + numbers.randrange(3)
                    made[start:end] = value
                    of |= {key: value for key in range(start, end)}
                maps.append(made)
                cells.append(of)
            (a, b), (one, other) = maps, cells
            calls = []

            def how(x, y):
                calls.append((x, y))
                return x * 10 + y

            both = a.combine(b, how)
            expected = one | other | {key: one[key] * 10 + other[key] for key in one if key in other}
            self.assertEqual(list(both.items()), self.expected(expected), case)
            self.assertEqual(len(calls), len(set(calls)))
            self.assertEqual(set(calls), {(one[key], other[key]) for key in one if key in other})
            calls.clear()
            filled = a.combine(b, how, missing=0)
            expected = {key: one.get(key, 0) * 10 + other.get(key, 0) for key in one | other}
            self.assertEqual(list(filled.items()), self.expected(expected), case)
            self.assertEqual(len(calls), len(set(calls)))
            self.assertEqual(set(calls), {(one.get(key, 0), other.get(key, 0)) for key in one | other})

    def test_a_combination_of_many_values(self):
        """Of values that each have one range, and of some that have more."""
        for values in (3000, 2900, 50, 1):
            pools = [[sign * (n + 1) for n in range(values)] for sign in (1, -1)]
            a, b = (
                RangeMap(((10 * n + first, 10 * n + first + 6), pool[n % values]) for n in range(3000))
                for first, pool in zip((0, 4), pools)
            )
            calls = []

            def how(x, y):
                calls.append((x, y))
                return x * 10000 - y

            expected = RangeMap([*a.items(), *b.items()])
            for n in range(3000):
                number = n % values + 1
                expected.put(10 * n + 4, 10 * n + 6, number * 10001)
            self.assertEqual(a.combine(b, how), expected)
            self.assertEqual(sorted(calls), sorted((n, -n) for n in range(1, values + 1)))


class Depths(unittest.TestCase):
    def plain(self, sets, keys):
        """How many of the sets have each of some keys."""
        return {key: found for key in keys if (found := sum(key in it for it in sets))}

    def test_made_up_sets(self):
        some = random.Random(2026)
        for case in range(200):
            unsigned = case % 2 == 1
            sets = [
                RangeSet.from_boundaries(sorted(some.sample(range(30), some.randrange(9))), unsigned=unsigned)
                for _ in range(some.randrange(9))
            ]
            made = RangeMap.depth(iter(sets), unsigned=unsigned)
            self.assertEqual({key: made[key] for key in range(40) if key in made}, self.plain(sets, range(40)), case)
            items = list(made.items())
            self.assertTrue(all(a[0][1] < b[0][0] or a[1] != b[1] for a, b in zip(items, items[1:])))
            self.assertEqual((made.kind, made), ("unsigned" if unsigned else "int", RangeMap(items, unsigned=unsigned)))
            made[5:9] = 1
            self.assertEqual([made[key] for key in range(5, 9)], [1] * 4)

    def test_other_sets(self):
        self.assertEqual((RangeMap.depth([]), RangeMap.depth([]).kind, RangeMap.depth([()]).kind), (RangeMap(), None, None))
        self.assertEqual(RangeMap.depth([], kind="date").kind, "date")
        both = RangeMap.depth([(None, None), (5, None), [(7, 9), (8, 12)], range(7, 10), (9, 3), (LEAST, LEAST)])
        self.assertEqual(list(both.items()), [((LEAST, 5), 1), ((5, 7), 2), ((7, 10), 4), ((10, 12), 3), ((12, None), 2)])
        days = [(date(2026, 5, 1), date(2026, 5, 4)), RangeSet([(date(2026, 5, 3), None)]), RangeSet()]
        self.assertEqual(
            list(RangeMap.depth(days).items()),
            [((date(2026, 5, 1), date(2026, 5, 3)), 1), ((date(2026, 5, 3), date(2026, 5, 4)), 2), ((date(2026, 5, 4), None), 1)],
        )
        self.assertEqual(RangeMap.depth(days).find(2), RangeSet([days[0]]) & days[1])
        for bad in ([RangeSet([(0, 5)]), days[1]], [5], ["0..5"]):
            self.assertRaises(TypeError, RangeMap.depth, bad)


class Identity(unittest.TestCase):
    def tearDown(self):
        Watched.raises = None

    def test_each_range_has_the_object_that_was_put_in(self):
        made = RangeMap([((0, 5), []), ((10, 15), [])])
        made[0].append(1)
        self.assertEqual((made[0], made[10], len(kept(made))), ([1], [], 2))
        first, again = [1], [1]
        made[20:25] = first
        made[22:23] = again
        self.assertEqual((made[22] is first, len(made)), (True, 3), "it lies within an equal one")
        made[20:25] = again
        self.assertTrue(made[20] is again, "it stands in place of an equal one")
        for part in (made.copy(), copy.copy(made), made[:], RangeMap(made), made.combine(RangeMap(), max)):
            self.assertEqual([*map(id, part.values())], [*map(id, made.values())])
        for part in (copy.deepcopy(made), pickle.loads(pickle.dumps(made))):
            part[0].append(2)
            self.assertEqual([*part.values()], [[1, 2], [], [1]])

    def test_of_two_equal_values_that_meet_the_maps_stays(self):
        """And of two of the map the lower one's; what a call is given meets in the order of the keys."""
        a, b, c, d = [1], [1], [1], [1]
        names = {id(a): "a", id(b): "b", id(c): "c", id(d): "d"}
        before = [((0, 5), a), ((10, 15), b), ((20, 25), [2])]
        for changes, after in (
            ([((5, 7), c)], [((0, 7), "a"), ((10, 15), "b")]),
            ([((3, 7), c)], [((0, 7), "a"), ((10, 15), "b")]),
            ([((8, 12), c)], [((0, 5), "a"), ((8, 15), "b")]),
            ([((5, 10), c)], [((0, 15), "a")]),
            ([((2, 12), c)], [((0, 15), "a")]),
            ([((0, 5), c)], [((0, 5), "c"), ((10, 15), "b")]),
            ([((0, 10), c)], [((0, 15), "b")]),
            ([((30, 35), c), ((35, 40), d)], [((0, 5), "a"), ((10, 15), "b"), ((30, 40), "c")]),
            ([((35, 40), d), ((30, 35), c)], [((0, 5), "a"), ((10, 15), "b"), ((30, 40), "c")]),
            ([((6, 8), c), ((8, 10), d)], [((0, 5), "a"), ((6, 15), "b")]),
            ([((5, 11), c), ((12, 13), d)], [((0, 15), "a")]),
            ([((5, 11), c), ((12, 13), "x")], [((0, 12), "a"), ((13, 15), "b")]),
            ([((5, 9), d), ((5, 10), c)], [((0, 15), "a")]),
        ):
            with self.subTest(changes=changes):
                made = RangeMap(before)
                made.update(changes)
                self.assertEqual([(keys, names[id(value)]) for keys, value in made.items() if id(value) in names], after)
                self.assertEqual((len(made), {*map(id, kept(made))}), (len([*made]), {*map(id, made.values())}))

    def test_only_values_that_meet_are_compared(self):
        class Counted(Watched):
            count = 0

            def __eq__(self, other):
                Counted.count += 1
                return super().__eq__(other)

        made = RangeMap([((10 * n, 10 * n + 5), Counted(n)) for n in range(1000)])
        made.put(3, 4, "x")
        made.update([((10 * n + 6, 10 * n + 8), Counted(-n)) for n in range(500)])
        self.assertEqual(Counted.count, 0)
        made[18:20] = Counted(7)
        self.assertEqual(Counted.count, 2)
        self.assertEqual((made.find(Counted(999)), Counted.count), (RangeSet([(9990, 9995)]), 2 + len({*map(id, kept(made))}) - 1))
        # Those that a function makes are asked where they meet.
        both = made.combine(RangeMap([((0, 10), 1)]), lambda a, b: Counted("same"))
        self.assertEqual([*both.keys()][:4], [(0, 5), (5, 6), (6, 8), (8, 10)])

    def test_values_whose_equality_is_no_answer(self):
        """They join by identity alone."""

        class Each:
            def __init__(self, answer):
                self.answer = answer

            def __eq__(self, other):
                if isinstance(self.answer, Exception):
                    raise self.answer
                return self.answer

        for answer in ([True, True], [], 1, None, "yes", NotImplemented, ValueError("they don't fit")):
            first, second = Each(answer), Each(answer)
            made = RangeMap([((0, 5), first), ((5, 9), first), ((9, 12), second)])
            made[3:4] = second
            self.assertEqual([*made.items()], [((0, 3), first), ((3, 4), second), ((4, 9), first), ((9, 12), second)])
            self.assertEqual((made.find(second), made == made.copy(), len(made)), (RangeSet([(3, 4), (9, 12)]), True, 4))
        made = RangeMap([((0, 5), Each(True)), ((5, 9), Each(True))])
        self.assertEqual(len(made), 1)

    def test_one_value_if_identical_or_equal_and_of_one_type(self):
        nan = float("nan")
        for first, second, is_one in [
            ("a", "a", True),
            ([1], [1], True),
            (1, True, False),
            (1, 1.0, False),
            (nan, nan, True),
            (nan, float("nan"), False),
            (Watched("a"), Watched("a"), True),
            (Watched("a"), Watched("b"), False),
            (Watched("a"), Hashed("a"), False),
            ({}, {}, True),
            (None, None, True),
            *((sign * 2**bits, sign * int(str(2**bits)), True) for bits in (0, 9, 29, 30, 62, 64) for sign in (1, -1)),
            *((2**bits, other, False) for bits in (9, 29, 30, 60, 64) for other in (-(2**bits), 2**bits + 1, 2**bits + 2**30)),
            (0.0, -0.0, True),
            (1.5, 2.5, False),
            *((f"a{end}", "a" + other, end == other) for end in ("", "b", "é", "Ω", "😀") for other in ("", "b", "c", "é", "ê", "Ω", "😀")),
        ]:
            with self.subTest(first=first, second=second):
                made = RangeMap([((0, 5), first)])
                made[5:9] = second
                self.assertEqual(len(made), 1 if is_one else 2)
                self.assertIs(made[0], first)
                self.assertEqual(made.find(second), RangeSet([(0, 9) if is_one else (5, 9)]))

    def test_find_takes_little_more_than_a_count_of_a_list(self):
        for of in (int, float):
            values = [of(1000 + it) for it in range(30000)]
            made = RangeMap([((3 * it, 3 * it + 2), value) for it, value in enumerate(values)])
            taken = {made.find: [], values.count: []}
            for call in 25 * [*taken]:
                began = time.process_time()
                call(of(1500))
                taken[call].append(time.process_time() - began)
            found, counted = map(min, taken.values())
            self.assertLess(found, 3 * counted)

    @unittest.skipUnless(hasattr(_testcapi, "unicode_legacy_string"), "this Python has no texts that aren't laid out yet")
    def test_a_text_that_is_not_laid_out_yet(self):
        with warnings.catch_warnings():
            warnings.simplefilter("ignore")
            first, second = map(_testcapi.unicode_legacy_string, ("abc", "abd"))
        made = RangeMap([((0, 5), first), ((5, 9), second), ((9, 12), "abd")])
        self.assertEqual((len(made), made.find("abc"), made.find("abd")), (2, RangeSet([(0, 5)]), RangeSet([(5, 12)])))

    def test_an_equality_that_raises_leaves_the_map_as_it_was(self):
        # A value without a hash makes a TypeError too.
        for kind, error in ((Watched, RuntimeError), (Watched, TypeError), (Hashed, RuntimeError), (Hashed, TypeError)):
            made = RangeMap([((0, 5), kind("a")), ((5, 9), kind("b"))])
            before = list(made.items())
            Watched.raises = error
            self.assertRaisesRegex(error, "an ==", made.__setitem__, slice(3, 7), kind("a"))
            self.assertRaisesRegex(error, "an ==", made.find, kind("b"))
            Watched.raises = None
            self.assertEqual([(keys, id(value)) for keys, value in made.items()], [(keys, id(value)) for keys, value in before])
            made[3:7] = kind("c")
            self.assertEqual([value.name for _, value in made.items()], ["a", "c", "b"])

    def test_an_update_that_raises_leaves_the_map_as_it_was(self):
        """Whichever of the ranges raises, and whatever it raises, none is put in."""

        def broken():
            yield (2, 4), "c"
            raise RuntimeError("no more")

        days = date(2026, 5, 1), date(2026, 5, 4)
        rows = [
            ("a key of another kind", [((2, 4), "c"), (days, "d")], TypeError),
            ("a key out of range", [((2, 4), "c"), ((5, 2**64), "d")], OverflowError),
            ("keys that are none", [((2, 4), "c"), (7, "d")], TypeError),
            ("a step", [((2, 4), "c"), (slice(1, 9, 2), "d")], TypeError),
            ("no pair", [((2, 4), "c"), ((5, 6),)], ValueError),
            ("an iterator", broken(), RuntimeError),
            ("an ==", [((2, 4), "c"), ((5, 8), Watched("x")), ((6, 7), Watched("y"))], RuntimeError),
        ]
        for what, items, error in rows:
            Watched.raises = error if what == "an ==" else None
            for made in (RangeMap([((0, 5), "a"), ((5, 9), "b")]), RangeMap()):
                before, values = [*made.items()], {*map(id, kept(made))}
                if not before and what == "an iterator":
                    items = broken()
                with self.subTest(what=what, before=before):
                    self.assertRaises(error, made.update, items)
                    self.assertEqual(([*made.items()], made.kind), (before, "int" if before else None))
                    self.assertEqual({*map(id, kept(made))}, values)
                    made.clear()
                    self.assertEqual(kept(made), [])
        Watched.raises = None

    def test_a_combination_that_raises_leaves_both_maps_as_they_were(self):
        a, b = RangeMap([((0, 5), 1), ((5, 9), 2)]), RangeMap([((3, 7), 0)])
        self.assertRaises(ZeroDivisionError, a.combine, b, lambda x, y: x // y)
        self.assertEqual((a, b), (RangeMap([((0, 5), 1), ((5, 9), 2)]), RangeMap([((3, 7), 0)])))

    def test_a_combination_that_changes_both_maps(self):
        """It is that of the maps as they were."""

        def how(x, y):
            a.clear()
            b.update([((n, n + 1), n) for n in range(50)])
            gc.collect()
            return x + y

        a, b = RangeMap([((0, 5), [1]), ((5, 9), [2]), ((12, None), [3])]), RangeMap([((3, 7), [4]), ((20, 30), [5])])
        expected = [((0, 3), [1]), ((3, 5), [1, 4]), ((5, 7), [2, 4]), ((7, 9), [2])]
        expected += [((12, 20), [3]), ((20, 30), [3, 5]), ((30, None), [3])]
        self.assertEqual([*a.combine(b, how).items()], expected)
        self.assertEqual((len(a), len(b)), (0, 50))
        for other in (RangeMap(), RangeMap(kind="unsigned")):
            one = RangeMap([((0, 2**64 - 1), "a")], unsigned=True)
            self.assertEqual((one.combine(other, max), other.combine(one, max)), (one, one))
        self.assertEqual(RangeMap().combine(RangeMap(), max), RangeMap())

    def test_a_pair_is_combined_once_whatever_changes_meanwhile(self):
        """The function has each pair of the maps as they were, also if it changes how many ranges have a value."""
        for change in (
            lambda: None,
            lambda: a.clear(),
            lambda: b.clear(),
            lambda: a.remove(10, None),
            lambda: a.update([((40, 45), 2), ((50, 55), 3)]),
            lambda: (a.combine(b, lambda x, y: y), a.copy().clear()),
        ):
            a, b, calls = RangeMap([((0, 5), 1), ((10, 15), 1), ((20, 25), 2), ((30, 35), 1)]), RangeMap([((-5, 22), 10)]), []

            def how(x, y):
                calls.append((x, y))
                change()
                return x + y

            expected = [
                ((-5, 0), 10),
                ((0, 5), 11),
                ((5, 10), 10),
                ((10, 15), 11),
                ((15, 20), 10),
                ((20, 22), 12),
                ((22, 25), 2),
                ((30, 35), 1),
            ]
            self.assertEqual([*a.combine(b, how).items()], expected)
            self.assertEqual(calls, [(1, 10), (2, 10)])
            a, b, calls = RangeMap([((0, 5), 1), ((10, 15), 1), ((20, 25), 2), ((30, 35), 1)]), RangeMap([((-5, 22), 10)]), []
            self.assertEqual([*a.combine(b, how, 0).items()], expected)
            self.assertEqual(calls, [(0, 10), (1, 10), (2, 10), (2, 0), (1, 0)])

    def test_values_that_a_combination_reads_end_after_it(self):
        """They are there until it ends, also if the maps have lost them."""
        for error in (None, ValueError):
            a, b = RangeMap([((0, 5), Watched("a")), ((5, 9), Watched("b"))]), RangeMap([((3, 7), Watched("c"))])
            followed, seen, copies = [weakref.ref(it) for it in (a[0], a[5], b[3])], [], []

            def how(x, y):
                copies.append(a.copy())
                copies[-1].clear()
                a.clear()
                b.clear()
                gc.collect()
                seen.append([it() is not None for it in followed])
                if error and len(seen) == 2:
                    raise error
                return 0

            both = None
            if error:
                self.assertRaises(error, a.combine, b, how)
            else:
                both = a.combine(b, how)
                self.assertEqual([*both.items()], [((0, 3), followed[0]()), ((3, 7), 0), ((7, 9), followed[1]())])
            gc.collect()
            self.assertEqual(seen, [[True] * 3] * 2)
            self.assertEqual([it() is None for it in followed], [bool(error), bool(error), True])
            self.assertEqual([kept(it) for it in (a, b, *copies)], [[]] * 4)
            del both
            gc.collect()
            self.assertEqual([it() for it in followed], [None] * 3)

    def test_values_that_come_and_go_take_no_more_memory(self):
        made = RangeMap([((0, 5), 0)])
        tracemalloc.start()
        self.addCleanup(tracemalloc.stop)
        for number in range(5000):
            made.put(0, 5, -number)
        self.assertLess(tracemalloc.get_traced_memory()[0], 20000)

    def test_cycles_are_collected(self):
        for cycle in (lambda made: made, lambda made: [made], lambda made: {"m": made}):
            made = RangeMap([((9, 12), "a")])
            made[0:5] = cycle(made)
            followed = weakref.ref(made)
            del made
            gc.collect()
            self.assertIsNone(followed())

    def test_a_long_chain_ends(self):
        """Each map holds an iterator of the one before, and ends with it, however many they are."""
        for call in (RangeMap.items, RangeMap.keys, RangeMap.values):
            last = None
            for _ in range(100_000):
                made = RangeMap()
                made.put(0, 5, last)
                last = call(made)
            made, followed = RangeMap([((0, 5), last), ((7, 9), "a")]), weakref.ref(made)
            del last
            self.assertIsNone(followed())
            made.remove(0, 5)
            self.assertEqual(list(made.items()), [((7, 9), "a")])

    def test_values_are_released_with_the_map(self):
        for part in (lambda it: it, RangeMap.copy, lambda it: it[3:7]):
            value = Watched("a")
            followed = weakref.ref(value)
            made = part(RangeMap([((0, 10), value)]))
            del value
            self.assertIs(made[5], followed())
            del made
            gc.collect()
            self.assertIsNone(followed())

    def test_each_map_holds_a_value_once(self):
        """In many chunks, also in a copy and where a combination fails midway. Lists have no hash."""
        values = [*(Watched(str(n)) for n in range(5)), *([n] for n in range(5))]
        pairs = [((10 * n, 10 * n + 5), values[n % 10]) for n in range(2000)]
        before = [sys.getrefcount(it) for it in values]

        def see(count, whole=()):
            self.assertEqual([sys.getrefcount(it) for it in values], [it + count for it in before])
            for it in whole:
                self.assertEqual([*it.items()], pairs)

        made = RangeMap(pairs)
        copies = [made.copy(), copy.copy(made), copies_copy := made.copy().copy()]
        see(4, [made, *copies])
        copies[0].clear()
        copies[1][:] = "x"
        see(2, [made, copies_copy])
        # Each of its values meets two.
        other = RangeMap([((10 * n + 3, 10 * n + 13), values[n % 10]) for n in range(2000)])
        see(3, [made, copies_copy])
        calls = []

        def left(a, b):
            calls.append(0)
            if len(calls) == most:
                raise ValueError
            return a

        for most in (1, 15, 20):
            calls.clear()
            self.assertRaises(ValueError, made.combine, other, left)
            see(3, [made, copies_copy])
        most = None
        calls.clear()
        both = made.combine(other, left)
        self.assertEqual((len(calls), kept(both)), (20, values))
        see(4, [made, copies_copy])
        expected = RangeMap([*other.items(), *made.items()])
        self.assertEqual((both, len(both)), (expected, 2000))
        self.assertEqual([*map(id, both.values())], [*map(id, expected.values())])
        del both, expected, other, copies, copies_copy
        see(1, [made])
        del made
        see(0)

    def test_a_copy_while_a_value_is_put_in(self):
        """The copy has the values before, and no other is kept."""
        copies = []

        class Copying(Hashed):
            def __eq__(self, other):
                copies.append(made.copy())
                return super().__eq__(other)

            __hash__ = Hashed.__hash__

        made = RangeMap([((0, 5), Copying("a"))])
        made.update([((5, 8), Copying("c")), ((9, 10), Copying("b")), ((10, 11), Copying("a")), ((12, 13), Copying("b"))])
        self.assertEqual([len(it) for it in copies], [1] * len(copies))
        self.assertTrue(copies)
        for it in copies:
            self.assertEqual([*map(id, kept(it))], [id(made[0])])
            it[0:1] = "x"
        self.assertEqual(len(made), 5)

    def test_a_map_isnt_seen_before_it_is_whole(self):
        def how(a, b):
            seen.append([it for it in gc.get_objects() if isinstance(it, type(one._steps))])
            return a

        one, seen = RangeMap([((0, 5), "a")]), []
        both = one.combine(RangeMap([((3, 7), "b")]), how)
        self.assertIn(one._steps, seen[0])
        self.assertNotIn(both._steps, seen[0])
        self.assertTrue(gc.is_tracked(both._steps))

    def test_values_that_no_range_has_are_released(self):
        for kind in (Watched, Hashed):
            value = kind("a")
            followed = weakref.ref(value)
            made = RangeMap([((0, 10), value)])
            del value
            made[3:5] = kind("b")
            del made[0:3]
            self.assertIsNotNone(followed())
            made[4:20] = kind("c")
            gc.collect()
            self.assertIsNone(followed())
            value = kind("d")
            followed = weakref.ref(value)
            made[9:9] = value
            del value
            gc.collect()
            self.assertIsNone(followed())
            followed = weakref.ref(made[6])
            made.clear()
            gc.collect()
            self.assertIsNone(followed())
            self.assertRaises(OverflowError, made.__setitem__, slice(0, 2**64), kind("e"))
            self.assertEqual(len(made), 0)


class Changing:
    """A value, or a key, whose code changes the map."""

    def __init__(self, change):
        self.change = change

    def run(self):
        change, self.change = self.change, None
        if change:
            change()

    def __index__(self):
        self.run()
        return 3

    def __eq__(self, other):
        for it in (self, other):
            it.run()
        return True

    __hash__ = None


class ChangingHash(Changing):
    """The same with a hash, which no map asks for."""

    def __hash__(self):
        raise AssertionError("a hash")


class Meanwhile(unittest.TestCase):
    """Changes that break off, or that run during another."""

    def see_whole(self, made):
        """Sees that each range has its value, and that no other value is kept."""
        items = list(made.items())
        self.assertEqual([(keys, made[keys[0]]) for keys, _ in items], items)
        self.assertEqual(len(made), len(items))
        self.assertEqual({*map(id, kept(made))}, {id(value) for _, value in items})

    def test_an_iterator_holds_what_it_reads(self):
        """The map may lose a value, or end, before the iterator has given it."""

        made = RangeMap([((date(2026, 1, day), date(2026, 1, day + 1)), Watched(str(day))) for day in range(1, 9)])
        left, kind = made.items(), made._kind
        value = kind.value

        def forgets(code):
            made.clear()
            gc.collect()
            return value(code)

        kind.value = forgets
        try:
            keys, first = next(left)
        finally:
            del kind.value
        self.assertEqual((keys, first.name), ((date(2026, 1, 1), date(2026, 1, 2)), "1"))

    def test_an_iterator_keeps_its_map(self):
        made = RangeMap([((0, 5), Watched("a")), ((7, 9), "b")])
        left, values = made.items(), made.values()
        del made
        gc.collect()
        self.assertEqual((next(left)[1].name, [*left], next(values).name), ("a", [((7, 9), "b")], "a"))
        made = RangeMap([((0, 5), Watched("a"))])
        followed = weakref.ref(made[0])
        made.put(7, 9, made.items())
        del made
        gc.collect()
        self.assertIsNone(followed())

    def test_equal_maps_whose_values_change_them(self):
        """An `==` of values may change both maps, end them, or raise an error."""

        def both():
            return (RangeMap([((n, n + 1), kind(None)) for n in range(0, 20, 2)]) for _ in range(2))

        for kind in (Changing, ChangingHash):
            for change in (
                lambda: left.clear(),
                lambda: right.clear(),
                lambda: left.remove(2, None),
                lambda: right.update([((n, n + 1), [n]) for n in range(40, 90, 2)]),
                lambda: (left.clear(), right.clear(), gc.collect()),
            ):
                left, right = both()
                left[0].change = change
                self.assertEqual(left == right, not left and not right)
                self.see_whole(left)
                self.see_whole(right)
            left, right = both()
            left[0].change = lambda: 1 // 0
            self.assertRaises(ZeroDivisionError, lambda: left == right)
            left[0].change = lambda: 1 // 0
            self.assertRaises(ZeroDivisionError, lambda: right == left)
            self.assertEqual(left, right)

    def test_a_change_by_an_equality(self):
        for kind in (Changing, ChangingHash):
            for name, change in (
                ("clear", lambda: made.clear()),
                ("del", lambda: made.__delitem__(slice(None))),
                ("set", lambda: made.__setitem__(slice(0, 9), "a")),
            ):
                with self.subTest(kind=kind, name=name):
                    made = RangeMap([((0, 5), kind(None))])
                    value = kind(None)
                    made[0].change = change
                    made[3:7] = value
                    self.assertIs(made[5], value)
                    self.see_whole(made)
                    self.assertEqual(made.get(1), "a" if name == "set" else None)

    def test_changes_while_a_value_is_sought(self):
        """Whatever an `==` does to the table of values, a call ends with what then holds."""

        def more():
            made.update([((100 + 2 * n, 101 + 2 * n), [n]) for n in range(50)])

        def fewer():
            made.remove(20, None)

        for kind in (Changing, ChangingHash):
            for change in (more, fewer, lambda: made.clear(), lambda: (more(), fewer())):
                for call in (
                    lambda: made.find(kind(None)),
                    lambda: made.put(30, 35, kind(None)),
                    lambda: made.update([((1, 2), kind(None)), ((3, 4), [7]), ((30, 35), kind(None))]),
                    lambda: made.__setitem__(RangeSet([(1, 2), (30, 35)]), kind(None)),
                ):
                    made = RangeMap([((0, 5), kind(None)), ((10, 15), [1]), ((20, 25), "a"), ((30, 31), "b")])
                    made[0].change = change
                    call()
                    self.see_whole(made)

    def test_a_map_made_anew_while_it_is_read(self):
        """What reads a list goes on by keys, and not by its place in a list that is new."""

        def anew():
            made.clear()
            made.update([((5, 6), "a"), ((60, 70), "b"), ((80, 90), "c")])

        made = RangeMap([((0, 10), 1), ((20, 30), 2), ((40, 50), 3)])
        left = made.items()
        next(left)
        anew()
        self.assertEqual(list(left), [((60, 70), "b"), ((80, 90), "c")])
        value = Changing(None)
        made = RangeMap([((2 * n, 2 * n + 1), n) for n in range(20)] + [((40, 41), value)])
        value.change = anew
        self.assertEqual(made.find(Changing(None)), RangeSet([(40, 41)]))
        self.see_whole(made)

    def test_changes_while_maps_are_combined(self):
        """The function, and an `==` of what it makes, may change both maps, make more of them, or raise an error."""

        class Odd:
            def __init__(self, is_one):
                self.is_one = is_one

            def __eq__(self, other):
                run("==")
                return self.is_one

        def run(place):
            if where == place:
                change()

        def how(x, y):
            run("how")
            return Odd(is_one)

        def more():
            left.update([((100 + 2 * n, 101 + 2 * n), [n]) for n in range(50)])

        items, others = [((0, 5), [1]), ((5, 9), [2]), ((20, 30), [3])], [((3, 7), [4]), ((25, 40), [5])]
        for where, is_one, change in product(
            ("how", "=="),
            (False, True),
            (
                lambda: left.clear(),
                lambda: right.clear(),
                lambda: (left.clear(), more(), right.remove(4, None), gc.collect()),
                lambda: (more(), left.copy(), left[3:8], left.combine(right, lambda x, y: x), right.combine(left, lambda x, y: [y])),
                lambda: 1 // 0,
            ),
        ):
            with self.subTest(where=where, is_one=is_one):
                left, right = RangeMap(items), RangeMap(others)
                try:
                    made = left.combine(right, how)
                except ZeroDivisionError:
                    self.assertEqual(([*left.items()], [*right.items()]), (items, others))
                else:
                    keys = [(0, 3), *([(3, 7)] if is_one else [(3, 5), (5, 7)]), (7, 9), (20, 25), (25, 30), (30, 40)]
                    self.assertEqual([*made.keys()], keys)
                    self.assertEqual([it for it in made.values() if not isinstance(it, Odd)], [[1], [2], [3], [5]])
                    where = None
                    self.see_whole(made)
                self.see_whole(left)
                self.see_whole(right)

    def test_changes_while_values_are_dropped(self):
        """The end of a value puts in again what is about to be dropped too, while an `==` has that dropped."""

        class Ends:
            def __del__(self):
                made.update([((5, 6), [1]), ((7, 8), Changing(lambda: made.put(20, 21, "z"))), ((8, 9), Changing(None))])

        made = RangeMap([((0, 1), [1]), ((1, 2), Ends()), ((2, 3), [2])])
        del made[:]
        gc.collect()
        self.assertEqual([*made][:3], [(5, 6), (7, 9), (20, 21)])
        self.assertEqual((made[5], made[20]), ([1], "z"))
        self.see_whole(made)

    def test_threads(self):
        """Changes by threads that take turns also in an `==`: each is whole, and the table of values is, whichever comes first."""

        def change(seed):
            some = random.Random(seed)
            for _ in range(400):
                start, end, kind = some.randrange(40), some.randrange(40), some.choice([Watched, Hashed])
                way = some.randrange(4)
                if way == 0:
                    made.remove(start, end)
                elif way == 1:
                    made.update([((n, n + some.randrange(4)), kind(some.randrange(6))) for n in range(start, end)])
                elif way == 2:
                    copied = made.copy()
                    self.see_whole(copied)
                    copied.find(kind(3))
                else:
                    made.put(start, end, kind(some.randrange(6)))
            done.append(seed)

        made, done, before = RangeMap(), [], sys.getswitchinterval()
        sys.setswitchinterval(1e-6)
        self.addCleanup(sys.setswitchinterval, before)
        threads = [threading.Thread(target=change, args=(seed,)) for seed in range(4)]
        for it in threads:
            it.start()
        for it in threads:
            it.join()
        self.assertEqual(sorted(done), [0, 1, 2, 3])
        self.see_whole(made)

    def test_a_kind_that_is_decided_meanwhile(self):
        for call in (
            lambda change: made.put(Changing(change), 7, "b"),
            lambda change: made.update([((3, 5), Changing(change)), ((5, 7), Changing(None))]),
        ):
            made = RangeMap()
            call(lambda: made.put(1.5, 2.5, "a"))
            self.assertEqual([keys for keys, _ in made.items()], [(1.5, 2.5), (3.0, 7.0)])
            self.see_whole(made)

    def test_an_equality_that_changes_the_map_again_and_again(self):
        """Neighbours are compared anew, until one comparison changes nothing."""

        class Restless(Watched):
            left = 20

            def __eq__(self, other):
                if Restless.left > 0:
                    Restless.left -= 1
                    made[50:52] = str(Restless.left)
                return True

        for call in (
            lambda: made.put(5, 9, Restless("b")),
            lambda: made.update([((9, 12), 7), ((7, 9), Restless("b")), ((5, 8), Restless("c"))]),
        ):
            made, Restless.left = RangeMap([((0, 5), Restless("a"))]), 20
            call()
            self.assertEqual(([*made][0], made[8].name, made[50], Restless.left), ((0, 9), "a", "0", 0))
            self.see_whole(made)

    def test_a_loop_that_puts_ranges_in_ends(self):
        """As over a dict: it may give the ranges that it reads other values, and else raises an error, however the map changes."""
        for change in (
            lambda keys: made.put(keys[1] + 1, keys[1] + 3, "c"),
            lambda keys: made.remove(*keys),
            lambda keys: made.put(0, 20, "c"),
            lambda keys: (made.clear(), made.put(7, 9, "d")),
        ):
            for loop in (lambda: made.items(), lambda: made.keys(), lambda: made, lambda: ((it, made[it[0]]) for it in made)):
                made, count = RangeMap([((0, 5), "a"), ((7, 9), "b"), ((11, 13), "c")]), 0
                with self.assertRaisesRegex(RuntimeError, "more or fewer ranges"):
                    for it in loop():
                        change(it if isinstance(it[1], int) else it[0])
                        count += 1
                        self.assertLess(count, 9)
                self.assertEqual(count, 1)
        made, count = RangeMap([((0, 5), "a"), ((7, 9), "b")]), 0
        with self.assertRaisesRegex(RuntimeError, "more or fewer ranges"):
            for (start, end), value in made.items():
                # As many ranges, each above the one that it stands for.
                made.remove(start, end)
                made.put(20 * end, 20 * end + 1, value)
                count += 1
                self.assertLess(count, 9)
        self.assertEqual((count, len(made)), (2, 2))
        made = RangeMap([((0, 5), "a"), ((7, 9), "b")])
        for keys, value in made.items():
            made.put(*keys, value + "!")
        self.assertEqual([*made.items()], [((0, 5), "a!"), ((7, 9), "b!")])
        for keys, value in list(made.items()):
            del made[keys[0] : keys[1]]
        self.assertEqual(len(made), 0)

    def test_changes_by_the_collector(self):
        """Owners that give their range back when Python's collector ends them, perhaps within a call."""
        made, some, given_back = RangeMap(), random.Random(5), []

        class Owner:
            def __init__(self, start, end):
                self.itself, self.keys = self, slice(start, end)
                made[start:end] = some.choice(["a", "b", [1]])

            def __del__(self):
                del made[self.keys]
                given_back.append(self.keys)

        before = gc.get_threshold()
        gc.set_threshold(3, 2, 2)
        self.addCleanup(gc.set_threshold, *before)
        self.addCleanup(gc.enable)
        for _ in range(1000):
            start = some.randrange(300)
            Owner(start, start + some.randrange(1, 9))
            for call in (made.items, made.copy, made.domain, lambda: [made.find("a")], lambda: made.combine(made, lambda a, _: a).items()):
                # An owner may end within a step.
                with contextlib.suppress(RuntimeError):
                    list(call())
            gc.disable()
            self.see_whole(made)
            gc.enable()
        gc.collect()
        self.assertEqual((len(given_back), len(made)), (1000, 0))

    @unittest.skipUnless(hasattr(signal, "setitimer"), "there are no timers here")
    def test_interrupts(self):
        class Interrupt(BaseException):
            pass

        def interrupt(*_):
            raise Interrupt

        before = signal.signal(signal.SIGALRM, interrupt)
        self.addCleanup(signal.signal, signal.SIGALRM, before)
        some, count = random.Random(3), 0
        for _ in range(400):
            made = RangeMap(unsigned=True)
            try:
                signal.setitimer(signal.ITIMER_REAL, some.uniform(1e-6, 3e-4))
                while True:
                    start, end, value = some.randrange(30), some.randrange(30), some.choice(["a", "b", [1], None])
                    if value is None:
                        del made[start:end]
                    else:
                        made[start:end] = value
            except Interrupt:
                count += 1
            self.see_whole(made)
        self.assertEqual(count, 400)

    @unittest.skipUnless(_testcapi, "this Python comes without _testcapi, which refuses memory")
    @unittest.skipIf(sys.version_info >= (3, 12), "Pythons from 3.12 on don't outlive that a request of theirs is refused")
    def test_refused_memory(self):
        hook, sys.unraisablehook = sys.unraisablehook, lambda it: None
        self.addCleanup(setattr, sys, "unraisablehook", hook)
        items = [((0, 5), "a"), ((5, 9), "b"), ((9, 12), "c")]
        some, same = RangeSet([(2, 4), (6, 7), (20, None)]), RangeMap(items)
        other = RangeMap([((1, 2), "x"), ((4, 6), "x"), ((7, 8), "y"), ((10, 20), "x")])
        packed, dated = pickle.dumps(same), RangeMap([((date(2026, 1, 1), date(2026, 1, 5)), "a"), ((date(2026, 2, 1), None), [1])])
        for change, after in (
            (lambda: made.put(3, 7, "c"), [((0, 3), "a"), ((3, 7), "c"), ((7, 9), "b"), ((9, 12), "c")]),
            (lambda: made.put(6, 7, "d"), [((0, 5), "a"), ((5, 6), "b"), ((6, 7), "d"), ((7, 9), "b"), ((9, 12), "c")]),
            (lambda: made.remove(2, 10), [((0, 2), "a"), ((10, 12), "c")]),
            (lambda: made.update([((3, 7), "d"), ((20, None), "e"), ((4, 5), [1])]), None),
            (lambda: made.update([((n, n + 1), str(n)) for n in range(3, 40)]), None),
            (lambda: made.update([((14, 16), [1]), ((12, 15), [1]), ((20, 22), [2]), ((22, 23), [2])]), None),
            (lambda: RangeMap([((5, 9), [1]), ((9, 12), [1]), ((0, 6), [2])]), items),
            (lambda: made.find([1]), items),
            (lambda: made.__setitem__(some, "c"), None),
            (lambda: made.__delitem__(some), None),
            (lambda: made.clear(), []),
            (lambda: made.copy(), items),
            (lambda: (RangeMap.depth([some, (3, None)]), RangeMap.depth([(0, 500), (3, 900)])), items),
            (lambda: made[some], items),
            (lambda: (made.domain(), made.find("b"), made.gaps(3, 20), made.overlapping(3, 20)), items),
            (lambda: RangeMap(items), items),
            (lambda: ([*made.items()], [*made.keys()], [*made.values()], made == same, made._steps.ends_and_values()), items),
            (lambda: pickle.loads(packed), items),
            (lambda: made.combine(same, max), items),
            (lambda: made.combine(other, lambda a, b: a + b, ""), items),
            (lambda: [*dated.items()], items),
        ):
            made = RangeMap(items)
            change()
            after = [*made.items()] if after is None else after
            made = RangeMap(items)
            for count in range(2000):
                _testcapi.set_nomemory(count, count + 1)
                try:
                    change()
                    break
                except MemoryError:
                    pass
                finally:
                    _testcapi.remove_mem_hooks()
                self.assertEqual(list(made.items()), items)
                self.see_whole(made)
            self.assertTrue(0 < count < 1999)
            self.assertEqual(list(made.items()), after)
            self.see_whole(made)


class Named(RangeMap):
    """A subclass whose attributes stand in a dict, and which is made otherwise."""

    def __init__(self, label, items=()):
        super().__init__(items)
        self.label = label


class Tagged(RangeMap):
    """A subclass whose attributes stand in slots."""

    __slots__ = ("label",)

    def __init__(self, label, items=()):
        super().__init__(items)
        self.label = label


class OtherForms(unittest.TestCase):
    def test_copies(self):
        made = RangeMap([((0, 10), [1])])
        for other in (made.copy(), copy.copy(made), copy.deepcopy(made), pickle.loads(pickle.dumps(made))):
            self.assertEqual(other, made)
            other[3:5] = [2]
            self.assertEqual(len(made), 1)
        self.assertIs(made.copy()[0], made[0])
        self.assertIsNot(copy.deepcopy(made)[0], made[0])
        self.assertIsNone(RangeMap().copy().kind)

    def test_values_that_refer_to_the_map(self):
        made = RangeMap([((9, 12), "a")])
        made[0:5] = value = [made]
        made[20:25] = made
        self.assertEqual(repr(made), "RangeMap([((0, 5), [RangeMap(...)]), ((9, 12), 'a'), ((20, 25), RangeMap(...))])")
        other = copy.deepcopy(made)
        self.assertTrue(other[0][0] is other[20] is other is not made)
        self.assertTrue(list(other) == list(made) and other[9] == "a" and made[0] is value)
        named = Named(["x"], [((0, 10), "a")])
        named.map = named
        self.assertIs(copy.deepcopy(named).map.map[5], "a")
        self.assertIsNot(copy.deepcopy(named).map, named)

    def test_attributes_of_subclasses(self):
        for kind in (Named, Tagged):
            made = kind(["x"], [((0, 10), "a")])
            made.label.append(made)
            copies = [made.copy(), copy.copy(made), copy.deepcopy(made)]
            for again in (*copies, *(pickle.loads(pickle.dumps(made, protocol)) for protocol in range(2, 6))):
                self.assertEqual((type(again), again, again.label[0]), (kind, made, "x"))
                again[3:5] = "b"
                self.assertEqual(len(made), 1)
            self.assertIs(copies[1].label, made.label)
            self.assertIs(copies[2].label[1], copies[2])

    def test_equality(self):
        made = RangeMap([((0, 10), 1)])
        self.assertNotEqual(made, RangeMap([((0, 10), 1.0)]))
        self.assertNotEqual(made, RangeMap([((0, 9), 1)]))
        self.assertNotEqual(made, RangeMap([((0, 10), 1)], unsigned=True))
        self.assertNotEqual(made, RangeMap())
        self.assertNotEqual(made, [((0, 10), 1)])
        self.assertEqual(RangeMap(), RangeMap(kind="date"))
        self.assertNotEqual(RangeMap(kind="float"), RangeMap(kind="date"))

    def test_texts(self):
        for made in (RangeMap([((0, 10), "a"), ((20, None), "b")]), RangeMap(), RangeMap([((0, 1), "a")], unsigned=True)):
            self.assertEqual(eval(repr(made)), made)
        self.assertEqual(repr(RangeMap(kind="date")), "RangeMap(kind='date')")


class Unsigned(unittest.TestCase):
    """Keys without a sign, below and above half of the greatest one, beside small ones."""

    SHIFT = 2**63 - 15

    def moved(self, items):
        return [((start + self.SHIFT, None if end is None else end + self.SHIFT), value) for (start, end), value in items]

    def test_around_half_of_the_greatest(self):
        some = random.Random(63)

        def items():
            made = [((some.randrange(30), some.choice([None, *range(30)])), some.randrange(3)) for _ in range(some.randrange(6))]
            # In order they are put in one after the other.
            return sorted(made, key=lambda item: item[0][0]) if some.randrange(2) else made

        for case in range(300):
            given = items(), items()
            (a, b), (c, d) = [RangeMap(it, kind="int") for it in given], [RangeMap(self.moved(it), unsigned=True) for it in given]
            start, end = sorted(some.choices(range(32), k=2))
            with self.subTest(case=case, given=given, within=(start, end)):
                self.assertEqual([*c.items()], self.moved(a.items()))
                for how in ((lambda x, y: 10 * x + y,), (lambda x, y: 10 * x + y, 5)):
                    self.assertEqual([*c.combine(d, *how).items()], self.moved(a.combine(b, *how).items()))
                low, high = start + self.SHIFT, end + self.SHIFT
                self.assertEqual(c.overlapping(low, high), self.moved(a.overlapping(start, end)))
                self.assertEqual([*c[low:high].items()], self.moved(a[start:end].items()))
                self.assertEqual([*c.gaps(low, high)], [keys for keys, _ in self.moved((it, None) for it in a.gaps(start, end))])
                self.assertEqual((c == d, len(c)), (a == b, len(a)))
                c.update(self.moved(b.items()))
                a.update(b)
                c.put(low, high, 7)
                a.put(start, end, 7)
                self.assertEqual([*c.items()], self.moved(a.items()))


class MadeOfOthers(unittest.TestCase):
    def test_keys_of_each_kind(self):
        """A map that is made of another one has its kind, and keys of that."""
        for low, mid, high in [
            (1, 5, 9),
            (0.5, 1.0, 2.5),
            (date(2026, 1, 1), date(2026, 1, 5), date(2026, 2, 1)),
            (datetime(2026, 1, 1), datetime(2026, 1, 5), datetime(2026, 2, 1)),
            (IPv4Address("10.0.0.0"), IPv4Address("10.0.1.0"), IPv4Address("10.0.2.0")),
        ]:
            items = [((low, mid), "a"), ((mid, high), "b")]
            made = RangeMap(items)
            others = {
                "combined with itself": made.combine(made, max),
                "combined with nothing": made.combine(RangeMap(), max),
                "nothing combined with it": RangeMap().combine(made, max),
                "a copy": made.copy(),
                "a part": made[low:high],
                "a deep copy": copy.deepcopy(made),
                "a pickle": pickle.loads(pickle.dumps(made)),
                "a map": RangeMap(made),
            }
            for what, other in others.items():
                with self.subTest(what=what, kind=made.kind):
                    self.assertEqual((other.kind, [*other.items()], [*other]), (made.kind, items, [keys for keys, _ in items]))
                    self.assertEqual((other.span(), other.range_at(low), other.overlapping(mid, high)), ((low, high), items[0], items[1:]))
                    other[mid:high] = "a"
                    self.assertEqual([*other.items()], [((low, high), "a")])


if __name__ == "__main__":
    unittest.main()
