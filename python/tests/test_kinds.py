"""The kinds of sets: the numbers that stand for elements, what sets of each kind answer, and bad input."""

import copy
import datetime
import importlib.util
import itertools
import pickle
import random
import struct
import unittest
from array import array
from datetime import date, timedelta, timezone
from ipaddress import IPv4Address
from math import fsum, inf, nextafter

from range_sets import MutableRangeSet, RangeMap, RangeSet, _core, _kinds
from range_sets._ranges import _unpacked

UTC, DAY, TINY = timezone.utc, timedelta(days=1), timedelta(microseconds=1)
FIRST, LAST = datetime.datetime.min, datetime.datetime.max


def at(hour, minute=0, zone=None):
    return datetime.datetime(2026, 5, 4, hour, minute, tzinfo=zone)


def longest(microseconds):
    return timedelta(microseconds=microseconds)


# Elements of each kind in order, from the least to the greatest, with neighbours.
ELEMENTS = {
    "int": [-(2**63), -(2**63) + 1, -1, 0, 1, 2**63 - 2, 2**63 - 1],
    "unsigned": [0, 1, 2**63 - 1, 2**63, 2**64 - 1],
    "float": [
        -inf,
        -nextafter(inf, 0),
        -1e300,
        -1.5,
        nextafter(-1.0, -2),
        -1.0,
        nextafter(-1.0, 0),
        -5e-324,
        0.0,
        5e-324,
        1e-308,
        0.1,
        1.0,
        nextafter(1.0, 2),
        1e300,
        nextafter(inf, 0),
        inf,
    ],
    "datetime": [
        FIRST,
        FIRST + TINY,
        datetime.datetime(1969, 12, 31, 23, 59, 59, 999999),
        datetime.datetime(1970, 1, 1),
        at(9),
        LAST - TINY,
        LAST,
    ],
    "datetime[UTC]": [
        it.replace(tzinfo=UTC) for it in (FIRST, FIRST + TINY, datetime.datetime(1969, 12, 31), at(9), at(9) + TINY, LAST - TINY, LAST)
    ],
    "date": [date.min, date.min + DAY, date(1969, 12, 31), date(1970, 1, 1), date(2024, 2, 29), date.max - DAY, date.max],
    "timedelta": [longest(it) for it in (-(2**63), -(2**63) + 1, -86_400_000_001, -1, 0, 1, 86_400_000_000, 2**63 - 2, 2**63 - 1)],
    "IPv4Address": [IPv4Address(it) for it in ("0.0.0.0", "0.0.0.1", "10.0.0.0", "127.255.255.255", "128.0.0.0", "255.255.255.255")],
}
if importlib.util.find_spec("numpy"):
    import numpy

    for unit in ("D", "s", "25s", "ns"):
        ELEMENTS[f"datetime64[{unit}]"] = [
            numpy.datetime64(it, unit) for it in (-(2**63) + 1, -(2**63) + 2, -1, 0, 1, 20_000, 2**63 - 2, 2**63 - 1)
        ]
NAMES = {"RangeSet": RangeSet, "MutableRangeSet": MutableRangeSet} | {it.__name__: it for it in (datetime, IPv4Address)}
NAMES |= {"numpy": numpy} if importlib.util.find_spec("numpy") else {}


def given_kind(name):
    return _kinds.given_kind(name)


class EachKind(unittest.TestCase):
    def each(self):
        for name, elements in ELEMENTS.items():
            with self.subTest(kind=name):
                yield name, elements

    def test_numbers_keep_the_order(self):
        for name, elements in self.each():
            kind = given_kind(name)
            codes = [kind.number(it) for it in elements]
            self.assertEqual((codes, len(set(codes))), (sorted(codes), len(codes)))
            self.assertEqual((codes[0], codes[-1]), (kind.least, kind.most))
            self.assertEqual([(kind.value(code), type(kind.value(code))) for code in codes], [(it, type(it)) for it in elements])
            self.assertTrue(all(a < b for a, b in itertools.pairwise(elements)))
            low, high = (0, 2**64) if name == "unsigned" else (-(2**63), 2**63)
            self.assertTrue(low <= kind.least and kind.most < high)

    def test_neighbours_have_neighbouring_numbers(self):
        for name, a, b in (
            ("float", 1.0, nextafter(1.0, 2)),
            ("float", -1.0, nextafter(-1.0, 0)),
            ("float", 0.0, 5e-324),
            ("float", -5e-324, 0.0),
            ("float", nextafter(inf, 0), inf),
            ("datetime", at(9), at(9) + TINY),
            ("date", date(2024, 2, 28), date(2024, 2, 29)),
            ("timedelta", TINY, 2 * TINY),
            ("IPv4Address", IPv4Address("10.0.0.255"), IPv4Address("10.0.1.0")),
        ):
            self.assertEqual(given_kind(name).code(b) - given_kind(name).code(a), 1)

    def test_the_kind_is_told_or_that_of_the_first_element(self):
        for name, elements in self.each():
            a, b = elements[0], elements[2]
            inferred = RangeSet([(None, None), (a, b)]) if name != "unsigned" else RangeSet([(a, b)], unsigned=True)
            for made in (inferred, RangeSet([(a, b)], kind=name), RangeSet([(None, b)], kind=name), RangeSet((a, b), kind=name)):
                self.assertEqual((made.kind, made[0][0]), (name, a))
            for made in (
                RangeSet(kind=name),
                RangeSet([], kind=name),
                RangeSet.union_all([], kind=name),
                RangeSet.from_boundaries([], kind=name),
            ):
                self.assertEqual((made.kind, bool(made), made.kind == "unsigned"), (name, False, made.unsigned))
            self.assertEqual(RangeSet.intersection_all([], kind=name), RangeSet((None, None), kind=name))

    def test_ranges_and_members(self):
        for name, elements in self.each():
            for i, j in itertools.combinations(range(len(elements)), 2):
                made = RangeSet([(elements[i], elements[j])], kind=name)
                self.assertEqual([it in made for it in elements], [i <= n < j for n in range(len(elements))])
                ends = elements[i], elements[j]
                self.assertEqual((list(made), made.span(), made.range_at(elements[i])), ([ends], ends, ends))
                self.assertEqual(made, RangeSet.from_boundaries([elements[i], elements[j]], kind=name))
                self.assertTrue(made.covers(elements[i], elements[j]) and not made.covers(elements[i], None))
                self.assertEqual((made.overlapping(elements[j], None), list(made.bounded())), (made[:0], list(made)))

    def test_all_elements(self):
        for name, elements in self.each():
            everything = ~RangeSet(kind=name)
            self.assertEqual((list(everything), ~everything), ([(elements[0], None)], RangeSet(kind=name)))
            self.assertEqual(everything, RangeSet([(None, None)], kind=name))
            self.assertTrue(all(it in everything for it in elements))
            self.assertEqual(everything.covered(), 2**32 if name == "IPv4Address" else None)
            self.assertTrue(everything.covers(None, None) and everything.covers(elements[-1], None))
            above = RangeSet((elements[2], None), kind=name)
            self.assertEqual((list(~above), ~~above, elements[-1] in above), ([(elements[0], elements[2])], above, True))
            self.assertEqual(
                above.split(elements[3]), (RangeSet([(elements[2], elements[3])], kind=name), RangeSet((elements[3], None), kind=name))
            )
            self.assertEqual((above.gaps(), above.gaps(None, elements[1])), (~above, RangeSet((None, elements[1]), kind=name)))

    def test_lengths_of_floats(self):
        """What is covered is the sum of all lengths, rounded once, as `fsum` has it."""

        def of_bits(bits):
            return struct.unpack("d", struct.pack("Q", bits))[0]

        some, answers = random.Random(31), set()
        for _ in range(1000):
            first, last = some.choice([(0, 2**63 - 1), (1000 << 52, 1010 << 52), (0, 9), (0, 1 << 53), (2040 << 52, 2047 << 52)])
            ends = [some.choice([1, -1]) * of_bits(some.randint(first, last)) for _ in range(some.randint(0, 40))]
            ends = sorted({it for it in ends if it == it})
            ends = ends[: len(ends) // 2 * 2]
            lengths = [end - start for start, end in zip(ends[::2], ends[1::2])]
            try:
                expected = fsum(lengths)
            except OverflowError:
                expected = inf
            made = RangeSet(zip(ends[::2], ends[1::2]), kind="float")
            self.assertEqual((made.covered(), list(made)), (expected, [*zip(ends[::2], ends[1::2])]))
            self.assertEqual(RangeSet.from_boundaries(array("d", ends), kind="float"), made)
            answers.add(expected)
        self.assertTrue(len(answers) > 500 and inf in answers and 0.0 in answers)
        self.assertIsNone(RangeSet([(0.5, None)]).covered())
        # Numbers in no order, and those of NaN, are of no set: each has some length.
        for given in ([5, 3], [2**62, -(2**62)], [1 - 2**63, 0], [2**63 - 1, -(2**63)]):
            self.assertIsInstance(_core.lengths_of_floats(array("q", given * 9)), list)
        for nan in map(of_bits, (2**64 - 1, (2047 << 52) + 1)):
            self.assertRaises(ValueError, RangeSet.from_boundaries, array("d", [0.5, nan]))
            self.assertRaises(ValueError, RangeSet.from_boundaries, array("f", [0.5, nan]))
        self.assertEqual(RangeSet.from_boundaries(array("f", [-0.0, 0.5])), RangeSet([(0.0, 0.5)]))
        for given in ((), (array("q", [1]),), (array("q", [1]), array("q", [1, 2])), (array("q", [1]), bytes(8)), (5, array("q", [1]))):
            self.assertRaises((TypeError, ValueError), _core.mirror, *given)

    def test_texts_pickles_and_copies(self):
        for name, elements in self.each():
            for made in (
                RangeSet(kind=name),
                RangeSet((elements[1], elements[2]), kind=name),
                ~RangeSet((elements[1], elements[3]), kind=name),
            ):
                again = eval(repr(made), NAMES)
                self.assertEqual((again, hash(again)), (made, hash(made)))
                self.assertTrue(again.kind == name or (name, again.kind) == ("int", None))
                for other in (
                    *(pickle.loads(pickle.dumps(made, it)) for it in range(6)),
                    pickle.loads(pickle.dumps(MutableRangeSet(made))),
                ):
                    self.assertEqual((other, other.kind), (made, name))
                for other in (copy.copy(made), copy.deepcopy(made), made.copy(), made[:], MutableRangeSet(made).copy()):
                    self.assertEqual((other, other.kind), (made, name))
                self.assertEqual(str(made), ", ".join(f"{a}..{'' if b is None else b}" for a, b in made))
                made._repr_svg_()

    def test_slices(self):
        for name, elements in self.each():
            made = RangeSet.from_boundaries(elements, kind=name)
            ranges = list(made)
            self.assertEqual(list(reversed(made)), ranges[::-1])
            for part in (slice(1, None), slice(None, None, 2), slice(None, None, -1), slice(2, 0, -1), slice(5, 2)):
                self.assertEqual((list(made[part]), made[part].kind), (sorted(ranges[part]), name))
            self.assertEqual([made[i] for i in range(len(made))], ranges)

    def test_boundaries_and_the_kind_make_the_set_again(self):
        for name, elements in self.each():
            for count in range(len(elements) + 1):
                made = RangeSet.from_boundaries(elements[:count], kind=name)
                for it in (made, MutableRangeSet(made)):
                    again = RangeSet.from_boundaries(it.boundaries, kind=it.kind)
                    self.assertEqual((again, again.kind, list(again)), (made, name, list(made)))
        self.assertEqual(RangeSet.from_boundaries(RangeSet().boundaries, kind=RangeSet().kind), RangeSet())

    def refuse(self, *calls):
        for call in calls:
            with self.assertRaises(TypeError):
                call()

    def test_reversed_pairs_are_empty(self):
        for name, elements in ELEMENTS.items():
            with self.subTest(kind=name):
                pair = elements[2], elements[1]
                nothing, made = RangeSet(kind=name), MutableRangeSet([pair], kind=name)
                made.add(*pair)
                for other in (
                    RangeSet(pair, kind=name),
                    RangeSet([pair], kind=name),
                    RangeSet([[*pair]], kind=name),
                    nothing.insert(*pair),
                ):
                    self.assertEqual((other, len(other)), (made, 0))
                self.assertEqual(RangeMap([(pair, "a")], kind=name), RangeMap(kind=name))

    def test_kinds_do_not_mix(self):
        made = {name: RangeSet((elements[1], elements[2]), kind=name) for name, elements in ELEMENTS.items()}
        # Of these a set of one makes a set of another.
        times = {"date", "datetime"} | {name for name in ELEMENTS if name.startswith("datetime64[")}
        for (name, a), (other, b) in itertools.permutations(made.items(), 2):
            with self.subTest(kinds=(name, other)):
                self.assertNotEqual(a, b)
                self.assertNotEqual(RangeSet(kind=name), RangeSet(kind=other))
                self.refuse(
                    lambda: a | b,
                    lambda: a & b,
                    lambda: a - b,
                    lambda: a ^ b,
                    lambda: a <= b,
                    lambda: a < b,
                    lambda: a >= b,
                    lambda: a > b,
                    lambda: a.isdisjoint(b),
                    lambda: a.union(b),
                    lambda: a.intersection(b),
                    lambda: a.difference(b),
                    lambda: RangeSet([a, b]),
                    lambda: a.symmetric_difference(b),
                    lambda: RangeSet.union_all([a, b]),
                    lambda: RangeSet.intersection_all([a, b]),
                    *([] if {name, other} <= times else [lambda: RangeSet(a, kind=other), lambda: RangeSet.union_all([a], kind=other)]),
                    lambda: a | RangeSet(kind=other),
                )
                changing = MutableRangeSet(a)
                self.refuse(lambda: changing.__ior__(b), lambda: changing.update(b), lambda: changing.difference_update(b))
                self.assertEqual((changing, changing.kind), (a, name))

    def test_elements_of_another_kind(self):
        for (name, elements), (other, (_, x, y, *_)) in itertools.permutations(ELEMENTS.items(), 2):
            # Whole numbers are taken for elements of these.
            if {name, other} == {"int", "unsigned"} or (name == "float" and other in ("int", "unsigned")):
                continue
            with self.subTest(kinds=(name, other)):
                a = RangeSet((elements[1], elements[2]), kind=name)
                self.refuse(
                    lambda: x in a,
                    lambda: a.covers(x, None),
                    lambda: a.range_at(x),
                    lambda: a.gaps(x),
                    lambda: a.split(x),
                    lambda: a.insert(x, None),
                    lambda: a.union([(x, None)]),
                    lambda: a.overlapping(x, None),
                    lambda: RangeSet([(elements[1], x)], kind=name),
                    lambda: RangeSet([(x, y)], kind=name),
                    lambda: RangeSet.from_boundaries([elements[1], x], kind=name),
                    lambda: RangeSet([(None, None), (elements[1], None), (None, x)], unsigned=True if name == "unsigned" else None),
                )
                changing = MutableRangeSet(a)
                self.refuse(lambda: changing.add(x, None), lambda: changing.discard(None, x))
                self.assertEqual(changing, a)

    def test_one_by_one(self):
        for name, elements in self.each():
            made = MutableRangeSet(kind=name)
            if name == "float":
                for call in (
                    lambda: made.add(1.0),
                    lambda: made.discard(1.0),
                    lambda: RangeSet.from_values([1.0]),
                    lambda: RangeSet.from_values(array("d", [1.0])),
                    lambda: made.members(),
                    lambda: made.first_fit(1.0),
                    lambda: made.first_fit(1),
                    lambda: RangeSet(made).insert(1.0),
                    lambda: made.rank(1.0),
                    lambda: RangeSet().rank(1.0),
                    lambda: made.select(0),
                ):
                    with self.assertRaises(TypeError):
                        call()
                continue
            for it in (elements[-1], elements[0], elements[2], elements[0]):
                made.add(it)
            self.assertEqual(made, RangeSet.from_values([elements[2], elements[-1], elements[0]], kind=name))
            self.assertEqual([it for it in elements if it in made], [elements[0], elements[2], elements[-1]])
            self.assertEqual([*made.members()], [elements[0], elements[2], elements[-1]])
            self.assertEqual([made.select(it) for it in range(4)], [elements[0], elements[2], elements[-1], None])
            self.assertEqual([made.rank(elements[it]) for it in (0, 1, 2, -1)], [0, 1, 1, 2])
            self.assertEqual((made[-1], made.covered()), ((elements[-1], None), 3 if name == "IPv4Address" else None))
            made.discard(elements[-1])
            made.discard(elements[0])
            self.assertEqual([*made.members()], [elements[2]])
            for it in elements:
                made.clear()
                made.add(it)
                self.assertEqual((bool(made), len(made), [*made.members()]), (True, 1, [it]))

    def test_changes_keep_the_kind(self):
        for name, elements in self.each():
            made = MutableRangeSet((elements[1], elements[3]), kind=name)
            made -= RangeSet(made)
            self.assertEqual((made.kind, made), (name, RangeSet(kind=name)))
            made.update([(elements[0], elements[2])])
            made.intersection_update()
            made.intersection_update([(elements[1], None)])
            made.symmetric_difference_update([(elements[2], None)])
            self.assertEqual(made, RangeSet((elements[1], None), kind=name))
            made.clear()
            self.assertEqual((made.kind, bool(made)), (name, False))


class Zone(datetime.tzinfo):
    """One that has an answer for each time."""

    def __init__(self, answer):
        self.answer = answer

    def utcoffset(self, time):
        return self.answer(time)


class OwnTime(datetime.datetime):
    pass


class Times(unittest.TestCase):
    first, unit = datetime.datetime(1970, 1, 1), timedelta(microseconds=1)

    def made_up(self, count):
        made = random.Random(2026)
        span = (datetime.datetime.max - datetime.datetime.min) // self.unit
        leap = [datetime.datetime(year, 2, 28) + timedelta(days=day) for year in (4, 100, 400, 1900, 2000, 2024) for day in range(3)]
        ends = [datetime.datetime.min, datetime.datetime.max, self.first, self.first - self.unit]
        return [*ends, *leap, *(datetime.datetime.min + made.randrange(span) * self.unit for _ in range(count))]

    def test_a_number_is_the_microseconds_from_1970_on(self):
        naive = _kinds.NAIVE
        for of_type in (datetime.datetime, OwnTime):
            times = [of_type.combine(it.date(), it.time()) for it in self.made_up(3000)]
            expected = [(it - self.first) // self.unit for it in times]
            self.assertEqual([*map(naive.code, times)], expected)
            self.assertEqual(naive.codes(times), expected)
            self.assertEqual([naive.value(it) for it in expected], times)

    def test_those_with_a_time_zone_are_counted_in_utc(self):
        first, aware = self.first.replace(tzinfo=timezone.utc), _kinds.AWARE
        offsets = [timedelta(hours=5, minutes=45), -timedelta(hours=9), timedelta(seconds=1, microseconds=3), timedelta(0)]
        zones = [timezone.utc, *map(timezone, offsets), Zone(lambda time: timedelta(minutes=time.minute))]
        times = [it.replace(tzinfo=zone) for it in self.made_up(500) if 1 < it.year < 9999 for zone in zones]
        expected = [(it - first) // self.unit for it in times]
        self.assertEqual([*map(aware.code, times)], expected)
        self.assertEqual(aware.codes(times), expected)

    def test_whether_a_time_has_a_zone(self):
        """A tzinfo may say that a time has none."""
        nine = datetime.datetime(2026, 5, 4, 9)
        without = [nine, nine.replace(tzinfo=Zone(lambda time: None)), OwnTime(2026, 5, 4, 9)]
        with_one = [nine.replace(tzinfo=timezone.utc), nine.replace(tzinfo=Zone(lambda time: timedelta(hours=1)))]
        for kind, mine, others in ((_kinds.NAIVE, without, with_one), (_kinds.AWARE, with_one, without)):
            self.assertEqual(len(kind.codes(mine)), len(mine))
            for other in (*others, date(2026, 5, 4), 5, None, "2026-05-04"):
                for call in (
                    kind.code,
                    lambda it: kind.codes([mine[0], it]),
                    lambda it: RangeSet([(mine[0], mine[0]), (it, it)], kind=kind.name),
                ):
                    if other is not None or call == kind.code:
                        self.assertRaisesRegex(TypeError, f"expected {kind.element}", call, other)

    def test_a_zone_that_raises(self):
        def raises(time):
            raise KeyError("zone")

        nine = datetime.datetime(2026, 5, 4, 9, tzinfo=Zone(raises))
        later = datetime.datetime(2026, 5, 4, 9, tzinfo=timezone.utc)
        for call in (
            lambda: _kinds.AWARE.code(nine),
            lambda: RangeSet([(later, later), (nine, nine)]),
            lambda: nine in RangeSet(kind="datetime[UTC]"),
        ):
            self.assertRaisesRegex(KeyError, "zone", call)


class Untold(unittest.TestCase):
    def test_it_takes_the_kind_of_the_other(self):
        for name, elements in ELEMENTS.items():
            with self.subTest(kind=name):
                nothing, made = RangeSet(), RangeSet((elements[1], elements[3]), kind=name)
                self.assertIsNone(nothing.kind)
                results = (
                    nothing | made,
                    made | nothing,
                    made - nothing,
                    nothing ^ made,
                    RangeSet([nothing, made]),
                    RangeSet.union_all([nothing, made]),
                )
                for it in (*results, made.union(nothing), nothing.union(made), nothing.union([made])):
                    self.assertEqual((it, it.kind), (made, name))
                for it in (nothing & made, made & nothing, nothing - made, RangeSet.intersection_all([nothing, made])):
                    self.assertEqual((it, it.kind), (RangeSet(kind=name), name))
                self.assertTrue(nothing <= made and made > nothing and nothing.isdisjoint(made) and not nothing >= made)
                self.assertFalse(elements[1] in nothing and name != "unsigned")
                self.assertEqual(RangeSet(nothing, kind=name).kind, name)

    def test_it_takes_the_kind_of_its_first_element(self):
        for name, elements in ELEMENTS.items():
            if name == "unsigned":
                continue
            with self.subTest(kind=name):
                made = MutableRangeSet()
                made.add(elements[1], None)
                made.discard(elements[2], None)
                self.assertEqual((made, made.kind), (RangeSet((elements[1], elements[2])), name))
                if name != "float":
                    made = MutableRangeSet()
                    made.add(elements[1])
                    self.assertEqual((made, made.kind), (RangeSet.from_values([elements[1]]), name))
                nothing = RangeSet()
                self.assertEqual(nothing.gaps(elements[0], elements[1]), RangeSet([(elements[0], elements[1])]))
                self.assertEqual(nothing.insert(elements[0], elements[1]), RangeSet([(elements[0], elements[1])]))
                self.assertFalse(
                    nothing.covers(elements[0], elements[1]) or nothing.overlapping(elements[0], None) or elements[0] in nothing
                )
                self.assertIsNone(nothing.range_at(elements[0]))
                self.assertEqual([it.kind for it in nothing.split(elements[1])], [name, name])

    def test_no_other_set_tells_a_kind(self):
        for made in (RangeSet(), MutableRangeSet()):
            calls = [made.union, made.intersection, made.difference]
            if isinstance(made, MutableRangeSet):
                calls += [made.update, made.intersection_update, made.difference_update]
            for call in calls:
                with self.subTest(call=call.__qualname__):
                    it = call()
                    self.assertIsNone((made if it is None else it).kind)

    def test_until_then_it_is_one_of_whole_numbers(self):
        self.assertEqual((RangeSet(), hash(RangeSet())), (RangeSet(kind="int"), hash(RangeSet(kind="int"))))
        self.assertEqual(RangeSet([(0, 5)]) - RangeSet([(0, 5)]), RangeSet())
        for name in ELEMENTS:
            # Nothing of a kind is as nothing of none, in maps too.
            for call in (RangeSet, MutableRangeSet, RangeMap):
                self.assertTrue(call(kind=name) == call() == call(kind=name))
            self.assertEqual((hash(RangeSet(kind=name)), RangeSet() != MutableRangeSet(kind=name)), (hash(RangeSet()), False))
        for everything in (~RangeSet(), RangeSet.intersection_all([])):
            self.assertEqual((everything, everything.kind), (RangeSet([(None, None)]), "int"))
        self.assertEqual((RangeSet([(None, None)]).kind, RangeSet([(5, 5)]).kind, RangeSet.parse("").kind), ("int", "int", "int"))


class OfKinds(unittest.TestCase):
    def test_what_tells_a_kind(self):
        for given, name in (
            (int, "int"),
            (float, "float"),
            (date, "date"),
            (datetime.datetime, "datetime"),
            (timedelta, "timedelta"),
            (IPv4Address, "IPv4Address"),
        ):
            self.assertEqual(RangeSet(kind=given).kind, name)
        self.assertEqual((RangeSet(unsigned=False).kind, RangeSet(unsigned=True).kind), ("int", "unsigned"))
        self.assertTrue(RangeSet(kind="unsigned").unsigned and RangeSet(kind="unsigned", unsigned=True).unsigned)
        for call in (
            lambda: RangeSet(kind="text"),
            lambda: RangeSet(kind=5),
            lambda: RangeSet(kind=[]),
            lambda: RangeSet(kind="date", unsigned=True),
            lambda: RangeSet(kind="unsigned", unsigned=False),
            lambda: RangeSet(kind=list),
        ):
            with self.assertRaisesRegex(TypeError, "kind"):
                call()

        for name, elements in ELEMENTS.items():
            self.assertEqual(
                RangeSet(kind=name) | RangeSet((elements[1], elements[2]), unsigned=True if name == "unsigned" else None),
                RangeSet((elements[1], elements[2]), kind=name),
            )

    def test_what_is_no_element(self):
        for value, text in (
            ({1}, "'set' object cannot be interpreted as an integer"),
            (1j, "'complex' object cannot be interpreted as an integer"),
            (object(), "'object' object cannot be interpreted"),
        ):
            for call in (
                lambda: RangeSet([(value, None)]),
                lambda: RangeSet.from_boundaries([value]),
                lambda: RangeSet().insert(value, None),
            ):
                with self.assertRaisesRegex(TypeError, text):
                    call()

    def test_buffers_of_whole_numbers(self):
        for code in "qQhB":
            for kind in ("date", "float", "timedelta", "IPv4Address"):
                for call in (RangeSet.from_boundaries, RangeSet.from_values):
                    with self.assertRaisesRegex(TypeError, "two kinds of elements don't mix"):
                        call(array(code, [1, 2]), kind=kind)

    def test_a_pickle_of_another_kind(self):
        packed = pickle.dumps(RangeSet([(-(2**40), 2**62)]), 2)
        data = RangeSet([(-(2**40), 2**62)]).__reduce_ex__(2)[1][1]
        self.assertEqual(pickle.loads(packed), _unpacked(RangeSet, data))
        for name in ("date", "datetime", "datetime[UTC]", "IPv4Address", "unsigned"):
            with self.assertRaisesRegex(ValueError, "the bytes are no set of the kind"):
                _unpacked(RangeSet, data, name)
        small, unsigned = (RangeSet([(1, 5)], unsigned=it).__reduce_ex__(2)[1][1] for it in (False, True))
        below, above = (RangeSet([pair]).__reduce_ex__(2)[1][1] for pair in ((-(2**40), 5), (5, 2**40)))
        wrong = (
            (small, "unsigned"),
            (unsigned, "date"),
            (unsigned, "int"),
            (unsigned, "IPv4Address"),
            (below, "date"),
            (above, "IPv4Address"),
        )
        for data, name in wrong:
            with self.assertRaisesRegex(ValueError, "the bytes are no set of the kind"):
                _unpacked(RangeSet, data, name)
        self.assertEqual(list(_unpacked(RangeSet, small, "IPv4Address")), [(IPv4Address(1), IPv4Address(5))])
        with self.assertRaisesRegex(ValueError, "a kind is one of"):
            _unpacked(RangeSet, data, "text")


if __name__ == "__main__":
    unittest.main()
