"""Pickles: what is in one, those of version 0.2, damaged ones, and what a subclass has beside a set.

RANGE_SETS_PICKLES says how many are damaged.
"""

import copy
import os
import pickle
import random
import sys
import unittest
from array import array
from datetime import datetime, timedelta

from range_sets import MutableRangeSet, NotSorted, RangeMap, RangeSet, _core
from range_sets._maps import _remade
from range_sets._maps import _restored as restored_map
from range_sets._ranges import _restored, _unpacked

DAMAGED = int(os.environ.get("RANGE_SETS_PICKLES", "4000"))
SETS = [
    RangeSet(),
    RangeSet(unsigned=True),
    RangeSet([(-5, 10), (20, None)]),
    RangeSet([(0, 2**64 - 1)], unsigned=True),
    RangeSet((None, None)),
]


def pairs(made):
    return list(made)


# ---- The definition of a packed set ----


def packed(made):
    """The version and the letter of the numbers, then the distances, seven bits a byte, the lowest first."""
    data, before = bytearray(b"\1Q" if made.unsigned else b"\1q"), 0 if made.unsigned else -(2**63)
    for number in made.boundaries.tolist():
        distance, before = number - before, number
        groups = [distance >> shift & 127 for shift in range(0, max(distance.bit_length(), 1), 7)]
        data += bytes(it | 128 for it in groups[:-1]) + bytes(groups[-1:])
    return bytes(data)


def unpacked(data):
    """The boundaries, or None where the bytes are no set."""
    if data[:2] not in (b"\1q", b"\1Q") or (len(data) > 2 and data[-1] > 127):
        return None
    least, most = (0, 2**64 - 1) if data[1:2] == b"Q" else (-(2**63), 2**63 - 1)
    numbers, distance, groups = [], 0, 0
    for byte in data[2:]:
        distance |= (byte & 127) << 7 * groups
        groups += 1
        if byte < 128:
            if groups > 10 or distance >= 2**64:
                return None
            numbers.append((numbers[-1] if numbers else least) + distance)
            distance = groups = 0
    return numbers if all(a < b for a, b in zip(numbers, numbers[1:])) and max(numbers, default=least) <= most else None


def made_up(some):
    unsigned = some.random() < 0.5
    least = 0 if unsigned else -(2**63)
    near = [some.choice([least, 0, 2**62, least + 2**64 - 1]) + some.randint(-300, 300) for _ in range(some.randint(0, 6))]
    wide = [least + some.getrandbits(some.randint(1, 64)) for _ in range(some.randint(0, 6))]
    dense = [some.randint(-9, 9) + some.choice([1, 100]) * it for it in range(some.choice([0, 0, 9, 40]))]
    return RangeSet.from_boundaries(sorted({it for it in near + wide + dense if least <= it < least + 2**64}), unsigned=unsigned)


class Named(RangeSet):
    """A subclass whose attributes stand in a dict."""

    def __init__(self, source=(), *, unsigned=None, label=None):
        self.label = label


class Tagged(MutableRangeSet):
    """A subclass whose attributes stand in slots."""

    __slots__ = ("label",)

    def __init__(self, source=(), *, unsigned=None, label=None):
        self.label = label


class Noted(RangeMap):
    """A map that has attributes."""

    def __init__(self, items=(), *, note=None):
        super().__init__(items)
        self.note = note


# What version 0.2 wrote of RangeSet([(-5, 10), (20, None)]) and of MutableRangeSet([(0, 2**64 - 1)], unsigned=True).
PICKLES = [
    b"\x80\x02crange_sets._ranges\n_restored\nq\x00(crange_sets\nRangeSet\nq\x01c_codecs\nencode\nq\x02X \x00\x00\x00\xc3\xbb\xc3\xbf\xc3\xbf"
    b"\xc3\xbf\xc3\xbf\xc3\xbf\xc3\xbf\xc3\xbf\n\x00\x00\x00\x00\x00\x00\x00\x14\x00\x00\x00\x00\x00\x00\x00q\x03X\x06\x00\x00\x00latin1q\x04"
    b"\x86q\x05Rq\x06\x89X\x06\x00\x00\x00littleq\x07tq\x08Rq\t.",
    b"\x80\x05\x95h\x00\x00\x00\x00\x00\x00\x00\x8c\x12range_sets._ranges\x94\x8c\t_restored\x94\x93\x94(\x8c\nrange_sets\x94\x8c\x08RangeSet\x94"
    b"\x93\x94C\x18\xfb\xff\xff\xff\xff\xff\xff\xff\n\x00\x00\x00\x00\x00\x00\x00\x14\x00\x00\x00\x00\x00\x00\x00\x94\x89\x8c\x06little\x94t\x94R\x94.",
    b"\x80\x02crange_sets._ranges\n_restored\nq\x00(crange_sets\nMutableRangeSet\nq\x01c_codecs\nencode\nq\x02X\x18\x00\x00\x00\x00\x00\x00\x00\x00\x00"
    b"\x00\x00\xc3\xbf\xc3\xbf\xc3\xbf\xc3\xbf\xc3\xbf\xc3\xbf\xc3\xbf\xc3\xbfq\x03X\x06\x00\x00\x00latin1q\x04\x86q\x05Rq\x06\x88X\x06\x00"
    b"\x00\x00littleq\x07tq\x08Rq\t.",
    b"\x80\x05\x95g\x00\x00\x00\x00\x00\x00\x00\x8c\x12range_sets._ranges\x94\x8c\t_restored\x94\x93\x94(\x8c\nrange_sets\x94\x8c\x0fMutableRangeSet"
    b"\x94\x93\x94C\x10\x00\x00\x00\x00\x00\x00\x00\x00\xff\xff\xff\xff\xff\xff\xff\xff\x94\x88\x8c\x06little\x94t\x94R\x94.",
]

# What version 0.3 wrote of RangeMap([((-5, 10), "a"), ((20, None), [1])]).
MAPS = [
    b"\x80\x02crange_sets._maps\n_restored\nq\x00crange_sets\nRangeMap\nq\x01]q\x02(J\xfb\xff\xff\xffK\n\x86q\x03X\x01\x00\x00\x00aq"
    b"\x04\x86q\x05K\x14N\x86q\x06]q\x07K\x01a\x86q\x08eX\x03\x00\x00\x00intq\t\x87q\nRq\x0b.",
    b"\x80\x05\x95e\x00\x00\x00\x00\x00\x00\x00\x8c\x10range_sets._maps\x94\x8c\t_restored\x94\x93\x94\x8c\nrange_sets\x94\x8c\x08RangeMap"
    b"\x94\x93\x94]\x94(J\xfb\xff\xff\xffK\n\x86\x94\x8c\x01a\x94\x86\x94K\x14N\x86\x94]\x94K\x01a\x86\x94e\x8c\x03int\x94\x87\x94R\x94.",
]

# The same, as it was pickled with its values before a value could refer to the map.
WITH_VALUES = (
    b"\x80\x05\x95|\x00\x00\x00\x00\x00\x00\x00\x8c\x10range_sets._maps\x94\x8c\x07_remade\x94\x93\x94(\x8c\nrange_sets\x94"
    b"\x8c\x08RangeMap\x94\x93\x94C \xfb\xff\xff\xff\xff\xff\xff\xff\n\x00\x00\x00\x00\x00\x00\x00\x14\x00\x00\x00\x00\x00\x00"
    b"\x00\x00\x00\x00\x00\x00\x00\x00\x80\x94\x8c\x01a\x94]\x94K\x01a\x86\x94\x8c\x03int\x94\x8c\x06little\x94t\x94R\x94."
)


class Pickles(unittest.TestCase):
    def test_each_kind_and_protocol(self):
        for it in (*SETS, RangeSet([(0, 5), (8, 9)])[1:], MutableRangeSet([(0, 5)])):
            for protocol in range(pickle.HIGHEST_PROTOCOL + 1):
                with self.subTest(it=it, protocol=protocol):
                    again = pickle.loads(pickle.dumps(it, protocol))
                    self.assertEqual((again, type(again), again.unsigned), (it, type(it), it.unsigned))

    def test_those_of_version_0_2(self):
        frozen, changing = RangeSet([(-5, 10), (20, None)]), MutableRangeSet([(0, 2**64 - 1)], unsigned=True)
        for data, expected in zip(PICKLES, (frozen, frozen, changing, changing)):
            again = pickle.loads(data)
            self.assertEqual((again, type(again), again.unsigned), (expected, type(expected), expected.unsigned))

    def test_memory_beside_them(self):
        beside = []
        data = pickle.dumps(SETS[2], 5, buffer_callback=beside.append)
        self.assertEqual(len(beside), 1)
        self.assertEqual(pickle.loads(data, buffers=beside), SETS[2])

    def test_those_of_version_0_2_in_the_other_order_of_bytes(self):
        other = array("q", [-5, 10, 20])
        other.byteswap()
        order = {"little": "big", "big": "little"}[sys.byteorder]
        self.assertEqual(_restored(RangeSet, other.tobytes(), False, order), SETS[2])

    def test_those_of_version_0_2_that_are_no_set(self):
        with self.assertRaises(NotSorted):
            _restored(RangeSet, array("q", [10, 0]).tobytes(), False, sys.byteorder)
        # No number says how much memory is taken.
        with self.assertRaises(TypeError):
            _restored(RangeSet, 8, False, sys.byteorder)

    def test_maps(self):
        made = RangeMap([((-5, 10), "a"), ((20, None), [1])])
        for data in (*MAPS, *(pickle.dumps(made, protocol) for protocol in range(pickle.HIGHEST_PROTOCOL + 1))):
            again = pickle.loads(data)
            self.assertEqual((again, [*again.items()], again.kind), (made, [*made.items()], "int"))
        shared = [1]
        again = pickle.loads(pickle.dumps(RangeMap([((0, 5), shared), ((7, 9), "b"), ((9, 12), shared)], unsigned=True)))
        self.assertIs(again[0], again[9])
        self.assertEqual(
            (again.kind, RangeMap(kind="date"), RangeMap().kind), ("unsigned", pickle.loads(pickle.dumps(RangeMap(kind="date"))), None)
        )
        self.assertIsNone(pickle.loads(pickle.dumps(RangeMap())).kind)

    def test_maps_whose_values_refer_to_them(self):
        made, other = RangeMap([((0, 5), [])], kind="int"), RangeMap([((7, 9), {})])
        made[0].extend([made, other])
        made[5:6] = (made, "x")
        other[7]["back"] = made
        noted = Noted([((0, 5), "a")], note=[])
        noted.note.append(noted)
        noted[8:9] = noted.note
        for protocol in range(pickle.HIGHEST_PROTOCOL + 1):
            for dumps in (pickle.dumps, pickle._dumps):
                with self.subTest(protocol=protocol, dumps=dumps):
                    again = pickle.loads(dumps(made, protocol))
                    self.assertEqual((len(again), len(again[0]), again[5][1], again.kind), (2, 2, "x", "int"))
                    self.assertTrue(again is again[0][0] is again[5][0] is again[0][1][7]["back"] and again is not made)
                    again = pickle.loads(dumps(noted, protocol))
                    self.assertEqual((type(again), again[0], len(again)), (Noted, "a", 2))
                    self.assertTrue(again is again[8][0] and again.note is again[8])
                    # What comes first is the value.
                    first = pickle.loads(dumps(made[0], protocol))
                    self.assertTrue(first[0][0] is first and first[1][7]["back"] is first[0])

    def test_maps_that_were_pickled_with_their_values(self):
        made = RangeMap([((-5, 10), "a"), ((20, None), [1])])
        self.assertEqual(pickle.loads(WITH_VALUES), made)

    def test_maps_in_the_other_order_of_bytes(self):
        ends = array("q", [-5, 10, 20, -(2**63)])
        ends.byteswap()
        order = {"little": "big", "big": "little"}[sys.byteorder]
        self.assertEqual(_remade(RangeMap, ends.tobytes(), ("a", [1]), "int", order), RangeMap([((-5, 10), "a"), ((20, None), [1])]))

    def test_maps_that_are_none(self):
        """A map is read that is one, of elements of its kind, or an error is raised: one rule with sets."""

        def ends(*numbers):
            return array("q", numbers).tobytes()

        good = ends(0, 5, 7, 9)
        for what, given in (
            ("a value less", (good, ("a",), "int", sys.byteorder)),
            ("a value more", (good, ("a", "b", "c"), "int", sys.byteorder)),
            ("half a number", (good[:-1], ("a", "b"), "int", sys.byteorder)),
            ("half a range", (good[:-8], ("a",), "int", sys.byteorder)),
            ("no kind", (good, ("a", "b"), None, sys.byteorder)),
            ("an unknown kind", (good, ("a", "b"), "no kind", sys.byteorder)),
            ("a kind of datetime64 that is none", (good, ("a", "b"), "datetime64[x, y]", sys.byteorder)),
            ("an unknown order", (good, ("a", "b"), "int", "middle")),
            ("no order", (good, ("a", "b"), "int", None)),
            ("reversed", (ends(5, 0), ("a",), "int", sys.byteorder)),
            ("empty", (ends(5, 5), ("a",), "int", sys.byteorder)),
            ("overlapping", (ends(0, 5, 4, 9), ("a", "b"), "int", sys.byteorder)),
            ("unsorted", (ends(7, 9, 0, 5), ("a", "b"), "int", sys.byteorder)),
            ("twice", (ends(0, 5, 0, 5), ("a", "b"), "int", sys.byteorder)),
            ("after one without an end", (ends(0, -(2**63), 7, 9), ("a", "b"), "int", sys.byteorder)),
            ("dates out of range", (ends(0, 2**40), ("a",), "date", sys.byteorder)),
            ("dates below", (ends(-(2**40), 5), ("a",), "date", sys.byteorder)),
            ("floats above infinity", (ends(2**62, 2**63 - 1), ("a",), "float", sys.byteorder)),
        ):
            with self.subTest(what=what):
                self.assertRaises(ValueError, _remade, RangeMap, *given)
        for given in ((good, ["a", "b"], "int"), (8, (), "int")):
            self.assertRaises(TypeError, _remade, RangeMap, *given, sys.byteorder)
        some, read = random.Random(21), 0
        for _ in range(2000):
            rows = [(some.randrange(12), some.choice([-(2**63), *range(12)]), some.randrange(3)) for _ in range(some.randrange(4))]
            given = ends(*(end for it in rows for end in it[:2])), tuple(it[2] for it in rows), "int", sys.byteorder
            flat = [2**63 if end < 0 else end for it in rows for end in it[:2]]
            if all(a < b for a, b in zip(flat[::2], flat[1::2])) and all(a <= b for a, b in zip(flat[1::2], flat[2::2])):
                one_by_one = RangeMap([((start, None if end < 0 else end), value) for start, end, value in rows], kind="int")
                again, read = _remade(RangeMap, *given), read + 1
                self.assertEqual((again, len(again), [*again.items()]), (one_by_one, len(one_by_one), [*one_by_one.items()]))
            else:
                self.assertRaises(ValueError, _remade, RangeMap, *given)
        self.assertTrue(500 < read < 1900, read)

    def test_maps_of_version_0_3_that_are_none(self):
        for items, name in (
            ([((5, 0), "a")], "int"),
            ([((7, 9), "a"), ((0, 5), "b")], "int"),
            ([((0, 5), "a"), ((3, 9), "b")], "int"),
            ([((0, 5), "a")], "no kind"),
            ([((0, 5), "a")], "date"),
            ([((0, 2**64), "a")], "int"),
            ([((0, 5), "a")], None),
        ):
            self.assertRaises(ValueError, restored_map, RangeMap, items, name)

    def test_sets_of_an_unknown_order_or_kind(self):
        numbers = array("q", [0, 10]).tobytes()
        for call in (
            lambda: _restored(RangeSet, numbers, False, "middle"),
            lambda: _restored(RangeSet, numbers, False, sys.byteorder, "no kind"),
            lambda: _restored(RangeSet, numbers[:-1], False, {"little": "big", "big": "little"}[sys.byteorder]),
            lambda: _unpacked(RangeSet, b"\1q\0", "no kind"),
            lambda: _unpacked(RangeSet, b"\1q\0", 7),
        ):
            self.assertRaises(ValueError, call)

    def test_attributes_of_subclasses(self):
        for kind in (Named, Tagged):
            for unsigned in (None, True):
                made = kind([(0, 5), (8, 9)], unsigned=unsigned, label=["x"])
                made.label.append(made)
                for again in (
                    copy.copy(made),
                    made.copy(),
                    pickle.loads(pickle.dumps(made)),
                    pickle.loads(pickle.dumps(made, 2)),
                    copy.deepcopy(made),
                ):
                    self.assertEqual((type(again), again.label[0], pairs(again), again.unsigned), (kind, "x", pairs(made), bool(unsigned)))
                    self.assertIsNot(again, made)
                self.assertIs(copy.copy(made).label, made.label)
                deep = copy.deepcopy(made)
                self.assertIsNot(deep.label, made.label)
                self.assertIs(deep.label[1], deep)
        with self.assertRaisesRegex(TypeError, "'other'"):
            Named([(0, 5)], other=3)


class Packed(unittest.TestCase):
    def test_the_bytes(self):
        for made, data in (
            (RangeSet(), b"\1q"),
            (RangeSet(unsigned=True), b"\1Q"),
            (RangeSet([(0, 10), (20, None)], unsigned=True), b"\1Q\x00\x0a\x0a"),
            (RangeSet([(300, 428)], unsigned=True), b"\1Q\xac\x02\x80\x01"),
            (RangeSet((None, None)), b"\1q\x00"),
            (RangeSet((2**64 - 1, None), unsigned=True), b"\1Q" + 9 * b"\xff" + b"\x01"),
            (RangeSet([(0, 1)]), b"\1q" + 9 * b"\x80" + b"\x01\x01"),
        ):
            with self.subTest(made=made):
                self.assertEqual((_core.pack(made.boundaries), packed(made)), (data, data))
                self.assertEqual(_unpacked(RangeSet, data), made)

    def test_what_is_no_set(self):
        text = "the bytes are no set, or are one of another version"
        for data, error, said in (
            (b"", ValueError, text),
            (b"\1", ValueError, text),
            (b"\2q", ValueError, text),
            (b"\1d\0", ValueError, text),
            (b"\1Q\x80", ValueError, "the bytes of a set are damaged"),
            (b"\1Q\5\x80", ValueError, "the bytes of a set are damaged"),
            (b"\1Q" + 9 * b"\xff" + b"\x02", ValueError, "the bytes of a set are damaged"),
            (b"\1Q" + 10 * b"\x80" + b"\0", ValueError, "the bytes of a set are damaged"),
            (b"\1Q\5\0", NotSorted, "a list isn't strictly sorted"),
            (b"\1Q\5" + 9 * b"\xff" + b"\1", NotSorted, "a list isn't strictly sorted"),
        ):
            with self.subTest(data=data):
                with self.assertRaises(error) as raised:
                    _unpacked(RangeSet, data)
                self.assertEqual((type(raised.exception), str(raised.exception)), (error, said))
        with self.assertRaises(TypeError):
            _unpacked(RangeSet, "text")

    def test_damaged_ones(self):
        seed = 20401
        print(f"{DAMAGED} damaged pickles from the seed {seed}")
        some, read = random.Random(seed), 0
        for _ in range(DAMAGED):
            made = made_up(some)
            data = bytearray(_core.pack(made.boundaries))
            self.assertEqual(data, packed(made))
            for _ in range(some.randint(0, 3)):
                at = some.randint(0, len(data))
                data[at : at + some.randint(0, 2)] = some.randbytes(some.randint(0, 2))
            expected = unpacked(bytes(data))
            try:
                found = _unpacked(RangeSet, data).boundaries.tolist()
                read += 1
            except ValueError:
                found = None
            self.assertEqual(found, expected, data)
        self.assertTrue(DAMAGED // 5 < read < DAMAGED * 4 // 5, read)

    def test_boundaries_far_apart(self):
        for kind, elements in (
            ("unsigned", range(2**61, 2**62, 2**43 + 3)),
            ("int", range(-(2**63), 2**63, 2**52)),
            ("datetime", [datetime(1, 1, 1) + timedelta(days=120 * it) for it in range(4001)]),
            ("float", [2 ** (it / 100) for it in range(-2000, 2001)]),
        ):
            made = RangeSet.from_boundaries(elements, kind=kind)
            for protocol in range(pickle.HIGHEST_PROTOCOL + 1):
                with self.subTest(kind=kind, protocol=protocol):
                    data, beside = pickle.dumps(made, protocol), []
                    self.assertTrue(b"_restored" in data)
                    self.assertTrue(pickle.loads(data) == made)
                    apart = pickle.dumps(made, protocol, buffer_callback=beside.append if protocol > 4 else None)
                    self.assertEqual(len(beside), protocol > 4)
                    self.assertTrue(pickle.loads(apart, buffers=[bytearray(it) for it in beside]) == made)
            numbers = bytearray(made.boundaries)
            numbers[8000:8008] = numbers[8008:8016]
            with self.assertRaises(NotSorted):
                pickle.loads(data.replace(bytes(made.boundaries), numbers))
        # A few far ones among many near ones aren't worth it.
        made = RangeSet.from_boundaries([-(2**63), *range(4000), 2**62])
        self.assertLess(len(pickle.dumps(made)), 4200)
        with self.assertRaisesRegex(ValueError, "damaged"):
            _restored(RangeSet, bytes(12), False, sys.byteorder)
        with self.assertRaisesRegex(ValueError, "no set of the kind date"):
            _restored(RangeSet, array("q", [2**60, 2**61]).tobytes(), False, sys.byteorder, "date")

    def test_a_long_one(self):
        made = RangeSet.from_boundaries(range(0, 400_000, 2), unsigned=True)
        data = pickle.dumps(made)
        self.assertEqual(pickle.loads(data), made)
        self.assertLess(len(data), 200_200)


if __name__ == "__main__":
    unittest.main()
