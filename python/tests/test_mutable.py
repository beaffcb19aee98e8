"""MutableRangeSet: changes in place, and what they leave as it is."""

import copy
import gc
import itertools
import os
import random
import sys
import time
import unittest
from unittest import mock

from range_sets import MutableRangeSet, RangeSet
from range_sets._core import Chunks
from range_sets._kind import NO_KIND, SIGNED, UNSIGNED


class Changes(unittest.TestCase):
    def setUp(self):
        self.set = MutableRangeSet([(0, 10), (20, 30)])
        self.same = self.set

    def is_now(self, *expected):
        self.assertIs(self.set, self.same)
        self.assertEqual(list(self.set), list(expected))

    def test_ranges(self):
        self.set.add(5, 25)
        self.is_now((0, 30))
        self.set.discard((3, 5))
        self.is_now((0, 3), (5, 30))
        self.set.add(range(40, 42))
        self.set.discard(10, None)
        self.is_now((0, 3), (5, 10))
        self.set.add(8, None)
        self.is_now((0, 3), (5, None))
        self.set.clear()
        self.is_now()

    def test_numbers(self):
        for n in (12, 11, 30, -1, 12):
            self.set.add(n)
        self.is_now((-1, 10), (11, 13), (20, 31))
        for n in (12, 5, 20, 50):
            self.set.discard(n)
        self.is_now((-1, 5), (6, 10), (11, 12), (21, 31))
        most = 2**63 - 1
        self.set.add(most)
        self.is_now((-1, 5), (6, 10), (11, 12), (21, 31), (most, None))
        self.set.discard(6, None)
        self.set.add(most - 1)
        self.set.add(most)
        self.is_now((-1, 5), (most - 1, None))
        self.set.discard(most)
        self.is_now((-1, 5), (most - 1, most))

    def test_operators(self):
        self.set |= RangeSet([(10, 12)])
        self.is_now((0, 12), (20, 30))
        self.set &= MutableRangeSet([(5, 25)])
        self.is_now((5, 12), (20, 25))
        self.set -= RangeSet([(6, 7)])
        self.is_now((5, 6), (7, 12), (20, 25))
        self.set ^= RangeSet([(0, 30)])
        self.is_now((0, 5), (6, 7), (12, 20), (25, 30))

    def test_operators_with_itself(self):
        self.set |= self.set
        self.set &= self.set
        self.is_now((0, 10), (20, 30))
        self.set ^= self.set
        self.is_now()

    def test_updates(self):
        self.set.update([(10, 12)], range(15, 16))
        self.is_now((0, 12), (15, 16), (20, 30))
        self.set.intersection_update([(5, 25)], [(0, 22)])
        self.is_now((5, 12), (15, 16), (20, 22))
        self.set.difference_update([(6, 7)], (15, 21))
        self.is_now((5, 6), (7, 12), (21, 22))
        self.set.symmetric_difference_update([(0, 8)])
        self.is_now((0, 5), (6, 7), (8, 12), (21, 22))

    def test_what_refuses_changes_nothing(self):
        for call in (
            lambda: self.set.update([(3, 5)], ["x"]),
            lambda: self.set.add(0, 2**70),
            lambda: self.set.add("3"),
            lambda: self.set.add(2**63),
            lambda: self.set.add(1, 2, 3),
            lambda: self.set.add("1", 2),
            lambda: self.set.__ior__(RangeSet(unsigned=True)),
            lambda: self.set.intersection_update([(0, 5)], 7),
        ):
            with self.assertRaises((TypeError, OverflowError)):
                call()
            self.is_now((0, 10), (20, 30))
        with self.assertRaises(TypeError):
            self.set |= [(40, 50)]
        self.is_now((0, 10), (20, 30))

    def test_others_stay_as_they_were(self):
        kept = [RangeSet(self.set), self.set.copy(), copy.copy(self.set), copy.deepcopy(self.set), self.set[:]]
        view = self.set.boundaries
        self.set.discard(None, None)
        for it in kept:
            self.assertEqual(list(it), [(0, 10), (20, 30)])
        self.assertEqual(view.tolist(), [0, 10, 20, 30])

    def test_kinds(self):
        frozen = RangeSet([(0, 1)])
        self.assertEqual(
            [type(it) for it in (self.set | frozen, frozen | self.set, ~self.set, self.set.union(frozen))],
            [MutableRangeSet, RangeSet, MutableRangeSet, MutableRangeSet],
        )
        self.assertFalse(hasattr(self.set, "insert") or hasattr(self.set, "remove"))
        with self.assertRaises(TypeError):
            hash(self.set)

    def test_unsigned(self):
        made = MutableRangeSet(unsigned=True)
        made.add(2**63, None)
        made.discard(None, 2**63 + 5)
        self.assertEqual(list(made), [(2**63 + 5, None)])
        made.clear()
        self.assertTrue(made.unsigned)

    def test_the_first_element_tells_the_kind(self):
        for first, last, kind in ((3, 5, "int"), (0.5, 1.5, "float")):
            for change, expected in (
                (lambda it: it.add(first, last), [(first, last)]),
                (lambda it: it.discard(first, last), []),
                (lambda it: it.add(last, first), []),
                (lambda it: it.update([(first, last)]), [(first, last)]),
                (lambda it: it.symmetric_difference_update([(first, last)]), [(first, last)]),
            ):
                made = MutableRangeSet()
                self.assertFalse(7 in made or made.covers(first, last) or made)
                change(made)
                self.assertEqual((list(made), made.kind), (expected, kind))
                with self.assertRaises(TypeError):
                    made |= RangeSet(unsigned=True)
        made = MutableRangeSet()
        made |= RangeSet(unsigned=True)
        made.add(None, 2**63)
        self.assertEqual((list(made), made.kind, 2**63 - 1 in made), ([(0, 2**63)], "unsigned", True))

    def test_a_kind_that_is_told_meanwhile(self):
        class Five:
            def __index__(self):
                made.add(0.5, 1.5)
                return 5

        for change, expected in ((MutableRangeSet.add, [(0.5, 1.5), (5.0, 7.0)]), (MutableRangeSet.discard, [(0.5, 1.5)])):
            made = MutableRangeSet()
            change(made, Five(), 7)
            self.assertEqual(list(made), expected)
        made, other, calls = MutableRangeSet([(0, 5)]), RangeSet([(7, 9)]), []

        def union(chunks, *given):
            calls.append(given)
            return len(calls) == 3 and Chunks.union(chunks, *given)

        made._change(union, other._now)
        self.assertEqual((list(made), len(calls)), ([(0, 5), (7, 9)], 3))
        chunks, two = Chunks(RangeSet([(0, 10)])._now[0], SIGNED), RangeSet([(3, 5), (7, 9)])._now[0]
        for call, *given in (
            (chunks.insert, 15, 20),
            (chunks.remove, 3, 5),
            (chunks.union, two),
            (chunks.union, two[2:]),
            (chunks.intersection, two),
            (chunks.difference, two),
            (chunks.symmetric_difference, two),
        ):
            self.assertIs(call(*given, NO_KIND, SIGNED), False)
            self.assertEqual((list(chunks.now[0]), chunks.kind), ([0, 10], SIGNED))
        self.assertEqual([list(chunks.near(two, kind)) for kind in (SIGNED, NO_KIND, UNSIGNED)], [[0, 10], [], []])

    def test_ranges_without_an_end(self):
        self.set |= RangeSet((25, None))
        self.is_now((0, 10), (20, None))
        self.assertEqual([self.set.covers(it, None) for it in (5, 15, 20, 25)], [False, False, True, True])
        self.set -= RangeSet((27, None))
        self.is_now((0, 10), (20, 27))
        self.set.update()
        self.set.difference_update([])
        self.is_now((0, 10), (20, 27))

    def test_its_size_counts_its_boundaries(self):
        made = MutableRangeSet.from_values(range(0, 2000, 2))
        before = sys.getsizeof(made)
        self.assertGreater(before, 16000)
        made.add(-5)
        self.assertGreater(sys.getsizeof(made), 16000)
        made.clear()
        self.assertLess(sys.getsizeof(made), 1000)


class Numbers:
    """A set as a byte for each of some numbers, the last of which may be the greatest of all."""

    def __init__(self, first, count, most):
        self.first, self.most, self.has = first, most, bytearray(count)

    def end(self, place):
        return self.first + place if self.first + place <= self.most else None

    def given(self, pairs):
        return [(self.first + start, self.end(end)) for start, end in pairs]

    def boundaries(self):
        changes = [place for place, pair in enumerate(zip(b"\0" + self.has, self.has + b"\0")) if pair[0] != pair[1]]
        return [end for end in map(self.end, changes) if end is not None]

    def put(self, pairs, is_member):
        for start, end in pairs:
            self.has[start:end] = bytes([is_member]) * (end - start)

    def combine(self, pairs, change):
        left, self.has = self.has, bytearray(len(self.has))
        self.put(pairs, True)
        self.has = bytearray(map(change, left, self.has))


class ManyRanges(unittest.TestCase):
    def test_beside_a_byte_for_each_number(self):
        combining = {
            "update": int.__or__,
            "intersection_update": int.__and__,
            "symmetric_difference_update": int.__xor__,
            "difference_update": int.__gt__,
        }
        count = 12_000
        for seed, (first, most) in enumerate(
            [(-3000, 2**63 - 1), (2**63 - count, 2**63 - 1), (0, 2**64 - 1), (2**64 - count, 2**64 - 1)]
        ):
            some, model = random.Random(seed), Numbers(first, count, most)
            made, kept, lengths = MutableRangeSet(unsigned=most >= 2**63), [], []
            for step in range(300):
                name = some.choice(["add"] * 30 + ["discard"] * 10 + [*combining])
                longest = count if name == "intersection_update" else some.choice([3] * 19 + [1000])
                starts = [some.randrange(count) for _ in range(some.choice([20, 150]) if longest == 3 else 1)]
                pairs = [(it, some.randint(it, min(count, it + longest))) for it in starts]
                if name in combining:
                    getattr(made, name)(model.given(pairs))
                    model.combine(pairs, combining[name])
                else:
                    for pair in model.given(pairs):
                        getattr(made, name)(pair)
                    model.put(pairs, name == "add")
                start = some.randrange(count)
                end = some.randint(start, min(count, start + 6))
                self.assertIs(first + start in made, model.has[start] == 1)
                self.assertIs(made.covers(first + start, model.end(end)), all(model.has[start:end]))
                if step % 5 == 0:
                    expected = model.boundaries()
                    self.ask_both(made, RangeSet.from_boundaries(expected, unsigned=made.unsigned), model, some)
                    lengths.append(len(expected))
                    self.assertEqual((len(made), bool(made)), ((len(expected) + 1) // 2, bool(expected)))
                    self.assertEqual(made.boundaries.tolist(), expected)
                    self.assertTrue(all(it.boundaries.tolist() == then for it, then in kept))
                    kept = [*kept[-3:], (some.choice([MutableRangeSet, RangeSet])(made), expected)]
                    made = made.copy() if step % 70 == 0 else made
            # Some chunks.
            self.assertGreater(max(lengths), 2000)

    def ask_both(self, made, twin, model, some):
        """Each question of a set that has changed beside the same of a list."""
        count = len(model.has)
        start = some.randrange(count)
        end = some.randint(start, min(count, start + some.choice([3, 300])))
        first, last, unsigned = model.first + start, model.end(end), made.unsigned
        few = RangeSet(model.given((it, it + 2) for it in some.sample(range(count - 2), 5)), unsigned=unsigned)
        many = RangeSet(model.given((it, it + 2) for it in some.sample(range(count - 2), 200)), unsigned=unsigned)
        inside, endless = few & twin, RangeSet([(first, None)], unsigned=unsigned)
        for place, call in enumerate(
            (
                lambda it: (it.range_at(first), first in it, it.covers(first, last), it.covers(first, None)),
                lambda it: (it.rank(first), it.select(end), it.covered(), it.span()),
                lambda it: (it.gaps(first, last), it.gaps(first), it.gaps(last, first)),
                lambda it: (it.overlapping(first, last), it.overlapping(first, None)),
                lambda it: (it.isdisjoint(few), it.isdisjoint(few - twin), it.isdisjoint(many), it.isdisjoint(endless)),
                lambda it: (few <= it, it >= few, inside <= it, it >= inside, many <= it, it > inside, endless <= it),
                lambda it: (it <= few, it <= ~(few - twin), it <= endless, it <= many, it.issubset(~inside), it < ~(few - twin)),
                lambda it: (it & few, few & it, it & endless, it & many, few - it, many - it, it - few),
                lambda it: (it.first_fit(3, first), it.first_fit(3, first, last), it.first_fit(40), it.first_fit(2**62)),
            )
        ):
            self.assertEqual(call(made), call(twin), place)

    def test_some_ranges_within_one(self):
        start = [(0, 100), (150, 160), (170, None)]
        few = RangeSet([(5, 10), (20, 30), (90, 120), (155, 156), (158, 172), (180, 190)])
        for change in ("__ior__", "__iand__", "__isub__", "__ixor__"):
            made, twin = MutableRangeSet(start), MutableRangeSet(start)
            # One is in chunks, and the other a list.
            made.add(300)
            self.assertEqual(
                (few <= made, few - RangeSet((100, 170)) <= made, made.isdisjoint(few), made & few), (False, True, False, few & twin)
            )
            self.assertEqual((made.gaps(5, 175), made.overlapping(90, 155)), (twin.gaps(5, 175), twin.overlapping(90, 155)))
            getattr(made, change)(few)
            getattr(twin, change)(few)
            self.assertEqual((made, made.boundaries.tolist()), (twin, sorted(set(made.boundaries))))

    def test_a_short_set_beside_a_long_one(self):
        made = MutableRangeSet.from_values(range(0, 80_000, 4))
        made.discard(40_000)
        twin, few = RangeSet(made), RangeSet([(400, 401), (404, 405), (50_000, 50_003)])
        part = few - RangeSet([(50_001, 50_003)])
        calls = (
            lambda it: (it & few, few & it, it.intersection(few), few.intersection(it), few - it, few.difference(it)),
            lambda it: (it.isdisjoint(few), few.isdisjoint(it)),
            lambda it: (few <= it, part <= it, it >= few, it >= part, few.issubset(it), part.issubset(it), it.issuperset(part)),
            lambda it: (few < it, it > few, it <= few, it < few, few >= it, it.issubset(few), few.issuperset(it)),
            lambda it: (it == few, few == it, it != few),
        )
        wanted = [call(twin) for call in calls]
        # None of them makes a list of the long one.
        whole = mock.PropertyMock(side_effect=AssertionError("a list of all"))
        with mock.patch.object(MutableRangeSet, "_now", whole):
            found = [call(made) for call in calls]
        self.assertEqual(found, wanted)

    def test_one_element_outside_of_a_short_set(self):
        made, few = MutableRangeSet.from_values(range(0, 8000, 4)), RangeSet([(0, 4001), (4003, 8000)])
        made.discard(4000)
        self.assertTrue(made <= few and made < few and few >= made and made.issubset(few) and few.issuperset(made))
        # Below all ranges of the short set, between two of them, just above, and far above.
        for outside in (-(2**63), -1, 4002, 8000, 2**63 - 1):
            made.add(outside)
            self.assertFalse(made <= few or made < few or few >= made or made.issubset(few) or few.issuperset(made), outside)
            made.discard(outside)
        self.assertTrue(made <= few)

    def test_questions_between_changes(self):
        made, few = MutableRangeSet.from_values(range(0, 800_000, 4)), RangeSet([(2, 3), (400_002, 400_003)])
        began = time.process_time()
        for n in range(1, 4000, 4):
            made.add(n)
            self.assertEqual(
                (made.range_at(n), made.first_fit(1, n - 1), list(made.gaps(n, n + 5))),
                ((n - 1, n + 1), n + 1, [(n + 1, n + 3), (n + 4, n + 5)]),
            )
            self.assertTrue(made.isdisjoint((n + 1, n + 2)) and made.overlapping(n, n + 1) <= made and few - made)
            made |= few
            made -= few
            made ^= few
            made ^= few
            self.assertEqual((made.rank(n + 1), made.span()), ((n + 3) // 4 * 2, (0, 799_997)))
        # A copy of the set for each would take 10 s.
        self.assertLess(time.process_time() - began, 3)

    def test_growth(self):
        made = MutableRangeSet.from_values(range(0, 800_000, 4))
        some = random.Random(5)
        pairs = [(start, start + 2) for start in (some.randrange(800_000) for _ in range(20_000))]
        began = time.process_time()
        for start, end in pairs:
            made.add(start, end)
        # A copy of the set for each would take 20 s.
        self.assertLess(time.process_time() - began, 4)
        self.assertEqual(made, RangeSet.from_values(range(0, 800_000, 4)) | RangeSet(pairs))

    def test_changes_by_the_collector(self):
        """Python's collector may run them within a call, and none is lost."""
        made, other, numbers, added = MutableRangeSet([(0, 10)]), RangeSet([(-9, -7), (-5, -3)]), itertools.count(100, 2), []
        every, intersect = RangeSet((None, None))._now[0], made._chunks.intersection

        class Late:
            def __init__(self):
                self.itself = self

            def __del__(self):
                added.append(next(numbers))
                made.add(added[-1])

        before = gc.get_threshold()
        gc.set_threshold(1, 1, 1)
        self.addCleanup(gc.set_threshold, *before)
        self.addCleanup(gc.enable)
        for _ in range(100):
            # It runs at the next request for memory of some types.
            for call in (lambda: made.boundaries, lambda: made.__ixor__(other), lambda: intersect(every, SIGNED, SIGNED)):
                gc.disable()
                Late()
                made.add(0, 10)
                # Else a pair takes the place of one that is gone.
                pairs = [(it, it) for it in range(2100)]
                gc.enable()
                call()
                gc.disable()
                self.assertEqual(len(pairs), 2100)
                del pairs
                self.assertEqual(made.boundaries[-1], max(added, default=9) + 1)
        gc.collect()
        self.assertEqual(len(added), 300)
        self.assertEqual(made, RangeSet([(0, 10)]) | RangeSet.from_values(added))


class Memory(unittest.TestCase):
    """What a change puts in the place of a list or of chunks is released."""

    def setUp(self):
        self.many = RangeSet.from_values(range(0, 4000, 2))
        # Few ranges change the chunks, and many make a list in their place.
        self.few = RangeSet([(10, 11), (12, 13)])
        self.half = RangeSet.from_values(range(0, 4000, 8))
        self.all = RangeSet((-9, 9000))

    def change(self, made):
        """Ten changes that leave the set as it was. One by few ranges makes chunks of a list, and one by many a list of chunks."""
        made.add(1, 2)
        made ^= self.few
        made ^= self.half
        made ^= self.few
        made -= self.few
        made |= self.few
        made ^= self.half
        made &= self.all
        made.discard(1, 2)
        made.discard(4000)
        return made.boundaries

    @unittest.skipUnless(sys.platform == "linux", "only Linux says how much memory a process has")
    def test_ten_thousand_changes(self):
        made = MutableRangeSet(self.many)
        for _ in range(100):
            self.change(made)
        before = resident()
        for _ in range(1000):
            self.change(made)
        # A list, and all chunks, take 32,000 bytes, and what few ranges make 300: if one of them stayed each time, these
        # would be 32 MB, or 1 MB.
        self.assertLess(resident() - before, 500_000)
        self.assertEqual(made, self.many)

    @unittest.skipUnless(hasattr(sys, "getrefcount"), "only CPython counts who holds an object")
    def test_a_list_is_counted_as_often_as_it_is_held(self):
        made = MutableRangeSet(self.many)
        made.add(1, 2)
        now = made._chunks.now
        held = sys.getrefcount(now)
        for _ in range(1000):
            made._chunks.now
            made.boundaries
            made ^= RangeSet()
        self.assertEqual(sys.getrefcount(now), held - 1)
        now = made._chunks.now
        # The set and this test hold it, and the call.
        self.assertEqual(sys.getrefcount(now), 3)
        others = [SIGNED, self.few._now[0], self.half._now[0], self.all._now[0]]
        counts = [sys.getrefcount(it) for it in others]
        for _ in range(1000):
            self.change(made)
        for it, count in zip(others, counts):
            self.assertLess(sys.getrefcount(it) - count, 10)


def resident():
    """How many bytes of memory the process has."""
    with open("/proc/self/statm") as file:
        return int(file.read().split()[1]) * os.sysconf("SC_PAGE_SIZE")


if __name__ == "__main__":
    unittest.main()
