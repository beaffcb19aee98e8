"""The functions over buffers: rows, bad input, other buffers, and made-up cases."""

import copy
import ctypes
import gc
import pickle
import random
import time
import unittest
from array import array

import range_sets as sets
from range_sets import RangeSet, _core
from range_sets._kind import SIGNED


def q(*items):
    return array("q", items)


def members(boundaries, points):
    return [sum(b <= p for b in boundaries) % 2 == 1 for p in points]


class Rows(unittest.TestCase):
    def test_operations(self):
        a, b = q(0, 10), q(5, 20)
        self.assertEqual(sets.union(a, b), q(0, 20))
        self.assertEqual(sets.intersection(a, b), q(5, 10))
        self.assertEqual(sets.difference(a, b), q(0, 5))
        self.assertEqual(sets.symmetric_difference(a, b), q(0, 5, 10, 20))
        self.assertEqual(sets.union(q(), q()), q())

    def test_one_set(self):
        self.assertEqual(sets.negation(q(0, 10)), q(-(2**63), 0, 10))
        self.assertEqual(sets.negation(array("Q", [0, 10])), array("Q", [10]))
        self.assertEqual(sets.insert(q(0, 10), 12, 14), q(0, 10, 12, 14))
        self.assertEqual(sets.remove(q(0, 10), 3, 7), q(0, 3, 7, 10))
        self.assertEqual(sets.split(q(0, 10, 20, 30), 25), (3, 2))

    def test_ranges_gaps_and_counts(self):
        a = q(0, 10, 20)
        self.assertEqual([sets.range_at(a, x) for x in (9, 10, 20)], [(0, 10), None, (20, None)])
        self.assertTrue(sets.contains_range(a, 3, 10) and not sets.contains_range(a, 3, 11))
        self.assertEqual([sets.covered(x) for x in (a, q(0, 10), q(-(2**63), 2**63 - 1))], [None, 10, 2**64 - 1])
        self.assertEqual(sets.gaps(a, -5, 15), q(-5, 0, 10, 15))
        self.assertEqual([list(sets.ranges(x)) for x in (a, q(), q(3, 5))], [[(0, 10), (20, None)], [], [(3, 5)]])
        with self.assertRaises(sets.NotSorted):
            sets.covered(q(3, 3))
        with self.assertRaises(sets.NotSorted):
            sets.ranges(q(3, 3))

    def test_numbers_without_a_sign(self):
        a, most = array("Q", [5, 10]), 2**64 - 1
        self.assertEqual(sets.insert(a, 2**63, most), array("Q", [5, 10, 2**63, most]))
        self.assertEqual(sets.remove(a, 0, 7), array("Q", [7, 10]))
        self.assertEqual(sets.gaps(a, 0, most), array("Q", [0, 5, 10, most]))
        self.assertEqual([sets.contains(a, x) for x in (4, 5, 10, most)], [False, True, False, False])
        self.assertTrue(sets.contains_range(a, 5, 10) and not sets.contains_range(a, 5, most))
        self.assertEqual([sets.range_at(a, x) for x in (9, most)], [(5, 10), None])
        self.assertEqual([sets.split(a, x) for x in (0, 7, most)], [(0, 0), (1, 0), (2, 2)])
        for call in (sets.contains, sets.range_at, sets.split):
            for value in (-1, 2**64):
                with self.assertRaises(OverflowError):
                    call(a, value)

    def test_numbers_in_any_order(self):
        given = q(7, -2, 7, 5)
        self.assertEqual(sets.from_unsorted(given), q(-2, 5, 7))
        self.assertEqual(given, q(7, -2, 7, 5))
        self.assertEqual(sets.from_unsorted(array("Q")), array("Q"))

    def test_ranges_in_any_order(self):
        self.assertEqual(sets.from_ranges(q(20, 30, 9, 9, -4, 10, 8, 4, 10, 12)), q(-4, 12, 20, 30))
        self.assertEqual(sets.from_ranges(array("Q", [3, 3])), array("Q"))
        with self.assertRaises(ValueError):
            sets.from_ranges(q(1, 2, 3))

    def test_tables_of_ranges(self):
        def table(columns):
            return memoryview(q(20, 30, 9, 12, 11, 15)).cast("B").cast("q", shape=[6 // columns, columns])

        self.assertEqual(sets.from_ranges(table(2)), q(9, 15, 20, 30))
        for call, columns in (
            (sets.from_ranges, 1),
            (sets.from_ranges, 3),
            (sets.from_unsorted, 1),
            (sets.from_unsorted, 2),
            (sets.ranges, 2),
        ):
            with self.subTest(call=call.__name__, columns=columns), self.assertRaises(TypeError):
                call(table(columns))

    def test_into_a_buffer(self):
        out = q(7, 7, 7, 7, 7)
        self.assertEqual(sets.symmetric_difference(q(0, 10), q(5, 20), out=out), 4)
        self.assertEqual(out, q(0, 5, 10, 20, 7))
        with self.assertRaises(sets.NoRoom) as refused:
            sets.symmetric_difference(q(0, 10), q(5, 20), out=q(7, 7, 7))
        self.assertEqual(refused.exception.needed, 4)
        with self.assertRaises(ValueError):
            a = q(0, 10)
            sets.union(a, q(5, 20), out=a)
        with self.assertRaises(TypeError):
            sets.union(q(0), q(5), q(0, 0))
        with self.assertRaises(TypeError):
            sets.union(q(0), q(5), out=array("Q", [0, 0]))
        with self.assertRaises(TypeError):
            sets.union(q(0), q(5), out=memoryview(q(0, 0)).toreadonly())

    def test_lists_can_grow_while_an_error_is_handled(self):
        a, out = q(0, 10), q(7)
        try:
            sets.symmetric_difference(a, q(5, 20), out=out)
            self.fail("there is room for four")
        except sets.NoRoom as refused:
            out.extend([0] * (refused.needed - len(out)))
        self.assertEqual(sets.symmetric_difference(a, q(5, 20), out=out), 4)
        for other in (array("Q", [7]), array("i", [7])):
            try:
                sets.union(a, q(5, 20), out=other)
                self.fail("the buffer isn't one of the list's numbers")
            except TypeError:
                other.append(7)
        for bad, call in ((q(3, 2), sets.is_disjoint), (q(3, 2), sets.covered), (array("i", [1]), sets.is_empty)):
            try:
                call(bad, a) if call == sets.is_disjoint else call(bad)
                self.fail("the list isn't one of a set")
            except (sets.NotSorted, TypeError):
                a.append(12)
                bad.append(4)

    def test_questions(self):
        a, b = q(0, 10), q(5, 20)
        self.assertTrue(sets.intersects(a, b) and not sets.is_disjoint(a, b))
        self.assertTrue(sets.is_subset(q(5, 10), b) and not sets.is_subset(a, b))
        self.assertTrue(sets.is_superset(b, q(5, 10)) and not sets.is_superset(b, a))
        self.assertTrue(sets.equal(a, q(0, 10)) and not sets.equal(a, b))
        self.assertTrue(sets.contains(a, 9) and not sets.contains(a, 10))
        self.assertTrue(sets.is_empty(q()) and not sets.is_empty(a))

    def test_bad_input(self):
        for bad in (q(3, 2), q(3, 3)):
            self.assertFalse(sets.is_sorted(bad))
            for call in (sets.union, sets.difference, sets.is_subset):
                with self.assertRaises(sets.NotSorted):
                    call(bad, q(1))
                with self.assertRaises(sets.NotSorted):
                    call(q(1), bad)
        with self.assertRaises(TypeError):
            sets.union(q(1), array("Q", [1]))
        with self.assertRaises(TypeError):
            sets.union(array("i", [1]), array("i", [1]))
        for value in (2**63, -(2**63) - 1):
            with self.assertRaises(OverflowError):
                sets.contains(q(1), value)
        for value in (1.0, "1", None):
            with self.assertRaises(TypeError):
                sets.contains(q(1), value)

    def test_other_buffers(self):
        memory = bytearray(b"-" + q(0, 10).tobytes())
        crooked = memoryview(memory)[1:].cast("q")
        borrowed = memoryview(q(0, 10))
        for a in (borrowed.toreadonly(), crooked, (ctypes.c_int64 * 2)(0, 10), borrowed.cast("B").cast("@q")):
            self.assertEqual(sets.union(a, q(5, 20)), q(0, 20))
            self.assertEqual(sets.from_unsorted(a), q(0, 10))
            self.assertEqual(list(sets.ranges(a)), [(0, 10)])
        with self.assertRaises(ValueError):
            sets.union(q(0), q(1), out=crooked)


class MadeUp(unittest.TestCase):
    def test_members(self):
        made = random.Random(1)
        points = range(-1, 21)
        for _ in range(2000):
            a, b = (q(*sorted(made.sample(range(20), made.randrange(12)))) for _ in range(2))
            on_a, on_b = members(a, points), members(b, points)
            for call, f in (
                (sets.union, lambda x, y: x or y),
                (sets.intersection, lambda x, y: x and y),
                (sets.difference, lambda x, y: x and not y),
                (sets.symmetric_difference, lambda x, y: x != y),
            ):
                result = call(a, b)
                self.assertTrue(sets.is_sorted(result))
                self.assertEqual(members(result, points), [f(x, y) for x, y in zip(on_a, on_b)])
            start, end = made.randrange(-1, 21), made.randrange(-1, 21)
            inside = [start <= p < end for p in points]
            self.assertEqual(members(sets.gaps(a, start, end), points), [x and not y for x, y in zip(inside, on_a)])
            self.assertEqual(sets.contains_range(a, start, end), all(y for x, y in zip(inside, on_a) if x))
            ends = q(*(made.randrange(20) for _ in range(2 * made.randrange(8))))
            held = [any(x <= p < y for x, y in zip(ends[::2], ends[1::2])) for p in points]
            joined = sets.from_ranges(ends)
            self.assertTrue(sets.is_sorted(joined))
            self.assertEqual(members(joined, points), held)
            self.assertEqual(sets.covered(a), None if len(a) % 2 else sum(on_a))


class OwnLists(unittest.TestCase):
    """What a set has is sorted by its making. So nothing else makes such a list, and nothing changes it."""

    def test_no_program_makes_changes_or_inherits_one(self):
        made = RangeSet([(0, 10), (20, 30)])._now[0]
        cls = type(made)
        for call in (
            cls,
            lambda: cls(q(3, 1)),
            lambda: object.__new__(cls),
            lambda: type("Forged", (cls,), {}),
            lambda: setattr(Plain(), "__class__", cls),
            lambda: setattr(cls, "overlapping", None),
            lambda: setattr(made, "memory", b""),
            lambda: made.__setitem__(0, 5),
            lambda: memoryview(made).__setitem__(0, 5),
            lambda: sets.union(q(7, 9), q(), out=made),
            lambda: copy.copy(made),
            lambda: _core.Chunks(q(0, 10), SIGNED),
            lambda: pickle.dumps(made),
        ):
            with self.assertRaises((TypeError, AttributeError)):
                call()
        self.assertEqual((list(made), made[-1], made[1], len(made)), ([0, 10, 20, 30], 30, 10, 4))
        for at in (4, -5):
            with self.assertRaises(IndexError):
                made[at]
        self.assertEqual([list(it) for it in (made[1:3], made[:0], made[3:1], made.part(2, 9))], [[10, 20], [], [], [20, 30]])

    def test_it_outlives_its_set(self):
        view = memoryview(RangeSet.from_values(range(0, 1000, 2))[:400]._now[0])
        gc.collect()
        self.assertEqual((view.format, view.shape, view.itemsize, view.readonly), ("q", (800,), 8, True))
        self.assertEqual(view.tolist(), [it for n in range(0, 800, 2) for it in (n, n + 1)])

    def test_a_narrow_question_takes_no_longer_of_many_ranges(self):
        many, few = RangeSet.from_values(range(0, 2_000_000, 2)), RangeSet([(5000, 5001), (7000, 7001)])
        began = time.process_time()
        for start in range(0, 300_000, 100):
            self.assertEqual(len(many.gaps(start, start + 10)), 5)
            self.assertFalse(many.isdisjoint((start, start + 1)))
            self.assertTrue(few <= many and few & many == few)
        # If each went over the ranges, they would take 20 s.
        self.assertLess(time.process_time() - began, 2)

    def test_other_lists_are_checked_beside_one(self):
        own = RangeSet([(0, 10), (20, 30)])._now[0]
        for call in (sets.union, sets.intersection, sets.difference, sets.is_subset, sets.is_disjoint, sets.equal):
            for given in ((own, q(5, 3)), (q(5, 3), own)):
                with self.assertRaises(sets.NotSorted):
                    call(*given)


class Plain:
    pass


if __name__ == "__main__":
    unittest.main()
