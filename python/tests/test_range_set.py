"""RangeSet: how it is made, what it answers, its operators and its other forms."""

import copy
import operator
import pickle
import unittest
import weakref
import xml.etree.ElementTree
from array import array
from datetime import date
from itertools import islice, product

from range_sets import AnyRangeSet, MutableRangeSet, NotSorted, RangeMap, RangeSet

LEAST, MOST = -(2**63), 2**63 - 1


def pairs(made):
    return list(made)


# What each makes of 0..5, 8..9 and 3..7.
OPERATORS = [
    (operator.or_, [(0, 7), (8, 9)]),
    (operator.and_, [(3, 5)]),
    (operator.sub, [(0, 3), (8, 9)]),
    (operator.xor, [(0, 3), (5, 7), (8, 9)]),
]


class Making(unittest.TestCase):
    def test_pairs_in_any_order(self):
        self.assertEqual(pairs(RangeSet([(20, 30), (0, 5), (3, 10), [28, 29]])), [(0, 10), (20, 30)])
        self.assertEqual(pairs(RangeSet([(0, 5), (5, 7)])), [(0, 7)])
        self.assertEqual(pairs(RangeSet((3, 5))), [(3, 5)])
        self.assertEqual(pairs(RangeSet(((0, 5), (8, 9)))), [(0, 5), (8, 9)])
        self.assertEqual(pairs(RangeSet((n, n + 1) for n in (4, 2, 3))), [(2, 5)])
        self.assertEqual(pairs(RangeSet({(0, 1)})), [(0, 1)])
        self.assertEqual(pairs(RangeSet([iter((0, 5)), map(int, "79")])), [(0, 5), (7, 9)])

    def test_no_numbers(self):
        for nothing in (RangeSet(), RangeSet([]), RangeSet([(5, 5), (9, 3)]), RangeSet(range(3, 3)), RangeSet([[]][:0])):
            self.assertEqual(pairs(nothing), [])

    def test_none_as_an_end_and_as_a_start(self):
        self.assertEqual(pairs(RangeSet([(20, None), (0, 10)])), [(0, 10), (20, None)])
        self.assertEqual(pairs(RangeSet([(20, None), (15, 30), (40, None)])), [(15, None)])
        self.assertEqual(pairs(RangeSet([(None, 5)])), [(LEAST, 5)])
        self.assertEqual(pairs(RangeSet((None, None))), [(LEAST, None)])
        self.assertEqual(pairs(RangeSet([(None, 5), (7, None)], unsigned=True)), [(0, 5), (7, None)])

    def test_ranges_and_sets(self):
        other = RangeSet([(100, 110)])
        self.assertEqual(pairs(RangeSet(range(3, 9))), [(3, 9)])
        self.assertEqual(pairs(RangeSet(other)), [(100, 110)])
        self.assertEqual(pairs(RangeSet([range(3, 9), (8, 12), other, MutableRangeSet([(105, 120)])])), [(3, 12), (100, 120)])
        unsigned = RangeSet([(0, 2**63 + 5)], unsigned=True)
        self.assertTrue(RangeSet(unsigned).unsigned and RangeSet([unsigned, (1, 2)]).unsigned)

    def test_boundaries(self):
        given = array("q", [0, 10, 20])
        for items in ([0, 10, 20], (0, 10, 20), iter([0, 10, 20]), range(0, 21, 10), given, memoryview(given).toreadonly()):
            expected = [(0, 10), (20, None)]
            self.assertEqual(pairs(RangeSet.from_boundaries(items)), expected)
        self.assertTrue(RangeSet.from_boundaries(array("Q", [1])).unsigned)
        self.assertTrue(RangeSet.from_boundaries([1], unsigned=True).unsigned)
        for bad in ([3, 3], [3, 2], array("q", [3, 2])):
            with self.assertRaises(NotSorted):
                RangeSet.from_boundaries(bad)

    def test_boundaries_are_a_copy_of_a_buffer(self):
        given = array("q", [0, 10])
        made = RangeSet.from_boundaries(given)
        given[1] = 5
        given.append(20)
        self.assertEqual(pairs(made), [(0, 10)])

    def test_tables(self):
        table = memoryview(array("q", [20, 30, 0, 5, 3, 8])).cast("B").cast("q", shape=[3, 2])
        self.assertEqual(pairs(RangeSet(table)), [(0, 8), (20, 30)])
        self.assertEqual(pairs(RangeSet.from_ranges(table)), [(0, 8), (20, 30)])
        self.assertEqual(pairs(RangeSet.from_ranges(array("Q", [4, 6]))), [(4, 6)])

    def test_text(self):
        for text, expected in (
            ("0..10, 20..", [(0, 10), (20, None)]),
            ("", []),
            (" \t", []),
            ("20..30,-4..+5 , 3..8", [(-4, 8), (20, 30)]),
            ("7..", [(7, None)]),
            ("5..5", []),
            ("9..3", []),
            ("00000000000000000000000000001..2", [(1, 2)]),
            ("-9223372036854775808..9223372036854775807", [(LEAST, MOST)]),
        ):
            with self.subTest(text=text):
                self.assertEqual(pairs(RangeSet.parse(text)), expected)
        self.assertEqual(pairs(RangeSet.parse("0..18446744073709551615", unsigned=True)), [(0, 2**64 - 1)])

    def test_the_union_of_many(self):
        parts = [RangeSet([(3 * n, 3 * n + 1 + n % 3)]) for n in range(7)]
        self.assertEqual(pairs(RangeSet.union_all(parts)), [(0, 1), (3, 5), (6, 10), (12, 14), (15, 19)])
        self.assertEqual(pairs(RangeSet.union_all([])), [])
        self.assertEqual(pairs(RangeSet.union_all([range(3), (5, 9), [(8, 12), (20, None)], parts[0]])), [(0, 3), (5, 12), (20, None)])
        self.assertTrue(RangeSet.union_all([], unsigned=True).unsigned)
        self.assertTrue(RangeSet.union_all([RangeSet(unsigned=True)]).unsigned)

    def test_the_intersection_of_many(self):
        parts = [RangeSet([(n, n + 10), (20 + n, 22 + n)]) for n in range(4)]
        for count, expected in ((0, [(LEAST, None)]), (1, [(0, 10), (20, 22)]), (2, [(1, 10), (21, 22)]), (3, [(2, 10)]), (4, [(3, 10)])):
            self.assertEqual(pairs(RangeSet.intersection_all(parts[:count])), expected)
        self.assertEqual(pairs(RangeSet.intersection_all([range(9), (5, None), [(0, 6), (7, 20)]])), [(5, 6), (7, 9)])
        self.assertEqual(pairs(RangeSet.intersection_all([], unsigned=True)), [(0, None)])
        self.assertTrue(RangeSet.intersection_all([RangeSet(unsigned=True)]).unsigned)

    def test_single_numbers(self):
        for values, expected in (
            ([], []),
            ([5], [(5, 6)]),
            ((7, 3, 5, 4, 3), [(3, 6), (7, 8)]),
            (range(9, 0, -2), [(n, n + 1) for n in (1, 3, 5, 7, 9)]),
            ({MOST, MOST - 1, LEAST}, [(LEAST, LEAST + 1), (MOST - 1, None)]),
            ([MOST], [(MOST, None)]),
            (iter([0, MOST]), [(0, 1), (MOST, None)]),
            (array("q", [2, 1]), [(1, 3)]),
            (array("b", [-1, 0]), [(-1, 1)]),
            (b"\1\0", [(0, 2)]),
        ):
            with self.subTest(values=values):
                self.assertEqual(pairs(RangeSet.from_values(values)), expected)
        self.assertEqual(pairs(RangeSet.from_values([2**64 - 1, 0], unsigned=True)), [(0, 1), (2**64 - 1, None)])
        kinds = [RangeSet.from_values(array(code, [1]), unsigned=given).unsigned for code in "hH" for given in (None, False, True)]
        self.assertEqual(kinds, [False, False, True, True, False, True])


class Reading(unittest.TestCase):
    def setUp(self):
        self.set = RangeSet([(0, 10), (20, 30), (40, None)])

    def test_members(self):
        members = [x for x in range(-2, 45) if x in self.set]
        self.assertEqual(members, [*range(0, 10), *range(20, 30), *range(40, 45)])
        self.assertTrue(MOST in self.set and True in self.set)
        self.assertFalse(2**63 in self.set or -(2**63) - 1 in self.set or 10**5000 in self.set)
        self.assertFalse(-1 in ~RangeSet(unsigned=True))

    def test_whole_ranges(self):
        for ends, answer in (
            ((0, 10), True),
            ((0, 11), False),
            ((5, 5), True),
            ((9, 3), True),
            ((50, None), True),
            ((20, None), False),
            ((None, 0), False),
            ((40, 2**63), True),
            ((40, 2**63 + 1), False),
            ((2**63, 2**64), False),
            ((2**64, 2**64), True),
            ((2**64, 2**63), True),
            ((-(2**70), 5), False),
            ((2**63, None), False),
        ):
            with self.subTest(ends=ends):
                self.assertIs(self.set.covers(*ends), answer)
                self.assertIs(self.set.covers(ends), answer)
        self.assertTrue(self.set.covers(range(3, 7)))
        self.assertTrue(RangeSet([(None, None)]).covers(None, None))

    def test_the_range_at_a_number(self):
        self.assertEqual([self.set.range_at(x) for x in (0, 9, 10, 25, 99, 2**70)], [(0, 10), (0, 10), None, (20, 30), (40, None), None])

    def test_overlapping(self):
        every = [(0, 10), (20, 30), (40, None)]
        for ends, expected in (
            ((5, 25), every[:2]),
            ((10, 20), []),
            ((9, 10), every[:1]),
            ((9, 21), every[:2]),
            ((10, 21), every[1:2]),
            ((0, 1), every[:1]),
            ((-9, 0), []),
            ((29, 40), every[1:2]),
            ((29, 41), every[1:]),
            ((50, 60), every[2:]),
            ((None, None), every),
            ((None, 20), every[:1]),
            ((30, None), every[2:]),
            ((25, 25), []),
            ((25, 5), []),
            ((-(2**70), 2**70), every),
            ((2**63, None), []),
            ((MOST, 2**63), every[2:]),
            ((None, LEAST), []),
            ((-(2**70), -(2**69)), []),
        ):
            with self.subTest(ends=ends):
                self.assertEqual(pairs(self.set.overlapping(*ends)), expected)
        found = [pairs(self.set.overlapping(it)) for it in (9, 10, (9, 10), range(10, 21), 2**70)]
        self.assertEqual(found, [every[:1], [], every[:1], every[1:2], []])
        self.assertIs(self.set.overlapping(5, 25).boundaries.obj.memory, self.set.boundaries.obj.memory)
        self.assertEqual(pairs(RangeSet([(0, 5)], unsigned=True).overlapping(-3, 1)), [(0, 5)])

    def test_one_by_one(self):
        self.assertEqual(list(RangeSet([(-2, 1), (7, 9)]).members()), [-2, -1, 0, 7, 8])
        self.assertEqual(list(islice(self.set.members(), 19, 23)), [29, 40, 41, 42])
        self.assertEqual((list(RangeSet().members()), list(RangeSet((MOST - 1, None)).members())), ([], [MOST - 1, MOST]))
        self.assertEqual(list(RangeSet((2**64 - 1, None), unsigned=True).members()), [2**64 - 1])

    def test_ranges_with_an_end(self):
        self.assertEqual(list(self.set[:2].bounded()), [(0, 10), (20, 30)])
        self.assertEqual(list(RangeSet().bounded()), [])
        with self.assertRaises(ValueError):
            self.set.bounded()

    def test_whether_a_number_is_covered(self):
        self.assertEqual([self.set.covers(n) for n in (9, 10, MOST, 2**63, -(2**70))], [True, False, True, False, False])

    def test_the_span(self):
        self.assertEqual((self.set.span(), RangeSet([(3, 5), (7, 9)]).span(), RangeSet().span()), ((0, None), (3, 9), None))

    def test_the_ranges(self):
        expected = [(0, 10), (20, 30), (40, None)]
        self.assertEqual((list(self.set), list(reversed(self.set))), (expected, expected[::-1]))
        self.assertEqual([self.set[i] for i in (0, 1, 2, -1, -3)], [expected[i] for i in (0, 1, 2, -1, -3)])
        for bad in (3, -4):
            with self.assertRaises(IndexError):
                self.set[bad]
        for part in (slice(1, None), slice(None, -1), slice(5, 9), slice(2, 1), slice(None, None, 2), slice(None, None, -1)):
            with self.subTest(part=part):
                self.assertEqual(pairs(self.set[part]), sorted(expected[part]))

    def test_the_boundaries(self):
        boundaries = self.set.boundaries
        self.assertEqual((boundaries.tolist(), boundaries.format, boundaries.readonly), ([0, 10, 20, 30, 40], "q", True))
        with self.assertRaises(TypeError):
            boundaries[0] = 1


class NewSets(unittest.TestCase):
    def test_operators(self):
        a, b = RangeSet([(0, 10), (20, None)]), RangeSet([(5, 25)])
        self.assertEqual(pairs(a | b), [(0, None)])
        self.assertEqual(pairs(a & b), [(5, 10), (20, 25)])
        self.assertEqual(pairs(a - b), [(0, 5), (25, None)])
        self.assertEqual(pairs(a ^ b), [(0, 5), (10, 20), (25, None)])
        self.assertEqual(pairs(~a), [(LEAST, 0), (10, 20)])
        self.assertEqual(pairs(~RangeSet([(0, 10)], unsigned=True)), [(10, None)])
        self.assertEqual(str(RangeSet([(0, 10), (20, None)]) - RangeSet([(3, 5)])), "0..3, 5..10, 20..")

    def test_operators_take_sets_alone(self):
        a = RangeSet([(0, 10)])
        calls = (
            lambda: a | [(0, 1)],
            lambda: [(0, 1)] | a,
            lambda: a & range(3),
            lambda: a - {1},
            lambda: a ^ (0, 1),
            lambda: a < [(0, 1)],
        )
        for call in calls:
            with self.assertRaises(TypeError):
                call()

    def test_signed_and_unsigned_do_not_mix(self):
        a, b = RangeSet([(0, 10)]), RangeSet([(0, 10)], unsigned=True)
        for call in (
            lambda: a | b,
            lambda: b & a,
            lambda: a - b,
            lambda: a ^ b,
            lambda: a <= b,
            lambda: a < b,
            lambda: a.isdisjoint(b),
            lambda: RangeSet([a, b]),
            lambda: RangeSet(b, unsigned=False),
            lambda: RangeSet.union_all([a, b]),
            lambda: a.union(b),
        ):
            with self.assertRaises(TypeError):
                call()
        self.assertNotEqual(a, b)

    def test_methods_take_what_a_set_is_made_of(self):
        a = RangeSet([(0, 10)])
        self.assertEqual(pairs(a.union([(20, 30)], range(10, 12))), [(0, 12), (20, 30)])
        self.assertEqual(pairs(a.intersection([(5, 20)], [(0, 7)])), [(5, 7)])
        self.assertEqual(pairs(a.difference([(5, 6)], (8, None))), [(0, 5), (6, 8)])
        self.assertEqual(pairs(a.symmetric_difference([(5, 20)])), [(0, 5), (10, 20)])
        self.assertTrue(a.isdisjoint([(10, 20)]) and a.issubset(range(20)) and a.issuperset((3, 4)))
        self.assertEqual((pairs(a.union()), pairs(a.intersection()), pairs(a.difference())), ([(0, 10)],) * 3)

    def test_ranges_put_in_and_taken_out(self):
        a = RangeSet([(0, 10), (20, 30)])
        self.assertEqual(pairs(a.insert(5, 25)), [(0, 30)])
        self.assertEqual(pairs(a.insert((12, None))), [(0, 10), (12, None)])
        self.assertEqual(pairs(a.insert(None, 5)), [(LEAST, 10), (20, 30)])
        self.assertEqual(pairs(a.insert(range(15, 17))), [(0, 10), (15, 17), (20, 30)])
        self.assertEqual(pairs(a.remove(5, 25)), [(0, 5), (25, 30)])
        self.assertEqual(pairs(a.remove(25, None)), [(0, 10), (20, 25)])
        self.assertEqual(pairs(a.remove((None, 25))), [(25, 30)])
        self.assertEqual((a.insert(start=5, end=25), a.remove(start=None, end=25)), (a.insert(5, 25), a.remove((None, 25))))
        self.assertEqual(pairs(a.insert(7, 3)), [(0, 10), (20, 30)])
        self.assertEqual(pairs(a), [(0, 10), (20, 30)])

    def test_gaps(self):
        a = RangeSet([(0, 10), (20, 30)])
        self.assertEqual(pairs(a.gaps(-5, 25)), [(-5, 0), (10, 20)])
        self.assertEqual(pairs(a.gaps(5)), [(10, 20), (30, None)])
        self.assertEqual(a.gaps(), ~a)
        self.assertEqual(pairs(a.gaps(None, 5)), [(LEAST, 0)])

    def test_cuts(self):
        a = RangeSet([(0, 10), (20, 30), (40, None)])
        first = [(0, 10)]
        cuts = (-5, []), (0, []), (5, [(0, 5)]), (10, first), (15, first), (20, first), (50, [(0, 10), (20, 30), (40, 50)])
        for at, below in cuts:
            with self.subTest(at=at):
                left, right = a.split(at)
                self.assertEqual(pairs(left), below)
                self.assertEqual((left | right, left & right), (a, RangeSet()))
                self.assertTrue(right.covers(at, at + 1) is a.covers(at, at + 1) and right.isdisjoint([(None, at)]))

    def test_weak_references(self):
        for make, source in ((RangeSet, (0, 10)), (MutableRangeSet, (0, 10)), (RangeMap, [((0, 10), 1)])):
            made = make(source)
            followed = weakref.ref(made)
            self.assertIs(followed(), made)
            self.assertEqual(pickle.loads(pickle.dumps(made)), made)
            del made
            self.assertIsNone(followed())

    def test_a_number_that_changes_what_it_stands_in(self):
        class Five:
            def __index__(self):
                del pairs[2:], pair[1:]
                return 5

        pair = [Five(), 9]
        pairs = [(0, 1), pair, (20, 30), (40, 50)]
        self.assertEqual(list(RangeSet(pairs)), [(0, 1), (5, 9), (20, 30), (40, 50)])
        self.assertEqual(pairs, [(0, 1), pair])

    def test_a_part_keeps_at_most_twice_its_size(self):
        a = RangeSet([(0, 10), (20, 30)])
        memory = a.boundaries.obj.memory
        for part in (*a.split(15), a[1:]):
            self.assertIs(part.boundaries.obj.memory, memory)
        many = RangeSet.from_values(range(0, 20_000, 2))
        parts = [many[:1], many[5000:5003], many[:4999], many[:6000], many.overlapping(40, 50), *many.split(16_000), *many.split(1001)]
        for part, taken in zip(parts, (1, 3, 4999, 6000, 5, 8000, 2000, 501, 9499)):
            self.assertEqual(len(part), taken)
            self.assertTrue(part <= many)
            self.assertLessEqual(len(part.boundaries.obj.memory), 2 * 16 * taken)
            self.assertEqual(part.boundaries.obj.memory is many.boundaries.obj.memory, 2 * taken >= len(many))
        # A part of a part too.
        self.assertEqual(len(many[:6000][:3000][:10].boundaries.obj.memory), 160)


class Comparisons(unittest.TestCase):
    def test_as_frozenset_compares(self):
        made = [[], [(0, 3)], [(0, 5)], [(3, 5)], [(0, 3), (4, 5)]]
        for left in made:
            for right in made:
                a, b = RangeSet(left), RangeSet(right)
                x, y = (frozenset(n for start, end in it for n in range(start, end)) for it in (left, right))
                with self.subTest(left=left, right=right):
                    self.assertEqual((a == b, a != b, a < b, a <= b, a > b, a >= b), (x == y, x != y, x < y, x <= y, x > y, x >= y))
                    self.assertEqual((a.isdisjoint(b), a.issubset(b), a.issuperset(b)), (x.isdisjoint(y), x.issubset(y), x.issuperset(y)))

    def test_keys(self):
        table = {RangeSet([(0, 3), (3, 5)]): "a", RangeSet([(0, 5)], unsigned=True): "b"}
        self.assertEqual((table[RangeSet([(0, 5)])], len(table)), ("a", 2))
        self.assertEqual(RangeSet([(0, 5)]), MutableRangeSet([(0, 5)]))
        self.assertNotEqual(RangeSet(), [])


class OtherForms(unittest.TestCase):
    made = [
        RangeSet(),
        RangeSet(unsigned=True),
        RangeSet([(-5, 10), (20, None)]),
        RangeSet([(0, 2**64 - 1)], unsigned=True),
        RangeSet((None, None)),
    ]

    def test_the_text_reads_back(self):
        for it in self.made:
            with self.subTest(it=it):
                self.assertEqual(eval(repr(it), {"RangeSet": RangeSet}), it)
                self.assertEqual(RangeSet.parse(str(it), unsigned=it.unsigned), it)
        self.assertEqual(repr(self.made[3]), "RangeSet([(0, 18446744073709551615)], unsigned=True)")
        self.assertEqual(f"{self.made[2]}", "-5..10, 20..")

    def test_a_long_set_is_written_in_short(self):
        made = RangeSet.from_values(range(0, 2000, 2))
        self.assertEqual(eval(repr(made)), made)
        made |= RangeSet([(2000, None)])
        self.assertEqual(repr(made), "RangeSet([(0, 1), (2, 3), (4, 5), ..., (1996, 1997), (1998, 1999), (2000, None)])")
        with self.assertRaises(TypeError):
            eval(repr(made))
        self.assertEqual(RangeSet.parse(str(made)), made)
        self.assertEqual((f"{RangeSet([(0, 5)]):>8}", f"{MutableRangeSet([(0, 5)])}"), ("    0..5", "0..5"))

    def test_copies(self):
        for it in self.made:
            self.assertTrue(copy.copy(it) is it and copy.deepcopy(it) is it and it.copy() is it)

    def test_pictures(self):
        def drawn(made):
            return xml.etree.ElementTree.fromstring(made._repr_svg_())

        def fills(picture):
            return [it.get("fill") == "none" for it in picture if it.tag.endswith("circle")]

        def words(picture):
            return [it.text for it in picture if it.tag.endswith("text")]

        def arrows(picture):
            return len([it for it in picture if it.tag.endswith("path")])

        for it in self.made:
            drawn(it)
        picture = drawn(RangeSet([(0, 10), (20, None)]))
        self.assertEqual(fills(picture), [False, True, False])
        self.assertEqual((words(picture), arrows(picture), picture[0].text), (["0", "10", "20"], 1, "0..10, 20.."))
        self.assertTrue(picture[0].tag.endswith("title"))
        picture = drawn(~RangeSet([(0, 10), (20, 30)]))
        self.assertEqual((words(picture), arrows(picture), fills(picture)), (["0", "10", "20", "30"], 2, [True, False, True, False]))
        picture = drawn(RangeSet())
        self.assertEqual((words(picture), arrows(picture), picture[0].text), (["no numbers"], 0, "no numbers"))
        picture = drawn(RangeSet((None, None)))
        self.assertEqual((words(picture), arrows(picture), fills(picture)), (["all numbers"], 2, []))
        picture = drawn(RangeSet([(0, 5)], unsigned=True))
        self.assertEqual((words(picture), arrows(picture), fills(picture)), (["0", "5"], 0, [False, True]))
        picture = drawn(RangeSet((n, n + 1) for n in range(0, 20, 2)))
        self.assertEqual(picture[0].text, "0..1, 2..3, 4..5, 6..7, 8..9, 10..11, 12..13, 14..15, ...")
        self.assertNotIn("#", "".join(it.get("fill", "") for it in picture if it.tag.endswith("text")))
        many = drawn(RangeSet((2 * n, 2 * n + 1) for n in range(1000)))
        self.assertEqual(len(fills(many)), 200)
        self.assertIn("and 900 more", words(many))

    def test_a_buffer_of_it_can_be_released(self):
        for made, expected in ((RangeSet([(0, 5)]), [(0, 5)]), (RangeSet(), []), (MutableRangeSet([(0, 5)]), [(0, 5)])):
            with made.boundaries as boundaries:
                self.assertEqual(len(boundaries), 2 * len(expected))
            made.boundaries.release()
            self.assertEqual((list(made), made | RangeSet(), made == RangeSet(expected)), (expected, made, True))
        self.assertEqual(RangeSet() | RangeSet([(0, 1)]), RangeSet([(0, 1)]))

    def test_nothing_changes_a_set(self):
        a = RangeSet([(0, 10)])
        with self.assertRaises(AttributeError):
            a.name = "a"
        with self.assertRaises(TypeError):
            a[0] = (0, 5)
        before = a
        a |= RangeSet([(20, 30)])
        self.assertEqual((pairs(before), pairs(a)), ([(0, 10)], [(0, 10), (20, 30)]))

    def test_subclasses(self):
        class Hours(RangeSet):
            __slots__ = ()

        day = date(2026, 5, 1), date(2026, 5, 2)
        for a, b in product((RangeSet, MutableRangeSet, Hours), repeat=2):
            for call, expected in OPERATORS:
                made = call(a([(0, 5), (8, 9)]), b([(3, 7)]))
                self.assertEqual((type(made), pairs(made)), (a, expected))
                for other in ([(3, 7)], {3}, None, 5):
                    self.assertRaises(TypeError, call, a([(0, 5)]), other)
                    self.assertRaises(TypeError, call, other, a([(0, 5)]))
                made = call(a(), b([day]))
                self.assertEqual((type(made), made.kind, pairs(made)), (a, "date", [day] if call in (operator.or_, operator.xor) else []))
                self.assertRaises(TypeError, call, a([(0, 5)]), b([(0, 5)], unsigned=True))
        self.assertIsInstance(Hours(), AnyRangeSet)
        self.assertIs(copy.copy(Hours()).__class__, Hours)
        for call in (RangeSet, MutableRangeSet, Hours):
            with self.assertRaises(TypeError) as raised:
                call([(0, 5)], unsinged=True)
            self.assertEqual(str(raised.exception), f"{call.__name__}() got an unexpected keyword argument 'unsinged'")


if __name__ == "__main__":
    unittest.main()
