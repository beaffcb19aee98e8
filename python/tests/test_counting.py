"""What sets count: their members, those below an element, and elements that are no members."""

import random
import unittest
from bisect import bisect_left
from itertools import pairwise

from range_sets import MutableRangeSet, RangeSet

LEAST, MOST = -(2**63), 2**63 - 1


class Counts(unittest.TestCase):
    def setUp(self):
        self.set = RangeSet([(0, 10), (20, 30), (40, None)])

    def test_members_below_a_number(self):
        for pairs, value, below in (
            ([(0, 10), (20, None)], -5, 0),
            ([(0, 10), (20, None)], 0, 0),
            ([(0, 10), (20, None)], 1, 1),
            ([(0, 10), (20, None)], 10, 10),
            ([(0, 10), (20, None)], 20, 10),
            ([(0, 10), (20, None)], MOST, MOST - 10),
            ([(0, 10)], MOST, 10),
            ([], 5, 0),
            ([(LEAST, None)], LEAST, 0),
            ([(LEAST, None)], 0, 2**63),
            ([(LEAST, None)], MOST, 2**64 - 1),
            ([(LEAST, 5), (7, 9)], MOST, 2**63 + 7),
        ):
            with self.subTest(pairs=pairs, value=value):
                self.assertEqual((RangeSet(pairs).rank(value), MutableRangeSet(pairs).rank(value)), (below, below))
        self.assertEqual(RangeSet([(0, None)], unsigned=True).rank(2**64 - 1), 2**64 - 1)

    def test_the_member_that_so_many_are_below(self):
        for pairs, k, member in (
            ([(0, 10), (20, None)], 0, 0),
            ([(0, 10), (20, None)], 9, 9),
            ([(0, 10), (20, None)], 10, 20),
            ([(0, 10), (20, None)], MOST - 10, MOST),
            ([(0, 10), (20, None)], MOST - 9, None),
            ([(0, 10)], 10, None),
            ([], 0, None),
            ([(LEAST, None)], 0, LEAST),
            ([(LEAST, None)], 2**63, 0),
            ([(LEAST, None)], 2**64 - 1, MOST),
            ([(LEAST, None)], 2**64, None),
            ([(LEAST, None)], 2**70, None),
            ([(MOST, None)], 0, MOST),
            ([(MOST, None)], 1, None),
        ):
            with self.subTest(pairs=pairs, k=k):
                self.assertEqual((RangeSet(pairs).select(k), MutableRangeSet(pairs).select(k)), (member, member))
        everything = RangeSet([(0, None)], unsigned=True)
        self.assertEqual([everything.select(it) for it in (0, 2**64 - 1, 2**64)], [0, 2**64 - 1, None])

    def test_ranks_of_made_up_sets(self):
        made = random.Random(20261)
        for _ in range(200):
            ends = sorted(made.sample(range(-60, 60), 2 * made.randrange(12)))
            members = [it for start, end in pairwise(ends[:]) if ends.index(start) % 2 == 0 for it in range(start, end)]
            it = RangeSet.from_boundaries(ends)
            self.assertEqual([it.rank(value) for value in range(-62, 62)], [bisect_left(members, value) for value in range(-62, 62)])
            self.assertEqual([it.select(k) for k in range(len(members) + 2)], [*members, None, None])

    def test_how_many(self):
        self.assertEqual((len(self.set), bool(self.set), len(RangeSet()), bool(RangeSet())), (3, True, 0, False))
        self.assertEqual((self.set.covered(), RangeSet([(0, 10), (20, 30)]).covered(), RangeSet().covered()), (None, 20, 0))
        self.assertEqual(RangeSet([(LEAST, MOST)]).covered(), 2**64 - 1)

    def test_where_numbers_fit(self):
        for asked, answer in (
            ((5, 0), 10),
            ((10, 0), 10),
            ((11, 0), None),
            ((1, -1), -1),
            ((2, -1), 10),
            ((10, -10), -10),
            ((5, 25), 30),
            ((0, 5), 5),
            ((0, 5, 5), 5),
            ((0, 5, 4), None),
            ((5, 0, 14), None),
            ((5, 0, 15), 10),
            ((1, 40), None),
            ((3, None, None), LEAST),
            ((1, 10, 10), None),
            ((2**64, None, None), None),
            ((2**65, None, None), None),
        ):
            with self.subTest(asked=asked):
                self.assertEqual(self.set.first_fit(*asked), answer)
        nothing = RangeSet()
        self.assertEqual((nothing.first_fit(2**64), nothing.first_fit(2**64 + 1), nothing.first_fit(1, MOST)), (LEAST, None, MOST))
        self.assertEqual(RangeSet([(0, 4)], unsigned=True).first_fit(2**64 - 4), 4)
        self.assertIsNone(RangeSet([(0, 5)], unsigned=True).first_fit(2**64 - 4))

    def test_where_numbers_fit_up_to_the_greatest(self):
        for pairs, asked, answer in (
            ([(0, MOST)], (1, 0), MOST),
            ([(0, MOST)], (2, 0), None),
            ([(0, None)], (1, 0), None),
            ([(0, None)], (0, 5), 5),
            ([(5, 10)], (2**63 - 10, 0), 10),
            ([(5, 10)], (2**63 - 9, 0), None),
            ([(5, 10), (MOST, None)], (2**63 - 10, 0), None),
            ([(5, 10), (MOST, None)], (2**63 - 11, 0), 10),
            ([(0, MOST)], (1, 0, MOST), None),
            ([], (1, MOST, MOST), None),
        ):
            with self.subTest(pairs=pairs, asked=asked):
                self.assertEqual(RangeSet(pairs).first_fit(*asked), answer)

    def test_where_more_numbers_fit_than_there_are_of_either_sign(self):
        for pairs, asked, answer in (
            ([], (2**63,), LEAST),
            ([], (2**63, LEAST, 0), LEAST),
            ([], (2**63, LEAST, -1), None),
            ([], (2**63, -5), -5),
            ([], (2**63 + 5, -5), -5),
            ([], (2**63 + 6, -5), None),
            ([], (2**64 - 1, LEAST, MOST), LEAST),
            ([(0, None)], (2**63,), LEAST),
            ([(0, None)], (2**63 + 1,), None),
            ([(-5, 5)], (2**63,), None),
            ([(LEAST, LEAST + 3)], (2**64 - 4,), LEAST + 3),
            ([(LEAST, LEAST + 3)], (2**64 - 3,), LEAST + 3),
            ([(LEAST, LEAST + 3)], (2**64 - 2,), None),
        ):
            with self.subTest(pairs=pairs, asked=asked):
                self.assertEqual(RangeSet(pairs).first_fit(*asked), answer)


if __name__ == "__main__":
    unittest.main()
