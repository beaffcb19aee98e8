"""range_sets.dask: the same answers as without it, however parts are grouped and cut."""

import random
import unittest
from datetime import date, datetime, timedelta, timezone
from ipaddress import IPv4Address

import dask
import dask.bag

from range_sets import MutableRangeSet, RangeSet
from range_sets.dask import covered_by_key, union_all


def made_up(made, numbers, unsigned=False):
    return RangeSet([(n, n + made.randrange(20)) for n in (made.randrange(1000) for _ in range(numbers))], unsigned=unsigned)


class Unions(unittest.TestCase):
    def setUp(self):
        made = random.Random(3)
        self.parts = [made_up(made, 5) for _ in range(37)]
        self.whole = RangeSet.union_all(self.parts)

    def test_bags_and_delayed_sets(self):
        bag = dask.bag.from_sequence(self.parts, npartitions=11)
        tasks = [dask.delayed(it) for it in self.parts]
        for parts in (bag, bag.map(lambda it: it), tasks, iter(tasks), dask.delayed(list)(self.parts)):
            self.assertEqual(union_all(parts).compute(scheduler="sync"), self.whole)

    def test_groups_and_cuts(self):
        bag = dask.bag.from_sequence(self.parts, npartitions=37)
        for split_every in (2, 3, 36, 37, 100):
            for cuts in ((), (500,), (-5, 0, 3, 4, 250, 999, 5000), sorted({it for it in self.whole.boundaries})):
                with self.subTest(split_every=split_every, cuts=len(cuts)):
                    self.assertEqual(union_all(bag, split_every, cuts).compute(scheduler="sync"), self.whole)

    def test_sets_without_an_end(self):
        parts = [RangeSet([(700, None)]), MutableRangeSet([(0, 10)]), RangeSet([(695, 800)])]
        for cuts in ((), (5, 698, 700, 750)):
            got = union_all(dask.bag.from_sequence(parts, npartitions=3), cuts=cuts).compute(scheduler="sync")
            self.assertEqual(got, RangeSet([(0, 10), (695, None)]))

    def test_unsigned_numbers_and_parts_of_nothing(self):
        parts = [dask.delayed(it) for it in ([], RangeSet([(5, 2**63)], unsigned=True), [RangeSet([(0, 6)], unsigned=True)], [])]
        for cuts in ((), (3, 2**62), (2**63 - 1, 2**63, 2**63 + 9)):
            self.assertEqual(union_all(parts, 2, cuts).compute(scheduler="sync"), RangeSet([(0, 2**63)], unsigned=True))
        self.assertEqual(union_all([]).compute(scheduler="sync"), RangeSet())
        self.assertTrue(union_all([dask.delayed(RangeSet(unsigned=True))]).compute(scheduler="sync").unsigned)

    def test_other_elements(self):
        for elements in (
            [datetime(2026, 5, 4, tzinfo=timezone.utc) + n * timedelta(hours=1) for n in range(9)],
            [date(2026, 5, 1 + n) for n in range(9)],
            [0.5 * n - 2 for n in range(9)],
            [IPv4Address(2**32 - 9 + n) for n in range(9)],
        ):
            parts = [
                RangeSet(),
                RangeSet((elements[0], elements[2])),
                RangeSet((elements[1], elements[5])),
                RangeSet([(elements[6], elements[8])]),
            ]
            expected = RangeSet([(elements[0], elements[5]), (elements[6], elements[8])])
            for cuts in ((), elements[1:5:3], elements):
                got = union_all(dask.bag.from_sequence(parts, npartitions=4), 2, cuts).compute(scheduler="sync")
                self.assertEqual((got, got.kind), (expected, expected.kind))
            counts = covered_by_key(dask.bag.from_sequence([("a", it) for it in parts], npartitions=2)).compute(scheduler="sync")
            self.assertEqual(counts, {"a": expected.covered()})

    def test_a_cut_copies_nothing(self):
        from range_sets.dask import _cut_set

        memory = self.whole.boundaries.obj.memory
        for piece in _cut_set(self.whole, [100, 500, 501, 900]):
            self.assertIs(piece.boundaries.obj.memory, memory)

    def test_each_task_has_few_parts(self):
        graph = dict(union_all([dask.delayed(it) for it in self.parts], split_every=4).dask)
        unions = [task for task in graph.values() if isinstance(task, tuple) and getattr(task[0], "__name__", "") == "_union"]
        self.assertEqual(sorted(len(task[1]) for task in unions), sorted([4] * 9 + [1] + [4, 4, 2] + [3]))
        # Beside these there are the parts alone.
        self.assertEqual(len(graph), len(self.parts) + len(unions))
        parts = [dask.delayed({it.span()[0]: it}) for it in self.parts]
        self.assertLess(len(dict(covered_by_key(parts, split_every=4).dask)), len(parts) + len(unions) + 3)

    def test_bad_input(self):
        for words in ({"split_every": 1}, {"cuts": [3, 3]}, {"cuts": [4, 3]}):
            with self.assertRaises(ValueError):
                union_all([], **words)


class Keys(unittest.TestCase):
    def setUp(self):
        made = random.Random(4)
        self.pairs = [(f"file {made.randrange(9)}", made_up(made, 3)) for _ in range(80)]
        self.expected = {
            key: RangeSet.union_all(it for other, it in self.pairs if other == key).covered() for key in {key for key, _ in self.pairs}
        }

    def test_counts(self):
        bag = dask.bag.from_sequence(self.pairs, npartitions=13)
        for cuts in ((), ("file 4",), ("a", "file 0", "file 3 and more", "z")):
            self.assertEqual(covered_by_key(bag, 3, cuts).compute(scheduler="sync"), self.expected)

    def test_delayed_parts(self):
        tasks = [dask.delayed(self.pairs[:40]), dask.delayed(dict)(self.pairs[40:41]), dask.delayed(self.pairs[41:])]
        self.assertEqual(covered_by_key(tasks).compute(scheduler="sync"), self.expected)

    def test_sets_without_an_end(self):
        pairs = [(1, RangeSet([(0, 10)])), (2, RangeSet([(5, None)])), (2, RangeSet([(0, 3)]))]
        self.assertEqual(covered_by_key([dask.delayed(pairs)]).compute(scheduler="sync"), {1: 10, 2: None})

    def test_keys_whose_sets_are_empty(self):
        pairs = [("a", RangeSet()), ("b", RangeSet([(0, 10)])), ("b", RangeSet())]
        for cuts in ((), ("b",)):
            self.assertEqual(covered_by_key([dask.delayed(pairs)], cuts=cuts).compute(scheduler="sync"), {"a": 0, "b": 10})


if __name__ == "__main__":
    unittest.main()
