"""Values of a map that a function makes anew."""

import random
import unittest
from datetime import date
from ipaddress import IPv4Address, IPv4Network

from range_sets import RangeMap, RangeSet


def plus_one(value):
    return value + 1


class Modify(unittest.TestCase):
    def test_rows(self):
        some = [((0, 5), 1), ((5, 10), 2), ((20, None), 3)]
        for part, missing, expected in (
            (slice(2, 7), (), [((0, 2), 1), ((2, 5), 2), ((5, 7), 3), ((7, 10), 2), ((20, None), 3)]),
            (slice(0, 5), (), [((0, 10), 2), ((20, None), 3)]),
            (slice(None), (), [((0, 5), 2), ((5, 10), 3), ((20, None), 4)]),
            (range(8, 25), (), [((0, 5), 1), ((5, 8), 2), ((8, 10), 3), ((20, 25), 4), ((25, None), 3)]),
            (range(8, 22), (0,), [((0, 5), 1), ((5, 8), 2), ((8, 10), 3), ((10, 20), 1), ((20, 22), 4), ((22, None), 3)]),
            (RangeSet([(4, 6), (12, 14)]), (10,), [((0, 4), 1), ((4, 5), 2), ((5, 6), 3), ((6, 10), 2), ((12, 14), 11), ((20, None), 3)]),
            (RangeSet([(4, 6), (12, 14)]), (), [((0, 4), 1), ((4, 5), 2), ((5, 6), 3), ((6, 10), 2), ((20, None), 3)]),
            (RangeSet(), (), some),
            (RangeSet(), (7,), some),
            (slice(12, 14), (), some),
            (slice(7, 3), (0,), some),
            (slice(30, None), (0,), [*some[:2], ((20, 30), 3), ((30, None), 4)]),
        ):
            with self.subTest(part=part, missing=missing):
                made = RangeMap(some)
                self.assertIsNone(made.modify(part, plus_one, *missing))
                self.assertEqual([*made.items()], expected)

    def test_of_other_kinds(self):
        leave = RangeMap([((date(2026, 5, 1), date(2026, 5, 4)), 1)])
        leave.modify(slice(date(2026, 5, 3), None), plus_one, 0)
        self.assertEqual([leave.get(date(2026, 5, it)) for it in range(1, 6)], [1, 1, 2, 1, 1])
        hosts = RangeMap([(IPv4Network("10.0.0.0/8"), "a")])
        hosts.modify(IPv4Network("10.1.0.0/16"), str.upper)
        self.assertEqual((hosts[IPv4Address("10.1.2.3")], hosts[IPv4Address("10.2.0.0")], len(hosts)), ("A", "a", 3))
        words = RangeMap([(("a", "k"), 1)])
        words.modify(slice("c", "z"), plus_one, 5)
        self.assertEqual([*words.items()], [(("a", "c"), 1), (("c", "k"), 2), (("k", "z"), 6)])
        of_none = RangeMap()
        of_none.modify(slice(0, 5), plus_one)
        self.assertEqual((of_none, of_none.kind), (RangeMap(), None))
        of_none.modify(slice(0, 5), plus_one, 0)
        self.assertEqual([*of_none.items()], [((0, 5), 1)])
        unsigned = RangeMap([((0, 5), 1)], unsigned=True)
        unsigned.modify(slice(3, None), plus_one, 5)
        self.assertEqual((unsigned.kind, unsigned[2**64 - 1], unsigned[4]), ("unsigned", 6, 2))

    def test_it_runs_once_for_each_object(self):
        seen, a, b = [], [1], [2]
        made = RangeMap([((0, 5), a), ((7, 9), b), ((9, 12), a), ((30, 40), [3])])
        made.modify(slice(None, 20), lambda it: seen.append(it) or [*it, 0])
        self.assertEqual(seen, [a, b])
        self.assertEqual([*made.values()], [[1, 0], [2, 0], [1, 0], [3]])
        self.assertIs(made[0], made[10])

    def test_an_error_changes_nothing(self):
        class Bad:
            def __eq__(self, other):
                raise KeyError("no")

        for function, error in ((lambda it: 1 / 0, ZeroDivisionError), (lambda it: Bad(), KeyError)):
            made = RangeMap([((0, 5), 1), ((5, 9), 2)])
            self.assertRaises(error, made.modify, slice(3, 7), function)
            self.assertEqual([*made.items()], [((0, 5), 1), ((5, 9), 2)])
        for part, error in (
            (5, TypeError),
            ("a", TypeError),
            (slice(0, 5, 2), TypeError),
            (slice(0.5, 2), TypeError),
            (slice(0, 2**63), OverflowError),
        ):
            self.assertRaises(error, made.modify, part, plus_one)
        self.assertRaises(TypeError, made.modify, RangeSet([("a", "b")]), plus_one)
        self.assertRaises(TypeError, made.modify, slice(0, 5), None)
        self.assertEqual([*made.items()], [((0, 5), 1), ((5, 9), 2)])

    def test_subclasses(self):
        class Named(RangeMap):
            name = "counts"

        made = Named([((0, 5), 1)])
        made.modify(slice(0, 2), plus_one)
        self.assertEqual((type(made), [*made.items()]), (Named, [((0, 2), 2), ((2, 5), 1)]))

    def test_made_up_maps(self):
        """Beside a dict of each key's value. Counting by it is `depth`."""
        some = random.Random(757)
        for _ in range(300):
            made, cells = RangeMap(kind="int"), {}
            for _ in range(some.randrange(6)):
                start, end = some.randrange(40), some.randrange(40)
                made.put(start, end, start % 3)
                cells.update(dict.fromkeys(range(start, end), start % 3))
            ends = sorted(some.sample(range(45), 2 * some.randrange(4)))
            part, missing = RangeSet.from_boundaries(ends), some.choice([(), (5,)])
            made.modify(part, lambda it: it * 2, *missing)
            for it in part.members():
                if it in cells or missing:
                    cells[it] = cells.get(it, *missing) * 2
            self.assertEqual({key: made[key] for key in range(45) if key in made}, cells)
            sets = [RangeSet([(n, n + some.randrange(9))]) for n in range(0, 30, 3)]
            counts = RangeMap()
            for it in sets:
                counts.modify(it, plus_one, 0)
            self.assertEqual(counts, RangeMap.depth(sets))


if __name__ == "__main__":
    unittest.main()
