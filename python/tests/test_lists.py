"""Maps that lie in lists, as made of ranges in order, beside the same ones after a search and after a change, which the library has."""

import sys
import unittest
from datetime import date
from itertools import islice

from range_sets import RangeMap, RangeSet

LEAST, MOST = -(2**63), 2**63 - 1
DAYS = [date(2026, 5, day) for day in range(1, 9)]
MADE_OF = (
    ([], {}),
    ([((0, 5), "a")], {}),
    ([((0, 5), "a"), ((7, 9), "b"), ((11, 13), "a")], {}),
    ([((0, 5), "a"), ((5, 9), "b"), ((9, 13), "c"), ((20, 21), "d")], {}),
    ([((None, 5), "a"), ((5, None), "b")], {}),
    ([((3, 5), 1), ((5, 6), 1.0), ((6, 7), 1), ((9, None), [1])], {}),
    ([((None, None), "a")], {}),
    ([((MOST - 1, MOST), "a"), ((MOST, None), "b")], {}),
    ([((10 * n, 10 * n + 6 + n % 2 * 4), n % 5) for n in range(400)], {}),
    ([((0, 5), "a"), ((2**63, None), "b")], {"unsigned": True}),
    ([((DAYS[0], DAYS[2]), "a"), ((DAYS[2], DAYS[4]), "b"), ((DAYS[6], None), "c")], {}),
)


def listed(made_of):
    items, words = made_of
    return RangeMap(items, **words)


def built(made_of):
    made = listed(made_of)
    made.get(made.span()[0] if made else 0)
    return made


def changed(made_of):
    made = listed(made_of)
    for start, _ in list(made)[:1]:
        made.pop(start)
        made.update(made_of[0])
    return made


def size_of(made):
    """What a map takes for each range beside what its values take."""
    return (sys.getsizeof(made) - sys.getsizeof(RangeMap(dict.fromkeys([(0, 1)], 0)))) / max(len(made), 1)


def replaced_by(items):
    def change(made):
        made.clear()
        made.update(items)

    return change


# Calls of a map, and keys of it.
CALLS = (
    lambda made, a, b: made.get(a, "none"),
    lambda made, a, b: made.range_at(b),
    lambda made, a, b: a in made,
    lambda made, a, b: made.overlapping(a, b),
    lambda made, a, b: made.gaps(a, b),
    lambda made, a, b: made.gaps(),
    lambda made, a, b: made.part(a, b),
    lambda made, a, b: made[:],
    lambda made, a, b: made.domain(),
    lambda made, a, b: made.find("a"),
    lambda made, a, b: [*made.items()],
    lambda made, a, b: [*made.keys()],
    lambda made, a, b: [*made.values()],
    lambda made, a, b: (made.span(), len(made), bool(made), made.kind, repr(made)),
    lambda made, a, b: made.copy(),
    lambda made, a, b: made.combine(made, lambda left, right: [left, right]),
    lambda made, a, b: made.combine(RangeMap([((a, b), "x")], kind=made.kind), lambda left, right: (left, right), "none"),
    lambda made, a, b: made.put(a, b, "x"),
    lambda made, a, b: made.put(None, None, "x"),
    lambda made, a, b: made.put(None, b, "a"),
    lambda made, a, b: made.remove(a, b),
    lambda made, a, b: made.remove(None, None),
    lambda made, a, b: made.clear(),
    lambda made, a, b: made.pop(a, "none"),
    lambda made, a, b: made.update([((a, b), "x"), ((b, None), "y")]),
    lambda made, a, b: made.update([((b, None), "y"), ((a, b), "x")]),
    lambda made, a, b: made.__setitem__(RangeSet([(a, b)], kind=made.kind), "x"),
    lambda made, a, b: replaced_by([((a, b), "x")])(made),
)


class Lists(unittest.TestCase):
    def test_each_is_what_it_is_called(self):
        """Else the others would see one of the two alone."""
        made_of = [((10 * n, 10 * n + 6), 0) for n in range(400)], {}
        for made in (listed(made_of), listed(made_of).copy(), listed(made_of).combine(RangeMap(), max)):
            self.assertLess(size_of(made), 30)
            for ask in (len, list, repr, RangeMap.domain, RangeMap.copy, lambda it: it == made, lambda it: it.find(0), RangeMap.span):
                ask(made)
            self.assertLess(size_of(made), 30)
        # The library's map beside the list, and alone.
        for search in (lambda it: it.get(5), lambda it: it.range_at(5), lambda it: it.part(5, 7)):
            made = listed(made_of)
            search(made)
            self.assertGreater(size_of(made), 65)
            made.put(5, 6, 0)
            self.assertTrue(40 < size_of(made) < 60)
        self.assertTrue(40 < size_of(changed(made_of)) < 60 < 65 < size_of(built(made_of).copy()))

    def test_each_call(self):
        for made_of in MADE_OF:
            ends = sorted({end for keys in listed(made_of) for end in keys if end is not None} or {0, 5})
            for a, b in {
                (ends[0], ends[-1]),
                (ends[0], ends[0]),
                (ends[len(ends) // 2], ends[-1]),
                (ends[len(ends) // 3], ends[len(ends) // 2]),
            }:
                for place, call in enumerate(CALLS):
                    with self.subTest(items=made_of[0][:5], a=a, b=b, place=place):
                        mine, its, others = listed(made_of), built(made_of), changed(made_of)
                        answer = call(others, a, b)
                        self.assertEqual((call(mine, a, b), call(its, a, b)), (answer, answer))
                        for made in (mine, its):
                            self.assertEqual([(keys, made[keys[0]]) for keys, _ in made.items()], [*others.items()])
                        self.assertTrue(mine == its == others == mine.copy() == its.copy())
                        self.assertEqual({(len(it), it.kind) for it in (mine, its, others)}, {(len(its), its.kind)})

    def test_a_loop_over_a_list_goes_on_if_the_map_is_searched(self):
        for made_of in MADE_OF:
            for loop in (RangeMap.items, RangeMap.keys, RangeMap.values, iter):
                made, read = listed(made_of), []
                for place, it in enumerate(loop(made)):
                    read.append(it)
                    if place == 1:
                        self.assertEqual(made[made.span()[0]], next(made.values()))
                self.assertEqual(read, [*loop(listed(made_of))])

    def test_a_loop_over_a_list_goes_on_above_what_it_read(self):
        """Also if another list has taken its place, which has as many ranges."""
        items = [((0, 5), "a"), ((7, 9), "b"), ((11, 13), "c")]
        for change, after in (
            (lambda made: made.put(7, 9, "x"), [((7, 9), "x"), ((11, 13), "c")]),
            (replaced_by([((0, 6), "x"), ((6, 8), "y"), ((30, None), "z")]), [((5, 6), "x"), ((6, 8), "y")]),
            (replaced_by([((0, 1), "x"), ((2, 3), "y"), ((4, 5), "z")]), []),
            (replaced_by([((20, 21), "x"), ((22, 23), "y"), ((24, 25), "z")]), [((20, 21), "x"), ((22, 23), "y")]),
        ):
            made = RangeMap(items)
            loop = made.items()
            self.assertEqual(next(loop), items[0])
            change(made)
            # It gives no more ranges than there were.
            self.assertEqual([*islice(loop, 2)], after)
        # One that has ended stays so.
        made = RangeMap(items)
        loop = made.items()
        self.assertEqual([*loop], items)
        made.put(20, None, "d")
        self.assertEqual([*loop], [])

    def test_a_search_for_a_value_whose_equality_searches(self):
        class Searching:
            def __init__(self, number):
                self.number = number

            def __eq__(self, other):
                asked.append(made.get(3))
                return self.number == other.number

        for count in (1, 3, 40):
            made, asked = RangeMap([((10 * n, 10 * n + 6), Searching(n % 3)) for n in range(count)]), []
            found = made.find(Searching(0))
            self.assertEqual(found, RangeSet([(10 * n, 10 * n + 6) for n in range(0, count, 3)]))
            self.assertEqual(len(asked), count)

    def test_a_map_of_dates_is_cleared(self):
        made = RangeMap([((DAYS[0], DAYS[2]), "a"), ((DAYS[3], None), "b")])
        made.clear()
        self.assertEqual((len(made), [*made.items()], made.kind), (0, [], "date"))


if __name__ == "__main__":
    unittest.main()
