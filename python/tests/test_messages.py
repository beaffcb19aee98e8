"""Errors that name the way out, what help says of calls, and short forms of long maps."""

import inspect
import pydoc
import sys
import unittest
from datetime import date
from ipaddress import IPv4Address

from range_sets import AnyRangeSet, MutableRangeSet, RangeMap, RangeSet

DAY = date(2026, 5, 1)
numbers, changing, days, names = RangeSet([(0, 10)]), MutableRangeSet([(0, 10)]), RangeSet([(DAY, None)]), RangeMap([((0, 10), "a")])

# What is called, its error, and what that has to say.
ROWS = [
    ("RangeMap([(0, 5, 'a')])", ValueError, "a range and its value, as ((0, 5), 'a'), not (0, 5, 'a')"),
    ("RangeMap([((0, 5),)])", ValueError, "a range and its value, as ((0, 5), 'a'), not ((0, 5),)"),
    ("RangeMap([5])", TypeError, "a range and its value, as ((0, 5), 'a'), not 5"),
    ("RangeMap(5)", TypeError, "expected pairs of a range and a value, not 5"),
    ("RangeMap('0..5')", TypeError, "expected pairs of a range and a value, not a text"),
    ("RangeMap({1: 2})", TypeError, "m[1:2] has it alone, as (1, 2) does in pairs"),
    ("RangeMap([(0, 5), (7, 9)])", TypeError, "m[0:1] has it alone, as (0, 1) does in pairs"),
    ("names.__setitem__(5, 'x')", TypeError, "expected a range, not the key 5: m[5:6] has it alone"),
    ("names.__delitem__(5)", TypeError, "expected a range, not the key 5: m[5:6] has it alone"),
    ("RangeMap(kind='float').__setitem__(0.5, 'x')", TypeError, "floats aren't counted one by one: expected a start and an end"),
    ("names.__setitem__((0, 5), 'x')", TypeError, "m[a:b] has the keys from a to below b"),
    ("(0, 5) in numbers", TypeError, "expected an element, not (0, 5): s.covers(start, end)"),
    ("[0, 5] in changing", TypeError, "expected an element, not [0, 5]: s.covers(start, end)"),
    ("range(5) in numbers", TypeError, "expected an element, not range(0, 5): s.covers(start, end)"),
    ("(DAY, DAY) in days", TypeError, "s.covers(start, end)"),
    ("0.5 in numbers", TypeError, "'float' object cannot be interpreted as an integer: kind='float' makes a set of floats"),
    ("0.5 in days", TypeError, "expected a date, not float: the kind is 'date'"),
    ("numbers | [(3, 4)]", TypeError, "operators take sets alone: union, and in place update, takes pairs and ranges too"),
    ("[(3, 4)] | numbers", TypeError, "operators take sets alone: union, and"),
    ("numbers & (3, 4)", TypeError, "operators take sets alone: intersection, and in place intersection_update,"),
    ("changing - range(5)", TypeError, "operators take sets alone: difference, and in place difference_update,"),
    ("changing ^ [(3, 4)]", TypeError, "operators take sets alone: symmetric_difference, and in place symmetric_difference_update,"),
    ("exec('changing |= [(3, 4)]')", TypeError, "operators take sets alone: union, and in place update, takes"),
    ("numbers | 5", TypeError, "unsupported operand type(s)"),
    ("numbers.add(3)", AttributeError, "'RangeSet' object has no attribute 'add': a MutableRangeSet has it, which changes"),
    ("numbers.update([(3, 4)])", AttributeError, "a MutableRangeSet has it"),
    ("changing.remove(3)", AttributeError, "'MutableRangeSet' object has no attribute 'remove': discard changes the set"),
    ("changing.insert(3)", AttributeError, "add changes the set"),
    ("RangeMap.depth(5)", TypeError, "expected sets, as in a list, not 5"),
    ("RangeSet.union_all(5)", TypeError, "expected sets, as in a list, not 5"),
    ("RangeSet([IPv4Address('10.0.0.1')])", TypeError, "not IPv4Address('10.0.0.1'); from_values makes a set of elements"),
    ("RangeSet([5])", TypeError, "not 5; from_values makes a set of elements"),
    ("RangeSet(5)", TypeError, "not 5; from_values makes a set of elements"),
]


class Messages(unittest.TestCase):
    def test_errors_that_name_the_way_out(self):
        for call, error, said in ROWS:
            with self.subTest(call=call):
                with self.assertRaises(error) as raised:
                    eval(call, {**globals(), "changing": changing})
                self.assertIn(said, str(raised.exception))

    def test_the_ways_out(self):
        self.assertTrue(numbers.covers(0, 5) and not hasattr(numbers, "add") and not hasattr(changing, "remove"))
        self.assertEqual(RangeSet.from_values([IPv4Address("10.0.0.1")]).covered(), 1)
        self.assertEqual((numbers.union([(12, 14)]), 0.5 in RangeSet([(0, 5)], kind="float")), (RangeSet([(0, 10), (12, 14)]), True))
        for name in ("other", "_chunks", "__array_interface__"):
            with self.assertRaises(AttributeError) as raised:
                getattr(numbers, name)
            self.assertEqual((str(raised.exception), raised.exception.name), (f"'RangeSet' object has no attribute {name!r}", name))

    def test_an_error_of_an_iterator_is_its_own(self):
        def broken():
            yield (0, 5), "a"
            raise TypeError("a fault of its own")

        for call in (RangeMap, RangeSet, RangeMap.depth, RangeSet.union_all):
            self.assertRaisesRegex(TypeError, "a fault of its own", call, (it if call is RangeMap else it[0] for it in broken()))


class Help(unittest.TestCase):
    def test_signatures(self):
        for kind in (AnyRangeSet, RangeSet, MutableRangeSet, RangeMap):
            text = pydoc.plain(pydoc.render_doc(kind))
            for said in ("Never", "<object", " at 0x"):
                self.assertNotIn(said, text)
        self.assertEqual(str(inspect.signature(RangeMap.pop)).split(" = ")[1].split(")")[0], "nothing")


class ManyRanges(unittest.TestCase):
    def test_texts(self):
        for count in (999, 1000, 1001, 5000):
            for last in ([], [((10**9, None), "z")], [((2**63 - 2, 2**63 - 1), "z")]):
                items = [((20 * n, 20 * n + 10), str(n)) for n in range(count - len(last))] + last
                made = RangeMap(items)
                shown = repr(items) if count <= 1000 else f"{repr(items[:3])[:-1]}, ..., {repr(items[-3:])[1:]}"
                self.assertEqual(repr(made), f"RangeMap({shown})")
        made = RangeMap((((DAY.fromordinal(n), DAY.fromordinal(n + 1)), n) for n in range(1, 5000)), kind="date")
        self.assertTrue(repr(made).startswith("RangeMap([((datetime.date(1, 1, 1), datetime.date(1, 1, 2)), 1), (("))
        self.assertTrue(repr(made).endswith("), 4999)])") and len(repr(made)) < 500)

    def test_what_they_take(self):
        for made, each in (
            (RangeMap(((20 * n, 20 * n + 10), n) for n in range(10**5)), 48),
            (RangeSet((2 * n, 2 * n + 1) for n in range(10**5)), 16),
        ):
            self.assertGreater(sys.getsizeof(made), each * 10**5)
            self.assertLess(sys.getsizeof(made), 4 * each * 10**5)
        self.assertLess(sys.getsizeof(RangeMap()), 1000)


if __name__ == "__main__":
    unittest.main()
