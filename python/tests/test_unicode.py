"""The general categories of Unicode as sets of code points, against a walk over all of them."""

import sys
import unicodedata
import unittest

from range_sets import MutableRangeSet, RangeSet

ALL = RangeSet([(0, sys.maxunicode + 1)], unsigned=True)


class Categories(unittest.TestCase):
    @classmethod
    def setUpClass(cls):
        """Walks over all code points once: the points of each category one by one, and the runs of one category."""
        points = {}
        cls.runs = []
        for point in range(sys.maxunicode + 1):
            name = unicodedata.category(chr(point))
            points.setdefault(name, []).append((point, point + 1))
            if not cls.runs or cls.runs[-1][0] != name:
                cls.runs.append((name, point))
        cls.sets = {name: RangeSet(given, unsigned=True) for name, given in points.items()}
        cls.sizes = {name: len(given) for name, given in points.items()}

    def is_that_of(self, made, belongs):
        """Whether a set begins and ends where the walk enters and leaves the categories that belong."""
        on, changes = False, []
        for name, start in self.runs:
            if belongs(name) != on:
                on = not on
                changes.append(start)
        self.assertEqual(made.boundaries.tolist(), changes + ([sys.maxunicode + 1] if on else []))
        self.assertEqual(made.covered(), sum(size for name, size in self.sizes.items() if belongs(name)))

    def test_each_category(self):
        self.assertGreater(len(self.sets), 25)
        for name, made in self.sets.items():
            with self.subTest(category=name):
                self.is_that_of(made, lambda it: it == name)

    def test_complements(self):
        for name, made in self.sets.items():
            with self.subTest(category=name):
                self.is_that_of(ALL - made, lambda it: it != name)
                self.assertEqual(~made & ALL, ALL - made)

    def test_unions_of_major_classes(self):
        for major in sorted({name[0] for name in self.sets}):
            made = RangeSet.union_all(it for name, it in self.sets.items() if name[0] == major)
            with self.subTest(major=major):
                self.is_that_of(made, lambda it: it[0] == major)

    def test_unions_of_two(self):
        lower, upper = self.sets["Ll"], self.sets["Lu"]
        self.is_that_of(lower | upper, lambda it: it in ("Ll", "Lu"))
        self.assertTrue(lower.isdisjoint(upper) and not lower & upper)

    def test_together_they_are_all(self):
        grown = MutableRangeSet(unsigned=True)
        for made in self.sets.values():
            self.assertTrue(grown.isdisjoint(made))
            grown |= made
        self.assertEqual(grown, ALL)

    def test_members(self):
        letters = RangeSet.union_all(it for name, it in self.sets.items() if name[0] == "L")
        for character in "aZéßжλ漢9 _-\u0301😀":
            self.assertIs(ord(character) in letters, unicodedata.category(character)[0] == "L")


if __name__ == "__main__":
    unittest.main()
