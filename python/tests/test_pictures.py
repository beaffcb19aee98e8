"""What pictures of maps have, and of texts that a reader of XML would take for more."""

import unittest
import xml.etree.ElementTree
from datetime import date
from ipaddress import IPv4Network

from range_sets import RangeMap, RangeSet


def drawn(made):
    return xml.etree.ElementTree.fromstring(made._repr_svg_())


def words(picture):
    return [it.text for it in picture if it.tag.endswith("text")]


def fills(picture):
    return [it.get("fill") == "none" for it in picture if it.tag.endswith("circle")]


class Pictures(unittest.TestCase):
    def test_ranges_and_values(self):
        for items, expected, dots, title in (
            ([], ["no numbers"], [], "no numbers"),
            ([((0, 5), "low")], ["0", "5", "'low'"], [False, True], "0..5: 'low'"),
            ([((0, 5), 1), ((5, 9), 2)], ["0", "5", "9", "1", "2"], [False, True, False, True], "0..5: 1, 5..9: 2"),
            ([((0, 5), 1), ((20, None), None)], ["0", "5", "20", "1", "None"], [False, True, False], "0..5: 1, 20..: None"),
            ([((None, 5), 1)], ["5", "1"], [True], f"{-(2**63)}..5: 1"),
            ([((None, None), 1)], ["1"], [], f"{-(2**63)}..: 1"),
            (
                [((date(2026, 5, 1), date(2026, 5, 4)), "a")],
                ["2026-05-01", "2026-05-04", "'a'"],
                [False, True],
                "2026-05-01..2026-05-04: 'a'",
            ),
            ([(IPv4Network("10.0.0.0/8"), "a")], ["10.0.0.0", "11.0.0.0", "'a'"], [False, True], "10.0.0.0..11.0.0.0: 'a'"),
            ([(("a", "b"), 1)], ["a", "b", "1"], [False, True], "a..b: 1"),
            ([((0, 5), "x" * 99)], ["0", "5", "'xxxxxxxxxxxxxxxx..."], [False, True], "0..5: 'xxxxxxxxxxxxxxxx..."),
        ):
            with self.subTest(items=items):
                picture = drawn(RangeMap(items))
                self.assertEqual((words(picture), fills(picture), picture[0].text), (expected, dots, title))
        arrows = [len([it for it in drawn(RangeMap([(pair, 1)])) if it.tag.endswith("path")]) for pair in ((0, 5), (0, None), (None, None))]
        self.assertEqual(arrows, [0, 1, 2])

    def test_a_long_one_is_cut(self):
        made = RangeMap([((n, n + 1), n % 2) for n in range(1000)])
        picture = drawn(made)
        self.assertEqual((len(fills(picture)), words(picture)[-1]), (200, "and 900 more"))
        self.assertEqual(picture[0].text, "0..1: 0, 1..2: 1, 2..3: 0, 3..4: 1, 4..5: 0, 5..6: 1, 6..7: 0, 7..8: 1, ...")
        self.assertNotIn("...", drawn(RangeMap([((2 * n, 2 * n + 1), n) for n in range(8)]))[0].text)
        self.assertNotIn("more", words(drawn(RangeMap([((2 * n, 2 * n + 1), n) for n in range(100)])))[-1])

    def test_texts_are_no_tags(self):
        bad = "<script>&amp;</script>"
        for made in (RangeMap([((0, 5), bad)]), RangeMap([((bad, "b"), 1)]), RangeSet([(bad, "b")]), RangeSet([("\0\ud800", "b")])):
            picture = drawn(made)
            self.assertFalse([it for it in picture.iter() if it.tag.endswith("script")])
        self.assertIn(bad, words(drawn(RangeSet([(bad, "b")]))))
        self.assertIn("\ufffd\ufffd", words(drawn(RangeSet([("\0\ud800", "b")]))))

    def test_it_leaves_a_map_as_it_was(self):
        made = RangeMap([((0, 5), "a"), ((7, None), "b")])
        made._repr_svg_()
        self.assertEqual([*made.items()], [((0, 5), "a"), ((7, None), "b")])


if __name__ == "__main__":
    unittest.main()
