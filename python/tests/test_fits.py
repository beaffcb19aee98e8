"""Which elements and ranges are next, where a length of elements fits at a multiple, and where all of them are members."""

import random
import unittest
from datetime import date, datetime, timedelta
from ipaddress import IPv4Address, IPv4Network, IPv6Address, IPv6Network
from math import nextafter

from range_sets import MutableRangeSet, RangeSet, _core

LEAST, MOST = -(2**63), 2**63 - 1
QUARTER, NINE = timedelta(minutes=15), datetime(2026, 5, 4, 9)


class Fits(unittest.TestCase):
    def check(self, name, rows, **kind):
        for source, given, expected in rows:
            for made in (RangeSet(source, **kind), MutableRangeSet(source, **kind)):
                with self.subTest(source=source, given=given, type=type(made)):
                    if isinstance(expected, type):
                        self.assertRaises(expected, getattr(made, name), *given)
                    else:
                        # A set that changes remembers what it has looked at.
                        self.assertEqual([getattr(made, name)(*given) for _ in range(2)], [expected] * 2)

    def test_multiples(self):
        some = [(0, 10), (12, 20), (30, None)]
        self.check(
            "first_fit_aligned",
            (
                (some, (3, 8, 0), 24),
                (some, (3, 8, -5), 24),
                (some, (3, 8, -8), -8),
                (some, (2, 2, 0), 10),
                (some, (2, 4, 0), 20),
                (some, (10, 10, 0), 20),
                (some, (10, 5, 0), 20),
                (some, (10, 7, 0), None),
                (some, (9, 7, 0), 21),
                (some, (9, 7, 0, 29), None),
                (some, (9, 7, 0, 30), 21),
                (some, (0, 7, 3), 7),
                (some, (2, 8), LEAST),
                (some, (2**63, 2**63), LEAST),
                (some, (1, 2**63, LEAST + 1), None),
                (some, (1, 2**64 - 1), None),
                ([(5, 6)], (1, 2**64 - 1), 0),
                (some, (1, 2**64), None),
                ([(5, 6)], (5, 2**64), 0),
                ([(5, 6)], (6, 2**64), None),
                ([(5, 6)], (5, 2**99, -9, 5), 0),
                ([(5, 6)], (5, 2**99, -9, 4), None),
                ([(5, 6)], (1, 2**64, 1), None),
                ([], (2**64, 2**64), None),
                (some, (2**64, 8), None),
                (some, (1, 0), ValueError),
                (some, (1, -8), ValueError),
                (some, (-1, 8), ValueError),
                (some, (1.5, 8), TypeError),
                (some, (1, None), TypeError),
                ([(0, MOST - 7)], (8, 8, 0), MOST - 7),
                ([(0, MOST - 7)], (9, 1, 0), None),
                ([(0, MOST - 7)], (7, 8, 0), MOST - 7),
                ([(0, MOST - 6)], (7, 8, 0), None),
                ([(0, MOST)], (1, 2, 0), None),
                ([(0, MOST)], (1, 7, 0), MOST),
                ([(0, MOST - 7)], (8, 8, 0, MOST), None),
                ([], (2**63, 2**63, 0), 0),
                ([], (2**63, 2**63, 1), None),
            ),
        )
        self.check(
            "first_fit_aligned",
            (
                ([(0, 5)], (4, 8), 8),
                ([(1, 5)], (2**64 - 8, 8), 8),
                ([(1, 5)], (2**64 - 7, 8), None),
                ([(0, 5)], (1, 2**64 - 1), 2**64 - 1),
                ([(0, 5)], (1, 2**64), None),
                ([(1, 5)], (1, 2**64), 0),
                ([], (2**64, 2**64), 0),
            ),
            unsigned=True,
        )

    def test_runs(self):
        some = [(0, 10), (12, 30), (40, None)]
        self.check(
            "first_run",
            (
                (some, (12,), 12),
                (some, (10,), 0),
                (some, (10, 1), 12),
                (some, (9, 1), 1),
                (some, (9, 2), 12),
                (some, (18, 0), 12),
                (some, (19, 0), 40),
                (some, (19, 0, 50), None),
                (some, (10, 0, 50), 0),
                (some, (11, 0, 22), None),
                (some, (11, 0, 23), 12),
                (some, (0, 3), 3),
                (some, (2**63 - 40,), 40),
                (some, (2**63 - 41,), 40),
                (some, (2**63 - 39,), None),
                (some, (2**63 - 40, None, MOST), None),
                (some, (2**63 - 40, 41), None),
                (some, (2**63 - 41, 41), 41),
                ([(None, None)], (2**64,), LEAST),
                ([(None, None)], (2**64 + 1,), None),
                ([(0, MOST)], (2**63 - 1,), 0),
                ([(0, MOST)], (2**63,), None),
                ([(MOST, None)], (1,), MOST),
                ([(5, 9), (MOST, None)], (5,), None),
                ([], (1,), None),
                (some, (-1,), ValueError),
                (some, (1.5,), TypeError),
            ),
        )

    def test_of_each_kind(self):
        hour, day = 4 * QUARTER, timedelta(days=1)
        busy = [(NINE + timedelta(minutes=5), NINE + timedelta(minutes=50))]
        monday = date(1970, 1, 5)
        taken = [IPv4Network("10.0.0.0/25"), IPv4Network("10.0.1.0/24")]
        long = [IPv6Network("::/64"), IPv6Network("ffff::/16")]
        top = IPv4Address("255.255.255.0")
        for name, source, given, expected in (
            ("first_fit_aligned", busy, (timedelta(minutes=20), QUARTER, NINE), NINE + hour),
            ("first_fit_aligned", busy, (timedelta(minutes=5), QUARTER, NINE), NINE),
            ("first_fit_aligned", busy, (timedelta(minutes=5), QUARTER, NINE, NINE + hour), NINE),
            ("first_fit_aligned", busy, (QUARTER, QUARTER, NINE, NINE + hour), None),
            ("first_fit_aligned", busy, (QUARTER, 15, NINE), TypeError),
            ("first_run", busy, (timedelta(minutes=45), NINE), NINE + timedelta(minutes=5)),
            ("first_run", busy, (timedelta(minutes=46), NINE), None),
            ("first_fit_aligned", [(monday, date(1970, 1, 12))], (day, 7 * day, monday), date(1970, 1, 15)),
            ("first_run", [(date(9999, 12, 30), None)], (2 * day,), date(9999, 12, 30)),
            ("first_run", [(date(9999, 12, 30), None)], (3 * day,), None),
            ("first_fit_aligned", taken, (128, 128, IPv4Address("10.0.0.0")), IPv4Address("10.0.0.128")),
            ("first_fit_aligned", taken, (256, 256, IPv4Address("10.0.0.0")), IPv4Address("10.0.2.0")),
            ("first_fit_aligned", [(top, top + 128)], (128, 128, top), top + 128),
            ("first_fit_aligned", [(top, top + 128)], (129, 1, top), None),
            ("first_run", [(top, None)], (256,), top),
            ("first_run", [(top, None)], (257,), None),
            ("first_fit_aligned", long, (2**64, 2**64), IPv6Address("0:0:0:1::")),
            ("first_fit_aligned", long, (2**64, 2**65), IPv6Address("0:0:0:2::")),
            ("first_fit_aligned", long, (2**65, 2**64), IPv6Address("0:0:0:1::")),
            ("first_fit_aligned", long, (2, 2**64, IPv6Address("ffff::")), None),
            ("first_run", long, (2**64,), IPv6Address("::")),
            ("first_run", long, (2**65,), IPv6Address("ffff::")),
            ("first_run", long, (2**112,), IPv6Address("ffff::")),
            ("first_run", long, (2**112 + 1,), None),
            ("first_run", long, (1, IPv6Address("::5"), IPv6Address("::9")), IPv6Address("::5")),
            ("first_run", [(0.5, 1.5)], (0.5,), TypeError),
            ("first_fit_aligned", [(0.5, 1.5)], (0.5, 0.5), TypeError),
            ("first_run", [("a", "b")], (1,), TypeError),
        ):
            self.check(name, ((source, given, expected),))
        self.assertEqual(RangeSet().first_fit_aligned(day, 7 * day, monday), date(1970, 1, 8))
        self.assertIsNone(RangeSet().first_run(day, monday))

    def test_next_ones(self):
        some, day, top = [(0, 10), (20, None)], date(2026, 5, 4), IPv4Address("255.255.255.255")
        texts, of_ten, long = [("b", "d"), ("f", None)], [IPv4Network("10.0.0.0/8")], [IPv6Network("::/120")]
        for name, source, value, expected in (
            ("range_from", some, 5, (0, 10)),
            ("range_from", some, LEAST, (0, 10)),
            ("range_from", some, 10, (20, None)),
            ("range_from", [(0, 10)], 10, None),
            ("next_member", some, 10, 20),
            ("next_member", some, MOST, MOST),
            ("next_member", [(0, 10)], 10, None),
            ("next_gap", some, 0, 10),
            ("next_gap", some, 15, 15),
            ("next_gap", some, 20, None),
            ("prev_member", some, 15, 9),
            ("prev_member", some, -1, None),
            ("prev_gap", some, 25, 19),
            ("prev_gap", [(None, 5)], 4, None),
            ("next_member", some, 2**63, OverflowError),
            ("prev_gap", some, LEAST - 1, OverflowError),
            ("range_from", some, "a", TypeError),
            ("next_gap", some, (0, 5), TypeError),
            ("next_member", [], 5, None),
            ("prev_gap", [], day, day),
            ("prev_gap", [(None, day)], date(2026, 5, 1), None),
            ("prev_member", [(None, day)], date.max, date(2026, 5, 3)),
            ("next_gap", [(day, None)], day, None),
            ("next_gap", of_ten, IPv4Address("10.1.1.1"), IPv4Address("11.0.0.0")),
            ("prev_member", of_ten, top, IPv4Address("10.255.255.255")),
            ("next_gap", [(top, None)], top, None),
            ("prev_gap", [(None, top)], IPv4Address(0), None),
            ("prev_gap", [(0.5, 1.5)], 1.0, nextafter(0.5, 0)),
            ("next_member", [(0.5, 1.5)], 0, 0.5),
            ("range_from", texts, "a", ("b", "d")),
            ("range_from", texts, "dog", ("f", None)),
            ("next_member", texts, "a", "b"),
            ("next_member", texts, "cat", "cat"),
            ("next_member", texts[:1], "d", None),
            ("next_gap", texts, "a", "a"),
            ("next_gap", texts, "cat", "d"),
            ("next_gap", texts, "dog", "dog"),
            ("next_gap", texts, "fig", None),
            ("next_gap", [], "fig", "fig"),
            ("prev_member", texts, "cat", TypeError),
            ("prev_gap", texts, "a", TypeError),
            ("next_gap", long, IPv6Address("::5"), IPv6Address("::100")),
            ("next_member", long, IPv6Address("::5"), IPv6Address("::5")),
            ("next_member", long, IPv6Address("::100"), None),
            ("prev_gap", long, IPv6Address("::5"), TypeError),
        ):
            self.check(name, ((source, (value,), expected),))
        self.check("next_gap", (([(2**64 - 5, None)], (2**64 - 1,), None), ([(0, 5)], (0,), 5)), unsigned=True)
        self.check("prev_gap", (([(0, 5)], (4,), None), ([(2**63, None)], (2**64 - 1,), 2**63 - 1)), unsigned=True)

    def test_made_up_sets(self):
        some, answers = random.Random(753), set()
        for _ in range(2000):
            ends = sorted(some.sample(range(-40, 40), some.randrange(14)))
            first, last = some.choice([(-2, 60), (-45, 45), (-20, 0), (5, 3)])
            length, align = some.randrange(12), some.randrange(1, 9)
            is_member = {it: sum(end <= it for end in ends) % 2 == 1 for it in range(-60, 80)}
            starts = range(first, last - length + 1)
            fits = [it for it in starts if it % align == 0 and not any(is_member[n] for n in range(it, it + length))]
            runs = [it for it in starts if all(is_member[n] for n in range(it, it + length))]
            expected = min(fits, default=None), min(runs, default=None)
            for made in (RangeSet.from_boundaries(ends), MutableRangeSet.from_boundaries(ends)):
                found = made.first_fit_aligned(length, align, first, last), made.first_run(length, first, last)
                self.assertEqual(found, expected, (ends, length, align, first, last))
                self.assertEqual(made.first_fit_aligned(length, 1, first, last), made.first_fit(length, first, last))
            answers |= {it is None for it in expected}
            to_the_top = RangeSet.from_boundaries([it + MOST - 39 for it in ends])
            inside = [
                it - MOST + 39 for it in (to_the_top.first_fit_aligned(length, 1, MOST - 79), to_the_top.first_run(length, MOST - 79)) if it
            ]
            free = [it for it in range(-40, 41 - length) if not any(is_member[n] for n in range(it, it + length))]
            run = [it for it in range(-40, 41 - length) if all(is_member[n] for n in range(it, it + length))]
            self.assertEqual(inside, [*free[:1], *run[:1]], (ends, length))
        self.assertEqual(answers, {False, True})

    def test_chunks_remember(self):
        made = MutableRangeSet([(10 * n, 10 * n + 7) for n in range(3000)])
        made.add(-9, -8)
        for _ in range(2):
            self.assertEqual((made.first_fit_aligned(4, 1, 0), made.first_fit_aligned(3, 4, 0), made.first_run(8, 0)), (29997, 30000, None))
        made.discard(500, 510)
        self.assertEqual((made.first_fit_aligned(4, 1, 0), made.first_run(7, 497)), (497, 510))
        changed = RangeSet([(0, 5)], unsigned=True)._now[0]
        self.assertRaises(TypeError, _core.first_fit_aligned, changed, 0, 5, 1)
        self.assertRaises(OverflowError, _core.first_fit_aligned, changed, -1, 5, 1, 1)


if __name__ == "__main__":
    unittest.main()
