"""Sets whose ranges move, grow or shrink, and those of long ranges alone."""

import random
import unittest
from datetime import date, datetime, timedelta, timezone
from ipaddress import IPv4Address, IPv4Network, IPv6Address, IPv6Network
from math import inf, nextafter

from range_sets import MutableRangeSet, RangeSet, _core

LEAST, MOST = -(2**63), 2**63 - 1
DAY, HOUR = timedelta(days=1), timedelta(hours=1)
NINE = datetime(2026, 5, 4, 9)


class Rows(unittest.TestCase):
    def check(self, rows, call, **kind):
        for pairs, given, expected in rows:
            with self.subTest(pairs=pairs, given=given):
                for made in (RangeSet(pairs, **kind), MutableRangeSet(pairs, **kind)):
                    before = made.copy()
                    if isinstance(expected, type):
                        self.assertRaises(expected, call, made, *given)
                    else:
                        found = call(made, *given)
                        self.assertEqual((list(found), found.kind, type(found)), (expected, made.kind, type(made)))
                    self.assertEqual(made, before)

    def test_shift(self):
        rows = (
            ([(0, 10), (20, None)], (5,), [(5, 15), (25, None)]),
            ([(0, 10), (20, None)], (-5,), [(-5, 5), (15, None)]),
            ([(0, 10)], (0,), [(0, 10)]),
            ([(None, 10)], (5,), [(LEAST, 15)]),
            ([(None, 10)], (-5,), [(LEAST, 5)]),
            ([(None, None)], (2**70,), [(LEAST, None)]),
            ([(None, LEAST + 5)], (-6,), OverflowError),
            ([(LEAST + 5, 0)], (-5,), [(LEAST, -5)]),
            ([(LEAST + 5, 0)], (-6,), OverflowError),
            ([(0, MOST)], (1,), [(1, None)]),
            ([(0, MOST)], (2,), OverflowError),
            ([(5, None)], (MOST - 5,), [(MOST, None)]),
            ([(5, None)], (MOST - 4,), OverflowError),
            ([(5, 6)], (2**64,), OverflowError),
            ([(5, 6)], (-(2**64),), OverflowError),
            ([(5, 6)], (-(2**63) - 5,), [(LEAST, LEAST + 1)]),
            ([(LEAST + 1, LEAST + 2)], (2**64 - 3,), [(MOST - 1, MOST)]),
            ([(5, 6)], (0.5,), TypeError),
            ([(5, 6)], (None,), TypeError),
            ([(5, 6)], (DAY,), TypeError),
        )
        self.check(rows, lambda made, *given: made.shift(*given))
        unsigned = (
            ([(0, 10), (20, None)], (5,), [(5, 15), (25, None)]),
            ([(5, 10)], (-5,), [(0, 5)]),
            ([(5, 10)], (-6,), OverflowError),
            ([(5, 2**64 - 1)], (1,), [(6, None)]),
            ([(5, 2**64 - 1)], (2,), OverflowError),
        )
        self.check(unsigned, lambda made, *given: made.shift(*given), unsigned=True)

    def test_widen(self):
        rows = (
            ([(0, 10), (12, 20)], (1, 0), [(-1, 10), (11, 20)]),
            ([(0, 10), (12, 20)], (1, 1), [(-1, 21)]),
            ([(0, 10), (12, 20)], (2, 0), [(-2, 20)]),
            ([(0, 10), (12, 20)], (-4, -4), [(4, 6)]),
            ([(0, 10), (12, 20)], (-4, 5), [(4, 15), (16, 25)]),
            ([(0, 10), (12, 20)], (-4, 6), [(4, 26)]),
            ([(0, 10), (12, 20)], (5, -9), [(-5, 1), (7, 11)]),
            ([(0, 10), (12, None)], (-5, 99), [(5, None)]),
            ([(None, 10)], (-5, -5), [(LEAST, 5)]),
            ([(None, 10)], (5, 5), [(LEAST, 15)]),
            ([(None, None)], (-(2**70), -(2**70)), [(LEAST, None)]),
            ([(0, 10)], (2**70, 2**70), [(LEAST, None)]),
            ([(0, 10)], (2**63, 0), [(LEAST, 10)]),
            ([(0, 10)], (0, 2**63 - 11), [(0, MOST)]),
            ([(0, 10)], (0, 2**63 - 10), [(0, None)]),
            ([(0, 10), (20, 30)], (0, 2**63), [(0, None)]),
            ([(0, 10)], (-(2**70), 2**70), []),
            ([(0, 10), (MOST - 1, MOST)], (-5, 5), [(5, 15)]),
            ([(0, 10)], (-(2**63), 2**63), []),
            ([(0, 10)], (1, -(2**70)), []),
            ([], (1, 1), []),
            ([(5, 6)], (0.5, 1), TypeError),
            ([(5, 6)], (1, None), TypeError),
        )
        self.check(rows, lambda made, *given: made.widen(*given), kind="int")
        unsigned = (
            ([(3, 10)], (5, 5), [(0, 15)]),
            ([(0, 10)], (-2, -2), [(2, 8)]),
            ([(0, None)], (-(2**64 - 1), 0), [(2**64 - 1, None)]),
            ([(0, None)], (-(2**64), 0), []),
            ([(3, 10)], (2**64, 2**64), [(0, None)]),
        )
        self.check(unsigned, lambda made, *given: made.widen(*given), unsigned=True)

    def test_at_least(self):
        rows = (
            ([(0, 10), (12, 14), (20, 25)], (5,), [(0, 10), (20, 25)]),
            ([(0, 10), (12, 14), (20, 25)], (0,), [(0, 10), (12, 14), (20, 25)]),
            ([(0, 10), (12, 14), (20, 25)], (11,), []),
            ([(0, 10), (12, None)], (2**70,), [(12, None)]),
            ([(0, 10), (MOST, None)], (10,), [(0, 10), (MOST, None)]),
            ([(None, MOST)], (2**64 - 1,), [(LEAST, MOST)]),
            ([(None, MOST)], (2**64,), []),
            ([(0, 5)], (-1,), ValueError),
            ([(0, 5)], (0.5,), TypeError),
        )
        self.check(rows, lambda made, *given: made.at_least(*given))

    def test_of_each_kind(self):
        def at(text):
            return IPv4Address(text)

        def long(text):
            return IPv6Address(text)

        first, last, utc = datetime.min, datetime.max, timezone.utc
        hours = [(NINE, NINE + HOUR), (NINE + 2 * HOUR, None)]
        zoned = [(NINE.replace(tzinfo=utc), (NINE + HOUR).replace(tzinfo=utc))]
        top, network = IPv4Network("255.255.255.0/24"), IPv4Network("10.0.0.0/30")
        high, low = IPv6Network("ffff::/16"), IPv6Network("::/64")
        for source, name, given, expected in (
            (hours, "shift", (HOUR / 2,), [(NINE + HOUR / 2, NINE + 1.5 * HOUR), (NINE + 2.5 * HOUR, None)]),
            (hours, "widen", (HOUR, HOUR), [(NINE - HOUR, None)]),
            (hours, "widen", (HOUR / 4, HOUR / 4), [(NINE - HOUR / 4, NINE + HOUR * 1.25), (NINE + HOUR * 1.75, None)]),
            (hours, "at_least", (2 * HOUR,), hours[1:]),
            (hours, "shift", (1,), TypeError),
            ([(first, NINE)], "widen", (HOUR, HOUR), [(first, NINE + HOUR)]),
            ([(first, NINE)], "shift", (HOUR,), [(first, NINE + HOUR)]),
            ([(first + HOUR, NINE)], "shift", (-2 * HOUR,), OverflowError),
            ([(NINE, last)], "shift", (timedelta(microseconds=1),), [(NINE + timedelta(microseconds=1), None)]),
            ([(NINE, last)], "shift", (HOUR,), OverflowError),
            ([(NINE, last)], "widen", (0 * HOUR, HOUR), [(NINE, None)]),
            (zoned, "shift", (HOUR,), [(zoned[0][1], zoned[0][1] + HOUR)]),
            ([(date(2026, 5, 1), date(2026, 5, 3))], "widen", (DAY, 2 * DAY), [(date(2026, 4, 30), date(2026, 5, 5))]),
            ([(date(2026, 5, 1), date(2026, 5, 3))], "widen", (HOUR, DAY), ValueError),
            ([(date(2026, 5, 1), date.max)], "widen", (-DAY, 2 * DAY), [(date(2026, 5, 2), None)]),
            ([(HOUR, DAY)], "shift", (-DAY,), [(-23 * HOUR, 0 * HOUR)]),
            ([(HOUR, DAY)], "at_least", (DAY,), []),
            ([network], "shift", (4,), [(at("10.0.0.4"), at("10.0.0.8"))]),
            ([top], "shift", (-256,), [(at("255.255.254.0"), at("255.255.255.0"))]),
            ([top], "shift", (1,), OverflowError),
            ([IPv4Network("0.0.0.0/30")], "shift", (-1,), OverflowError),
            ([IPv4Network("0.0.0.0/30")], "shift", (1,), [(at("0.0.0.1"), at("0.0.0.5"))]),
            ([top, network], "widen", (-1, -1), [(at("10.0.0.1"), at("10.0.0.3")), (at("255.255.255.1"), at("255.255.255.255"))]),
            ([top], "widen", (1, 1), [(at("255.255.254.255"), None)]),
            ([IPv4Network("0.0.0.0/0")], "widen", (-1, -1), [(at("0.0.0.1"), at("255.255.255.255"))]),
            ([IPv4Network("0.0.0.0/0")], "widen", (-(2**32), 0), []),
            ([top, network], "at_least", (256,), [(at("255.255.255.0"), None)]),
            ([top, network], "at_least", (257,), []),
            ([low], "shift", (2**64,), [(long("0:0:0:1::"), long("0:0:0:2::"))]),
            ([low], "shift", (-1,), OverflowError),
            ([high], "shift", (1,), OverflowError),
            ([high], "shift", (-(2**112),), [(long("fffe::"), long("ffff::"))]),
            ([high, low], "widen", (-1, -1), [(long("::1"), long("::ffff:ffff:ffff:ffff")), (long("ffff::1"), long("ffff" + ":ffff" * 7))]),
            ([high, low], "widen", (2**127, 0), [(long("::"), long("0:0:0:1::")), (long("7fff::"), None)]),
            ([high, low], "widen", (0, 2**128), [(long("::"), None)]),
            ([high, low], "at_least", (2**65,), [(long("ffff::"), None)]),
            ([high, low], "at_least", (2**113,), []),
            ([(0.0, 0.5), (1.0, None), (None, -2.0)], "shift", (0.25,), [(-inf, -1.75), (0.25, 0.75), (1.25, None)]),
            ([(0.0, 0.5), (1.0, None)], "widen", (0.5, 0.5), [(-0.5, None)]),
            ([(0.0, 0.5), (1.0, inf)], "widen", (-0.25, -0.25), [(1.25, inf)]),
            ([(0.0, 0.5), (1.0, 1.25)], "at_least", (0.5,), [(0.0, 0.5)]),
            ([(0.0, 1e308)], "widen", (0, 1e308), [(0.0, inf)]),
            ([(0.0, 1e308)], "shift", (1e308,), OverflowError),
            ([(1e308, None)], "shift", (1e308,), OverflowError),
            ([(-1e308, 0.0)], "shift", (-1e308,), OverflowError),
            ([(0.0, 1.0)], "shift", (inf,), ValueError),
            ([(0.0, 1.0)], "shift", (inf - inf,), ValueError),
            ([(0.0, 1.0)], "shift", (1,), [(1.0, 2.0)]),
            ([(0.0, 1.0)], "shift", ("a",), TypeError),
            ([("a", "b")], "shift", (1,), TypeError),
            ([("a", "b")], "widen", (1, 1), TypeError),
            ([("a", "b")], "at_least", (1,), TypeError),
        ):
            self.check([(source, given, expected)], lambda made, *given: getattr(made, name)(*given))

    def test_lengths_of_floats_are_exact(self):
        # The difference rounds up to the length, which the range is a little shorter than.
        start, end = nextafter(0.0, 1), 1.0
        self.assertEqual(end - start, 1.0)
        self.assertEqual(list(RangeSet([(start, end), (2.0, 3.0)]).at_least(1.0)), [(2.0, 3.0)])
        self.assertEqual(list(RangeSet([(-1e308, 1e308), (None, -1.5e308)]).at_least(1e308)), [(-inf, -1.5e308), (-1e308, 1e308)])

    def test_a_set_of_no_kind_has_nothing_to_move(self):
        for made in (RangeSet(), MutableRangeSet()):
            for found in (made.shift(DAY), made.widen(1, DAY), made.at_least(0.5)):
                self.assertEqual((found, found.kind, type(found)), (made, None, type(made)))

    def test_lengths_of_numpy(self):
        try:
            import numpy
        except ModuleNotFoundError:
            self.skipTest("numpy is missing")
        first = numpy.datetime64("2026-05-01", "s")
        made = RangeSet([(first, first + 60), (first + 120, None)])
        minute = numpy.timedelta64(1, "m")
        self.assertEqual(list(made.shift(minute)), [(first + 60, first + 120), (first + 180, None)])
        self.assertEqual(list(made.widen(timedelta(seconds=30), numpy.timedelta64(30, "s"))), [(first - 30, None)])
        self.assertEqual(list(made.at_least(2 * minute)), [(first + 120, None)])
        self.assertRaises(ValueError, made.shift, timedelta(milliseconds=1))


class MadeUp(unittest.TestCase):
    """Beside numbers of Python's, which have no least and no greatest one."""

    KINDS = {
        "int": (LEAST, MOST, True, False, lambda it: it),
        "unsigned": (0, 2**64 - 1, False, False, lambda it: it),
        "IPv4Address": (0, 2**32 - 1, False, True, IPv4Address),
        "IPv6Address": (0, 2**128 - 1, False, True, IPv6Address),
        "date": (-719162, 2932896, True, False, lambda it: date.fromordinal(it + 719163)),
    }

    def drawn(self, some, least, most):
        """Boundaries near each other, and near the limits."""
        first, last = some.choice([(least, least + 50), (most - 50, most), (least, most), (0, 60)])
        count = min(some.randrange(12), last - first + 1)
        return sorted({some.randint(first, last) for _ in range(count)})

    @staticmethod
    def pairs_of(codes, most, closes):
        ends = [*codes, *[most + 1 if closes else inf] * (len(codes) % 2)]
        return [*zip(ends[::2], ends[1::2])]

    def test_beside_numbers_without_limits(self):
        some, seen = random.Random(75), set()
        for name, (least, most, stays, closes, element) in self.KINDS.items():
            for _ in range(1500):
                codes = self.drawn(some, least, most)
                made = RangeSet.from_boundaries([*map(element, codes)], kind=name)
                pairs = self.pairs_of(codes, most, closes)
                sizes = 0, 1, 3, 30, most - least, most - least + 1, 2**130
                before, after = (some.choice([1, -1]) * some.choice(sizes) for _ in range(2))
                if name == "date":
                    before, after = (max(min(it, 10**8), -(10**8)) for it in (before, after))
                length = (lambda it: it * DAY) if name == "date" else int
                wide = [(start if stays and start == least else start - before, end + after) for start, end in pairs]
                cut = [(max(start, least), min(end, most + 1)) for start, end in wide]
                expected = [(a, b) for a, b in cut if a < b]
                made_of = self.set_of(expected, most, element, name)
                self.assertEqual(made.widen(length(before), length(after)), made_of, (name, codes, before, after))
                moved = [(start if stays and start == least else start + after, end + after) for start, end in pairs]
                fits = all(least <= it <= most + (it is end) for start, end in moved for it in (start, end) if it != inf)
                if any(end <= least for _, end in moved):
                    fits = False
                if fits:
                    self.assertEqual(made.shift(length(after)), self.set_of(moved, most, element, name), (name, codes, after))
                else:
                    self.assertRaises(OverflowError, made.shift, length(after))
                long = [(start, end) for start, end in pairs if end - start >= abs(after)]
                self.assertEqual(made.at_least(length(abs(after))), self.set_of(long, most, element, name))
                seen.add((name, fits, bool(expected)))
        self.assertTrue({(name, True, True) for name in self.KINDS} | {("int", False, True)} <= seen, seen)

    @staticmethod
    def set_of(pairs, most, element, name):
        return RangeSet([(element(start), None if end > most else element(end)) for start, end in pairs], kind=name)

    def test_of_complements(self):
        """What grows is what a complement loses, in numbers that go on without an end."""
        some = random.Random(7)
        for _ in range(300):
            ends = sorted(some.sample(range(-40, 40), 2 * some.randrange(6)))
            made = RangeSet.from_boundaries(ends)
            before, after, by = some.randrange(9), some.randrange(9), some.randrange(-99, 99)
            self.assertEqual(made.widen(before, after), ~(~made).widen(-after, -before))
            self.assertEqual(made.widen(-before, -after), ~(~made).widen(after, before))
            self.assertEqual(~made.shift(by), (~made).shift(by))
            self.assertEqual(made.shift(by).shift(-by), made)
            members = {*made.members()}
            self.assertEqual({*made.widen(before, after).members()}, {it + by for it in members for by in range(-before, after + 1)})


class Extension(unittest.TestCase):
    def test_bad_arguments(self):
        made = RangeSet([(0, 5)])._now[0]
        for given in ((), (made,), ([0, 5], LEAST, MOST, 1, 1, True, False), (made, LEAST, 2**63, 1, 1, True, False)):
            self.assertRaises((TypeError, OverflowError), _core.moved, *given)
        for given in ((made, LEAST, MOST, "a", 1, True, False), (made, LEAST, MOST, 1, 0.5, True, False)):
            self.assertRaises(TypeError, _core.moved, *given)
        for given in ((), (made,), ([0, 5], 1), (made, -1), (made, "a"), (made, 2**64)):
            self.assertRaises((TypeError, OverflowError), _core.at_least, *given)


if __name__ == "__main__":
    unittest.main()
