"""Sets of times, dates, floats and addresses: what is so of each of these kinds alone."""

import datetime
import importlib
import ipaddress
import random
import unittest
import xml.etree.ElementTree
from array import array
from datetime import date, timedelta, timezone
from ipaddress import IPv4Address, IPv4Network, IPv6Network
from math import inf, nan

from test_kinds import DAY, FIRST, LAST, TINY, UTC, at, longest

from range_sets import MutableRangeSet, RangeSet


class Times(unittest.TestCase):
    day, busy = RangeSet([(at(9), at(17))]), RangeSet([(at(11), at(12, 30)), (at(16), at(18))])

    def test_a_calendar(self):
        free = self.day - self.busy
        self.assertEqual(list(free), [(at(9), at(11)), (at(12, 30), at(16))])
        self.assertEqual((free.covered(), self.busy.first_fit(timedelta(hours=3), at(9))), (timedelta(hours=5, minutes=30), at(12, 30)))
        self.assertEqual(self.busy.first_fit(timedelta(hours=3), at(9), at(15)), None)
        self.assertEqual(
            (self.busy.first_fit(timedelta.max), RangeSet([(date.min, None)]).first_fit(timedelta.max // DAY * DAY)), (None, None)
        )
        self.assertEqual(str(free[:1]), "2026-05-04 09:00:00..2026-05-04 11:00:00")

    def test_zones(self):
        east, west = timezone(timedelta(hours=2)), timezone(timedelta(hours=-5))
        made = RangeSet([(at(11, zone=east), at(6, zone=west))])
        self.assertEqual((made, repr(made[0][0].tzinfo)), (RangeSet([(at(9, zone=UTC), at(11, zone=UTC))]), "datetime.timezone.utc"))
        self.assertTrue(at(12, zone=east) in made and at(9) in RangeSet([(at(9), None)]))
        summer = datetime.datetime(2026, 10, 25, 2, 30, tzinfo=importlib.import_module("zoneinfo").ZoneInfo("Europe/Berlin"))
        hour = RangeSet([(summer, summer.replace(fold=1))])
        self.assertEqual(hour.covered(), timedelta(hours=1))

    def test_a_zone_that_says_nothing_is_none(self):
        class Nowhere(datetime.tzinfo):
            def utcoffset(self, when):
                return None

        made = RangeSet([(at(9, zone=Nowhere()), at(10))])
        self.assertEqual((made, made.kind, at(9, 30, Nowhere()) in made), (RangeSet([(at(9), at(10))]), "datetime", True))

    def test_ends_past_the_greatest_are_none(self):
        west = LAST.replace(tzinfo=timezone(timedelta(hours=-12)))
        made = RangeSet([(at(9, zone=UTC), west)])
        self.assertEqual(made[0], (at(9, zone=UTC), None))
        self.assertTrue(made.covers(at(9, zone=UTC), west) and made.overlapping(at(9, zone=UTC), west))
        self.assertEqual(made.gaps(None, west), RangeSet((None, at(9, zone=UTC))))
        east = FIRST.replace(tzinfo=timezone(timedelta(hours=12)))
        for call in (lambda: RangeSet([(west, None)]), lambda: RangeSet([(east, None)]), lambda: made.insert(None, east)):
            with self.assertRaisesRegex(OverflowError, "expected a datetime with a time zone"):
                call()
        self.assertFalse(west in made or east in made or made.covers(east, None))
        self.assertEqual([*RangeSet.from_values([date.max]).members()], [date.max])

    def test_lengths(self):
        made = RangeSet([(date(2024, 2, 28), date(2024, 3, 1))])
        self.assertEqual((made.covered(), made.first_fit(3 * DAY, date(2024, 2, 26))), (2 * DAY, date(2024, 3, 1)))
        self.assertEqual([*made.members()], [date(2024, 2, 28), date(2024, 2, 29)])
        self.assertEqual((~made).first_fit(2 * DAY), date(2024, 2, 28))
        self.assertEqual(RangeSet([(date.min, date.max)]).first_fit(DAY), date.max)
        self.assertIsNone(RangeSet([(date.min, date.max)]).first_fit(2 * DAY))
        everything = RangeSet([(longest(-(2**63)), longest(2**63 - 1))])
        self.assertEqual(everything.covered(), longest(2**64 - 1))
        self.assertEqual(RangeSet([(TINY, 3 * TINY)]).first_fit(timedelta(0), TINY), TINY)
        for call, error in (
            (lambda: made.first_fit(timedelta(hours=36)), ValueError),
            (lambda: made.first_fit(-DAY), ValueError),
            (lambda: made.first_fit(2), TypeError),
            (lambda: self.day.first_fit(60), TypeError),
            (lambda: self.day.first_fit(-TINY), ValueError),
        ):
            with self.assertRaises(error):
                call()

    def test_lengths_of_more_than_64_bits(self):
        for it in (longest(2**63), longest(-(2**63) - 1), timedelta.max, timedelta.min):
            made = MutableRangeSet([(TINY, 2 * TINY)])
            for call in (
                lambda: RangeSet([(it, None)]),
                lambda: RangeSet([(None, it)], kind="timedelta"),
                lambda: made.add(it),
                lambda: made.add(TINY, it),
            ):
                with self.assertRaisesRegex(OverflowError, "expected a timedelta of at most 64 bits of microseconds"):
                    call()
            self.assertEqual((list(made), it in made), ([(TINY, 2 * TINY)], False))


class Floats(unittest.TestCase):
    def test_both_zeros_are_one(self):
        made = RangeSet([(-0.0, 1.0)])
        self.assertEqual((repr(made), made, -0.0 in made, 0.0 in made), ("RangeSet([(0.0, 1.0)])", RangeSet([(0.0, 1.0)]), True, True))
        self.assertFalse(-0.0 in RangeSet([(-1.0, 0.0)]) or RangeSet([(-0.0, 0.0)]))

    def test_lengths(self):
        for pairs, length in (
            ([], 0.0),
            ([(0.5, 2.0)], 1.5),
            ([(0.1 * n, 0.1 * n + 0.05) for n in range(10)], 0.5),
            ([(0.0, inf)], inf),
            ([(-1e308, 1e308)], inf),
            ([(0.0, 1e308), (1.1e308, 1.7e308)], 1.6e308),
            ([(-1.7e308, 0.0), (1.0, 1.7e308)], inf),
        ):
            self.assertAlmostEqual(RangeSet(pairs, kind=float).covered(), length)
        self.assertIsNone(RangeSet([(0.5, None)]).covered())
        self.assertEqual(RangeSet([(-1e16, 0.0), (1.0, 2.0), (3.0, 4.0)]).covered(), 1e16 + 2)

    def test_infinities(self):
        below = RangeSet([(None, 1.5), (2.5, inf)], kind=float)
        self.assertEqual(repr(below), "RangeSet([(float('-inf'), 1.5), (2.5, float('inf'))])")
        self.assertEqual((list(~below), -inf in below, inf in below), ([(1.5, 2.5), (inf, None)], True, False))

    def test_a_picture_without_a_scale(self):
        made = RangeSet([(-1e308, 0.0), (5e-324, 1e308), (1.7e308, inf)])
        places = [float(it.get("cx")) for it in xml.etree.ElementTree.fromstring(made._repr_svg_()) if it.tag.endswith("circle")]
        self.assertEqual((places, places[0], places[-1]), (sorted(places), 40, 600))
        self.assertEqual(
            [it.get("cx") for it in xml.etree.ElementTree.fromstring(RangeSet([(inf, None)])._repr_svg_()) if it.get("cx")], ["320.0"]
        )

    def test_whole_numbers_are_floats_where_they_are_exact(self):
        made = RangeSet([(0.5, 2)])
        self.assertEqual((made, 1 in made, 2 in made), (RangeSet([(0.5, 2.0)]), True, False))
        self.assertEqual(list(RangeSet([(1, 5), (7, None)], kind=float)), [(1.0, 5.0), (7.0, None)])
        with self.assertRaisesRegex(ValueError, "9007199254740993 is no float"):
            made.insert(1, 2**53 + 1)

    def test_no_number(self):
        made = MutableRangeSet([(0.5, 2.0)])
        for call in (
            lambda: nan in made,
            lambda: made.add(nan, None),
            lambda: made.add(0.5, nan),
            lambda: RangeSet([(nan, 1.0)]),
            lambda: made.covers(0.5, nan),
            lambda: RangeSet.from_boundaries(array("d", [0.5, nan])),
            lambda: made.range_at(nan),
            lambda: made.gaps(nan),
            lambda: made.split(-nan),
        ):
            with self.assertRaisesRegex(ValueError, "NaN is in no order"):
                call()
        self.assertEqual(list(made), [(0.5, 2.0)])

    def test_buffers(self):
        self.assertEqual(list(RangeSet.from_boundaries(array("f", [-0.5, 1.5]))), [(-0.5, 1.5)])
        table = memoryview(array("d", [2.5, 3.5, 0.0, 1.0, 0.5, 2.0])).cast("B").cast("d", shape=[3, 2])
        self.assertEqual(list(RangeSet(table)), [(0.0, 2.0), (2.5, 3.5)])
        for kind in ("int", "date"):
            with self.assertRaises(TypeError):
                RangeSet(table, kind=kind)


class Addresses(unittest.TestCase):
    def test_networks_are_ranges(self):
        made = RangeSet([IPv4Network("10.0.0.0/8"), (IPv4Address("11.0.0.0"), IPv4Address("11.0.0.5"))])
        self.assertEqual((made, made.covered()), (RangeSet((IPv4Address("10.0.0.0"), IPv4Address("11.0.0.5"))), 2**24 + 5))
        self.assertEqual(list(RangeSet(IPv4Network("240.0.0.0/4"))), [(IPv4Address("240.0.0.0"), None)])
        self.assertEqual(RangeSet(IPv4Network("0.0.0.0/0")), ~RangeSet(kind=IPv4Address))
        self.assertEqual(
            list(RangeSet((IPv4Network("10.0.0.0/31"), IPv4Network("10.0.0.3/32")))),
            [(IPv4Address("10.0.0.0"), IPv4Address("10.0.0.2")), (IPv4Address("10.0.0.3"), IPv4Address("10.0.0.4"))],
        )
        for network in ("255.0.0.0/8", "255.255.255.255/32", "0.0.0.0/0", "10.0.0.0/8"):
            self.assertEqual(RangeSet(IPv4Network(network)).covered(), IPv4Network(network).num_addresses)
        self.assertEqual(RangeSet([IPv4Network("10.0.0.0/30"), IPv4Network("255.255.255.252/30")]).covered(), 8)
        self.assertEqual(RangeSet(kind=IPv4Address).covered(), 0)
        taken = MutableRangeSet(IPv4Network("10.0.0.0/24"))
        taken.discard(IPv4Network("10.0.0.0/30"))
        taken.add(IPv4Address("255.255.255.255"))
        self.assertEqual((taken.covers(IPv4Network("10.0.0.4/30")), taken.covers(IPv4Network("10.0.0.0/29"))), (True, False))
        self.assertEqual(str(taken), "10.0.0.4..10.0.1.0, 255.255.255.255..")
        self.assertEqual(taken.first_fit(4, IPv4Address("10.0.0.0")), IPv4Address("10.0.0.0"))
        self.assertEqual(ipaddress.IPv4Address("10.0.0.9") in taken, True)

    def test_networks_of_a_set(self):
        rows = [
            ([], []),
            (["10.0.0.0/25", "10.0.0.128/25"], ["10.0.0.0/24"]),
            (["10.0.0.1/32", "10.0.0.2/31", "10.0.0.4/32"], ["10.0.0.1/32", "10.0.0.2/31", "10.0.0.4/32"]),
            (["128.0.0.0/1", "0.0.0.0/1"], ["0.0.0.0/0"]),
            (["255.255.255.255/32"], ["255.255.255.255/32"]),
        ]
        for given, networks in rows:
            for kind in (RangeSet, MutableRangeSet):
                made = kind([*map(IPv4Network, given)])
                self.assertEqual([*made.networks()], [*map(IPv4Network, networks)])
                self.assertTrue(all(it in made for it in made.networks()))
        made, some = RangeSet([(IPv4Address("10.0.0.3"), IPv4Address("10.1.2.3"))]), random.Random(3)
        for _ in range(200):
            made ^= RangeSet(
                IPv4Network((0x0A000000 + (some.randrange(2**20) >> 32 - (bits := some.randrange(16, 33)) << 32 - bits), bits))
            )
            networks = [*made.networks()]
            self.assertEqual((RangeSet(networks), [*ipaddress.collapse_addresses(networks)]), (made, networks))
        for network, is_in in (("10.0.0.0/30", False), ("10.0.0.4/30", True), ("10.0.0.0/8", False), ("11.0.0.0/8", False)):
            of = RangeSet([(IPv4Address("10.0.0.3"), IPv4Address("10.1.2.3"))])
            self.assertEqual((IPv4Network(network) in of, IPv4Network(network) in RangeSet()), (is_in, False))
        for wrong in (RangeSet([(0, 5)]), RangeSet(kind="date")):
            self.assertRaisesRegex(TypeError, "expected a set of addresses, not of the kind", wrong.networks)
            self.assertRaises(TypeError, wrong.__contains__, IPv4Network("10.0.0.0/8"))
        self.assertRaises(TypeError, made.__contains__, IPv6Network("::/0"))

    def test_networks_of_both_versions_dont_mix(self):
        made = MutableRangeSet(kind=IPv4Address)
        for network in (IPv6Network("::/0"), IPv6Network("2001:db8::/32"), IPv6Network("2001:db8::/127")):
            for call in (
                lambda: RangeSet(network, kind=IPv4Address),
                lambda: RangeSet([IPv4Network("10.0.0.0/8"), network]),
                lambda: made.add(network),
                lambda: made.update(network),
            ):
                with self.assertRaisesRegex(TypeError, "IPv4Address"):
                    call()
        self.assertFalse(made)


if __name__ == "__main__":
    unittest.main()
