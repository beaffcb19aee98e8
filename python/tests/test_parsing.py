"""Texts of floats, dates, times and addresses."""

import importlib.util
import random
import unittest
from datetime import date, datetime, timedelta, timezone
from ipaddress import IPv4Address, IPv4Network, IPv6Address, IPv6Network
from math import inf

from range_sets import MutableRangeSet, ParseError, RangeSet

HAS_NUMPY = importlib.util.find_spec("numpy") is not None
if HAS_NUMPY:
    import numpy

UTC = timezone.utc
NINE = datetime(2026, 5, 1, 9)
HALF, SECOND = timedelta(minutes=30), timedelta(seconds=1)
FOUR, SIX = "IPv4Address", "IPv6Address"


def at(text):
    return (IPv6Address if ":" in text else IPv4Address)(text)


READ = [
    ("", "date", []),
    (" \t\u3000", FOUR, []),
    ("2026-05-01..2026-05-04", "date", [(date(2026, 5, 1), date(2026, 5, 4))]),
    (" 2026-05-04.. ,\n2026-05-01..2026-05-02", date, [(date(2026, 5, 1), date(2026, 5, 2)), (date(2026, 5, 4), None)]),
    ("2026-05-04..2026-05-01", "date", []),
    ("2026-05-04..2026-05-04, 2026-05-01..2026-05-02", "date", [(date(2026, 5, 1), date(2026, 5, 2))]),
    ("2026-05-01 09:00:00..2026-05-01 10:30:00.25", "datetime", [(NINE, NINE + timedelta(hours=1.5, milliseconds=250))]),
    ("2026-05-01T09:00..2026-05-01 10:30", datetime, [(NINE, NINE + timedelta(hours=1.5))]),
    ("2026-05-01 09:00:00+00:00..", "datetime[UTC]", [(NINE.replace(tzinfo=UTC), None)]),
    ("2026-05-01 11:00+02..2026-05-01T10:00Z", "datetime[UTC]", [(NINE.replace(tzinfo=UTC), NINE.replace(hour=10, tzinfo=UTC))]),
    ("0.5..1.5, 2..1e+16, -inf..-1.0", "float", [(-inf, -1.0), (0.5, 1.5), (2.0, 1e16)]),
    ("0.5..inf", float, [(0.5, inf)]),
    ("10.0.0.0..10.0.1.0, 10.0.2.0..", FOUR, [(at("10.0.0.0"), at("10.0.1.0")), (at("10.0.2.0"), None)]),
    ("10.0.0.0/30", FOUR, [(at("10.0.0.0"), at("10.0.0.4"))]),
    ("10.0.0.0/30,10.0.0.4 , 10.0.0.6-10.0.0.9", FOUR, [(at("10.0.0.0"), at("10.0.0.5")), (at("10.0.0.6"), at("10.0.0.10"))]),
    ("10.0.0.6 - 10.0.0.6", FOUR, [(at("10.0.0.6"), at("10.0.0.7"))]),
    ("10.0.0.6-10.0.0.5", FOUR, []),
    ("10.0.0.6-10.0.0.1", FOUR, []),
    ("255.255.255.255, 255.255.255.0-255.255.255.9", FOUR, [(at("255.255.255.0"), at("255.255.255.10")), (at("255.255.255.255"), None)]),
    ("255.255.255.9-255.255.255.255", FOUR, [(at("255.255.255.9"), None)]),
    ("0.0.0.0/0", FOUR, [(at("0.0.0.0"), None)]),
    ("::/64, 1::, ffff::-ffff::5", SIX, [(at("::"), at("0:0:0:1::")), (at("1::"), at("1::1")), (at("ffff::"), at("ffff::6"))]),
    ("::..::5, ::ffff:1.2.3.4..", SIX, [(at("::"), at("::5")), (at("::ffff:1.2.3.4"), None)]),
    ("ffff::/16", SIX, [(at("ffff::"), None)]),
    ("1 day, 2:30:00..2 days, 0:00:00.25", "timedelta", [(timedelta(1, 9000), timedelta(2, 0, 250_000))]),
    ("-1 day, 23:00..0:00,36:00..", timedelta, [(timedelta(hours=-1), timedelta(0)), (timedelta(1.5), None)]),
    ("0:59:59..1 days 02:00:00, -1 days +23:30:00..0:00", timedelta, [(-HALF, timedelta(0)), (2 * HALF - SECOND, timedelta(1) + 4 * HALF)]),
    ("0..5", "int", [(0, 5)]),
    ("0..18446744073709551615", "unsigned", [(0, 2**64 - 1)]),
]
OF_LENGTHS = "a timedelta of at most 64 bits of microseconds"
REFUSED = [
    ("2026-05-01..2026-05-32", "date", 12, "a date"),
    ("2026-05-01", "date", 10, "a dot"),
    ("1 day, 0:00:00", "timedelta", 14, "a dot"),
    ("0:30..1:00, 1 day..2:00", "timedelta", 12, OF_LENGTHS),
    ("0:30..1 day, 1:75", "timedelta", 6, OF_LENGTHS),
    ("0:30..1:00:00.1234567", "timedelta", 6, OF_LENGTHS),
    ("9223372036854 days, 0:00..", "timedelta", 0, OF_LENGTHS),
    ("106751992 days, 0:00..", "timedelta", 0, OF_LENGTHS),
    ("0:30..1:00,", "timedelta", 11, OF_LENGTHS),
    ("2026-05-01.2026-05-02", "date", 0, "a date"),
    ("2026-05-01..2026-05-02,", "date", 23, "a date"),
    ("2026-05-01..2026-05-02, x..", "date", 24, "a date"),
    ("..2026-05-02", "date", 0, "a date"),
    ("2026-5-1..", "date", 0, "a date"),
    ("2026-05-01T00:00..", "date", 0, "a date"),
    ("2026-05-01..", "datetime", 0, "a datetime without a time zone"),
    ("2026-05-01 09:00Z..", "datetime", 0, "a datetime without a time zone"),
    ("2026-05-01 09:00..", "datetime[UTC]", 0, "a datetime with a time zone"),
    ("2026-05-01 25:00..", "datetime", 0, "a datetime without a time zone"),
    ("0001-01-01 00:00+02:00..", "datetime[UTC]", 0, "a datetime with a time zone"),
    ("٢026-05-01..", "date", 0, "a date"),
    ("nan..", "float", 0, "a float"),
    ("0.5..1.5..2.5", "float", 5, "a float"),
    ("1_0.0..", "float", 0, "a float"),
    (" 0.5", "float", 4, "a dot"),
    ("10.0.0.256", FOUR, 0, "an IPv4Address"),
    ("10.0.0.0..10.0.0", FOUR, 10, "an IPv4Address"),
    ("10.0.0.1, 10.0.0.0/33", FOUR, 10, "a network"),
    ("10.0.0.1/8", FOUR, 0, "a network"),
    ("10.0.0.0/255.0.0.0/8", FOUR, 0, "a network"),
    ("10.0.0.1 - x", FOUR, 11, "an IPv4Address"),
    ("10.0.0.1-", FOUR, 9, "an IPv4Address"),
    ("::1", FOUR, 0, "an IPv4Address"),
    ("10.0.0.1", SIX, 0, "an IPv6Address"),
    ("fe80::1%eth0", SIX, 0, "an IPv6Address"),
    (",", FOUR, 0, "an IPv4Address"),
    ("0..5, x", "int", 6, "a number"),
    ("-1..5", "unsigned", 0, "a number from 0 to 2**64 - 1"),
]


class Texts(unittest.TestCase):
    def test_what_is_read(self):
        for text, kind, expected in READ:
            for call in (RangeSet, MutableRangeSet):
                with self.subTest(text=text, kind=kind):
                    found = call.parse(text, kind=kind)
                    self.assertEqual((list(found), found.kind, type(found)), (expected, RangeSet(kind=kind).kind, call))
                    self.assertEqual(call.parse(str(found), kind=kind), found)

    def test_what_is_refused(self):
        for text, kind, position, expected in REFUSED:
            with self.subTest(text=text, kind=kind), self.assertRaises(ParseError) as raised:
                RangeSet.parse(text, kind=kind)
            self.assertEqual((raised.exception.position, raised.exception.expected), (position, expected))
        for given, options in (
            ("a..b", {"kind": "ordered"}),
            ("1..2", {"kind": "number"}),
            ("1..2", {"kind": "int", "unsigned": True}),
            ("10.0.0.0/8", {"kind": FOUR, "unsigned": True}),
            (b"10.0.0.0/8", {"kind": FOUR}),
            (["10.0.0.0/8"], {"kind": FOUR}),
            (None, {"kind": "date"}),
        ):
            self.assertRaises(TypeError, RangeSet.parse, given, **options)

    @unittest.skipUnless(HAS_NUMPY, "numpy is missing")
    def test_times_of_numpy(self):
        for text, unit, expected in (
            ("2026-05-01..2026-05-04", "D", [("2026-05-01", "2026-05-04")]),
            ("2026-05-01..2026-05-01T10:00", "s", [("2026-05-01T00", "2026-05-01T10")]),
            ("2026-05-01 09:00:00.000000001..", "ns", [("2026-05-01T09:00:00.000000001", None)]),
            ("2026-05..2027", "M", [("2026-05", "2027-01")]),
        ):
            found = RangeSet.parse(text, kind=f"datetime64[{unit}]")
            pairs = [tuple(it and numpy.datetime64(it, unit) for it in pair) for pair in expected]
            self.assertEqual((list(found), RangeSet.parse(str(found), kind=found.kind)), (pairs, found))
        for text in ("now..", "today..", "NaT..", "2026-05-01T00:00:01..", "2026-05-01Z..", "2026-13-01.."):
            self.assertRaises(ParseError, RangeSet.parse, text, kind="datetime64[D]")

    def test_made_up_sets_are_read_back(self):
        some = random.Random(758)
        kinds = {
            "float": lambda: some.choice([some.random(), some.uniform(-1e300, 1e300), some.randrange(9) * 1.0, 5e-324]),
            "date": lambda: date.fromordinal(some.randint(1, 3652059)),
            "datetime": lambda: datetime(1, 1, 1)
            + timedelta(microseconds=some.choice([1, 10**6, 86400 * 10**6]) * some.randrange(10**6)),
            "datetime[UTC]": lambda: datetime(1970, 1, 1, tzinfo=UTC) + timedelta(microseconds=some.randrange(10**16)),
            "timedelta": lambda: timedelta(microseconds=some.choice([1, 10**6, 86400 * 10**6]) * some.randint(-(10**6), 10**6)),
            FOUR: lambda: IPv4Address(some.randrange(2**32)),
            SIX: lambda: IPv6Address(some.choice([2**16, 2**64, 2**128]) - 1 - some.randrange(2**16)),
        }
        for kind, element in kinds.items():
            for _ in range(100):
                ends = sorted({element() for _ in range(some.randrange(12))})
                made = RangeSet.from_boundaries(ends, kind=kind)
                parts = [str(made[i : i + 1]) for i in range(len(made))]
                some.shuffle(parts)
                for text in (str(made), ",".join(parts), " , ".join(parts)):
                    self.assertEqual(RangeSet.parse(text, kind=kind), made)


class OfAddresses(unittest.TestCase):
    def test_lists_of_texts(self):
        lines = ["10.0.0.0/8", " 10.0.0.0/9\n", "192.168.0.1", "192.168.0.4-192.168.0.9", "172.16.0.0..172.16.0.5"]
        expected = [
            IPv4Network("10.0.0.0/8"),
            IPv4Network("192.168.0.1"),
            (at("192.168.0.4"), at("192.168.0.10")),
            (at("172.16.0.0"), at("172.16.0.5")),
        ]
        made = RangeSet(expected)
        for given in (lines, tuple(lines), iter(lines), [*lines[:2], *expected], [made[:2], *lines]):
            for kind in (FOUR, IPv4Address):
                given = [*given]
                self.assertEqual(RangeSet(given, kind=kind), made)
        changing = MutableRangeSet(kind=FOUR)
        changing.update(lines[2:])
        self.assertEqual(changing, RangeSet(expected[1:]))
        self.assertEqual(RangeSet(made).union(["11.0.0.0/8"]).covered(), made.covered() + 2**24)
        self.assertEqual(RangeSet(["::/64", "1::"], kind=SIX), RangeSet([IPv6Network("::/64"), IPv6Network("1::")]))
        self.assertEqual(RangeSet.union_all([["10.0.0.0/9"], ["10.128.0.0/9"]], kind=FOUR), RangeSet([IPv4Network("10.0.0.0/8")]))

    def test_bad_texts(self):
        for given, kind, error in (
            (["10.0.0.0/8", "x"], FOUR, ParseError),
            (["::1"], FOUR, ParseError),
            (["10.0.0.0/8, 11.0.0.0/8"], FOUR, ParseError),
            (["10.0.0.0/8"], None, TypeError),
            (["2026-05-01..2026-05-02"], "date", TypeError),
            ("10.0.0.0/8", FOUR, TypeError),
            ([("10.0.0.0", "10.0.0.5")], FOUR, TypeError),
        ):
            with self.subTest(given=given, kind=kind):
                self.assertRaises(error, RangeSet, given, kind=kind)
        changing = MutableRangeSet(["10.0.0.0/8"], kind=FOUR)
        self.assertRaises(ParseError, changing.update, ["11.0.0.0/8", "x"])
        self.assertEqual(changing, RangeSet([IPv4Network("10.0.0.0/8")]))


if __name__ == "__main__":
    unittest.main()
