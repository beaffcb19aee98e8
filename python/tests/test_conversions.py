"""Sets of one kind made ones of another."""

import importlib.util
import random
import unittest
from datetime import date, datetime, timedelta, timezone
from ipaddress import IPv4Network
from math import inf

from range_sets import MutableRangeSet, RangeMap, RangeSet

FIRST, SECOND = date(2026, 5, 1), date(2026, 5, 4)
NOON = datetime(2026, 5, 1, 12)
HAS_NUMPY = importlib.util.find_spec("numpy") is not None
if HAS_NUMPY:
    import numpy


def midnight(day):
    return datetime(day.year, day.month, day.day)


class Conversions(unittest.TestCase):
    def check(self, rows):
        for source, given, kind, expected in rows:
            for made in (RangeSet(source, **given), MutableRangeSet(source, **given)):
                with self.subTest(source=source, kind=kind, type=type(made)):
                    before = list(made), made.kind
                    if isinstance(expected, tuple):
                        self.assertRaisesRegex(*expected, made.astype, kind)
                    else:
                        found = made.astype(kind)
                        self.assertEqual((list(found), found.kind, type(found)), (expected, self.name_of(kind), type(made)))
                        self.assertEqual(found.astype(made.kind), made)
                    self.assertEqual((list(made), made.kind), before)
            of_set = RangeSet(source, **given)
            before = RangeMap([(it, "a") for it in of_set], kind=of_set.kind)
            if isinstance(expected, tuple):
                self.assertRaisesRegex(*expected, before.astype, kind)
            else:
                after = before.astype(kind)
                self.assertEqual((list(after.items()), after.kind), ([(it, "a") for it in expected], self.name_of(kind)))
                self.assertEqual(after.astype(of_set.kind), before)

    @staticmethod
    def name_of(kind):
        return kind if isinstance(kind, str) else RangeSet(kind=kind).kind

    def test_numbers(self):
        beyond = OverflowError, "expected a number from"
        self.check(
            (
                ([(0, 10), (20, None)], {}, "unsigned", [(0, 10), (20, None)]),
                ([(0, 10), (20, None)], {}, "float", [(0.0, 10.0), (20.0, None)]),
                ([(0, 10), (20, None)], {}, float, [(0.0, 10.0), (20.0, None)]),
                ([(0, 10), (20, None)], {}, "int", [(0, 10), (20, None)]),
                ([(-1, 10)], {}, "unsigned", beyond),
                ([(None, 10)], {}, "unsigned", beyond),
                ([(0, 2**63)], {"unsigned": True}, "int", beyond),
                ([(0, 2**63 - 1)], {"unsigned": True}, int, [(0, 2**63 - 1)]),
                ([(2**64 - 1, None)], {"unsigned": True}, "float", (ValueError, "18446744073709551615 is no float")),
                ([(-(2**63), 2**53 + 1)], {}, "float", (ValueError, "9007199254740993 is no float")),
                ([(-(2**63), 2**53 + 2)], {}, "float", [(-(2.0**63), 2.0**53 + 2)]),
                ([(0.0, 2.5)], {}, "int", (ValueError, "2.5 is no whole number")),
                ([(-0.0, 2.0), (1e300, None)], {}, "int", beyond),
                ([(None, 2.0)], {}, "int", (ValueError, "-inf is no whole number")),
                ([(1.0, inf)], {}, "unsigned", (ValueError, "inf is no whole number")),
                ([(1.0, 2.0)], {}, "date", (TypeError, "elements of the kind float are none of the kind date")),
                ([(1, 2)], {}, "IPv4Address", (TypeError, "elements of the kind int are none of the kind IPv4Address")),
                ([(1, 2)], {}, "ordered", (TypeError, "none of the kind ordered")),
                ([IPv4Network("10.0.0.0/8")], {}, "int", (TypeError, "elements of the kind IPv4Address are none of the kind int")),
                ([("a", "b")], {}, "int", (TypeError, "elements of the kind ordered are none of the kind int")),
                ([(1, 2)], {}, None, (TypeError, "expected a kind, not None")),
                ([(1, 2)], {}, "number", (TypeError, "a kind is one of")),
            )
        )

    def test_maps(self):
        before = RangeMap([((FIRST, SECOND), "a"), ((SECOND, date(2026, 5, 9)), "b"), ((date(2026, 6, 1), None), "b")])
        after = before.astype("datetime")
        self.assertEqual((after[NOON], after.pop(midnight(SECOND))), ("a", "b"))
        after[NOON:] = "c"
        self.assertEqual([*after.items()], [((midnight(FIRST), NOON), "a"), ((NOON, None), "c")])
        self.assertRaisesRegex(ValueError, "whole D", after.astype, date)
        self.assertEqual(
            (len(before), RangeMap().astype("date").kind, RangeMap(kind="date").astype("datetime").kind), (3, "date", "datetime")
        )
        named = type("Named", (RangeMap,), {})([((0, 5), 1)])
        self.assertIs(type(named.astype(float)), type(named))

    def test_dates_and_times(self):
        zoned = [(NOON.replace(tzinfo=timezone.utc), None)]
        self.check(
            (
                (
                    [(FIRST, SECOND), (date(2026, 6, 1), None)],
                    {},
                    "datetime",
                    [(midnight(FIRST), midnight(SECOND)), (datetime(2026, 6, 1), None)],
                ),
                ([(midnight(FIRST), midnight(SECOND))], {}, date, [(FIRST, SECOND)]),
                ([(None, SECOND)], {}, datetime, [(datetime.min, midnight(SECOND))]),
                ([(midnight(FIRST), NOON)], {}, "date", (ValueError, "expected a time of whole D in 64 bits")),
                ([(NOON, None)], {}, "date", (ValueError, "expected a time of whole D in 64 bits")),
                ([(NOON, None)], {}, "datetime[UTC]", (TypeError, "elements of the kind datetime are none of the kind datetime.UTC.")),
                (zoned, {}, "datetime", (TypeError, "elements of the kind datetime.UTC. are none of the kind datetime")),
                ([(timedelta(1), None)], {}, "date", (TypeError, "elements of the kind timedelta are none of the kind date")),
                (zoned, {}, "datetime[UTC]", zoned),
            )
        )

    @unittest.skipUnless(HAS_NUMPY, "numpy is missing")
    def test_times_of_numpy(self):
        def at(text, unit):
            return numpy.datetime64(text, unit)

        day = [(at("2026-05-01", "D"), at("2026-05-04", "D"))]
        self.check(
            (
                ([(FIRST, SECOND)], {}, "datetime64[ns]", [(at("2026-05-01", "ns"), at("2026-05-04", "ns"))]),
                ([(FIRST, None)], {}, "datetime64[M]", [(at("2026-05", "M"), None)]),
                ([(FIRST, SECOND)], {}, "datetime64[M]", (ValueError, "a time of whole M in 64 bits")),
                ([(NOON, None)], {}, "datetime64[h]", [(at("2026-05-01T12", "h"), None)]),
                ([(NOON, None)], {}, "datetime64[D]", (ValueError, "a time of whole D in 64 bits")),
                ([(date.min, None)], {}, "datetime64[ns]", (ValueError, "a time of whole ns in 64 bits")),
                (day, {}, "date", [(FIRST, SECOND)]),
                (day, {}, "datetime", [(midnight(FIRST), midnight(SECOND))]),
                (day, {}, "datetime64[7s]", (ValueError, "a time of whole 7s in 64 bits")),
                (day, {}, "datetime64[12h]", [(at("2026-05-01", "12h"), at("2026-05-04", "12h"))]),
                ([(at("20000-01-01", "D"), None)], {}, "datetime", (OverflowError, "of the years 1 to 9999")),
                ([(at("20000-01-01", "D"), None)], {}, "date", (OverflowError, "expected a date")),
                ([(at("20000-01-01", "D"), None)], {}, "datetime64[ns]", (ValueError, "a time of whole ns in 64 bits")),
                ([(at(1, "ns"), None)], {}, "datetime", (ValueError, "a time of whole us in 64 bits")),
                ([(None, at(1, "s"))], {}, "datetime64[ms]", (ValueError, "a time of whole ms in 64 bits")),
                (day, {}, "datetime[UTC]", (TypeError, "none of the kind datetime.UTC.")),
            )
        )

    def test_sets_of_times_are_sources_of_another_kind(self):
        days, times = RangeSet([(FIRST, SECOND)]), RangeSet([(midnight(FIRST), midnight(SECOND))])
        self.assertEqual(RangeSet(days, kind="datetime"), times)
        self.assertEqual(
            RangeSet([days, (NOON, datetime(2026, 5, 9))], kind=datetime), times.insert(midnight(SECOND), datetime(2026, 5, 9))
        )
        self.assertEqual(RangeSet.union_all([days, times], kind="date"), days)
        self.assertEqual(MutableRangeSet.intersection_all([days, times], kind="datetime"), times)
        hint = r"; RangeSet\(s, kind='datetime'\) makes such a set of the other$"
        for call in (lambda: days | times, lambda: times & days, lambda: RangeSet([days, times])):
            self.assertRaisesRegex(TypeError, hint, call)
        # Elements and numbers are taken as they are.
        for call in (
            lambda: RangeSet([(FIRST, SECOND)], kind="datetime"),
            lambda: RangeSet([(NOON, None)], kind="date"),
            lambda: RangeSet(RangeSet([(0, 5)]), kind="float"),
            lambda: RangeSet(RangeSet([(0, 5)]), unsigned=True),
            lambda: RangeSet(times, kind="datetime[UTC]"),
            lambda: RangeMap([(days, "a"), (times, "b")]),
        ):
            self.assertRaises(TypeError, call)

    def test_a_set_of_no_kind_is_one_of_each(self):
        for kind in ("date", "float", "IPv4Address", "ordered"):
            found = RangeSet().astype(kind)
            self.assertEqual((found, found.kind), (RangeSet(kind=kind), kind))
        self.assertRaises(TypeError, RangeSet(kind="date").astype, "float")

    def test_made_up_sets(self):
        """An element of one kind is a member as that of the other is."""
        some = random.Random(754)
        kinds = ["date", "datetime"] + ["datetime64[D]", "datetime64[s]", "datetime64[ns]"] * HAS_NUMPY
        for _ in range(300):
            days = sorted(some.sample(range(700_000, 760_000), some.randrange(9)))
            made = RangeSet.from_boundaries([*map(date.fromordinal, days)], kind="date")
            many = [made.astype(kind) for kind in kinds]
            asked = [date.fromordinal(it + some.randrange(-1, 2)) for it in days]
            expected = [it in made for it in asked]
            for it, kind in zip(many, kinds):
                self.assertEqual((it.kind, [part.astype("date") for part in (it, it.astype(some.choice(kinds)))]), (kind, [made, made]))
                self.assertEqual([element in it.astype("datetime") for element in map(midnight, asked)], expected)
                complement = made.gaps(date(1900, 1, 1), date(2200, 1, 1)).astype(kind)
                self.assertEqual(
                    (complement & it, (complement | it).astype("date")), (RangeSet(kind=kind), made | complement.astype("date"))
                )
            numbers = RangeSet.from_boundaries(days)
            self.assertEqual([numbers.astype(kind).astype("int") for kind in ("float", "unsigned", "int")], [numbers] * 3)


if __name__ == "__main__":
    unittest.main()
