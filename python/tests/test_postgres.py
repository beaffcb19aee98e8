"""Multiranges of PostgreSQL as texts, and as psycopg has them; with_postgres.py asks a server."""

import unittest
from collections import UserList
from datetime import date, datetime, timedelta, timezone
from types import SimpleNamespace

from range_sets import MutableRangeSet, ParseError, RangeMap, RangeSet

DAY = date(2026, 5, 1)
NINE, TEN = datetime(2026, 5, 1, 9), datetime(2026, 5, 1, 10)
LEAST, MOST = -(2**63), 2**63 - 1


def in_utc(time):
    return time.replace(tzinfo=timezone.utc)


# A text, the kind that is given, the ranges of its set, and how the set is written.
TEXTS = [
    ("{}", None, [], "{}"),
    ("{}", "date", [], "{}"),
    ("{[0,10),[20,)}", None, [(0, 10), (20, None)], "{[0,10),[20,)}"),
    ("{(,5]}", None, [(None, 6)], "{(,6)}"),
    ("{(0,10]}", None, [(1, 11)], "{[1,11)}"),
    ("{(,)}", None, [(None, None)], "{(,)}"),
    ("{(,)}", "date", [(None, None)], "{(,)}"),
    ("[3,5)", None, [(3, 5)], "{[3,5)}"),
    ("empty", None, [], "{}"),
    (" { [ 1 , 5 ) , EMPTY,(7,9] } ", None, [(1, 5), (8, 10)], "{[1,5),[8,10)}"),
    ("{[7,9),[1,5),[4,8)}", None, [(1, 9)], "{[1,9)}"),
    ("{(3,4),[5,5),[9,7)}", None, [], "{}"),
    (f"{{[{LEAST},3),[{MOST - 1},{MOST})}}", None, [(LEAST, 3), (MOST - 1, MOST)], f"{{(,3),[{MOST - 1},{MOST})}}"),
    ("{[2026-05-01,2026-05-04]}", None, [(DAY, date(2026, 5, 5))], "{[2026-05-01,2026-05-05)}"),
    ("{(,2026-05-01),(2026-05-03,)}", None, [(None, DAY), (date(2026, 5, 4), None)], "{(,2026-05-01),[2026-05-04,)}"),
    ("{[2026-05-01,10000-01-01)}", None, [(DAY, None)], "{[2026-05-01,)}"),
    ("{(,10000-01-01)}", None, [(date.min, None)], "{(,)}"),
    ("{[2026-05-01,9999-12-31]}", "date", [(DAY, None)], "{[2026-05-01,)}"),
    ("{[2026-05-01,9999-12-31)}", None, [(DAY, date.max)], "{[2026-05-01,9999-12-31)}"),
    ('{["2026-05-01 09:00:00","2026-05-01 10:00:00")}', None, [(NINE, TEN)], '{["2026-05-01 09:00:00","2026-05-01 10:00:00")}'),
    ("{[2026-05-01 09:00:00,2026-05-01T10:00:00)}", "datetime", [(NINE, TEN)], '{["2026-05-01 09:00:00","2026-05-01 10:00:00")}'),
    ('{["2026-05-01 09:00:00.5",)}', None, [(NINE + timedelta(seconds=0.5), None)], '{["2026-05-01 09:00:00.500000",)}'),
    (
        '{["2026-05-01 11:00:00+02","2026-05-01 15:30:00+05:30")}',
        None,
        [(in_utc(NINE), in_utc(TEN))],
        '{["2026-05-01 09:00:00+00:00","2026-05-01 10:00:00+00:00")}',
    ),
]

# A text that is refused, the kind that is given, where, and what is wanted there.
REFUSED = [
    ("", None, 0, "a range"),
    ("{", None, 1, "a range"),
    ("{[0,10)", None, 7, "a comma or a brace"),
    ("{[3,5),}", None, 7, "a range"),
    ("{[3,5) [7,9)}", None, 7, "a comma or a brace"),
    ("[3,5", None, 0, "a range"),
    ("[1,2)x", None, 5, "the end"),
    ("[1,2),[3,4)", None, 5, "the end"),
    ("{x}", None, 1, "a range"),
    ("{[a,b)}", None, 2, "a number, a date or a time"),
    ("{[0.5,1.5)}", None, 2, "a number, a date or a time"),
    ('{["",5)}', None, 2, "a number, a date or a time"),
    ("{[ ,5)}", None, 2, "a number, a date or a time"),
    ("{[1,2026-05-01)}", None, 4, "a number from -2**63 to 2**63 - 1"),
    ("{[1,9223372036854775808)}", None, 4, "a number from -2**63 to 2**63 - 1"),
    ("{[2026-02-30,)}", None, 2, "a date"),
    ("{[2026-05-01,infinity)}", None, 13, "a date"),
    ("{[10000-01-01,)}", "date", 2, "a date"),
    ("{[2026-05-01,10000-01-01]}", None, 13, "a date"),
    ("{[2026-05-01,10000-01-02)}", None, 13, "a date"),
    ("{[5,10000-01-01)}", None, 4, "a number from -2**63 to 2**63 - 1"),
    ("{[5,)}", "date", 2, "a date"),
    ('{["2026-05-01 09:00:00+00",)}', "datetime", 2, "a datetime without a time zone"),
    ('{["2026-05-01 09:00:00",)}', "datetime[UTC]", 2, "a datetime with a time zone"),
    ('{["0001-01-01 00:00:00+02",)}', None, 2, "a datetime with a time zone"),
]


def of_psycopg(lower, upper, bounds="[)"):
    """A range as psycopg has it."""
    return SimpleNamespace(lower=lower, upper=upper, lower_inc=bounds[0] == "[", upper_inc=bounds[1] == "]", isempty=False)


EMPTY = SimpleNamespace(lower=None, upper=None, lower_inc=False, upper_inc=False, isempty=True)


class Texts(unittest.TestCase):
    def test_texts(self):
        for text, kind, ranges, written in TEXTS:
            for call in (RangeSet, MutableRangeSet):
                with self.subTest(text=text, kind=kind):
                    made = call.from_multirange(text, kind=kind)
                    self.assertEqual((type(made), made), (call, call(ranges, kind=kind)))
                    self.assertEqual(made.to_multirange(), written)
                    self.assertEqual(call.from_multirange(written, kind=made.kind), made)

    def test_refused_texts(self):
        for text, kind, position, expected in REFUSED:
            with self.subTest(text=text, kind=kind), self.assertRaises(ParseError) as raised:
                RangeSet.from_multirange(text, kind=kind)
            self.assertEqual((raised.exception.position, raised.exception.expected), (position, expected))

    def test_what_has_no_next_element(self):
        for text in ('{("2026-05-01 09:00:00",)}', '{[,"2026-05-01 09:00:00"]}', '["2026-05-01 09:00:00+00","2026-05-01 10:00:00+00"]'):
            with self.assertRaisesRegex(ValueError, "expected a range with its start and without its end"):
                RangeSet.from_multirange(text)
        self.assertRaises(OverflowError, RangeSet.from_multirange, f"{{[0,{MOST}]}}")

    def test_kinds_that_the_server_has_not(self):
        for kind in ("float", "unsigned", "timedelta", "IPv4Address"):
            for call in (lambda: RangeSet.from_multirange("{}", kind=kind), lambda: RangeSet(kind=kind).to_multirange()):
                self.assertRaisesRegex(TypeError, f"multiranges are of the kinds int, date, .*, and not {kind}", call)
        self.assertRaisesRegex(TypeError, "expected a text, not bytes", RangeSet.from_multirange, b"{}")


class Psycopg(unittest.TestCase):
    def test_its_ranges(self):
        rows = [
            ([], []),
            ([EMPTY], []),
            ([of_psycopg(0, 10), of_psycopg(20, None)], [(0, 10), (20, None)]),
            ([of_psycopg(None, 5, "(]")], [(None, 6)]),
            ([of_psycopg(0, 10, "(]"), EMPTY], [(1, 11)]),
            ([of_psycopg(DAY, date(2026, 5, 4), "[]")], [(DAY, date(2026, 5, 5))]),
            ([of_psycopg(DAY, date.max, "[]")], [(DAY, None)]),
            ([of_psycopg(NINE, TEN)], [(NINE, TEN)]),
            ([of_psycopg(in_utc(NINE), None)], [(in_utc(NINE), None)]),
        ]
        for given, ranges in rows:
            self.assertEqual(RangeSet(UserList(given)), RangeSet(ranges))
            self.assertEqual(RangeSet.union_all(given), RangeSet(ranges))
        self.assertEqual((RangeSet(EMPTY), RangeSet(of_psycopg(3, 5, "[]"))), (RangeSet(), RangeSet([(3, 6)])))
        made = MutableRangeSet([(0, 10)])
        made.discard(of_psycopg(3, 5))
        self.assertEqual((list(made), made.covers(of_psycopg(5, 9, "[]"))), ([(0, 3), (5, 10)], True))
        self.assertEqual(RangeMap.depth([of_psycopg(0, 5), UserList([of_psycopg(3, 9)])]).find(2), RangeSet([(3, 5)]))

    def test_what_is_refused(self):
        for given in (of_psycopg(NINE, TEN, "[]"), of_psycopg(NINE, None, "()")):
            with self.assertRaisesRegex(ValueError, "expected a range with its start and without its end"):
                RangeSet([given])
        self.assertRaisesRegex(ValueError, "a range that isn't empty", MutableRangeSet().add, EMPTY)
        self.assertRaises(TypeError, RangeSet, of_psycopg("a", 5))


if __name__ == "__main__":
    unittest.main()
