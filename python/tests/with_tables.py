"""Sets and maps as arrays, tables, intervals and masks, and made of these."""

import random
import unittest
from datetime import date, datetime, timedelta, timezone
from ipaddress import IPv4Address, IPv6Address
from unittest import mock
from zoneinfo import ZoneInfo

import numpy
import pandas

from range_sets import MutableRangeSet, RangeMap, RangeSet
from range_sets._sources import codes_of_range

LEAST, MOST = -(2**63), 2**63 - 1
UTC, HOUR, NOON = timezone.utc, timedelta(hours=1), datetime(2026, 5, 4, 12)
# Elements of each kind in order.
ELEMENTS = {
    "int": [-5, 0, 3, 8, 20, 21],
    "unsigned": [0, 3, 8, 2**63, 2**63 + 5, 2**64 - 2],
    "float": [-1.5, 0.0, 0.25, 3.0, 1e10, 1e300],
    "datetime": [NOON + it * HOUR for it in range(6)],
    "datetime[UTC]": [(NOON + it * HOUR).replace(tzinfo=UTC) for it in range(6)],
    "date": [date(2026, 5, it) for it in range(1, 7)],
    "timedelta": [it * HOUR for it in range(6)],
    "IPv4Address": [IPv4Address(it) for it in (0, 1, 5, 9, 2**31, 2**32 - 1)],
    "IPv6Address": [IPv6Address(it) for it in (0, 1, 5, 9, 2**64, 2**128 - 1)],
    "ordered": ["a", "b", "c", "d", "e", "f"],
    "datetime64[ns]": [numpy.datetime64(it, "ns") for it in range(0, 60, 10)],
    "datetime64[s]": [numpy.datetime64(it, "s") for it in range(0, 60, 10)],
}
# What pandas has no type of, and so keeps as Python's objects.
OBJECTS = "date", "IPv4Address", "IPv6Address", "ordered"


def read_back(kind):
    """The kind of a set that is made of a frame of a set: pandas has times without a zone as numpy's."""
    return {"datetime": "datetime64[ns]", "datetime64[s]": "datetime64[ns]"}.get(kind, kind)


class OfSets(unittest.TestCase):
    def each(self):
        for kind, elements in ELEMENTS.items():
            for pairs in ([], [(0, 1)], [(0, 2), (3, 4)], [(1, 2), (4, None)], [(2, None)]):
                given = [(elements[start], None if end is None else elements[end]) for start, end in pairs]
                for made in (RangeSet(given, kind=kind), MutableRangeSet(given, kind=kind)):
                    with self.subTest(kind=kind, pairs=pairs, type=type(made)):
                        yield kind, given, made

    def test_two_arrays(self):
        for kind, pairs, made in self.each():
            if pairs and pairs[-1][1] is None:
                self.assertRaisesRegex(ValueError, "expected an end of each range, and there is none from", made.to_arrays)
                continue
            starts, ends = made.to_arrays()
            boundaries = numpy.asarray(made)
            self.assertEqual(([*starts], [*ends], starts.dtype), ([*boundaries[::2]], [*boundaries[1::2]], boundaries.dtype))
            self.assertTrue(all(it.flags.c_contiguous and it.flags.owndata and it.flags.writeable for it in (starts, ends)))
            if kind != "IPv4Address":
                again = type(made).from_arrays(starts, ends, kind=kind)
                self.assertEqual((again, again.kind, type(again)), (made, kind, type(made)))

    def test_frames(self):
        for kind, pairs, made in self.each():
            frame = made.to_frame()
            self.assertEqual(([*frame.columns], len(frame), [*frame.index]), (["start", "end"], len(pairs), [*range(len(pairs))]))
            self.assertEqual(frame["start"].dtype == object, kind in OBJECTS)
            is_open = bool(pairs) and pairs[-1][1] is None
            self.assertEqual(frame["end"].dtype == object, kind in OBJECTS or is_open)
            self.assertEqual(frame["end"].isna().tolist(), [end is None for _, end in pairs])
            if pairs:
                again = RangeSet(frame, unsigned=True if kind == "unsigned" else None)
                self.assertEqual((again.astype(kind) if read_back(kind) != kind else again, again.kind), (made, read_back(kind)))
            if kind == "datetime[UTC]" and pairs:
                self.assertEqual(str(frame["start"].dt.tz), "UTC")

    def test_intervals(self):
        for kind, pairs, made in self.each():
            if pairs and pairs[-1][1] is None and kind not in OBJECTS[1:]:
                self.assertRaises(ValueError, made.intervals)
            elif kind in OBJECTS[1:]:
                self.assertRaisesRegex(TypeError, "pandas has no intervals of", made.intervals)
            else:
                found = made.intervals()
                self.assertEqual((type(found), found.closed, len(found)), (pandas.IntervalIndex, "left", len(pairs)))
                if pairs:
                    again = RangeSet(found)
                    wanted = "datetime64[ns]" if kind == "date" else read_back(kind)
                    self.assertEqual((again.astype(kind) if wanted != kind else again, again.kind), (made, wanted))

    def test_two_columns(self):
        starts, ends = [20, 0, 3, 9], [30, 5, 8, 2]
        expected = [(0, 8), (20, 30)]
        for dtype in ("i8", "i4", "u8", "u1", "f8", ">i8", object):
            columns = [numpy.array(it, dtype=dtype) for it in (starts, ends)]
            for given in (columns, [*map(pandas.Series, columns)], [pandas.Series(it, index=[7, 5, 3, 1]) for it in columns]):
                if dtype == ">i8" and given is not columns:
                    continue
                found = RangeSet.from_arrays(*given)
                kind = {"u": "unsigned", "f": "float"}.get(columns[0].dtype.kind, "int")
                self.assertEqual((list(found), found.kind), (expected, kind))
        for given in ((starts, ends), (tuple(starts), numpy.array(ends)), (numpy.array(starts, "u8"), numpy.array(ends, "i8"))):
            self.assertEqual(RangeSet.from_arrays(*given), RangeSet(expected))
        nullable = [pandas.array(it, dtype="Int64") for it in (starts, ends)]
        self.assertEqual(RangeSet.from_arrays(*nullable), RangeSet(expected))
        self.assertEqual(RangeSet.from_arrays([], []), RangeSet())
        self.assertEqual(RangeSet.from_arrays(starts, [30, None, 8, 2]), RangeSet([(0, None)]))
        self.assertEqual(RangeSet.from_arrays(starts, ends, kind="float").kind, "float")
        self.assertEqual(RangeSet.from_arrays(starts, ends, unsigned=True).kind, "unsigned")
        self.assertEqual(list(MutableRangeSet.from_arrays(["a", "k"], ["c", None])), [("a", "c"), ("k", None)])
        for given, error in (
            (([1, 2], [3]), ValueError),
            ((numpy.arange(3), numpy.arange(2)), ValueError),
            ((numpy.array([1.0]), numpy.array([numpy.nan])), ValueError),
            ((pandas.array([1, None], dtype="Int64"), pandas.array([3, 4], dtype="Int64")), TypeError),
            ((numpy.ma.array([1], mask=[True]), numpy.array([3])), TypeError),
            ((pandas.to_datetime(["2026-05-01"]), pandas.to_datetime([None])), ValueError),
            (([1], ["a"]), TypeError),
            ((numpy.array([1]), numpy.array([2.5])), TypeError),
            ((5, 7), TypeError),
        ):
            with self.subTest(given=given):
                self.assertRaises(error, RangeSet.from_arrays, *given)

    def test_columns_of_times(self):
        starts = pandas.Series(pandas.to_datetime(["2026-05-01 09:00", "2026-05-02 12:00"]))
        for zone in (None, "Europe/Berlin", "UTC"):
            columns = [it.dt.tz_localize(zone) for it in (starts, starts + 3 * HOUR)]
            found = RangeSet.from_arrays(*columns)
            self.assertEqual(found, RangeSet([*zip(*columns)]))
            self.assertEqual(found, RangeSet.from_arrays(*map(pandas.DatetimeIndex, columns)))
            self.assertEqual(found.kind, "datetime64[ns]" if zone is None else "datetime[UTC]")
        berlin, tokyo = (starts.dt.tz_localize(it) for it in ("Europe/Berlin", "Asia/Tokyo"))
        self.assertEqual(RangeSet.from_arrays(tokyo, berlin), RangeSet([*zip(tokyo, berlin)]))
        lengths = pandas.to_timedelta([1, 5], unit="h"), pandas.to_timedelta([2, 9], unit="h")
        made = RangeSet([(HOUR, 2 * HOUR), (5 * HOUR, 9 * HOUR)])
        frame = pandas.DataFrame({"start": lengths[0], "end": lengths[1]})
        intervals = pandas.IntervalIndex.from_arrays(*lengths, closed="left")
        for found in (RangeSet.from_arrays(*lengths), RangeSet(frame), RangeSet(intervals), RangeSet(frame, kind="timedelta")):
            self.assertEqual(found, made)
        self.assertEqual(made.contains(lengths[0]).tolist(), [True, True])
        self.assertEqual(made.contains(frame["end"]).tolist(), [False, False])
        self.assertEqual([*RangeSet.from_values(lengths[0]).members()], [HOUR, 5 * HOUR])
        finer, gone = pandas.to_timedelta([1, 3]), pandas.to_timedelta(["1h", None])
        for call in (lambda: RangeSet.from_arrays(finer, lengths[1]), lambda: made.contains(finer), lambda: RangeSet.from_values(finer)):
            self.assertRaisesRegex(ValueError, "expected microseconds, and .* has nanoseconds", call)
        self.assertRaisesRegex(ValueError, "NaT is in no order", RangeSet.from_arrays, gone, lengths[1])
        self.assertEqual(made.contains(gone).tolist(), [True, False])

    def test_no_loop_looks_at_plain_columns(self):
        starts = pandas.Series(numpy.arange(0, 100_000, 10))
        times = pandas.to_datetime(starts, unit="s")
        with mock.patch("range_sets._sources._gather_each", side_effect=AssertionError("one by one")):
            self.assertEqual(len(RangeSet.from_arrays(starts, starts + 5)), 10_000)
            self.assertEqual(len(RangeSet.from_arrays(times, times + pandas.Timedelta(seconds=5))), 10_000)


class Masks(unittest.TestCase):
    def test_rows(self):
        day = date(2026, 5, 1)
        for mask, given, expected in (
            ([], (), []),
            ([False], (), []),
            ([True], (), [(0, 1)]),
            ([False, True, True, False, True], (), [(1, 3), (4, 5)]),
            ([True, False, True], (-2,), [(-2, -1), (0, 1)]),
            ([True, True], (MOST - 1,), [(MOST - 1, None)]),
            ([True, False], (MOST,), [(MOST, None)]),
            ([True, True], (MOST,), OverflowError),
            ([False, True], (MOST,), OverflowError),
            ([True, True, False], (LEAST,), [(LEAST, LEAST + 2)]),
            ([False, True], (day,), [(date(2026, 5, 2), date(2026, 5, 3))]),
            ([True, True], (date(9999, 12, 30),), [(date(9999, 12, 30), None)]),
            ([True, True, True], (date(9999, 12, 30),), OverflowError),
            ([True], (IPv4Address("255.255.255.255"),), [(IPv4Address("255.255.255.255"), None)]),
            ([True, True], (timedelta(0),), [(timedelta(0), timedelta(microseconds=2))]),
            ([True], (0.5,), TypeError),
            ([True], ("a",), TypeError),
            ([True], (None,), TypeError),
            ([1, 0], (), TypeError),
            ([[True]], (), TypeError),
            (True, (), TypeError),
            (["a"], (), TypeError),
        ):
            with self.subTest(mask=mask, given=given):
                if isinstance(expected, type):
                    self.assertRaises(expected, RangeSet.from_mask, mask, *given)
                else:
                    for cls in (RangeSet, MutableRangeSet):
                        for form in (mask, numpy.array(mask, dtype=bool), pandas.Series(mask, dtype=bool)):
                            found = cls.from_mask(form, *given)
                            self.assertEqual((list(found), type(found)), (expected, cls))
                    kind = found.kind
                    if expected and expected[-1][1] is not None:
                        start = given[0] if given else 0
                        self.assertEqual(
                            found.to_mask(start, expected[-1][1]).tolist(), mask[: 1 + max(at for at, it in enumerate(mask) if it)]
                        )
                        self.assertEqual(found.kind, kind)
        unsigned = RangeSet.from_mask([True, True], 2**64 - 2, unsigned=True)
        self.assertEqual((list(unsigned), unsigned.kind), ([(2**64 - 2, None)], "unsigned"))
        self.assertEqual(RangeSet.from_mask([True], kind="unsigned").kind, "unsigned")
        self.assertRaises(OverflowError, RangeSet.from_mask, [True], -1, unsigned=True)
        self.assertRaises(TypeError, RangeSet.from_mask, [True], 0, kind="date")

    def test_where_members_are(self):
        made = [(0, 10), (20, None)]
        for source, given, expected in (
            (made, (8, 12), [True, True, False, False]),
            (made, (-2, 2), [False, False, True, True]),
            (made, (20, 23), [True] * 3),
            (made, (12, 12), []),
            (made, (12, 8), []),
            (made, (MOST - 2, MOST), [True] * 2),
            ([(LEAST, LEAST + 1)], (LEAST, LEAST + 3), [True, False, False]),
            ([], (3, 6), [False] * 3),
            ([(date(2026, 5, 1), date(2026, 5, 3))], (date(2026, 4, 30), date(2026, 5, 4)), [False, True, True, False]),
            (made, (None, 5), TypeError),
            (made, (5, None), TypeError),
            (made, (0.5, 5), TypeError),
            (made, (0, 2**63), OverflowError),
            ([(0.5, 1.5)], (0.0, 1.0), TypeError),
            ([("a", "b")], ("a", "c"), TypeError),
        ):
            for cls in (RangeSet, MutableRangeSet):
                with self.subTest(source=source, given=given, type=cls):
                    if isinstance(expected, type):
                        self.assertRaises(expected, cls(source).to_mask, *given)
                    else:
                        found = cls(source).to_mask(*given)
                        self.assertEqual((found.tolist(), found.dtype), (expected, bool))
        self.assertEqual(RangeSet([(2**63, None)], unsigned=True).to_mask(2**63 - 1, 2**63 + 1).tolist(), [False, True])
        self.assertRaises((MemoryError, ValueError), RangeSet().to_mask, LEAST, MOST)

    def test_made_up_masks(self):
        some = numpy.random.default_rng(755)
        for _ in range(300):
            mask = some.random(some.integers(0, 60)) < some.choice([0.1, 0.5, 0.9])
            start = int(some.choice([0, -30, LEAST, MOST - 60, 10**12]))
            made = RangeSet.from_mask(mask, start)
            self.assertEqual([*made.members()], [start + int(at) for at in numpy.flatnonzero(mask)])
            if start + len(mask) <= MOST:
                self.assertTrue((made.to_mask(start, start + len(mask)) == mask).all())
            self.assertEqual(made, RangeSet.from_values([start + int(at) for at in numpy.flatnonzero(mask)]))


class OfMaps(unittest.TestCase):
    def test_made_up_tables(self):
        """As pairs of a range and a value make them, in each form."""
        some = random.Random(756)
        for kind, elements in ELEMENTS.items():
            for _ in range(60):
                rows = [
                    (*sorted(some.sample(range(6), 2), reverse=some.random() < 0.1), some.choice("abc")) for _ in range(some.randrange(9))
                ]
                starts, ends, values = ([*it] for it in zip(*rows)) if rows else ([], [], [])
                starts, ends = ([elements[at] for at in it] for it in (starts, ends))
                expected = RangeMap([*zip(zip(starts, ends), values)], kind=kind)
                made = [RangeMap.from_arrays(starts, ends, values, kind=kind)]
                if rows and kind not in OBJECTS:
                    dtype = {"datetime": "M8[us]", "timedelta": "m8[us]"}.get(kind, kind.split("[")[0] if "[UTC]" in kind else kind)
                    columns = [
                        pandas.Series(it, dtype=None if "datetime[" in kind else {"int": "i8", "unsigned": "u8"}.get(dtype))
                        for it in (starts, ends)
                    ]
                    frame = pandas.DataFrame({"from": columns[0], "to": columns[1], "what": values})
                    tables = [frame, frame.sample(frac=1, random_state=1).sort_index()]
                    if all(start <= end for start, end in zip(starts, ends)):
                        index = pandas.IntervalIndex.from_arrays(*columns, closed="left")
                        tables += [pandas.Series(values, index=index), [*zip(index, values)]]
                    for table in tables:
                        found = RangeMap(table, unsigned=True if kind == "unsigned" else None)
                        self.assertEqual(found.kind, read_back(kind) if found else found.kind)
                        made.append(found if read_back(kind) == kind else self.as_kind(found, kind))
                    arrays = [it.to_numpy() for it in columns]
                    if "UTC" not in kind and kind != "timedelta":
                        found = RangeMap.from_arrays(*arrays, numpy.array(values))
                        made.append(found if found.kind == kind else self.as_kind(found, kind))
                for found in made:
                    self.assertEqual((found, [*found.values()]), (expected, [*expected.values()]), (kind, rows))

    @staticmethod
    def as_kind(made, kind):
        if made.kind == kind:
            return made
        return RangeMap([(RangeSet([pair]).astype(kind), value) for pair, value in made.items()], kind=kind)

    def test_there_and_back(self):
        for kind, elements in ELEMENTS.items():
            for pairs in ([], [(0, 1)], [(0, 2), (2, 3), (4, 5)], [(1, 2), (4, None)]):
                given = [((elements[start], None if end is None else elements[end]), at) for at, (start, end) in enumerate(pairs)]
                made = RangeMap(given, kind=kind)
                with self.subTest(kind=kind, pairs=pairs):
                    frame = made.to_frame()
                    self.assertEqual([*frame.columns], ["start", "end", "value"])
                    self.assertEqual(frame["value"].tolist(), [*range(len(pairs))])
                    if not pairs:
                        continue
                    again = RangeMap(frame, unsigned=True if kind == "unsigned" else None)
                    self.assertEqual((self.as_kind(again, kind), again.kind), (made, read_back(kind)))
                    if pairs[-1][1] is None:
                        for call in (made.to_series, made.intervals):
                            self.assertRaises(ValueError if kind not in OBJECTS[1:] else TypeError, call)
                    elif kind in OBJECTS[1:]:
                        self.assertRaises(TypeError, made.to_series)
                    else:
                        series = made.to_series()
                        self.assertTrue(series.index.equals(made.intervals()))
                        again = RangeMap(series, unsigned=True if kind == "unsigned" else None)
                        self.assertEqual(self.as_kind(again, kind), made)
                        if kind == "datetime[UTC]":
                            self.assertEqual((str(series.index.left.tz), series[elements[0]]), ("UTC", 0))

    def test_values(self):
        """They are Python's own, where it has such, and keep what they are."""
        starts, ends = [0, 10], [5, 15]
        day = pandas.Timestamp("2026-05-01")
        for values, expected in (
            (numpy.array([1, 2]), [1, 2]),
            (numpy.array([0.5, 2.0]), [0.5, 2.0]),
            (numpy.array([True, False]), [True, False]),
            (numpy.array(["a", "b"]), ["a", "b"]),
            (pandas.Series([1, 2], index=[5, 7]), [1, 2]),
            (pandas.Series([day, day + HOUR]), [day, day + HOUR]),
            (pandas.Series(["a", "b"], dtype="category"), ["a", "b"]),
            (pandas.array([1, None], dtype="Int64"), [1, pandas.NA]),
            (
                numpy.array(["2026-05-01", "2026-05-02"], "M8[ns]"),
                [numpy.datetime64("2026-05-01", "ns"), numpy.datetime64("2026-05-02", "ns")],
            ),
            ([None, [1]], [None, [1]]),
            (iter("ab"), ["a", "b"]),
        ):
            made = RangeMap.from_arrays(starts, ends, values)
            found = [*made.values()]
            self.assertEqual([*map(type, found)], [*map(type, expected)])
            self.assertTrue(all(a is b or a == b for a, b in zip(found, expected)))
        rows = numpy.array([[1, 2], [3, 4]])
        made = RangeMap.from_arrays(starts, ends, rows)
        self.assertEqual([it.tolist() for it in made.values()], rows.tolist())
        mixed = RangeMap([((0, 5), 1), ((5, 7), None), ((7, 9), "a")]).to_frame()
        self.assertEqual(mixed["value"].tolist(), [1, None, "a"])

    def test_bad_input(self):
        frame = pandas.DataFrame({"start": [0, 5], "end": [3, 9], "value": ["a", "b"]})
        text = r"not a table: t\[\['start', 'end', 'value'\]\] has the range and the value of each row"
        for call, error, said in (
            (lambda: RangeMap(frame[["start", "end"]]), TypeError, text),
            (lambda: RangeMap(frame["start"]), TypeError, text),
            (lambda: RangeMap(frame[["value", "start", "end"]]), TypeError, ""),
            (lambda: RangeMap(frame, kind="date"), TypeError, ""),
            (lambda: RangeMap.from_arrays([0], [5], ["a", "b"]), ValueError, "as many values as starts, and there are 2 and 1"),
            (lambda: RangeMap.from_arrays([0, 1], [5], ["a", "b"]), ValueError, "as many starts as ends"),
            (lambda: RangeMap.from_arrays([0, 1], [5, 6], "ab"), TypeError, "expected values, as in a list, not a text"),
            (lambda: RangeMap.from_arrays([0], [5], 7), TypeError, "expected values"),
            (lambda: RangeMap(frame.astype({"start": "u8", "end": "u8"})), TypeError, r"RangeMap\(unsigned=True\) makes"),
            (lambda: RangeMap([((date(2026, 1, 1), None), "a")]).update(frame), TypeError, "kinds of elements don't mix"),
            (lambda: RangeMap(pandas.Series(["a"], index=pandas.IntervalIndex.from_arrays([0], [5]))), ValueError, "closed='left'"),
            (lambda: RangeMap([(pandas.Interval(0, 5), "a")]), ValueError, "closed='left'"),
        ):
            self.assertRaisesRegex(error, said, call)
        made = RangeMap([((0, 10), "low")])
        bad = frame.assign(start=pandas.to_datetime(["2026-05-01", None]), end=pandas.to_datetime(["2026-05-02", "2026-05-03"]))
        for given in (bad, frame.astype({"end": float})):
            self.assertRaises((TypeError, ValueError), made.update, given)
            self.assertEqual(made, RangeMap([((0, 10), "low")]))
        made.update(frame)
        self.assertEqual([*made.items()], [((0, 3), "a"), ((3, 5), "low"), ((5, 9), "b"), ((9, 10), "low")])
        self.assertEqual(RangeMap.from_arrays(numpy.array([5, 0]), numpy.array([LEAST, 3]), ["a", "b"]), RangeMap([((0, 3), "b")]))

    def test_subclasses(self):
        class Named(RangeMap):
            def __init__(self, name):
                super().__init__()
                self.name = name

        made = Named.from_arrays([0], [5], ["a"])
        self.assertEqual((type(made), [*made.items()]), (Named, [((0, 5), "a")]))

    def test_no_loop_looks_at_plain_columns(self):
        starts = numpy.arange(0, 100_000, 10)
        with mock.patch("range_sets._sources.codes_of_range", side_effect=AssertionError("one by one")):
            made = RangeMap.from_arrays(starts, starts + 5, starts)
        self.assertEqual((len(made), made[99_991], made[0]), (10_000, 99_990, 0))
        self.assertIsNotNone(codes_of_range)

    def test_values_of_many_keys(self):
        made = RangeMap([((0, 10), 1), ((20, None), 2)])
        for keys in ([5, 15, 25], numpy.array([5, 15, 25]), pandas.Series([5, 15, 25])):
            self.assertEqual((made.get(keys).tolist(), made.get(keys).dtype), ([1, None, 2], object))
            found = made.get(keys, 0, dtype="i4")
            self.assertEqual((found.tolist(), found.dtype), ([1, 0, 2], numpy.dtype("i4")))
            found = made.get(keys, dtype=float)
            self.assertEqual((found[0], bool(numpy.isnan(found[1]))), (1.0, True))
            self.assertRaises((TypeError, ValueError), made.get, keys, dtype=int)
            self.assertRaises((TypeError, ValueError), made.get, keys, "none", dtype=int)
        self.assertEqual((made.get([]).tolist(), RangeMap().get([1, 2]).tolist()), ([], [None, None]))
        self.assertRaisesRegex(TypeError, "expected a list or an array of keys", made.get, 5, dtype=int)
        self.assertRaises(TypeError, made.get, [1.5])
        at = [NOON.replace(tzinfo=ZoneInfo("Europe/Berlin")) + it * HOUR for it in range(3)]
        prices = RangeMap([((at[0], at[2]), 0.25), ((at[2], None), 0.5)])
        self.assertEqual(prices.get(at, dtype="f4").tolist(), [0.25, 0.25, 0.5])
        self.assertEqual(prices.get(pandas.Series(at), dtype="f4").tolist(), [0.25, 0.25, 0.5])
        words = RangeMap([(("a", "k"), "low")])
        self.assertEqual(words.get(["b", "z"], "none").tolist(), ["low", "none"])


if __name__ == "__main__":
    unittest.main()
