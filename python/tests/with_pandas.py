"""What data frames have as sets: two columns, and arrays of intervals."""

import random
import subprocess
import sys
import tempfile
import unittest
from collections import Counter
from datetime import date, datetime, timedelta, timezone
from ipaddress import IPv4Address, IPv6Address
from pathlib import Path
from unittest import mock
from zoneinfo import ZoneInfo

import numpy
import pandas

from range_sets import MutableRangeSet, RangeMap, RangeSet
from range_sets._times import Times


class Frames(unittest.TestCase):
    def setUp(self):
        self.frame = pandas.DataFrame({"name": ["a", "b", "c"], "start": [20, 0, 3], "other": [7, 7, 7], "end": [30, 5, 8]})

    def test_two_columns(self):
        for table in (
            self.frame[["start", "end"]],
            self.frame[["start", "end"]].astype("int32"),
            self.frame[["start", "end"]].sort_values("end"),
        ):
            for given in (table, table.to_numpy(), table.itertuples(index=False)):
                self.assertEqual(list(RangeSet(given)), [(0, 8), (20, 30)])
        with self.assertRaisesRegex(TypeError, "or a table with two columns"):
            RangeSet(self.frame[["start", "end", "other"]])
        with self.assertRaisesRegex(TypeError, "expected a table with two columns"):
            RangeSet(self.frame["start"])
        for names in (["start", "closed"], ["array", "end"], ["closed", "unit"]):
            named = self.frame[["start", "end"]].set_axis(names, axis=1)
            self.assertEqual(list(RangeSet(named)), [(0, 8), (20, 30)])

    def test_two_columns_apart(self):
        for rows in (2, 3):
            starts, ends = self.frame["start"][:rows], self.frame["end"][:rows]
            for given in ((starts, ends), (starts.to_numpy(), ends.to_numpy())):
                with self.assertRaisesRegex(TypeError, "zip\\(starts, ends\\) has the pairs"):
                    RangeSet(given)
                self.assertEqual(RangeSet(zip(*given)), RangeSet(self.frame[["start", "end"]][:rows]))

    def test_one_column(self):
        made = RangeSet.from_values(self.frame["start"].to_numpy())
        self.assertEqual(list(made), [(0, 1), (3, 4), (20, 21)])
        self.assertEqual(self.frame[made.contains(self.frame["end"] - 10)]["name"].tolist(), ["a"])

    def test_intervals(self):
        starts, ends = self.frame["start"], self.frame["end"]
        for kind in (pandas.arrays.IntervalArray, pandas.IntervalIndex):
            self.assertEqual(list(RangeSet(kind.from_arrays(starts, ends, closed="left"))), [(0, 8), (20, 30)])
            self.assertEqual(RangeSet(kind.from_arrays([], [], closed="left").astype("interval[int64, left]")), RangeSet())
            for closed in ("right", "both", "neither"):
                with self.assertRaises(ValueError) as raised:
                    RangeSet(kind.from_arrays(starts, ends, closed=closed))
                text = "expected intervals with their start and without their end, closed='left' and not"
                self.assertEqual(str(raised.exception), f"{text} {closed!r}")
        three, seven = pandas.Interval(3, 5, closed="left"), pandas.Interval(7, 9, closed="left")
        self.assertEqual(list(RangeSet(three)), [(3, 5)])
        for several in ([three, seven], pandas.Series([three, seven]), pandas.Series([three, seven]).astype(object)):
            self.assertEqual(list(RangeSet(several)), [(3, 5), (7, 9)])
        made = MutableRangeSet([seven])
        made.add(three)
        self.assertTrue(made.covers(three) and not made.covers(pandas.Interval(3, 6, closed="left")))
        names = RangeMap([((0, 10), "a")])
        names[three] = "b"
        del names[seven]
        self.assertEqual([*names.items()], [((0, 3), "a"), ((3, 5), "b"), ((5, 7), "a"), ((9, 10), "a")])
        self.assertEqual((names[pandas.Interval(4, 6, closed="left")], len(RangeMap()[three])), (names[4:6], 0))
        names.modify(three, str.upper)
        self.assertEqual((names[4], names.overlapping(three)), ("B", [((3, 5), "B")]))
        self.assertRaises(TypeError, names.__getitem__, pandas.IntervalIndex([three, seven]))
        for call in (
            lambda: RangeSet([pandas.Interval(3, 5)]),
            lambda: made.add(pandas.Interval(3, 5)),
            lambda: names[pandas.Interval(3, 5)],
            lambda: names.__delitem__(pandas.Interval(3, 5)),
        ):
            with self.assertRaisesRegex(ValueError, "closed='left' and not 'right'"):
                call()
        self.assertEqual(list(RangeSet(pandas.arrays.IntervalArray.from_arrays([0.5], [1.5], closed="left"))), [(0.5, 1.5)])

    def test_times(self):
        frame = pandas.DataFrame(
            {"start": pandas.to_datetime(["2026-05-01", "2026-05-03"]), "end": pandas.to_datetime(["2026-05-04", "2026-05-09"])}
        )
        made = RangeSet(frame[["start", "end"]].to_numpy())
        self.assertEqual((made.kind, str(made.covered()), len(made)), ("datetime64[ns]", "691200000000000 nanoseconds", 1))
        self.assertEqual(made, RangeSet(pandas.arrays.IntervalArray.from_arrays(frame["start"], frame["end"], closed="left")))
        self.assertEqual(made.contains(frame["end"]).tolist(), [True, False])
        zoned = frame.apply(lambda it: it.dt.tz_localize("Europe/Berlin"))
        for table in (zoned.to_numpy(), pandas.arrays.IntervalArray.from_arrays(zoned["start"], zoned["end"], closed="left")):
            aware = RangeSet(table)
            self.assertEqual((aware.kind, aware[0]), ("datetime[UTC]", (zoned["start"][0], zoned["end"][1])))
        summer = datetime(2026, 10, 25, 2, 30, tzinfo=ZoneInfo("Europe/Berlin"))
        twice = pandas.Timestamp(summer), pandas.Timestamp(summer.replace(fold=1))
        self.assertEqual(RangeSet([twice]).covered(), timedelta(hours=1), "a time that an autumn night has twice")
        self.assertEqual([*RangeSet.from_values(zoned["start"]).members()], list(zoned["start"]))
        self.assertEqual([*RangeSet.from_values(frame["start"]).members()], list(frame["start"]))
        self.assertEqual(RangeSet([(frame["start"].iloc[0], frame["end"].iloc[-1])]) - made, RangeSet(kind="datetime64[ns]"))
        self.check_timestamps(made, frame)
        self.assertEqual(RangeSet([(pandas.Timestamp(1), None)]).span(), (numpy.datetime64(1, "ns"), None))
        for value, kind in ((pandas.Timestamp(1), "datetime"), (pandas.Timedelta(1), None), (pandas.Timestamp(1, tz="UTC"), None)):
            with self.assertRaisesRegex(ValueError, "expected microseconds"):
                RangeSet([(value, None)], kind=kind)
        for pair in ((pandas.NaT, None), (frame["start"][0], pandas.NaT), (date(2026, 5, 1), pandas.NaT), (timedelta(1), pandas.NaT)):
            with self.assertRaisesRegex(ValueError, "NaT is in no order"):
                RangeSet([pair])

    def test_columns_with_a_time_zone(self):
        some, hour = random.Random(7), 3_600_000_000_000
        for zone in ("UTC", "Europe/Berlin", "America/New_York"):
            starts = [some.randrange(-(10**4), 10**5) * hour + some.randrange(10**6) * 1000 for _ in range(200)]
            zoned = pandas.DataFrame(
                {
                    "start": pandas.to_datetime(starts, utc=True).tz_convert(zone),
                    "end": pandas.to_datetime([it + some.randrange(-5, 50) * hour for it in starts], utc=True).tz_convert("Asia/Tokyo"),
                }
            )
            one_by_one = RangeSet([*zip(zoned["start"], zoned["end"])])
            intervals = pandas.arrays.IntervalArray.from_arrays(zoned["start"], zoned["start"] + pandas.Timedelta(hours=3), closed="left")
            with mock.patch.object(Times, "code", side_effect=AssertionError("one by one")):
                made, also = RangeSet(zoned), RangeSet(zoned, kind="datetime[UTC]")
                of_intervals = RangeSet(intervals), RangeSet(pandas.Series(intervals)), RangeSet(pandas.IntervalIndex(intervals))
                values = RangeSet.from_values(zoned["start"])
                found = [made.contains(it).tolist() for it in (zoned["start"], zoned["start"].array, pandas.DatetimeIndex(zoned["end"]))]
            self.assertEqual((made, also, made.kind, list(made)), (one_by_one, one_by_one, "datetime[UTC]", list(one_by_one)))
            self.assertEqual({*of_intervals}, {RangeSet([*intervals])})
            self.assertEqual(values, RangeSet.from_values([*zoned["start"]]))
            self.assertEqual(found[0], found[1])
            self.assertEqual(found[1:], [[it in made for it in zoned["start"]], [it in made for it in zoned["end"]]])
        for asked in (zoned["start"], zoned["start"].array, zoned["end"] + pandas.Timedelta(days=900)):
            starts, ends = made.range_at(asked)
            found = [it and (it[0], it[1]) for it in map(made.range_at, asked)]
            self.assertEqual([None if start is None else (start, end) for start, end in zip(starts.tolist(), ends.tolist())], found)
            self.assertTrue(all(it is None or it[0].tzinfo is timezone.utc for it in found))
        first = zoned["start"].min()
        self.assertEqual([it.tolist() for it in RangeSet([(first, None)]).range_at(zoned["start"][:1])], [[first], [None]])
        other = pandas.arrays.IntervalArray.from_arrays(zoned["start"][:0], zoned["start"][:0], closed="right")
        self.assertEqual(RangeSet(pandas.Series(other)), RangeSet())
        self.assertEqual((RangeSet(zoned[:0]).kind, RangeSet.from_values(zoned["start"][:0]).kind), (None, None))
        self.assertEqual(made.contains(zoned["start"][:0]).tolist(), [])
        for call in (
            lambda: RangeSet(zoned, kind="datetime"),
            lambda: RangeSet([(zoned["start"][0].tz_localize(None), None)]).contains(zoned["start"]),
            lambda: RangeSet(zoned.assign(end=zoned["end"].dt.tz_localize(None))),
            lambda: RangeSet([(0, 5)]).contains(zoned["start"]),
        ):
            self.assertRaises(TypeError, call)
        finer = zoned.assign(end=zoned["end"] + pandas.Timedelta(nanoseconds=1))
        for call in (lambda: RangeSet(finer), lambda: made.contains(finer["end"]), lambda: RangeSet.from_values(finer["end"])):
            with self.assertRaisesRegex(ValueError, "expected microseconds"):
                call()

    def test_rows_without_an_end(self):
        naive = pandas.DataFrame(
            {"start": pandas.to_datetime(["2026-05-01", "2026-05-03"]), "end": pandas.to_datetime(["2026-05-04", None])}
        )
        for frame in (naive, naive.apply(lambda it: it.dt.tz_localize("Europe/Berlin"))):
            with self.assertRaisesRegex(ValueError, "NaT is in no order.* in row 1, counted from 0; an end None says that there is none"):
                RangeSet(frame)
            made = RangeSet(frame.dropna()).insert(frame["start"][1], None)
            self.assertEqual((len(made), made[0][1], made.range_at(frame["start"][1])), (1, None, made[0]))
            with self.assertRaisesRegex(ValueError, "NaT is in no order.* it stands at 1, counted from 0"):
                RangeSet.from_values(frame["end"])
            self.assertEqual(made.contains(frame["end"]).tolist(), [True, False])

    def test_kinds_that_meet(self):
        frame = pandas.DataFrame({"start": pandas.to_datetime(["2026-05-01"]), "end": pandas.to_datetime(["2026-05-04"])})
        pair = frame["start"][0], frame["end"][0]
        made, of_frame = RangeSet([pair], kind="datetime"), RangeSet(frame)
        self.assertEqual(RangeSet([pair]), of_frame)
        self.assertRaisesRegex(TypeError, "kind='datetime64.s.'", lambda: of_frame | RangeSet([pair], kind="datetime64[s]"))
        for call in (lambda: made | of_frame, lambda: of_frame | made):
            self.assertRaisesRegex(TypeError, r"; RangeSet\(s, kind='datetime64.ns.'\) makes such a set of the other$", call)
        seconds = RangeSet(made, kind="datetime64[s]")
        for other in (made, seconds, of_frame):
            self.assertEqual(RangeSet(other, kind="datetime64[ns]"), of_frame)
            self.assertEqual(RangeSet.union_all([other, of_frame], kind="datetime64[ns]"), of_frame)
        for other in (RangeSet([(datetime(2026, 5, 2, microsecond=1), None)]), RangeSet([(pandas.Timestamp(1), None)])):
            self.assertRaisesRegex(ValueError, "a time of whole s in 64 bits", RangeSet, other, kind="datetime64[s]")
        self.assertRaisesRegex(
            ValueError, "a time of whole ns in 64 bits", RangeSet, RangeSet([(datetime.min, None)]), kind="datetime64[ns]"
        )
        hint = "; with kind='datetime64.ns.' pandas' Timestamps make such a set$"
        for call in (lambda: made.contains(frame["start"].to_numpy()), lambda: RangeSet(frame, kind="datetime")):
            with self.assertRaisesRegex(TypeError, hint):
                call()
        self.check_columns_of_another_unit(made, seconds)
        self.assertEqual(RangeSet([pair], kind="datetime64[ns]") | of_frame, of_frame)
        intervals = pandas.arrays.IntervalArray.from_arrays(frame["start"], frame["end"], closed="left")
        for given in (intervals, pandas.IntervalIndex(intervals), pandas.Series(intervals), pandas.Series(intervals).astype(object)):
            self.assertEqual(RangeSet(given), of_frame)
        naive = RangeMap({pair: "a"})
        self.assertEqual((naive.kind, naive[of_frame], naive.get(frame["start"]).tolist()), ("datetime64[ns]", naive, ["a"]))

    def check_columns_of_another_unit(self, *sets):
        """Each has its answer as `in` has of one of its Timestamps."""
        times = pandas.to_datetime(["2026-05-01", "2026-05-03 23:59:59", "2026-05-04", None, "1677-09-22", "2262-04-11"])
        finer = pandas.Series([*times, pandas.Timestamp(1)])
        for made in (*sets, RangeSet(kind="datetime"), ~RangeSet(kind="datetime64[s]")):
            expected = [it is not pandas.NaT and it in made for it in times]
            pairs = [made.range_at(it) if it is not pandas.NaT else None for it in times]
            for column in (times, pandas.Series(times), times.array):
                self.assertEqual(made.contains(column).tolist(), expected)
                self.assertEqual(made.overlaps(column, column + pandas.Timedelta(hours=1)).shape, (6,))
                starts, _ = made.range_at(column)
                self.assertEqual([*~starts.mask], [it is not None for it in pairs])
                names = RangeMap([(it, "a") for it in made], kind=made.kind)
                self.assertEqual(names.get(column, "").tolist(), ["a" if it else "" for it in expected])
            said = "expected microseconds, and .* has nanoseconds" if made.kind == "datetime" else "a time of whole s in 64 bits"
            for call in (lambda: made.contains(finer), lambda: finer[6] in made, lambda: made.covered_within(finer, finer)):
                self.assertRaisesRegex(ValueError, said, call)
        zoned = pandas.Series(times).dt.tz_localize("Europe/Berlin")
        for made in sets:
            self.assertRaises(TypeError, made.contains, zoned)

    def test_errors_that_name_the_way_out(self):
        start, end = self.frame["start"], self.frame["end"]
        days, times = RangeSet([(date(2026, 5, 1), date(2026, 5, 3))]), pandas.Series(pandas.to_datetime(["2026-05-02", "2026-05-03"]))
        for call, said in (
            (lambda: RangeMap(self.frame), r"not a table: t\[\['start', 'end', 'value'\]\] has the range and the value of each row"),
            (lambda: RangeMap.depth(self.frame), r"not a table: t\[\['start', 'end'\]\] has the range of each row"),
            (lambda: days.contains(times), r"a column's .dt.date has dates, and so has an array.astype\('M8\[D\]'\)"),
        ):
            self.assertRaisesRegex(TypeError, said, call)
        self.assertEqual(RangeMap(zip(zip(start, end), self.frame["name"])).find("c"), RangeSet([(3, 8)]))
        intervals = pandas.arrays.IntervalArray.from_arrays(start, end, closed="left")
        for table in (zip(start, end), self.frame[["start", "end"]], intervals, pandas.IntervalIndex(intervals), pandas.Series(intervals)):
            self.assertEqual(RangeMap.depth(table).find(2), RangeSet([(3, 5)]))
        for zone in (None, "Europe/Berlin"):
            frame = pandas.DataFrame({at: pandas.to_datetime(self.frame[at], unit="h").dt.tz_localize(zone) for at in ("start", "end")})
            self.assertEqual(RangeMap.depth(frame), RangeMap.depth(zip(frame["start"], frame["end"])))
        for asked in (times.dt.date, times.to_numpy().astype("M8[D]")):
            self.assertEqual(days.contains(asked).tolist(), [True, False])

    def test_none_is_no_member(self):
        day, address = date(2026, 5, 1), IPv4Address("10.0.0.1")
        for element in (0.5, "b", day, address, IPv6Address("::1")):
            made, asked = RangeSet([(element, None)]), pandas.Series([element, None], dtype=object)
            with self.subTest(element=element):
                self.assertEqual((made.contains(asked).tolist(), made.contains([None, element]).tolist()), ([True, False], [False, True]))
                self.assertEqual(made.range_at(asked)[0].mask.tolist(), [False, True])
                self.assertEqual(RangeMap([(made[0], "a")]).get(asked).tolist(), ["a", None])
                self.assertRaises(TypeError, made.overlaps, asked, [element] * 2)
                self.assertRaises(TypeError, made.rank, asked)

    def test_elements_that_are_missing(self):
        """They are no members; calls that count raise an error."""
        column = pandas.array([5, None, 20], dtype="Int64")
        for made, asked, error in (
            (RangeSet([(0, 10)]), column, OverflowError),
            (RangeSet([(0, 10)]), pandas.Series(column), OverflowError),
            (RangeSet([(0.0, 10.0)]), numpy.array([5.0, numpy.nan, 20.0]), TypeError),
            (RangeSet([(0.0, 10.0)]), pandas.array([5.0, None, 20.0], dtype="Float64"), TypeError),
            (RangeSet([(pandas.Timestamp(0), pandas.Timestamp(10))]), pandas.Series(pandas.to_datetime([5, None, 20])), ValueError),
        ):
            with self.subTest(asked=asked):
                self.assertEqual(made.contains(asked).tolist(), [True, False, False])
                self.assertEqual(made.overlaps(asked, asked).tolist(), [False] * 3)
                self.assertEqual(made.range_at(asked)[0].mask.tolist(), [False, True, True])
                self.assertEqual(RangeMap([(made[0], "a")]).get(asked).tolist(), ["a", None, None])
                self.assertRaises(error, made.rank, asked)
                self.assertRaises(error, made.covered_within, asked, asked)
                if not isinstance(made.kind, str) or made.kind != "float":
                    self.assertRaises((TypeError, ValueError), RangeSet.from_values, asked)

    def test_frames_as_values(self):
        """They join by identity alone."""
        other = self.frame.drop(columns="name")
        made = RangeMap(
            [((0, 5), self.frame), ((5, 9), self.frame), ((9, 12), self.frame.copy()), ((12, 15), other), ((15, 20), pandas.NA)]
        )
        made[3:7] = self.frame["start"]
        self.assertEqual([*made.keys()], [(0, 3), (3, 7), (7, 9), (9, 12), (12, 15), (15, 20)])
        self.assertEqual((made.find(self.frame), made.find(pandas.NA)), (RangeSet([(0, 3), (7, 9)]), RangeSet([(15, 20)])))

    def test_back_to_a_frame(self):
        day = pandas.Timestamp("2026-05-01")
        for made in (
            RangeSet([(0, 10), (20, 2**60 + 1)]),
            RangeSet([(0, 10), (2**60 + 1, None)]),
            RangeSet([(day, day + pandas.Timedelta(days=1)), (day + pandas.Timedelta(days=2), None)], kind="datetime64[ns]"),
            RangeSet([(day.tz_localize("UTC"), None)]),
            RangeSet([(date(2026, 5, 1), date(2026, 5, 2)), (date(2026, 5, 3), None)]),
            RangeSet([(0.5, 1.5)]),
            RangeSet(),
        ):
            frame = pandas.DataFrame(list(made), columns=["start", "end"], dtype=object)
            self.assertEqual((list(frame.columns), len(frame)), (["start", "end"], len(made)))
            pairs = [(start, None if pandas.isna(end) else end) for start, end in zip(frame["start"], frame["end"])]
            self.assertEqual((RangeSet(pairs, kind=made.kind), pairs), (made, list(made)))
        frame = pandas.DataFrame(list(made := RangeSet([(day, None)], kind="datetime64[ns]")), columns=["start", "end"])
        self.assertEqual((frame["start"].dtype, frame["start"][0], frame["end"].isna()[0]), ("M8[ns]", day, True))

    def check_timestamps(self, made, frame):
        """Pandas' own times, asked of the set of a data frame's times, which are numpy's."""
        noon, second = pandas.Timestamp("2026-05-03 12:00"), pandas.Timestamp("1970-01-01 00:00:05")
        self.assertTrue(noon in made and made.covers(noon, frame["end"][1]) and pandas.Timestamp("2026-05-09") not in made)
        self.assertEqual(made.rank(noon), 60 * 3600 * 10**9)
        self.assertEqual(made.first_fit(pandas.Timedelta(days=1), noon), frame["end"][1])
        self.assertEqual(RangeSet([(frame["start"][0], frame["end"][1])], kind="datetime64[ns]"), made)
        self.assertEqual(RangeSet([(second, None)], kind="datetime64[s]"), RangeSet([(numpy.datetime64(5, "s"), None)]))
        for call, error, words in (
            (lambda: pandas.NaT in made, ValueError, "NaT is in no order"),
            (lambda: pandas.Timestamp(1, tz="UTC") in made, TypeError, "expected a numpy.datetime64.ns."),
            (lambda: RangeSet([(pandas.Timestamp(1), None)], kind="datetime64[s]"), ValueError, "a time of whole s in 64 bits"),
        ):
            with self.assertRaisesRegex(error, words):
                call()


class Example(unittest.TestCase):
    def test_the_busy_machines(self):
        some, lines = random.Random(11), ["machine,start,end"]
        busy, ends, jobs = {it: set() for it in "abc"}, [], Counter()
        for _ in range(300):
            name, start = some.choice("abc"), some.randrange(3000)
            end = start + some.randrange(40)
            lines.append(f"{name},{start},{end}")
            busy[name].update(range(start, end))
            ends.append(end)
            jobs[name] += 1
        with tempfile.TemporaryDirectory() as folder:
            path = Path(folder, "jobs.csv")
            path.write_text("\n".join(lines), encoding="ascii")
            example = Path(__file__).resolve().parent.parent / "examples" / "frame.py"
            said = subprocess.run([sys.executable, example, path], capture_output=True, text=True, check=True).stdout.splitlines()
        every = busy["a"] & busy["b"] & busy["c"]
        late = sum(it - 1 in every for it in ends)
        self.assertTrue(every and late)
        self.assertEqual([it.split() for it in said[1:4]], [[it, str(jobs[it]), str(len(busy[it]))] for it in "abc"])
        self.assertEqual(said[4:], [f"all were busy for {len(every)}, and {late} of 300 jobs ended meanwhile"])


if __name__ == "__main__":
    unittest.main()
