"""numpy arrays as boundaries, tables and buffers, and sets as arrays."""

import itertools
import operator
import random
import threading
import time
import unittest
import warnings
from datetime import date, datetime, timedelta, timezone
from ipaddress import IPv4Address

import numpy

import range_sets as sets
from range_sets import MutableRangeSet, NotSorted, RangeMap, RangeSet

FORMAT = (
    "expected 64-bit whole numbers in this machine's order of bytes, as array('q') and numpy's int64 and uint64 have them, "
    "not those of the format"
)
OF_SETS = "expected whole numbers of at most 64 bits or floats in this machine's order of bytes, not those of the format"
SIDE = "expected numbers that lie side by side: copy the buffer first, as numpy's a.copy() does"


def i64(*items):
    return numpy.array(items, dtype=numpy.int64)


class Lists(unittest.TestCase):
    def test_the_functions(self):
        a, b = i64(0, 10), i64(5, 20)
        self.assertEqual(sets.union(a, b).tolist(), [0, 20])
        out = numpy.zeros(4, dtype=numpy.int64)
        self.assertEqual(sets.symmetric_difference(a, b, out=out), 4)
        self.assertEqual(out.tolist(), [0, 5, 10, 20])
        self.assertEqual(sets.negation(numpy.array([0, 2**63], dtype=numpy.uint64)).tolist(), [2**63])
        self.assertTrue(sets.contains(a, numpy.int64(9)) and not sets.contains(a, numpy.uint8(10)))

    def test_read_only_arrays(self):
        a = i64(0, 10, 20)
        a.setflags(write=False)
        self.assertEqual(sets.union(a, a).tolist(), [0, 10, 20])
        with self.assertRaisesRegex(TypeError, "the buffer can't be written to"):
            sets.union(i64(0), i64(1), out=a)

    def test_a_read_only_array_is_borrowed(self):
        long = numpy.arange(2_000_000, dtype=numpy.int64)
        short = long[:2].copy()
        for it in (long, short):
            it.setflags(write=False)

        def least(given):
            times = []
            for _ in range(7):
                began = time.perf_counter()
                for _ in range(20):
                    sets.contains(given, 1)
                times.append(time.perf_counter() - began)
            return min(times)

        # A copy of 16 million bytes takes more than a thousand times as long as the call.
        self.assertLess(least(long), 50 * least(short))

    def test_other_arrays(self):
        for given, text in (
            (numpy.array([0, 1], dtype=">i8"), f"{FORMAT} '>q'"),
            (numpy.array([True, False]), f"{FORMAT} '?'"),
            (numpy.array([0j, 1j]), f"{FORMAT} 'Zd'"),
            (numpy.array([1, "x"], dtype=object), f"{FORMAT} 'O'"),
            (i64(0, 1, 2, 3).reshape(2, 2), "expected a list, with one dimension"),
            (numpy.int64(3), "expected a list, with one dimension"),
        ):
            with self.subTest(text=text):
                for call in (lambda: sets.union(given, i64(0)), lambda: sets.from_unsorted(given)):
                    with self.assertRaises(TypeError) as raised:
                        call()
                    self.assertEqual(str(raised.exception), text)
                with self.assertRaises(TypeError) as raised:
                    RangeSet.from_boundaries(given)
                self.assertEqual(str(raised.exception), text.replace(FORMAT, OF_SETS))

    def test_what_sets_are_made_of_and_functions_refuse(self):
        for given, text, boundaries in (
            (numpy.array([0, 1], dtype=numpy.int32), f"{FORMAT} 'i'", [0, 1]),
            (i64(0, 1, 2, 3)[::2], SIDE, [0, 2]),
            (i64(4, 3, 2, 1)[::-1], SIDE, [1, 2, 3, 4]),
        ):
            with self.subTest(text=text):
                self.assertEqual(RangeSet.from_boundaries(given).boundaries.tolist(), boundaries)
                for call in (lambda: sets.union(given, i64(0)), lambda: sets.from_unsorted(given), lambda: sets.from_ranges(given)):
                    with self.assertRaises(TypeError) as raised:
                        call()
                    self.assertEqual(str(raised.exception), text)

    def test_numbers_of_the_other_kind(self):
        with self.assertRaisesRegex(TypeError, "signed and unsigned numbers don't mix"):
            sets.union(i64(0), numpy.array([0], dtype=numpy.uint64))

    def test_an_array_that_changes_meanwhile(self):
        a, b = numpy.arange(0, 60000, 2), numpy.arange(1, 60000, 2)
        kept, wild = a.copy(), numpy.random.default_rng(1).integers(-(2**63), 2**63 - 1, len(a))
        ends, unexpected = time.monotonic() + 1, []

        def change():
            while time.monotonic() < ends:
                a[:] = wild
                a[:] = kept

        def call():
            while time.monotonic() < ends:
                for it in (sets.union, sets.intersection, sets.is_subset, sets.equal):
                    try:
                        it(a, b)
                    except NotSorted:
                        pass
                    except BaseException as error:
                        unexpected.append(error)

        threads = [threading.Thread(target=it) for it in (change, change, call, call)]
        for it in threads:
            it.start()
        for it in threads:
            it.join()
        self.assertEqual(unexpected, [])


class Sets(unittest.TestCase):
    def test_from_boundaries(self):
        self.assertEqual(list(RangeSet.from_boundaries(i64(0, 10, 20))), [(0, 10), (20, None)])
        self.assertTrue(RangeSet.from_boundaries(numpy.array([1], dtype=numpy.uint64)).unsigned)
        self.assertEqual(RangeSet.from_boundaries(i64()), RangeSet())
        with self.assertRaises(NotSorted):
            RangeSet.from_boundaries(i64(3, 3))

    def test_tables(self):
        table = i64(20, 30, 0, 5, 3, 8).reshape(3, 2)
        for made in (RangeSet(table), RangeSet.from_ranges(table), RangeSet.from_ranges(table.ravel())):
            self.assertEqual(list(made), [(0, 8), (20, 30)])
        self.assertTrue(RangeSet(table.astype(numpy.uint64)).unsigned)
        self.assertEqual(RangeSet(table[:0]), RangeSet())
        for bad, text in (
            (table.reshape(2, 3), "or a table with two columns"),
            (table.ravel(), "expected a table with two columns"),
            (table.astype(numpy.int32).reshape(2, 3), "or a table with two columns"),
            (table.astype(complex), f"{OF_SETS} 'Zd'"),
            (table > 3, f"{OF_SETS} '.'"),
            (table.astype(numpy.float16), f"{OF_SETS} 'e'"),
            (numpy.ma.array(table, mask=table > 20), "expected an array without a mask"),
            (numpy.ma.array(table.astype(object), mask=table > 20), "expected an array without a mask"),
            (numpy.ma.array(table.astype("M8[s]"), mask=table > 20), "expected an array without a mask"),
        ):
            with self.assertRaisesRegex(TypeError, text):
                RangeSet(bad)

    def test_tables_whose_numbers_lie_elsewhere(self):
        wide = numpy.arange(24).reshape(4, 6)
        starts, ends = i64(0, 20, 5), i64(10, 30, 12)
        for table in (
            numpy.asfortranarray([[0, 10], [20, 30], [5, 12]]),
            numpy.array([starts, ends]).T,
            numpy.stack([starts, ends], axis=1)[::-1],
            numpy.array([ends, starts]).T[:, ::-1],
            numpy.array([[0, 7, 10], [20, 7, 30], [5, 7, 12]])[:, ::2],
        ):
            for made in (RangeSet(table), RangeSet.from_ranges(table)):
                self.assertEqual(list(made), [(0, 12), (20, 30)])
        self.assertEqual(list(RangeSet(wide[:, 1:3])), [(1, 2), (7, 8), (13, 14), (19, 20)])
        self.assertEqual(list(RangeSet(wide[:, [0, 5]])), [(0, 5), (6, 11), (12, 17), (18, 23)])
        self.assertEqual(RangeSet(wide[:0, ::5]), RangeSet())
        self.assertTrue(RangeSet(wide.astype(numpy.uint64)[:, ::5]).unsigned)

    def test_smaller_numbers(self):
        for dtype in (numpy.int8, numpy.int16, numpy.int32, numpy.uint8, numpy.uint16, numpy.uint32):
            table = numpy.array([[20, 30], [0, 5], [3, 8]], dtype=dtype)
            unsigned = numpy.dtype(dtype).kind == "u"
            for given in (None, False, True):
                made = RangeSet(table, unsigned=given)
                self.assertEqual((list(made), made.unsigned), ([(0, 8), (20, 30)], unsigned if given is None else given))
                self.assertEqual(RangeSet.from_values(table[:, 0], unsigned=given).unsigned, made.unsigned)
            self.assertEqual(list(RangeSet(table[::2])), [(3, 8), (20, 30)])
            least, most = int(numpy.iinfo(dtype).min), int(numpy.iinfo(dtype).max)
            self.assertEqual(list(RangeSet(numpy.array([[least, most]], dtype=dtype))), [(least, most)])
            for call in (RangeSet.from_values, RangeSet.from_boundaries):
                for bad in (table, table.astype(numpy.int64), numpy.asfortranarray(table)):
                    with self.assertRaisesRegex(TypeError, "expected a list, with one dimension"):
                        call(bad)
        with self.assertRaisesRegex(OverflowError, "a number from 0 to 2"):
            RangeSet(numpy.array([[-1, 5]], dtype=numpy.int32), unsigned=True)
        with self.assertRaisesRegex(TypeError, f"{OF_SETS} '>i'"):
            RangeSet(numpy.array([[1, 5]], dtype=">i4"))

    def test_which_of_many_numbers_are_members(self):
        made = RangeSet([(-3, 2), (5, 9), (2**63 - 2, None)])
        for values in (
            numpy.arange(-5, 12),
            numpy.arange(-5, 12)[::-1],
            numpy.arange(-5, 12).repeat(2),
            i64(8, -4, 5, 2**63 - 2, 1, 9, -3, 2**63 - 1, 4, 4),
            numpy.arange(-5, 11, dtype=numpy.int8).reshape(4, 4)[:, ::2],
            i64(),
            i64(2**63 - 1),
            numpy.int64(6),
            [7, 9],
        ):
            found = made.contains(values)
            expected = [n in made for n in numpy.asarray(values).ravel().tolist()]
            self.assertEqual((found.ravel().tolist(), found.shape, found.dtype), (expected, numpy.shape(values), numpy.dtype(bool)))
        unsigned = numpy.array([0, 6, 9, 2**63 - 1, 2**63, 2**64 - 3, 2**64 - 1], dtype=numpy.uint64)
        self.assertEqual(made.contains(unsigned).tolist(), [True, True, False, True, False, False, False])
        of_unsigned = RangeSet([(0, 3), (2**63, None)], unsigned=True)
        self.assertEqual(of_unsigned.contains(unsigned).tolist(), [True, False, False, False, True, True, True])
        self.assertEqual(of_unsigned.contains(i64(-1, 0, 2, 3, -(2**63))).tolist(), [False, True, True, False, False])
        self.assertEqual(sets.contains(i64(0, 10), i64(9, 10, -1)).tolist(), [True, False, False])
        with self.assertRaisesRegex(TypeError, "expected whole numbers"):
            made.contains(numpy.array([1.0]))
        for bad in (["x"], [5, 1.0], [None]):
            with self.assertRaisesRegex(TypeError, "object cannot be interpreted as an integer"):
                made.contains(bad)

    def test_which_are_members_of_lists_that_numpy_has_no_type_for(self):
        made, of_unsigned = RangeSet([(-3, 2), (2**63 - 2, None)]), RangeSet([(0, 3), (2**63, None)], unsigned=True)
        for values in ([1, 2**63], [-1, 2**63, 2**64 - 1], [5, 2**70, -(2**70)], [[0, 2**64], [1, 2]]):
            for it in (made, of_unsigned):
                for given in (values, numpy.array(values, dtype=object)):
                    expected = [n in it for n in numpy.array(values, dtype=object).ravel().tolist()]
                    found = it.contains(given)
                    self.assertEqual((found.ravel().tolist(), found.shape, found.dtype), (expected, numpy.shape(values), numpy.dtype(bool)))
        for it in (made, of_unsigned, RangeSet(), RangeSet([(0.5, 1.5)]), RangeSet(kind="date")):
            for nothing in ([], numpy.array([]), ()):
                self.assertEqual((it.contains(nothing).shape, it.contains(nothing).dtype), ((0,), numpy.dtype(bool)))

    def test_no_element_is_a_member_of_an_empty_set_without_a_kind(self):
        for values in ([1, 2], [0.5, 1.5], [date(2026, 5, 1)] * 2, numpy.array(["2026-05-01", "2026-05-04"], dtype="M8[ns]")):
            self.assertEqual(RangeSet().contains(values).tolist(), [False] * len(values))
        with self.assertRaisesRegex(TypeError, "'complex' object"):
            RangeSet().contains([1j])

    def test_arrays_without_a_float_tell_no_kind(self):
        some = RangeSet([(0, 5)])
        for nothing in (RangeSet(numpy.empty((0, 2))), RangeSet.from_values(numpy.array([])), RangeSet.from_boundaries(numpy.array([]))):
            self.assertEqual((nothing.kind, nothing | some, some - nothing), (None, some, some))
        for given in (int, float, "date", "unsigned"):
            self.assertEqual(RangeSet(numpy.empty((0, 2)), kind=given), RangeSet(kind=given))
        self.assertTrue(RangeSet.from_values(numpy.array([]), unsigned=True).unsigned)

    def test_smaller_floats(self):
        for kind in (numpy.float16, numpy.float32, numpy.float64):
            made = RangeSet([(kind(0.5), kind(1.5))])
            self.assertEqual((list(made), kind(1.0) in made, kind(1.5) in made), ([(0.5, 1.5)], True, False))
            with self.assertRaisesRegex(ValueError, "NaN is in no order"):
                made.insert(kind("nan"), None)
        third = numpy.longdouble(1) / 3
        with self.assertRaisesRegex(ValueError, "is no float"):
            RangeSet([(third, None)])
        with self.assertRaisesRegex(TypeError, "'numpy.float32' object cannot be interpreted as an integer"):
            RangeSet([(0, numpy.float32(1.5))])

    def test_operators_take_no_arrays(self):
        made, values = RangeSet([(0, 10)]), i64(5, 20)
        for call in (operator.or_, operator.and_, operator.sub, operator.xor, operator.le, operator.gt):
            for given in ((made, values), (values, made)):
                with self.assertRaises(TypeError):
                    call(*given)
        self.assertFalse(made == values or values == made)
        made = MutableRangeSet(made)
        with self.assertRaises(TypeError):
            made |= values
        self.assertEqual(list(made), [(0, 10)])

    def test_functions_of_numpy_take_no_sets(self):
        """They would take the boundaries for the members. The error names the calls that are meant."""
        numbers = numpy.array([0, 5, 10, 25])
        for made in (RangeSet([(0, 10), (20, 30)]), MutableRangeSet([(0, 10), (20, 30)])):
            for call in (numpy.isin, numpy.in1d, numpy.union1d, numpy.searchsorted, numpy.append):
                for given in ((numbers, made), (made, numbers)):
                    with self.assertRaises(TypeError) as raised:
                        call(*given)
                    text = f"numpy.{call.__name__} takes no set: s.contains(array) says which elements are members, "
                    self.assertEqual(str(raised.exception), text + "and numpy.asarray(s) has the boundaries")
            self.assertEqual(made.contains(numbers).tolist(), [True, True, False, True])
            self.assertEqual(numpy.isin(numbers, numpy.asarray(made)).tolist(), [True, False, True, False])

    def test_many_numbers_are_members(self):
        some = numpy.random.default_rng(3)
        for _ in range(20):
            values = some.integers(-50, 50, 400)
            made = RangeSet.from_values(values)
            self.assertEqual(list(made.members()), sorted(set(values.tolist())))
            asked = some.integers(-60, 60, 5000)
            self.assertEqual(made.contains(asked).tolist(), numpy.isin(asked, values).tolist())

    def test_times(self):
        days = numpy.array(["2026-05-01", "2026-05-04", "2026-05-03", "2026-05-09"], dtype="M8[D]")
        table = days.reshape(2, 2)
        made = RangeSet(table)
        self.assertEqual((list(made), made.kind, made.covered()), ([(days[0], days[3])], "datetime64[D]", numpy.timedelta64(8, "D")))
        for other in (
            table.astype(">M8[D]"),
            numpy.asfortranarray(table),
            numpy.column_stack([table[:, 0], table[:, 1], table[:, 1]])[:, ::2],
        ):
            self.assertEqual((RangeSet(other), RangeSet.from_ranges(other)), (made, made))
        other = table.astype(">M8[D]")
        self.assertEqual(RangeSet([(other[0, 0], other[1, 1])]) | made, made)
        for dtype in ("M8[h]", "M8[ns]", "M8[25s]"):
            self.assertEqual(RangeSet(table.astype(dtype)).kind, f"datetime64[{dtype[3:-1]}]")
            with self.assertRaises(TypeError):
                made | RangeSet(table.astype(dtype))
            with self.assertRaises(TypeError):
                table.astype(dtype)[0, 0] in made
        values = RangeSet.from_values(days)
        self.assertEqual([*values.members()], sorted(days))
        for asked in (days, days.astype(">M8[D]")):
            self.assertEqual(made.contains(asked).tolist(), [True, True, True, False])
        self.assertEqual(numpy.asarray(made).tolist(), [days[0].item(), days[3].item()])
        self.assertTrue(numpy.shares_memory(numpy.asarray(made), numpy.asarray(made)))
        self.assertEqual(RangeSet.from_boundaries(numpy.asarray(made)), made)
        self.assertEqual(made.gaps(days[0], numpy.datetime64("2026-05-12")), RangeSet((days[3], numpy.datetime64("2026-05-12"))))
        for length in (numpy.timedelta64(2, "D"), numpy.timedelta64(48, "h"), timedelta(days=2)):
            self.assertEqual(made.first_fit(length, days[0]), days[3])
        for length, error in ((numpy.timedelta64(25, "h"), ValueError), (numpy.timedelta64("NaT"), ValueError), (2, TypeError)):
            with self.assertRaises(error):
                made.first_fit(length)

    def test_lengths_of_more_than_64_bits(self):
        # numpy makes of each of them another length, also of the least and the greatest of Python.
        for unit in ("ns", "us", "25s", "D"):
            made = RangeSet([(numpy.datetime64(0, unit), numpy.datetime64(5, unit))])
            for length, error, text in (
                (numpy.timedelta64(2**61, "W"), ValueError, f"expected a timedelta of whole {unit} in 64 bits"),
                (numpy.timedelta64(-(2**61), "W"), ValueError, f"expected a timedelta of whole {unit} in 64 bits"),
                (timedelta.max, OverflowError, "expected a timedelta of at most 64 bits of microseconds"),
                (timedelta.min, OverflowError, "expected a timedelta of at most 64 bits of microseconds"),
                (timedelta(microseconds=2**63), OverflowError, "expected a timedelta of at most 64 bits of microseconds"),
            ):
                with self.subTest(unit=unit, length=length), self.assertRaisesRegex(error, text):
                    made.first_fit(length)
            self.assertEqual(made.first_fit(numpy.timedelta64(2**62, unit), numpy.datetime64(0, unit)), numpy.datetime64(5, unit))

    def test_what_is_covered_beyond_numpys_lengths(self):
        end = numpy.datetime64(2**63 - 1, "s")
        made = RangeSet([(None, end)], kind="datetime64[s]")
        with self.assertRaises(OverflowError) as raised:
            made.covered()
        text = "numpy has no timedelta64[s] of more than 2**63 - 1, and the ranges have 18446744073709551614"
        self.assertEqual(str(raised.exception), text)
        self.assertEqual((made & RangeSet([(numpy.datetime64(0, "s"), end)])).covered(), numpy.timedelta64(2**63 - 1, "s"))

    def test_what_is_no_time(self):
        nat = numpy.datetime64("NaT", "D")
        made = RangeSet([(numpy.datetime64("2026-05-01"), None)])
        for call in (
            lambda: RangeSet(numpy.array([["2026-05-01", "NaT"]], dtype="M8[D]")),
            lambda: RangeSet([(nat, None)]),
            lambda: nat in made,
            lambda: made.rank(numpy.array(["NaT"], dtype="M8[D]")),
            lambda: RangeSet.from_values(numpy.array(["NaT"], dtype="M8[s]")),
        ):
            with self.assertRaisesRegex(ValueError, "NaT is in no order"):
                call()
        for call in (
            lambda: RangeSet([(numpy.datetime64(5, "s"), numpy.datetime64(5, "ms"))]),
            lambda: RangeSet(numpy.zeros((2, 2), dtype="M8")),
            lambda: RangeSet(numpy.zeros((2, 3), dtype="M8[s]")),
            lambda: RangeSet.from_values(numpy.zeros((2, 2), dtype="M8[s]")),
            lambda: RangeSet(numpy.zeros((2, 2), dtype="M8[s]"), kind="date"),
            lambda: RangeSet(numpy.zeros((2, 2), dtype="m8[s]")),
            lambda: RangeSet(numpy.zeros((2, 2), dtype="M8[s]"), unsigned=True),
            lambda: RangeSet([(numpy.timedelta64(5, "s"), None)]),
            lambda: made.contains(numpy.array([5])),
            lambda: datetime(2026, 5, 1) in made,
            lambda: numpy.array(["2026-05-01"], dtype="M8[D]") in made,
            lambda: RangeSet([(0.0, 1e30)]).contains(numpy.array(["2026-05-01"], dtype="M8[ns]")),
            lambda: RangeSet([(0.0, 1e30)]).contains(numpy.array([5], dtype="m8[ns]")),
            lambda: RangeSet([(date(2026, 5, 1), None)]).contains(numpy.array(["2026-05-01"], dtype="M8[ns]")),
        ):
            with self.assertRaises(TypeError):
                call()
        for bad in ([0, 2**62], [-(2**62), 0]):
            with self.assertRaises(OverflowError):
                RangeSet(numpy.array([bad], dtype="M8[us]"), kind="datetime")

    def test_arrays_of_pythons_own_elements(self):
        day, zone = datetime(2026, 5, 4), timezone.utc
        for elements in (
            [day, day + timedelta(hours=5)],
            [day.replace(tzinfo=zone), day.replace(hour=3, tzinfo=zone)],
            [day.date(), date(2026, 5, 9)],
            [timedelta(0), timedelta(3)],
            [0.5, 2.5],
            [IPv4Address("10.0.0.0"), IPv4Address("10.0.0.9")],
        ):
            made = RangeSet([(elements[0], elements[1])])
            self.assertEqual(made.contains(elements).tolist(), [True, False])
            self.assertEqual(RangeSet(numpy.array([elements])), made)
            self.assertEqual(made.contains(numpy.array(elements).reshape(2, 1)).shape, (2, 1))
        beyond = datetime.max.replace(tzinfo=timezone(timedelta(hours=-1)))
        with self.assertRaisesRegex(OverflowError, "expected a datetime with a time zone"):
            RangeSet([(day.replace(tzinfo=zone), None)]).contains([beyond])
        kinds = {"M8[us]": ("datetime", "datetime[UTC]"), "M8[D]": ("date",), "m8[us]": ("timedelta",)}
        for dtype, names in kinds.items():
            for name in names:
                made = RangeSet(numpy.array([[5, 9], [20, 30]], dtype=dtype), kind=name)
                self.assertEqual(
                    (made.kind, made.boundaries.tolist(), numpy.asarray(made).dtype), (name, [5, 9, 20, 30], numpy.dtype(dtype))
                )
                self.assertEqual(made.contains(numpy.array([5, 9], dtype=dtype)).tolist(), [True, False])
        with self.assertRaisesRegex(ValueError, "its number is NaT's"):
            numpy.asarray(~RangeSet(kind="timedelta"))
        floats = RangeSet([(0.5, 2.5), (3.0, numpy.inf)])
        self.assertEqual(numpy.asarray(floats).tolist(), [0.5, 2.5, 3.0, numpy.inf])
        self.assertEqual(RangeSet(numpy.array([[0.5, 2.5], [1.0, 2.0]], dtype=numpy.float32)), floats[:1])
        self.assertEqual(floats.contains(numpy.array([0.25, 0.5, 2.75])).tolist(), [False, True, False])
        with self.assertRaisesRegex(ValueError, "an array of floats is a copy"):
            floats.__array__(copy=False)

    def test_pairs_of_numpy_numbers(self):
        self.assertEqual(RangeSet([(numpy.int64(3), numpy.int16(9))]), RangeSet([(3, 9)]))
        self.assertEqual(RangeSet(list(i64(3, 9, 12, 14).reshape(2, 2))), RangeSet([(3, 9), (12, 14)]))
        with self.assertRaisesRegex(ValueError, "NaN"):
            RangeSet([(numpy.float64(0), numpy.float64("nan"))])

    def test_arrays_of_sets(self):
        made = RangeSet([(0, 10), (20, None)])
        array = numpy.asarray(made)
        self.assertEqual((array.tolist(), array.dtype), ([0, 10, 20], numpy.dtype("int64")))
        self.assertTrue(numpy.shares_memory(array, numpy.asarray(made)) and not array.flags.writeable)
        self.assertEqual(numpy.asarray(RangeSet([(0, 2**63)], unsigned=True)).dtype, numpy.dtype("uint64"))
        self.assertEqual(numpy.asarray(made, dtype=numpy.float64).tolist(), [0.0, 10.0, 20.0])
        with self.assertRaisesRegex(ValueError, "numbers of another type are a copy"):
            made.__array__(numpy.float64, copy=False)
        copied = numpy.array(made)
        copied[0] = -7
        self.assertEqual(list(made), [(0, 10), (20, None)])
        self.assertEqual(numpy.asarray(RangeSet()).tolist(), [])
        self.assertEqual(RangeSet.from_boundaries(numpy.asarray(made)), made)

    def test_members_of_numpy_numbers(self):
        made = RangeSet([(0, 10)])
        self.assertTrue(numpy.int8(3) in made and numpy.uint64(2**64 - 1) not in made)
        self.assertTrue(made.covers(numpy.int64(0), numpy.int64(10)))
        with self.assertRaises(TypeError):
            numpy.float64(3) in made

    def test_many_made_up_tables(self):
        made = random.Random(5)
        for _ in range(200):
            ends = [made.randrange(60) for _ in range(2 * made.randrange(12))]
            table = numpy.array(ends, dtype=numpy.int64).reshape(-1, 2)
            expected = {n for start, end in table.tolist() for n in range(start, end)}
            got = RangeSet(table)
            self.assertEqual({n for start, end in got for n in range(start, end)}, expected)
            self.assertEqual(got.covered(), len(expected))


class ManyAtOnce(unittest.TestCase):
    """Each answer of a call over arrays beside the same call of one element."""

    def made_up(self):
        some = random.Random(7)
        for (first, last), size, dtype in itertools.product(
            ((-50, 50), (0, 60_000)), (0, 1, 3, 400, 20_000), ("i8", "u8", "M8[s]", "m8[us]", "f8")
        ):
            if size * 4 > last - first:
                continue
            ends = sorted(some.sample(range(first, last), size))
            if dtype == "u8":
                ends = [2**63 - 100 + it for it in ends] if last == 50 else ends
            numbers = numpy.array([some.randint(first - 3, last + 3) for _ in range(200)])
            if dtype == "u8":
                numbers = numbers.clip(0).astype("u8") + (2**63 - 100 if last == 50 else 0)
            every = numpy.array(ends, dtype="u8" if dtype == "u8" else "i8").astype(dtype)
            asked = numbers.astype(dtype)
            kind = {"u8": "unsigned", "i8": "int", "f8": "float", "m8[us]": "timedelta"}.get(dtype, "datetime64[s]")
            made = RangeSet.from_boundaries(every, kind=kind)
            for questions in (asked, numpy.sort(asked), asked[:0]):
                yield made, questions, kind

    def test_beside_one_by_one(self):
        for made, asked, kind in self.made_up():
            elements = asked.tolist() if kind != "datetime64[s]" else list(asked)
            with self.subTest(kind=kind, ranges=len(made)):
                self.assertEqual(made.contains(asked).tolist(), [it in made for it in elements])
                ends = numpy.roll(asked, 1)
                later = ends.tolist() if kind != "datetime64[s]" else list(ends)
                windows = [RangeSet([it], kind=kind) for it in zip(elements, later)]
                self.assertEqual(made.overlaps(asked, ends).tolist(), [not made.isdisjoint(it) for it in windows])
                starts, stops = made.range_at(asked)
                expected = [made.range_at(it) or (None, None) for it in elements]
                found = [(None if starts.mask[at] else starts[at], None if stops.mask[at] else stops[at]) for at in range(len(asked))]
                self.assertEqual(
                    [tuple(None if it is None else it.item() if kind != "datetime64[s]" else it for it in pair) for pair in found], expected
                )
                if kind == "float":
                    with self.assertRaises(TypeError):
                        made.rank(asked)
                    continue
                self.assertEqual(made.rank(asked).tolist(), [made.rank(it) for it in elements])
                covered = [(made & it).covered() for it in windows]
                self.assertEqual(
                    list(made.covered_within(asked, ends)), [numpy.timedelta64(it) if kind in ("timedelta",) else it for it in covered]
                )

    def test_what_is_in_no_order(self):
        floats = RangeSet([(None, None)], kind="float")
        self.assertEqual(floats.contains(numpy.array([1.5, numpy.nan, numpy.inf])).tolist(), [True, False, True])
        self.assertEqual(floats.overlaps(numpy.array([1.5, numpy.nan]), numpy.array([numpy.nan, 2.5])).tolist(), [False, False])
        for dtype, kind in (("M8[s]", "datetime64[s]"), ("m8[us]", "timedelta"), ("M8[D]", "date")):
            made, asked = RangeSet.from_boundaries(numpy.array([0], dtype=dtype), kind=kind), numpy.array(["NaT", 5], dtype=dtype)
            self.assertEqual(made.contains(asked).tolist(), [False, True])
            self.assertEqual([it.mask.tolist() for it in made.range_at(asked)], [[True, False], [True, True]])

    def test_refused(self):
        made = RangeSet([(0, 10)])
        for call, error in (
            (lambda: made.rank(numpy.array([0.5])), TypeError),
            (lambda: made.rank(numpy.array([2**64 - 1], dtype="u8")), OverflowError),
            (lambda: made.overlaps(i64(1, 2), i64(1)), ValueError),
            (lambda: RangeSet([(0.5, 1.5)]).covered_within(numpy.array([0.5]), numpy.array([1.0])), TypeError),
            (lambda: made.range_at(numpy.array(["x"])), TypeError),
        ):
            with self.assertRaises(error):
                call()

    def test_a_set_of_no_kind(self):
        made, asked = RangeSet(), numpy.array([0.5, 1.5])
        self.assertEqual((made.overlaps(asked, asked + 1).tolist(), made.rank(i64(3, 5)).tolist()), ([False, False], [0, 0]))
        self.assertTrue(made.range_at(asked)[0].mask.all() and not made.contains(asked).any())

    def test_smaller_tables(self):
        for code in "bBhHiIfd":
            table = numpy.array([[20, 30], [0, 5], [3, 8]], dtype=code)
            made = RangeSet(table)
            self.assertEqual(
                (list(made), made.kind), ([(0, 8), (20, 30)], "float" if code in "fd" else "unsigned" if code.isupper() else "int")
            )
            self.assertEqual(RangeSet(table[::2]), RangeSet([(20, 30), (3, 8)], kind=made.kind))
            self.assertEqual(RangeSet(table[:, ::-1]), RangeSet(kind=made.kind))
        for code, least, most in (("b", -128, 127), ("h", -(2**15), 2**15 - 1), ("i", -(2**31), 2**31 - 1), ("I", 0, 2**32 - 1)):
            self.assertEqual(list(RangeSet(numpy.array([[least, most]], dtype=code))), [(least, most)])

    def test_floats_of_each_order(self):
        some = numpy.array([-numpy.inf, -1e300, -1.5, -5e-324, -0.0, 0.0, 5e-324, 1.0, numpy.nextafter(1, 2), 1e300, numpy.inf])
        made = RangeSet(numpy.array([[-1.5, 0.0], [1.0, numpy.inf]]))
        self.assertEqual(made, RangeSet([(-1.5, 0.0), (1.0, numpy.inf)]))
        self.assertEqual(made.contains(some).tolist(), [it in made for it in some.tolist()])
        self.assertEqual(numpy.asarray(RangeSet.from_boundaries(numpy.unique(some))).tolist(), numpy.unique(some).tolist())
        for row in ([numpy.nan, 1.0], [0.0, -numpy.nan]):
            with self.assertRaisesRegex(ValueError, "NaN is in no order"):
                RangeSet(numpy.array([row]))

    def test_values_of_many_keys(self):
        made = RangeMap([((0, 10), "low"), ((20, None), ["high"])])
        self.assertEqual(made.get(i64(5, 15, 25, -1), "none").tolist(), ["low", "none", ["high"], "none"])
        self.assertEqual(made.get(i64(5, 15)).tolist(), ["low", None])
        self.assertEqual(RangeMap().get(i64(5, 15), 0).tolist(), [0, 0])

    def test_made_up_values_of_many_keys(self):
        """As `get` gives each, in arrays of any shape, whatever the values and the default are."""
        some, made_up = random.Random(23), numpy.random.default_rng(23)
        for case in range(100):
            kind, dtype = some.choice([("int", "i8"), ("unsigned", "u8"), ("float", "f8"), ("datetime64[s]", "M8[s]")])
            ends = made_up.integers(0, 90, 40).astype(dtype)
            pairs = [(ends[at : at + 2], some.choice(["a", 1, (1, 2), [3, 4], None])) for at in range(0, 40, 2)]
            made = RangeMap([(pair.tolist() if dtype != "M8[s]" else [*pair], value) for pair, value in pairs], kind=kind)
            keys = made_up.integers(0, 99, some.choice([(), (0,), (7,), (3, 4), (20, 3)])).astype(dtype)
            if keys.ndim == 2:
                keys = some.choice([keys, keys.T, keys[:, ::2], keys[::-1]])
            default = some.choice([None, "none", [7, 8], (9, 10)])
            found = made.get(keys, default) if keys.ndim else None
            if found is None:
                continue
            flat = [*keys.reshape(-1)] if dtype == "M8[s]" else keys.reshape(-1).tolist()
            expected = [made.get(it, default) for it in flat]
            self.assertEqual((found.shape, found.dtype), (keys.shape, object), case)
            self.assertTrue(all(a is b for a, b in zip(found.reshape(-1), expected, strict=True)), case)
        gone = RangeMap([((0.0, None), "some")]).get(numpy.array([numpy.nan, 1.0]), [7, 8])
        self.assertEqual(gone.tolist(), [[7, 8], "some"])

    def test_arrays_without_a_dimension(self):
        """Each answer has the shape of what was asked, for every kind."""
        for low, mid, high in (
            (0, 1, 2),
            (0.0, 1.5, 2.0),
            (numpy.datetime64(0, "s"), numpy.datetime64(1, "s"), numpy.datetime64(2, "s")),
            (date(2026, 1, 1), date(2026, 1, 2), date(2026, 1, 3)),
        ):
            made = RangeSet([(low, high)])
            for shape in ((), (1,), (2, 1), (0,)):
                asked = numpy.full(shape, mid)
                self.assertEqual((made.contains(asked).shape, made.overlaps(asked, asked).shape), (shape, shape), (mid, shape))
                self.assertTrue(made.contains(asked).all() and not made.overlaps(asked, asked).any())

    def test_bools_as_numbers(self):
        for unsigned in (False, True):
            made = RangeSet([(1, 5)], unsigned=unsigned)
            asked = numpy.array([True, False])
            self.assertEqual(made.contains(asked).tolist(), [it in made for it in asked.tolist()])
            self.assertEqual((made.rank(asked).tolist(), made.contains([False, True]).tolist()), ([0, 0], [False, True]))
        self.assertEqual(RangeSet([(0.5, 1.5)]).contains(numpy.array([True, False])).tolist(), [True, False])

    def test_arrays_as_values(self):
        """They join by identity alone, whatever their shapes; numpy's numbers by `==`."""
        first, again, longer = numpy.array([1, 2]), numpy.array([1, 2]), numpy.array([1, 2, 3])
        made = RangeMap([((0, 5), first), ((5, 7), first), ((7, 9), again), ((9, 12), numpy.array([4])), ((12, 15), numpy.array([4]))])
        with warnings.catch_warnings():
            # What some versions answer of two shapes.
            warnings.simplefilter("ignore")
            made[3:4] = longer
            self.assertEqual([*made.keys()], [(0, 3), (3, 4), (4, 7), (7, 9), (9, 12), (12, 15)])
            self.assertEqual(
                (made.find(first), made.find(numpy.array([1, 2])), made == made.copy()), (RangeSet([(0, 3), (4, 7)]), RangeSet(), True)
            )
        made = RangeMap([((0, 5), numpy.int64(7)), ((5, 9), numpy.int64(7)), ((9, 12), numpy.int32(7))])
        self.assertEqual((len(made), made.find(numpy.int64(7))), (2, RangeSet([(0, 9)])))

    def test_what_the_compiled_module_is_given(self):
        steps, keys = RangeMap([((0, 10), "low")])._steps, i64(5, 15)
        for given in (
            (keys, bytes(2), None, numpy.empty(3, dtype=object)),
            (keys, bytes(2), None, numpy.empty(2, dtype="i8")),
            (keys, bytes(1), None, numpy.empty(2, dtype=object)),
            (keys.astype("u8"), bytes(2), None, numpy.empty(2, dtype=object)),
            (keys, bytes(2), None, numpy.empty(4, dtype=object)[::2]),
        ):
            self.assertRaises((TypeError, ValueError, BufferError), steps.get_each, *given)


class Depth(unittest.TestCase):
    def test_a_table_has_a_set_in_each_row(self):
        some = numpy.random.default_rng(75)
        for case in range(60):
            table = some.integers(-20, 20, (some.integers(0, 40), 2)) * 10 ** int(some.integers(0, 17))
            tables = [table, table.astype(object), table.astype("M8[s]"), numpy.asfortranarray(table), table * 0.5]
            tables += [abs(table).astype("u8"), (table // 10**16).astype("i4")]
            for given in tables:
                made, rows = RangeMap.depth(given), [tuple(row) for row in given.tolist()]
                kind = made.kind
                if kind is None or kind.startswith("datetime64"):
                    rows = [tuple(row) for row in given]
                # One map after the other, each with one range more.
                counted = RangeMap(kind=kind)
                for row in rows:
                    counted = counted.combine(RangeMap([(row, 1)], kind=kind), lambda a, b: a + b)
                self.assertEqual(made, counted, (case, given.dtype))
                if kind in ("int", "unsigned"):
                    self.assertEqual(RangeMap.depth(rows, kind=kind), counted, (case, given.dtype))
                    self.assertEqual(RangeMap.depth([RangeSet([row], kind=kind) for row in rows]), counted, (case, given.dtype))

    def test_what_is_no_table(self):
        for wrong in (numpy.zeros((3, 3), int), numpy.zeros(4, int), numpy.zeros((2, 2), bool), numpy.array([[1, 2], [3, None]]).T[0]):
            self.assertRaises(TypeError, RangeMap.depth, wrong)
        for extreme in ([[-(2**63), 2**63 - 1], [0, -(2**63)], [5, 5]], [[2**63 - 2, 2**63 - 1]]):
            made = RangeMap.depth(numpy.array(extreme))
            self.assertEqual(list(made.items()), [((extreme[0][0], 2**63 - 1), 1)])


class ValuesThatSort(unittest.TestCase):
    def test_arrays(self):
        made = RangeSet([("b", "d"), ("k", None)])
        for values in (
            ["a", "b", "c", "d", "z"],
            numpy.array([["a", "b", "c", "d", "z"]], dtype=object),
            numpy.array(["a", "b", "c", "d", "z"]),
        ):
            self.assertEqual(made.contains(values).ravel().tolist(), [False, True, True, False, True])
            self.assertEqual(made.contains(values).shape, numpy.shape(values))
        pairs = [("a", "b"), ("a", "bb"), ("d", "e"), ("c", "b"), ("e", "l"), ("c", "c")]
        self.assertEqual(made.overlaps(*zip(*pairs)).tolist(), [bool(made.overlapping(*it)) for it in pairs])
        starts, ends = made.range_at(numpy.array(["a", "c", "x"], dtype=object))
        self.assertEqual((starts.tolist(), ends.tolist()), ([None, "b", "k"], [None, "d", None]))
        self.assertEqual(numpy.asarray(made).tolist(), ["b", "d", "k"])
        tuples = RangeSet([((1, "a"), (2, "b"))])
        self.assertEqual(tuples.contains([(1, "a"), (1, "b"), (3, "")]).tolist(), [True, True, False])
        self.assertEqual(numpy.asarray(tuples).tolist(), [(1, "a"), (2, "b")])
        self.assertEqual(RangeMap([(("b", "d"), 5)]).get(numpy.array(["a", "b", "c", "d"]), 0).tolist(), [0, 5, 5, 0])
        self.assertEqual(made.contains(numpy.array(["c", float("nan")], dtype=object)).tolist(), [True, False])

    def test_what_is_refused(self):
        for call in (
            lambda: RangeSet(numpy.array([[1, 2]]), kind="ordered"),
            lambda: RangeSet.from_values(numpy.array([1, 2]), kind="ordered"),
            lambda: RangeSet([("a", "b")]).covered_within(["a"], ["b"]),
            lambda: RangeSet([("a", "b")]).rank(numpy.array(["a"])),
            lambda: RangeSet([("a", "b")]).contains([1, 2]),
        ):
            self.assertRaises(TypeError, call)


if __name__ == "__main__":
    unittest.main()
