"""Times, dates and lengths of time as elements: Python's, and numpy's times."""

from __future__ import annotations

from array import array
from datetime import date, datetime, timedelta, timezone
from operator import attrgetter

from . import _core
from ._kind import LEAST, MOST, NAT, Kind, named, refuse_nat
from ._typing import TYPE_CHECKING

if TYPE_CHECKING:
    from typing import Any

_DAY, _MICROSECOND = timedelta(days=1), timedelta(microseconds=1)
_FIRST_DAY = date(1970, 1, 1).toordinal()
_DTYPE = attrgetter("dtype")


class Timed(Kind):
    """Times and dates, whose lengths are a timedelta, in units of its `step`."""

    def __init__(self, name: str, element: str, least: int, most: int, step: timedelta, dtype: str, plural: str) -> None:
        super().__init__(name, element, least, most, plural)
        self.step, self.dtype = step, dtype

    def length(self, count: int) -> timedelta:
        return count * self.step

    def count(self, length: Any) -> int:
        if not isinstance(length, timedelta):
            raise TypeError(f"expected a timedelta, not {named(length)}")
        count, rest = divmod(DELTA.code(length), DELTA.code(self.step))
        if rest:
            raise ValueError("expected a timedelta of whole days")
        return count


class Dates(Timed):
    """Dates, by their days from 1970 on."""

    def __init__(self) -> None:
        least, most = (it.toordinal() - _FIRST_DAY for it in (date.min, date.max))
        super().__init__("date", "a date", least, most, _DAY, "M8[D]", "dates")

    def code(self, value: Any) -> int:
        if not isinstance(value, date) or isinstance(value, datetime):
            raise self.type_error(value)
        return value.toordinal() - _FIRST_DAY

    def codes(self, values: list[Any]) -> list[int]:
        if {*map(type, values)} != {date}:
            return super().codes(values)
        return [it - _FIRST_DAY for it in map(date.toordinal, values)]

    def value(self, code: int) -> date:
        return date.fromordinal(code + _FIRST_DAY)

    def hint(self, name: str) -> str:
        return "; a column's .dt.date has dates, and so has an array.astype('M8[D]')" if name.startswith("datetime64[") else ""


class Times(Timed):
    """Times with a time zone or without one, by their microseconds from 1970 on. Those with one are kept in UTC."""

    def __init__(self, name: str, element: str, zone: timezone | None) -> None:
        self.is_aware, self.first = zone is not None, datetime(1970, 1, 1, tzinfo=zone)
        least, most = (self.code(it.replace(tzinfo=zone)) for it in (datetime.min, datetime.max))
        super().__init__(name, element, least, most, _MICROSECOND, "M8[us]", "times")
        self.span = ", of the years 1 to 9999" + " in UTC" * (zone is not None)

    def code(self, value: Any) -> int:
        code = _core.number_of_time(value, self.is_aware)
        if code is None and isinstance(value, datetime) and type(value) is not datetime:
            _refuse_nanoseconds(value, "nanosecond")
            code = _core.number_of_time(datetime.combine(value.date(), value.timetz()), self.is_aware)
        if code is None:
            raise self.type_error(value)
        return code

    def codes(self, values: list[Any]) -> list[int]:
        return _core.numbers_of_times(values, self.is_aware) or super().codes(values)

    def value(self, code: int) -> datetime:
        return self.first + code * _MICROSECOND

    def hint(self, name: str) -> str:
        is_alike = not self.is_aware and name.startswith("datetime64[")
        return f"; with kind={name!r} pandas' Timestamps make such a set" if is_alike else ""


class Deltas(Timed):
    """Lengths of time, by their microseconds."""

    def __init__(self) -> None:
        super().__init__(
            "timedelta", "a timedelta of at most 64 bits of microseconds", LEAST, MOST, _MICROSECOND, "m8[us]", "lengths of time"
        )

    def code(self, value: Any) -> int:
        if type(value) is not timedelta:
            if not isinstance(value, timedelta):
                raise self.type_error(value)
            _refuse_nanoseconds(value, "nanoseconds")
        return (value.days * 86_400 + value.seconds) * 1_000_000 + value.microseconds

    def value(self, code: int) -> timedelta:
        return timedelta(microseconds=code)


class Numpys(Kind):
    """What numpy has as datetime64 of one unit, by the numbers that it has too. The least of 64 bits is its NaT. Times of pandas without
    a time zone are taken as numpy's."""

    def __init__(self, dtype: Any) -> None:
        super().__init__(dtype.name, f"a numpy.{dtype.name}", LEAST + 1, MOST, "times")
        self.dtype = dtype

    def code(self, value: Any) -> int:
        if hasattr(value, "to_datetime64") and value.tzinfo is None:
            value = self.of_unit(value.to_datetime64())
        if getattr(value, "dtype", None) != self.dtype or getattr(value, "ndim", 0):
            raise self.type_error(value)
        code = int(value.view("i8"))
        if code == LEAST:
            raise ValueError(NAT)
        return code

    def codes(self, values: list[Any]) -> list[int]:
        if {*map(type, values)} != {self.dtype.type} or any(map(self.dtype.__ne__, map(_DTYPE, values))):
            return super().codes(values)
        codes = array("q", b"".join(values)).tolist()
        if LEAST in codes:
            raise ValueError(NAT)
        return codes

    def value(self, code: int) -> Any:
        return self.dtype.type(code, self._unit())

    def length(self, count: int) -> Any:
        import numpy

        if count > MOST:
            raise OverflowError(f"numpy has no timedelta64[{self._unit()}] of more than 2**63 - 1, and the ranges have {count}")
        return numpy.timedelta64(count, self._unit())

    def count(self, length: Any) -> int:
        import numpy

        if not isinstance(length, (timedelta, numpy.timedelta64)):
            raise TypeError(f"expected a timedelta, not {named(length)}")
        if isinstance(length, timedelta):
            # numpy makes another length of one with more bits.
            DELTA.checked(length // _MICROSECOND)
        given = numpy.timedelta64(length)
        found: Any = given.astype(f"m8[{self._unit()}]")
        # NaT differs from itself. What has more than 64 bits of the unit is only seen when it is converted back.
        if found != given or found.astype(given.dtype) != given:
            raise ValueError(f"expected a timedelta of whole {self._unit()} in 64 bits")
        return int(found.view("i8"))

    def shown(self, value: Any) -> str:
        # numpy's own texts of times far beyond the age of the universe may not read back.
        text, unit = str(value), self._unit()
        return f"numpy.datetime64({(text if self.dtype.type(text, unit) == value else self.code(value))!r}, '{unit}')"

    def read(self, text: str) -> Any:
        """The time of a text, as numpy reads it."""
        import numpy

        return self.of_unit(numpy.datetime64(text))

    def of_unit(self, given: Any) -> Any:
        """A time of another unit in this one, which has to have it."""
        found, is_exact = in_unit(given, self.dtype)
        if not is_exact:
            raise inexact(self)
        return found

    def _unit(self) -> str:
        return unit_of(self)


def _refuse_nanoseconds(value: Any, part: str) -> None:
    """Raises a ValueError for what pandas has beside Python's own times: NaT and nanoseconds."""
    refuse_nat(value)
    if getattr(value, part, 0):
        raise ValueError(f"expected microseconds, and {value!r} has nanoseconds: numpy's datetime64[ns] keep them")


def in_unit(times: Any, dtype: Any) -> tuple[Any, Any]:
    """Numpy's times in another unit, and for each whether it has that time, or NaT."""
    found = times.astype(dtype)
    return found, (found.astype(times.dtype) == times) | (times != times)


def unit_of(kind: Kind) -> str:
    """The unit of times, by numpy's name."""
    name = str(kind.dtype)
    return name[name.index("[") + 1 : -1]


def inexact(kind: Kind) -> ValueError:
    """The error of a time that lies between two of a kind, or beyond them."""
    return ValueError(f"expected a time of whole {unit_of(kind)} in 64 bits")


DATE, DELTA = Dates(), Deltas()
NAIVE = Times("datetime", "a datetime without a time zone", None)
AWARE = Times("datetime[UTC]", "a datetime with a time zone", timezone.utc)
_OF_DTYPES: dict[Any, Kind] = {}


def of_dtype(dtype: Any) -> Kind:
    """The kind of numpy's times of a unit: one for each, also if two threads ask for it at once."""
    if (found := _OF_DTYPES.get(dtype)) is None:
        if dtype.kind != "M" or "[" not in dtype.name:
            raise TypeError(f"expected numpy's datetime64 of a unit, not {dtype.name}")
        native = dtype.newbyteorder("=")
        found = _OF_DTYPES[dtype] = _OF_DTYPES.get(native) or _OF_DTYPES.setdefault(native, Numpys(native))
    return found
