"""Whole arrays at once, by numpy: which of their elements are members, and sets as arrays."""

from __future__ import annotations

from . import _core
from ._floats import FLOAT
from ._kind import NAT, NO_KIND, Kind, Now
from ._kinds import kind_of_first
from ._numbers import typecode_of
from ._ordered import Ordered
from ._times import AWARE, DELTA, NAIVE, Numpys, in_unit
from ._typing import TYPE_CHECKING

if TYPE_CHECKING:
    from typing import Any


def codes_of_each(kind: Kind, values: Any, takes_none: bool) -> tuple[Any, Any]:
    """The numbers of the elements in an array of numpy, or in what it makes one of; and which are no elements, as NaT, NaN, NA, whole
    numbers out of range, and None if it takes that, but of whole numbers. The numbers of these mean nothing."""
    import numpy

    if kind.is_ordered:
        # Of a list of tuples and the like numpy would make a table.
        values = _objects(values)
    in_utc = times_in_utc(values, kind)
    found = numpy.asarray(values) if in_utc is None else in_utc
    gone = numpy.zeros(found.shape, dtype=bool)
    if kind.is_whole and found.dtype.kind in "iub":
        if (found.dtype.kind != "i") != kind.unsigned:
            gone = found < 0 if kind.unsigned else found > kind.most
        return found.astype(typecode_of(kind.unsigned)), gone
    if kind.dtype is not None and found.dtype.newbyteorder("=") == numpy.dtype(kind.dtype):
        return found.astype(kind.dtype).view("i8"), numpy.isnat(found)
    letter = "m" if kind is DELTA else "M" if kind is NAIVE or isinstance(kind, Numpys) else ""
    if found.dtype.kind == letter and hasattr(values, "to_numpy"):
        times, gone = _in_unit_of(kind, values), numpy.isnat(found)
        codes = times.view("i8")
        return codes, gone | (codes < kind.least) | (codes > kind.most)
    if kind is FLOAT and found.dtype.kind == "f" and found.dtype.itemsize <= 8:
        gone = numpy.isnan(found)
        return codes_of_floats(numpy.where(gone, 0, found)), gone
    if kind.is_whole and found.size and hasattr(values, "dtype") and found.dtype.kind != "O":
        raise TypeError(f"expected whole numbers, not {found.dtype}")
    # A list may have whole numbers of more than 64 bits.
    elements = (numpy.asarray(values, dtype=object) if kind.is_whole else found).reshape(-1).tolist()
    # As which numpy has times of units that Python has no type for.
    if found.dtype.kind in "mM" and any(isinstance(it, int) for it in elements):
        raise kind.array_type_error(found.dtype)
    code = kind.code if kind.is_whole or kind.is_ordered else kind.number
    codes = [None if (it is None and takes_none and not kind.is_whole) or _is_gone(it) else code(it) for it in elements]
    none = [it is None or not kind.least <= it <= kind.most for it in codes]
    numbers = [0 if is_none else it for it, is_none in zip(codes, none)]
    return numpy.array(numbers, dtype=typecode_of(kind.unsigned)).reshape(found.shape), numpy.array(none, dtype=bool).reshape(found.shape)


def _in_unit_of(kind: Kind, column: Any) -> Any:
    """The times or lengths of a column of pandas in a kind's unit, or the error of one that it hasn't."""
    import numpy

    found, is_exact = in_unit(numpy.asarray(column), kind.dtype)
    for it in numpy.asarray(column, dtype=object).reshape(-1)[~is_exact.reshape(-1)][:1]:
        kind.number(it)
    return found


def lengths_in_python(column: Any) -> Any:
    """A column of pandas with lengths of time as microseconds, and anything else as it is."""
    letter = getattr(getattr(column, "dtype", None), "kind", "")
    return _in_unit_of(DELTA, column) if letter == "m" and hasattr(column, "to_numpy") else column


def _objects(values: Any) -> Any:
    """An array of numpy, or one of the objects in a list."""
    import numpy

    return numpy.asarray(values, dtype=object) if hasattr(values, "dtype") else numpy.fromiter(values, dtype=object)


def _is_gone(element: Any) -> bool:
    # Of two of pandas' NA each comparison is NA, and has no truth.
    return type(element).__name__ == "NAType" or element != element


def codes_of_floats(floats: Any) -> Any:
    """The numbers of an array of floats, as `FLOAT.code` gives them."""
    import numpy

    bits = numpy.asarray(floats, dtype=float, order="C").view("i8")
    codes = numpy.empty_like(bits)
    _core.mirror(bits.reshape(-1), codes.reshape(-1))
    return codes


def contains_each(now: Now, values: Any) -> Any:
    """For each element whether it is a member, as an array of bools. What is no element is none."""
    codes, gone = asked_of(now, values)
    return _each(_core.contains_each, now, codes, "?") & ~gone


def asked_of(now: Now, values: Any, takes_none: bool = True) -> tuple[Any, Any]:
    """What `codes_of_each` returns for the kind of a set. One of no kind has no element, of whatever kind these are."""
    import numpy

    if now[1] is not NO_KIND:
        return codes_of_each(now[1], values, takes_none)
    found = numpy.asarray(values)
    kind_of_first(found.reshape(-1)[:1].tolist())
    return numpy.zeros(found.shape, dtype="i8"), numpy.zeros(found.shape, dtype=bool)


def _each(call: Any, now: Now, codes: Any, dtype: str) -> Any:
    import numpy

    return numpy.frombuffer(call(now[0], numpy.ascontiguousarray(codes).reshape(-1)), dtype=dtype).reshape(codes.shape)


def _ranks(now: Now, *columns: Any) -> tuple[Any, Any]:
    """How many members are below each element, with a last dimension for the columns; and which aren't elements."""
    import numpy

    # None may be meant as no end.
    codes, gone = (numpy.stack(it, axis=-1) for it in zip(*(asked_of(now, it, takes_none=False) for it in columns)))
    return _each(_core.ranks, now, codes, "u8"), gone


def overlaps_each(now: Now, starts: Any, ends: Any) -> Any:
    """For each start and end whether an element from the one up to below the other is a member."""
    import numpy

    boundaries, kind = now
    if isinstance(kind, Ordered):
        pairs = numpy.broadcast(*(_objects(it) for it in (starts, ends)))
        each = [_core.intersects(boundaries, _core.range_list(*kind.ends_around(*it), False)) for it in pairs]
        return numpy.array(each, dtype=bool).reshape(pairs.shape)
    found, gone = _ranks(now, starts, ends)
    return (found[..., 0] < found[..., 1]) & ~gone.any(axis=-1)


def rank_each(now: Now, *columns: Any) -> Any:
    """For each element how many members are below. Two columns make a table."""
    kind, (found, gone) = now[1], _ranks(now, *columns)
    if kind.uncounted:
        raise TypeError(kind.uncounted)
    if gone.any():
        raise OverflowError(f"expected {kind.element}") if kind.is_whole else ValueError(NAT)
    return found.view("i8") if (found < 2**63).all() else found


def covered_within_each(now: Now, starts: Any, ends: Any) -> Any:
    """How much of each range is covered, as lengths of numpy's if the elements are times."""
    import numpy

    before, after = numpy.moveaxis(rank_each(now, starts, ends), -1, 0)
    found, dtype = numpy.where(after > before, after - before, 0), now[1].dtype
    return found if dtype is None else found.view(numpy.dtype(dtype).str.replace("M8", "m8"))


def range_at_each(now: Now, values: Any) -> tuple[Any, Any]:
    """The start and the end of the range of each element, as numpy has them, or Python's own with a time zone. They are masked where there
    is none."""
    import numpy

    (_, kind), (codes, gone) = now, asked_of(now, values)
    places, ends = _each(_core.places, now, codes, "i8"), array_of(now)
    some = numpy.zeros(len(ends) + 2, dtype=ends.dtype)
    some[: len(ends)] = ends
    none = gone | (places < 0)
    masked: Any = numpy.ma.MaskedArray
    starts, stops = masked(some[places], mask=none), masked(some[places + 1], mask=none | (places + 1 >= len(ends)))
    return (_in_python(starts), _in_python(stops)) if kind is AWARE else (starts, stops)


def _in_python(times: Any) -> Any:
    """The datetimes with a time zone of a masked array of times in UTC."""
    made = times.astype(object)
    made[~times.mask] = [*map(AWARE.value, times.compressed().view("i8").tolist())]
    return made


def times_in_utc(column: Any, kind: Kind | None) -> Any:
    """A column of pandas with a time zone, as microseconds in UTC, if its times may be of the kind. None for another, for one of
    nothing, and where a time has nanoseconds or is out of range: one by one they say which."""
    dtype: Any = getattr(column, "dtype", None)
    if getattr(dtype, "tz", None) is None or kind not in (None, NO_KIND, AWARE) or not len(column):
        return None
    import numpy

    times, is_exact = in_unit(numpy.asarray(column, dtype=f"M8[{dtype.unit}]"), AWARE.dtype)
    numbers = times[~numpy.isnat(times)].view("i8")
    return times if is_exact.all() and (numbers >= AWARE.least).all() and (numbers <= AWARE.most).all() else None


def has_mask(items: Any) -> bool:
    """Whether it is an array of numpy's that has a mask."""
    # A column of pandas has a method of that name.
    mask = getattr(items, "mask", None)
    return mask is not None and not callable(mask)


def refuse_nats(times: Any) -> None:
    """Raises a ValueError if one of numpy's times is NaT. It says which, or in which row of a table of starts and ends."""
    import numpy

    at = numpy.flatnonzero(numpy.isnat(times))
    if len(at):
        if times.ndim != 2:
            raise ValueError(f"{NAT}: it stands at {at[0]}, counted from 0")
        wanted = "an end None says that there is none, as insert(start, None) into the set of the other rows"
        raise ValueError(f"{NAT}: it stands in row {at[0] // 2}, counted from 0; {wanted}")


def array_of(now: Now) -> Any:
    """The boundaries as an array of numpy: in their own memory, but for floats and addresses."""
    import numpy

    boundaries, kind = now
    if kind is FLOAT:
        floats = numpy.empty(len(boundaries))
        _core.mirror(boundaries, floats.view("i8"))
        return floats
    if kind.is_ordered:
        return numpy.fromiter(kind.values(boundaries), dtype=object, count=len(boundaries))
    numbers = numpy.asarray(boundaries)
    if kind is DELTA and len(numbers) and numbers[0] == kind.least:
        raise ValueError("numpy has no timedelta64 for the least timedelta: its number is NaT's")
    return numbers if kind.dtype is None else numbers.view(kind.dtype)
