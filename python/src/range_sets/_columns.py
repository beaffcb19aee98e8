"""Columns of tables: two of starts and ends as a table of numpy's, and the elements of a set as columns of pandas."""

from __future__ import annotations

from ._arrays import array_of, has_mask, lengths_in_python, times_in_utc
from ._kind import Kind
from ._kinds import ADDRESS
from ._times import AWARE, DATE
from ._typing import TYPE_CHECKING

if TYPE_CHECKING:
    from typing import Any


def in_microseconds(columns: tuple[Any, ...], kind: Kind | None) -> tuple[tuple[Any, ...], Kind | None]:
    """Columns of times with a zone as numpy's in UTC, and those of lengths of time as its lengths; others as they are. And the kind, if it
    is known."""
    utc = [it for it in (times_in_utc(it, kind) for it in columns) if it is not None]
    if utc and len(utc) == len(columns):
        return (*utc,), AWARE
    return (*map(lengths_in_python, columns),), kind


def stacked(columns: tuple[Any, ...]) -> Any:
    """A table of numpy's of two columns."""
    import numpy

    return numpy.stack(columns, axis=-1).reshape(-1, 2)


def table_of_columns(starts: Any, ends: Any, kind: Kind | None) -> tuple[Any, Kind | None]:
    """A table of numpy's with the starts and ends of two columns, and the kind if it is known; or their pairs, if the two aren't alike or
    have objects of Python's."""
    if len(starts) != len(ends):
        raise ValueError(f"expected as many starts as ends, and there are {len(starts)} and {len(ends)}")
    if has_mask(starts) or has_mask(ends):
        raise TypeError("expected arrays without a mask")
    (starts, ends), kind = in_microseconds((starts, ends), kind)
    types = [getattr(it, "dtype", None) for it in (starts, ends)]
    if types[0] == types[1] and getattr(types[0], "kind", "O") in "iufMm":
        table = stacked((starts, ends))
        # Of columns that may lack some elements numpy makes objects.
        if table.dtype.kind != "O":
            return table, kind
    return [*zip(starts, ends)], kind


def arrays_of(codes: Any, kind: Kind) -> tuple[Any, Any]:
    """The starts and the ends of ranges as arrays of numpy, by their numbers in turn."""
    if len(codes) % 2:
        raise ValueError(f"expected an end of each range, and there is none from {kind.value(codes[-1])} on")
    found = array_of((codes, kind))
    return found[::2].copy(), found[1::2].copy()


def frame_of(codes: Any, kind: Kind, **more: list[Any]) -> Any:
    """The same as a data frame of pandas with more columns. If the last range has no end, the ends are objects with None as the last."""
    import pandas

    found: Any = array_of((codes, kind))
    if kind is AWARE:
        found = pandas.DatetimeIndex(found).tz_localize("UTC")
    elif kind is DATE or kind is ADDRESS:
        found = pandas.Series([*kind.values(codes)], dtype=object)
    starts, ends = (pandas.Series(found[at::2]).reset_index(drop=True) for at in (0, 1))
    if len(codes) % 2:
        ends = pandas.Series([*ends, None], dtype=object)
    values = {name: pandas.Series(it, dtype=object).infer_objects() for name, it in more.items()}
    return pandas.DataFrame({"start": starts, "end": ends, **values})


def intervals_of(codes: Any, kind: Kind) -> Any:
    """The ranges as intervals of pandas. Dates are their midnights."""
    import pandas

    if kind.is_ordered or kind is ADDRESS:
        raise TypeError(f"pandas has no intervals of {kind.plural}")
    ends = [pandas.Index(it) for it in arrays_of(codes, kind)]
    return pandas.IntervalIndex.from_arrays(*(it.tz_localize("UTC") if kind is AWARE else it for it in ends), closed="left")
