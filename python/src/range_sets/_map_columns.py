"""What maps are made of as columns: starts, ends and values."""

from __future__ import annotations

from itertools import compress

from ._columns import table_of_columns
from ._kind import NO_KIND, Kind
from ._map_questions import OF_NO_SIGN
from ._sources import _dtype_letter, _has_intervals, _numbers_of_table, items_of
from ._typing import TYPE_CHECKING

if TYPE_CHECKING:
    from typing import Any


class Columns:
    """The columns of ranges and their values."""

    __slots__ = ("starts", "ends", "values")

    def __init__(self, starts: Any, ends: Any, values: list[Any]) -> None:
        self.starts, self.ends, self.values = starts, ends, values

    def numbers(self, kind: Kind) -> tuple[bytes, tuple[Any, ...], Kind] | None:
        """The numbers of the starts and ends in turn, the values, and the kind; or None, if these are read one by one."""
        table, of_table = table_of_columns(self.starts, self.ends, kind)
        if isinstance(table, list):
            return None
        import numpy

        numbers, found = _numbers_of_table(table, of_table)
        if kind is NO_KIND and found.unsigned:
            raise TypeError(OF_NO_SIGN)
        pairs = numpy.asarray(numbers).reshape(-1, 2)
        # A range whose end isn't above its start has no key.
        some = pairs[:, 0] < pairs[:, 1]
        return pairs[some].tobytes(), tuple(compress(self.values, some.tolist())), found

    def pairs(self) -> list[tuple[Any, Any]]:
        return [*zip(zip(self.starts, self.ends), self.values)]


def columns_with(starts: Any, ends: Any, values: Any) -> Columns:
    """The columns, of which the values are Python's own if it has such."""
    if hasattr(values, "to_numpy") and values.ndim == 1:
        values = values.astype(object)
    is_plain = _dtype_letter(values) in tuple("biufcUSO") and values.ndim == 1
    given = values.tolist() if is_plain else items_of(values, "values, as in a list")
    if len(given) != len(starts):
        raise ValueError(f"expected as many values as starts, and there are {len(given)} and {len(starts)}")
    return Columns(starts, ends, given)


def columns_of_map(source: Any) -> Columns | None:
    """The columns of a data frame with three, or of a column whose index has intervals; None for anything else."""
    if isinstance(source, Columns) or not hasattr(source, "iloc"):
        return source if isinstance(source, Columns) else None
    if getattr(source, "shape", ())[1:] == (3,):
        return columns_with(*(source.iloc[:, at] for at in range(3)))
    if getattr(source, "ndim", 0) == 1 and _has_intervals(source.index):
        return columns_with(source.index.left, source.index.right, source)
    return None
