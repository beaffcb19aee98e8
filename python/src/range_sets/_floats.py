"""Floats as elements."""

from __future__ import annotations

from array import array
from math import inf
from operator import index
from struct import Struct

from . import _core
from ._core import Boundaries
from ._kind import NAN, UNCOUNTED, Kind
from ._typing import TYPE_CHECKING

if TYPE_CHECKING:
    from typing import Any, Iterator


_FLOAT, _NUMBER = Struct("d"), Struct("q")


class Float(Kind):
    """Floats by their bits; the number of one below zero is minus the bits of its absolute value, so numbers sort as floats do."""

    uncounted = UNCOUNTED

    def __init__(self) -> None:
        self.infinity = self.codes([inf])[0]
        super().__init__("float", "a float", -self.infinity, self.infinity, "floats")

    def code(self, value: Any) -> int:
        if not isinstance(value, float):
            value = _exact(value, self)
        if value != value:
            raise ValueError(NAN)
        return self.codes([value])[0]

    def codes(self, values: list[Any]) -> list[int]:
        return _core.numbers_of_floats(values) or super().codes(values)

    def value(self, code: int) -> float:
        found: float = _FLOAT.unpack(_NUMBER.pack(abs(code)))[0]
        return found if code >= 0 else -found

    def values(self, codes: Any) -> Iterator[float]:
        made = array("d", bytes(8 * len(codes)))
        _core.mirror(codes, memoryview(made).cast("B").cast("q"))
        return iter(made)

    def codes_of_one(self, value: Any) -> tuple[int, int | None]:
        raise TypeError(f"{UNCOUNTED}: expected a start and an end")

    def covered(self, boundaries: Boundaries) -> float | None:
        if len(boundaries) % 2:
            return None
        try:
            # Exact until the division, which rounds once.
            return sum(count << at for count, at in _core.lengths_of_floats(boundaries)) / 2**1074
        except OverflowError:
            return inf

    def count(self, length: Any) -> int:
        raise TypeError(f"{UNCOUNTED}, so no number of them fits anywhere: look at the lengths of gaps()")

    def distance(self, length: Any) -> float:
        found = self.value(self.code(length))
        if found in (inf, -inf):
            raise ValueError("expected a finite length")
        return found

    def line(self, boundaries: Boundaries) -> tuple[list[float], float, float]:
        return [*self.values(boundaries)], -inf, inf

    def shown(self, value: float) -> str:
        return f"float('{value}')" if value in (inf, -inf) else repr(value)

    def place(self, code: int) -> float:
        # A quarter, so that differences of two aren't infinite.
        return self.value(max(min(code, self.infinity - 1), 1 - self.infinity)) / 4


def _exact(value: Any, kind: Kind) -> float:
    """The float of a whole number, or of one of numpy's smaller floats."""
    number = value
    if not is_numpy_float(value):
        try:
            number = index(value)
        except TypeError:
            raise kind.type_error(value) from None
    found = float(number)
    if found != number and number == number:
        raise ValueError(f"{number} is no float")
    return found


def is_numpy_float(value: Any) -> bool:
    return getattr(getattr(value, "dtype", None), "kind", "") == "f" and not value.ndim


FLOAT: Float = Float()
