"""Sets as arrays, tables and masks, and made of these."""

from __future__ import annotations

from . import _core
from ._columns import arrays_of, frame_of, intervals_of, table_of_columns
from ._kind import NO_KIND, Kind
from ._kinds import given_kind, kind_of_first
from ._numbers import typecode_of
from ._questions import Questions
from ._sources import gather
from ._typing import TYPE_CHECKING, E

if not TYPE_CHECKING:
    from ._typing import overload
else:
    from typing import Any, Iterable, Self, overload

    from ._sets import MutableRangeSet, RangeSet
    from ._typing import KindLike


class Tables(Questions[E]):
    """What numpy and pandas have of a set: a start and an end for each range, or a truth for each element."""

    __slots__ = ()

    @overload
    @classmethod
    def from_arrays(cls, starts: Iterable[E], ends: Iterable[E | None], *, unsigned: bool | None = None, kind: KindLike[E] = None) -> Self:
        ...

    @overload
    @classmethod
    def from_arrays(cls, starts: Any, ends: Any, *, unsigned: bool | None = None, kind: KindLike[E]) -> Self:
        ...

    @classmethod
    def from_arrays(cls, starts: Any, ends: Any, *, unsigned: bool | None = None, kind: KindLike[E] = None) -> Self:
        """The elements in some range of two arrays or columns, of which one has the starts and the other the ends, in any order.

        Cost: that of sorting them.

        >>> RangeSet.from_arrays([20, 0, 3], [30, 5, 8])
        RangeSet([(0, 8), (20, 30)])
        """
        return cls._over(*gather(*table_of_columns(starts, ends, given_kind(kind, unsigned))))

    def to_arrays(self) -> tuple[Any, Any]:
        """The starts and the ends of the ranges as arrays of numpy, as `numpy.asarray` has them in one. If a range has no end, that is a
        ValueError.

        Cost: goes over all ranges.

        >>> import numpy
        >>> starts, ends = RangeSet([(0, 10), (20, 25)]).to_arrays()
        >>> (ends - starts).tolist()
        [10, 5]
        """
        return arrays_of(*self._now)

    def to_frame(self) -> Any:
        """A data frame of pandas with the columns `start` and `end`, which makes the set again. Times with a zone are in UTC. Those
        without are pandas', of which `astype("datetime")` makes Python's. If the last range has no end, its end is None.

        Cost: goes over all ranges.

        >>> print(RangeSet([(0, 10), (20, 25)]).to_frame())
           start  end
        0      0   10
        1     20   25
        """
        return frame_of(*self._now)

    def intervals(self) -> Any:
        """The ranges as an IntervalIndex of pandas, closed on the left. Times with a zone are in UTC, and dates are their midnights. If a
        range has no end, that is a ValueError.

        Cost: goes over all ranges.

        >>> RangeSet([(0, 10), (20, 25)]).intervals().length.tolist()
        [10, 5]
        """
        return intervals_of(*self._now)

    @overload
    @classmethod
    def from_mask(cls: type[RangeSet[Any]], mask: Any, *, unsigned: bool | None = None) -> RangeSet[int]:  # type: ignore[misc]
        ...

    @overload
    @classmethod
    def from_mask(cls: type[MutableRangeSet[Any]], mask: Any, *, unsigned: bool | None = None) -> MutableRangeSet[int]:  # type: ignore[misc]
        ...

    @overload
    @classmethod
    def from_mask(cls, mask: Any, start: E, *, unsigned: bool | None = None, kind: KindLike[E] = None) -> Self:
        ...

    @overload
    @classmethod
    def from_mask(cls, mask: Any, *, unsigned: bool | None = None, kind: KindLike[E]) -> Self:
        ...

    @classmethod
    def from_mask(cls, mask: Any, start: Any = 0, *, unsigned: bool | None = None, kind: KindLike[E] = None) -> Self:
        """The elements where an array of bools is true, of which the first one is that of `start`.

        Cost: goes over the array.

        >>> import numpy
        >>> RangeSet.from_mask(numpy.array([False, True, True, False, True]))
        RangeSet([(1, 3), (4, 5)])
        """
        import numpy

        given = numpy.asarray(mask)
        if given.ndim != 1 or (given.dtype != bool and given.size):
            raise TypeError("expected an array of bools, with one dimension")
        found = given_kind(kind, unsigned) or kind_of_first((start,)) or NO_KIND
        first = _place(start, found)
        edges = numpy.flatnonzero(numpy.diff(given.astype(bool, copy=False), prepend=False, append=False))
        last = first + int(edges[-1]) if len(edges) else first
        # An end one past the greatest element is none.
        if last == found.most + 1:
            edges = edges[:-1]
        else:
            found.checked(last)
        codes = edges.astype(typecode_of(found.unsigned)) + numpy.array(first, dtype=typecode_of(found.unsigned))
        return cls._over(_core.from_boundaries(codes), found)

    def to_mask(self, start: E, stop: E) -> Any:
        """For each element from a start up to, not including, a stop whether it is a member, as an array of bools.

        Cost: two searches, and the array.

        >>> import numpy
        >>> RangeSet([(1, 3), (4, 5)]).to_mask(0, 5).tolist()
        [False, True, True, False, True]
        """
        import numpy

        kind = self._kind
        if kind is NO_KIND:
            kind = kind_of_first((start, stop)) or kind
        first, last = _place(start, kind), _place(stop, kind)
        left, right, _ = self._beside((kind.range_list(first, last), kind))
        inside = _core.intersection(right, left)
        limits = numpy.array([first, max(first, last)], dtype=typecode_of(kind.unsigned))
        edges = numpy.concatenate((limits[:1], numpy.asarray(inside), limits[1:]))
        return numpy.repeat(numpy.arange(len(inside) + 1) % 2 == 1, numpy.diff(edges).astype("i8"))


def _place(element: Any, kind: Kind) -> int:
    """The number of an element that has a place in a mask."""
    if element is None:
        raise TypeError("expected an element, not None")
    if kind.uncounted:
        raise TypeError(f"{kind.uncounted}, and have no places in a mask")
    return kind.number(element)
