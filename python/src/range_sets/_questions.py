"""What sets answer: about an element, a range, how much they cover, and another set."""

from __future__ import annotations

from operator import index

from . import _core
from ._arrays import contains_each, covered_within_each, overlaps_each, range_at_each, rank_each
from ._core import Boundaries
from ._floats import FLOAT
from ._kept import Kept
from ._kind import NO_KIND, Kind, Now
from ._kinds import NETWORKS, asked_error, kind_of, kind_of_first
from ._operators import Operators
from ._sources import all_from, codes_of_range, gather
from ._typing import TYPE_CHECKING, E

if not TYPE_CHECKING:
    from ._typing import overload
else:
    from datetime import date, datetime, timedelta
    from ipaddress import IPv4Address, IPv6Address
    from typing import Any, SupportsIndex, overload

    from ._typing import Array, Network, OneRange, Source


class Questions(Operators[E]):
    """What is asked of a set by a name. Arrays are asked about at once."""

    __slots__ = ()

    def __contains__(self, value: E | Network[E]) -> bool:
        asked, kind = self._seen
        try:
            return _core.contains(asked, value if kind.is_whole else kind.number(value))  # type: ignore[arg-type]
        except OverflowError:
            return False
        except TypeError as error:
            if kind is NO_KIND and kind_of(value):
                return False
            if isinstance(value, NETWORKS):
                return self.covers(value)  # type: ignore[arg-type]
            raise asked_error(value, kind, error) from None

    def contains(self, values: Any) -> Any:
        """For each element of an array whether it is a member, as a numpy array of bools. NaT, NaN and NA are none, and None unless these are whole
        numbers.

        Cost: a search for each, and a short one if they are in order.

        >>> RangeSet([(0, 10)]).contains([5, 10, 9]).tolist()
        [True, False, True]
        """
        return contains_each(self._now, values)

    def overlaps(self, starts: Any, ends: Any) -> Any:
        """For each start and end in two arrays whether an element from the one up to below the other is a member, as an array of bools.

        Cost: goes over all ranges once, and a search for each.

        >>> import numpy
        >>> RangeSet([(0, 10), (20, 30)]).overlaps(numpy.array([5, 10]), numpy.array([7, 20])).tolist()
        [True, False]
        """
        return overlaps_each(self._now, starts, ends)

    def covered_within(self, starts: Any, ends: Any) -> Any:
        """How many members each range of two arrays has, as an array; of times lengths of numpy's. Floats can't be counted.

        Cost: goes over all ranges once, and a search for each.

        >>> import numpy
        >>> RangeSet([(0, 10), (20, 30)]).covered_within(numpy.array([5, 10]), numpy.array([25, 20])).tolist()
        [10, 0]
        """
        return covered_within_each(self._now, starts, ends)

    @overload
    def covers(self, start: OneRange[E]) -> bool:
        ...

    @overload
    def covers(self, start: E | None, end: E | None) -> bool:
        ...

    def covers(self, start: Any, end: Any = ...) -> bool:
        """Whether each element from a start up to, not including, an end is a member. It takes the two, a pair, a `range` or an element.

        Cost: a search.

        >>> s = RangeSet([(0, 10), (20, None)])
        >>> s.covers(3, 10), s.covers((3, 11)), s.covers(25, None)
        (True, False, True)
        """
        asked, known = self._seen
        first, last, kind = codes_of_range(start, end, known)
        low, high = kind.least, kind.most
        if last is not None and last <= first:
            return True
        if first < low or first > high or (last is not None and last > high + 1):
            return False
        if known is not kind:
            # A set of no kind has nothing.
            return False
        if last is not None and last <= high:
            return _core.contains_range(asked, first, last)
        found = _core.range_at(asked, first)
        return found is not None and found[1] is None

    @overload
    def range_at(self, value: Array) -> tuple[Any, Any]:
        ...

    @overload
    def range_at(self, value: E) -> tuple[E, E | None] | None:
        ...

    def range_at(self, value: Any) -> Any:
        """The range that has the element, or None if it is no member. Of an array it is two of numpy's, masked where there is no end or none;
        of times with a zone these have Python's.

        Cost: a search for each.

        >>> s = RangeSet([(0, 10), (20, None)])
        >>> s.range_at(5), s.range_at(15), s.range_at(20)
        ((0, 10), None, (20, None))
        """
        if getattr(value, "ndim", 0):
            return range_at_each(self._now, value)
        asked, kind = self._seen
        if kind is NO_KIND:
            kind = kind_of_first((value,)) or kind
        try:
            return kind.pair(_core.range_at(asked, kind.number(value)))
        except OverflowError:
            return None

    @overload
    def covered(self: Questions[int]) -> int | None:
        ...

    @overload
    def covered(self: Questions[IPv4Address] | Questions[IPv6Address]) -> int:
        ...

    @overload
    def covered(self: Questions[float]) -> float | None:
        ...

    @overload
    def covered(self: Questions[date] | Questions[datetime] | Questions[timedelta]) -> timedelta | None:
        ...

    @overload
    def covered(self) -> Any:
        ...

    def covered(self) -> Any:
        """How many numbers or addresses are members. Of times and dates it is a `timedelta`, and of floats the sum of the lengths of
        the ranges. It is None if the last range has no end, as has one up to the greatest number or time. Addresses always have one.
        Values that sort can't be counted.

        Cost: goes over all ranges.

        >>> RangeSet([(0, 10), (20, 25)]).covered()
        15
        """
        asked, kind = self._seen
        return kind.covered(self._now[0] if kind is FLOAT else asked)

    @overload
    def rank(self, value: Array) -> Any:
        ...

    @overload
    def rank(self, value: E) -> int:
        ...

    def rank(self, value: Any) -> Any:
        """How many members are below an element, or of an array below each. Floats, IPv6 addresses and
        values that sort can't be counted.

        Cost: goes over the ranges below.

        >>> s = RangeSet([(0, 10), (20, None)])
        >>> s.rank(5), s.rank(15), s.rank(22)
        (5, 10, 12)
        """
        if getattr(value, "ndim", 0):
            return rank_each(self._now, value)[..., 0]
        asked, kind = self._seen
        upper, kind = all_from(value, kind)
        if kind.uncounted:
            raise TypeError(kind.uncounted)
        return _core.rank(asked, upper[0])

    def select(self, k: SupportsIndex) -> E | None:
        """The member with `k` others below it, or None if no more than `k` are members. Floats, IPv6 addresses and
        values that sort can't be counted.

        Cost: goes over the ranges up to the result.

        >>> s = RangeSet([(0, 10), (20, None)])
        >>> s.select(0), s.select(12), RangeSet([(0, 10)]).select(10)
        (0, 22, None)
        """
        asked, kind = self._seen
        if kind.uncounted:
            raise TypeError(kind.uncounted)
        at = index(k)
        if at < 0:
            raise ValueError("expected a number of members from 0 on")
        found = _core.select(asked, at) if at < 2**64 else None
        return None if found is None or found > kind.most else kind.value(found)

    def span(self) -> tuple[E, E | None] | None:
        """From the start of the first range to the end of the last one, or None if the set is empty.

        Cost: none.

        >>> RangeSet([(0, 10), (20, 25)]).span()
        (0, 25)
        """
        asked, kind = self._seen
        return kind.pair(_core.span(asked))

    # ---- Of two sets ----

    def _of(self, source: Source[E]) -> Now:
        kind = self._kind
        return gather(source, None if kind is NO_KIND or isinstance(source, Kept) else kind)

    def _met(self, source: Source[E]) -> tuple[Boundaries, Boundaries, Kind]:
        """What `_both` has of this set and one that a source makes."""
        return self._both(source) if isinstance(source, Operators) else self._beside(self._of(source))

    def isdisjoint(self, other: Source[E]) -> bool:
        """Whether no element is in both sets.

        Cost: searches for the ranges of the smaller set.

        >>> RangeSet([(0, 5)]).isdisjoint([(5, 9)])
        True
        """
        left, right, _ = self._met(other)
        return _core.is_disjoint(left, right)

    def issubset(self, other: Source[E]) -> bool:
        """Whether each member is one of the other set; `<=` takes sets alone.

        Cost: searches for the ranges of the smaller set.

        >>> RangeSet([(0, 5)]).issubset(range(10))
        True
        """
        return self <= other if isinstance(other, Operators) else self._is_within(self._of(other))

    def issuperset(self, other: Source[E]) -> bool:
        """Whether each member of the other set is one of this; `>=` takes sets alone.

        Cost: searches for the ranges of the smaller set.

        >>> RangeSet([(0, 5)]).issuperset(range(3))
        True
        """
        if isinstance(other, Operators) and len(self) < len(other):
            return other._is_within(self._now)
        return self._has(self._of(other))
