"""Which elements and ranges are next, and where many elements in a row fit, or are members."""

from __future__ import annotations

from . import _core
from ._kind import NO_KIND, Kind
from ._kinds import kind_of_first
from ._numbers import most
from ._ordered import first_in
from ._questions import Questions
from ._sources import range_of
from ._typing import TYPE_CHECKING, E

if TYPE_CHECKING:
    from typing import Any


class Fits(Questions[E]):
    """Searches for the elements and the range next to one, and for a length of elements, none of which is a member or all of which are."""

    __slots__ = ()

    def range_from(self, value: E) -> tuple[E, E | None] | None:
        """The first range that has an element or lies above it, or None if there is none.

        Cost: a search.

        >>> s = RangeSet([(0, 10), (20, 30)])
        >>> s.range_from(5), s.range_from(15), s.range_from(30)
        ((0, 10), (20, 30), None)
        """
        asked, kind, code = self._next_to(value)
        return kind.pair(_core.range_from(asked, code))

    def next_member(self, value: E) -> E | None:
        """The least member from an element on, or None if there is none.

        Cost: a search.

        >>> s = RangeSet([(0, 10), (20, 30)])
        >>> s.next_member(5), s.next_member(15), s.next_member(30)
        (5, 20, None)
        """
        return self._next(_core.next_member, value)

    def next_gap(self, value: E) -> E | None:
        """The least element from one on that is no member, or None if there is none.

        Cost: a search.

        >>> s = RangeSet([(0, 10), (20, None)])
        >>> s.next_gap(5), s.next_gap(15), s.next_gap(20)
        (10, 15, None)
        """
        return self._next(_core.next_gap, value)

    def prev_member(self, value: E) -> E | None:
        """The greatest member up to an element, or None if there is none. IPv6 addresses and values that sort aren't counted, and have none.

        Cost: a search.

        >>> s = RangeSet([(0, 10), (20, 30)])
        >>> s.prev_member(25), s.prev_member(15), s.prev_member(-1)
        (25, 9, None)
        """
        return self._next(_core.prev_member, value)

    def prev_gap(self, value: E) -> E | None:
        """The greatest element up to one that is no member, or None if there is none, of what `prev_member` takes.

        Cost: a search.

        >>> s = RangeSet([(0, 10), (20, 30)])
        >>> s.prev_gap(25), s.prev_gap(15)
        (19, 15)
        """
        return self._next(_core.prev_gap, value)

    def _next_to(self, value: Any) -> tuple[Any, Kind, int]:
        """What is asked, the kind, and the number of an element, which of values that sort may lie below all boundaries."""
        asked, kind = self._seen
        if kind is NO_KIND:
            kind = kind_of_first((value,)) or kind
        return asked, kind, kind.code(value) if kind.is_ordered else kind.number(value)

    def _next(self, call: Any, value: Any) -> E | None:
        asked, kind, code = self._next_to(value)
        if kind.is_ordered and call in (_core.prev_member, _core.prev_gap):
            raise TypeError(kind.uncounted)
        found = call(asked, code)
        if kind.is_ordered and found == code:
            # What isn't a boundary has the number of one.
            return value  # type: ignore[no-any-return]
        return None if found is None or found < kind.least else kind.value(found)

    def first_fit(self, length: Any, start: E | None = None, end: E | None = None) -> E | None:
        """The first element from `start` on where `length` elements before `end` are no members, or None if there is none. For times
        and dates the length is a `timedelta`.

        Cost: goes over the ranges up to the result; a `MutableRangeSet` remembers which gaps are short.

        >>> RangeSet([(0, 10), (12, 20)]).first_fit(3, 0)
        20
        """
        return self._first(_core.first_fit, _core.first_fit_from, start, end, length)

    def first_fit_aligned(self, length: Any, align: Any, start: E | None = None, end: E | None = None) -> E | None:
        """The first multiple of `align` from `start` on where `length` elements before `end` are no members, or None if there is none.
        Times and dates are multiples of a `timedelta` from 1970-01-01 on: with 15 minutes they are at each quarter of an hour.

        Cost: that of `first_fit`.

        >>> RangeSet([(0, 10), (12, 20)]).first_fit_aligned(3, 8, 0)
        24
        """
        return self._first(_core.first_fit_aligned, _core.first_fit_aligned_from, start, end, length, align)

    def first_run(self, length: Any, start: E | None = None, end: E | None = None) -> E | None:
        """The first element from `start` on where `length` elements before `end` are all members, or None if there is none. For times
        and dates the length is a `timedelta`.

        Cost: goes over the ranges up to the result.

        >>> RangeSet([(0, 10), (12, 30)]).first_run(12)
        12
        """
        return self._first(_core.first_run, _core.first_run_from, start, end, length)

    def _first(self, call: Any, call_from: Any, start: Any, end: Any, length: Any, align: Any = None) -> E | None:
        asked, kind = self._seen
        if kind is NO_KIND:
            kind = kind_of_first((start, end)) or kind
        count = kind.count(length)
        if count < 0:
            raise ValueError("expected a length from 0 on")
        multiple = 1 if align is None else kind.count(align)
        if multiple < 1:
            raise ValueError("expected an align above 0")
        is_run = call is _core.first_run
        if kind.is_ordered:
            left, right, both = self._beside(range_of(start, end, kind))
            some = (_core.intersection if is_run else _core.difference)(right, left) if count else right
            place: Any = first_in([*both.values(some)], count, multiple)
            return place  # type: ignore[no-any-return]
        if kind.is_plain:
            # The extension reads them.
            first, before = kind.least if start is None else start, end
        else:
            first, before = kind.checked(kind.start(start)), kind.end(end)
            if before is not None:
                kind.checked(before)
            elif kind.most < most(kind.unsigned):
                before = kind.most + 1
        # Of greater ones zero alone is a multiple, as of this one but for the greatest number.
        counts = [count] if align is None else [count, min(multiple, 2**64 - 1)]
        if count < 2**64:
            found = call_from(asked, first, *counts) if before is None else call(asked, first, before, *counts)
        else:
            # No count that the extension takes is of all numbers.
            is_whole = count == 2**64 and before is None and first == kind.least and first % multiple == 0
            found = first if is_whole and not (~self if is_run else self) else None
        return None if found is None or found % multiple else kind.value(found)
