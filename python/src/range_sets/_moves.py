"""Sets whose ranges move, grow or shrink, and those of long ranges alone."""

from __future__ import annotations

from array import array
from ipaddress import IPv6Address
from itertools import chain, zip_longest
from math import isinf

from . import _core
from ._floats import FLOAT
from ._kind import NO_KIND, Kind, Now
from ._numbers import typecode_of
from ._questions import Questions
from ._sources import gather
from ._typing import TYPE_CHECKING, E

if TYPE_CHECKING:
    from typing import Any, Iterator, Self, Sequence


class Moves(Questions[E]):
    """What has each range of a set moved by a length, longer or shorter, or the long ones alone.

    Lengths are as `first_fit` takes them, and floats are added as Python adds them. A range without an end has none afterwards, and
    one from the least element on begins there, unless that is zero. Addresses have an end above the greatest one.
    """

    __slots__ = ()

    def shift(self, by: Any) -> Self:
        """Each member moved up by a length, or down by one below zero. If an end leaves the elements that there are, that is an
        OverflowError.

        Cost: goes over all ranges.

        >>> RangeSet([(0, 10), (20, None)]).shift(-5)
        RangeSet([(-5, 5), (15, None)])
        """
        now = self._now
        if now[1] is NO_KIND:
            return self._over(*now)
        distance = now[1].distance(by)
        if _leaves(now, distance):
            raise OverflowError(f"expected {now[1].element}{now[1].span}, also once it has moved")
        return self._over(*_moved(now, distance, distance))

    def widen(self, before: Any, after: Any) -> Self:
        """The elements at most `before` below a member or `after` above one, as far as there are any. With lengths below zero each
        range is shorter, and short ones are gone.

        Cost: goes over all ranges.

        >>> s = RangeSet([(0, 10), (12, 20)])
        >>> s.widen(1, 3), s.widen(-4, -4)
        (RangeSet([(-1, 23)]), RangeSet([(4, 6)]))
        """
        now = self._now
        if now[1] is NO_KIND:
            return self._over(*now)
        return self._over(*_moved(now, -now[1].distance(before), now[1].distance(after)))

    def at_least(self, length: Any) -> Self:
        """The ranges that have this length or a greater one, or no end.

        Cost: goes over all ranges.

        >>> RangeSet([(0, 10), (12, 14), (20, 25)]).at_least(5)
        RangeSet([(0, 10), (20, 25)])
        """
        now = self._now
        if now[1] is NO_KIND:
            return self._over(*now)
        least = now[1].distance(length)
        if least < 0:
            raise ValueError("expected a length from 0 on")
        return self._over(*_long(now, least))


def _leaves(now: Now, distance: Any) -> bool:
    """Whether an end, or a start but for one that stays, has no element once it has moved."""
    boundaries, kind = now
    numbers, least, most = kind.line(boundaries)
    ends = [it for it in (*numbers[:2], *numbers[-1:]) if it != least or not kind.is_open_below]
    if kind is FLOAT:
        return any(isinf(it + distance) and not isinf(it) for it in ends)
    if len(numbers) % 2 and kind.ends_at_most:
        ends.append(most)
    # An end one past the greatest element is none.
    beyond = most + 1 if len(numbers) % 2 == 0 and not kind.ends_at_most else most
    return any(not least <= it + distance <= beyond for it in ends)


def _moved(now: Now, starts: Any, ends: Any) -> Now:
    """The set whose starts and ends have moved, as far as there are elements."""
    boundaries, kind = now
    numbers, least, most = kind.line(boundaries)
    if numbers is not boundaries:
        return gather([*_moved_one_by_one(numbers, least, most, starts, ends, kind)], kind)
    found, first_open = _core.moved(boundaries, least, most, starts, ends, kind.is_open_below, kind.ends_at_most)
    made = _core.from_ranges(memoryview(found).cast(typecode_of(kind.unsigned)))
    return kind.trimmed(made if first_open is None else _core.union(made, kind.range_list(first_open, None))), kind


def _moved_one_by_one(numbers: Sequence[Any], least: Any, most: Any, starts: Any, ends: Any, kind: Kind) -> Iterator[tuple[Any, Any]]:
    """The pairs of elements that remain of floats, or of addresses of more than 64 bits."""
    element: Any = IPv6Address if kind.ends_at_most else float
    for start, end in _pairs(numbers, most, kind):
        first, last = max(start + starts, least), None if end is None else min(end + ends, most)
        if last is None or first < last:
            yield element(first), None if last is None or (kind.ends_at_most and last == most) else element(last)


def _long(now: Now, length: Any) -> Now:
    """The ranges that are long enough."""
    boundaries, kind = now
    numbers, _, most = kind.line(boundaries)
    if numbers is not boundaries:
        places = (i for i, pair in enumerate(_pairs(numbers, most, kind)) if _is_long(*pair, length))
        return _core.from_boundaries(array("q", chain.from_iterable(boundaries[2 * i : 2 * i + 2] for i in places))), kind
    count = len(boundaries)
    made = _core.at_least(boundaries, length) if length < 2**64 else boundaries.part(count - count % 2, count)
    is_last_short = kind.ends_at_most and len(made) % 2 and most - made[-1] < length
    return made.part(0, len(made) - 1) if is_last_short else made, kind


def _pairs(numbers: Sequence[Any], most: Any, kind: Kind) -> Iterator[tuple[Any, Any]]:
    """The starts and ends, of addresses with the end above the greatest one."""
    return zip_longest(numbers[::2], numbers[1::2], fillvalue=most if kind.ends_at_most else None)


def _is_long(start: Any, end: Any, length: Any) -> bool:
    """Whether a range has a length. A difference of floats is rounded, so one that is as long is looked at exactly."""
    if end is None or end - start != length:
        return end is None or bool(end - start > length)
    from fractions import Fraction

    return bool(Fraction(end) - Fraction(start) >= length)
