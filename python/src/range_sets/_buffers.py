"""The low level: functions over buffers of boundaries.

A list of boundaries is any object with the buffer protocol whose items are 64-bit whole numbers, signed or unsigned, such as an
`array.array('q')` or a numpy array of int64. A number is a member if an odd number of boundaries is at or below it. Buffers
are borrowed, also those that can't be written to; only numbers that don't lie at multiples of 8 bytes are copied.

An operation gives a new `array`, or with `out` it writes into that buffer and gives the length. A call that goes over whole
lists checks first that they are strictly sorted. Those that search, `contains`, `contains_range`, `range_at` and `split`, and
`is_empty` don't, and mean nothing if a list isn't sorted.
"""

from __future__ import annotations

from array import array
from itertools import zip_longest
from operator import index

from . import _core
from ._arrays import contains_each
from ._core import Boundaries
from ._kinds import whole
from ._numbers import typecode_of
from ._typing import TYPE_CHECKING

if not TYPE_CHECKING:
    from ._typing import overload
else:
    from typing import Any, Iterator, Protocol, SupportsIndex, overload

    from ._typing import Buffer

    # With `out` they answer a length.

    class _OfTwo(Protocol):
        @overload
        def __call__(self, a: Buffer, b: Buffer, *, out: None = None) -> array[int]:
            ...

        @overload
        def __call__(self, a: Buffer, b: Buffer, *, out: Buffer) -> int:
            ...

    class _OfARange(Protocol):
        @overload
        def __call__(self, a: Buffer, start: SupportsIndex, end: SupportsIndex, *, out: None = None) -> array[int]:
            ...

        @overload
        def __call__(self, a: Buffer, start: SupportsIndex, end: SupportsIndex, *, out: Buffer) -> int:
            ...


def _array(items: Boundaries) -> array[int]:
    made = array(typecode_of(not _core.is_signed(items)))
    made.frombytes(items)  # type: ignore[arg-type]
    return made


def _array_or_len(answer: Boundaries | int) -> array[int] | int:
    """A new array of the boundaries, or with `out` the length that was written there."""
    return answer if isinstance(answer, int) else _array(answer)


def _of_two(call: Any) -> _OfTwo:
    return call  # type: ignore[no-any-return]


def _of_a_range(call: Any) -> _OfARange:
    return call  # type: ignore[no-any-return]


def _range(start: SupportsIndex, end: SupportsIndex, a: Buffer) -> Boundaries:
    """The boundaries of a range, of the type of the numbers in a buffer."""
    return _core.range_list(index(start), index(end), not _core.is_signed(a))


@_of_two
def union(a: Buffer, b: Buffer, *, out: Buffer | None = None) -> array[int] | int:
    """The numbers in either set.

    Cost: goes over both lists.

    >>> union(array("q", [0, 10]), array("q", [5, 20]))
    array('q', [0, 20])
    >>> room = array("q", [0, 0, 0, 0])
    >>> union(array("q", [0, 10]), array("q", [5, 20]), out=room)
    2
    """
    return _array_or_len(_core.union(a, b, out))


@_of_two
def intersection(a: Buffer, b: Buffer, *, out: Buffer | None = None) -> array[int] | int:
    """The numbers in both sets.

    Cost: goes over both lists.

    >>> intersection(array("q", [0, 10]), array("q", [5, 20]))
    array('q', [5, 10])
    """
    return _array_or_len(_core.intersection(a, b, out))


@_of_two
def difference(a: Buffer, b: Buffer, *, out: Buffer | None = None) -> array[int] | int:
    """The numbers in the left set and not in the right.

    Cost: goes over both lists.

    >>> difference(array("q", [0, 10]), array("q", [5, 20]))
    array('q', [0, 5])
    """
    return _array_or_len(_core.difference(a, b, out))


@_of_two
def symmetric_difference(a: Buffer, b: Buffer, *, out: Buffer | None = None) -> array[int] | int:
    """The numbers in exactly one of the two sets.

    Cost: goes over both lists.

    >>> symmetric_difference(array("q", [0, 10]), array("q", [5, 20]))
    array('q', [0, 5, 10, 20])
    """
    return _array_or_len(_core.symmetric_difference(a, b, out))


@overload
def negation(a: Buffer, *, out: None = None) -> array[int]:
    ...


@overload
def negation(a: Buffer, *, out: Buffer) -> int:
    ...


def negation(a: Buffer, *, out: Buffer | None = None) -> array[int] | int:
    """The numbers that are no members.

    Cost: a copy.

    >>> negation(array("Q", [0, 10]))
    array('Q', [10])
    """
    return _array_or_len(_core.negation(a, out))


@_of_a_range
def insert(a: Buffer, start: SupportsIndex, end: SupportsIndex, *, out: Buffer | None = None) -> array[int] | int:
    """The set with the numbers from `start` up to, not including, `end`.

    Cost: a copy.

    >>> insert(array("q", [0, 10]), 12, 14)
    array('q', [0, 10, 12, 14])
    """
    return _array_or_len(_core.union(a, _range(start, end, a), out))


@_of_a_range
def remove(a: Buffer, start: SupportsIndex, end: SupportsIndex, *, out: Buffer | None = None) -> array[int] | int:
    """The set without the numbers from `start` up to, not including, `end`.

    Cost: a copy.

    >>> remove(array("q", [0, 10]), 3, 7)
    array('q', [0, 3, 7, 10])
    """
    return _array_or_len(_core.difference(a, _range(start, end, a), out))


@_of_a_range
def gaps(a: Buffer, start: SupportsIndex, end: SupportsIndex, *, out: Buffer | None = None) -> array[int] | int:
    """The numbers from `start` up to, not including, `end` that are no members.

    Cost: goes over the list.

    >>> gaps(array("q", [0, 10, 20, 30]), 5, 25)
    array('q', [10, 20])
    """
    return _array_or_len(_core.difference(_range(start, end, a), a, out))


def from_ranges(numbers: Buffer) -> array[int]:
    """The numbers in some range, from ranges in any order: a start and an end in turn, or a table with a row for each range.

    Cost: that of sorting them.

    >>> from_ranges(array("q", [20, 30, 0, 5, 3, 8]))
    array('q', [0, 8, 20, 30])
    """
    return _array(_core.from_ranges(numbers))


def from_unsorted(items: Buffer) -> array[int]:
    """The set whose boundaries are these numbers, in any order, each once.

    Cost: that of sorting them.

    >>> from_unsorted(array("q", [7, -2, 7, 5]))
    array('q', [-2, 5, 7])
    """
    return _array(_core.from_unsorted(items))


def ranges(a: Buffer) -> Iterator[tuple[int, int | None]]:
    """The ranges of the set in order, each as its start and its end; the end is None if the range has none.

    Cost: a copy.

    >>> list(ranges(array("q", [0, 10, 20])))
    [(0, 10), (20, None)]
    """
    items = iter(_core.from_boundaries(a))
    return zip_longest(items, items)


def is_sorted(a: Buffer) -> bool:
    """Whether the list is strictly sorted.

    Cost: goes over the list.

    >>> is_sorted(array("q", [3, 3]))
    False
    """
    return _core.is_sorted(a)


def is_empty(a: Buffer) -> bool:
    """Whether no number is a member.

    Cost: none.

    >>> is_empty(array("q"))
    True
    """
    return _core.is_empty(a)


@overload
def contains(a: Buffer, value: Buffer) -> Any:
    ...


@overload
def contains(a: Buffer, value: SupportsIndex) -> bool:
    ...


def contains(a: Buffer, value: Any) -> Any:
    """Whether the number is a member; or, of a numpy array of numbers, an array that says so of each.

    Cost: a search for each.

    >>> contains(array("q", [0, 10]), 9), contains(array("q", [0, 10]), 10)
    (True, False)
    """
    return contains_each((a, whole(not _core.is_signed(a))), value) if getattr(value, "ndim", 0) else _core.contains(a, value)  # type: ignore[arg-type]


def contains_range(a: Buffer, start: SupportsIndex, end: SupportsIndex) -> bool:
    """Whether each number from `start` up to, not including, `end` is a member.

    Cost: a search.

    >>> contains_range(array("q", [0, 10]), 3, 10)
    True
    """
    return _core.contains_range(a, start, end)


def range_at(a: Buffer, value: SupportsIndex) -> tuple[int, int | None] | None:
    """The range that holds the number, or None if it is no member.

    Cost: a search.

    >>> range_at(array("q", [0, 10, 20]), 25)
    (20, None)
    """
    return _core.range_at(a, value)


def covered(a: Buffer) -> int | None:
    """How many numbers are members, or None if the set has no end.

    Cost: goes over the list.

    >>> covered(array("q", [0, 10, 20, 25]))
    15
    """
    return _core.covered(a)


def is_disjoint(a: Buffer, b: Buffer) -> bool:
    """Whether no number is a member of both.

    Cost: goes over both lists.

    >>> is_disjoint(array("q", [0, 10]), array("q", [10, 20]))
    True
    """
    return _core.is_disjoint(a, b)


def intersects(a: Buffer, b: Buffer) -> bool:
    """Whether some number is a member of both.

    Cost: goes over both lists.

    >>> intersects(array("q", [0, 10]), array("q", [9, 20]))
    True
    """
    return _core.intersects(a, b)


def is_subset(a: Buffer, b: Buffer) -> bool:
    """Whether each member of the left set is one of the right.

    Cost: goes over both lists.

    >>> is_subset(array("q", [3, 5]), array("q", [0, 10]))
    True
    """
    return _core.is_subset(a, b)


def is_superset(a: Buffer, b: Buffer) -> bool:
    """Whether each member of the right set is one of the left.

    Cost: goes over both lists.

    >>> is_superset(array("q", [0, 10]), array("q", [3, 5]))
    True
    """
    return _core.is_subset(b, a)


def equal(a: Buffer, b: Buffer) -> bool:
    """Whether both sets have the same members.

    Cost: goes over both lists.

    >>> equal(array("q", [0, 10]), array("q", [0, 10]))
    True
    """
    return _core.equal(a, b)


def split(a: Buffer, at: SupportsIndex) -> tuple[int, int]:
    """Cuts the list at a number: how many boundaries are those of the members below `at`, and from which index on they are those of the others.

    Below `at` the first list is the set, and from `at` on the second is. A range that goes over `at` has a boundary in both.

    Cost: a search.

    >>> split(array("q", [0, 10, 20, 30]), 25)
    (3, 2)
    """
    return _core.split(a, at)
