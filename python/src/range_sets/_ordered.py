"""Values that sort as elements, such as texts, decimals, versions and tuples; and IPv6 addresses."""

from __future__ import annotations

from array import array
from bisect import bisect_left, bisect_right
from ipaddress import IPv6Address
from itertools import chain, pairwise, zip_longest
from operator import index

from . import _core
from ._core import Boundaries
from ._kind import Kind, Now
from ._typing import TYPE_CHECKING

if TYPE_CHECKING:
    from typing import Any, Iterable, Sequence


class Ordered(Kind):
    """What Python's `<` puts in order. A set has a kind of its own with its boundaries; the number of one is its rank among them.

    Two sets are numbered anew by one kind of both. The number of another value is that of the greatest boundary that isn't above it,
    as which it is a member or not.
    """

    name, element, plural = "ordered", "a value that sorts", "values that sort"
    is_ordered, is_in_chunks, least = True, False, 0
    uncounted = "values that sort aren't counted one by one"
    # The least value of each type that has one, and what an error says of others.
    leasts: tuple[tuple[type, Any], ...] = ((str, ""), (bytes, b""), (tuple, ()))

    def __init__(self, keys: Sequence[Any] = ()) -> None:
        # What stands for the boundaries, which are sorted. It is never changed.
        self.keys, self.most = keys, len(keys) - 1

    def key(self, value: Any) -> Any:
        """What stands for a value."""
        if value != value:
            raise ValueError(f"{value!r} isn't equal to itself: it is in no order, and no element of a set")
        return value

    # ---- Numbers ----

    def code(self, value: Any) -> int:
        return bisect_right(self.keys, self.key(value)) - 1

    def codes(self, values: list[Any]) -> list[int]:
        keys = self.keys
        return [bisect_right(keys, it) - 1 for it in map(self.key, values)]

    def value(self, code: int) -> Any:
        return self.keys[code]

    def end(self, value: Any) -> int | None:
        """The number of the least boundary that isn't below an end."""
        return None if value is None else bisect_left(self.keys, self.key(value))

    def ends_around(self, start: Any, end: Any) -> tuple[int, int | None]:
        """The numbers of a range that has the given one, and no boundary beside it. One that has nothing has its end at its start."""
        first = self.code(start)
        return first, self.end(end) if end is None or self.key(start) < self.key(end) else first

    def first(self, others: Iterable[Any] = ()) -> Any:
        """The least value of the type that the boundaries have, or others."""
        for value in chain(others, self.keys):
            for of_type, least in self.leasts:
                if isinstance(value, of_type):
                    return least
        raise TypeError(f"expected a start, not None: of the kind {self.name!r} texts, bytes and tuples alone have a least value")

    def one(self, value: Any) -> tuple[Any, Any]:
        """The start and the end of the range that has a value alone."""
        raise TypeError(f"{self.uncounted}: expected a start and an end")

    def codes_of_one(self, value: Any) -> tuple[int, int | None]:
        return self.ends_around(*self.one(value))

    # ---- Kinds of more boundaries, or fewer ----

    def of(self, values: Iterable[Any]) -> Ordered:
        """The kind that has these as boundaries."""
        return self._sorted(map(self.key, values))

    def _sorted(self, keys: Iterable[Any]) -> Ordered:
        in_order = sorted(keys)
        return type(self)(in_order[:1] + [after for before, after in pairwise(in_order) if before < after])

    def kept(self, boundaries: Boundaries) -> Sequence[Any]:
        """What stands for the boundaries of a set."""
        return self.keys if len(boundaries) == len(self.keys) else [*map(self.keys.__getitem__, boundaries)]

    def __call__(self, boundaries: Boundaries) -> Now:
        """The set whose kind has its boundaries alone. The extension asks for it where it makes a set."""
        if len(boundaries) == len(self.keys):
            return boundaries, self
        return list_of(range(len(boundaries))), type(self)(self.kept(boundaries))

    def agreed(self, mine: Boundaries, other: Ordered, others: Boundaries) -> tuple[Boundaries, Boundaries, Kind]:
        """The boundaries of two sets by one kind, which has those of both."""
        keys, left, right = merged(self.kept(mine), other.kept(others))
        return list_of(left), list_of(right), type(self)(keys)

    def agreed_of(self, sets: list[Now]) -> tuple[list[Boundaries], Kind]:
        """The same of many sets."""
        if len(sets) == 1:
            return [sets[0][0]], sets[0][1]
        lists = [kind.kept(it) for it, kind in sets if isinstance(kind, Ordered)]
        made = self._sorted(chain.from_iterable(lists))
        return [list_of(bisect_left(made.keys, it) for it in keys) for keys in lists], made

    def everything(self) -> Now:
        made = self.of([self.first()])
        return made.range_list(0, None), made

    # ---- Questions ----

    def hashed(self, boundaries: Boundaries) -> tuple[Any, ...]:
        return tuple(self.kept(boundaries))

    def covered(self, asked: Any) -> Any:
        raise TypeError(self.uncounted)

    def count(self, length: Any) -> int:
        raise TypeError(f"{self.uncounted}, so no number of them fits anywhere: look at gaps()")

    def distance(self, length: Any) -> Any:
        raise TypeError(f"{self.plural} have no lengths")

    @property
    def pickled(self) -> Any:
        return self.name, tuple(self.keys)

    def of_pickle(self, keys: Any) -> Ordered:
        """The kind of a pickle's boundaries, which are checked anew."""
        if type(keys) is not tuple or not all(before < after for before, after in pairwise(keys)):
            raise ValueError(f"expected sorted boundaries of the kind {self.name!r}")
        return type(self)(keys)


class LongAddresses(Ordered):
    """IPv6 addresses, in the order of their numbers of 128 bits."""

    name, element, plural = "IPv6Address", "an IPv6Address", "IPv6 addresses"
    uncounted = "IPv6 addresses aren't counted one by one"
    ends_at_most = True

    def key(self, value: Any) -> int:
        if not isinstance(value, IPv6Address):
            raise self.type_error(value)
        return int(value)

    def value(self, code: int) -> IPv6Address:
        return IPv6Address(self.keys[code])

    def first(self, others: Iterable[Any] = ()) -> IPv6Address:
        return IPv6Address(0)

    def one(self, value: Any) -> tuple[Any, Any]:
        self.key(value)
        return value, after(value)

    def covered(self, asked: Any) -> int:
        ends = self.kept(asked)
        covered: int = sum(ends[1::2]) + (_MOST + 1) * (len(ends) % 2) - sum(ends[::2])
        return covered

    def count(self, length: Any) -> int:
        return index(length)

    def distance(self, length: Any) -> int:
        return index(length)

    def line(self, boundaries: Boundaries) -> tuple[Sequence[int], int, int]:
        return self.kept(boundaries), 0, _MOST + 1

    def of_pickle(self, keys: Any) -> Ordered:
        if type(keys) is not tuple or not all(type(it) is int and 0 <= it <= _MOST for it in keys):
            raise ValueError("expected numbers of IPv6 addresses")
        return super().of_pickle(keys)


_MOST = 2**128 - 1
ORDERED, LONG_ADDRESS = Ordered(), LongAddresses()


def after(address: Any) -> Any:
    """The next address, or None after the greatest."""
    return None if int(address) + 1 == 2**address.max_prefixlen else address + 1


def is_same(mine: Boundaries, kind: Any, others: Boundaries, other: Any) -> bool:
    """Whether two sets have equal boundaries."""
    return kind.name == other.name and [*kind.kept(mine)] == [*other.kept(others)]


def first_in(ends: list[IPv6Address], count: int, align: int = 1) -> IPv6Address | None:
    """The least multiple of a number in ranges from which on one of them has this many addresses."""
    for start, end in zip_longest(ends[::2], ends[1::2]):
        at = -(-int(start) // align) * align
        if (_MOST + 1 if end is None else int(end)) - at >= count:
            return IPv6Address(at)
    return None


def list_of(ranks: Iterable[int]) -> Boundaries:
    return _core.from_boundaries(array("q", ranks))


def merged(left: Sequence[Any], right: Sequence[Any]) -> tuple[list[Any], list[int], list[int]]:
    """Two sorted lists as one, and the rank of each of both. Of equal ones the left list's stays. It takes a search for each of the fewer."""
    is_swapped = len(left) < len(right)
    many, few = (right, left) if is_swapped else (left, right)
    made: list[Any] = []
    of_many: list[int] = []
    of_few: list[int] = []
    at = 0
    for it in few:
        to = bisect_left(many, it, at)
        of_many += range(len(made), len(made) + to - at)
        made += many[at:to]
        of_few.append(len(made))
        at = to
        if to < len(many) and not it < many[to]:
            of_many.append(len(made))
            it = it if is_swapped else many[to]
            at += 1
        made.append(it)
    of_many += range(len(made), len(made) + len(many) - at)
    made += many[at:]
    return (made, of_few, of_many) if is_swapped else (made, of_many, of_few)
