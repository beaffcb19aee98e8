"""Maps from ranges to values."""

from __future__ import annotations

import reprlib
import sys
from array import array
from collections.abc import Mapping
from itertools import islice

from . import _core
from ._core import Steps
from ._depths import ends_of_sets
from ._kept import MANY, SHOWN
from ._kind import NO_KIND, SIGNED, Kind
from ._kinds import ADDRESSES, are_alike, are_of_one, given_kind, kind_of_pickle
from ._map_columns import Columns, columns_of_map
from ._map_questions import NOTHING, numbered_with
from ._map_tables import MapTables
from ._numbers import in_this_order, least, packed
from ._ordered import ORDERED
from ._sets import RangeSet
from ._sources import gather, items_of
from ._typing import TYPE_CHECKING, E, V

if not TYPE_CHECKING:
    from ._typing import overload
else:
    from typing import Any, Callable, Iterable, Self, TypeVar, overload

    from ._ranges import AnyRangeSet
    from ._typing import Array, D, Items, Keys, KindLike, Source

    M = TypeVar("M", bound="RangeMap[Any, Any]")

# What an error says that it is made of.
_WANTED = "pairs of a range and a value", "t[['start', 'end', 'value']] has the range and the value of each row"


class RangeMap(MapTables[E, V]):
    """A map that gives ranges of whole numbers, times or other elements values. It is changed in place, and has no hash.

    A key has the value of the last range that was put around it, as a dict has it, or none. Ranges that touch are one if they have one
    value. Two values are one if they are identical, or of one type and equal; then the map's own stays. An `==` that answers no bool, as
    of numpy's arrays, or raises a ValueError, says no.

    >>> bookings = RangeMap([((9, 12), "Ada")])
    >>> bookings[11:14] = "Bob"
    >>> bookings
    RangeMap([((9, 11), 'Ada'), ((11, 14), 'Bob')])
    >>> bookings[10], bookings.get(14), 14 in bookings
    ('Ada', None, False)
    >>> del bookings[13:]
    >>> bookings.find("Bob"), bookings.gaps(8, 18)
    (RangeSet([(11, 13)]), RangeSet([(8, 9), (13, 18)]))
    >>> bookings[RangeSet([(8, 9), (10, 12)])] = "Eve"
    >>> bookings[8:11]
    RangeMap([((8, 9), 'Eve'), ((9, 10), 'Ada'), ((10, 11), 'Eve')])

    It is made of pairs of a range or set and a value, of a dict of these, or of another map; of a data frame of pandas with columns of
    starts, ends and values, or of a series by intervals. Where ranges overlap, the later one's value holds. Keys are of one kind, as those
    of a `RangeSet`, and the length is the number of ranges. In brackets a key has a value, and a slice, a `range`, a network, an interval of
    pandas' or a set is a part: it is changed, or read as another map.

    Calls that touch a few ranges take some microseconds also of a million, and `items`, `domain`, `find` and `==` go over all. So does the
    first search or change of a map that was made of ranges in order, as of a copy or a pickle. Of keys that sort, as texts, each change
    and each part goes over all. To checkers of types it is a `RangeMap[E, V]`. They refuse slices of all but whole numbers: `put`, `remove`
    and `part` do the same.

    A loop over a map may give the ranges that it reads other values. One that leaves it more or fewer ranges raises a RuntimeError, as
    over a dict: go over `list(m.items())` then. Over a map whose keys sort it goes on over what the map was.

    Where a change raises an error, as an `==` of values may, the map is as it was. Threads that share a map lock for themselves.
    """

    __slots__ = ()
    __module__ = "range_sets"
    __hash__ = None  # type: ignore[assignment]

    @overload
    def __init__(
        self, items: Iterable[tuple[tuple[E, E | None], V]] = (), *, unsigned: bool | None = None, kind: KindLike[E] = None
    ) -> None:
        ...

    @overload
    def __init__(self, items: Items[E, V], *, unsigned: bool | None = None, kind: KindLike[E] = None) -> None:
        ...

    def __init__(self, items: Any = (), *, unsigned: bool | None = None, kind: KindLike[E] = None) -> None:
        found = given_kind(kind, unsigned) or NO_KIND
        self._steps = Steps(found, found.unsigned)
        self.update(items)

    # ---- Changes ----

    def __setitem__(self, keys: Keys[E], value: V) -> None:
        self._change(keys, value)

    def __delitem__(self, keys: Keys[E]) -> None:
        self._change(keys)

    def put(self, start: E | None, end: E | None, value: V) -> None:
        """Gives the keys from a start up to, not including, an end a value, as `m[start:end] = value` does.

        Cost: a search, and one for each range that gives way.

        >>> m = RangeMap([((0, 10), "low")])
        >>> m.put(5, 15, "mid")
        >>> m
        RangeMap([((0, 5), 'low'), ((5, 15), 'mid')])
        """
        self._change(slice(start, end), value)

    def remove(self, start: E | None, end: E | None) -> None:
        """Takes the values of the keys from a start up to, not including, an end away, as `del m[start:end]` does.

        Cost: a search, and one for each range that gives way.

        >>> m = RangeMap([((0, 10), "low")])
        >>> m.remove(3, 5)
        >>> m
        RangeMap([((0, 3), 'low'), ((5, 10), 'low')])
        """
        self._change(slice(start, end))

    def pop(self, key: E, default: D = NOTHING) -> V | D:
        """Takes away the longest range around a key whose keys have its value, and returns the value. For a key that has none it is
        the default, or a KeyError.

        Cost: that of `remove`.

        >>> m = RangeMap([((0, 10), "low"), ((20, 30), "high")])
        >>> m.pop(5), m.pop(5, None), m
        ('low', None, RangeMap([((20, 30), 'high')]))
        """
        found = self.range_at(key)
        if found is not None:
            self._change(slice(*found[0]))
            return found[1]
        if default is NOTHING:
            raise KeyError(key)
        return default

    def modify(self, part: Keys[E], function: Callable[[V], V], missing: V = NOTHING) -> None:
        """Gives the keys in a part what a function makes of their values. Keys that have none get none, or with `missing` what it makes
        of this. A part is what stands in brackets, as a slice or a set.

        The function runs once for each object. What it raises is raised, and the map doesn't change.

        Cost: that of `m[part]` and of `update`.

        >>> m = RangeMap([((0, 10), 1)])
        >>> m.modify(range(5, 15), lambda count: count + 1, 0)
        >>> m
        RangeMap([((0, 5), 1), ((5, 10), 2), ((10, 15), 1)])
        """
        now: RangeMap[Any, Any] = self._part(part)
        keys = now.domain() if missing is NOTHING else RangeSet._over(*self._ranges(part, self._kind))
        all_of_them: RangeMap[Any, Any] = RangeMap([(keys, None)], kind=keys.kind)
        self.update(RangeMap.combine(now, all_of_them, lambda value, _: function(value), missing))

    def _change(self, keys: Any, *values: V) -> None:
        """Gives keys a value, or takes theirs away."""
        done = False
        # The code of a key or a value may decide the kind meanwhile.
        while not done:
            steps = self._steps
            known = steps.kind
            ranges, kind = self._ranges(keys, known)
            each = values * ((len(ranges) + 1) // 2) if values else None
            done = self._anew(steps, ranges, each, kind) if kind.is_ordered else steps.change(ranges, each, known, kind)

    def _anew(self, steps: Steps, ranges: Iterable[int], values: tuple[V, ...] | None, kind: Kind) -> bool:
        """Changes a map whose keys sort, unless it has changed since."""
        self._check_kind(kind)
        made, ends = numbered_with(steps, ranges, kind)
        made.change(packed([*ends, *[least(False)] * (len(ends) % 2)], False), values, made.kind, made.kind)
        if self._steps is not steps:
            return False
        self._steps = made
        return True

    def update(self, items: Items[E, V]) -> None:
        """Puts ranges with their values in, one after the other; or those of another map. If one raises an error, none is put in.

        Cost: that of `put` for each.

        >>> m = RangeMap([((0, 10), "low")])
        >>> m.update([((5, 7), "mid"), (range(20, 30), "high")])
        >>> list(m.items())
        [((0, 5), 'low'), ((5, 7), 'mid'), ((7, 10), 'low'), ((20, 30), 'high')]
        """
        # All are read before the first change.
        pairs = items.items() if isinstance(items, (RangeMap, Mapping)) else items
        given = [*pairs] if type(pairs) is list else columns_of_map(pairs) or items_of(pairs, *_WANTED)
        done = False
        while not done:
            steps = self._steps
            known = steps.kind
            ends, values, kind = self._read(given, known)
            if kind.is_ordered:
                done = self._anew(steps, array("q", ends), values, kind)
            else:
                done = steps.change(ends, values, known, kind)

    def _read(self, given: list[tuple[Any, V]] | Columns, kind: Kind) -> tuple[bytes, tuple[V, ...], Kind]:
        """The numbers of the ends of ranges, in turn, with their values, and their kind. The least number as an end says that there is
        none."""
        if isinstance(given, Columns):
            numbers = given.numbers(kind)
            if numbers is not None:
                return numbers
            given = given.pairs()
        found = _core.ends_and_values(given, kind.unsigned) if kind.is_plain or kind is NO_KIND else None
        if found is not None:
            return *found, SIGNED if kind is NO_KIND else kind
        ends: list[Any] = []
        values: list[V] = []
        none = least(kind.unsigned)
        for item in given:
            try:
                keys, value = item
            except (TypeError, ValueError) as error:
                raise type(error)(f"expected a range and its value, as ((0, 5), 'a'), not {reprlib.repr(item)}") from None
            pair = isinstance(keys, (tuple, list)) and len(keys) == 2
            is_text = isinstance(keys, str) and isinstance(kind, ADDRESSES)
            ranges, kind = gather([keys], kind) if is_text else self._ranges(slice(*keys) if pair else keys, kind)
            # What sorts is numbered when all is read.
            read = [*kind.values(ranges)] if kind.is_ordered else [*ranges]
            ends += [*read, *[none if kind.is_ordered else least(kind.unsigned)] * (len(ranges) % 2)]
            values += [value] * ((len(ranges) + 1) // 2)
        if kind.is_ordered:
            kind = kind.of(it for it in ends if it is not none)
            ends = [none if it is none else kind.code(it) for it in ends]
        return packed(ends, kind.unsigned), tuple(values), kind

    def clear(self) -> None:
        """Takes all values away.

        Cost: goes over all ranges.

        >>> m = RangeMap([((0, 10), "low")])
        >>> m.clear()
        >>> m
        RangeMap()
        """
        if self._kind.is_ordered:
            self._steps = Steps(self._kind.of(()), False)
        elif self._kind is not NO_KIND:
            self._change(slice(None))

    # ---- Many sets, two maps ----

    @overload
    @staticmethod
    def depth(sets: Iterable[AnyRangeSet[E]], *, unsigned: bool | None = None, kind: KindLike[E] = None) -> RangeMap[E, int]:
        ...

    @overload
    @staticmethod
    def depth(sets: Iterable[Source[E]] | Array, *, unsigned: bool | None = None, kind: KindLike[E] = None) -> RangeMap[E, int]:
        ...

    @staticmethod
    def depth(sets: Any, *, unsigned: bool | None = None, kind: KindLike[E] = None) -> RangeMap[E, int]:
        """How many of some sets have each key; a key that none has gets no value. A set may be a pair, or anything that makes one. Of a
        table, as a numpy array, a data frame or intervals of pandas, each row is a set.

        Cost: that of sorting the boundaries.

        >>> RangeMap.depth([(0, 5), (3, 9), RangeSet([(4, 6), (20, None)])])
        RangeMap([((0, 3), 1), ((3, 4), 2), ((4, 5), 3), ((5, 6), 2), ((6, 9), 1), ((20, None), 1)])
        """
        numbers, starts, found = ends_of_sets(sets, given_kind(kind, unsigned))
        made: RangeMap[E, int] = RangeMap._empty(found)
        made._steps.change(*_core.depths(numbers, starts))
        return made

    def combine(self, other: RangeMap[E, V], how: Callable[[V, V], V], missing: V = NOTHING) -> RangeMap[E, V]:
        """The map of what `how` makes of the values of both maps. Where one alone has a value, it stays, or with `missing` this stands
        for the other.

        `how` runs once for each two objects that meet. What it raises is raised, and neither map changes.

        Cost: goes over both maps.

        >>> nights = RangeMap([((1, 4), 1), ((6, 9), 2)])
        >>> more = RangeMap([((3, 7), 1)])
        >>> nights.combine(more, lambda a, b: a + b)
        RangeMap([((1, 3), 1), ((3, 4), 2), ((4, 6), 1), ((6, 7), 3), ((7, 9), 2)])
        """
        if not isinstance(other, RangeMap):
            raise TypeError(f"expected a RangeMap, not {type(other).__name__}")
        if NO_KIND not in (self._kind, other._kind):
            self._check_kind(other._kind)
        kind = other._kind if self._kind is NO_KIND else self._kind
        left, right = (it._steps if are_of_one(it._kind, kind) else Steps(kind, kind.unsigned) for it in (self, other))
        if right.kind.is_ordered:
            ends, values = right.ends_and_values()
            left, numbers = numbered_with(left, array("q", ends), right.kind)
            right = Steps(left.kind, False)
            right.change(packed(numbers, False), values)
        return RangeMap._with_steps(left.combine(right, how, missing, NOTHING))

    def __eq__(self, other: object) -> bool:
        if not isinstance(other, RangeMap):
            return NotImplemented
        if not are_alike(self._kind, other._kind, bool(self) or bool(other)):
            return False
        if self._kind.is_ordered and self:
            # Equal ends have equal numbers then.
            mine, theirs = (numbered_with(it._steps, (), ORDERED)[0] for it in (self, other))
            return [*self] == [*other] and mine.equals(theirs)
        return not (self or other) or self._steps.equals(other._steps)

    # ---- Other forms ----

    def copy(self) -> Self:
        """Another map with the same values.

        Cost: goes over all ranges.

        >>> m = RangeMap([((0, 10), "low")])
        >>> other = m.copy()
        >>> del m[:]
        >>> other
        RangeMap([((0, 10), 'low')])
        """
        return self._with_steps(self._steps.copy())._with(self.__getstate__())

    __copy__ = copy

    def __deepcopy__(self, memo: Any) -> Self:
        import copy

        ends, values = self._steps.ends_and_values()
        # A value may refer to the map, whose copy is the one that is begun.
        made = memo[id(self)] = self._empty(self._kind)
        made._steps.change(ends, copy.deepcopy(values, memo))
        return made._with(copy.deepcopy(self.__getstate__(), memo))

    @reprlib.recursive_repr("RangeMap(...)")
    def __repr__(self) -> str:
        if len(self) <= MANY:
            return self._shown(repr([*self.items()]) if self else "", self._kind)
        first, last = (repr([*it])[1:-1] for it in (islice(self.items(), SHOWN), self._last(SHOWN)))
        return self._shown(f"[{first}, ..., {last}]", self._kind)

    def _repr_svg_(self) -> str:
        from . import _svg

        return _svg.draw_map(self._steps)

    def __sizeof__(self) -> int:
        return object.__sizeof__(self) + self._steps.__sizeof__()

    def __reduce__(self) -> tuple[Any, ...]:
        ends, values = self._steps.ends_and_values()
        # A value may refer to the map, which is begun before the values are read.
        state = ends, values, sys.byteorder, self.__getstate__()
        return _begun, (type(self), self._kind.pickled), state, None, None, _filled


def _begun(cls: type[M], name: KindLike[Any]) -> M:
    """The map of a pickle, before it has its values."""
    return cls._empty(kind_of_pickle(name))


def _filled(made: M, state: tuple[bytes, tuple[Any, ...], str, Any]) -> M:
    """The same with its values, and what a subclass has beside."""
    ends, values, order, attributes = state
    kind = made._kind
    made._steps.change(in_this_order(ends, order, kind.unsigned), values)
    if not all(kind is not NO_KIND and (it is None or kind.least <= it <= kind.most) for it in made._steps.span() or ()):
        raise ValueError(f"the bytes are no map of the kind {kind.name}")
    return made._with(attributes)


def _remade(cls: type[M], ends: bytes, values: tuple[Any, ...], name: KindLike[Any], order: str) -> M:
    """The map of a pickle that was made with its values."""
    return _filled(_begun(cls, name), (ends, values, order, None))


def _restored(cls: type[M], items: list[Any], name: KindLike[Any]) -> M:
    """The map of a pickle by version 0.3."""
    made = _begun(cls, name)
    try:
        ends, values, _ = made._read(items, made._kind)
    except (TypeError, OverflowError) as error:
        raise ValueError(f"the items are no map of the kind {made._kind.name}: {error}") from None
    # Without those that are empty or reversed.
    if len(values) != len(items):
        raise ValueError("expected ranges, each with its start below its end")
    return _filled(made, (ends, values, sys.byteorder, None))
