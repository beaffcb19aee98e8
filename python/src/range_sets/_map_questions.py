"""What maps from ranges to values answer."""

from __future__ import annotations

from array import array

from . import _core
from ._arrays import asked_of
from ._core import Boundaries, Steps
from ._kept import Attributes
from ._kind import NO_KIND, Kind, Now
from ._kinds import NETWORKS, agreed, are_of_one, kind_of, kind_of_first, mixed
from ._numbers import least, most, packed
from ._ordered import Ordered, list_of, merged
from ._ranges import AnyRangeSet
from ._sets import RangeSet
from ._sources import codes_of_range, range_of
from ._typing import TYPE_CHECKING, E, Generic, V

if not TYPE_CHECKING:
    from ._typing import overload
else:
    from typing import Any, Iterable, Iterator, Self, overload

    from ._typing import Array, D, Item, Keys, OneRange

_PARTS = (slice, range, AnyRangeSet, *NETWORKS)


OF_NO_SIGN = "expected a map of numbers without a sign, which RangeMap(unsigned=True) makes"


class _Nothing:
    """The value of keys that have none, which help shows."""

    def __repr__(self) -> str:
        return "nothing"


NOTHING: Any = _Nothing()


class MapQuestions(Attributes, Generic[E, V]):
    """What is asked of a map: of a key, of its ranges in turn, and in which keys it has values."""

    __slots__ = _own = ("_steps",)
    _steps: Steps

    @classmethod
    def _with_steps(cls, steps: Steps) -> Self:
        made = cls.__new__(cls)
        made._steps = steps
        return made

    @classmethod
    def _empty(cls, kind: Kind) -> Self:
        return cls._with_steps(Steps(kind, kind.unsigned))

    # ---- Keys ----

    @property
    def _kind(self) -> Kind:
        return self._steps.kind

    @property
    def kind(self) -> str | None:
        """What the keys are, as `kind=` takes it; None for an empty map without a kind.

        >>> RangeMap([((0, 10), "low")]).kind
        'int'
        """
        kind = self._kind
        return None if kind is NO_KIND else kind.name

    def _code(self, key: Any) -> int | None:
        """The number of a key, or None if the map can't have it."""
        kind = self._kind
        if kind is NO_KIND:
            kind_of_first((key,))
            return None
        try:
            return kind.number(key)
        except OverflowError:
            return None

    @overload
    def __getitem__(self, key: Keys[E]) -> Self:
        ...

    @overload
    def __getitem__(self, key: E) -> V:
        ...

    def __getitem__(self, key: Any) -> Any:
        if isinstance(key, _PARTS):
            return self._part(key)
        try:
            found = self._found(key, NOTHING)
        except TypeError:
            if not _is_range(key):
                raise
            return self._part(key)
        if found is NOTHING:
            raise KeyError(key)
        return found

    def _part(self, keys: Any) -> Self:
        ranges, kind = self._ranges(keys, self._kind)
        self._check_kind(kind)
        if kind.is_ordered:
            steps, both = numbered_with(self._steps, ranges, kind)
            return self._with_steps(steps.part(list_of(both)))
        return self._with_steps(self._steps.part(ranges))

    def part(self, start: E | None, end: E | None) -> Self:
        """Another map with the values of the keys from a start up to, not including, an end, as `m[start:end]` is.

        Cost: a search, and one for each range there.

        >>> RangeMap([((0, 10), "low"), ((20, 30), "high")]).part(5, 25)
        RangeMap([((5, 10), 'low'), ((20, 25), 'high')])
        """
        return self._part(slice(start, end))

    @overload
    def get(self, key: Array | list[E], default: Any = None, *, dtype: Any = None) -> Any:
        ...

    @overload
    def get(self, key: E) -> V | None:
        ...

    @overload
    def get(self, key: E, default: D) -> V | D:
        ...

    def get(self, key: Any, default: Any = None, *, dtype: Any = None) -> Any:
        """The value of a key, or the default if it has none; of a list or an array of keys an array of these, of objects or of the type
        of numpy's that is given.

        Cost: a search for each.

        >>> RangeMap([((0, 10), "low")]).get(10, "high")
        'high'
        >>> import numpy
        >>> RangeMap([((0, 10), 1.5)]).get([5, 10], 0, dtype=float).tolist()
        [1.5, 0.0]
        """
        if getattr(key, "ndim", 0) or type(key) is list:
            found = self._found_each(key, default)
            return found if dtype is None else found.astype(dtype)
        if dtype is not None:
            raise TypeError("expected a list or an array of keys, of whose values dtype is the type")
        code = self._code(key)
        return default if code is None else self._steps.get(code, default)

    def _found_each(self, keys: Any, default: Any) -> Any:
        import numpy

        codes, gone = asked_of((self._kind.nothing, self._kind), keys)
        found, some = (numpy.empty(codes.size, dtype=object) for _ in range(2))
        # Keys in order are found in half the time.
        order = numpy.argsort(codes, axis=None, kind="stable")
        self._steps.get_each(codes.reshape(-1)[order], gone.reshape(-1)[order].tobytes(), default, some)
        found[order] = some
        return found.reshape(codes.shape)

    def _found(self, key: Any, default: Any) -> Any:
        code = self._code(key)
        return default if code is None else self._steps.get(code, default)

    def __contains__(self, key: E) -> bool:
        return self._found(key, NOTHING) is not NOTHING

    def range_at(self, key: E) -> Item[E, V] | None:
        """The longest range around a key whose keys have its value, and that; None if it has none.

        Cost: a search.

        >>> RangeMap([((0, 10), "low"), ((10, 20), "low")]).range_at(5)
        ((0, 20), 'low')
        """
        code = self._code(key)
        if code is None:
            return None
        start, end, value = self._steps.range_at(code, NOTHING)
        return None if value is NOTHING else (self._kind.ends(start, end), value)

    @staticmethod
    def _ranges(keys: Any, kind: Kind) -> Now:
        """The boundaries of some keys, and their kind."""
        if isinstance(keys, AnyRangeSet):
            if kind is NO_KIND and keys.unsigned:
                raise TypeError(OF_NO_SIGN)
            return agreed((kind.nothing, kind), keys._now)[1:]
        if isinstance(keys, slice) and keys.step is None:
            return range_of(keys.start, keys.stop, kind)
        if isinstance(keys, (range, *NETWORKS)) or _is_range(keys):
            return range_of(keys, ..., kind)
        found = kind_of(keys)
        if found is not None:
            start, end = map(repr, found.ends(*found.codes_of_one(keys)))
            raise TypeError(f"expected a range, not the key {keys!r}: m[{start}:{end}] has it alone, as ({start}, {end}) does in pairs")
        wanted = "expected a slice without a step, a range, a network or a set"
        raise TypeError(f"{wanted}, not {keys!r}: m[a:b] has the keys from a to below b")

    # ---- Ranges ----

    def __len__(self) -> int:
        return len(self._steps)

    def __iter__(self) -> Iterator[tuple[E, E | None]]:
        return self._steps.keys(None, None)

    def keys(self) -> Iterator[tuple[E, E | None]]:
        """The ranges, from the lowest on, over which the map iterates too.

        Cost: goes over all ranges.

        >>> list(RangeMap([((20, None), "high"), ((0, 10), "low")]).keys())
        [(0, 10), (20, None)]
        """
        return iter(self)

    def values(self) -> Iterator[V]:
        """The value of each range, from the lowest on.

        Cost: goes over all ranges.

        >>> list(RangeMap([((20, None), "high"), ((0, 10), "low")]).values())
        ['low', 'high']
        """
        return self._steps.values(None, None)

    def items(self) -> Iterator[Item[E, V]]:
        """The ranges, from the lowest on, each with its value.

        Cost: goes over all ranges.

        >>> list(RangeMap([((20, None), "high"), ((0, 10), "low")]).items())
        [((0, 10), 'low'), ((20, None), 'high')]
        """
        return self._steps.items(None, None)

    def span(self) -> tuple[E, E | None] | None:
        """From the start of the first range to the end of the last one, or None if no key has a value.

        Cost: two searches.

        >>> RangeMap([((0, 10), "low"), ((20, 30), "high")]).span()
        (0, 30)
        """
        return self._kind.pair(self._steps.span())

    @overload
    def overlapping(self, start: OneRange[E]) -> list[Item[E, V]]:
        ...

    @overload
    def overlapping(self, start: E | None, end: E | None) -> list[Item[E, V]]:
        ...

    def overlapping(self, start: Any, end: Any = ...) -> list[Item[E, V]]:
        """The ranges that have a key from a start up to, not including, an end, each with its value. They aren't cut, as those of
        `m[start:end]` are. It takes the two, a pair, a `range` or a key.

        Cost: a search, and one for each of them.

        >>> m = RangeMap([((0, 10), "low"), ((20, 30), "high"), ((40, 50), "top")])
        >>> m.overlapping(5, 25), m.overlapping((30, 40))
        ([((0, 10), 'low'), ((20, 30), 'high')], [])
        """
        known = self._kind
        if known.is_ordered:
            return [*self._steps.items(*codes_of_range(start, end, known)[:2])]
        wanted, kind = range_of(start, end, known)
        if known is not kind:
            self._check_kind(kind)
        return [*self._steps.items(*_ends(wanted))] if wanted else []

    def gaps(self, start: E | None = None, end: E | None = None) -> RangeSet[E]:
        """The keys from `start` up to, not including, `end` that have no value.

        Cost: a search, and one for each range there.

        >>> RangeMap([((0, 10), "low"), ((20, 30), "high")]).gaps(5, 25)
        RangeSet([(10, 20)])
        """
        known = self._kind
        if known.is_ordered:
            return self.domain().gaps(start, end)
        wanted, kind = range_of(start, end, known)
        if known is not kind:
            self._check_kind(kind)
        elif wanted:
            wanted = _core.difference(wanted, self._steps.domain(*_ends(wanted)))
        return RangeSet._over(wanted, kind)

    def domain(self) -> RangeSet[E]:
        """The keys that have a value.

        Cost: goes over all ranges.

        >>> RangeMap([((0, 10), "low"), ((10, 30), "high")]).domain()
        RangeSet([(0, 30)])
        """
        return RangeSet._over(self._steps.domain(None, None), self._kind)

    def find(self, value: V) -> RangeSet[E]:
        """The keys that have this value, or an equal one of its type.

        Cost: goes over all ranges, and an `==` for each object.

        >>> RangeMap([((0, 10), "low"), ((10, 30), "high"), ((30, 35), "low")]).find("low")
        RangeSet([(0, 10), (30, 35)])
        """
        return RangeSet._over(self._steps.find(value), self._kind)

    def _last(self, count: int) -> list[Item[E, V]]:
        """The last ranges with their values, of which there are as many."""
        found: list[Item[E, V]] = []
        key = most(self._kind.unsigned)
        while len(found) < count:
            start, end, value = self._steps.range_at(key, NOTHING)
            found[:0] = [] if value is NOTHING else [(self._kind.ends(start, end), value)]
            key = start - 1
        return found

    def _check_kind(self, kind: Kind) -> None:
        if kind is not self._kind and self._kind is not NO_KIND and not are_of_one(kind, self._kind):
            raise TypeError(mixed(self._kind, kind))


def _is_range(keys: Any) -> bool:
    """Whether it is a range of psycopg's or an interval of pandas'."""
    return hasattr(keys, "lower_inc") or (hasattr(keys, "closed") and not hasattr(keys, "__len__"))


def _ends(one: Boundaries) -> tuple[int, int | None]:
    """The start and the end of one range."""
    return one[0], one[1] if len(one) > 1 else None


def numbered_with(steps: Steps, ends: Iterable[int], kind: Any) -> tuple[Steps, list[int]]:
    """A map whose keys sort, made anew, and ends of ranges, by one kind of both. The least number as an end says that there is none."""
    codes, values = steps.ends_and_values()
    mine = array("q", codes)
    none = least(unsigned=False)
    known = sorted({*mine} - {none})
    keys, left, right = merged([*map(steps.kind.keys.__getitem__, known)] if isinstance(steps.kind, Ordered) else [], kind.keys)
    numbers = dict(zip(known, left))
    made = Steps(type(kind)(keys), False)
    made.change(packed((numbers.get(it, none) for it in mine), False), values)
    return made, [none if it == none else right[it] for it in ends]
