"""The two kinds of sets."""

from __future__ import annotations

from . import _core
from ._core import Boundaries, Chunks
from ._kind import Kind, Now
from ._kinds import agreed
from ._ranges import AnyRangeSet
from ._sources import codes_of_range, intersection_of, range_of, union_of
from ._typing import TYPE_CHECKING, E

if not TYPE_CHECKING:
    from ._typing import overload
else:
    from typing import Any, Callable, Self, overload

    from ._typing import OneRange, Source


class RangeSet(AnyRangeSet[E]):
    """A set of whole numbers, times or other elements, as the ranges that have them. It never changes, and can be a key of a dict.

    It is made of pairs (start, end), `range` objects, networks, other sets, or an iterable of these in any order. The start of a range
    is in the set and its end is not. The end None says that a range has no end, and the start None is the least element.

    >>> day = RangeSet([(9, 12), (13, 17)])
    >>> busy = RangeSet([(11, 14), range(16, 18)])
    >>> day - busy
    RangeSet([(9, 11), (14, 16)])
    >>> 10 in day - busy, (day - busy).covered()
    (True, 4)
    >>> print(day | busy, ~day, sep="; ")
    9..18; -9223372036854775808..9, 12..13, 17..

    `|`, `&`, `-`, `^` and `~` give new sets, `<=` and `<` compare as those of `frozenset`, and `in` asks for a number. The length
    is that of the list of ranges, over which the set iterates as pairs.

    The numbers are those from -2**63 to 2**63 - 1, or with `unsigned=True` those from 0 to 2**64 - 1. Elements may also be floats,
    times with or without a time zone, dates, `timedelta`, addresses, or numpy's datetime64 of one unit. The first element
    or `kind=` decides the kind of a set. Two kinds don't mix, and are never equal; `RangeSet()`, of none yet, is as nothing of each.

    Other values that sort, as texts, decimals, fractions, versions and tuples, are of the kind `ordered`: those of a set have to compare
    with each other by `<`. A set of n ranges takes up to n log n comparisons to be made, or to be combined with another, and a question
    log n. What a comparison raises is raised. `None` as a start, and `~`, are for texts, bytes and tuples, which have a least value.
    Values that sort aren't counted, and so have no `covered`, `rank` or `members`.

    >>> words = RangeSet([("a", "fig"), ("kiwi", "plum")])
    >>> "apple" in words, words & RangeSet([("b", "m")]), ~words
    (True, RangeSet([('b', 'fig'), ('kiwi', 'm')]), RangeSet([('', 'a'), ('fig', 'kiwi'), ('plum', None)]))

    To checkers of types it is a `RangeSet[E]`, as `RangeSet[int]`. In the signatures below `E` is an element, `Source` what a set is made
    of, `OneRange` a pair, a `range`, a network or one element, and `KindLike` what `kind` takes: the name of a kind as the attribute `kind`
    has it, or a type of Python's.

    >>> list(RangeSet([(0, 10), (20, None)], unsigned=True))
    [(0, 10), (20, None)]
    >>> from datetime import datetime
    >>> talk = RangeSet([(datetime(2026, 5, 4, 9, 30), datetime(2026, 5, 4, 11, 0))])
    >>> datetime(2026, 5, 4, 10, 0) in talk, str(talk.covered())
    (True, '1:30:00')
    """

    __slots__ = ()
    __module__ = "range_sets"

    if not TYPE_CHECKING:

        def __getattr__(self, name):
            is_there = not name.startswith("_") and hasattr(MutableRangeSet, name)
            self._refuse(name, ": a MutableRangeSet has it, which changes" if is_there else "")

    def __hash__(self) -> int:
        boundaries, kind = self._now
        numbers = kind.hashed(boundaries) if kind.is_ordered else bytes(boundaries)
        return hash((numbers, kind.name if boundaries else None))

    # What never changes is its own copy, unless a subclass has attributes.

    def __copy__(self) -> Self:
        return self if self.__getstate__() is None else super().__copy__()

    def __deepcopy__(self, memo: Any) -> Self:
        return self if self.__getstate__() is None else super().__deepcopy__(memo)

    def copy(self) -> Self:
        """The set itself, which never changes; of a subclass with attributes, another set that has them.

        Cost: none.

        >>> s = RangeSet([(0, 10)])
        >>> s.copy() is s
        True
        """
        return self.__copy__()

    @overload
    def insert(self, start: OneRange[E]) -> Self:
        ...

    @overload
    def insert(self, start: E | None, end: E | None) -> Self:
        ...

    def insert(self, start: Any, end: Any = ...) -> Self:
        """The set with the elements from a start up to, not including, an end. It takes the two, a pair, a `range` or an element.

        Cost: a copy of the set.

        >>> RangeSet([(0, 10)]).insert(5, 15)
        RangeSet([(0, 15)])
        """
        return self._combined(_core.union, range_of(start, end, self._now[1]))

    @overload
    def remove(self, start: OneRange[E]) -> Self:
        ...

    @overload
    def remove(self, start: E | None, end: E | None) -> Self:
        ...

    def remove(self, start: Any, end: Any = ...) -> Self:
        """The set without the elements from a start up to, not including, an end. It takes the two, a pair, a `range` or an element.

        Cost: a copy of the set.

        >>> RangeSet([(0, 10)]).remove(3, 5)
        RangeSet([(0, 3), (5, 10)])
        """
        return self._combined(_core.difference, range_of(start, end, self._now[1]))


class MutableRangeSet(AnyRangeSet[E]):
    """A set of whole numbers, times or other elements that changes in place. It is made as a `RangeSet` is, and has no hash.

    >>> received = MutableRangeSet()
    >>> received.add(0, 100)
    >>> received |= RangeSet([(150, 200)])
    >>> received.discard(10, 20)
    >>> received
    MutableRangeSet([(0, 10), (20, 100), (150, 200)])

    An operator gives a set of the kind of its left side. `RangeSet(s)` is a set that doesn't change with `s`; neither does an
    array made of it. If a change raises an error, the set is as it was.

    Changes and questions take some microseconds also of a million ranges, and more for each range that they are given or find.
    The first change of a set that is new goes over all. So do `covered` and `rank`, `^` and `|`, a call that is given many ranges,
    after a change the first of `boundaries`, `copy`, an index or an iteration, and each change of a set of values that sort.

    Threads may share a set: each call is whole. Those who read and then write as they read lock for themselves.
    """

    __slots__ = ("_chunks",)
    __module__ = "range_sets"
    __hash__ = None  # type: ignore[assignment]
    _chunks: Chunks

    if not TYPE_CHECKING:

        def __getattr__(self, name):
            found = {"insert": "add", "remove": "discard"}.get(name)
            self._refuse(name, f": {found} changes the set" if found else "")

    @classmethod
    def _over(cls, boundaries: Boundaries, kind: Kind) -> Self:
        made = object.__new__(cls)
        made._chunks = Chunks(boundaries, kind)
        return made

    @property
    def _now(self) -> Now:
        return self._chunks.now

    @property
    def _kind(self) -> Kind:
        return self._chunks.kind

    def __sizeof__(self) -> int:
        return object.__sizeof__(self) + self._chunks.__sizeof__()

    @property
    def _seen(self) -> tuple[Boundaries | Chunks, Kind]:
        chunks = self._chunks
        kind = chunks.kind
        if kind.is_in_chunks:
            return chunks, kind
        # The next change may give it another kind.
        return chunks.now

    def _beside(self, other: Now) -> tuple[Boundaries, Boundaries, Kind]:
        chunks = self._chunks
        kind = chunks.kind
        if kind.is_ordered:
            return agreed(chunks.now, other)
        _, right, kind = agreed((kind.nothing, kind), other)
        return chunks.near(right, kind), right, kind

    def __le__(self, other: AnyRangeSet[E]) -> bool:
        return self._is_within(other._now) if isinstance(other, AnyRangeSet) else NotImplemented

    def _is_within(self, other: Now) -> bool:
        chunks = self._chunks
        kind = chunks.kind
        if kind.is_ordered:
            return super()._is_within(other)
        _, right, kind = agreed((kind.nothing, kind), other)
        return not chunks.meets(_core.negation(right), kind)

    def __len__(self) -> int:
        return len(self._chunks)

    def __bool__(self) -> bool:
        return bool(self._chunks)

    def _change(self, call: Callable[[Chunks, Boundaries, Kind, Kind], bool], other: Now) -> Self:
        """Makes the set what a call gives of it and another. Tried anew if another thread decided its kind meanwhile."""
        chunks, done = self._chunks, False
        while not done:
            seen = chunks.kind
            if seen.is_ordered or other[1].is_ordered:
                now = chunks.now
                left, right, kind = agreed(now, other)
                done = chunks.replace(getattr(_core, call.__name__)(left, right), kind, now)
            else:
                _, right, kind = agreed((seen.nothing, seen), other)
                done = call(chunks, right, seen, kind)
        return self

    def _change_range(self, call: Any, of_sets: Any, start: Any, end: Any) -> bool:
        """Puts a range in or takes it out, by a call of the chunks for its numbers, or by one for sets. False if another thread has
        decided the kind meanwhile."""
        seen = self._chunks.kind
        first, last, kind = codes_of_range(start, end, seen)
        if kind.is_ordered:
            self._change(of_sets, range_of(start, end, seen))
            return True
        done: bool = call(kind.checked(first), None if last is None else kind.checked(last), seen, kind)
        return done

    def copy(self) -> Self:
        """Another set with the same members.

        Cost: none, or of a set that has changed goes over all ranges.

        >>> s = MutableRangeSet([(0, 10)])
        >>> t = s.copy()
        >>> s.clear()
        >>> t
        MutableRangeSet([(0, 10)])
        """
        return self.__copy__()

    def clear(self) -> None:
        """Takes out all elements.

        Cost: that of freeing all.

        >>> s = MutableRangeSet([(0, 10)])
        >>> s.clear()
        >>> s
        MutableRangeSet()
        """
        self._chunks.clear()

    @overload
    def add(self, start: OneRange[E]) -> None:
        ...

    @overload
    def add(self, start: E | None, end: E | None) -> None:
        ...

    def add(self, start: Any, end: Any = ...) -> None:
        """Puts in the elements from a start up to, not including, an end. It takes the two, a pair, a `range` or an element.

        Cost: a search.

        >>> s = MutableRangeSet([(0, 10)])
        >>> s.add(5, 15)
        >>> s.add(20)
        >>> s
        MutableRangeSet([(0, 15), (20, 21)])
        """
        chunks = self._chunks
        # Else it takes no numbers, or another thread has decided the kind meanwhile.
        while not (chunks.insert(start, end) or self._change_range(chunks.insert, Chunks.union, start, end)):
            pass

    @overload
    def discard(self, start: OneRange[E]) -> None:
        ...

    @overload
    def discard(self, start: E | None, end: E | None) -> None:
        ...

    def discard(self, start: Any, end: Any = ...) -> None:
        """Takes out the elements from a start up to, not including, an end. It takes the two, a pair, a `range` or an element.

        Cost: a search.

        >>> s = MutableRangeSet([(0, 10)])
        >>> s.discard(3, 5)
        >>> s
        MutableRangeSet([(0, 3), (5, 10)])
        """
        chunks = self._chunks
        while not (chunks.remove(start, end) or self._change_range(chunks.remove, Chunks.difference, start, end)):
            pass

    def update(self, *others: Source[E]) -> None:
        """Puts in the elements of other sets; `|=` takes sets alone.

        Cost: a search for each range that it is given; if these are many, goes over all.

        >>> s = MutableRangeSet([(0, 10)])
        >>> s.update([(20, 30)], range(10, 12))
        >>> s
        MutableRangeSet([(0, 12), (20, 30)])
        """
        self._change(Chunks.union, union_of([*map(self._of, others)]))

    def intersection_update(self, *others: Source[E]) -> None:
        """Keeps the elements that are in each other set; `&=` takes sets alone.

        Cost: a search for each range that it is given; if these are many, goes over all.

        >>> s = MutableRangeSet([(0, 10)])
        >>> s.intersection_update([(5, 20)])
        >>> s
        MutableRangeSet([(5, 10)])
        """
        sets = [*map(self._of, others)]
        if sets:
            self._change(Chunks.intersection, intersection_of(sets))

    def difference_update(self, *others: Source[E]) -> None:
        """Takes out the elements of other sets; `-=` takes sets alone.

        Cost: a search for each range that it is given; if these are many, goes over all.

        >>> s = MutableRangeSet([(0, 10)])
        >>> s.difference_update([(5, 20)])
        >>> s
        MutableRangeSet([(0, 5)])
        """
        self._change(Chunks.difference, union_of([*map(self._of, others)]))

    def symmetric_difference_update(self, other: Source[E]) -> None:
        """Keeps the elements that are in exactly one of the two sets; `^=` takes sets alone.

        Cost: a search for each range that it is given; if these are many, goes over all.

        >>> s = MutableRangeSet([(0, 10)])
        >>> s.symmetric_difference_update([(5, 20)])
        >>> s
        MutableRangeSet([(0, 5), (10, 20)])
        """
        self._change(Chunks.symmetric_difference, self._of(other))

    def __ior__(self, other: AnyRangeSet[E]) -> Self:
        return self._change(Chunks.union, other._now) if isinstance(other, AnyRangeSet) else NotImplemented

    def __iand__(self, other: AnyRangeSet[E]) -> Self:
        return self._change(Chunks.intersection, other._now) if isinstance(other, AnyRangeSet) else NotImplemented

    def __isub__(self, other: AnyRangeSet[E]) -> Self:
        return self._change(Chunks.difference, other._now) if isinstance(other, AnyRangeSet) else NotImplemented

    def __ixor__(self, other: AnyRangeSet[E]) -> Self:
        return self._change(Chunks.symmetric_difference, other._now) if isinstance(other, AnyRangeSet) else NotImplemented
