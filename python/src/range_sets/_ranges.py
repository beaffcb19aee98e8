"""What the sets that change and those that don't have in common."""

from __future__ import annotations

from array import array
from ipaddress import summarize_address_range
from itertools import chain, starmap, zip_longest

from . import _core
from ._conversions import of_kind
from ._fits import Fits
from ._kept import _restored, _unpacked
from ._kind import NO_KIND, Kind
from ._kinds import ADDRESSES, agreed, given_kind, whole
from ._moves import Moves
from ._numbers import typecode_of
from ._sources import all_from, boundaries_of, codes_of_range, gather, intersection_of, range_of, ranges_of, sets_of, union_of, values_of
from ._tables import Tables
from ._typing import TYPE_CHECKING, E

if not TYPE_CHECKING:
    from ._typing import overload
else:
    from ipaddress import IPv4Network, IPv6Network
    from typing import Any, Iterable, Iterator, Never, Self, SupportsIndex, overload

    from ._sets import MutableRangeSet, RangeSet
    from ._typing import F, KindLike, OneRange, Source

# Pickles name them here.
__all__ = ["AnyRangeSet", "_restored", "_unpacked"]


class AnyRangeSet(Fits[E], Moves[E], Tables[E]):
    """A set of elements as the ranges that have them: what `RangeSet` and `MutableRangeSet` have in common.

    Elements are whole numbers of 64 bits, from -2**63 to 2**63 - 1 or with `unsigned=True` from 0 to 2**64 - 1; or else floats, times,
    dates, lengths of time, addresses, or other values that sort. The start of a range is in the set and its end is not. The end None says that a range has
    no end.
    """

    __slots__ = ()
    __module__ = "range_sets"

    # A set of another kind has other elements. Pairs and sets by themselves, of which checkers find the type of the elements also if they
    # know less of them.

    @overload
    def __new__(cls, source: AnyRangeSet[Any], *, unsigned: bool | None = None, kind: type[E] | str, **attributes: Never) -> Self:
        ...

    @overload
    def __new__(
        cls, source: Iterable[tuple[E, E | None]] = (), *, unsigned: bool | None = None, kind: KindLike[E] = None, **attributes: Never
    ) -> Self:
        ...

    @overload
    def __new__(
        cls, source: Iterable[AnyRangeSet[E]], *, unsigned: bool | None = None, kind: KindLike[E] = None, **attributes: Never
    ) -> Self:
        ...

    @overload
    def __new__(cls, source: Iterable[str], *, unsigned: bool | None = None, kind: KindLike[E], **attributes: Never) -> Self:
        ...

    @overload
    def __new__(cls, source: Source[E], *, unsigned: bool | None = None, kind: KindLike[E] = None, **attributes: Never) -> Self:
        ...

    def __new__(cls, source: Any = (), *more: Any, unsigned: bool | None = None, kind: KindLike[E] = None, **attributes: Any) -> Self:
        if more:
            raise TypeError(f"{cls.__name__} is made of one argument, not {1 + len(more)}: a list of pairs, as [(3, 5), (7, 9)]")
        # The `__init__` of a subclass takes them.
        if attributes and cls.__init__ is object.__init__:
            raise TypeError(f"{cls.__name__}() got an unexpected keyword argument {next(iter(attributes))!r}")
        return cls._over(*gather(source, given_kind(kind, unsigned)))

    # ---- What it is ----

    @property
    def unsigned(self) -> bool:
        """Whether the numbers are those from 0 to 2**64 - 1.

        >>> RangeSet([(0, 10)], unsigned=True).unsigned
        True
        """
        return self._kind.unsigned

    @property
    def kind(self) -> str | None:
        """What the elements are, as `kind=` takes it; None for an empty set without a kind.

        It is one of `int`, `unsigned`, `float`, `datetime` for times without a time zone, `datetime[UTC]` for those with one, `date`,
        `timedelta`, `IPv4Address`, `IPv6Address`, `ordered` for other values that sort, and `datetime64[s]` or another unit of numpy's.

        >>> from datetime import date
        >>> RangeSet([(date(2026, 5, 1), date(2026, 5, 4))]).kind, RangeSet(kind="float").kind
        ('date', 'float')
        """
        kind = self._kind
        return None if kind is NO_KIND else kind.name

    @property
    def boundaries(self) -> memoryview:
        """The boundaries as a buffer that can't be written to. They are whole numbers even if the elements aren't.

        Cost: none, or of a `MutableRangeSet` that has changed goes over all.

        >>> RangeSet([(0, 10), (20, None)]).boundaries.tolist()
        [0, 10, 20]
        """
        return memoryview(self._now[0])  # type: ignore[arg-type]

    # ---- Made of other things ----

    @overload
    @classmethod
    def from_boundaries(cls, items: Iterable[E], *, unsigned: bool | None = None) -> Self:
        ...

    @overload
    @classmethod
    def from_boundaries(cls, items: Any, *, unsigned: bool | None = None, kind: KindLike[E]) -> Self:
        ...

    @classmethod
    def from_boundaries(cls, items: Any, *, unsigned: bool | None = None, kind: KindLike[E] = None) -> Self:
        """The set with these boundaries, from a buffer, such as a numpy array, or an iterable: at each the set begins or ends.

        They have to be strictly sorted, which is checked. With its kind they may be what `boundaries` has of a set.

        Cost: goes over them.

        >>> RangeSet.from_boundaries([0, 10, 20])
        RangeSet([(0, 10), (20, None)])
        """
        return cls._over(*boundaries_of(items, given_kind(kind, unsigned)))

    @overload
    @classmethod
    def from_ranges(cls, numbers: Iterable[E]) -> Self:
        ...

    @overload
    @classmethod
    def from_ranges(cls, numbers: Any, *, kind: KindLike[E]) -> Self:
        ...

    @classmethod
    def from_ranges(cls, numbers: Any, *, kind: KindLike[E] = None) -> Self:
        """The elements in some range of a buffer: a start and an end in turn, or a table with a row for each, in any order.

        Cost: that of sorting them.

        >>> from array import array
        >>> RangeSet.from_ranges(array("q", [20, 30, 0, 5, 3, 8]))
        RangeSet([(0, 8), (20, 30)])
        """
        return cls._over(*ranges_of(numbers, given_kind(kind)))

    @overload
    @classmethod
    def from_values(cls, values: Iterable[E], *, unsigned: bool | None = None, kind: KindLike[E] = None) -> Self:
        ...

    @overload
    @classmethod
    def from_values(cls, values: Any, *, unsigned: bool | None = None, kind: KindLike[E]) -> Self:
        ...

    @classmethod
    def from_values(cls, values: Any, *, unsigned: bool | None = None, kind: KindLike[E] = None) -> Self:
        """The set of these elements, from an array or an iterable, in any order.

        Cost: that of sorting them.

        >>> RangeSet.from_values([7, 3, 5, 4, 3])
        RangeSet([(3, 6), (7, 8)])
        """
        return cls._over(*values_of(values, given_kind(kind, unsigned)))

    @overload
    @classmethod
    def parse(cls: type[RangeSet[Any]], text: str, *, unsigned: bool = False) -> RangeSet[int]:  # type: ignore[misc]
        ...

    @overload
    @classmethod
    def parse(cls: type[MutableRangeSet[Any]], text: str, *, unsigned: bool = False) -> MutableRangeSet[int]:  # type: ignore[misc]
        ...

    @overload
    @classmethod
    def parse(cls, text: str, *, unsigned: bool = False, kind: KindLike[E]) -> Self:
        ...

    @classmethod
    def parse(cls, text: str, *, unsigned: bool = False, kind: KindLike[Any] = None) -> AnyRangeSet[Any]:
        """Reads what `str` writes of whole numbers, or of a kind of floats, dates, times, lengths of time or addresses: ranges in any
        order, with commas between them. An empty or reversed range has no members. Times may go without seconds. Between commas may also
        stand a network, one address, or the first and the last with a hyphen.

        A text that isn't one of ranges, or has a number that is out of range, raises ParseError with the `position` of the fault
        in characters from 0.

        Cost: that of sorting the ranges.

        >>> RangeSet.parse("20.., 0..10")
        RangeSet([(0, 10), (20, None)])
        >>> print(RangeSet.parse("10.0.0.0/30, 10.0.0.4-10.0.0.9", kind="IPv4Address"))
        10.0.0.0..10.0.0.10
        """
        found = given_kind(kind, unsigned or None) or whole(unsigned)
        if found.is_whole:
            from . import _text

            return cls._over(_text.read(text, found.unsigned), found)
        from . import _elements

        return cls._over(*gather([*_elements.ranges_in(text, found)], found))

    @classmethod
    def from_multirange(cls, text: str, *, kind: KindLike[E] = None) -> Self:
        """The set of a text of a multirange of PostgreSQL's, or of a range, of whole numbers, dates or times. Closed ends and open starts
        are those of the next number or date; of times they raise a ValueError.

        Without a kind the first element says which it is. A text that isn't one, and an element that Python hasn't, as infinity, raise
        ParseError with its `position` in characters from 0. What psycopg makes of a multirange or a range is a source of a set.

        Cost: that of sorting the ranges.

        >>> RangeSet.from_multirange("{[0,10),(19,20],[30,)}")
        RangeSet([(0, 10), (20, 21), (30, None)])
        """
        from . import _postgres

        return cls._over(*gather(*_postgres.read(text, given_kind(kind))))

    def to_multirange(self) -> str:
        """The text of the set as a multirange of PostgreSQL's: int8multirange, datemultirange, tsmultirange or tstzmultirange.

        Cost: goes over all ranges.

        >>> RangeSet([(0, 10), (20, None)]).to_multirange()
        '{[0,10),[20,)}'
        """
        from . import _postgres

        return _postgres.written(self._now)

    @overload
    @classmethod
    def union_all(cls, sets: Iterable[AnyRangeSet[E]], *, unsigned: bool | None = None, kind: KindLike[E] = None) -> Self:
        ...

    @overload
    @classmethod
    def union_all(cls, sets: Iterable[Source[E]], *, unsigned: bool | None = None, kind: KindLike[E] = None) -> Self:
        ...

    @classmethod
    def union_all(cls, sets: Iterable[Any], *, unsigned: bool | None = None, kind: KindLike[E] = None) -> Self:
        """The elements in some set of many. If there are none, `unsigned` or `kind` says of which kind the empty set is.

        Cost: for n boundaries in k sets n log k steps.

        >>> RangeSet.union_all(RangeSet([(n, n + 2)]) for n in range(5))
        RangeSet([(0, 6)])
        """
        return cls._joined(union_of, sets, given_kind(kind, unsigned))

    @overload
    @classmethod
    def intersection_all(cls, sets: Iterable[AnyRangeSet[E]], *, unsigned: bool | None = None, kind: KindLike[E] = None) -> Self:
        ...

    @overload
    @classmethod
    def intersection_all(cls, sets: Iterable[Source[E]], *, unsigned: bool | None = None, kind: KindLike[E] = None) -> Self:
        ...

    @classmethod
    def intersection_all(cls, sets: Iterable[Any], *, unsigned: bool | None = None, kind: KindLike[E] = None) -> Self:
        """The elements in each set of many. If there are none, these are all, and `unsigned` or `kind` says of which kind.

        Cost: for n boundaries in k sets at most n log k steps.

        >>> RangeSet.intersection_all([RangeSet([(n, n + 9)]) for n in range(5)])
        RangeSet([(4, 9)])
        """
        return cls._joined(intersection_of, sets, given_kind(kind, unsigned))

    @classmethod
    def _joined(cls, join: Any, sets: Iterable[Any], kind: Kind | None) -> Self:
        return cls._over(*join(sets_of(sets, kind), kind))

    # ---- The ranges ----

    def __len__(self) -> int:
        return (len(self._now[0]) + 1) // 2

    def __bool__(self) -> bool:
        return len(self._now[0]) != 0

    def __iter__(self) -> Iterator[tuple[E, E | None]]:
        boundaries, kind = self._now
        items = kind.values(boundaries)
        return zip_longest(items, items)

    def bounded(self) -> Iterator[tuple[E, E]]:
        """The ranges, each with an end. A set without an end raises a ValueError.

        Cost: goes over all ranges.

        >>> sum(end - start for start, end in RangeSet([(0, 10), (20, 25)]).bounded())
        15
        """
        boundaries, kind = self._now
        if len(boundaries) % 2:
            raise ValueError(f"expected a set with an end, and this has none from {kind.value(boundaries[-1])} on")
        items = kind.values(boundaries)
        return zip(items, items)

    def members(self) -> Iterator[E]:
        """The elements in order, one by one, up to the greatest if the set has no end. Floats, IPv6 addresses and values that sort
        can't be listed.

        Cost: goes over all members.

        >>> list(RangeSet([(0, 3), (7, 9)]).members())
        [0, 1, 2, 7, 8]
        """
        boundaries, kind = self._now
        if kind.uncounted:
            raise TypeError(f"{kind.uncounted}, so they can't be listed")
        items = iter(boundaries)
        runs = (range(start, kind.most + 1 if end is None else end) for start, end in zip_longest(items, items))
        return kind.values(chain.from_iterable(runs))

    def networks(self) -> Iterator[IPv4Network | IPv6Network]:
        """The fewest networks that have the addresses of the set between them, from the lowest on.

        Cost: goes over all ranges.

        >>> from ipaddress import IPv4Network
        >>> made = RangeSet([IPv4Network("10.0.0.0/24"), IPv4Network("10.0.1.0/25")])
        >>> [str(it) for it in made.networks()], IPv4Network("10.0.0.128/25") in made
        (['10.0.0.0/24', '10.0.1.0/25'], True)
        """
        boundaries, kind = self._now
        if not isinstance(kind, ADDRESSES) and kind is not NO_KIND:
            raise TypeError(f"expected a set of addresses, not of the kind {kind.name}")
        items = kind.values(boundaries)
        # None is above the greatest address.
        last = ((start, type(start)(2**start.max_prefixlen - 1) if end is None else end - 1) for start, end in zip_longest(items, items))
        return chain.from_iterable(starmap(summarize_address_range, last))

    def __reversed__(self) -> Iterator[tuple[E, E | None]]:
        kept = self._over(*self._now)
        return map(kept.__getitem__, range(len(kept) - 1, -1, -1))

    @overload
    def __getitem__(self, at: SupportsIndex) -> tuple[E, E | None]:
        ...

    @overload
    def __getitem__(self, at: slice) -> Self:
        ...

    def __getitem__(self, at: SupportsIndex | slice) -> tuple[E, E | None] | Self:
        # Goes over a whole MutableRangeSet that has changed.
        items, kind = self._now
        count = (len(items) + 1) // 2
        if isinstance(at, slice):
            start, stop, step = at.indices(count)
            if step == 1:
                return self._over(items.part(2 * start, 2 * max(start, stop)), kind)
            places = range(start, stop, step)
            chosen = chain.from_iterable(items[2 * i : 2 * i + 2] for i in (places if step > 0 else places[::-1]))
            return self._over(_core.from_boundaries(array(typecode_of(kind.unsigned), chosen)), kind)
        try:
            i = range(count)[at]
        except IndexError:
            raise IndexError(f"there is no such range: the set has {count}") from None
        return kind.ends(items[2 * i], items[2 * i + 1] if 2 * i + 1 < len(items) else None)

    # ---- New sets ----

    @overload
    def overlapping(self, start: OneRange[E]) -> Self:
        ...

    @overload
    def overlapping(self, start: E | None, end: E | None) -> Self:
        ...

    def overlapping(self, start: Any, end: Any = ...) -> Self:
        """The ranges that have an element from a start up to, not including, an end. They aren't cut.

        Cost: two searches, and a copy of the ranges.

        >>> RangeSet([(0, 10), (20, 30), (40, 50)]).overlapping(5, 25)
        RangeSet([(0, 10), (20, 30)])
        """
        known, near = self._kind, None
        if known.is_ordered:
            near, known = self._now
        first, last, kind = codes_of_range(start, end, known)
        first = max(first, kind.least)
        if first > kind.most or (last is not None and last <= first):
            return self._over(kind.nothing, kind)
        last = None if last is None or last > kind.most else last
        if near is None:
            near = self._beside((kind.range_list(first, last), kind))[0]
        return self._over(near.overlapping(first, last), kind)

    def gaps(self, start: E | None = None, end: E | None = None) -> Self:
        """The elements from `start` up to, not including, `end` that are no members.

        Cost: two searches, and the gaps.

        >>> RangeSet([(0, 10), (20, 30)]).gaps(5, 25)
        RangeSet([(10, 20)])
        """
        left, right, kind = self._beside(range_of(start, end, self._kind))
        return self._over(_core.difference(right, left), kind)

    def split(self, at: E) -> tuple[Self, Self]:
        """The members below an element, and those from it on.

        Cost: a search, and a copy of the parts.

        >>> RangeSet([(0, 10), (20, 30)]).split(25)
        (RangeSet([(0, 10), (20, 25)]), RangeSet([(25, 30)]))
        """
        items, kind = self._now
        upper, found = all_from(at, kind)
        if found is not kind:
            items, upper, kind = agreed((items, kind), (upper, found))
        left_len, right_start = _core.split(items, upper[0])
        above = items.part(right_start, len(items))
        if left_len <= right_start:
            return self._over(items.part(0, right_start), kind), self._over(above, kind)
        below = _core.difference(items[:left_len], upper)
        return self._over(below, kind), self._over(_core.intersection(above, upper), kind)

    @overload
    def astype(self: RangeSet[Any], kind: type[F] | str) -> RangeSet[F]:  # type: ignore[misc]
        ...

    @overload
    def astype(self: MutableRangeSet[Any], kind: type[F] | str) -> MutableRangeSet[F]:  # type: ignore[misc]
        ...

    def astype(self, kind: KindLike[Any]) -> AnyRangeSet[Any]:
        """The set with the same starts and ends as elements of another kind: one of whole numbers or floats as another of these, or one
        of dates or times without a zone. A date is the time at which it begins. If the other kind hasn't a start or an end, it is a
        ValueError or an OverflowError.

        Cost: goes over all ranges.

        >>> from datetime import date
        >>> RangeSet([(date(2026, 5, 1), None)]).astype("datetime")
        RangeSet([(datetime.datetime(2026, 5, 1, 0, 0), None)])
        """
        return self._over(*of_kind(self._now, given_kind(kind)))

    def union(self, *others: Source[E]) -> Self:
        """The elements in this set or in another; `|` takes sets alone.

        Cost: a copy of all.

        >>> RangeSet([(0, 5)]).union([(8, 9)], range(5, 7))
        RangeSet([(0, 7), (8, 9)])
        """
        return self._over(*union_of([self._now, *map(self._of, others)]))

    def intersection(self, *others: Source[E]) -> Self:
        """The elements in this set and in each other; `&` takes sets alone.

        Cost: searches for the ranges of the smaller set, and the result.

        >>> RangeSet([(0, 5)]).intersection([(3, 9)])
        RangeSet([(3, 5)])
        """
        made = self
        for other in others:
            left, right, kind = made._met(other)
            made = self._over(_core.intersection(left, right), kind)
        return made if others else self._over(*self._now)

    def difference(self, *others: Source[E]) -> Self:
        """The elements in this set and in no other; `-` takes sets alone.

        Cost: searches for the ranges of the smaller set, and the result.

        >>> RangeSet([(0, 5)]).difference([(3, 9)])
        RangeSet([(0, 3)])
        """
        result, kind = self._now
        for other in others:
            if isinstance(other, AnyRangeSet) and not kind.is_ordered:
                right, left, kind = other._beside((result, kind))
            else:
                left, right, kind = agreed((result, kind), self._of(other))
            result = _core.difference(left, right)
        return self._over(result, kind)

    def symmetric_difference(self, other: Source[E]) -> Self:
        """The elements in exactly one of the two sets; `^` takes sets alone.

        Cost: a copy of both.

        >>> RangeSet([(0, 5)]).symmetric_difference([(3, 9)])
        RangeSet([(0, 3), (5, 9)])
        """
        return self._combined(_core.symmetric_difference, self._of(other))
