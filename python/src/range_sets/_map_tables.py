"""Maps as tables and intervals, and made of these."""

from __future__ import annotations

from ._columns import frame_of, intervals_of
from ._conversions import codes_of_kind
from ._kind import NO_KIND, UNSIGNED, Kind
from ._kinds import given_kind
from ._map_columns import columns_with
from ._map_questions import MapQuestions
from ._numbers import least, packed, typecode_of
from ._sources import _dtype_letter
from ._typing import TYPE_CHECKING, E, V

if not TYPE_CHECKING:
    from ._typing import overload
else:
    from typing import Any, Iterable, Self, overload

    from ._maps import RangeMap
    from ._typing import F, KindLike


class MapTables(MapQuestions[E, V]):
    """What pandas has of a map: a start, an end and a value for each range."""

    __slots__ = ()

    if TYPE_CHECKING:

        def update(self, items: Any) -> None:
            ...

    @overload
    @classmethod
    def from_arrays(
        cls, starts: Iterable[E], ends: Iterable[E | None], values: Iterable[V], *, unsigned: bool | None = None, kind: KindLike[E] = None
    ) -> Self:
        ...

    @overload
    @classmethod
    def from_arrays(cls, starts: Any, ends: Any, values: Iterable[V], *, unsigned: bool | None = None, kind: KindLike[E]) -> Self:
        ...

    @classmethod
    def from_arrays(cls, starts: Any, ends: Any, values: Any, *, unsigned: bool | None = None, kind: KindLike[E] = None) -> Self:
        """The map of three arrays or columns: of starts, of ends and of values. Where ranges overlap, the later one's value holds.

        Cost: that of `put` for each.

        >>> RangeMap.from_arrays([0, 5], [10, 7], ["low", "mid"])
        RangeMap([((0, 5), 'low'), ((5, 7), 'mid'), ((7, 10), 'low')])
        """
        found = given_kind(kind, unsigned)
        if found is None:
            found = UNSIGNED if _dtype_letter(starts) == "u" else NO_KIND
        made = cls._empty(found)
        made.update(columns_with(starts, ends, values))
        return made

    def astype(self, kind: type[F] | str) -> RangeMap[F, V]:
        """The map with the same ends of its ranges as keys of another kind, as a set's `astype` makes them. If the other kind hasn't one,
        it is a ValueError or an OverflowError.

        Cost: goes over all ranges.

        >>> RangeMap([((0, 10), "low")]).astype(float)
        RangeMap([((0.0, 10.0), 'low')])
        """
        codes, known, values = self._codes()
        codes, found = codes_of_kind(codes, known, given_kind(kind))
        made: Any = self._empty(found)
        made._steps.change(packed([*codes, *[least(found.unsigned)] * (len(codes) % 2)], found.unsigned), tuple(values))
        return made  # type: ignore[no-any-return]

    def to_frame(self) -> Any:
        """A data frame of pandas with the columns `start`, `end` and `value`, which makes the map again. Times with a zone are in UTC.
        Those without are pandas', of which `astype("datetime")` makes Python's. If the last range has no end, its end is None.

        Cost: goes over all ranges.

        >>> print(RangeMap([((0, 10), "low"), ((20, 25), "high")]).to_frame())
           start  end value
        0      0   10   low
        1     20   25  high
        """
        codes, kind, values = self._codes()
        return frame_of(codes, kind, value=values)

    def to_series(self) -> Any:
        """A series of pandas with the values, by an index of `intervals()`, which makes the map again; of dates and times without a
        zone, it makes one of pandas' times, and `astype` the map. If a range has no end, that is a ValueError.

        Cost: goes over all ranges.

        >>> RangeMap([((0, 10), "low"), ((20, 25), "high")]).to_series()[22]
        'high'
        """
        import pandas

        codes, kind, values = self._codes()
        return pandas.Series(values, index=intervals_of(codes, kind), dtype=object).infer_objects()

    def intervals(self) -> Any:
        """The ranges as an IntervalIndex of pandas, closed on the left. Times with a zone are in UTC, and dates are their midnights. If a
        range has no end, that is a ValueError.

        Cost: goes over all ranges.

        >>> RangeMap([((0, 10), "low"), ((20, 25), "high")]).intervals().length.tolist()
        [10, 5]
        """
        return intervals_of(*self._codes()[:2])

    def _codes(self) -> tuple[Any, Kind, list[V]]:
        """The numbers of the starts and ends in turn, the kind and the values."""
        steps = self._steps
        ends, values = steps.ends_and_values()
        codes = memoryview(ends).cast(typecode_of(steps.kind.unsigned))
        has_end = len(codes) == 0 or codes[-1] != least(steps.kind.unsigned)
        return codes if has_end else codes[:-1], steps.kind, [*values]
