"""What checkers of types know. Of it a run has only what classes are written with, and never imports `typing`, which takes as long as the
rest of the package."""

from __future__ import annotations

TYPE_CHECKING = False

if TYPE_CHECKING:
    from typing import Any, Generic as Generic, Iterable, Literal, Mapping, Protocol, TypeVar, Union

    from ._maps import RangeMap
    from ._ranges import AnyRangeSet

    class Sortable(Protocol):
        """What `<` compares."""

        def __lt__(self, other: Any, /) -> Any:
            ...

    # An element of a set, or a key of a map, and one of another kind. Two of different types, as a date and a number, have no type that
    # sorts.
    E = TypeVar("E", bound=Sortable)
    F = TypeVar("F", bound=Sortable)
    E_co = TypeVar("E_co", covariant=True)
    V = TypeVar("V")
    D = TypeVar("D")

    class Span(Protocol[E_co]):
        """A `range`, which alone has an `index` beside these."""

        @property
        def start(self) -> E_co:
            ...

        @property
        def stop(self) -> E_co:
            ...

        def index(self, value: int, /) -> int:
            ...

    class Network(Protocol[E_co]):
        """A network of addresses."""

        @property
        def network_address(self) -> E_co:
            ...

        @property
        def prefixlen(self) -> int:
            ...

    class Bounds(Protocol[E_co]):
        """A range of psycopg's."""

        @property
        def lower(self) -> E_co | None:
            ...

        @property
        def lower_inc(self) -> bool:
            ...

        @property
        def upper(self) -> E_co | None:
            ...

        @property
        def upper_inc(self) -> bool:
            ...

    class Array(Protocol):
        """Arrays and columns."""

        @property
        def dtype(self) -> Any:
            ...

        def __len__(self) -> int:
            ...

    class Buffer(Protocol):
        """Arrays, memoryviews and numpy arrays: the buffer protocol has no type before Python 3.12."""

        def tolist(self, /) -> Any:
            ...

    # What is given as `kind`.
    KindLike = Union[type[E], str, None]
    # The start and the end of a range. None as a start is the least element, and as an end says that there is none.
    Pair = tuple[Union[E, None], Union[E, None]]
    # A range as one object; and what a range is given as without a second argument for its end.
    Range = Union[Span[E], Network[E], Bounds[E], Pair[E]]
    OneRange = Union[E, Range[E]]
    # What a set is made of. Among others a pair may be a list.
    Source = Union[AnyRangeSet[E], Range[E], Iterable[Union[AnyRangeSet[E], Range[E], Iterable[Union[E, None]]]]]
    # What a source is that is no set, by which its ranges are read: a range; a list or a tuple of ranges, pairs and sets; a tuple of two
    # lists, which is refused; a data frame, a column or intervals, as pandas has them; an array of Python's objects; a buffer of numbers
    # or an array of times; or something else, perhaps an iterable.
    Form = Literal["range", "items", "starts and ends", "columns", "objects", "table", "other"]
    # A range and its value; the end None says that it has no end.
    Item = tuple[tuple[E, Union[E, None]], V]
    # What stands in the brackets of a change, or of a part.
    Keys = Union[slice, Span[E], Network[E], Bounds[E], AnyRangeSet[E]]
    # What a map is made of.
    Items = Union[RangeMap[E, V], Mapping[Any, V], Iterable[tuple[Union[Pair[E], list[E], Span[E], Network[E], AnyRangeSet[E]], V]]]
else:
    from types import GenericAlias

    E, V = "E", "V"

    class Generic:
        """A class that may be followed by the types of what it has, as in `RangeSet[int]`."""

        __slots__ = ()
        __class_getitem__ = classmethod(GenericAlias)

    def overload(call):
        return call
