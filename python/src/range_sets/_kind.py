"""One kind of elements, and that of whole numbers. A kind has whole numbers that stand for its elements.

A kind's `code` gives the number of an element, and its `value` the element of a number. Both keep the order, so that a list of such
numbers is a set of elements, and the library for C needs to know of numbers alone.
"""

from __future__ import annotations

from datetime import datetime
from operator import index

from . import _core
from ._core import Boundaries
from ._numbers import expected_number, least, most
from ._typing import TYPE_CHECKING

if TYPE_CHECKING:
    from typing import Any, Iterable, Iterator

# The numbers of 64 bits with a sign.
LEAST, MOST = least(unsigned=False), most(unsigned=False)
NAN = "NaN is in no order, and no element of a set"
NAT = "NaT is in no order, and no element of a set"
UNCOUNTED = "floats aren't counted one by one"


class Kind:
    """A kind of elements, from one whose number is `least` to one whose number is `most`.

    `name` is what `kind=` takes, `element` says in errors what one is, and `plural` names them in pictures.
    """

    name: str
    unsigned = is_whole = False
    # The boundaries of the empty set.
    nothing = _core.range_list(0, 0, False)
    # Whether the extension reads its elements itself.
    is_plain = False
    # Whether its numbers are the ranks of a set's own boundaries, as of values that sort, or a set that changes is asked in chunks.
    is_ordered, is_in_chunks = False, True
    # What an error says if its elements aren't counted one by one.
    uncounted = ""
    # Whether a start at the least element says that there is none, as it does unless that is zero, and whether a range without an end
    # has it above the greatest element.
    is_open_below = ends_at_most = False
    # What an error adds to say between which elements one has to lie.
    span = ""
    # numpy's type of arrays that have these numbers as they lie.
    dtype: Any = None

    def __init__(self, name: str, element: str, least: int, most: int, plural: str) -> None:
        self.name, self.element, self.least, self.most, self.plural = name, element, least, most, plural
        self.is_open_below = least != 0
        # Python finds what a kind has itself before what its class has, and these are asked for most.
        self.is_whole, self.is_ordered, self.is_in_chunks = self.is_whole, self.is_ordered, self.is_in_chunks

    def code(self, value: Any) -> int:
        """The number of an element, which may lie outside of the kind's; a TypeError if it is no element of the kind."""
        raise NotImplementedError

    def codes(self, values: list[Any]) -> list[int]:
        """The number of each of many elements."""
        return [*map(self.code, values)]

    def value(self, code: int) -> Any:
        """The element of a number."""
        raise NotImplementedError

    def values(self, codes: Iterable[int]) -> Iterator[Any]:
        """The element of each number."""
        return map(self.value, codes)

    def type_error(self, value: Any) -> TypeError:
        """The error of a value that is no element of the kind."""
        return TypeError(f"expected {self.element}, not {named(value)}: the kind is {self.name!r}")

    def array_type_error(self, dtype: Any) -> TypeError:
        """The error of an array of times or lengths of numpy's that the kind doesn't have."""
        return TypeError(f"expected {self.element} each, not an array of numpy's {dtype.name}{self.hint(dtype.name)}")

    def hint(self, name: str) -> str:
        """What that error adds, by the name of numpy's type."""
        return ""

    def has(self, boundaries: Boundaries) -> bool:
        """Whether sorted numbers are all of the kind."""
        ends = *boundaries[:1], *boundaries[-1:]
        return _core.is_signed(boundaries) != self.unsigned and all(self.least <= it <= self.most for it in ends)

    def checked(self, code: int) -> int:
        """The number itself, if it is one of the kind's, or else an OverflowError."""
        if not self.least <= code <= self.most:
            raise OverflowError(f"expected {self.element}{self.span}")
        return code

    def number(self, value: Any) -> int:
        """The number of an element, which is one of the kind's."""
        return self.checked(self.code(value))

    def start(self, value: Any) -> int:
        """The number of a start, which is the least if the start is None. It may lie outside of the kind's."""
        return self.least if value is None else self.code(value)

    def end(self, value: Any) -> int | None:
        """The number of an end, or None if there is none. One past the greatest element is none too, if that has fewer than 64 bits."""
        code = None if value is None else self.code(value)
        return None if code is not None and self.most < code <= MOST else code

    def codes_of_one(self, value: Any) -> tuple[int, int | None]:
        """The numbers of the start and the end of the range that has one element alone."""
        code = self.code(value)
        return code, None if code == self.most else code + 1

    def range_list(self, start: int, end: int | None) -> Boundaries:
        """The boundaries of the range with these numbers."""
        return _core.range_list(self.checked(start), None if end is None else self.checked(end), self.unsigned)

    def trimmed(self, boundaries: Boundaries) -> Boundaries:
        """The list without an end past the greatest element."""
        return boundaries[:-1] if self.most != most(self.unsigned) and boundaries and boundaries[-1] > self.most else boundaries

    def of(self, values: Iterable[Any]) -> Kind:
        """The kind that has numbers for these."""
        return self

    def everything(self) -> Now:
        """The set of all elements."""
        return _core.range_list(self.least, None, self.unsigned), self

    def hashed(self, boundaries: Boundaries) -> Any:
        """What is hashed of a set's boundaries."""
        return bytes(boundaries)

    @property
    def pickled(self) -> Any:
        """What pickles have of the kind."""
        return None if self is NO_KIND else self.name

    def ends(self, start: int, end: int | None) -> tuple[Any, Any]:
        """The elements of a start and an end; no end is None."""
        return self.value(start), None if end is None else self.value(end)

    def pair(self, codes: tuple[int, int | None] | None) -> tuple[Any, Any] | None:
        """The elements of a start and an end that are given as a pair, or None for None."""
        return codes and self.ends(*codes)

    def covered(self, asked: Any) -> Any:
        """How much a set covers, or None if it has no end."""
        count = _core.covered(asked)
        return None if count is None else self.length(count)

    def length(self, count: int) -> Any:
        """This number of elements, as people count them."""
        return count

    def count(self, length: Any) -> int:
        """How many elements a length is."""
        return index(length)

    def distance(self, length: Any) -> Any:
        """What is added to an element's number that moves by a length."""
        return self.count(length)

    def line(self, boundaries: Boundaries) -> tuple[Any, Any, Any]:
        """The numbers that distances are added to, and the least and the greatest one that an end may have."""
        return boundaries, self.least, self.most + self.ends_at_most

    def shown(self, value: Any) -> str:
        """An element in a form that Python reads back."""
        return repr(value)

    def place(self, code: int) -> float:
        """Where an element stands on a number line."""
        return code


class Whole(Kind):
    """Whole numbers, each by itself."""

    is_whole = True

    def __init__(self, name: str, unsigned: bool) -> None:
        self.unsigned, self.nothing = unsigned, _core.range_list(0, 0, unsigned)
        super().__init__(name, expected_number(unsigned), least(unsigned), most(unsigned), "numbers")

    def code(self, value: Any) -> int:
        return index(value)

    def value(self, code: int) -> int:
        return code

    def values(self, codes: Iterable[int]) -> Iterator[int]:
        return iter(codes)

    def range_list(self, start: int, end: int | None) -> Boundaries:
        return _core.range_list(start, end, self.unsigned)


def refuse_nat(value: Any) -> None:
    """Raises a ValueError if a time is NaT, which alone differs from itself."""
    if value != value:
        raise ValueError(NAT)


def named(value: Any) -> str:
    """What an error calls a value that is no element: its type, and of a datetime whether it has a time zone."""
    if isinstance(value, datetime):
        refuse_nat(value)
        return f"a datetime {'without' if value.utcoffset() is None else 'with'} a time zone"
    return f"{type(value).__name__}"


SIGNED: Whole = Whole("int", False)
UNSIGNED: Whole = Whole("unsigned", True)
# That of an empty set whose kind isn't known yet. Until it meets a set or an element of another kind it is one of signed numbers.
NO_KIND: Whole = Whole("int", False)
SIGNED.is_plain = UNSIGNED.is_plain = True
NO_KIND.is_in_chunks = False

# The boundaries of a set and their kind.
Now = tuple[Boundaries, Kind]
