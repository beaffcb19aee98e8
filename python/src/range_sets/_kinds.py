"""What the elements of sets are: numbers, times, addresses or values that sort; which kind an element has, and which one two sets have."""

from __future__ import annotations

import reprlib
from datetime import date, datetime, timedelta
from ipaddress import IPv4Address, IPv4Network, IPv6Address, IPv6Network
from operator import index

from . import _core
from ._core import Boundaries
from ._floats import FLOAT, is_numpy_float
from ._kind import NO_KIND, SIGNED, UNSIGNED, Kind, Now, Whole
from ._ordered import LONG_ADDRESS, ORDERED, LongAddresses, Ordered
from ._times import AWARE, DATE, DELTA, NAIVE, Numpys, of_dtype
from ._typing import TYPE_CHECKING

if TYPE_CHECKING:
    from typing import Any, Iterable


class Addresses(Kind):
    """IPv4 addresses, by their numbers."""

    ends_at_most = True

    def __init__(self) -> None:
        super().__init__("IPv4Address", "an IPv4Address", 0, 2**32 - 1, "addresses")

    def code(self, value: Any) -> int:
        if not isinstance(value, IPv4Address):
            raise self.type_error(value)
        return int(value)

    def value(self, code: int) -> IPv4Address:
        return IPv4Address(code)

    def covered(self, asked: Any) -> Any:
        # There are none above the greatest address, so that each set of them has an end.
        return _core.rank(asked, self.most + 1)


ADDRESS, ADDRESSES = Addresses(), (Addresses, LongAddresses)
# What an error says of a float that is no whole number.
OF_FLOATS = "kind='float' makes a set of floats"
_KINDS = (SIGNED, UNSIGNED, FLOAT, DATE, DELTA, ADDRESS, LONG_ADDRESS, NAIVE, AWARE, ORDERED)
# The kind of each type whose elements have no other.
_OF_TYPES: dict[type, Kind] = {int: SIGNED, float: FLOAT, date: DATE, timedelta: DELTA, IPv4Address: ADDRESS, IPv6Address: LONG_ADDRESS}
_OF_TYPES |= {str: ORDERED, bytes: ORDERED}
_NAMED: dict[str | type, Kind] = {it.name: it for it in _KINDS} | _OF_TYPES | {datetime: NAIVE, tuple: ORDERED}
# What is a range of addresses.
NETWORKS: tuple[type[IPv4Network], type[IPv6Network]] = (IPv4Network, IPv6Network)


def given_kind(kind: Any, unsigned: bool | None = None) -> Kind | None:
    """The kind that the arguments `kind` and `unsigned` of a call ask for, or None if they ask for none."""
    found = None if kind is None else _named_kind(kind)
    if unsigned is None or (found is not None and found.unsigned == unsigned):
        return found
    if found is not None and (unsigned or found is UNSIGNED):
        raise TypeError(f"kind={found.name!r} and unsigned={unsigned} don't agree")
    return found or whole(unsigned)


def kind_of_pickle(name: Any) -> Kind:
    """The kind that a pickle names, or none yet for None."""
    try:
        found = given_kind(name[0] if isinstance(name, tuple) else name) or NO_KIND
        if isinstance(name, tuple) != isinstance(found, Ordered):
            raise TypeError(f"the bytes have no boundaries of the kind {found.name!r}, or too many")
        return found.of_pickle(name[1]) if isinstance(found, Ordered) else found
    except (TypeError, IndexError) as error:
        raise ValueError(str(error)) from None


def _named_kind(kind: Any) -> Kind:
    """The kind of this name or type."""
    try:
        if kind in _NAMED:
            return _NAMED[kind]
    except TypeError:
        pass
    if str(kind).startswith("datetime64["):
        if "," in str(kind):
            raise TypeError(f"times with a time zone have the kind 'datetime[UTC]', and not {str(kind)!r}")
        try:
            import numpy
        except ImportError:
            raise ModuleNotFoundError(f"numpy is missing, whose times are the elements of the kind {kind}", name="numpy") from None
        return of_dtype(numpy.dtype(kind))
    raise TypeError(f"a kind is one of {', '.join(sorted(it.name for it in set(_NAMED.values())))} and datetime64[..], not {kind!r}")


def whole(unsigned: bool) -> Whole:
    return UNSIGNED if unsigned else SIGNED


def kind_of(value: Any) -> Kind | None:
    """The kind of an element, or None if it is none."""
    if (found := _OF_TYPES.get(type(value))) is not None:
        return found
    if isinstance(value, datetime):
        if value.tzinfo is not None and value.utcoffset() is not None:
            return AWARE
        # pandas' own may have nanoseconds.
        return of_dtype(value.to_datetime64().dtype) if hasattr(value, "to_datetime64") else NAIVE
    if type(value).__name__ == "datetime64" and hasattr(value, "dtype"):
        return of_dtype(value.dtype)
    for type_of, kind in _OF_TYPES.items():
        if isinstance(value, type_of):
            return kind
    if is_numpy_float(value):
        return FLOAT
    try:
        index(value)
        return SIGNED
    except TypeError:
        return ORDERED if is_one_value(value) and sorts(value) else None


def is_one_value(value: Any) -> bool:
    """Whether it is no list, table, array or range."""
    is_many = hasattr(value, "__iter__") or hasattr(value, "dtype") or hasattr(value, "closed") or hasattr(value, "lower_inc")
    return isinstance(value, (str, bytes)) or not is_many


def sorts(value: Any) -> bool:
    """Whether `<` takes a value."""
    try:
        return not value < value
    except TypeError:
        return False


def kind_of_first(values: Iterable[Any]) -> Kind | None:
    """The kind of the first of these that isn't None, or None if there is none."""
    for value in values:
        if value is not None:
            found = kind_of(value)
            if found is not None:
                return found
            # It is an element, and no pair.
            if isinstance(value, tuple):
                return ORDERED
            raise TypeError(f"{type(value).__name__!r} object cannot be interpreted as an integer")
    return None


def agreed(left: Now, right: Now) -> tuple[Boundaries, Boundaries, Kind]:
    """The boundaries of two sets and the one kind of both. A set of nothing whose kind isn't known takes that of the other."""
    (a, kind), (b, other) = left, right
    if kind is other:
        return a, b, kind
    if kind is NO_KIND:
        return other.nothing, b, other
    if other is NO_KIND:
        return a, kind.nothing, kind
    if isinstance(kind, Ordered) and isinstance(other, Ordered) and are_of_one(kind, other):
        return kind.agreed(a, other, b)
    raise TypeError(mixed(kind, other))


def are_of_one(kind: Kind, other: Kind) -> bool:
    """Whether two kinds are one, as of values that sort each set has its own."""
    return kind is other or (kind.is_ordered and kind.name == other.name)


def are_alike(kind: Kind, other: Kind, has_any: bool) -> bool:
    """Whether what is of two kinds may be equal: what has nothing, and no kind yet, is as nothing of each."""
    return kind is other or (not has_any and NO_KIND in (kind, other)) or are_of_one(kind, other)


def mixed(kind: Kind, other: Kind) -> str:
    if isinstance(kind, Whole) and isinstance(other, Whole):
        return "signed and unsigned numbers don't mix: both sets have to be of one kind"
    times = [it for it in (kind, other) if it in (DATE, NAIVE) or isinstance(it, Numpys)]
    finer = next((it for it in reversed(times) if isinstance(it, Numpys)), NAIVE)
    hint = f"; RangeSet(s, kind={finer.name!r}) makes such a set of the other" if len(times) == 2 else ""
    return f"two kinds of elements don't mix: one set has the kind {kind.name}, and the other {other.name}{hint}"


def asked_error(value: Any, kind: Kind, error: TypeError) -> TypeError:
    """The error of what a set is asked for by `in` and isn't an element, with what asks for it."""
    if isinstance(value, (tuple, list, range)):
        return TypeError(f"expected an element, not {reprlib.repr(value)}: s.covers(start, end) asks for all of a range")
    return TypeError(f"{error}: {OF_FLOATS}") if kind.is_whole and isinstance(value, float) else error
