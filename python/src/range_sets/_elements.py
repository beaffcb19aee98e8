"""Elements and ranges as texts."""

from __future__ import annotations

import re
from datetime import date, datetime, timedelta
from ipaddress import IPv4Address, IPv4Network, IPv6Address, IPv6Network

from ._errors import ParseError
from ._kind import Kind
from ._kinds import ADDRESSES
from ._ordered import after
from ._times import Numpys
from ._typing import TYPE_CHECKING

if TYPE_CHECKING:
    from typing import Any, Callable, Iterator


def _length(text: str) -> timedelta:
    """A length of time of a text, as Python and pandas write it."""
    days, _, clock = text.rpartition(" ")
    hours, minutes, seconds = (*clock.split(":"), "0")[:3]
    return timedelta(int(days.partition(" ")[0] or 0), float(seconds), 0, 0, int(minutes), int(hours))


# What elements look like, and how one is read.
_DAY = r"\d{4}-\d\d-\d\d"
_TIME = rf"{_DAY}[ T]\d\d:\d\d(:\d\d(\.\d{{1,6}})?)?"
FORMS: dict[str, tuple[str, Callable[[str], Any]]] = {
    "int": (r"\s*[-+]?\d+\s*", int),
    "date": (_DAY, date.fromisoformat),
    "datetime": (_TIME, datetime.fromisoformat),
    "datetime[UTC]": (rf"{_TIME}(Z|[-+]\d\d(:\d\d){{0,2}})", datetime.fromisoformat),
    "timedelta": (r"(-?\d+ days?,? \+?)?\d+:[0-5]\d(:[0-5]\d(\.\d{1,6})?)?", _length),
    "float": (r"-?(\d+(\.\d+)?(e[-+]\d+)?|inf)", float),
    "IPv4Address": (r"[\d.]+", IPv4Address),
    "IPv6Address": (r"[\da-fA-F:.]+", IPv6Address),
}
_OF_NUMPY = r"-?\d{4,}(-\d\d(-\d\d([ T]\d\d(:\d\d(:\d\d(\.\d+)?)?)?)?)?)?"
_NETWORKS: dict[str, type[IPv4Network] | type[IPv6Network]] = {"IPv4Address": IPv4Network, "IPv6Address": IPv6Network}


def looks_as(text: str, form: str) -> bool:
    """Whether a text has the form of a kind's elements."""
    return re.fullmatch(form, text, re.ASCII) is not None


def element_of(text: str, position: int, kind: Kind) -> Any:
    """The element of a text that stands at a position, or a ParseError."""
    form, read_one = (_OF_NUMPY, kind.read) if isinstance(kind, Numpys) else FORMS[kind.name]
    try:
        if looks_as(text, form):
            element = read_one(text)
            if not kind.is_ordered:
                kind.number(element)
            return element
    except (ValueError, OverflowError):
        pass
    raise ParseError(kind.element, position)


def ranges_in(text: Any, kind: Kind) -> Iterator[Any]:
    """The ranges of a text, between commas, as a set is made of them."""
    if not isinstance(text, str):
        raise TypeError(f"expected a text, not {type(text).__name__}")
    if kind.name not in FORMS and not isinstance(kind, Numpys):
        raise TypeError(f"{kind.plural} aren't read of a text")
    position = 0
    # Lengths of time have a comma after their days.
    for part in re.split(r"(?<!day)(?<!days),", text) if text.strip() else []:
        yield range_of(part.strip(), position + len(part) - len(part.lstrip()), kind)
        position += len(part) + 1


def range_of(text: str, position: int, kind: Kind) -> Any:
    """A start and an end with two dots between them. Of addresses it may also be a network, one address, or the first and the last one with a
    hyphen."""
    start, dots, end = text.partition("..")
    if dots:
        return element_of(start, position, kind), element_of(end, position + len(start) + 2, kind) if end else None
    if not isinstance(kind, ADDRESSES):
        element_of(text, position, kind)
        raise ParseError("a dot", position + len(text))
    if "/" in text:
        try:
            return _NETWORKS[kind.name](text)
        except ValueError:
            raise ParseError("a network", position) from None
    start, hyphen, last = text.partition("-")
    first = element_of(start.rstrip(), position, kind)
    return first, after(element_of(last.lstrip(), position + len(text) - len(last.lstrip()), kind) if hyphen else first)
