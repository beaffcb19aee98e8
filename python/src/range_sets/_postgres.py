"""Multiranges of PostgreSQL: their texts, and the ranges that psycopg makes of them."""

from __future__ import annotations

import re
from datetime import date, timedelta
from itertools import zip_longest

from ._elements import FORMS, element_of, looks_as
from ._errors import ParseError
from ._kind import SIGNED, Kind, Now
from ._kinds import given_kind, kind_of
from ._times import DATE
from ._typing import TYPE_CHECKING

if TYPE_CHECKING:
    from typing import Any, Iterator

# A bound as the server writes it, with nothing for none, and perhaps in quotes.
_BOUND = r'("[^"\\]*"|[^"\\,\[\](){}]*)'
_RANGE = re.compile(rf"\s*(?:empty|([\[(]){_BOUND},{_BOUND}([\])]))\s*", re.IGNORECASE)
_OPENED, _CLOSED = re.compile(r"\s*\{\s*"), re.compile(r"\}\s*")
# What the server writes as the end of a range up to the greatest date that Python has.
_AFTER_ALL = "10000-01-01"
# The kinds that multiranges have.
_KINDS = "int", "date", "datetime", "datetime[UTC]"


def half_open(lower: Any, lower_inc: bool, upper: Any, upper_inc: bool) -> tuple[Any, Any]:
    """The start and the end of a range of PostgreSQL's."""
    start = lower if lower is None or lower_inc else _after(lower)
    # A range up to the greatest date has no end.
    return start, None if upper_inc and upper == date.max else upper if upper is None or not upper_inc else _after(upper)


def _after(element: Any) -> Any:
    """The next element, which numbers and dates alone have, as the server says too."""
    kind = kind_of(element)
    if kind not in (SIGNED, DATE):
        raise ValueError(f"expected a range with its start and without its end, and of {element!r} there is no next one")
    return element + (1 if kind is SIGNED else timedelta(1))


def read(text: str, kind: Kind | None) -> tuple[list[tuple[Any, Any]], Kind | None]:
    """The pairs of a multirange or a range as the server writes it, and their kind, which the first element decides if none is given."""
    if not isinstance(text, str):
        raise TypeError(f"expected a text, not {type(text).__name__}")
    if kind is not None:
        _check_kind(kind)
    pairs = []
    for found in _ranges_in(text):
        if found[1] is None:
            continue
        ends = []
        for group in (2, 3):
            element, kind = _element(found[group], found.start(group), kind, group == 3 and found[4] == ")")
            ends.append(element)
        pairs.append(half_open(ends[0], found[1] == "[", ends[1], found[4] == "]"))
    return pairs, kind


def _ranges_in(text: str) -> Iterator[re.Match[str]]:
    opened = _OPENED.match(text)
    at = opened.end() if opened else 0
    if opened and _CLOSED.fullmatch(text, at):
        return
    while True:
        found = _RANGE.match(text, at)
        if found is None:
            raise ParseError("a range", at)
        yield found
        at = found.end()
        if (_CLOSED.fullmatch(text, at) is not None) if opened else at == len(text):
            return
        if not opened or text[at : at + 1] != ",":
            raise ParseError("a comma or a brace" if opened else "the end", at)
        at += 1


def _element(text: str, position: int, kind: Kind | None, is_end: bool) -> tuple[Any, Kind | None]:
    """An element, or None for no bound, and its kind."""
    if not text:
        return None, kind
    plain = text[1:-1] if text.startswith('"') else text
    if is_end and kind in (None, DATE) and plain == _AFTER_ALL:
        return None, DATE
    if kind is None:
        kind = given_kind(next((name for name in _KINDS if looks_as(plain, FORMS[name][0])), None))
    if kind is None:
        raise ParseError("a number, a date or a time", position)
    return element_of(plain, position, kind), kind


def _check_kind(kind: Kind) -> None:
    """Raises a TypeError for a kind that no multirange has."""
    if kind.name not in _KINDS:
        raise TypeError(f"PostgreSQL's multiranges are of the kinds {', '.join(_KINDS)}, and not {kind.name}")


def written(now: Now) -> str:
    """The text of a set as the server reads it. A start at the least element is none, as an end past the greatest is."""
    boundaries, kind = now
    _check_kind(kind)
    quote = '"' * kind.name.startswith("datetime")
    bounds = ["" if code == kind.least else f"{quote}{kind.value(code)}{quote}" for code in boundaries]
    ranges = zip_longest(bounds[::2], bounds[1::2], fillvalue="")
    return "{" + ",".join(f"{'[' if start else '('}{start},{end})" for start, end in ranges) + "}"
