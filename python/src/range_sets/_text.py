"""The text of a set: its ranges with commas between them, such as `0..10, 20..`. The library for C says what such a text is."""

from __future__ import annotations

from . import _core
from ._core import Boundaries
from ._errors import ParseError
from ._numbers import expected_number


def read(text: str, unsigned: bool) -> Boundaries:
    """The boundaries of the set of a text."""
    found = _read(text, unsigned)
    if isinstance(found, Boundaries):
        return found
    if found is None:
        raise ParseError(expected_number(unsigned), _first_out_of_range(text, unsigned))
    raise ParseError(_expected_after(text[:found], unsigned), found)


def _read(text: str, unsigned: bool) -> Boundaries | int | None:
    """The boundaries; or the position at which the text stops being one of ranges; or None if only a number is out of range."""
    if not isinstance(text, str):
        raise TypeError(f"expected a text, not {type(text).__name__}")
    # A lone surrogate has no bytes. A question mark is wrong in the same places.
    data = text.encode("utf-8", "replace")
    found = _core.parse(data, unsigned)
    return len(data[:found].decode()) if isinstance(found, int) else found


def _expected_after(front: str, unsigned: bool) -> str:
    """What should go on the longest front that begins a text of ranges."""

    def may_follow(character: str) -> bool:
        return _read(front + character, unsigned) != len(front)

    if may_follow("."):
        return "a dot"
    return "a comma or the end" if may_follow(",") and not may_follow("+") else "a number"


def _first_out_of_range(text: str, unsigned: bool) -> int:
    """The position of the first number that is out of range, in a text of ranges."""
    import re

    numbers = re.finditer("[-+0-9]+", text)
    return next(it.start() for it in numbers if _core.parse(f"{it.group()}..".encode(), unsigned) is None)
