"""Sets of one kind made ones of another, which has their starts and ends too."""

from __future__ import annotations

from array import array

from . import _core
from ._arrays import array_of
from ._floats import FLOAT
from ._kind import NO_KIND, Kind, Now
from ._kinds import are_of_one
from ._numbers import typecode_of
from ._times import DATE, DELTA, NAIVE, Numpys, Timed, in_unit, inexact
from ._typing import TYPE_CHECKING

if TYPE_CHECKING:
    from typing import Any


def of_kind(now: Now, kind: Kind | None) -> Now:
    """A set of numbers or times without a zone as one of another kind of these. If that hasn't a start or an end, it is a ValueError or
    an OverflowError."""
    codes, found = codes_of_kind(*now, kind)
    return now if codes is now[0] else (_core.from_boundaries(codes), found)


def codes_of_kind(codes: Any, found: Kind, kind: Kind | None) -> tuple[Any, Kind]:
    """The numbers in another kind of sorted elements of a kind, and that kind."""
    if kind is None:
        raise TypeError("expected a kind, not None")
    if are_of_one(found, kind):
        return codes, found
    if found is NO_KIND:
        made = []
    elif _has_times(found) and _has_times(kind):
        made = _codes_of_times((codes, found), kind)
    elif _has_numbers(found) and _has_numbers(kind):
        made = [_code_of_number(it, kind) for it in found.values(codes)]
    else:
        raise TypeError(f"elements of the kind {found.name} are none of the kind {kind.name}")
    for code in (*made[:1], *made[-1:]):
        kind.checked(code)
    return array(typecode_of(kind.unsigned), made), kind


def of_times(now: Now, kind: Kind | None) -> Now:
    """The same of times; any other set as it is."""
    return of_kind(now, kind) if kind is not None and _has_times(kind) and _has_times(now[1]) else now


def _has_times(kind: Kind) -> bool:
    return kind is DATE or kind is NAIVE or isinstance(kind, Numpys)


def _has_numbers(kind: Kind) -> bool:
    return kind.is_whole or kind is FLOAT


def _codes_of_times(now: Now, kind: Kind) -> list[int]:
    """The numbers of the starts and ends in another kind. A date is the time at which it begins."""
    boundaries, found = now
    if not (isinstance(found, Timed) and isinstance(kind, Timed)):
        times, is_exact = in_unit(array_of(now), kind.dtype)
        if not is_exact.all():
            raise inexact(kind)
        codes: list[int] = times.view("i8").tolist()
        return codes
    many, few = DELTA.code(found.step), DELTA.code(kind.step)
    parts = [divmod(many * it, few) for it in boundaries]
    if any(rest for _, rest in parts):
        raise inexact(kind)
    return [code for code, _ in parts]


def _code_of_number(value: Any, kind: Kind) -> int:
    if isinstance(value, float) and kind is not FLOAT:
        if not value.is_integer():
            raise ValueError(f"{value} is no whole number")
        value = int(value)
    return kind.code(value)
