"""The two types of numbers, and numbers in bytes."""

from __future__ import annotations

import sys
from array import array

from ._typing import TYPE_CHECKING

if TYPE_CHECKING:
    from typing import Iterable, Literal


def typecode_of(unsigned: bool) -> Literal["q", "Q"]:
    """The letter of the type in an `array` and in numpy."""
    return "Q" if unsigned else "q"


def least(unsigned: bool) -> int:
    return 0 if unsigned else -(2**63)


def most(unsigned: bool) -> int:
    return 2**64 - 1 if unsigned else 2**63 - 1


def expected_number(unsigned: bool) -> str:
    """What an error says was expected."""
    return "a number from 0 to 2**64 - 1" if unsigned else "a number from -2**63 to 2**63 - 1"


def packed(numbers: Iterable[int], unsigned: bool) -> bytes:
    """Numbers as they lie in memory."""
    return array(typecode_of(unsigned), numbers).tobytes()


def in_this_order(numbers: bytes, order: str, unsigned: bool) -> bytes:
    """Numbers as they lie in this machine's memory, from those of a machine with an order of bytes."""
    if order not in ("little", "big"):
        raise ValueError(f"expected the order of bytes 'little' or 'big', not {order!r}")
    if order == sys.byteorder:
        return numbers
    swapped = array(typecode_of(unsigned), numbers)
    swapped.byteswap()
    return swapped.tobytes()
