"""The errors of the package, beside Python's own."""

from __future__ import annotations


class NotSorted(ValueError):
    """A list of boundaries isn't strictly sorted.

    >>> import range_sets
    >>> range_sets.RangeSet.from_boundaries([10, 0])
    Traceback (most recent call last):
    range_sets.NotSorted: a list isn't strictly sorted
    """

    __module__ = "range_sets"


class NoRoom(ValueError):
    """A buffer is too short for a set; `needed` is how many boundaries the set has.

    >>> from array import array
    >>> import range_sets
    >>> range_sets.union(array("q", [0, 5]), array("q", [8, 9]), out=array("q", [0]))
    Traceback (most recent call last):
    range_sets.NoRoom: the set has 4 boundaries, and the buffer is shorter
    """

    __module__ = "range_sets"

    def __init__(self, needed: int) -> None:
        super().__init__(needed)
        self.needed = needed

    def __str__(self) -> str:
        return f"the set has {self.needed} boundaries, and the buffer is shorter"


class ParseError(ValueError):
    """A text isn't one of ranges: at `position`, `expected` should stand.

    >>> import range_sets
    >>> range_sets.RangeSet.parse("0..10, x")
    Traceback (most recent call last):
    range_sets.ParseError: a number was expected at position 7
    """

    __module__ = "range_sets"

    def __init__(self, expected: str, position: int) -> None:
        super().__init__(expected, position)
        self.expected, self.position = expected, position

    def __str__(self) -> str:
        return f"{self.expected} was expected at position {self.position}"
