"""The operators of sets: those that give new sets, and those that compare. They take sets alone."""

from __future__ import annotations

from . import _core
from ._core import Boundaries
from ._kept import Kept
from ._kind import Kind, Now
from ._kinds import agreed, are_alike, whole
from ._ordered import is_same
from ._typing import TYPE_CHECKING, E

if TYPE_CHECKING:
    from typing import Any, Callable, Self

    from ._ranges import AnyRangeSet


class Operators(Kept[E]):
    """What Python writes between two sets or before one."""

    __slots__ = ()

    if TYPE_CHECKING:

        def __len__(self) -> int:
            ...

        def __or__(self, other: AnyRangeSet[E]) -> Self:
            ...

        def __and__(self, other: AnyRangeSet[E]) -> Self:
            ...

        def __sub__(self, other: AnyRangeSet[E]) -> Self:
            ...

        def __xor__(self, other: AnyRangeSet[E]) -> Self:
            ...

    # Else numpy would answer `set | array` by the bits of the boundaries, and `numpy.isin(array, set)` by which elements are boundaries.
    __array_ufunc__ = None

    def __array_function__(self, function: Any, types: Any, args: Any, kwargs: Any) -> Any:
        hint = "s.contains(array) says which elements are members, and numpy.asarray(s) has the boundaries"
        raise TypeError(f"numpy.{function.__name__} takes no set: {hint}")

    def _combined(self, call: Callable[[Boundaries, Boundaries], Boundaries], other: Now) -> Self:
        """What a call makes of this set and another."""
        left, right, kind = agreed(self._now, other)
        return self._over(call(left, right), kind)

    def _both(self, other: Operators[E]) -> tuple[Boundaries, Boundaries, Kind]:
        """At least the ranges of both sets that have elements of the other, and the kind of both. The set of more ranges is read beside the
        other one alone; of values that sort the left one is read first, whose own stay."""
        if len(self) < len(other):
            now = self._now
            if not now[1].is_ordered:
                right, left, kind = other._beside(now)
                return left, right, kind
        return self._beside(other._now)

    # What `|`, `&`, `-` and `^` do if one of the sets changes, or their kinds differ.

    def _union(self, other: AnyRangeSet[E]) -> Self:
        return self._combined(_core.union, other._now)

    def _intersection(self, other: AnyRangeSet[E]) -> Self:
        left, right, kind = self._both(other)
        return self._over(_core.intersection(left, right), kind)

    def _difference(self, other: AnyRangeSet[E]) -> Self:
        now = self._now
        if now[1].is_ordered:
            return self._combined(_core.difference, other._now)
        right, left, kind = other._beside(now)
        return self._over(_core.difference(left, right), kind)

    def _symmetric_difference(self, other: AnyRangeSet[E]) -> Self:
        return self._combined(_core.symmetric_difference, other._now)

    def __invert__(self) -> Self:
        boundaries, kind = self._now
        if kind.is_whole:
            return self._over(_core.negation(boundaries), whole(kind.unsigned))
        everything, found = kind.everything()
        if found is not kind:
            everything, boundaries, found = agreed((everything, found), (boundaries, kind))
        return self._over(_core.difference(everything, boundaries), found)

    def __eq__(self, other: object) -> bool:
        if not isinstance(other, Operators):
            return NotImplemented
        if len(self) != len(other):
            return False
        (left, kind), (right, other_kind) = self._now, other._now
        if kind.is_ordered and left:
            return is_same(left, kind, right, other_kind)
        return are_alike(kind, other_kind, bool(left)) and (not left or _core.equal(left, right))

    # For `>=` and `>` Python asks the other set by these.

    def __le__(self, other: AnyRangeSet[E]) -> bool:
        return other._has(self._now) if isinstance(other, Operators) else NotImplemented

    def __lt__(self, other: AnyRangeSet[E]) -> bool:
        if not isinstance(other, Operators):
            return NotImplemented
        if len(self) >= len(other):
            if not self <= other:
                return False
        else:
            right, left, _ = other._beside(self._now)
            if not _core.equal(left, right):
                return _core.is_subset(left, right)
        # Now it matters whether a set has more than the other: each is read as it is at one moment.
        left, right, _ = agreed(self._now, other._now)
        return _core.is_subset(left, right) and not _core.equal(left, right)

    def _has(self, other: Now) -> bool:
        """Whether each element of another set is in this one."""
        left, right, _ = self._beside(other)
        return _core.is_subset(right, left)

    def _is_within(self, other: Now) -> bool:
        left, right, _ = agreed(self._now, other)
        return _core.is_subset(left, right)
