"""How a set is kept, and its other forms: text, picture, array, pickle and copy."""

from __future__ import annotations

import sys
from operator import index

from . import _core
from ._arrays import array_of
from ._core import Boundaries
from ._floats import FLOAT
from ._kind import NO_KIND, SIGNED, UNSIGNED, Kind, Now
from ._kinds import agreed, kind_of_first, kind_of_pickle
from ._numbers import in_this_order
from ._ordered import ORDERED
from ._typing import TYPE_CHECKING, E, Generic

if TYPE_CHECKING:
    from typing import Any, Self, SupportsIndex

# `repr` writes a set or a map of more than `MANY` ranges by `SHOWN` at either end.
MANY, SHOWN = 1000, 3
# This many boundaries of a list show how far apart all are. Distances above _FAR take six bytes or more in a pickle.
_ASKED, _FAR = 64, 2**35


class Attributes:
    """What a subclass has beside a set or a map."""

    __slots__ = ("__weakref__",)
    # The slots of the package's own classes.
    _own: tuple[str, ...]

    def __getstate__(self) -> Any:
        """The attributes of a subclass and those of its slots, or None."""
        if type(self).__module__ == "range_sets":
            return None
        state = object.__getstate__(self)  # type: ignore[attr-defined]
        attributes, all_slots = state if isinstance(state, tuple) else (state, {})
        slots = {name: value for name, value in all_slots.items() if name not in self._own}
        return (attributes, slots) if attributes or slots else None

    def __setstate__(self, state: Any) -> None:
        attributes, slots = state
        for name, value in {**(attributes or {}), **slots}.items():
            object.__setattr__(self, name, value)

    def _with(self, state: Any) -> Self:
        if state is not None:
            self.__setstate__(state)
        return self

    def _refuse(self, name: str, hint: str) -> None:
        raise AttributeError(f"{type(self).__name__!r} object has no attribute {name!r}{hint}", name=name, obj=self)

    def _shown(self, items: str, kind: Kind) -> str:
        """What makes a set or a map anew, from what has its items, or nothing."""
        parts = [items] if items else []
        if kind is UNSIGNED:
            parts.append("unsigned=True")
        elif (not items and not kind.is_whole) or (items and kind.is_ordered and kind_of_first((kind.value(0),)) is not ORDERED):
            parts.append(f"kind={kind.name!r}")
        return f"{type(self).__name__}({', '.join(parts)})"


class Kept(Attributes, _core.Set, Generic[E]):
    """The boundaries of a set and their kind, and its other forms.

    `_now` has both. A set that changes has another `_now` after each change, also by another thread, so a call reads it once.
    Questions read `_seen`, which has the chunks of a set that changes in place of its boundaries.
    """

    __slots__ = ()
    _own = ("_chunks",)

    def _beside(self, other: Now) -> tuple[Boundaries, Boundaries, Kind]:
        """The boundaries of this set and of another one, and the kind of both. A set that changes may leave out ranges that have no element
        of the other one; it cuts none."""
        (left, kind), (right, other_kind) = self._now, other
        return (left, right, kind) if kind is other_kind else agreed((left, kind), other)

    @property
    def _kind(self) -> Kind:
        return self._now[1]

    def __repr__(self) -> str:
        boundaries, kind = self._now
        count = (len(boundaries) + 1) // 2
        if count <= MANY:
            shown = _pairs(boundaries, kind)
        else:
            shown = f"{_pairs(boundaries[: 2 * SHOWN], kind)}, ..., {_pairs(boundaries[2 * (count - SHOWN) :], kind)}"
        return self._shown(f"[{shown}]" if count else "", kind)

    def __str__(self) -> str:
        boundaries, kind = self._now
        if kind.is_whole:
            return _core.print(boundaries)
        texts = [str(it) for it in kind.values(boundaries)]
        return ", ".join(f"{start}..{end}" for start, end in zip(texts[::2], [*texts[1::2], ""]))

    def __format__(self, spec: str) -> str:
        return format(str(self), spec)

    def _repr_svg_(self) -> str:
        from . import _svg

        return _svg.draw(*self._now)

    def __array__(self, dtype: Any = None, copy: bool | None = None) -> Any:
        now = self._now
        found = array_of(now)
        if dtype is not None and found.dtype != dtype:
            if copy is False:
                raise ValueError("numbers of another type are a copy")
            return found.astype(dtype)
        if copy is False and now[1] is FLOAT:
            raise ValueError("an array of floats is a copy")
        return found.copy() if copy else found

    def __sizeof__(self) -> int:
        # Parts share their memory, and each counts its own.
        return object.__sizeof__(self) + 8 * len(self._now[0])

    def __reduce_ex__(self, protocol: SupportsIndex) -> tuple[Any, ...]:
        from pickle import PickleBuffer

        # From protocol 5 on the memory may go beside the pickle, as between the processes of Dask.
        boundaries, kind = self._now
        is_far = _are_far_apart(boundaries)
        packed: Any = boundaries if is_far else _core.pack(boundaries)
        memory = PickleBuffer(packed) if index(protocol) >= 5 else bytes(packed)
        names = () if kind is _unnamed_kind(boundaries) else (kind.pickled,)
        if is_far:
            return _restored, (type(self), memory, kind.unsigned, sys.byteorder, *names), self.__getstate__()
        return _unpacked, (type(self), memory, *names), self.__getstate__()

    def __copy__(self) -> Self:
        return self._over(*self._now)._with(self.__getstate__())

    def __deepcopy__(self, memo: Any) -> Self:
        import copy

        made = memo[id(self)] = self._over(*self._now)
        return made._with(copy.deepcopy(self.__getstate__(), memo))


def _pairs(boundaries: Boundaries, kind: Kind) -> str:
    """The ranges as Python reads them."""
    shown = [kind.shown(it) for it in kind.values(boundaries)]
    return ", ".join(f"({start}, {end})" for start, end in zip(shown[::2], [*shown[1::2], "None"]))


def _unnamed_kind(boundaries: Boundaries) -> Kind:
    """The kind of elements of a pickle that names none."""
    return UNSIGNED if not _core.is_signed(boundaries) else SIGNED if boundaries else NO_KIND


def _are_far_apart(boundaries: Boundaries) -> bool:
    """Whether most of many are so far apart that distances take about as many bytes as the boundaries."""
    places = range(1, len(boundaries), len(boundaries) // _ASKED or 1)
    return len(boundaries) > MANY and sum(boundaries[it] - boundaries[it - 1] > _FAR for it in places) > _ASKED * 3 // 4


def _checked(cls: type[Kept[Any]], boundaries: Boundaries, name: str | None) -> Kept[Any]:
    kind = _unnamed_kind(boundaries) if name is None else kind_of_pickle(name)
    if not kind.has(boundaries):
        raise ValueError(f"the bytes are no set of the kind {kind.name}")
    return cls._over(boundaries, kind)


def _unpacked(cls: type[Kept[Any]], memory: Any, name: str | None = None) -> Kept[Any]:
    """The set of a pickle, whose boundaries are checked anew."""
    return _checked(cls, _core.unpack(memory), name)


def _restored(cls: type[Kept[Any]], memory: Any, unsigned: bool, order: str, name: str | None = None) -> Kept[Any]:
    """The same of one with the boundaries as they lie in memory, as version 0.2 wrote all."""
    # Bytes don't change, so that they aren't copied.
    numbers = memory if type(memory) is bytes else bytes(memoryview(memory))
    return _checked(cls, _core.over(in_this_order(numbers, order, unsigned), unsigned), name)
