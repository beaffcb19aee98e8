"""The union of sets that many machines make, by Dask.

A set is the union of its parts, so parts are reduced in a tree: each union of `split_every` parts is a task of its own. With
`cuts` each range of keys between two of them has its own tree. Nothing runs before `compute()`.

>>> import dask.bag
>>> from range_sets import RangeSet
>>> from range_sets.dask import union_all
>>> parts = dask.bag.from_sequence([RangeSet([(n, n + 2)]) for n in range(5)], npartitions=3)
>>> union_all(parts).compute(scheduler="sync")
RangeSet([(0, 6)])
"""

from __future__ import annotations

from bisect import bisect_right
from itertools import chain, pairwise
from typing import TYPE_CHECKING, Any, Callable, Hashable, Iterable, Mapping, Sequence

from dask.delayed import Delayed, delayed

from . import _core
from ._ranges import AnyRangeSet
from ._sets import RangeSet

if TYPE_CHECKING:
    from dask.bag.core import Bag

__all__ = ["covered_by_key", "union_all"]


def union_all(parts: Bag | Iterable[Delayed], split_every: int = 8, cuts: Sequence[Any] = ()) -> Delayed:
    """The union of the sets in a bag, or of delayed sets: a delayed `RangeSet`.

    With `cuts`, elements in ascending order, each part is cut there, which copies nothing.

    >>> from dask import delayed
    >>> made = [delayed(RangeSet)([(10 * n, 10 * n + 25)]) for n in range(0, 9, 4)]
    >>> union_all(made, split_every=2, cuts=[50]).compute(scheduler="sync")
    RangeSet([(0, 25), (40, 65), (80, 105)])
    """
    trees = _trees(parts, split_every, list(cuts), _cut_set, _union)
    if not cuts:
        return trees[0]
    limits = [None, *cuts, None]
    whole: Delayed = delayed(_union)([delayed(_clipped)(tree, *ends) for tree, ends in zip(trees, pairwise(limits))])
    return whole


def covered_by_key(pairs: Bag | Iterable[Delayed], split_every: int = 8, cuts: Sequence[Any] = ()) -> Delayed:
    """How many numbers the sets of each key have together, of a bag of pairs of a key and a set: a delayed dict.

    The count is None if a set has no end. A delayed part is a list of pairs or a dict. With `cuts`, keys in ascending order,
    only counts are moved to the last task.

    >>> import dask.bag
    >>> pairs = [("a", RangeSet([(0, 10)])), ("b", RangeSet([(5, 9)])), ("a", RangeSet([(5, 15)]))]
    >>> covered_by_key(dask.bag.from_sequence(pairs, npartitions=2)).compute(scheduler="sync")
    {'a': 15, 'b': 4}
    """
    trees = _trees(pairs, split_every, list(cuts), _cut_keys, _union_by_key)
    counts: Delayed = delayed(_joined)([delayed(_counted)(tree) for tree in trees])
    return counts


def _trees(
    parts: Bag | Iterable[Delayed],
    split_every: int,
    cuts: list[Any],
    cut: Callable[[Any, list[Any]], list[Any]],
    combine: Callable[[list[Any]], Any],
) -> list[Delayed]:
    """Cuts each part by key ranges, and combines the pieces of each range, `split_every` at a time, to one. Parts that aren't cut are
    combined as they are: each task takes a scheduler about as long as a union of thousands of ranges."""
    if split_every < 2:
        raise ValueError(f"split_every says how many parts are reduced at a time: 2 or more, not {split_every}")
    if not all(a < b for a, b in pairwise(cuts)):
        raise ValueError("expected cuts in ascending order")
    if not cuts:
        return [_tree(_tasks(parts), split_every, combine)]
    made = [delayed(cut, nout=len(cuts) + 1)(part, cuts) for part in _tasks(parts)]
    return [_tree([pieces[i] for pieces in made], split_every, combine) for i in range(len(cuts) + 1)]


def _tasks(parts: Any) -> list[Delayed]:
    # A delayed value has every attribute, so it is asked for first.
    if isinstance(parts, Delayed):
        return [parts]
    return list(parts.to_delayed() if hasattr(parts, "to_delayed") else parts)


def _tree(pieces: list[Delayed], split_every: int, combine: Callable[[list[Any]], Any]) -> Delayed:
    while len(pieces) > split_every:
        pieces = [delayed(combine)(pieces[i : i + split_every]) for i in range(0, len(pieces), split_every)]
    root: Delayed = delayed(combine)(pieces)
    return root


def _union(parts: Iterable[AnyRangeSet[Any] | Iterable[AnyRangeSet[Any]]]) -> RangeSet[Any]:
    known = [*chain.from_iterable([it] if isinstance(it, AnyRangeSet) else it for it in parts)]
    # A part of nothing doesn't know which elements the others have.
    return RangeSet.union_all([it for it in known if it] or [it for it in known if it.kind is not None][-1:])


def _cut_set(part: Any, cuts: list[Any]) -> list[RangeSet[Any]]:
    """The pieces of a set, which lie in its memory. Each is the set from its cut to the next, and may go on beyond."""
    whole = part if isinstance(part, AnyRangeSet) else _union([part])
    if not whole:
        return [RangeSet(whole)] * (len(cuts) + 1)
    boundaries, kind = whole._now
    places = [_core.split(boundaries, kind.number(it)) for it in cuts]
    starts = [0, *(right_start for _, right_start in places)]
    ends = [*(left_len for left_len, _ in places), len(boundaries)]
    return [RangeSet._over(boundaries[start:end], kind) for start, end in zip(starts, ends)]


def _clipped(piece: RangeSet[Any], start: Any, end: Any) -> RangeSet[Any]:
    return piece & RangeSet([(start, end)], kind=piece.kind) if piece else piece


def _cut_keys(part: Any, cuts: list[Any]) -> list[dict[Hashable, RangeSet[Any]]]:
    """The sets of a part by their keys, in a dict for each key range."""
    pieces: list[list[tuple[Hashable, AnyRangeSet[Any]]]] = [[] for _ in range(len(cuts) + 1)]
    for key, it in _pairs(part):
        pieces[bisect_right(cuts, key)].append((key, it))
    return [_union_by_key([piece]) for piece in pieces]


def _union_by_key(parts: Iterable[Any]) -> dict[Hashable, RangeSet[Any]]:
    by_key: dict[Hashable, list[AnyRangeSet[Any]]] = {}
    for key, it in chain.from_iterable(map(_pairs, parts)):
        by_key.setdefault(key, []).append(it)
    return {key: _union(sets) for key, sets in by_key.items()}


def _pairs(part: Any) -> Iterable[tuple[Any, AnyRangeSet[Any]]]:
    return part.items() if isinstance(part, Mapping) else part  # type: ignore[no-any-return]


def _counted(by_key: dict[Hashable, RangeSet[Any]]) -> dict[Hashable, int | None]:
    return {key: it.covered() for key, it in by_key.items()}


def _joined(counts: Iterable[dict[Hashable, int | None]]) -> dict[Hashable, int | None]:
    return {key: count for it in counts for key, count in it.items()}
