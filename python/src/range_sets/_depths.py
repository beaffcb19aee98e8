"""The ranges of many sets at once, whose members are counted."""

from __future__ import annotations

from array import array

from . import _core
from ._kind import SIGNED, UNSIGNED, Kind
from ._numbers import typecode_of
from ._sources import _dimensions, _form_of, _numbers_of_table, _table_of, gather, items_of, of_one_kind
from ._typing import TYPE_CHECKING

if TYPE_CHECKING:
    from typing import Any


def ends_of_sets(source: Any, kind: Kind | None) -> tuple[Any, Any, Kind]:
    """The starts and ends of the ranges of sets, in turn, the starts of those without an end, and the kind. Each row of a table is a set."""
    form, wanted = _form_of(source), "sets, as in a list"
    if form == "columns":
        if getattr(source, "shape", ())[1:] not in ((), (2,)):
            items_of(source, wanted, "t[['start', 'end']] has the range of each row")
        source, kind = _table_of(source, kind)
        form = _form_of(source)
    if form == "table" and _dimensions(source) == 2:
        numbers, found = _numbers_of_table(source, kind)
        return numbers, array(typecode_of(found.unsigned)), found
    if form == "objects":
        source = [*map(tuple, source.tolist())] if _dimensions(source) == 2 else source.tolist()
    items = (*items_of(source, wanted),)
    plain = None
    if (kind is None or kind.is_whole) and items and isinstance(items[0], tuple):
        # No loop in Python looks at these.
        plain = _core.numbers_of_pairs(items, kind is UNSIGNED)
    lists, found = ([], kind or SIGNED) if plain is not None else of_one_kind([gather(it, kind) for it in items], kind)
    ends, open_ranges = array(typecode_of(found.unsigned), plain or b""), array(typecode_of(found.unsigned))
    for boundaries in lists:
        last = len(boundaries) // 2 * 2
        ends.frombytes(memoryview(boundaries)[:last].cast("B"))  # type: ignore[arg-type]
        open_ranges.extend(boundaries[last:])
    return ends, open_ranges, found
