"""Lists of boundaries made of what Python programs have: pairs, `range` objects, networks, sets, buffers, lists of elements."""

from __future__ import annotations

import reprlib
from array import array
from itertools import chain

from . import _core
from ._arrays import codes_of_floats, has_mask, refuse_nats
from ._columns import in_microseconds, stacked
from ._conversions import of_times
from ._core import Boundaries
from ._floats import FLOAT
from ._kept import Kept
from ._kind import NAN, NO_KIND, SIGNED, UNSIGNED, Kind, Now
from ._kinds import ADDRESSES, NETWORKS, OF_FLOATS, are_of_one, kind_of, kind_of_first, mixed, whole
from ._numbers import typecode_of
from ._ordered import ORDERED, Ordered, after
from ._times import DELTA, of_dtype
from ._typing import TYPE_CHECKING

if TYPE_CHECKING:
    from typing import Any, Callable, Iterable, Iterator

    from ._typing import Form


def codes_of_range(start: Any, end: Any, kind: Any, is_asked: bool = True) -> tuple[int, int | None, Kind]:
    """The numbers of a start and an end, which may be out of range, and their kind. They are given as two arguments, as a pair, as a
    `range`, as a network or as one element. Without an end, that is `...`. Unless it `is_asked` of a set, values that sort get a kind of
    their own."""
    if end is ...:
        found = kind_of(start)
        if found is not None:
            kind = found if kind is NO_KIND else kind
            if not kind.is_ordered:
                first, last = kind.codes_of_one(start)
                return first, last, kind
            start, end = kind.one(start)
        else:
            start, end = ends_of(start, "a number, a start and an end, a pair or a range")
    if kind is NO_KIND:
        kind = kind_of_first((start, end)) or SIGNED
    if kind.is_ordered:
        start = kind.first((end,)) if start is None else start
        if not is_asked:
            kind = kind.of((start,) if end is None else (start, end))
        first, last = kind.ends_around(start, end)
        return first, last, kind
    return kind.start(start), kind.end(end), kind


def range_of(start: Any, end: Any, kind: Kind) -> Now:
    """The set of a range that is given as `codes_of_range` takes it."""
    if kind.is_plain and (end is not ... or type(start) is int):
        return _core.range_list(start, end, kind.unsigned), kind
    first, last, kind = codes_of_range(start, end, kind, is_asked=False)
    return kind.range_list(first, last), kind


def all_from(element: Any, kind: Kind) -> Now:
    """The set of an element and of all greater ones."""
    if element is None:
        raise TypeError("expected an element, not None")
    return range_of(element, None, kind)


def ends_of(item: Any, wanted: str) -> tuple[Any, Any]:
    """The start and the end of a pair, a `range`, a network or an interval of pandas."""
    if type(item) is tuple and len(item) == 2:
        start, end = item
        return start, end
    if isinstance(item, range):
        if item.step != 1:
            raise ValueError(f"expected a range with step 1, not {item!r}")
        return item.start, item.stop
    if isinstance(item, NETWORKS):
        return item.network_address, after(item.broadcast_address)
    if _has_intervals(item):
        return item.left, item.right
    if hasattr(item, "lower_inc"):
        from ._postgres import half_open

        if item.isempty:
            raise ValueError("expected a range that isn't empty")
        return half_open(item.lower, item.lower_inc, item.upper, item.upper_inc)
    if not isinstance(item, (str, bytes, bytearray, dict, set, frozenset)):
        try:
            start, end = item
            return start, end
        except (TypeError, ValueError):
            pass
    raise _source_error(item, wanted)


_ONE_RANGE = (range, *NETWORKS)


def _form_of(source: Any) -> Form:
    if isinstance(source, _ONE_RANGE) or hasattr(source, "lower_inc") or _is_pair(source):
        return "range"
    if isinstance(source, (list, tuple)):
        is_two = isinstance(source, tuple) and len(source) == 2 and all(map(_is_column, source))
        return "starts and ends" if is_two else "items"
    if hasattr(source, "to_numpy") or _has_intervals(source):
        return "columns"
    if _dtype_letter(source) == "O" and hasattr(source, "tolist") and not has_mask(source):
        return "objects"
    return "table" if _is_buffer(source) else "other"


def gather(source: Any, kind: Kind | None) -> Now:
    """The union of what a set is made of."""
    if kind is None or kind.is_whole:
        # No loop in Python looks at these.
        plain = _core.from_pairs(source, kind is UNSIGNED)
        if plain is not None:
            return plain, kind or (SIGNED if source else NO_KIND)
    if isinstance(source, Kept):
        return _of_given_kind(of_times(source._now, kind), kind)
    if type(source) is list:
        found = _gather_pairs(source, kind)
        if found is not None:
            return found
    form = _form_of(source)
    match form:
        case "range":
            return _gather_each((source,), kind)
        case "items":
            return _gather_each(source, kind)
        case "starts and ends":
            raise TypeError("a list of starts and one of ends are no ranges: zip(starts, ends) has the pairs")
        case "columns":
            return gather(*_table_of(source, kind))
        case "objects":
            return gather(source.tolist(), kind)
        case "table":
            return _ranges_of_table(source, kind)
        case "other":
            return gather(items_of(source, "pairs, ranges or sets"), kind)


def union_of(sets: list[Now], kind: Kind | None = None) -> Now:
    """The union of many sets. Without one it is the set of nothing."""
    lists, found = of_one_kind(sets, kind)
    return _two_by_two(_core.union, lists) if lists else found.nothing, found


def intersection_of(sets: list[Now], kind: Kind | None = None) -> Now:
    """The intersection of many sets. Without one it is the set of all elements."""
    lists, found = of_one_kind(sets, kind)
    if not lists:
        found = SIGNED if found is NO_KIND else found
        return found.everything()
    return _two_by_two(_core.intersection, lists), found


def of_one_kind(sets: list[Now], kind: Kind | None) -> tuple[list[Boundaries], Kind]:
    """The lists of sets of one kind, which a set of nothing takes if its own isn't known."""
    if kind is None:
        kind = next((it for _, it in sets if it is not NO_KIND), NO_KIND)
    if kind.is_ordered and isinstance(kind, Ordered):
        return kind.agreed_of([_of_given_kind(it, kind) for it in sets])
    return [_of_given_kind(it, kind)[0] for it in sets], kind


def _two_by_two(call: Callable[[Boundaries, Boundaries], Boundaries], lists: list[Boundaries]) -> Boundaries:
    """Joins many lists so that no number is copied more often than there are doublings."""
    while len(lists) > 1:
        last = lists[-1:] if len(lists) % 2 else []
        lists = [call(a, b) for a, b in zip(lists[::2], lists[1::2])] + last
    return lists[0]


def boundaries_of(items: Any, kind: Kind | None) -> Now:
    """The set of the boundaries in a buffer or an iterable, which are checked to be strictly sorted."""
    if type(items) is memoryview and items.format == "q" and not (kind is None or kind.is_whole):
        # What `boundaries` gives of a set of the kind.
        boundaries = _core.from_boundaries(items)
        if not kind.has(boundaries):
            raise OverflowError(f"expected the boundaries of a set of the kind {kind.name}, and these lie beyond")
        return boundaries, kind
    numbers, kind = _numbers_of(items, kind)
    return _core.from_boundaries(numbers), kind


def values_of(items: Any, kind: Kind | None) -> Now:
    """The set of the elements in a buffer or an iterable."""
    numbers, kind = _numbers_of(items, kind)
    if isinstance(kind, Ordered):
        return gather([*map(kind.one, kind.values(range(len(kind.keys))))], kind)
    if kind is FLOAT:
        kind.codes_of_one(None)
    return kind.trimmed(_core.from_values(numbers)), kind


def ranges_of(items: Any, kind: Kind | None) -> Now:
    """The union of the ranges in a buffer."""
    return _ranges_of_buffer(items, kind) if _is_buffer(items) else (_core.from_ranges(items), SIGNED)


def _ranges_of_buffer(items: Any, kind: Kind | None) -> Now:
    numbers, kind = _numbers_of_table(items, kind)
    return _core.from_ranges(numbers), kind


def _numbers_of_table(items: Any, kind: Kind | None) -> tuple[Any, Kind]:
    """The numbers of the starts and ends of ranges, in turn, and their kind."""
    shape = tuple(items.shape if hasattr(items, "shape") else memoryview(items).shape or ())
    if len(shape) != 1 and shape[1:] != (2,):
        raise TypeError("expected a list of starts and ends in turn, or a table with two columns")
    return _numbers_of_buffer(items, kind)


def _numbers_of(items: Any, kind: Kind | None) -> tuple[Any, Kind]:
    """The numbers of elements in a buffer or an iterable, and their kind."""
    (items,), kind = in_microseconds((items,), kind)
    if not _is_buffer(items):
        values = list(items)
        found = (kind or kind_of_first(values) or NO_KIND).of(values)
        return _array_of(values, found, kind is not None), found
    if _dimensions(items) != 1:
        raise TypeError("expected a list, with one dimension")
    return _numbers_of_buffer(items, kind)


def _numbers_of_buffer(items: Any, kind: Kind | None) -> tuple[Any, Kind]:
    """The numbers of a buffer's elements, as 64 bits each and side by side, and their kind. Smaller whole numbers stay signed or
    unsigned unless a kind is given."""
    if has_mask(items):
        raise TypeError("expected an array without a mask, as its compressed() gives one")
    if _has_times(items):
        return _numbers_of_times(items, kind)
    buffer = memoryview(items)
    typecode = (buffer.format or "B").removeprefix("@")
    if typecode not in tuple("bBhHiIlLqQdf"):
        wanted = "expected whole numbers of at most 64 bits or floats in this machine's order of bytes"
        raise TypeError(f"{wanted}, not those of the format '{buffer.format}'")
    if typecode in "df":
        return _numbers_of_floats(items if hasattr(items, "astype") else memoryview(buffer.tobytes()).cast(typecode), kind)
    found = whole(typecode.isupper())
    if kind is not None and not kind.is_whole:
        raise TypeError(mixed(kind, found))
    if buffer.itemsize == 8:
        if not (kind is None or kind is NO_KIND or kind is found):
            raise _sign_error(kind)
        return buffer if buffer.c_contiguous else memoryview(buffer.tobytes()).cast(typecode), found
    kind = found if kind is None or kind is NO_KIND else kind
    if hasattr(items, "astype") and kind is found:
        return memoryview(items.astype(typecode_of(found.unsigned), order="C")), found
    return _array_of(memoryview(buffer.tobytes()).cast(typecode).tolist(), kind), kind


def _numbers_of_floats(floats: Any, kind: Kind | None) -> tuple[Any, Kind]:
    """The numbers of floats. Without a float they have no kind: numpy has an empty list as an array of floats."""
    if not floats.nbytes:
        return array(typecode_of(kind is UNSIGNED)), kind or NO_KIND
    if not (kind is None or kind is NO_KIND or kind is FLOAT):
        raise TypeError(mixed(kind, FLOAT))
    if hasattr(floats, "astype"):
        if (floats != floats).any():
            raise ValueError(NAN)
        return memoryview(codes_of_floats(floats.reshape(-1))), FLOAT
    return array("q", FLOAT.codes(floats.tolist())), FLOAT


def _dtype_letter(items: Any) -> str:
    """The letter by which numpy knows a kind of elements, or nothing if it is no array."""
    letter: str = getattr(getattr(items, "dtype", None), "kind", "")
    return letter


def _has_times(items: Any) -> bool:
    """Whether it is a numpy array of times, which is no buffer. A column of pandas may have a time zone, and then a comma."""
    return _dtype_letter(items) in ("M", "m") and "," not in str(items.dtype)


def _numbers_of_times(items: Any, kind: Kind | None) -> tuple[Any, Kind]:
    import numpy

    found = numpy.asarray(items)
    found = numpy.ascontiguousarray(found, dtype=found.dtype.newbyteorder("="))
    if kind is None or kind is NO_KIND:
        kind = DELTA if found.dtype == numpy.dtype(DELTA.dtype) else of_dtype(found.dtype)
    elif kind.dtype is None or numpy.dtype(kind.dtype) != found.dtype:
        raise kind.array_type_error(found.dtype)
    refuse_nats(found)
    numbers = found.view("i8")
    for it in (numbers.min(), numbers.max()) if numbers.size else ():
        kind.checked(int(it))
    return memoryview(numbers), kind


def _has_intervals(item: Any) -> bool:
    """Whether it is an array of intervals, or one, as pandas has them. They have to be closed as ranges are."""
    if not (hasattr(item, "closed") and hasattr(item, "left")):
        return False
    if item.closed != "left":
        raise ValueError(f"expected intervals with their start and without their end, closed='left' and not {item.closed!r}")
    return True


def _table_of(source: Any, kind: Kind | None) -> tuple[Any, Kind | None]:
    """A table of numpy's with the starts and the ends of a data frame or of intervals, or what `to_numpy` makes of another column; and
    the kind, if it is known."""
    columns = columns_of_pairs(source)
    made, kind = in_microseconds(columns, kind)
    if columns and (getattr(source, "ndim", 1) != 2 or made[0] is not columns[0]):
        return stacked(made), kind
    return source.to_numpy(), kind


def columns_of_pairs(source: Any) -> tuple[Any, ...]:
    """The starts and the ends of intervals, or the columns of a data frame with two."""
    if hasattr(source, "iloc") and getattr(source, "shape", ())[1:] == (2,):
        return source.iloc[:, 0], source.iloc[:, 1]
    # A column of intervals has such an array.
    intervals: Any = source if _has_intervals(source) else getattr(source, "array", None)
    closed = getattr(intervals, "closed", None)
    return (intervals.left, intervals.right) if isinstance(closed, str) and closed == "left" else ()


def _is_pair(source: Any) -> bool:
    return isinstance(source, tuple) and len(source) == 2 and all(end is None or kind_of(end) is not None for end in source)


def _is_column(source: Any) -> bool:
    """Whether it is a list or an array. A tuple of two may be meant as starts and ends, and not as two pairs."""
    return isinstance(source, (list, array, memoryview)) or getattr(source, "ndim", 0) == 1


def _is_buffer(items: Any) -> bool:
    if _has_times(items):
        return True
    try:
        return memoryview(items) is not None
    except TypeError:
        return False


def _dimensions(items: Any) -> int:
    found: int = items.ndim if hasattr(items, "ndim") else memoryview(items).ndim
    return found


def _array_of(items: list[Any], kind: Kind, is_given: bool = True) -> array[int]:
    if kind.is_whole:
        try:
            return array(typecode_of(kind.unsigned), items)
        except (TypeError, OverflowError):
            # One of them isn't a number of the type: it is found, and the error says what is wanted.
            pass
    return array(typecode_of(kind.unsigned), map(kind.checked, _codes_of(items, kind, is_given)))


def _of_given_kind(now: Now, kind: Kind | None) -> Now:
    """The set, if it is of the kind that was given, or else a TypeError. A set of nothing whose kind isn't known takes that kind."""
    boundaries, found = now
    if kind is None or are_of_one(found, kind):
        return now
    if found is NO_KIND and not boundaries:
        return kind.nothing, kind
    if kind.is_whole and found.is_whole:
        raise _sign_error(kind)
    raise TypeError(mixed(kind, found))


def _sign_error(kind: Kind) -> TypeError:
    return TypeError(f"signed and unsigned numbers don't mix: expected a set of {'un' * kind.unsigned}signed ones")


def _ranges_of_table(table: Any, kind: Kind | None) -> Now:
    if _dimensions(table) != 2:
        raise TypeError("expected a table with two columns; RangeSet.from_boundaries reads a list of boundaries")
    return _ranges_of_buffer(table, kind)


def items_of(source: Any, wanted: str, of_table: str = "") -> list[Any]:
    """What an iterable gives, unless it is a text or a table, of which the error says how it is read."""
    if type(source) is not list:
        if isinstance(source, str):
            raise TypeError(f"expected {wanted}, not a text; RangeSet.parse reads one")
        if hasattr(source, "iloc"):
            raise TypeError(f"expected {wanted}, not a table: {of_table}")
        try:
            source = iter(source)
        except TypeError:
            raise _source_error(source, wanted) from None
    return list(source)


def sets_of(source: Any, kind: Kind | None) -> list[Now]:
    """The sets that an iterable gives, or what makes them."""
    return [gather(it, kind) for it in items_of(source, "sets, as in a list", "zip(t['start'], t['end']) has the range of each row")]


def _source_error(source: Any, wanted: str) -> TypeError:
    hint = "; from_values makes a set of elements" if "set" in wanted and kind_of(source) not in (None, ORDERED) else ""
    return TypeError(f"expected {wanted}, not {reprlib.repr(source)}{hint}")


def _codes_of(values: Iterable[Any], kind: Kind, is_given: bool) -> list[int]:
    """The numbers of elements of the kind. Of whole numbers and floats the error says how both are taken, unless the kind is given."""
    try:
        return kind.codes([*values])
    except TypeError as error:
        if kind is SIGNED and not is_given and str(error).startswith("'float'"):
            raise TypeError(f"{error}: {OF_FLOATS}") from None
        raise


def _gather_pairs(items: list[Any], kind: Kind | None) -> Now | None:
    """The union of pairs of elements of one kind; or None for anything else, which is read one by one."""
    ends = _core.ends_of_pairs(items)
    kind = kind or (kind_of(ends[0]) if ends else None)
    if kind is None or ends is None:
        return None
    try:
        kind = kind.of(ends)
        codes = kind.codes(ends)
    except (TypeError, ValueError):
        return None
    made = _core.from_codes(codes, kind.least, kind.most, kind.unsigned)
    return None if made is None else (made, kind)


def _of_texts(items: Iterable[Any], kind: Kind) -> Iterator[Any]:
    """Ranges of addresses, of which some are texts."""
    from . import _elements

    return (_elements.range_of(it.strip(), 0, kind) if isinstance(it, str) else it for it in items)


def _gather_each(items: list[Any] | tuple[Any, ...], kind: Kind | None) -> Now:
    sets = [of_times(it._now, kind) for it in items if isinstance(it, Kept)]
    others: Iterable[Any] = (it for it in items if not isinstance(it, Kept) and not getattr(it, "isempty", False))
    if isinstance(kind, ADDRESSES):
        others = _of_texts(others, kind)
    pairs = [ends_of(it, "a pair (start, end), a range or a set") for it in others]
    is_given = kind is not None
    if kind is None:
        known = (found for _, found in sets if found is not NO_KIND)
        kind = next(known, None) or kind_of_first(chain.from_iterable(pairs)) or (SIGNED if pairs else NO_KIND)
    if kind.is_ordered and isinstance(kind, Ordered):
        ends = [it for it in chain.from_iterable(pairs) if it is not None]
        pairs = [(kind.first(ends) if start is None else start, end) for start, end in pairs]
        kind = kind.of(it for it in chain.from_iterable(pairs) if it is not None)
    codes = _codes_of(chain.from_iterable(it for it in pairs if it[0] is not None and it[1] is not None), kind, is_given)
    open_pairs = [it for it in pairs if it[0] is None or it[1] is None]
    if codes and (min(codes) < kind.least or max(codes) > kind.most):
        # One of them is an error, or an end past the greatest.
        codes, open_pairs = [], pairs
    for start, end in open_pairs:
        first, last = kind.start(start), kind.end(end)
        if last is None:
            sets.append((kind.range_list(first, None), kind))
        else:
            codes += kind.checked(first), kind.checked(last)
    return union_of([(_core.from_ranges(array(typecode_of(kind.unsigned), codes)), kind), *sets], kind)
