"""Sets of numbers, times or addresses as the ranges that have them, by a library whose core is proved on x86-64 Linux.

>>> from range_sets import RangeSet
>>> print(RangeSet([(0, 10), (20, None)]) - RangeSet([(3, 5)]))
0..3, 5..10, 20..

`RangeSet` never changes, `MutableRangeSet` does. The functions are the low level, over buffers of boundaries such as numpy
arrays; they can write into a buffer of the caller's. `range_sets.dask` makes the union of parts on many machines.
"""

from ._buffers import (
    contains,
    contains_range,
    covered,
    difference,
    equal,
    from_ranges,
    from_unsorted,
    gaps,
    insert,
    intersection,
    intersects,
    is_disjoint,
    is_empty,
    is_sorted,
    is_subset,
    is_superset,
    negation,
    range_at,
    ranges,
    remove,
    split,
    symmetric_difference,
    union,
)
from ._errors import NoRoom, NotSorted, ParseError
from ._maps import RangeMap
from ._ranges import AnyRangeSet
from ._sets import MutableRangeSet, RangeSet

__version__ = "0.4.0"

__all__ = [
    "AnyRangeSet",
    "MutableRangeSet",
    "NoRoom",
    "NotSorted",
    "ParseError",
    "RangeMap",
    "RangeSet",
    "contains",
    "contains_range",
    "covered",
    "difference",
    "equal",
    "from_ranges",
    "from_unsorted",
    "gaps",
    "insert",
    "intersection",
    "intersects",
    "is_disjoint",
    "is_empty",
    "is_sorted",
    "is_subset",
    "is_superset",
    "negation",
    "range_at",
    "ranges",
    "remove",
    "split",
    "symmetric_difference",
    "union",
]
