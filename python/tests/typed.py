"""What mypy is to know of a program that uses the package. It is checked, and not run."""

from array import array
from datetime import date, datetime, timedelta
from decimal import Decimal
from fractions import Fraction
from ipaddress import IPv4Address, IPv4Network, IPv6Network
from typing import Any, Iterator, TypeVar, assert_type

import range_sets
from range_sets import AnyRangeSet, MutableRangeSet, RangeMap, RangeSet
from range_sets.dask import covered_by_key, union_all

# What a set is made of says what its elements are.
made = RangeSet([(0, 10), (40, None)])
assert_type(made, RangeSet[int])
assert_type(RangeSet([(0, 10), range(20, 30)]), RangeSet[int])
assert_type(RangeSet([range(3)]), RangeSet[int])
assert_type(RangeSet(range(3)), RangeSet[int])
assert_type(RangeSet((0, None)), RangeSet[int])
assert_type(RangeSet(((0, 3), (5, None))), RangeSet[int])
assert_type(RangeSet([(None, 3), (5, 7)]), RangeSet[int])
assert_type(RangeSet([made, MutableRangeSet(made)]), RangeSet[int])
assert_type(RangeSet([[0, 10], [20, 30]]), RangeSet[int])
assert_type(RangeSet(zip([1, 2], [3, 4])), RangeSet[int])
assert_type(RangeSet((n, n + 2) for n in range(5)), RangeSet[int])
assert_type(RangeSet([map(datetime.fromisoformat, ["2026-05-04", "2026-05-05"])]), RangeSet[datetime])
assert_type(RangeSet([(0.5, 2)], kind="float"), RangeSet[float])
assert_type(RangeSet([(1, 2)], kind=float), RangeSet[float])
assert_type(RangeSet(RangeSet([(date(2026, 5, 1), None)]), kind=datetime), RangeSet[datetime])
floats: RangeSet[float] = RangeSet(RangeSet([(1, 2)]), kind="float")
assert_type(RangeSet([IPv4Network("10.0.0.0/8")], kind=IPv4Address), RangeSet[IPv4Address])
assert_type(RangeSet(["10.0.0.0/8", "11.0.0.1"], kind=IPv4Address), RangeSet[IPv4Address])
assert_type(RangeSet([("a", "b"), ("k", None)]), RangeSet[str])
assert_type(RangeSet([((3, 11), (3, 14))]), RangeSet[tuple[int, int]])
# Lists of different things, and empty ones, have to be told.
assert_type(RangeSet[int]([(0, 10), range(20, 30), RangeSet((40, None))]), RangeSet[int])
assert_type(RangeSet[int]([[0, 10], [20, None]]), RangeSet[int])
assert_type(RangeSet[IPv4Address]([IPv4Network("10.0.0.0/8"), (IPv4Address("10.0.0.0"), None)]), RangeSet[IPv4Address])
assert_type(RangeSet[Decimal | Fraction]([(Decimal(1), Fraction(5, 2))]), RangeSet[Decimal | Fraction])
nothing: RangeSet[date] = RangeSet()
assert_type(MutableRangeSet[int](), MutableRangeSet[int])

days = RangeSet([(date(2026, 5, 1), date(2026, 5, 4))])
times = RangeSet([(datetime.min, datetime.max)])
addresses = RangeSet(IPv4Network("10.0.0.0/8"))
assert_type(made | made, RangeSet[int])
assert_type(days - days, RangeSet[date])
assert_type(~times, RangeSet[datetime])
assert_type(made[0], tuple[int, int | None])
assert_type(made[1:], RangeSet[int])
assert_type(list(days), list[tuple[date, date | None]])
assert_type(list(days.members()), list[date])
assert_type(list(made.bounded()), list[tuple[int, int]])
assert_type(made.split(5), tuple[RangeSet[int], RangeSet[int]])
assert_type(made.range_at(5), tuple[int, int | None] | None)
assert_type(times.span(), tuple[datetime, datetime | None] | None)
assert_type(made.rank(5), int)
assert_type(days.select(5), date | None)
assert_type(days.first_fit(timedelta(2), date(2026, 5, 1)), date | None)
assert_type(days.first_fit_aligned(timedelta(2), timedelta(7)), date | None)
assert_type(times.first_run(timedelta(hours=2)), datetime | None)
assert_type(days.next_gap(date(2026, 5, 1)), date | None)
assert_type(days.range_from(date(2026, 5, 1)), tuple[date, date | None] | None)
assert_type(made.covered(), int | None)
assert_type(addresses.covered(), int)
assert_type(times.covered(), timedelta | None)
assert_type(days.covered(), timedelta | None)
assert_type(RangeSet([(0.5, 2.0)]).covered(), float | None)
assert_type(made.kind, str | None)
assert_type(5 in made, bool)
assert_type(IPv4Network("10.0.0.0/24") in addresses, bool)
assert_type(made.overlapping(0, 5), RangeSet[int])
assert_type(made.insert(9).insert(range(3)).insert((5, None)).insert(None, 4), RangeSet[int])
assert_type(days.gaps(date(2026, 5, 1)), RangeSet[date])
assert_type(days.shift(timedelta(7)).widen(timedelta(), timedelta(1)).at_least(timedelta(3)), RangeSet[date])
assert_type(days.astype(datetime), RangeSet[datetime])
assert_type(MutableRangeSet(days).astype(datetime), MutableRangeSet[datetime])
assert_type(days.union([(date(2026, 6, 1), None)], days), RangeSet[date])
assert_type(addresses.union(RangeSet(["11.0.0.0/8"], kind=IPv4Address)), RangeSet[IPv4Address])
assert_type([end - start for start, end in made.bounded()], list[int])

assert_type(RangeSet.from_values([5, 7]), RangeSet[int])
assert_type(RangeSet.from_values([date(2026, 5, 1)]), RangeSet[date])
assert_type(RangeSet.from_values(array("q"), kind=int), RangeSet[int])
assert_type(RangeSet.from_boundaries([0, 5]), RangeSet[int])
assert_type(RangeSet.from_boundaries(days.boundaries, kind=date), RangeSet[date])
assert_type(RangeSet.from_ranges(array("q", [0, 5])), RangeSet[int])
assert_type(RangeSet.from_arrays([date(2026, 5, 1)], [None]), RangeSet[date])
assert_type(made.to_arrays(), tuple[Any, Any])
assert_type(RangeSet.from_mask([True], date(2026, 5, 1)), RangeSet[date])
assert_type(RangeSet.from_mask([True], kind=int), RangeSet[int])
assert_type(RangeSet.from_mask([True]), RangeSet[int])
assert_type(MutableRangeSet.from_mask([True]), MutableRangeSet[int])
assert_type(RangeSet.from_multirange("{[2026-05-01,)}", kind=date), RangeSet[date])
assert_type(RangeSet.parse("0..5"), RangeSet[int])
assert_type(RangeSet.parse("2026-05-01..", kind=date), RangeSet[date])
assert_type(MutableRangeSet.parse("0..5"), MutableRangeSet[int])
assert_type(MutableRangeSet.parse("10.0.0.0/8", kind=IPv4Address), MutableRangeSet[IPv4Address])
assert_type(RangeSet.union_all([made, made]), RangeSet[int])
assert_type(RangeSet.union_all(RangeSet([(n, n + 2)]) for n in range(5)), RangeSet[int])
assert_type(RangeSet.union_all([[(0, 5)], [(7, 9)]]), RangeSet[int])

received = MutableRangeSet(made)
assert_type(MutableRangeSet.intersection_all([made, received]), MutableRangeSet[int])
assert_type(received & made, MutableRangeSet[int])
received.add(0, None)
received.add((5, 6))
received.discard(range(3))
received.add(9)
received |= made
received.update([(3, 5)], range(4))

bookings: RangeMap[int, str] = RangeMap([((9, 12), "Ada"), (range(3), "Bob"), (made, "Eve")])
bookings[11:14] = "Bob"
bookings[range(3)] = "Eve"
bookings[made] = "Eve"
del bookings[13:]
assert_type(bookings[10], str)
assert_type(bookings[1:5], RangeMap[int, str])
assert_type(bookings[made], RangeMap[int, str])
assert_type(bookings.get(5), str | None)
assert_type(bookings.get(5, 0), str | int)
assert_type(bookings.get([5, 7], dtype=object), Any)
bookings.modify(range(3), str.upper)
bookings.modify(made, str.upper, "")
assert_type(bookings.pop(5), str)
assert_type(bookings.pop(5, None), str | None)
assert_type(bookings.find("Bob"), RangeSet[int])
assert_type(bookings.gaps(8, None) | bookings.domain(), RangeSet[int])
assert_type(bookings.overlapping(1, 5), list[tuple[tuple[int, int | None], str]])
assert_type(bookings.overlapping((1, 5)), list[tuple[tuple[int, int | None], str]])
assert_type(bookings.span(), tuple[int, int | None] | None)
assert_type(list(bookings.values()), list[str])
assert_type(bookings.combine(bookings.copy(), max), RangeMap[int, str])
assert_type(RangeMap([((9, 12), "Ada")]), RangeMap[int, str])
assert_type(RangeMap(bookings), RangeMap[int, str])
leave: RangeMap[date, str] = RangeMap({(date(2026, 5, 1), None): "Ada"})
leave.put(date(2026, 5, 1), date(2026, 5, 4), "Bob")
leave.remove(None, date(2026, 5, 2))
assert_type(leave.part(date(2026, 5, 1), None), RangeMap[date, str])
assert_type([(first, who) for (first, end), who in leave.items()], list[tuple[date, str]])
leave.modify(days, str.upper)
assert_type(leave.astype(datetime), RangeMap[datetime, str])
assert_type(RangeSet(kind=str), RangeSet[str])
assert_type(RangeMap.from_arrays([0, 7], [5, None], ["Ada", "Bob"]), RangeMap[int, str])
assert_type(RangeMap.depth([("a", "b")]), RangeMap[str, int])
assert_type(RangeMap.depth([days, days]), RangeMap[date, int])


def count(given: AnyRangeSet[int]) -> int:
    return given.covered() or 0


T = TypeVar("T", date, int)


class Named(RangeSet[T]):
    """A set with an attribute."""

    name = ""


def of_anything(table: Any) -> None:
    """What isn't known of what a set is made of, isn't known of the set, unless its kind is given by a type."""
    assert_type(RangeSet(table), RangeSet[Any])
    assert_type(RangeSet([(table, table)]), RangeSet[Any])
    assert_type(RangeSet(table, kind=date), RangeSet[date])
    assert_type(RangeSet.from_values(table), RangeSet[Any])
    assert_type(RangeSet.from_ranges(table, kind=date), RangeSet[date])
    assert_type(RangeSet.from_arrays(table.start, table.end), RangeSet[Any])
    assert_type(RangeSet.union_all(table), RangeSet[Any])
    assert_type(RangeMap(zip(table, [5])), RangeMap[Any, int])
    assert_type(RangeMap.depth([table]), RangeMap[Any, int])
    it: RangeSet[date] = RangeSet(table, kind="date")
    it = RangeSet(table).astype("date")
    print(it)


def ends(given: RangeSet[T]) -> Iterator[T]:
    return (end for _, end in given.bounded())


assert_type(list(ends(days)), list[date])
assert_type(Named([(0, 5)]) | made, Named[int])
assert_type(count(made) + count(received), int)
assert_type(range_sets.union(array("q"), array("q")), array[int])
assert_type(range_sets.union(array("q"), array("q"), out=array("q")), int)
assert_type(union_all([]), Any)
assert_type(covered_by_key([]), Any)

RangeSet([], unsinged=True)  # type: ignore[call-overload]
RangeSet(5)  # type: ignore[call-overload]
RangeSet([0, 5])  # type: ignore[arg-type]
RangeSet([(object(), None)])  # type: ignore[type-var]
RangeSet([(date(2026, 5, 1), 5)])  # type: ignore[type-var]
RangeSet([(date(2026, 5, 1), None), (5, None)])  # type: ignore[type-var]
RangeSet([("a", b"b")])  # type: ignore[type-var]
RangeSet([(date(2026, 5, 1), None)], kind=int)  # type: ignore[type-var]
RangeSet[date]([(5, 7)])  # type: ignore[list-item]
made.insert(object())  # type: ignore[call-overload]
made.insert(date(2026, 5, 1))  # type: ignore[call-overload]
made.insert(date(2026, 5, 1), None)  # type: ignore[call-overload]
days.insert(range(3))  # type: ignore[arg-type]
object() in made  # type: ignore[operator]
date(2026, 5, 1) in made  # type: ignore[operator]
IPv6Network("::/64") in addresses  # type: ignore[operator]
made.range_at(0.5)  # type: ignore[call-overload]
made.rank(date(2026, 5, 1))  # type: ignore[call-overload]
made.gaps(date(2026, 5, 1))  # type: ignore[arg-type]
made.add(0, 5)  # type: ignore[attr-defined]
made | [(0, 5)]  # type: ignore[operator]
made | days  # type: ignore[operator]
made.union(days)  # type: ignore[arg-type]
made.covered() + 1  # type: ignore[operator]
made.to_mask(0, date(2026, 5, 1))  # type: ignore[arg-type]
made.first_run(5, date(2026, 5, 1))  # type: ignore[arg-type]
days.astype(None)  # type: ignore[arg-type]
range_sets.union([0], [5])  # type: ignore[call-overload]
bookings.put(0, 5, 7)  # type: ignore[arg-type]
leave.put(0, 5, "Ada")  # type: ignore[arg-type]
leave.part(0, 5)  # type: ignore[arg-type]
bookings["a"]  # type: ignore[call-overload]
bookings.modify(range(3), len)  # type: ignore[arg-type]
days.next_gap(5)  # type: ignore[arg-type]
