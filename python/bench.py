"""Times RangeSet beside other packages of ranges, and prints tables for the page.

    python3 bench.py [--pairs N]

Each package makes a set of N pairs (100,000), the union of two such sets, and says whether numbers are members; then the same of
N / 10 pairs of times; sets grow by N ranges one by one; numpy and pandas do as much over arrays; calls touch a few of 10 N ranges; a
map has N; arrays have N questions, 10 N floats and small numbers; and of N ranges it is counted how many have each number. Their
answers are compared. A package that is missing is named and left out. Times are the least of some rounds.
"""

import argparse
import importlib
import itertools
import math
import pickle
import random
import sys
import time
from array import array
from bisect import bisect_left, bisect_right
from datetime import date, datetime, timedelta, timezone
from fractions import Fraction
from ipaddress import IPv4Address, IPv6Address

from range_sets import MutableRangeSet, RangeMap, RangeSet, _core, union

SPACE = 100_000_000
LONGEST = 1000
ROUNDS = 50


def made_up(count, seed):
    made = random.Random(seed)
    starts = (made.randrange(SPACE) for _ in range(count))
    return [(start, start + made.randrange(1, LONGEST)) for start in starts]


def total(lengths):
    """Their sum, also of lengths of time."""
    first, *others = lengths
    return sum(others, first)


class OfRangeSet:
    name = "RangeSet"

    def build(self, pairs):
        return RangeSet(pairs)

    def union(self, a, b):
        return a | b

    def has(self, made, number):
        return number in made

    def covered(self, made):
        return made.covered()


class OfIntervalTree:
    name = "intervaltree"

    def __init__(self):
        self.tree = importlib.import_module("intervaltree").IntervalTree

    def build(self, pairs):
        made = self.tree.from_tuples(pairs)
        made.merge_overlaps(strict=False)
        return made

    def union(self, a, b):
        made = a | b
        made.merge_overlaps(strict=False)
        return made

    def has(self, made, number):
        return made.overlaps_point(number)

    def covered(self, made):
        return total(it.end - it.begin for it in made)


class OfSortedDict:
    """Starts and ends in a SortedDict, merged as one does by hand."""

    name = "sortedcontainers"

    def __init__(self):
        self.dict = importlib.import_module("sortedcontainers").SortedDict

    def build(self, pairs):
        merged = []
        for start, end in sorted(pairs):
            if merged and start <= merged[-1][1]:
                merged[-1][1] = max(merged[-1][1], end)
            else:
                merged.append([start, end])
        return self.dict(merged)

    def union(self, a, b):
        return self.build([*a.items(), *b.items()])

    def has(self, made, number):
        at = made.bisect_right(number) - 1
        return at >= 0 and number < made.peekitem(at)[1]

    def covered(self, made):
        return total(end - start for start, end in made.items())


class OfIPSet:
    name = "netaddr.IPSet"

    def __init__(self):
        netaddr = importlib.import_module("netaddr")
        self.set, self.range, self.address = netaddr.IPSet, netaddr.IPRange, netaddr.IPAddress

    def build(self, pairs):
        return self.set([cidr for start, end in pairs for cidr in self.range(start, end - 1).cidrs()])

    def union(self, a, b):
        return a | b

    def has(self, made, number):
        return self.address(number) in made

    def covered(self, made):
        return made.size


class OfPortion:
    name = "portion"

    def __init__(self):
        self.portion = importlib.import_module("portion")

    def build(self, pairs):
        return self.portion.Interval(*(self.portion.closedopen(*it) for it in pairs))

    def union(self, a, b):
        return a | b

    def has(self, made, number):
        return number in made

    def covered(self, made):
        return total(it.upper - it.lower for it in made)


def peers(kinds):
    for kind in kinds:
        try:
            yield kind()
        except ImportError as missing:
            print(f"bench: {kind.name} is left out: {missing.name} is missing", file=sys.stderr)


def seconds(call, times=1):
    began = time.perf_counter()
    for _ in range(times):
        call()
    return (time.perf_counter() - began) / times


def least(call):
    """The least seconds of a call in some rounds, and its answer. One that takes long has one round."""
    began = time.perf_counter()
    answer = call()
    found = time.perf_counter() - began
    return (found if found > 1 else min(found, *(seconds(call) for _ in range(ROUNDS if found < 0.1 else 3)))), answer


def shown(time_taken):
    for unit, size in (("s", 1), ("ms", 1e-3), ("µs", 1e-6)):
        if time_taken >= size:
            return f"{time_taken / size:.3g} {unit}"
    return f"{time_taken / 1e-9:.0f} ns"


def table(head, rows):
    print("| " + " | ".join(head) + " |\n|---|" + "--:|" * (len(head) - 1))
    for row in rows:
        print("| " + " | ".join(it.replace("|", "\\|") for it in row) + " |")
    print()


def compare(label, kinds, left, right, asked):
    results, answers = [], []
    for peer in peers(kinds):
        building, a = least(lambda: peer.build(left))
        b = peer.build(right)
        joining, both = least(lambda: peer.union(a, b))
        asking, members = least(lambda: [peer.has(a, it) for it in asked])
        answers.append((peer.covered(a), peer.covered(both), members))
        results.append((peer.name, building, joining, asking / len(asked)))
    if any(it != answers[0] for it in answers):
        sys.exit("bench: the answers differ")
    names, *columns = zip(*results)
    rows = [[label, *map(shown, column)] for label, column in zip((label, "union of two", "`in`"), columns)]
    table(["", *names], rows)


def numbers_and_times(count):
    def timed(pairs):
        first = datetime(2026, 1, 1)
        return [tuple(first + timedelta(seconds=end) for end in pair) for pair in pairs]

    lists = [made_up(count, 1), made_up(count, 2), made_up(1000, 3)]
    compare(f"{count:,} pairs", (OfRangeSet, OfIntervalTree, OfSortedDict, OfIPSet), *lists[:2], [it for it, _ in lists[2]])
    fewer = count // 10
    kinds, times = (OfRangeSet, OfIntervalTree, OfSortedDict, OfPortion), [
        timed(it) for it in (lists[0][:fewer], lists[1][:fewer], lists[2])
    ]
    compare(f"{fewer:,} pairs of times", kinds, *times[:2], [it for it, _ in times[2]])


def grown(pairs):
    made = MutableRangeSet()
    for start, end in pairs:
        made.add(start, end)
    return list(made)


def grown_by_bisect(pairs):
    """A sorted list of boundaries, each range put in its place."""
    made = []
    for start, end in pairs:
        left, right = bisect_left(made, start), bisect_right(made, end)
        made[left:right] = [start] * (left % 2 == 0) + [end] * (right % 2 == 0)
    return list(zip(made[::2], made[1::2]))


def grown_by_sorted_list(pairs):
    """The same in a SortedList."""
    made = importlib.import_module("sortedcontainers").SortedList()
    for start, end in pairs:
        left, right = made.bisect_left(start), made.bisect_right(end)
        del made[left:right]
        made.update([start] * (left % 2 == 0) + [end] * (right % 2 == 0))
    return list(zip(made[::2], made[1::2]))


def growth(count):
    """What it takes to put ranges into a set one by one."""
    pairs, row, answers = [(50 * start, 50 * start + 5) for start, _ in made_up(count, 4)], [f"{count:,} ranges put in one by one"], []
    for call in (grown, grown_by_bisect, grown_by_sorted_list):
        try:
            taken, answer = least(lambda: call(pairs))
        except ImportError:
            row.append("")
            continue
        row.append(shown(taken))
        answers.append(answer)
    if any(it != answers[0] for it in answers):
        sys.exit("bench: the answers differ")
    table(["", "MutableRangeSet", "list and bisect", "sortedcontainers"], [row])


def arrays(count):
    """What numpy does by hand, and pandas, over arrays of as many pairs and numbers."""
    try:
        numpy, pandas = importlib.import_module("numpy"), importlib.import_module("pandas")
    except ImportError as missing:
        print(f"bench: arrays are left out: {missing.name} is missing", file=sys.stderr)
        return
    pairs = numpy.array(made_up(count, 1))
    asked = numpy.array([it for it, _ in made_up(count, 3)])

    def merged():
        ordered = pairs[numpy.argsort(pairs[:, 0])]
        ends = numpy.maximum.accumulate(ordered[:, 1])
        begins = numpy.concatenate(([True], ordered[1:, 0] > ends[:-1]))
        return numpy.column_stack([ordered[begins, 0], ends[numpy.concatenate((begins[1:], [True]))]]).ravel()

    made = RangeSet(pairs)
    flat = numpy.asarray(made)
    index = pandas.IntervalIndex.from_arrays(flat[::2], flat[1::2], closed="left")
    index.get_indexer(asked[:1])
    calls = {
        f"a set of a table of {count:,} pairs": (lambda: numpy.asarray(RangeSet(pairs)), merged, None),
        f"which of {count:,} numbers are members": (
            lambda: made.contains(asked),
            lambda: numpy.searchsorted(flat, asked, side="right") % 2 == 1,
            lambda: index.get_indexer(asked) >= 0,
        ),
    }
    rows = []
    for label, row in calls.items():
        results = [least(call) if call else None for call in row]
        if any(it and not numpy.array_equal(it[1], results[0][1]) for it in results):
            sys.exit("bench: the answers differ")
        rows.append([label, *(shown(it[0]) if it else "" for it in results)])
    table(["", "RangeSet", "numpy by hand", "pandas.IntervalIndex"], rows)


def of_many(count):
    """What touches a few of many ranges, in a set and in one that has just changed; calls over arrays beside numpy; and small calls."""
    flat = array("q", range(0, 20 * count, 10))
    many, few, changing = (
        RangeSet.from_boundaries(flat),
        RangeSet([(5, 15), (10 * count + 3, 10 * count + 5)]),
        MutableRangeSet.from_boundaries(flat),
    )
    packed, copied = pickle.dumps(many), RangeSet.from_boundaries(flat)
    starts = itertools.cycle(random.Random(5).sample(range(0, 20 * count, 20), 1000))

    try:
        time64 = importlib.import_module("numpy").datetime64
        of_numpy = [(time64("2026-05-04T09"), time64("2026-05-04T10"))]
    except ImportError:
        of_numpy = []

    def row(label, call, times=200):
        taken = min(seconds(call, times) for _ in range(ROUNDS))
        return [label, shown(taken)]

    def changed(call):
        def change():
            start = next(starts)
            changing.add(start + 12, start + 14)
            call(start)

        return change

    rows = [
        row("`s.gaps(a, b)`", lambda: many.gaps(5005, 5105)),
        row("`s.isdisjoint((a, b))`", lambda: many.isdisjoint((5001, 5003))),
        row("`few <= s`", lambda: few <= many),
        row("`s & few`", lambda: many & few),
        row("`m.add(a, b)`", changed(lambda start: None)),
        row("`s.rank(a)`", lambda: many.rank(5005)),
        row("`s.next_gap(a)`", lambda: many.next_gap(5005)),
        row("`s.split(a)`", lambda: many.split(10 * count + 5)),
        row("`s == t`", lambda: many == copied, times=1),
        row("`pickle.loads`", lambda: pickle.loads(packed), times=1),
        row("`list(m)`", changed(lambda start: list(changing)), times=1),
        row("and `m.range_at(a)`", changed(changing.range_at)),
        row("and `m.discard(a, b)`", changed(lambda start: changing.discard(start + 12, start + 13))),
        row("and `m.first_fit(5, a)`", changed(lambda start: changing.first_fit(5, start))),
        row("and `m.gaps(a, b)`", changed(lambda start: changing.gaps(start, start + 100))),
        row("and `m |= few`", changed(lambda start: changing.__ior__(few))),
        row("and `m -= few`", changed(lambda start: changing.__isub__(few))),
        row("and `m.rank(a)`", changed(changing.rank)),
        row("`RangeSet([(a, b)])`", lambda: RangeSet([(3, 5)]), times=2000),
        *(
            row(f"`RangeSet([(a, b)])` of {name}", lambda: RangeSet([pair]), times=2000)
            for name, pair in (
                ("times", (datetime(2026, 5, 4, 9), datetime(2026, 5, 4, 10))),
                ("dates", (date(2026, 5, 4), date(2026, 5, 5))),
                ("floats", (0.5, 2.5)),
                ("addresses", (IPv4Address("10.0.0.0"), IPv4Address("10.0.1.0"))),
                ("texts", ("a", "b")),
                ("times with a zone", (datetime(2026, 5, 4, 9, tzinfo=timezone.utc), datetime(2026, 5, 4, 10, tzinfo=timezone.utc))),
                ("lengths", (timedelta(1), timedelta(2))),
                ("addresses of IPv6", (IPv6Address("::1"), IPv6Address("::5"))),
                ("fractions", (Fraction(1, 2), Fraction(3, 4))),
                *(("numpy's times", it) for it in of_numpy),
            )
        ),
        row("`m.add(7)`", lambda: changing.add(7), times=2000),
    ]
    table([f"{count:,} ranges", "Time"], rows)


class ByHand:
    """What numpy answers over a list of boundaries, and over the values of the ranges that they bound."""

    def __init__(self, numpy, flat, values=None):
        self.numpy, self.flat, self.values = numpy, flat, values
        # How many members lie before each range.
        self.before = numpy.concatenate(([0], numpy.cumsum(flat[1::2] - flat[::2])))

    def places(self, numbers):
        """How many boundaries are at or below each number."""
        return self.numpy.searchsorted(self.flat, numbers, side="right")

    def contains(self, numbers):
        return self.places(numbers) % 2 == 1

    def rank(self, numbers):
        at = self.places(numbers)
        return self.before[at // 2] + self.numpy.where(at % 2 == 1, numbers - self.flat[at - 1], 0)

    def overlaps(self, starts, ends):
        return self.contains(starts) | (self.places(ends - 1) > self.places(starts))

    def get(self, numbers):
        at = self.places(numbers)
        return self.numpy.where(at % 2 == 1, self.values[at // 2 % len(self.values)], None)


def beside_numpy(numpy, head, *calls):
    """Prints a row for each call: how long it takes, and how long what numpy does by hand. Both have to give the same."""
    rows = []
    for label, call, by_hand in calls:
        (taken, answer), (beside, expected) = least(call), least(by_hand)
        if not numpy.array_equal(answer, expected):
            sys.exit("bench: the answers differ")
        rows.append([label, shown(taken), shown(beside)])
    table([head, "RangeSet", "numpy by hand"], rows)


def of_arrays(numpy, count):
    """Questions of many numbers at once."""
    made_up_by = numpy.random.default_rng(5)
    flat, values = numpy.arange(0, 20 * count, 10), numpy.arange(count).astype(object) % 7
    many, names = RangeSet.from_boundaries(flat), RangeMap(((20 * at, 20 * at + 10), at % 7) for at in range(count))
    table_of, numbers = flat.reshape(-1, 2), numpy.arange(count) % 7
    asked = made_up_by.integers(0, 20 * count, count)
    ends, ordered, by_hand = asked + 100, numpy.sort(asked), ByHand(numpy, flat, values)
    copied, flat_copied, packed, packed_flat = RangeSet.from_boundaries(flat), flat.copy(), pickle.dumps(many), pickle.dumps(flat)
    far = numpy.unique(made_up_by.integers(-(2**63), 2**63 - 1, 2 * count))
    packed_far, packed_flat_far = pickle.dumps(RangeSet.from_boundaries(far)), pickle.dumps(far)
    beside_numpy(
        numpy,
        f"{count:,} ranges and numbers",
        ("members, in order", lambda: many.contains(ordered), lambda: by_hand.contains(ordered)),
        ("members, in any order", lambda: many.contains(asked), lambda: by_hand.contains(asked)),
        ("`rank`", lambda: many.rank(asked), lambda: by_hand.rank(asked)),
        ("`covered_within`", lambda: many.covered_within(asked, ends), lambda: by_hand.rank(ends) - by_hand.rank(asked)),
        ("`overlaps`", lambda: many.overlaps(asked, ends), lambda: by_hand.overlaps(asked, ends)),
        (
            "which windows have members, `overlaps`, in order",
            lambda: many.overlaps(ordered, ordered + 5),
            lambda: by_hand.overlaps(ordered, ordered + 5),
        ),
        ("`get` of a map", lambda: names.get(asked), lambda: by_hand.get(asked)),
        ("`find` of a map", lambda: numpy.asarray(names.find(3)), lambda: table_of[numbers == 3].reshape(-1)),
        ("`==`", lambda: many == copied, lambda: numpy.array_equal(flat, flat_copied)),
        ("`pickle.loads`", lambda: numpy.asarray(pickle.loads(packed)), lambda: pickle.loads(packed_flat)),
        ("of ranges far apart", lambda: numpy.asarray(pickle.loads(packed_far)), lambda: pickle.loads(packed_flat_far)),
    )


def of_tables(numpy, count):
    """Sets of many floats, and of smaller whole numbers."""
    floats, small = numpy.sort(numpy.random.default_rng(6).random(count)), numpy.arange(0, 10 * count, 10, dtype="i4")
    of_floats, by_hand = RangeSet.from_boundaries(floats), ByHand(numpy, floats)
    beside_numpy(
        numpy,
        f"{count:,} floats, {count:,} numbers",
        ("`covered` of a set of floats", of_floats.covered, lambda: math.fsum(floats[1::2] - floats[::2])),
        ("`asarray` of it", lambda: numpy.asarray(of_floats), lambda: floats.copy()),
        ("its members", lambda: of_floats.contains(floats), lambda: by_hand.contains(floats)),
        ("a set of a table of floats", lambda: numpy.asarray(RangeSet(floats.reshape(-1, 2))), lambda: floats.copy()),
        ("of a table of int32", lambda: numpy.asarray(RangeSet(small.reshape(-1, 2))), lambda: small.astype("i8")),
    )


def asked_over_arrays(count):
    """Questions of many numbers, and sets of ten times as many others, beside numpy."""
    try:
        numpy = importlib.import_module("numpy")
    except ImportError:
        return
    of_arrays(numpy, count)
    of_tables(numpy, 10 * count)
    of_depths(numpy, count)


def alone(count):
    """What an operation costs beside the call in C that it stands on."""
    a, b = RangeSet([(0, 10)]), RangeSet([(5, 20)])
    flat = array("q", (end for it in made_up(count, 1) for end in it))
    long, other = (RangeSet.from_boundaries(range(first, 2 * count, 2)) for first in (0, 1))
    blocks = [RangeSet.from_boundaries(it for it in range(2 * count) if it // 64 % 2 == side) for side in (0, 1)]
    room = array("q", bytes(8 * 2 * count))

    def in_c(left, right):
        return lambda: union(left.boundaries, right.boundaries, out=room)

    def row(label, call, core=None, times=1):
        # In turn, so that both have the same share of a busy machine.
        rounds = [(seconds(call, times), seconds(core, times) if core else None) for _ in range(ROUNDS)]
        taken, beside = (min(it) if it[0] else None for it in zip(*rounds))
        return [label, shown(taken), shown(beside) if beside else "", f"{taken / beside:.2f}" if beside else ""]

    rows = [
        row(f"`from_ranges`, of an array of {count:,} ranges", lambda: RangeSet.from_ranges(flat)),
        row(f"`a | b`, {count:,} boundaries each, alternating", lambda: long | other, in_c(long, other)),
        row("the same, in blocks of 64", lambda: blocks[0] | blocks[1], in_c(*blocks)),
        row("`a <= b`, of these", lambda: long <= long, lambda: _core.is_subset(long.boundaries, long.boundaries)),
        row("`a.covered()`", long.covered, lambda: _core.covered(long.boundaries)),
    ]
    table(["", "Time", "The call in C", "Ratio"], rows)
    x, y = frozenset(range(3)), frozenset(range(2, 5))
    rows = [
        row("`a | b`", lambda: a | b, lambda: x | y, times=2000),
        row("`5 in a`", lambda: 5 in a, lambda: 5 in x, times=2000),
        row("`a.isdisjoint(b)`", lambda: a.isdisjoint(b), lambda: x.isdisjoint(y), times=2000),
        row("`RangeSet([(0, 10)])`", lambda: RangeSet([(0, 10)]), lambda: frozenset([(0, 10)]), times=2000),
    ]
    table(["2 boundaries each", "Time", "A frozenset's of 3", "Ratio"], rows)


def of_maps(count):
    """What a map takes: to be made, to be asked for a few of its ranges, and to be gone over."""
    pairs = [((20 * at, 20 * at + 10), at % 7) for at in range(count)]
    shuffled, made, other = random.Random(5).sample(pairs, count), RangeMap(pairs), RangeMap(pairs)
    each, shifted = (RangeMap(((20 * at + first, 20 * at + first + 10), str(at)) for at in range(count)) for first in (0, 5))
    packed, packed_each, at = pickle.dumps(made), pickle.dumps(each), 10 * count
    if not made == RangeMap(shuffled) == made.copy() == made.combine(other, max) == pickle.loads(packed):
        sys.exit("bench: the maps differ")
    if not each == each.copy() == each.combine(each, max) == pickle.loads(packed_each):
        sys.exit("bench: the maps differ")
    rows = [
        [label, shown(least(call)[0])]
        for label, call in (
            ("made of pairs in order", lambda: RangeMap(pairs)),
            ("of shuffled pairs", lambda: RangeMap(shuffled)),
            ("`m.domain()`", made.domain),
            ("`m.find(v)`", lambda: made.find(3)),
            ("`list(m.items())`", lambda: list(made.items())),
            ("`list(m.keys())`", lambda: list(made.keys())),
            ("`m.combine(other, how)`", lambda: made.combine(other, max)),
            ("`m == other`", lambda: made == other),
            ("`m.copy()`", made.copy),
            ("`pickle.dumps`", lambda: pickle.dumps(made)),
            ("`pickle.loads`", lambda: pickle.loads(packed)),
            ("`m.copy()`, each range with a value of its own", each.copy),
            ("`m.combine(other, how)` of these, where each range meets one", lambda: each.combine(shifted, max)),
            ("`pickle.loads` of these", lambda: pickle.loads(packed_each)),
        )
    ]
    rows += [
        [label, shown(min(seconds(call, 200) for _ in range(ROUNDS)))]
        for label, call in (
            ("`m[a]`", lambda: made[at]),
            ("`m.range_at(a)`", lambda: made.range_at(at)),
            ("`m.overlapping(a, b)`", lambda: made.overlapping(at, at + 20)),
            ("`m.gaps(a, b)`", lambda: made.gaps(at, at + 20)),
            ("`m[a:b]`", lambda: made[at : at + 20]),
            ("`m[a:b] = v`", lambda: made.put(at, at + 15, 3)),
            ("`m.update` of two", lambda: made.update([((at, at + 15), 3), ((at + 20, at + 25), 4)])),
        )
    ]
    table([f"A map of {count:,} ranges", "Time"], rows)


def of_depths(numpy, count):
    """How many of some ranges have each number, beside a sort and a sum of numpy's."""

    def depths(starts, ends):
        places = numpy.concatenate([starts, ends])
        order = numpy.argsort(places, kind="stable")
        found = numpy.cumsum(numpy.repeat([1, -1], [len(starts), len(ends)])[order])
        places = places[order]
        last = numpy.append(places[1:] != places[:-1], True)
        places, found = places[last], found[last]
        changed = numpy.append(True, found[1:] != found[:-1])
        return places[changed], found[changed]

    def of_sets(sets):
        flat = [numpy.asarray(it) for it in sets]
        return depths(*(numpy.concatenate([it[side::2] for it in flat]) for side in (0, 1)))

    rows = []
    for label, sets, by_hand in (
        *((f"{size:,} pairs", made_up(size, 1), lambda it: depths(*numpy.array(it).T)) for size in (1000, count, 10 * count)),
        (f"a table of {count:,}", numpy.array(made_up(count, 1)), lambda it: depths(*it.T)),
        ("50 sets", [RangeSet(made_up(count // 50, seed)) for seed in range(50)], of_sets),
    ):
        (mine, made), (its, (places, found)) = least(lambda: RangeMap.depth(sets)), least(lambda: by_hand(sets))
        if made.get(places, 0).tolist() != found.tolist():
            sys.exit("bench: the depths differ")
        rows.append([label, shown(mine), shown(its), f"{mine / its:.2f}"])
    table(["`RangeMap.depth` of", "Time", "numpy by hand", "Ratio"], rows)


def main():
    parser = argparse.ArgumentParser(description=__doc__.splitlines()[0])
    parser.add_argument("--pairs", type=int, default=100_000, help="how many pairs a set is made of")
    count = parser.parse_args().pairs
    alone(count)
    numbers_and_times(count)
    growth(count)
    arrays(count)
    of_many(10 * count)
    of_maps(count)
    asked_over_arrays(count)


if __name__ == "__main__":
    main()
