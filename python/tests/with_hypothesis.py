"""Made-up sets against Python's own over a small universe, and laws over all numbers.

RANGE_SETS_EXAMPLES says how many cases each test makes up.
"""

import copy
import importlib
import math
import os
import pickle
import unittest
from array import array
from datetime import date, datetime, timedelta, timezone
from ipaddress import IPv4Address

from hypothesis import given, settings
from hypothesis import strategies as some

import range_sets
from range_sets import MutableRangeSet, RangeMap, RangeSet
from range_sets._kinds import given_kind

settings.register_profile("tests", max_examples=int(os.environ.get("RANGE_SETS_EXAMPLES", "60")), deadline=None, database=None)
settings.load_profile("tests")

# A universe that Python's sets can hold, and one number far beyond it that shows whether a set has an end.
SMALL, FAR = range(-12, 13), 2**40
POINTS = [*SMALL, FAR]
LIMITS = {False: (-(2**63), 2**63 - 1), True: (0, 2**64 - 1)}

small_ends = some.one_of(some.none(), some.integers(SMALL[0], SMALL[-1]))
small_pairs = some.tuples(some.integers(SMALL[0], SMALL[-1]), small_ends)
small_lists = some.lists(small_pairs, max_size=8)


# Values of which some are equal and of other types, and some have no hash.
small_items = some.lists(some.tuples(small_pairs, some.sampled_from(["a", "b", 1, True, 1.0, None, [1], [2], {}])), max_size=8)


def numbers(unsigned):
    least, most = LIMITS[unsigned]
    near_limits = some.one_of(some.integers(least, least + 3), some.integers(most - 3, most))
    return some.one_of(some.integers(0, 30), near_limits, some.integers(least, most))


def sets_of(unsigned):
    pairs = some.tuples(some.one_of(some.none(), numbers(unsigned)), some.one_of(some.none(), numbers(unsigned)))
    return some.lists(pairs, max_size=10).map(lambda it: RangeSet(it, unsigned=unsigned))


def with_numbers(count_of_sets, count_of_numbers):
    def of_type(unsigned):
        return some.tuples(*[sets_of(unsigned)] * count_of_sets, *[numbers(unsigned)] * count_of_numbers)

    return some.booleans().flatmap(of_type)


def points_of(pairs):
    return {n for n in POINTS for start, end in pairs if start <= n and (end is None or n < end)}


def members(made):
    return {n for n in POINTS if n in made}


class AgainstSets(unittest.TestCase):
    @given(small_lists)
    def test_members(self, pairs):
        made, expected = RangeSet(pairs), points_of(pairs)
        self.assertEqual(members(made), expected)
        self.assertEqual(points_of(list(made)), expected)
        self.assertEqual(made.covered(), None if FAR in expected else len(expected))
        self.assertEqual(members(RangeSet(iter(pairs))), expected)
        self.assertEqual(members(RangeSet.union_all(RangeSet(it) for it in pairs)), expected)
        for n in POINTS:
            found = made.range_at(n)
            self.assertEqual(found is not None, n in expected)
            self.assertTrue(found is None or found in list(made))

    @given(small_lists, some.integers(SMALL[0], SMALL[-1]), small_ends)
    def test_overlapping(self, pairs, start, end):
        made, inside = RangeSet(pairs), points_of([(start, end)])
        self.assertEqual(list(made.overlapping(start, end)), [it for it in made if points_of([it]) & inside])

    @given(some.lists(some.sampled_from(SMALL)), some.lists(small_lists, max_size=5))
    def test_numbers_and_many_sets(self, values, lists):
        made = RangeSet.from_values(values)
        self.assertEqual((members(made), list(made.members())), (set(values), sorted(set(values))))
        self.assertEqual(members(RangeSet.intersection_all(map(RangeSet, lists))), set(POINTS).intersection(*map(points_of, lists)))

    @given(small_lists, small_lists)
    def test_operators(self, left, right):
        a, b, x, y = RangeSet(left), RangeSet(right), points_of(left), points_of(right)
        for got, expected in ((a | b, x | y), (a & b, x & y), (a - b, x - y), (a ^ b, x ^ y), (~a, set(POINTS) - x)):
            self.assertEqual(members(got), expected)
        # Beyond the universe only the sets without an end have members, and those from its last number on.
        beyond = FAR in x and FAR not in y
        self.assertEqual((a <= b, a >= b, a == b, a.isdisjoint(b)), (x <= y, x >= y, x == y, x.isdisjoint(y)))
        self.assertEqual((a < b, a > b), (x < y, x > y))
        self.assertFalse(beyond and a <= b)

    @given(small_lists, some.integers(SMALL[0], SMALL[-1]), small_ends)
    def test_ranges(self, pairs, start, end):
        made, x, inside = RangeSet(pairs), points_of(pairs), points_of([(start, end)])
        self.assertEqual(members(made.insert(start, end)), x | inside)
        self.assertEqual(members(made.remove(start, end)), x - inside)
        self.assertEqual(members(made.gaps(start, end)), inside - x)
        self.assertEqual(made.covers(start, end), inside <= x)
        below, above = made.split(start)
        self.assertEqual((members(below), members(above)), ({n for n in x if n < start}, {n for n in x if n >= start}))

    @given(small_lists, some.sampled_from(SMALL))
    def test_next_ones(self, pairs, n):
        x, out = points_of(pairs), {SMALL[0] - 1, *SMALL} - points_of(pairs)
        for made in (RangeSet(pairs), MutableRangeSet(pairs)):
            self.assertEqual(made.range_from(n), next((it for it in made if it[1] is None or it[1] > n), None))
            self.assertEqual(made.next_member(n), min((it for it in x if it >= n), default=None))
            self.assertEqual(made.next_gap(n), min((it for it in out if it >= n), default=None))
            self.assertEqual(made.prev_member(n), max((it for it in x if it <= n), default=None))
            self.assertEqual(made.prev_gap(n), max((it for it in out if it <= n), default=None))

    @given(small_lists, some.integers(0, 12), some.integers(SMALL[0], SMALL[-1]), some.integers(SMALL[0], SMALL[-1]))
    def test_where_numbers_fit(self, pairs, length, start, end):
        x = points_of(pairs)
        fits = [n for n in range(start, end - length + 1) if x.isdisjoint(range(n, n + length))]
        self.assertEqual(RangeSet(pairs).first_fit(length, start, end), min(fits, default=None))

    @given(small_lists, some.integers(0, 12), some.integers(1, 9), some.integers(SMALL[0], SMALL[-1]), some.integers(SMALL[0], SMALL[-1]))
    def test_where_numbers_fit_at_multiples_and_where_all_are_members(self, pairs, length, align, start, end):
        x, asked = points_of(pairs), range(start, end - length + 1)
        fits = [n for n in asked if n % align == 0 and x.isdisjoint(range(n, n + length))]
        runs = [n for n in asked if x.issuperset(range(n, n + length))]
        for made in (RangeSet(pairs), MutableRangeSet(pairs)):
            self.assertEqual(made.first_fit_aligned(length, align, start, end), min(fits, default=None))
            self.assertEqual(made.first_run(length, start, end), min(runs, default=None))

    @given(small_lists, some.integers(0, 9), some.integers(0, 9), some.integers(-30, 30))
    def test_moves(self, pairs, before, after, by):
        for made in (RangeSet(pairs), MutableRangeSet(pairs)):
            self.assertEqual(members(made.shift(by)), {n for n in POINTS if n - by in made})
            near = {n for n in POINTS if not made.isdisjoint([(n - after, n + before + 1)])}
            self.assertEqual(members(made.widen(before, after)), near)
            self.assertEqual(members(made.widen(-before, -after)), {n for n in POINTS if made.covers(n - before, n + after + 1)})
            long = [(start, end) for start, end in made if end is None or end - start >= after]
            self.assertEqual(list(made.at_least(after)), long)

    @given(small_lists, some.lists(some.tuples(some.sampled_from(["add", "discard", "|", "&", "-", "^"]), small_lists), max_size=6))
    def test_changes_in_place(self, pairs, changes):
        made, expected = MutableRangeSet(pairs), points_of(pairs)
        for name, given_pairs in changes:
            y = points_of(given_pairs)
            if name == "add":
                for ends in given_pairs:
                    made.add(*ends)
                expected |= y
            elif name == "discard":
                for ends in given_pairs:
                    made.discard(ends)
                expected -= y
            elif name == "|":
                made |= RangeSet(given_pairs)
                expected |= y
            elif name == "&":
                made &= RangeSet(given_pairs)
                expected &= y
            elif name == "-":
                made -= RangeSet(given_pairs)
                expected -= y
            else:
                made ^= RangeSet(given_pairs)
                expected ^= y
            self.assertEqual(members(made), expected)

    @given(small_items, small_items, some.integers(0, 8), small_pairs)
    def test_maps(self, items, others, count, keys):
        """Beside a dict of each point's value, and made at once, in two parts, one by one, and of its own ranges in another order."""
        made, parts, one_by_one = RangeMap(copy.deepcopy(items)), RangeMap(items[:count]), RangeMap()
        parts.update(items[count:])
        for (start, end), value in copy.deepcopy(items):
            one_by_one.put(start, end, value)
        cells = {n: [value] for pair, value in items for n in points_of([pair])}
        for it in (made, parts, one_by_one, RangeMap(reversed([*made.items()])), made.copy(), made[:], pickle.loads(pickle.dumps(made))):
            self.assertEqual((repr([*it.items()]), it.kind), (repr([*made.items()]), made.kind))
            self.assertEqual([[(type(value), value) for value in cells.get(n, ())] for n in POINTS], self.values_of(it))
        self.assertEqual(members(made.domain()), {*cells})
        for _, value in items:
            self.assertEqual(members(made.find(copy.deepcopy(value))), {n for n in cells if repr(cells[n]) == repr([value])})
        self.assertEqual(
            (members(made.gaps(*keys)), members(made[slice(*keys)].domain())), (points_of([keys]) - {*cells}, points_of([keys]) & {*cells})
        )
        with self.assertRaises(OverflowError):
            made.update([*others, ((0, 2**63), "a")])
        self.assertEqual(repr([*made.items()]), repr([*one_by_one.items()]))
        self.assertEqual(repr([*made.astype("float").astype("int").items()]), repr([*made.items()]))
        self.assertEqual([key for key, _ in made.astype("float").items()], [*made.keys()])
        # Those of another map where this one has none; of the keys in a set alone, and of all but these.
        put, part = RangeMap(others), RangeSet([it for it, _ in others])
        where_free, rest = made.combine(put, lambda value, _: value), made.copy()
        del rest[part]
        of_put = {n: [value] for pair, value in others for n in points_of([pair])}
        for it, expected in (
            (where_free, of_put | cells),
            (made[part], {n: cells[n] for n in {*cells} & {*of_put}}),
            (rest, {n: cells[n] for n in {*cells} - {*of_put}}),
        ):
            self.assertEqual([[(type(value), value) for value in expected.get(n, ())] for n in POINTS], self.values_of(it))
        made.update(others)
        cells |= {n: [value] for pair, value in others for n in points_of([pair])}
        self.assertEqual([[(type(value), value) for value in cells.get(n, ())] for n in POINTS], self.values_of(made))
        del made[slice(*keys)]
        self.assertEqual(members(made.domain()), {*cells} - points_of([keys]))

    @staticmethod
    def values_of(made):
        return [[(type(made[n]), made[n])] if n in made else [] for n in POINTS]


# Some elements of each kind from the least on, in order, which Python's sets can hold. The last is never an end, and shows whether a set has one.
NOON = datetime(2026, 5, 4, 12)
ZONES = [timezone(timedelta(hours=hours)) for hours in (-12, 0, 5)]
ELEMENTS = {
    "float": [-math.inf, -1e300, -1.5, -5e-324, 0.0, 5e-324, 0.1, 1.0, math.nextafter(1.0, 2), 1e300, math.inf],
    "datetime": [datetime.min, *(NOON + n * timedelta(microseconds=1) for n in range(-3, 4)), NOON + timedelta(hours=1), datetime.max],
    "datetime[UTC]": [it.replace(tzinfo=timezone.utc) for it in (datetime.min, *(NOON + timedelta(hours=n) for n in range(-8, 9)))],
    "date": [date.min, *(date(2024, 2, 26) + timedelta(days=n) for n in range(8)), date.max],
    "timedelta": [timedelta(microseconds=it) for it in (-(2**63), -(2**63) + 1, -2, -1, 0, 1, 2, 10**12, 2**63 - 2, 2**63 - 1)],
    "IPv4Address": [IPv4Address(it) for it in (0, 1, 2, 255, 256, 257, 2**31, 2**32 - 2, 2**32 - 1)],
}
VALUES = {
    "float": some.floats(allow_nan=False),
    "datetime": some.datetimes(),
    "date": some.dates(),
    "datetime[UTC]": some.datetimes(datetime(2, 1, 1), datetime(9998, 1, 1), timezones=some.sampled_from(ZONES)),
    "timedelta": some.integers(-(2**63), 2**63 - 1).map(lambda it: timedelta(microseconds=it)),
    "IPv4Address": some.ip_addresses(v=4),
}


def of_a_kind(count):
    """A kind, and lists of pairs of the places of its elements. None stands for no end, as a start for the least."""

    def of_kind(name):
        places = some.integers(0, len(ELEMENTS[name]) - 2)
        pairs = some.tuples(some.one_of(some.none(), places), some.one_of(some.none(), places))
        return some.tuples(some.just(name), *[some.lists(pairs, max_size=6)] * count)

    return some.sampled_from(sorted(ELEMENTS)).flatmap(of_kind)


def pairs_of(name, places):
    elements = ELEMENTS[name]
    shown = (lambda it: it) if name != "datetime[UTC]" else lambda it: it.astimezone(ZONES[it.hour % 3]) if it.year > 1 else it
    return [tuple(None if it is None else shown(elements[it]) for it in pair) for pair in places]


def members_of_pairs(name, pairs):
    return {it for it in ELEMENTS[name] for start, end in pairs if (start is None or start <= it) and (end is None or it < end)}


def members_of_kind(name, made):
    return {it for it in ELEMENTS[name] if it in made}


class EachKind(unittest.TestCase):
    @given(of_a_kind(2))
    def test_operators_and_comparisons(self, drawn):
        name, left, right = drawn
        x, y = pairs_of(name, left), pairs_of(name, right)
        a, b, every = RangeSet(x, kind=name), RangeSet(y, kind=name), set(ELEMENTS[name])
        x, y = members_of_pairs(name, x), members_of_pairs(name, y)
        for got, expected in (
            (a, x),
            (a | b, x | y),
            (a & b, x & y),
            (a - b, x - y),
            (a ^ b, x ^ y),
            (~a, every - x),
            (RangeSet([a, b]), x | y),
        ):
            self.assertEqual((members_of_kind(name, got), members_of_pairs(name, list(got)), got.kind), (expected, expected, name))
        self.assertEqual((a <= b, a < b, a == b, a.isdisjoint(b)), (x <= y, x < y, x == y, x.isdisjoint(y)))
        self.assertEqual(
            (~~a, (a - b) | (a & b), RangeSet.from_boundaries([end for pair in a for end in pair if end is not None], kind=name)), (a, a, a)
        )

    @given(of_a_kind(1), some.data())
    def test_ranges(self, drawn, data):
        name, places = drawn
        made, elements, kind = RangeSet(pairs_of(name, places), kind=name), ELEMENTS[name], given_kind(name)
        x = members_of_kind(name, made)
        start, end = (elements[data.draw(some.integers(0, len(elements) - 2))] for _ in range(2))
        inside = members_of_pairs(name, [(start, end)])
        for got, expected in (
            (made.insert(start, end), x | inside),
            (made.remove((start, end)), x - inside),
            (made.gaps(start, end), inside - x),
            (made.split(start)[0], {it for it in x if it < start}),
            (made.split(start)[1], {it for it in x if it >= start}),
        ):
            self.assertEqual((members_of_kind(name, got), got.kind), (expected, name))
        changing = MutableRangeSet(made)
        changing.add(start, end)
        changing.discard(None, start)
        self.assertEqual(members_of_kind(name, changing), {it for it in x | inside if it >= start})
        self.assertEqual(made.covers(start, end), end <= start or RangeSet([(start, end)]) <= made)
        self.assertEqual(
            list(made.overlapping(start, end)), [it for it in made if start < end and RangeSet([it]) & RangeSet([(start, end)])]
        )
        self.assertEqual(made.range_at(start), next((it for it in made if it[0] <= start and (it[1] is None or start < it[1])), None))
        for it in (made, MutableRangeSet(made)):
            self.assertEqual(it.range_from(start), next((it for it in made if it[1] is None or start < it[1]), None))
            self.assertEqual(it.next_member(start), min((it for it in x if it >= start), default=None))
            self.assertEqual(it.next_gap(start), min((it for it in elements if it >= start and it not in x), default=None))
            # These may lie between the elements that are looked at.
            for found, others in ((it.prev_member(start), made), (it.prev_gap(start), ~made)):
                self.assertEqual(found is None, not others.split(start)[0] and start not in others)
                if found not in (None, start):
                    end = others.range_at(found)[1]
                    nothing = RangeSet([(end, start)], kind=name)
                    self.assertEqual((kind.code(end) - kind.code(found), others.gaps(end, start), start in others), (1, nothing, False))

    @given(of_a_kind(1))
    def test_other_forms(self, drawn):
        name, places = drawn
        made = RangeSet(pairs_of(name, places), kind=name)
        again = eval(repr(made), {"RangeSet": RangeSet, "datetime": importlib.import_module("datetime"), "IPv4Address": IPv4Address})
        for it in (again, pickle.loads(pickle.dumps(made)), RangeSet(reversed(list(made)), kind=name), made[:], made[::-1]):
            self.assertEqual((it, it.kind, hash(it)), (made, name, hash(made)))
        pairs = list(made)
        ends = [end for _, end in pairs]
        nothing = {"float": 0.0, "IPv4Address": 0}.get(name, timedelta(0))
        if name == "IPv4Address":
            pairs = [(int(start), 2**32 if end is None else int(end)) for start, end in pairs]
            ends = [end for _, end in pairs]
        lengths = [end - start for start, end in pairs if end is not None]
        self.assertEqual(made.covered(), None if None in ends else math.inf if math.inf in lengths else sum(lengths, nothing))
        made._repr_svg_()

    @given(some.one_of(some.tuples(some.just(name), values) for name, values in VALUES.items()))
    def test_numbers_read_back(self, drawn):
        name, value = drawn
        kind = given_kind(name)
        code = kind.number(value)
        self.assertEqual(kind.value(code), value)
        for other in ELEMENTS[name]:
            self.assertEqual((code < kind.code(other), code == kind.code(other)), (value < other, value == other))


class Laws(unittest.TestCase):
    @given(with_numbers(3, 0))
    def test_of_operators(self, drawn):
        a, b, c = drawn
        self.assertEqual((a | b, a & b, a ^ b), (b | a, b & a, b ^ a))
        self.assertEqual(((a | b) | c, (a & b) & c, (a ^ b) ^ c), (a | (b | c), a & (b & c), a ^ (b ^ c)))
        self.assertEqual((a & (b | c), a | (b & c)), ((a & b) | (a & c), (a | b) & (a | c)))
        self.assertEqual((~(a | b), ~(a & b), ~~a), (~a & ~b, ~a | ~b, a))
        self.assertEqual((a - b, a ^ b), (a & ~b, (a | b) - (a & b)))
        self.assertEqual(((a ^ b) == RangeSet(unsigned=a.unsigned)), a == b)
        self.assertEqual(a <= b, a & b == a)
        self.assertEqual(a.isdisjoint(b), not a & b)

    @given(with_numbers(1, 2))
    def test_of_ranges(self, drawn):
        a, start, end = drawn
        part = RangeSet([(start, end)], unsigned=a.unsigned)
        self.assertEqual((a.insert(start, end), a.remove(start, end), a.gaps(start, end)), (a | part, a - part, part - a))
        self.assertEqual(a.covers(start, end), part <= a)
        below, above = a.split(start)
        self.assertEqual((below | above, below & above), (a, RangeSet(unsigned=a.unsigned)))
        self.assertTrue(start not in below and (start in above) is (start in a))

    @given(with_numbers(1, 1))
    def test_of_points(self, drawn):
        a, n = drawn
        found = a.range_at(n)
        self.assertIs(n in a, found is not None)
        self.assertIs(n in a, sum(it <= n for it in a.boundaries) % 2 == 1)
        if found:
            self.assertTrue(a.covers(found) and found[0] <= n)
        k = a.rank(n)
        self.assertEqual(k, a.split(n)[0].covered())
        self.assertTrue((a.select(k) == n) if found else a.select(k) is None or a.select(k) > n)
        self.assertTrue(k == 0 or a.select(k - 1) < n)

    @given(with_numbers(1, 0))
    def test_of_other_forms(self, drawn):
        (a,) = drawn
        self.assertEqual(list(a.boundaries), sorted(set(a.boundaries)))
        self.assertEqual(eval(repr(a), {"RangeSet": RangeSet}), a)
        self.assertEqual(RangeSet.parse(str(a), unsigned=a.unsigned), a)
        self.assertEqual(pickle.loads(pickle.dumps(a)), a)
        self.assertEqual(RangeSet(reversed(list(a)), unsigned=a.unsigned), a)
        self.assertEqual(list(reversed(a)), list(a)[::-1])
        self.assertEqual(hash(RangeSet(list(a), unsigned=a.unsigned)), hash(a))
        self.assertEqual(a.covered(), None if len(a.boundaries) % 2 else sum(end - start for start, end in a))
        self.assertEqual(RangeSet.union_all([a[i : i + 1] for i in range(len(a))], unsigned=a.unsigned), a)

    @given(with_numbers(2, 0))
    def test_of_the_low_level(self, drawn):
        a, b = drawn
        code = "Q" if a.unsigned else "q"
        x, y = (array(code, it.boundaries) for it in (a, b))
        room = array(code, bytes(8 * (len(x) + len(y))))
        for name, expected in (("union", a | b), ("intersection", a & b), ("difference", a - b), ("symmetric_difference", a ^ b)):
            call = getattr(range_sets, name)
            self.assertEqual(call(x, y).tolist(), expected.boundaries.tolist())
            length = call(x, y, out=room)
            self.assertEqual(room[:length].tolist(), expected.boundaries.tolist())
            if length:
                with self.assertRaises(range_sets.NoRoom) as raised:
                    call(x, y, out=room[: length - 1])
                self.assertEqual(raised.exception.needed, length)
        self.assertEqual(
            (range_sets.is_subset(x, y), range_sets.equal(x, y), range_sets.is_disjoint(x, y)), (a <= b, a == b, a.isdisjoint(b))
        )

    @given(some.text(alphabet="0123 .,-+x\t", max_size=14))
    def test_of_texts(self, text):
        try:
            made = RangeSet.parse(text)
        except range_sets.ParseError as error:
            self.assertTrue(0 <= error.position <= len(text))
            # What stands before the fault can go on to a text that is read.
            self.assertTrue(any(self.reads(text[: error.position] + rest) for rest in ("", "..", ".", "1..", "1")))
        else:
            self.assertEqual(RangeSet.parse(str(made)), made)

    @staticmethod
    def reads(text):
        try:
            RangeSet.parse(text)
            return True
        except range_sets.ParseError:
            return False


if __name__ == "__main__":
    unittest.main()
