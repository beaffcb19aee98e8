"""Sets and maps of values that sort, and of IPv6 addresses, beside those of whole numbers; and comparisons that fail."""

import copy
import functools
import pickle
import random
import sys
import unittest
from decimal import Decimal
from fractions import Fraction
from ipaddress import IPv4Address, IPv4Network, IPv6Address, IPv6Network, ip_network
from itertools import chain

from range_sets import MutableRangeSet, RangeMap, RangeSet

try:
    import _testcapi
except ImportError:
    _testcapi = None


@functools.total_ordering
class Version:
    """A version such as 3.10.1, which comes after 3.9."""

    def __init__(self, text):
        self.parts = tuple(map(int, text.split(".")))

    def __eq__(self, other):
        return self.parts == other.parts if isinstance(other, Version) else NotImplemented

    def __lt__(self, other):
        return self.parts < other.parts if isinstance(other, Version) else NotImplemented

    def __hash__(self):
        return hash(self.parts)

    def __repr__(self):
        return f"Version({'.'.join(map(str, self.parts))!r})"


# Nine values of each kind in order, and whether the first is the least one.
KINDS = {
    "texts": (["", "a", "aa", "ab", "b", "z", "é", "ﬀ", "😀"], True),
    "bytes": ([b"", b"\0", b"a", b"a\0", b"b", b"c", b"d", b"\xfe", b"\xff"], True),
    "Decimal": ([Decimal(it) for it in ("-1e99", "-0.1", "0", "1e-99", "0.1", "1", "2", "1e30", "Infinity")], False),
    "Fraction": ([Fraction(it, 7) for it in (-9, -1, 0, 1, 2, 3, 7, 8, 99)], False),
    "tuples": ([(), (0,), (0, "a"), (0, "b"), (1,), (1, "", 5), (1, "a"), (2,), (3, "z", 9)], True),
    "versions": ([*map(Version, ("0.9", "1.0", "1.0.1", "3.9", "3.10", "3.10.1", "4.0", "10.0", "11.0"))], False),
    "types that compare": ([Decimal(-1), 0, 0.5, Fraction(2, 3), 1, Decimal("1.5"), 2.5, 3, Fraction(7, 2)], False),
    "IPv6Address": ([*map(IPv6Address, (0, 1, 2, 2**64 - 1, 2**64, 2**64 + 1, 2**127, 2**128 - 2, 2**128 - 1))], True),
}


def flat(pairs):
    return [*chain.from_iterable(it if it[1] is not None else it[:1] for it in pairs)]


# What is asked of two sets about two elements and two sources, and what makes new sets.
QUESTIONS = {
    "in": lambda s, t, a, b: a in s,
    "covers": lambda s, t, a, b: (s.covers(a, b), s.covers((b, a)), s.covers(a, None)),
    "range_at": lambda s, t, a, b: s.range_at(a),
    "next ones": lambda s, t, a, b: (s.range_from(a), s.next_member(a), s.next_gap(a)),
    "overlapping": lambda s, t, a, b: (s.overlapping(a, b), s.overlapping((a, None))),
    "gaps": lambda s, t, a, b: (s.gaps(a, b), s.gaps(a)),
    "split": lambda s, t, a, b: s.split(a),
    "span": lambda s, t, a, b: (s.span(), len(s), bool(s)),
    "ranges": lambda s, t, a, b: (list(s), list(reversed(s)), s[1:], s[::-2], [s[0], s[-1]] if s else []),
    "operators": lambda s, t, a, b: (s | t, s & t, s - t, s ^ t),
    "compared": lambda s, t, a, b: (s <= t, s < t, s == t, s >= t, s > t, s.isdisjoint(t), s == s & t, s & t <= s, s - t < s),
    "with sources": lambda s, t, a, b: (s.union([(a, b)], t), s.intersection([(a, b)], t), s.difference([(a, b)], t)),
    "of sources": lambda s, t, a, b: (
        s.symmetric_difference([(a, b), t]),
        s.issubset([(a, b)]),
        s.issuperset([(a, b)]),
        s.isdisjoint([(a, b)]),
    ),
    "of many": lambda s, t, a, b: [call([s, t, [(a, b)], [(b, None)]], kind=s.kind) for call in (s.union_all, s.intersection_all)],
    "changed": lambda s, t, a, b: (RangeSet(s).insert(a, b), RangeSet(s).remove(a, b), RangeSet(s).insert((b, None))),
    "copies": lambda s, t, a, b: (s.copy(), copy.deepcopy(s), type(s)(list(s), kind=s.kind), RangeSet(s), MutableRangeSet([t, s, (a, b)])),
    "pickles": lambda s, t, a, b: [pickle.loads(pickle.dumps(s, protocol)) for protocol in (2, 5)],
    "boundaries": lambda s, t, a, b: RangeSet.from_boundaries(flat(s), kind=s.kind),
    "hashes": lambda s, t, a, b: (hash(RangeSet(s)) == hash(RangeSet(s & s)), len({RangeSet(s), RangeSet(t)}), s | t == t | s),
    "depth": lambda s, t, a, b: RangeMap.depth([s, t, [(a, b)]], kind=s.kind),
}
CHANGES = {
    "add": lambda s, t, a, b: s.add(a, b),
    "discard": lambda s, t, a, b: s.discard((a, b)),
    "update": lambda s, t, a, b: s.update([(a, b)], t),
    "intersection_update": lambda s, t, a, b: s.intersection_update([(a, None)]),
    "difference_update": lambda s, t, a, b: s.difference_update(t, [(a, b)]),
    "symmetric_difference_update": lambda s, t, a, b: s.symmetric_difference_update([(a, b)]),
    "|=": lambda s, t, a, b: s.__ior__(t),
    "&=": lambda s, t, a, b: s.__iand__(t | RangeSet([(a, b)], kind=s.kind)),
    "-=": lambda s, t, a, b: s.__isub__(RangeSet([(a, b)], kind=s.kind)),
    "^=": lambda s, t, a, b: s.__ixor__(t),
    "clear": lambda s, t, a, b: s.clear() if a == b else None,
}
# Of kinds with a least element, which a start None is.
FROM_THE_LEAST = {
    "complement": lambda s, t, a, b: (~s, ~~s == s if ~s else None, s | ~s, s - ~t) if s and t else None,
    "None": lambda s, t, a, b: (
        s.covers(None, b),
        s.gaps(None, b),
        s.overlapping(None, b),
        s.union([(None, a)]),
        RangeSet([(None, a), (b, None)], kind=s.kind),
    ),
}
OF_MAPS = {
    "get": lambda m, o, a, b: (m.get(a), a in m, m.get(a, 7), m.range_at(a)),
    "part": lambda m, o, a, b: (m[a:b], m[b:], m[o.domain()]),
    "ranges": lambda m, o, a, b: (list(m), list(m.values()), list(m.items()), len(m), m.span(), list(m.keys())),
    "overlapping": lambda m, o, a, b: (m.overlapping(a, b), m.overlapping(a, None)),
    "sets": lambda m, o, a, b: (m.gaps(a, b), m.domain(), m.find(1), m.find(9)),
    "combine": lambda m, o, a, b: (m.combine(o, max), m.combine(o, lambda x, y: x + y, 0)),
    "compared": lambda m, o, a, b: (m == o, m == m.copy(), m == RangeMap(list(m.items()), kind=m.kind), m[a:b] == m),
    "copies": lambda m, o, a, b: (
        m.copy(),
        copy.deepcopy(m),
        pickle.loads(pickle.dumps(m)),
        RangeMap([*m.items(), *o.items()], kind=m.kind),
    ),
}
MAP_CHANGES = {
    "put": lambda m, o, a, b: m.put(a, b, 1),
    "[]": lambda m, o, a, b: m.__setitem__(slice(b, None), 2),
    "of a set": lambda m, o, a, b: m.__setitem__(o.domain(), 3),
    "remove": lambda m, o, a, b: m.remove(a, b),
    "del": lambda m, o, a, b: m.__delitem__(o.find(2)),
    "pop": lambda m, o, a, b: m.pop(a, None),
    "update": lambda m, o, a, b: m.update(o),
    "pairs": lambda m, o, a, b: m.update([((a, b), 4), ([b, a], 5), ((b, None), 1)]),
    "clear": lambda m, o, a, b: m.clear() if a == b else None,
}


def named(found, elements):
    """An answer of sets of whole numbers as the same of elements that have these numbers."""
    if isinstance(found, bool) or found is None:
        return found
    if isinstance(found, int):
        return elements[found]
    if isinstance(found, RangeMap):
        return [(named(keys, elements), value) for keys, value in found.items()]
    return [named(it, elements) for it in found]


def listed(found):
    """An answer in lists, as `named` has them."""
    if isinstance(found, RangeMap):
        return [(listed(keys), value) for keys, value in found.items()]
    # The elements may be tuples too, so that two of them are a pair.
    return [*map(listed, found)] if isinstance(found, (list, RangeSet, MutableRangeSet)) or is_answer(found) else found


def is_answer(found):
    return isinstance(found, tuple) and found not in KINDS["tuples"][0]


class BesideNumbers(unittest.TestCase):
    """Each call gives of elements in order what it gives of their numbers."""

    rounds = 15

    def each_kind(self):
        for name, (elements, has_least) in KINDS.items():
            yield random.Random(name), elements, has_least, "IPv6Address" if name == "IPv6Address" else "ordered"
        yield random.Random("numbers"), range(9), False, "ordered"

    def some_pairs(self, made_up, count):
        return [sorted(made_up.choices(range(9), k=2)) if made_up.random() < 0.8 else [made_up.randrange(9), None] for _ in range(count)]

    def test_kinds_by_types(self):
        self.assertEqual((RangeSet(kind=str).kind, RangeMap(kind=bytes).kind, MutableRangeSet(kind=tuple).kind), ("ordered",) * 3)
        self.assertEqual(RangeSet([("a", "b")], kind=str), RangeSet([("a", "b")]))
        self.assertRaises(TypeError, RangeSet, [(0, 5)], kind=bool)
        named = RangeMap(kind=str)
        named["a":"c"] = 5
        self.assertEqual((named["bee"], named.get("c")), (5, None))

    def test_sets(self):
        for made_up, elements, has_least, kind in self.each_kind():
            calls = {**QUESTIONS, **CHANGES, **(FROM_THE_LEAST if has_least else {})}
            for _ in range(self.rounds):
                pairs = self.some_pairs(made_up, made_up.randrange(5)), self.some_pairs(made_up, made_up.randrange(5))
                numbers = [of(it, unsigned=True) for of, it in zip((MutableRangeSet, RangeSet), pairs)]
                others = [
                    of([tuple(ends) for ends in named(it, elements)], kind=kind) for of, it in zip((MutableRangeSet, RangeSet), pairs)
                ]
                for name in made_up.choices([*calls], k=40):
                    a, b = made_up.choices(range(9), k=2)
                    for s, t, p, q in ((*numbers, *others), (*reversed(numbers), *reversed(others))):
                        if name in CHANGES and isinstance(s, RangeSet):
                            continue
                        found, wanted = calls[name](p, q, elements[a], elements[b]), calls[name](s, t, a, b)
                        if name not in CHANGES:
                            self.assertEqual(listed(found), self.as_named(name, wanted, elements), (name, s, t, a, b))
                    self.assertEqual(listed([*others]), named([*numbers], elements), (name, a, b))
                    self.assertEqual({it.kind for it in others}, {kind})

    def as_named(self, name, wanted, elements):
        if name in ("span", "hashes"):
            # They have numbers that are no elements.
            return [named(it, elements) if isinstance(it, tuple) else it for it in wanted]
        return named(wanted, elements)

    def test_maps(self):
        for made_up, elements, _, kind in self.each_kind():
            for _ in range(self.rounds):
                items = [[(tuple(it), made_up.randrange(3)) for it in self.some_pairs(made_up, made_up.randrange(5))] for _ in range(2)]
                numbers = [RangeMap(it, unsigned=True) for it in items]
                others = [RangeMap([(tuple(named(keys, elements)), value) for keys, value in it], kind=kind) for it in items]
                for name in made_up.choices([*OF_MAPS, *MAP_CHANGES], k=40):
                    a, b = made_up.choices(range(9), k=2)
                    call = {**OF_MAPS, **MAP_CHANGES}[name]
                    found, wanted = call(*others, elements[a], elements[b]), call(*numbers, a, b)
                    if name in OF_MAPS:
                        self.assertEqual(
                            self.values_apart(name, found, None), self.values_apart(name, wanted, elements), (name, numbers, a, b)
                        )
                    self.assertEqual(listed([*others]), named([*numbers], elements), (name, a, b))

    def values_apart(self, name, found, elements):
        """An answer as lists, of which only the keys are named."""
        keys_of = listed if elements is None else lambda it: named(it, elements)
        match name:
            case "get":
                return [*found[:3], found[3] and (keys_of(found[3][0]), found[3][1])]
            case "ranges":
                keys, values, items, count, span, again = found
                return [keys_of(keys), values, [(keys_of(it), value) for it, value in items], count, keys_of(span), keys_of(again)]
            case "overlapping":
                return [[(keys_of(it), value) for it, value in items] for items in found]
        return keys_of(found)


class Rows(unittest.TestCase):
    def test_what_is_taken_by_itself(self):
        for name, (elements, has_least) in KINDS.items():
            with self.subTest(name):
                kind = "IPv6Address" if name == "IPv6Address" else "ordered"
                made = RangeSet([(elements[0], elements[3]), (elements[5], None)])
                self.assertEqual((made.kind, elements[2] in made, elements[3] in made, elements[8] in made), (kind, True, False, True))
                self.assertEqual(RangeMap([((elements[0], elements[3]), 1)]).kind, kind)
                self.assertEqual(eval(repr(made), {**globals(), "IPv6Address": IPv6Address}), made)
                self.assertEqual(str(made), f"{elements[0]}..{elements[3]}, {elements[5]}..")
                self.assertIn("<svg", made._repr_svg_())
                for call in (
                    lambda: ~made,
                    lambda: RangeSet([(None, elements[1])], kind=kind),
                    lambda: RangeSet([elements[:2]], kind=kind).gaps(None, elements[3]),
                ):
                    if has_least:
                        self.assertTrue(call() or True)
                    else:
                        self.assertRaisesRegex(TypeError, "expected a start, not None: of the kind 'ordered'", call)

    def test_what_is_refused(self):
        made, addresses = RangeSet([("a", "c")]), RangeSet([IPv6Network("::/64")])
        counted = "values that sort aren't counted one by one"
        rows = [
            (made.covered, counted),
            (lambda: list(made.members()), counted),
            (lambda: made.rank("b"), counted),
            (lambda: made.select(0), counted),
            (lambda: made.first_fit(1), counted),
            (lambda: RangeSet.from_values(["a"]), counted),
            (lambda: made.insert("b"), counted),
            (lambda: list(addresses.members()), "IPv6 addresses aren't counted one by one"),
            (lambda: 5 in made, "not supported between instances"),
            (lambda: RangeSet([("a", 5)]), "not supported between instances"),
            (lambda: made | RangeSet([(Decimal(1), Decimal(2))]), "not supported between instances"),
            (lambda: made | RangeSet([(1, 2)]), "two kinds of elements don't mix"),
            (lambda: made | addresses, "two kinds of elements don't mix: one set has the kind ordered, and the other IPv6Address"),
            (lambda: addresses | RangeSet([IPv4Network("10.0.0.0/8")]), "two kinds of elements don't mix"),
            (lambda: IPv4Address("10.0.0.1") in addresses, "expected an IPv6Address, not IPv4Address"),
            (lambda: RangeMap([(("a", "c"), 1)]).update([((1, 2), 1)]), "not supported between instances"),
            (lambda: RangeMap([(("a", "c"), 1)]).combine(RangeMap([((1, 2), 1)]), max), "two kinds of elements don't mix"),
            (made.networks, "expected a set of addresses, not of the kind ordered"),
            (lambda: RangeSet([({1}, {1, 2})]), "'set' object cannot be interpreted as an integer"),
            (made.to_multirange, "ordered"),
        ]
        for call, text in rows:
            with self.subTest(text), self.assertRaisesRegex(TypeError, text):
                call()
        self.assertFalse(made == RangeSet([(Decimal(1), Decimal(2))]))

    def test_what_is_not_equal_to_itself(self):
        nan, made = float("nan"), RangeSet([(0.5, 1)], kind="ordered")
        for call in (
            lambda: RangeSet([(nan, 1.0)], kind="ordered"),
            lambda: RangeSet([(0.0, nan)], kind="ordered"),
            lambda: RangeSet((nan, None), kind="ordered"),
            lambda: made.union([(0.5, nan)]),
            lambda: made.covers(nan, 1),
            lambda: nan in made,
            lambda: RangeMap([((nan, 1.0), "a")], kind="ordered"),
        ):
            self.assertRaisesRegex(ValueError, "nan isn't equal to itself", call)

    def test_addresses(self):
        at, most = IPv6Address, 2**128 - 1
        made = RangeSet([IPv6Network("2001:db8::/32"), ip_network("::/127"), (at(5), at(9))])
        rows = [
            (made.covered(), 2**96 + 2 + 4),
            ([*made.networks()], [IPv6Network(it) for it in ("::/127", "::5/128", "::6/127", "::8/128", "2001:db8::/32")]),
            (
                (IPv6Network("2001:db8:5::/48") in made, IPv6Network("::/126") in made, at(8) in made, at(9) in made),
                (True, False, True, False),
            ),
            ((made.first_fit(3), made.first_fit(4), made.first_fit(0, at(6)), made.first_fit(2**128)), (at(2), at(9), at(6), None)),
            (made.first_fit(2**64, at("2001:db8::")), at("2001:db9::")),
            ((made.first_fit(1, at(5), at(9)), made.first_fit(1, at(5), at(10))), (None, at(9))),
            (list(RangeSet(IPv6Network("::/0"))), [(at(0), None)]),
            ((RangeSet(IPv6Network("::/0")).covered(), RangeSet(kind="IPv6Address").covered()), (2**128, 0)),
            (list(RangeSet.from_values([at(most), at(3), at(2), at(3)])), [(at(2), at(4)), (at(most), None)]),
            (list(made.insert(at(9)) - RangeSet([(None, at(6))])), [(at(6), at(10)), (at("2001:db8::"), at("2001:db9::"))]),
            (RangeMap([(IPv6Network("::/64"), "a")])[IPv6Network("::/120")].span(), (at(0), at(256))),
            (RangeSet(kind=IPv6Address).kind, "IPv6Address"),
        ]
        for row, (found, wanted) in enumerate(rows):
            self.assertEqual(found, wanted, row)

    def test_of_equal_ones_the_left_sets_object_stays(self):
        left, right = RangeSet([(Decimal("1.0"), Decimal("3.0"))]), RangeSet([(Decimal("1.00"), Decimal("3.00")), (Decimal(5), Decimal(6))])
        self.assertEqual((str(left | right), str(right | left), str(left & right)), ("1.0..3.0, 5..6", "1.00..3.00, 5..6", "1.0..3.0"))
        self.assertEqual(left, right[:1])
        self.assertEqual(hash(left), hash(right[:1]))

    def test_a_set_keeps_its_boundaries_alone(self):
        made = RangeSet([(f"{n:03}", f"{n:03}x") for n in range(500)])
        for few in (made[:1], made & RangeSet([("000", "001")]), made.overlapping("000", "000w"), MutableRangeSet(made[:1])):
            self.assertEqual(len(few._now[1].keys), 2)
            self.assertLess(len(pickle.dumps(few)), 200)

    def test_a_loop_over_a_map_goes_over_what_it_was(self):
        made = RangeMap([(("a", "b"), 1), (("k", "m"), 2)])
        seen = []
        for keys, value in made.items():
            made.put("c", "d", 3)
            seen.append((keys, value))
        self.assertEqual((seen, len(made)), ([(("a", "b"), 1), (("k", "m"), 2)], 3))

    def test_pickles_that_are_damaged(self):
        for kind, keys in (("ordered", ["a", "b"]), ("ordered", ("b", "a")), ("ordered", ("a", "a")), ("ordered", ("a", 5))):
            self.assertRaises(ValueError, _restored_of, RangeSet, (kind, keys))
        for keys in ((5, 3), (-1, 3), (1, 2**128), ("a", "b")):
            self.assertRaises(ValueError, _restored_of, RangeSet, ("IPv6Address", keys))
        for name in ((), ("int", (1, 2)), ("other", ("a", "b")), ("ordered",), ("ordered", ("a",))):
            self.assertRaises(ValueError, _restored_of, RangeSet, name)


def _restored_of(cls, name):
    """The set of a pickle, with another kind than it was written with."""
    call, (_, memory, _), _ = RangeSet([("a", "b")]).__reduce_ex__(2)
    return call(cls, memory, name)


class Fault(Exception):
    pass


class Counted:
    """A number whose comparisons are counted. The one that `fails` raises a Fault, or each one answers what `lies` says."""

    count, fails, lies = 0, None, None

    def __init__(self, number):
        self.number = number

    def __lt__(self, other):
        Counted.count += 1
        if Counted.count == Counted.fails:
            raise Fault
        return self.number < other.number if Counted.lies is None else Counted.lies()

    def __eq__(self, other):
        return self.number == other.number

    def __hash__(self):
        return hash(self.number)


class Comparisons(unittest.TestCase):
    def setUp(self):
        Counted.count, Counted.fails, Counted.lies = 0, None, None
        self.addCleanup(self.setUp_again)

    def setUp_again(self):
        Counted.fails = Counted.lies = None

    def pairs(self, count, step=4, start=0):
        return [(Counted(start + step * n), Counted(start + step * n + 2)) for n in range(count)]

    def calls(self):
        """Calls that change a set or a map, and the numbers of what it is."""
        makers = {"set": lambda: MutableRangeSet(self.pairs(4)), "map": lambda: RangeMap([(it, at) for at, it in enumerate(self.pairs(4))])}
        other = RangeSet(self.pairs(3, 5, 1))
        a, b = Counted(3), Counted(9)
        changes = {
            "set": [(name, lambda s, call=call: call(s, other, a, b)) for name, call in CHANGES.items()],
            "map": [(name, lambda m, call=call: call(m, RangeMap([(other, 1)]), a, b)) for name, call in MAP_CHANGES.items()],
        }
        questions = {
            "set": [(name, lambda s, call=call: call(s, other, a, b)) for name, call in QUESTIONS.items()],
            "map": [(name, lambda m, call=call: call(m, RangeMap([(other, 1)]), a, b)) for name, call in OF_MAPS.items()],
        }
        for of, make in makers.items():
            for name, call in changes[of] + questions[of]:
                if name != "pickles":
                    yield f"{name} of a {of}", make, call

    def numbers(self, made):
        of = made.items() if isinstance(made, RangeMap) else made
        return [*map(self.numbers, of)] if isinstance(made, (RangeMap, MutableRangeSet, tuple)) else getattr(made, "number", made)

    def test_each_that_raises_leaves_all_as_it_was(self):
        for name, make, call in self.calls():
            failed = 0
            for at in range(1, 400):
                made = make()
                before = self.numbers(made)
                Counted.count, Counted.fails = 0, at
                try:
                    call(made)
                    break
                except Fault:
                    failed += 1
                finally:
                    Counted.fails = None
                self.assertEqual(self.numbers(made), before, (name, at))
            else:
                self.fail(f"{name} never ends")
            if not name.startswith(("span", "ranges", "clear", "copies of a map")):
                self.assertGreater(failed, 0, name)

    def test_those_that_lie_give_wrong_answers_and_nothing_worse(self):
        made_up = random.Random(5)
        for lies in (lambda: True, lambda: False, lambda: made_up.random() < 0.5):
            for name, make, call in self.calls():
                for _ in range(10):
                    made = make()
                    Counted.lies = lies
                    try:
                        call(made)
                        self.numbers(made), repr(made)
                    except (ValueError, OverflowError, IndexError, TypeError):
                        pass
                    finally:
                        Counted.lies = None

    @unittest.skipUnless(_testcapi, "this Python comes without _testcapi, which refuses memory")
    @unittest.skipIf(sys.version_info >= (3, 12), "Pythons from 3.12 on don't outlive that a request of theirs is refused")
    def test_refused_memory(self):
        # An iterator that is left in the middle says that it was.
        hook, sys.unraisablehook = sys.unraisablehook, lambda it: None
        self.addCleanup(setattr, sys, "unraisablehook", hook)
        for name, make, call in self.calls():
            if not name.startswith(tuple(CHANGES) + tuple(MAP_CHANGES)):
                continue
            for count in range(3000):
                made = make()
                before = self.numbers(made)
                _testcapi.set_nomemory(count, count + 1)
                try:
                    call(made)
                    break
                except MemoryError:
                    pass
                finally:
                    _testcapi.remove_mem_hooks()
                self.assertEqual(self.numbers(made), before, (name, count))
            self.assertLess(count, 2999, name)

    def test_how_many_there_are(self):
        for count in (100, 1000):
            bits = count.bit_length() + 1
            pairs = random.Random(count).sample(self.pairs(count), count)
            made, other = RangeSet(pairs), RangeSet(self.pairs(count, 4, 1))
            changing = MutableRangeSet(made)
            table = RangeMap([(it, 1) for it in pairs])
            few = Counted(5), Counted(9)
            rows = [
                ("made", lambda: RangeSet(pairs), 2 * 2 * count * bits),
                ("union", lambda: made | other, 2 * 2 * count * (bits + 1)),
                ("of many", lambda: RangeSet.union_all([[it] for it in pairs]), 2 * 2 * 2 * count * (bits + 1)),
                ("in", lambda: few[0] in made, 2 * bits),
                ("covers", lambda: made.covers(*few), 3 * bits),
                ("overlapping", lambda: made.overlapping(*few), 3 * bits),
                ("insert", lambda: made.insert(*few), 4 * bits),
                ("add", lambda: changing.add(*few), 8 * bits),
                ("in a map", lambda: table.get(few[0]), 2 * bits),
                ("put", lambda: table.put(*few, 2), 8 * bits),
                ("map", lambda: RangeMap([(it, 1) for it in pairs]), 2 * 2 * count * (bits + 4)),
            ]
            for name, call, most in rows:
                Counted.count = 0
                call()
                self.assertLessEqual(Counted.count, most, (name, count))


if __name__ == "__main__":
    unittest.main()
