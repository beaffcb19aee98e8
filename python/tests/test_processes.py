"""Other processes and threads: sets and errors that cross over, and buffers that change during a call.

RANGE_SETS_SECONDS says how long threads run in each test.
"""

import copy
import multiprocessing
import os
import random
import sys
import threading
import time
import unittest
from array import array
from concurrent.futures import ProcessPoolExecutor

import range_sets as sets
from range_sets import MutableRangeSet, NoRoom, NotSorted, ParseError, RangeSet


def negated(made):
    return ~made


def grown(made):
    made.add(50, 60)
    return made


def refused(error):
    raise error


def write_too_much(length):
    return sets.union(array("q", [0, 1]), array("q", [5, 6]), out=array("q", bytes(8 * length)))


class Processes(unittest.TestCase):
    @classmethod
    def setUpClass(cls):
        cls.pool = ProcessPoolExecutor(1, mp_context=multiprocessing.get_context("spawn"))
        cls.addClassCleanup(cls.pool.shutdown)

    def test_sets(self):
        made = [RangeSet([(n, n + 5), (100, None)], unsigned=n % 2 == 0) for n in range(8)]
        self.assertEqual(list(self.pool.map(negated, made)), [~it for it in made])

    def test_sets_that_change(self):
        given = MutableRangeSet([(0, 5)])
        self.assertEqual(self.pool.submit(grown, given).result(), MutableRangeSet([(0, 5), (50, 60)]))
        self.assertEqual(given, MutableRangeSet([(0, 5)]))

    def test_errors_leave_the_pool_whole(self):
        with self.assertRaises(NoRoom) as raised:
            self.pool.submit(write_too_much, 3).result()
        self.assertEqual(raised.exception.needed, 4)
        calls = (RangeSet.parse, "0..x", ParseError), (RangeSet.from_boundaries, [3, 3], NotSorted), (refused, NoRoom(7), NoRoom)
        for call, given, error in calls:
            with self.assertRaises(error):
                self.pool.submit(call, given).result()
        self.assertEqual(self.pool.submit(write_too_much, 4).result(), 4)


class Threads(unittest.TestCase):
    """Threads change a buffer while others call on it: each call gives an answer or NotSorted."""

    seconds = float(os.environ.get("RANGE_SETS_SECONDS", "1"))

    def run_together(self, change, calls):
        ends, unexpected, answers = time.monotonic() + self.seconds, [], [0, 0]

        def repeat(call, *given):
            while time.monotonic() < ends and not unexpected:
                try:
                    call(*given)
                    answers[0] += 1
                except NotSorted:
                    answers[1] += 1
                except BaseException as error:
                    unexpected.append(error)

        threads = [threading.Thread(target=repeat, args=(call,)) for call in (change, *calls)]
        for it in threads:
            it.start()
        for it in threads:
            it.join()
        self.assertEqual(unexpected, [])
        self.assertGreater(answers[0], 0)
        return answers

    def test_a_buffer_that_changes(self):
        made = random.Random(7)
        sorted_ones, shaken = array("q", range(0, 40000, 2)), array("q", range(0, 40000, 2))
        wild = [array("q", (made.randrange(-(2**63), 2**63) for _ in range(20000))) for _ in range(3)]
        memory, other, guarded = memoryview(shaken), array("q", range(1, 40000, 2)), array("q", [7]) * 40100
        out = memoryview(guarded)[50:-50]

        def change():
            for given in (*wild, sorted_ones):
                memory[:] = given

        def call():
            for it in (sets.union, sets.intersection, sets.difference, sets.symmetric_difference):
                it(shaken, other)
                it(other, shaken)
            sets.union(shaken, other, out=out)

        def ask():
            for it in (sets.is_subset, sets.is_disjoint, sets.intersects, sets.equal):
                it(other, shaken)
                it(shaken, other)

        def search():
            for value in (-(2**63), 0, 777, 39999, 2**63 - 1):
                sets.contains(shaken, value)
                sets.range_at(shaken, value)
                left_len, right_start = sets.split(shaken, value)
                self.assertTrue(0 <= left_len <= len(shaken) and 0 <= right_start <= len(shaken))

        def copy_it():
            made = RangeSet.from_boundaries(shaken)
            self.assertTrue(sets.is_sorted(made.boundaries))
            self.assertTrue(sets.is_sorted(sets.from_unsorted(shaken)) and sets.is_sorted(sets.from_ranges(shaken)))

        self.run_together(change, (call, ask, search, copy_it))
        self.assertEqual((guarded[:50], guarded[-50:]), (array("q", [7]) * 50,) * 2)

    def test_a_buffer_can_not_shrink_meanwhile(self):
        a = array("q", range(60000))

        def shrink_and_grow():
            try:
                a.pop()
                a.append(2**62)
            except BufferError:
                pass

        self.run_together(shrink_and_grow, (lambda: sets.union(a, a), lambda: sets.is_subset(a, a)))

    def test_a_set_that_many_change(self):
        shared = MutableRangeSet()

        def add():
            shared.add(random.randrange(10**6), random.randrange(10**6))

        def read():
            self.assertTrue(sets.is_sorted(shared.boundaries) and list(shared) is not None)

        answers = self.run_together(add, (add, read))
        self.assertEqual(answers[1], 0)

    def test_no_change_is_lost(self):
        many = RangeSet.from_values(range(10**7, 10**7 + 10**4, 2))
        for start in (RangeSet(), many):
            shared, count = MutableRangeSet(start), 300
            shared.add(-count, 0)

            def change(first):
                for n in range(first, 60 * count, 60):
                    shared.add(n)
                    shared.add(n + 10, n + 11)
                    shared.update([(n + 20, n + 21)])
                    shared.__ior__(RangeSet((n + 30, n + 31)))
                    shared.__ixor__(RangeSet((n + 40, n + 41)))
                    shared.symmetric_difference_update([(n + 50, n + 51)])
                    shared.discard(-1 - n // 60)
                    shared.difference_update([(n + 10, n + 11)])
                    shared.__isub__(RangeSet((n + 20, n + 21)))
                    shared.intersection_update([(None, n + 30), (n + 31, None)])
                    shared.__iand__(~RangeSet((n + 40, n + 41)))

            threads = [threading.Thread(target=change, args=(first,)) for first in range(4)]
            before = sys.getswitchinterval()
            sys.setswitchinterval(1e-6)
            try:
                for it in threads:
                    it.start()
                for it in threads:
                    it.join()
            finally:
                sys.setswitchinterval(before)
            expected = {n + more for first in range(4) for n in range(first, 60 * count, 60) for more in (0, 50)}
            self.assertEqual(shared, RangeSet.from_values(expected) | start)

    def together(self, *calls):
        """Runs calls in threads that take turns as often as can be."""
        unexpected = []

        def run(call):
            try:
                call()
            except BaseException as error:
                unexpected.append(error)

        threads = [threading.Thread(target=run, args=(it,)) for it in calls]
        before = sys.getswitchinterval()
        sys.setswitchinterval(1e-6)
        try:
            for it in threads:
                it.start()
            for it in threads:
                it.join()
        finally:
            sys.setswitchinterval(before)
        self.assertEqual(unexpected, [])

    def test_no_range_is_lost(self):
        shared, count, ranges = MutableRangeSet(), 4, 10_000
        done = []

        def adding(first):
            def call():
                for n in range(first, count * ranges, count):
                    shared.add(3 * n, 3 * n + 2)
                done.append(first)

            return call

        def read():
            while len(done) < count:
                self.assertTrue(sets.is_sorted(shared.boundaries) and len(shared) <= count * ranges + 2)
                shared.symmetric_difference_update([(-9, -7), (-5, -3)])

        self.together(*map(adding, range(count)), read)
        shared.discard(None, 0)
        self.assertEqual(list(shared), [(3 * n, 3 * n + 2) for n in range(count * ranges)])

    def test_one_thread_tells_the_kind(self):
        for _ in range(100):
            shared, refused = MutableRangeSet(), []

            def adding(first):
                def call():
                    try:
                        for n in range(20):
                            shared.add(first + n, first + n + type(first)(0.5) + 1)
                    except TypeError:
                        refused.append(first)

                return call

            self.together(adding(0), adding(100.5), adding(200), adding(300.5))
            self.assertIn((shared.kind, sorted(refused)), [("int", [100.5, 300.5]), ("float", [])])

    def test_each_answer_is_of_one_moment(self):
        shared, some, none = MutableRangeSet(), RangeSet([(0, 10), (20, None)]), RangeSet()
        questions = [
            RangeSet.span,
            repr,
            str,
            len,
            list,
            lambda it: it[-1:],
            lambda it: it[-1],
            lambda it: list(it.bounded()),
            lambda it: it.split(25),
            lambda it: it.split(5),
            lambda it: it.first_fit(5, 0),
            lambda it: it.overlapping(5, 25),
            lambda it: it == some,
            lambda it: it < some,
            lambda it: it > none,
            lambda it: it._repr_svg_(),
            copy.copy,
            lambda it: it.covers(3, 10),
            lambda it: list(it[::-1]),
        ]

        def answer(question, it):
            try:
                return question(it)
            except (ValueError, IndexError) as error:
                return str(error)

        known = [[answer(it, MutableRangeSet(made)) for made in (some, none)] for it in questions]

        def change():
            shared.update(some)
            shared.clear()

        def ask():
            for question, answers in zip(questions, known):
                found = answer(question, shared)
                if found not in answers:
                    raise AssertionError((found, answers))

        before = sys.getswitchinterval()
        sys.setswitchinterval(1e-6)
        try:
            self.run_together(change, (ask, ask))
        finally:
            sys.setswitchinterval(before)


if __name__ == "__main__":
    unittest.main()
