"""More than one interpreter in a process, and a Python without the lock that lets one thread run at a time.

Interpreters that share the lock have the package. Those with locks of their own, and a Python without one, are not declared to: the
first get an ImportError, and the second takes the lock back.
"""

import sys
import sysconfig
import threading
import unittest

try:
    import _interpreters
except ImportError:
    import _xxsubinterpreters as _interpreters

HAS_OWN_LOCKS = sys.version_info >= (3, 12)

PROGRAM = """
import pickle
from array import array
from datetime import date
from range_sets import MutableRangeSet, NotSorted, RangeSet

made, count = MutableRangeSet(), 3000
for n in range(count):
    made.add(first + 3 * n, first + 3 * n + 2)
assert list(made) == [(first + 3 * n, first + 3 * n + 2) for n in range(count)]
for _ in range(20):
    # Enough boundaries that the lock is let go.
    others = RangeSet.from_values(range(first + 2, first + 3 * count, 3))
    whole = RangeSet(made) | others
    assert list(whole) == [(first, first + 3 * count)] and whole - made == others
assert pickle.loads(pickle.dumps(made)) == made
assert RangeSet([(date(2026, 5, 1), date(2026, 5, 4))]).kind == "date"
try:
    RangeSet.from_boundaries(array("q", [3, 3]))
except NotSorted:
    pass
else:
    raise AssertionError("a list that isn't sorted is taken")
"""


def create(with_own_lock):
    if sys.version_info >= (3, 13):
        return _interpreters.create("isolated" if with_own_lock else "legacy")
    return _interpreters.create(isolated=with_own_lock)


def run(interpreter, code):
    """Runs a program in another interpreter, and answers what it raised there, or None."""
    if sys.version_info >= (3, 13):
        failed = _interpreters.exec(interpreter, code)
        return failed and failed.formatted
    try:
        return _interpreters.run_string(interpreter, code)
    except _interpreters.RunFailedError as error:
        return str(error)


class Interpreters(unittest.TestCase):
    def create(self, count, with_own_lock):
        made = [create(with_own_lock) for _ in range(count)]
        for it in made:
            self.addCleanup(_interpreters.destroy, it)
        return made

    def test_those_that_share_the_lock(self):
        said = []

        def work(interpreter, first):
            said.append(run(interpreter, f"first = {first}\n{PROGRAM}"))

        threads = [threading.Thread(target=work, args=(it, 10**6 * n)) for n, it in enumerate(self.create(4, with_own_lock=False))]
        for it in threads:
            it.start()
        for it in threads:
            it.join()
        self.assertEqual(said, [None] * 4)

    @unittest.skipUnless(HAS_OWN_LOCKS, "interpreters have locks of their own from Python 3.12 on")
    def test_those_with_locks_of_their_own(self):
        for it in self.create(2, with_own_lock=True):
            self.assertIn("range_sets._core does not support loading in subinterpreters", run(it, "import range_sets"))


@unittest.skipUnless(sysconfig.get_config_var("Py_GIL_DISABLED"), "this Python has the lock")
class WithoutTheLock(unittest.TestCase):
    def test_the_package_takes_it_back(self):
        import range_sets

        self.assertTrue(range_sets and sys._is_gil_enabled())


if __name__ == "__main__":
    unittest.main()
