"""The examples in docstrings, and that there is one with each public name."""

import array
import doctest
import importlib.util
import inspect
import pydoc
import unittest

import range_sets
from range_sets import _buffers

DOCUMENTED = [range_sets, *(getattr(range_sets, name) for name in range_sets.__all__)]
if importlib.util.find_spec("dask"):
    import range_sets.dask

    DOCUMENTED += [range_sets.dask, range_sets.dask.union_all, range_sets.dask.covered_by_key]
SETS_AND_MAPS = [range_sets.AnyRangeSet, range_sets.RangeSet, range_sets.MutableRangeSet, range_sets.RangeMap]
# Their methods are those of these classes too.
DOCUMENTED += sorted(
    {base for it in SETS_AND_MAPS for base in it.__mro__ if base.__module__.startswith("range_sets.")}, key=lambda it: it.__name__
)


def examples():
    """The examples of the modules, of each public name, and of each method."""
    names = {"array": array.array} | {it.__name__: it for it in DOCUMENTED}
    kinds = doctest.DocTestFinder(recurse=True), doctest.DocTestFinder(recurse=False)
    for it in DOCUMENTED:
        for test in kinds[inspect.ismodule(it)].find(it, it.__name__, module=False, globs=names):
            if test.examples:
                yield test


def load_tests(loader, tests, pattern):
    for test in examples():
        source = "".join(it.source for it in test.examples)
        wanted = ["numpy"] * ("numpy array of" in test.docstring or "import numpy" in source)
        wanted += ["pandas"] * any(it in source for it in (".to_frame()", ".to_series()", ".intervals()"))
        if all(map(importlib.util.find_spec, wanted)):
            tests.addTest(doctest.DocTestCase(test, optionflags=doctest.IGNORE_EXCEPTION_DETAIL))
    return tests


class Help(unittest.TestCase):
    def test_each_name_has_an_example(self):
        for name in range_sets.__all__:
            given = getattr(range_sets, name)
            with self.subTest(name=name):
                self.assertIn(">>>" if name != "AnyRangeSet" else "64 bits", given.__doc__)
                if inspect.isfunction(given):
                    self.assertIn("\n\nCost: ", inspect.getdoc(given))

    def test_each_method_has_an_example(self):
        for kind in SETS_AND_MAPS:
            for name, it in inspect.getmembers(kind):
                if not name.startswith("_"):
                    with self.subTest(name=f"{kind.__name__}.{name}"):
                        self.assertIn(">>>", inspect.getdoc(it))
                        if not isinstance(it, property) or name == "boundaries":
                            self.assertIn("\n\nCost: ", inspect.getdoc(it))

    def test_each_example_is_run(self):
        run = {test.name for test in examples()}
        for kind in SETS_AND_MAPS:
            for name, _ in inspect.getmembers(kind):
                if not name.startswith("_"):
                    owner = next(it for it in kind.__mro__ if name in vars(it))
                    self.assertIn(f"{owner.__name__}.{name}", run)
        for name in vars(_buffers):
            if name in range_sets.__all__:
                self.assertIn(name, run)

    def test_help_names_the_public_module(self):
        text = pydoc.plain(pydoc.render_doc(range_sets.RangeSet))
        self.assertTrue(text.startswith("Python Library Documentation: class RangeSet in module range_sets"))
        self.assertIn("covers(self, start: 'Any', end: 'Any' = Ellipsis)", text)
        for name in ("Source", "E", "OneRange", "KindLike"):
            self.assertIn(f"`{name}`", text)


if __name__ == "__main__":
    unittest.main()
