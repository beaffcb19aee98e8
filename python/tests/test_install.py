"""What was installed: outside of the tree, whole, and for this interpreter."""

import importlib.metadata
import pathlib
import subprocess
import sys
import sysconfig
import unittest

import range_sets


class Installed(unittest.TestCase):
    def setUp(self):
        self.distribution = importlib.metadata.distribution("range-sets")
        self.names = {str(it) for it in self.distribution.files}

    def test_it_is_not_the_tree(self):
        tree = pathlib.Path(__file__).resolve().parent.parent
        self.assertNotIn(tree, pathlib.Path(range_sets.__file__).resolve().parents)

    def test_the_version_is_that_of_the_metadata(self):
        self.assertEqual(range_sets.__version__, self.distribution.version)

    def test_the_files(self):
        for name in ("py.typed", "_core.pyi", "dask.py", f"_core{sysconfig.get_config_var('EXT_SUFFIX')}"):
            self.assertIn(f"range_sets/{name}", self.names)
        for it in self.distribution.files:
            if it.hash:
                self.assertTrue(it.locate().is_file(), it)

    def test_the_metadata(self):
        metadata = self.distribution.metadata
        self.assertEqual(
            (metadata["Name"], metadata["License"], metadata["Requires-Python"]), ("range-sets", "MIT OR Apache-2.0", ">=3.11")
        )
        self.assertEqual(self.distribution.requires, ['numpy; extra == "numpy"', 'dask[distributed]; extra == "dask"'])
        self.assertIn("Typing :: Typed", metadata.get_all("Classifier"))
        licenses = metadata.get_all("License-File")
        self.assertEqual(licenses, ["LICENSE-MIT", "LICENSE-APACHE"])
        for it in licenses:
            self.assertIn(f"range_sets-{self.distribution.version}.dist-info/licenses/{it}", self.names)

    def test_the_tag(self):
        version = f"cp{sys.version_info.major}{sys.version_info.minor}"
        platform = sysconfig.get_platform().replace("-", "_").replace(".", "_")
        wheel = self.distribution.read_text("WHEEL").splitlines()
        self.assertIn(f"Tag: {version}-{version}{sys.abiflags}-{platform}", wheel)
        self.assertIn("Root-Is-Purelib: false", wheel)

    def test_every_public_name_is_there(self):
        for name in range_sets.__all__:
            self.assertTrue(hasattr(range_sets, name), name)

    def test_an_import_reads_no_module_that_only_types_or_pickles_need(self):
        folder = str(pathlib.Path(range_sets.__file__).parent.parent)
        code = "import sys; sys.path.append(sys.argv[1]); import range_sets; print(*sys.modules)"
        # Without `site`, which may import any of them.
        run = subprocess.run([sys.executable, "-I", "-S", "-c", code, folder], capture_output=True, text=True, check=True)
        modules = run.stdout.split()
        self.assertIn("range_sets", modules)
        for name in ("typing", "enum", "re", "contextlib", "copy", "pickle", "numpy", "pandas"):
            self.assertNotIn(name, modules)


if __name__ == "__main__":
    unittest.main()
