"""The build backend: what it writes, and one clear sentence for each thing that is missing."""

import importlib.util
import os
import pathlib
import subprocess
import sys
import sysconfig
import tarfile
import tempfile
import unittest
import zipfile
from unittest import mock

TREE = pathlib.Path(__file__).resolve().parent.parent
NOWHERE = pathlib.Path("/no/such/folder")
LICENSES = ("LICENSE-MIT", "LICENSE-APACHE")
SPEC = importlib.util.spec_from_file_location("backend", TREE / "backend.py")
backend = importlib.util.module_from_spec(SPEC)
SPEC.loader.exec_module(backend)


class Missing(unittest.TestCase):
    def setUp(self):
        # Nothing is chosen by who runs the tests.
        environment = mock.patch.dict(os.environ)
        environment.start()
        self.addCleanup(environment.stop)
        os.environ.pop("RANGE_SETS_LIBRARY", None)

    def refused(self, call, text):
        with self.assertRaises(SystemExit) as raised:
            call()
        self.assertEqual(str(raised.exception), text)

    def test_a_later_python(self):
        with mock.patch.dict(sys.modules, tomllib=None), mock.patch.object(sys, "version", "3.10.13 (main)"):
            self.refused(
                lambda: SPEC.loader.exec_module(importlib.util.module_from_spec(SPEC)),
                "range_sets: expected Python 3.11 or later, not 3.10.13",
            )

    def test_an_editable_install(self):
        self.refused(
            lambda: backend.build_editable(NOWHERE),
            "range_sets: an editable install isn't possible, since a part is compiled: run pip install again after each change",
        )

    def test_an_editable_install_by_pip(self):
        words = [sys.executable, "-m", "pip", "install", "--no-index", "--editable", str(TREE)]
        said = subprocess.run(words, capture_output=True, text=True, check=False)
        self.assertNotEqual(said.returncode, 0)
        self.assertIn("range_sets: an editable install isn't possible, since a part is compiled", said.stdout + said.stderr)

    def test_a_compiler(self):
        with mock.patch.dict(os.environ, CC="no-such-compiler -m64"):
            self.refused(
                lambda: backend.compiled([backend.DIST / "librange_set.a"], ".so"),
                "range_sets: the C compiler no-such-compiler is missing: install gcc, or name another in CC",
            )

    def test_the_headers_of_python(self):
        with mock.patch.object(sysconfig, "get_path", lambda name: "/no/such/folder"):
            self.refused(
                lambda: backend.compiled([backend.DIST / "librange_set.a"], ".so"),
                "range_sets: Python's header /no/such/folder/Python.h is missing: on Debian the package python3-dev brings it",
            )

    def test_cargo_on_another_machine(self):
        text = (
            "range_sets: no-such-cargo is missing, which builds the library here: install cargo 1.64 or later, " "or name another in CARGO"
        )
        for platform in ("linux-aarch64", "macosx-14.0-arm64", "win-amd64"):
            with mock.patch.object(sysconfig, "get_platform", lambda: platform), mock.patch.dict(
                os.environ, CARGO="no-such-cargo --offline"
            ):
                self.refused(lambda: backend.library(None, NOWHERE), text)

    def test_cargo_where_it_is_chosen(self):
        with mock.patch.object(backend, "built", lambda work: work / "built"):
            with mock.patch.object(sysconfig, "get_platform", lambda: "linux-x86_64"):
                proved, rust = [backend.DIST / "librange_set.a"], ["-DRANGE_SET_PLAIN", backend.C / "range_set.c", NOWHERE / "built"]
                self.assertEqual(backend.library({"library": "rust"}, NOWHERE), rust)
                self.assertEqual(backend.library(None, NOWHERE), proved)
                with mock.patch.dict(os.environ, RANGE_SETS_LIBRARY="rust"):
                    self.assertEqual(backend.library({}, NOWHERE), rust)
                    self.assertEqual(backend.library({"library": "proved"}, NOWHERE), proved)

    def test_a_crate_that_cargo_refuses(self):
        with tempfile.TemporaryDirectory() as work, mock.patch.dict(os.environ, CARGO="false"):
            self.refused(
                lambda: backend.library({"library": "rust"}, pathlib.Path(work)),
                "range_sets: cargo refused the crate in rust/; what it said stands above",
            )

    def test_a_choice(self):
        self.refused(lambda: backend.library({"library": "other"}, NOWHERE), "range_sets: the library is proved or rust, and not other")
        with mock.patch.object(sysconfig, "get_platform", lambda: "linux-aarch64"):
            self.refused(
                lambda: backend.library({"library": "proved"}, NOWHERE),
                "range_sets: there is no proved library for linux-aarch64: dist/ has that of x86-64 Linux alone",
            )

    def test_the_library(self):
        elsewhere = mock.patch.object(backend, "DIST", NOWHERE)
        with elsewhere, mock.patch.object(sysconfig, "get_platform", lambda: "linux-x86_64"):
            self.refused(
                lambda: backend.library(None, NOWHERE),
                "range_sets: the library /no/such/folder/librange_set.a is missing: build from a whole clone, "
                "or from the source distribution",
            )


class Written(unittest.TestCase):
    def setUp(self):
        folder = tempfile.TemporaryDirectory()
        self.addCleanup(folder.cleanup)
        self.folder = pathlib.Path(folder.name)

    def test_a_wheel(self):
        with mock.patch.object(backend, "compiled", lambda linked, suffix: b"compiled"):
            name = backend.build_wheel(self.folder)
        self.assertEqual(name, f"range_sets-0.4.0-{backend.tag()}.whl")
        with zipfile.ZipFile(self.folder / name) as wheel:
            self.assertIsNone(wheel.testzip())
            record = wheel.read("range_sets-0.4.0.dist-info/RECORD").decode().splitlines()
            self.assertEqual([row.split(",")[0] for row in record], wheel.namelist())
            self.assertEqual(wheel.read(f"range_sets/_core{sysconfig.get_config_var('EXT_SUFFIX')}"), b"compiled")
            for it in LICENSES:
                self.assertEqual(wheel.read(f"range_sets-0.4.0.dist-info/licenses/{it}"), (TREE.parent / it).read_bytes())

    def test_a_source_distribution(self):
        name = backend.build_sdist(self.folder)
        with tarfile.open(self.folder / name) as archive:
            names = set(archive.getnames())
            for it in LICENSES:
                self.assertEqual(archive.extractfile(f"range_sets-0.4.0/{it}").read(), (TREE.parent / it).read_bytes())
        sources = (
            "src/range_sets/_core.c",
            "src/range_sets/py.typed",
            "dist/librange_set.a",
            "c/range_set.c",
            "c/each_type.h",
            *(f"c/range_set_{it}.h" for it in ("calls", "exports", "lists", "operations", "passed_on", "texts", "buffers", "chunked")),
            *(f"c/range_map_{it}.h" for it in ("calls", "exports", "passed_on")),
            "c/include/range_set.h",
            "rust/Cargo.toml",
            "rust/src/lib.rs",
            "rust/src/generated/range_c.rs",
        )
        for it in ("pyproject.toml", "backend.py", "README.md", "PKG-INFO", *sources):
            self.assertIn(f"range_sets-0.4.0/{it}", names)


if __name__ == "__main__":
    unittest.main()
