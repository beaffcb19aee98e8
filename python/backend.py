"""Builds the wheel of range_sets. It needs a C compiler and Python's headers.

The compiler is CC, or else cc. On x86-64 Linux the library is that of dist/, and nothing comes from the network. Elsewhere
it is the layer in c/ over what cargo builds of the crate in rust/, which is written from the same proved source: CARGO is the
command with its options. These folders lie beside this one in the repository, or inside it in a source distribution. The config
setting `library` chooses between `proved` and `rust` on any platform, and so does RANGE_SETS_LIBRARY.
"""

import base64
import hashlib
import io
import os
import shlex
import shutil
import subprocess
import sys
import sysconfig
import tarfile
import tempfile
import zipfile
from pathlib import Path

try:
    import tomllib
except ModuleNotFoundError:
    sys.exit("range_sets: expected Python 3.11 or later, not " + sys.version.split()[0])

HERE = Path(__file__).resolve().parent
PROJECT = tomllib.loads((HERE / "pyproject.toml").read_text(encoding="utf-8"))["project"]
NAME = PROJECT["name"].replace("-", "_")
STEM = f"{NAME}-{PROJECT['version']}"
SOURCES = [it for it in sorted((HERE / "src" / NAME).iterdir()) if it.is_file()]
C, DIST, RUST = (
    next((it for it in (HERE / name, HERE.parent / name) if it.is_dir()), HERE.parent / name) for name in ("c", "dist", "rust")
)
# The layer in C, which the library of dist/ has in it: its headers, and what is compiled before what cargo builds.
HEADERS = ["include/range_set.h", *sorted(it.name for it in C.glob("*.h"))]
LAYER = "range_set.c"
LICENSES = ["LICENSE-MIT", "LICENSE-APACHE"]
# The platform of the proved library.
PROVED_FOR = "linux-x86_64"


def prepare_metadata_for_build_wheel(metadata_directory, config_settings=None):
    """Writes what a wheel says of itself, without a compiler, and answers its folder."""
    for name, data in metadata().items():
        path = Path(metadata_directory, name)
        path.parent.mkdir(parents=True, exist_ok=True)
        path.write_bytes(data)
    return f"{STEM}.dist-info"


def build_wheel(wheel_directory, config_settings=None, metadata_directory=None):
    """Writes the wheel, with the compiled module, and answers its name."""
    suffix = sysconfig.get_config_var("EXT_SUFFIX")
    files = {f"{NAME}/{it.name}": it.read_bytes() for it in SOURCES if it.suffix not in (".c", ".h")}
    with tempfile.TemporaryDirectory() as work:
        files[f"{NAME}/_core{suffix}"] = compiled(library(config_settings, Path(work)), suffix)
    files |= metadata()
    record = f"{STEM}.dist-info/RECORD"
    rows = [f"{name},sha256={digest(data)},{len(data)}\n" for name, data in files.items()]
    files[record] = "".join([*rows, f"{record},,\n"]).encode()
    wheel = f"{STEM}-{tag()}.whl"
    with zipfile.ZipFile(Path(wheel_directory, wheel), "w") as archive:
        for name, data in files.items():
            info = zipfile.ZipInfo(name, (1980, 1, 1, 0, 0, 0))
            info.external_attr = 0o644 << 16
            archive.writestr(info, data, zipfile.ZIP_DEFLATED)
    return wheel


def build_editable(wheel_directory, config_settings=None, metadata_directory=None):
    """There is none: the compiled module lies beside the others."""
    sys.exit("range_sets: an editable install isn't possible, since a part is compiled: run pip install again after each change")


def build_sdist(sdist_directory, config_settings=None):
    """Writes the source distribution, with the library in it, and answers its name."""
    files = {it: HERE / it for it in ("pyproject.toml", "backend.py", "README.md")}
    files |= {f"src/{NAME}/{it.name}": it for it in SOURCES}
    files |= {"dist/librange_set.a": DIST / "librange_set.a"} | {f"c/{it}": C / it for it in (LAYER, *HEADERS)}
    files |= {f"rust/{it.relative_to(RUST).as_posix()}": it for it in crate()}
    files |= {it: found for it in LICENSES if (found := beside(it))}
    archive = f"{STEM}.tar.gz"
    with tarfile.open(Path(sdist_directory, archive), "w:gz", format=tarfile.PAX_FORMAT) as tar:
        for name, path in sorted(files.items()):
            tar.add(path, f"{STEM}/{name}")
        info = tarfile.TarInfo(f"{STEM}/PKG-INFO")
        info.size = len(headers())
        tar.addfile(info, io.BytesIO(headers()))
    return archive


def tag():
    """The interpreter, its binary interface and the platform that the compiled module is for."""
    version = f"cp{sys.version_info.major}{sys.version_info.minor}"
    return f"{version}-{version}{sys.abiflags}-{sysconfig.get_platform().replace('-', '_').replace('.', '_')}"


def digest(data):
    return base64.urlsafe_b64encode(hashlib.sha256(data).digest()).rstrip(b"=").decode()


def beside(name):
    return next((it for it in (HERE / name, HERE.parent / name) if it.is_file()), None)


def headers():
    """The package's core metadata, with the page as its description."""
    fields = {
        "Metadata-Version": "2.1",
        "Name": PROJECT["name"],
        "Version": PROJECT["version"],
        "Summary": PROJECT["description"],
        "License": PROJECT["license"]["text"],
        "Requires-Python": PROJECT["requires-python"],
        "Description-Content-Type": "text/markdown",
    }
    lines = [f"{name}: {text}\n" for name, text in fields.items()]
    lines += [f"License-File: {it}\n" for it in LICENSES if beside(it)]
    lines += [f"Classifier: {it}\n" for it in PROJECT["classifiers"]]
    for extra, needed in PROJECT["optional-dependencies"].items():
        lines += [f"Provides-Extra: {extra}\n", *(f'Requires-Dist: {it}; extra == "{extra}"\n' for it in needed)]
    return "".join([*lines, "\n", (HERE / PROJECT["readme"]).read_text(encoding="utf-8")]).encode()


def metadata():
    wheel = f"Wheel-Version: 1.0\nGenerator: {NAME}\nRoot-Is-Purelib: false\nTag: {tag()}\n"
    files = {"METADATA": headers(), "WHEEL": wheel.encode()}
    files |= {f"licenses/{it}": found.read_bytes() for it in LICENSES if (found := beside(it))}
    return {f"{STEM}.dist-info/{name}": data for name, data in files.items()}


def crate():
    """The files of the crate that cargo needs to build it."""
    below = [it for name in ("src", "examples") for it in sorted((RUST / name).rglob("*.rs"))]
    return [*(RUST / it for it in ("Cargo.toml", "build.rs", "README.md")), *below]


def library(settings, work):
    """What the extension is linked with: the proved library, or the layer and what cargo builds in the folder `work`."""
    platform = sysconfig.get_platform()
    kind = (settings or {}).get("library") or os.environ.get("RANGE_SETS_LIBRARY")
    if kind not in (None, "proved", "rust"):
        sys.exit(f"range_sets: the library is proved or rust, and not {kind}")
    if kind == "rust" or (kind is None and platform != PROVED_FOR):
        return ["-DRANGE_SET_PLAIN", C / LAYER, built(work)]
    if platform != PROVED_FOR:
        sys.exit(f"range_sets: there is no proved library for {platform}: dist/ has that of x86-64 Linux alone")
    archive = DIST / "librange_set.a"
    if not archive.is_file():
        sys.exit(f"range_sets: the library {archive} is missing: build from a whole clone, or from the source distribution")
    return [archive]


def built(work):
    """The static library that cargo builds of a copy of the crate."""
    cargo = shlex.split(os.environ.get("CARGO", "cargo"))
    if not shutil.which(cargo[0]):
        sys.exit(f"range_sets: {cargo[0]} is missing, which builds the library here: install cargo 1.64 or later, or name another in CARGO")
    for it in crate():
        copy = work / "rust" / it.relative_to(RUST)
        copy.parent.mkdir(parents=True, exist_ok=True)
        shutil.copyfile(it, copy)
    words = [*cargo, "rustc", "--quiet", "--release", "--features", "c", "--lib", "--crate-type", "staticlib"]
    if subprocess.run(words, cwd=work / "rust", env={**os.environ, "CARGO_TARGET_DIR": str(work / "built")}).returncode:
        sys.exit("range_sets: cargo refused the crate in rust/; what it said stands above")
    return work / "built" / "release" / "librange_sets.a"


def compiled(linked, suffix):
    """The bytes of the extension module, over a library."""
    compiler, include = shlex.split(os.environ.get("CC", "cc")), sysconfig.get_path("include")
    if not shutil.which(compiler[0]):
        sys.exit(f"range_sets: the C compiler {compiler[0]} is missing: install gcc, or name another in CC")
    if not Path(include, "Python.h").is_file():
        sys.exit(f"range_sets: Python's header {include}/Python.h is missing: on Debian the package python3-dev brings it")
    with tempfile.TemporaryDirectory() as work:
        module = Path(work, f"_core{suffix}")
        shared = ["-bundle", "-undefined", "dynamic_lookup"] if sys.platform == "darwin" else ["-shared", "-Wl,--exclude-libs,ALL"]
        flags = ["-std=c99", "-O2", "-DNDEBUG", "-fPIC", "-fvisibility=hidden", *shared]
        sources = [it for it in SOURCES if it.suffix == ".c"]
        words = [*compiler, *flags, f"-I{include}", f"-I{C / 'include'}", *sources, *linked, "-o", module]
        if subprocess.run(words).returncode:
            sys.exit("range_sets: the C compiler refused the extension; what it said stands above")
        return module.read_bytes()
