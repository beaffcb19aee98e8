"""What passed on this machine, so that a part needn't run again while all that it reads is as it was.

The record has one file a part, in $XDG_CACHE_HOME/daleribbon or ~/.cache/daleribbon: the checksum
of the part's command, of the tools here and of the files that it reads, when it passed, and what it
counted. The run alone writes it. A part with no record, or with one that can't be read, runs.
"""

import hashlib
import json
import os
import subprocess
import tempfile
import time
from dataclasses import asdict, dataclass
from functools import cache
from pathlib import Path

ROOT = Path(__file__).resolve().parent.parent
PYENV = os.environ.get("PYENV_ROOT", os.path.expanduser("~/.pyenv"))
# What says which tools are here: Debian's packages, and those that lie before them on the path.
TOOLS = (
    "uname -srm", "dpkg-query --show", f"ls {PYENV}/versions", "rustc -vV", "cargo -V", "cc --version",
    "c++ --version", "clang --version", "node --version", "python3 -VV", "python3 -m pip freeze --all",
    "chromedriver --version",
)  # fmt: skip
# The variables that choose a tool or its flags.
CHOOSING = (
    "CC",
    "CXX",
    "CFLAGS",
    "CXXFLAGS",
    "LDFLAGS",
    "CARGO_HOME",
    "RUSTFLAGS",
    "RUSTUP_TOOLCHAIN",
    "PYTHON",
    "PYTHONPATH",
)


@dataclass
class Passed:
    """That a part passed: the sum of what it read, when, and what it counted."""

    sum: str
    when: float
    count: str


@cache
def tools():
    """What the tools say of themselves. One that is missing says nothing."""

    def said(words):
        try:
            return subprocess.run(words.split(), capture_output=True, stdin=subprocess.DEVNULL, timeout=60).stdout
        except (OSError, subprocess.SubprocessError):
            return b""

    return repr([*map(said, TOOLS), *map(os.environ.get, CHOOSING)])


def files(reads):
    """The names of the repository's files below these paths, without those that .gitignore names."""
    words = ["git", "ls-files", "-z", "--cached", "--others", "--exclude-standard", "--", *reads]
    said = subprocess.run(words, cwd=ROOT, capture_output=True, text=True, check=True).stdout
    return sorted({it for it in said.split("\0") if (ROOT / it).is_file()})


def sum_of(command, reads):
    """The sum of a command, of the tools, and of the names and contents of what it reads. None if
    that can't be read."""
    sum = hashlib.sha256(repr((command, tools())).encode())
    try:
        for it in files(reads):
            sum.update(it.encode() + b"\0" + hashlib.sha256((ROOT / it).read_bytes()).digest())
    except (OSError, subprocess.SubprocessError):
        return None
    return sum.hexdigest()


class Record:
    """The record in a folder."""

    def __init__(self, folder=None):
        cache = os.environ.get("XDG_CACHE_HOME") or os.path.expanduser("~/.cache")
        self.folder = Path(folder or cache + "/daleribbon")

    def passed(self, name):
        """What is recorded of a part, if anything is."""
        try:
            return Passed(**json.loads((self.folder / f"{name}.json").read_text(encoding="utf-8")))
        except (OSError, ValueError, TypeError):
            return None

    def has(self, name, sum):
        """Whether a part passed with this sum."""
        passed = self.passed(name)
        return sum is not None and passed is not None and passed.sum == sum

    def longest_ago(self, names):
        """Which of the parts ran longest ago."""
        return min(names, key=lambda it: self.passed(it).when)

    def write(self, name, sum, count):
        """Records that a part passed. Where that can't be written, it runs again."""
        try:
            self.folder.mkdir(parents=True, exist_ok=True)
            with tempfile.NamedTemporaryFile("w", dir=self.folder, encoding="utf-8", delete=False) as file:
                json.dump(asdict(Passed(sum, time.time(), count)), file)
            os.replace(file.name, self.folder / f"{name}.json")
        except OSError:
            pass
