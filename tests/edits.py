"""Reads the mutants of a crate. Those of src/NAME.rt stand one below another in mutants/NAME.edits, and after them those of
each file below src/NAME/, under a line 'source:'. So do those of a small module in lib.edits:

    mutant: new_is_never_made
    The set is refused.
    function: CRATE::MODULE::new
    old: Ok(Set { list })
    new: Err(AllocError)

    source: src/MODULE/reading.rt

    mutant: ..

A mutant has a name, a sentence that says what is wrong, and lines 'KEY: TEXT':

- function: a function of which a clause must be open with it, or several;
- old, new: pairs of a text that stands once in the file, and of what takes its place;
- file: the file of the pairs that follow, if it isn't that source;
- field: RECORD.FIELD, the field of a definition that alone refuses it, or by its number the part;
- error: what the language says of it, which refuses it before any clause does;
- add: a file more, code or a proof, and line: each line of it. So a mutant brings a function that it calls, which must be
  proved.

In must-fail/ a mutant has a file NAME.edit, without its name and always with a line 'file:', as 'rt must-fail' reads it.
"""

from dataclasses import dataclass, field
from pathlib import Path

# Where the mutants of a crate stand, and beside them the record of those that were refused.
EDITS, RECORD = ("mutants", "must-fail"), "record"
KEYS = ("function", "file", "old", "new", "field", "error", "add", "line")


class BadEdit(Exception):
    """An edit that can't be read, or not be applied."""


@dataclass
class Edit:
    """A mutant: what is wrong, the functions of which it must leave a clause open, the fields that alone refuse it, the error
    by which the language does, what replaces which stretch of each file, and the files that it adds. And its lines, and the
    file that they stand in."""

    name: str
    sentence: str = ""
    functions: list = field(default_factory=list)
    fields: list = field(default_factory=list)
    error: str = ""
    changes: dict = field(default_factory=dict)
    added: dict = field(default_factory=dict)
    lines: list = field(default_factory=list)
    file: Path = None

    def collides(self, other):
        # Of code with an error nothing else is said.
        if self.error or other.error:
            return True
        if not set(self.functions).isdisjoint(other.functions) or not set(self.added).isdisjoint(other.added):
            return True
        return any(
            start < other_end and other_start < end
            for path, changes in self.changes.items()
            for start, end, _ in changes
            for other_start, other_end, _ in other.changes.get(path, [])
        )

    def modules(self, crate):
        """The paths of the modules that it adds."""
        files = [Path(it).with_suffix("") for it in self.added if it.startswith("src/")]
        return ["::".join((crate, *it.parts[1:])) for it in files]

    def read(self, crate, path):
        """Reads the lines. Each old text stands once in its file, which is the one at the path if none is named."""
        old, adds = None, None
        for line in self.lines:
            key, _, value = line.partition(":")
            value = value.removeprefix(" ")
            if key not in KEYS:
                if self.sentence or self.functions or not line.strip():
                    raise BadEdit(f"{self.name}: it has a line that is not read: {line}")
                self.sentence = line
            elif key == "function":
                self.functions.append(value)
            elif key == "field":
                self.fields.append(value)
            elif key == "error":
                self.error = value
            elif key == "file":
                path = value
            elif key == "old":
                old = value
            elif key == "new":
                self.changes.setdefault(path, []).append((*once(self.name, crate, path, old), value))
                old = None
            elif key == "add":
                adds = value
                self.added[adds] = ""
            elif adds is None:
                raise BadEdit(f"{self.name}: a line of no file that it adds: {line}")
            else:
                self.added[adds] += value + "\n"
        if old is not None or not (self.sentence and self.functions and self.changes):
            raise BadEdit(f"{self.name}: it says not what is wrong, names no function, or changes nothing")
        return self


def once(name, crate, path, old):
    """Where in its file an old text begins and ends."""
    if not path or not old:
        raise BadEdit(f"{name}: a new text stands before its file or its old text")
    text = (crate / path).read_text(encoding="utf-8")
    if text.count(old) != 1:
        raise BadEdit(f"{name}: an old text stands in {path} {text.count(old)} times, and not once")
    start = text.index(old)
    return start, start + len(old)


def read_edits(file, crate):
    """Reads a file of mutants: those of the source of its name, and those of others that it names. It changes no path: what lies
    below mutants/ lies below src/."""
    path, found, is_open = "src/" + file.relative_to(crate / "mutants").with_suffix(".rt").as_posix(), [], False
    for line in file.read_text(encoding="utf-8").splitlines():
        if line.startswith("source: "):
            path, is_open = line.removeprefix("source: "), False
        elif line.startswith("mutant: "):
            found.append((Edit(line.removeprefix("mutant: "), file=file), path))
            is_open = True
        elif is_open and line.strip():
            found[-1][0].lines.append(line)
        elif line.strip():
            raise BadEdit(f"{file.name}: a line stands before any mutant: {line}")
    return [edit.read(crate, path) for edit, path in found]


def read_edit(file, crate):
    """Reads an edit of must-fail/."""
    lines = [line for line in file.read_text(encoding="utf-8").splitlines() if line.strip()]
    return Edit(file.stem, lines=lines, file=file).read(crate, None)


def edits_of(crate, only=""):
    """The mutants of a crate, by name."""
    found = [edit for file in sorted(crate.glob("mutants/**/*.edits")) for edit in read_edits(file, crate)]
    found += [read_edit(file, crate) for file in crate.glob("must-fail/*.edit")]
    if strays := sorted(it.name for it in crate.glob("mutants/**/*") if it.is_file() and it.suffix != ".edits" and it.name != RECORD):
        raise BadEdit(f"mutants/ has {strays[0]}, which is no file of edits")
    names = [edit.name for edit in found]
    if twice := sorted({name for name in names if names.count(name) > 1}):
        raise BadEdit(f"{twice[0]}: two mutants have this name")
    return sorted((edit for edit in found if only in edit.name), key=lambda edit: edit.name)
