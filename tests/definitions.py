"""The records of the crates' definitions, the laws, and which of them or which mutant is known to notice a field: for
tests/fields.py, which says what these words mean and what else is taken as a record."""

import re
from dataclasses import dataclass, field
from itertools import accumulate

import mutants
from edits import edits_of

CRATES = mutants.ROOT / "crates"
NAME = r"[^\W\d][\w-]*"
WORD = re.compile(NAME)
# What begins a declaration of specs/ or proofs/, and a field of a record.
DECLARED = re.compile(rf"((?:pub |abbrev |unfoldable |data )*)(record )?({NAME})")
FIELD = re.compile(rf"pub ({NAME}) :")
# A function, with its contract up to the line that opens its body; a public trait; and what an impl says of a trait's method.
FUNCTION = re.compile(r"^( *)(pub(?:\(\w+\))? )?(?:const |extern \S+ )?fn (\w+)\b(.*?)^\1\{", re.M | re.S)
TRAIT = re.compile(r"^pub trait .*?^\}", re.M | re.S)
GHOST = re.compile(r"^ *ghost (?!use)\w+ ?[=:].*?;$", re.M | re.S)
CLAUSE = re.compile(r"\bensures (\w*) ?\{(.*?)(?=\bensures\b|\Z)", re.S)


# What opens and closes, or stands between, the parts of what a definition says; and one that brings a name, which others need.
MARK = re.compile(r"[({})]|→|↔|×")
BINDER = re.compile(rf"\(({NAME} )+: ")


@dataclass
class Record:
    """A record of specs/, or another definition whose parts are taken as its fields: its crate and file, what replaces which
    stretch of the file where a field is gone, and the words of a field's type."""

    crate: str
    file: str
    fields: dict = field(default_factory=dict)
    types: dict = field(default_factory=dict)

    def within(self, it):
        """Another field whose type names this one, if there is such: without this one the record means nothing."""
        return next((other for other, words in self.types.items() if other != it and it in words), None)


@dataclass(eq=False)
class Gone:
    """A field that is taken away, of a record with this name."""

    name: str
    record: Record
    field: str
    # As an edit, it adds no file.
    added = {}

    @property
    def key(self):
        return self.name, self.field

    @property
    def place(self):
        return self.record.file, *self.record.fields[self.field][:2]

    @property
    def changes(self):
        return {self.record.file: [self.record.fields[self.field]]}

    @property
    def is_part(self):
        """Whether it is none of a record, but a part by its number."""
        return self.field.isdigit()

    def __str__(self):
        return f"{self.name}.{self.field}"

    def text(self):
        """What stands there, in one line."""
        file, start, end = self.place
        return " ".join(text_of(CRATES / self.record.crate / file)[start:end].split())


def text_of(file):
    return file.read_text(encoding="utf-8")


def words_of(text):
    return set(WORD.findall(text))


def declarations(file):
    """The declarations of a file, as pairs of a name and numbered lines. Lines that are indented more belong to it."""
    found, depth = [], -1
    for number, line in enumerate(text_of(file).splitlines()):
        indent = len(line) - len(line.lstrip())
        if line.lstrip().startswith("--") and 0 <= depth < indent:
            continue
        if line.lstrip().startswith(("use ", "module ", "--")):
            depth = -1
        elif line.strip() and (depth < 0 or indent <= depth) and (at := DECLARED.match(line.strip())):
            depth = indent
            if not found or found[-1][0] != at[3]:
                found.append((at[3], []))
            found[-1][1].append((number, line))
        elif depth >= 0:
            found[-1][1].append((number, line))
    return found


def parts_of(text, start, end):
    """What replaces which stretch, so that a part of what stands there is gone: of a product each that brings no name, and of
    an equivalence each direction. Premises aren't parts."""
    start, end = end - len(text[start:end].lstrip()), start + len(text[start:end].rstrip())
    marks, depth = [], 0
    for at in MARK.finditer(text, start, end):
        depth -= at[0] in ")}"
        marks += [(at[0], at)] if depth == 0 else []
        depth += at[0] in "({"
    of = lambda mark: [at for it, at in marks if it == mark]
    if len(marks) == 2 and text[start] == "(" and marks[1][1].end() == end:
        return parts_of(text, start + 1, end - 1)
    if of("→"):
        return parts_of(text, of("→")[-1].end(), end)
    if of("↔"):
        one, other = text[start : of("↔")[0].start()], text[of("↔")[0].end() : end]
        return [(start, end, f"(({other}) → {one})"), (start, end, f"({one} → ({other}))")]
    if of("×"):
        bounds = [start, *(place for at in of("×") for place in at.span()), end]
        parts = [part for part in zip(bounds[::2], bounds[1::2]) if not BINDER.match(text[slice(*part)].strip())]
        return [it for part in parts for it in parts_of(text, *part) or [(*part, " Unit {0} ")]]
    return []


def add_fields(record, lines, starts):
    """Adds the fields that the numbered lines of a record declare, where the lines of its file start there."""
    body = next(at for at, (_, line) in enumerate(lines) if line.rstrip().endswith("where"))
    for number, line in lines[body + 1 :]:
        if at := FIELD.match(line.strip()):
            last, first = at[1], starts[number]
            record.types[last] = set()
        if record.types:
            record.fields[last] = (first, starts[number + 1], "")
            record.types[last] |= words_of(line.partition("--")[0])


def add_parts(record, name, text, start):
    """Adds the parts of a definition's equations, which stand from there to the end of the text, by their numbers."""
    equations = [*re.compile(rf"^ *{re.escape(name)}\b[^:=\n]*=(?=\s)", re.M).finditer(text, start)]
    ends = [*(at.start() for at in equations[1:]), len(text)]
    found = [it for at, end in zip(equations, ends) for it in parts_of(text, at.end(), end)]
    record.fields.update((str(number), it) for number, it in enumerate(found, 1))


class Definitions:
    """The words of specs/ and the records among them, and which records each word leads to."""

    def __init__(self):
        self.records, self.words, self.known = {}, {}, {}
        for file in sorted(CRATES.glob("*/specs/*.antt")):
            for name, lines in declarations(file):
                self.words.setdefault(name, set()).update(words_of("\n".join(line for _, line in lines)))
                record = Record(file.parts[-3], f"specs/{file.name}")
                starts = [0, *accumulate(map(len, text_of(file).splitlines(keepends=True)))]
                if lines[0][1].strip().startswith("pub record "):
                    add_fields(record, lines, starts)
                else:
                    add_parts(record, name, text_of(file)[: starts[lines[-1][0] + 1]], starts[lines[0][0]])
                if record.fields:
                    self.records.setdefault(name, []).append(record)

    def of(self, words):
        """The records that these words lead to, through other definitions."""
        found = set()
        for word in words & self.words.keys():
            if word not in self.known:
                self.known[word] = {word} & self.records.keys()
                self.known[word] |= self.of(self.words[word] - {word})
            found |= self.known[word]
        return found


@dataclass
class Law:
    """A law: its crate, its path, and each of its clauses."""

    crate: str
    path: str
    clauses: dict


def sources():
    return [(file.relative_to(CRATES).parts[0], file, text_of(file)) for file in sorted(CRATES.glob("*/src/**/*.rt"))]


def laws():
    found = []
    for crate, file, text in sources():
        path = file.relative_to(CRATES / crate / "src").with_suffix("").parts
        if path[0] == "laws":
            for at in FUNCTION.finditer(text):
                found.append(Law(crate, "::".join((*path, at[3])), dict(CLAUSE.findall(at[4]))))
    return found


def public(definitions):
    """The records of public contracts, without those that are a type's model."""
    named, models = set(), set()
    for _, _, text in sources():
        for at in FUNCTION.finditer(text):
            if at[2] == "pub ":
                named |= words_of(at[4])
        for at in TRAIT.findall(text):
            named |= words_of(at)
        for at in GHOST.findall(text):
            named |= words_of(at)
            if "ghost Value" in at:
                models |= words_of(at)
    return definitions.of(named) - models


def lemmas():
    """The texts of the lemmas, by name."""
    found = {}
    for file in CRATES.glob("*/proofs/*.antt"):
        for name, lines in declarations(file):
            found[name] = found.get(name, "") + "\n".join(line for _, line in lines)
    return found


def read_by_laws(definitions):
    """What the proofs of laws read: a record's field, and the law."""
    texts_of, found = lemmas(), {}
    for law in laws():
        answers = CRATES / law.crate / "proofs" / law.path.replace("::", "/") / "Answers.antt"
        for name, lines in declarations(answers) if answers.is_file() else ():
            contract = law.clauses.get(name.removeprefix("returns-clause-")) or "".join(law.clauses.values())
            text, seen = "\n".join(line for _, line in lines), set()
            texts = [(text, words_of(contract))]
            while texts:
                text, beside = texts.pop()
                words = words_of(text)
                for record in definitions.of(words | beside):
                    for it in set(re.findall(rf"\.({NAME})", text)):
                        found.setdefault((record, it), law.path)
                for lemma in (words & texts_of.keys()) - seen:
                    seen.add(lemma)
                    texts.append((texts_of[lemma], set()))
    return found


def named_by_mutants():
    """The fields that mutants name as refusing them, and the mutant."""
    found = {}
    for crate in sorted(CRATES.iterdir()):
        for edit in edits_of(crate):
            for it in edit.fields:
                found.setdefault(tuple(it.split(".")), edit.name)
    return found


def known(definitions):
    """What is known to notice each field: the law whose proof reads it, and else the mutant that names it."""
    by_mutants = {it: f"the mutant `{edit}`" for it, edit in named_by_mutants().items()}
    return {**by_mutants, **{it: f"the law `{law}`" for it, law in read_by_laws(definitions).items()}}


def fields_of(definitions, names):
    """The fields of the records with these names."""
    return [Gone(name, record, it) for name in names for record in definitions.records[name] for it in record.fields]
