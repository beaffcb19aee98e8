"""The record of a crate's mutants: which of them a clause refused, each with a sum of all that this rests on, in
crates/NAME/mutants/record. While that stays as it is, the mutant need not be tried again.

A function is proved against the contracts of those that it calls, and never against their bodies. So the sum has

- the mutant itself, the files that it changes, whole, and the proofs of its functions;
- of the rest of the crate the specs, the lemmas, and the sources without the bodies of functions;
- of each crate below what is seen of it: of its sources, without bodies, the public items that the crate or anything seen names,
  and the private ones that these name; and the specs and lemmas that the crate or anything seen cites, of a lemma what it states;
- the paths of all these files, since each is a module and a name begins with its path;
- what crates.txt says of these crates.

Its first digits are of the mutant itself, with its files and proofs.

The first line of a record has the toolchain's logic, as 'rt version' prints it: what is false by it is so for each build of
the toolchain. A record of another logic, or with a line that can't be read, says nothing, and all its mutants are tried.
tests/mutants.py alone writes it, and only of what it saw refused.
"""

import re
import subprocess
from functools import cache
from hashlib import sha256

from built import ROOT, below, listed
from edits import RECORD

# To be raised where what a sum has changes, or what counts as refused.
RULE = 3
FIRST = re.compile(r"Mutants that a clause refused, each with the sum of what that rests on, by (?:\S+ )?(logic \w+)\.")
LINE = re.compile(r"([^\W\d]\w*) ([0-9a-f]{24})")
# How many digits of a sum are of what is the mutant's own.
OWN_DIGITS = 8
# Of what was refused before, one in this many is tried all the same.
OF = 10

# The head of a function, whether it is public, and what says nothing of what one does. The body of a const fn stays: constants
# have what it computes.
FUNCTION = re.compile(r'( *)(?:(pub )|pub\(\w+\) )?(?:unsafe )?(?:extern "\w+" )?fn \w')
SILENT = re.compile(r" *(//|#\[(inline|tactic|rattlefmt|doc|must_use|cold)\b)")
# What begins an item, and a block whose functions are as public as the trait.
ITEM = re.compile(r' *(pub(\(\w+\))? )?(unsafe )?(extern "\w+" )?((const )?fn|impl|trait|struct|enum|static|mod)\b')
OPEN = re.compile(r"(pub(\(\w+\))? )?(unsafe )?(trait |impl\b.* for )")
IMPORT, RENAMED = re.compile(r" *(ghost )?use "), re.compile(r"\S+ as \S+")
# An import that passes names on, what opens a module, and the names in it.
PASSING, OPENING, PASSED = re.compile(r"pub(\(\w+\))? use "), re.compile(r"^pub (mod|use) ", re.M), re.compile(r"\b\w+\b(?!::)")
# The line on which an item of a file begins, and one that declares something; a line of comment.
BEGINS = re.compile(r"#|pub\b|unsafe |extern |const |static |struct |enum |type |trait |impl\b|mod |fn |use |ghost |\w+!")
DECLARES = re.compile(r'(?:(pub )|pub\(\w+\) )?(?:unsafe )?(?:extern "\w+" )?(?:(?:const )?fn|const|static|struct|enum|type|trait|mod) (\w+)')
COMMENT = re.compile(r"^ *(?://|--).*\n?", re.M)
WORD, NAME = re.compile(r"[^\s(){}\[\],;.:]+"), re.compile(r"[^\W\d]\w*")
# Files of proofs that are one function's own.
OWN = ("Answers.antt", "Invariants.antt", "Proof.antt")
# What cites a module of specs or proofs, or what stands for sources there; what gives all of a crate another name; the path of a
# module, which names no item of a source; and the line that makes a file a module, which cites nothing.
CITED = re.compile(r"\b(\w+)(?:\.|::)(specs|proofs)\b((?:(?:\.|::)\w+)*)")
WHOLE = re.compile(r"\buse (?:package\.)?Rattle(?:\.(\w+))?(?!\w|\.\w)")
MODULE = re.compile(r"\bRattle\.\w+\.(?:specs|proofs)(?:\.[A-Z]\w*)+")
CHILD = re.compile(r"^(?:pub )?mod \w+\n?", re.M)


def sum_of(*parts):
    """A sum of texts, each apart from the next."""
    return sha256(b"".join(b"%d:%s" % (len(it), it) for it in (part.encode() for part in parts))).hexdigest()[:16]


def text_of(file):
    return file.read_text(encoding="utf-8")


def opens(lines, at, indent):
    """The number of the line that opens the body of the function whose head begins here, if it has one."""
    for number in range(at, len(lines)):
        line = lines[number]
        if line == indent + "{" or (line.endswith("{") and (number == at or line.startswith(indent + ")"))):
            return number
        is_past = ITEM.match(line) or not line.startswith(indent)
        if line.strip() and (is_past if number > at else line.endswith((";", "}"))):
            break
    return None


def stated(source, public=False):
    """A source file without the bodies of functions, and without what says nothing of what they do: all that another function's
    proof can see of it. What another crate's can is without the private functions, too. A function that isn't laid out as by
    rt fmt keeps its body."""
    lines, kept, at, is_open = source.split("\n"), [], 0, False
    while at < len(lines):
        line, ends = lines[at], None
        is_open = line != "}" and (is_open or bool(OPEN.match(line)))
        if (head := FUNCTION.match(line)) and (first := opens(lines, at, head[1])) is not None:
            ends = next((it for it in range(first + 1, len(lines)) if lines[it] == head[1] + "}"), None)
        if ends is None:
            kept += [] if not line.strip() or SILENT.match(line) else [line]
        else:
            kept += lines[at : first + 1] if not public or is_open or head[2] else []
            at = ends
        at += 1
    return kept


def named(sources, beside, outside):
    """Of the sources of a crate what another crate can see, by files. A public item is seen if something that is seen, or a word
    outside, names it; a private one, or one of a private module that isn't passed on, only if what is seen does, or the text
    beside it; a block of functions with its trait and type. An import alone names nothing but what it gives another name, since
    what it brings is named again where it is used."""
    is_open = opened(sources)
    items = [(path in is_open, path, item) for path, lines in sources for item in items_of(lines)]
    names = [declared(item) for _, _, item in items]
    all_names = {name for name, _ in names}
    blocks = [words_of(whose(item)) & all_names for _, _, item in items]
    words, left, seen = words_of(MODULE.sub("", beside)), set(range(len(items))), {}
    is_named = lambda name, is_public: name in words or is_public and name in outside
    is_seen = lambda at: is_named(names[at][0], names[at][1] and items[at][0]) if names[at][0] else blocks[at] <= words
    while found := {at for at in left if is_seen(at)}:
        left -= found
        words |= {word for at in found for word in given(items[at][2], outside if items[at][0] else set())}
    words |= outside
    for at in sorted({*range(len(items))} - left):
        seen.setdefault(items[at][1], []).extend(items[at][2])
    return {path: text for path, lines in seen.items() if (text := with_its_names(lines, words))}


def given(item, outside):
    """The words by which an item names others. What it passes on is named by words outside."""
    text = "\n".join(item)
    if IMPORT.match(text) or PASSING.match(text):
        return words_of(" ".join(RENAMED.findall(text))) | (words_of(text) & outside if text.startswith("pub use ") else set())
    return words_of(MODULE.sub("", text))


def opened(sources):
    """The source files of a crate whose modules others can name, and maybe a few more."""
    lines, found = dict(sources), set()
    left = {path for path in lines if path.stem in ("lib", "main")}
    while left:
        found |= left
        items = ["\n".join(item) for path in left for item in items_of(lines[path])]
        names = {it for item in items if OPENING.search(item) for it in PASSED.findall(item)}
        left = {path for path in lines if (path.parent if path.stem == "mod" else path).stem in names} - found
    return found


@cache
def words_of(text):
    """The words of a text, as the logic has them, and the names in them: `Held` is named in `&Held<T>`."""
    return frozenset((*WORD.findall(text), *NAME.findall(text)))


def declared(item):
    """The name that an item declares, if it does, and whether it is public."""
    first = next((line for line in item if not line.startswith("#")), "")
    return (at[2], bool(at[1])) if (at := DECLARES.match(first)) else (None, False)


def whose(item):
    """The trait and the type that a block of functions is of."""
    text = "\n".join(line for line in item if not line.startswith("#"))
    depth, end = 0, 0
    for end, character in enumerate(text if text.startswith("impl") else ""):
        depth += (character == "<") - (character == ">")
        if character.isspace() and not depth:
            break
    return re.split(r"\{|\bwhere\b", text[end:])[0] if text.startswith("impl") else ""


def items_of(lines):
    """The items of a file, each with the attributes above it. Imports are of all."""
    items = []
    for line in lines:
        if not items or (BEGINS.match(line) and not items[-1][-1].startswith("#[")):
            items.append([])
        items[-1].append(line)
    return items


def lemmas(proofs):
    """A file of proofs without the proofs of its lemmas: what another crate's proofs can see of it."""
    kept, hidden, dropped = [], set(), None
    for line in proofs.split("\n"):
        indent, words = len(line) - len(line.lstrip()), line.split()
        if not words or words[0].startswith("--"):
            continue
        if dropped is None or indent <= dropped:
            while words[0] in ("pub", "private"):
                words.pop(0)
            is_clause = words[0] in hidden and words[1:2] != [":"]
            dropped = indent if is_clause or words[0] == "unfolding" else None
            if words[1:2] == [":"]:
                hidden.add(words[0])
        if dropped is None:
            kept.append(line)
    return with_its_names(kept)


def with_its_names(lines, outside=None):
    """The lines, and of each import among them only the names that stand in the others; and where the words outside are known, of
    one that passes names on those that stand there."""
    imports, rest, is_open = [], [], False
    passes = lambda line: outside is not None and bool(PASSING.match(line))
    for line in lines:
        begins = bool(IMPORT.match(line)) or passes(line)
        if is_open:
            imports[-1] += line
        elif begins:
            imports.append(line)
        else:
            rest.append(line)
        is_open = (is_open or begins) and "{" in imports[-1] and "}" not in line
    words = words_of("\n".join(rest))
    for line in imports:
        path, _, given = line.strip().partition("{")
        names, those = WORD.findall(given) or WORD.findall(path)[-1:], outside if passes(line) else words
        if used := [it for it in names if it in those or it.strip("◌") in those]:
            rest.append(f"{path} {' '.join(used)}")
    return "\n".join(rest)


def files_of(crate, *parts):
    return sorted(file for part in parts for file in (crate / part).rglob("*") if file.suffix in (".rt", ".antt"))


@cache
def citations(text):
    """What a text cites: the name of a crate, or none for all; specs or proofs; and the names on the path, or none for all."""
    found = [(crate, kind, NAME.findall(path)) for crate, kind, path in CITED.findall(text)]
    return found + [(crate, kind, []) for crate in WHOLE.findall(text) for kind in ("specs", "proofs")]


class Repository:
    """What the sums of mutants have of the crates of a repository."""

    def __init__(self, root=ROOT):
        self.root = root
        self.own, self.cited = cache(self.own), cache(self.cited)

    def crate(self, name):
        return self.root / "crates" / name

    def within(self, files, read=text_of):
        """The paths of files and what is read of them."""
        return [it for file in files for it in (str(file.relative_to(self.root)), read(file))]

    def own(self, name):
        """What the proofs of a crate's functions see of it, and of the crates below."""
        crate, low = self.crate(name), tuple(below(name, self.root))
        proofs = [it for it in files_of(crate, "proofs") if it.name not in OWN]
        uses = [" ".join((it, *listed(self.root)[it])) for it in (name, *low)]
        seen = self.within(files_of(crate, "src"), lambda it: with_its_names(stated(text_of(it))))
        seen += self.within(files_of(crate, "specs"))
        lower = self.seen(low, [text_of(it) for it in files_of(crate, "src", "specs", "proofs")])
        return sum_of(*uses, *seen, *self.within(proofs), *self.within(sorted(lower), lower.get))

    def seen(self, crates, above):
        """What the texts above see of these crates, by files: of sources what they or this name, and the specs and lemmas that are
        cited so. A crate's Lib.antt passes on what it uses."""
        sources = {it: [(path, stated(text_of(path), public=True)) for path in files_of(self.crate(it), "src")] for it in crates}
        cited = {it: CHILD.sub("", text_of(it)) for crate in crates for it in self.crate(crate).glob("*/Lib.antt")}
        visible = lambda file: text_of(file) if "specs" in file.relative_to(self.root).parts else lemmas(text_of(file))
        last, seen = None, {}
        while seen != last:
            texts = [*above, *cited.values(), *seen.values()]
            while new := {file for text in texts for file in self.cited(text, crates)[0]} - {*cited}:
                cited |= {file: visible(file) for file in new}
                texts += [cited[file] for file in new]
            words = words_of(COMMENT.sub("", "\n".join(texts)))
            beside = lambda crate: COMMENT.sub("", "\n".join(it for it in texts if crate in self.cited(it, crates)[1]))
            last, seen = seen, {}
            for crate in crates:
                seen |= named(sources[crate], beside(crate), words)
        return cited | seen

    def cited(self, text, crates):
        """The files of specs and lemmas of these crates that a text cites, each with those below it; and the crates of whose sources
        it may name something, since it cites what is no such file."""
        files, of = set(), set()
        for name, kind, names in ((it, *at[1:]) for it in crates for at in citations(text) if at[0] in (it, "")):
            folder = self.crate(name) / kind
            for module in [folder.joinpath(*names[:at]) for at in range(1, len(names) + 1)] or [folder]:
                is_file = (file := module.with_suffix(".antt")).is_file()
                files |= {it for it in (file, *files_of(module, "")) if it.name not in OWN and it.is_file() and (is_file or not names)}
            of |= set() if is_file else {name}
        return files, of

    def sum(self, name, edit):
        """The sum of a mutant of a crate."""
        crate = self.crate(name)
        sources = [crate / path for path in edit.changes]
        if not all(any(declares(it, text_of(file)) for file in sources) for it in edit.functions):
            sources = files_of(crate, "src")
        proofs = [it for function in edit.functions for it in proofs_of(crate, function)]
        cut = lambda path, start, end: text_of(crate / path)[start:end]
        pairs = [it for path, made in edit.changes.items() for start, end, new in made for it in (path, cut(path, start, end), new)]
        added = [it for pair in edit.added.items() for it in pair]
        its_own = sum_of(str(RULE), *edit.functions, *pairs, *added, *self.within([*sources, *proofs]))
        return its_own[:OWN_DIGITS] + sum_of(its_own, self.own(name))

    def sums(self, name, edits):
        return {edit.name: self.sum(name, edit) for edit in edits}


def declares(function, source):
    return re.search(rf"\b(fn|const) {re.escape(function.rpartition('::')[2])}\b", source)


def proofs_of(crate, function):
    """The files of a function's own proofs. A function that calls itself has a folder with a plus in front."""
    *parts, name = function.split("::")[1:]
    at = crate.joinpath("proofs", *parts)
    return sorted(it for folder in (name, f"+{name}") for it in (at / folder).glob("*.antt"))


@cache
def logic():
    """The toolchain's logic."""
    said = subprocess.run(["rt", "version"], capture_output=True, text=True, check=True).stdout
    return re.search(r"logic \w+", said)[0]


@cache
def commit(root=ROOT):
    """The number of the commit that lies here, if it is known."""
    said = subprocess.run(["git", "rev-parse", "HEAD"], cwd=root, capture_output=True, text=True)
    return int(said.stdout, 16) if said.returncode == 0 else None


def first_line(by):
    return f"Mutants that a clause refused, each with the sum of what that rests on, by {by}."


def rows(crate):
    """The first line of a crate's record and its rows, names and sums; none where one can't be read."""
    file = crate / "mutants" / RECORD
    lines = file.read_text(encoding="utf-8", errors="replace").splitlines() if file.is_file() else [""]
    found = [LINE.fullmatch(line) for line in lines[1:]]
    if not all(found) or len({it[1] for it in found}) < len(found):
        return "", {}
    return "".join(lines[:1]), {it[1]: it[2] for it in found}


def read(crate, by):
    """What a crate's record says, if it is one of this logic: sums by name."""
    first, found = rows(crate)
    is_of = FIRST.fullmatch(first)
    return found if is_of and is_of[1] == by else {}


def write(crate, by, sums):
    """Writes the record, or takes it away where it would say nothing."""
    file = crate / "mutants" / RECORD
    if sums:
        rows = [first_line(by), *(f"{name} {it}" for name, it in sorted(sums.items()))]
        file.parent.mkdir(exist_ok=True)
        file.write_text("\n".join(rows) + "\n", encoding="utf-8")
    else:
        file.unlink(missing_ok=True)


def stages(sums, recorded, number):
    """The names of the mutants to try, in three stages, of which the last are left out first: those that aren't on record, or whose
    own edit, file or proofs changed; those under which something else changed; and of the others every tenth, or one at least, by
    the commit's number. If that isn't known, all."""
    same = sorted(name for name, it in sums.items() if recorded.get(name) == it)
    step = max(min(OF, len(same)), 1)
    tenth = [it for at, it in enumerate(same) if number is None or at % step == number % step]
    changed = sorted({*sums} - {*same})
    its_own = [it for it in changed if recorded.get(it, "")[:OWN_DIGITS] != sums[it][:OWN_DIGITS]]
    return its_own, [it for it in changed if it not in its_own], tenth


def again(sums, recorded, number):
    """The names of all mutants to try."""
    return {name for stage in stages(sums, recorded, number) for name in stage}
