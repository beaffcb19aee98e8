#!/usr/bin/env python3
"""Whether the pages are true of the tree: links lead somewhere, files and names that a page gives are there, a word of the
model is defined and has one meaning in names (words.py), what CALLING and PROVED quote of a source stands there, what there is to read for the claim has as many
lines as PROVED says, each folder has the lines that ARCHITECTURE gives, each rule of RULES is where it says (rules.py), each public call stands
in CALLING or PROMISES, or on the page of its language, CALLS is what tools/calls.py writes, with a word for each hole, each package has the
version of CHANGELOG, and no commit names a path of a machine in its message. Each check of a text has to find a fault on a
made-up page. And which mutants a change has tried again, by the rows of record_rows.py, and whether the text of each mutant of
Rust and C by hand stands once.

    tests/pages.py

Its last line is 'N passed, M failed'. What fails is named with its page.
"""

import re
import subprocess
import sys
import tempfile
from pathlib import Path

ROOT = Path(__file__).resolve().parent.parent
sys.path.append(str(ROOT / "tools"))

import c_mutants  # noqa: E402
import calls as calls_by_language  # noqa: E402
import folders  # noqa: E402
import record_rows  # noqa: E402
import rules  # noqa: E402
import rust_mutants  # noqa: E402
import words as model_words  # noqa: E402

# The scripts with mutants of what is written by hand, the files that a mutant may be of, and what stands before those that it names.
MUTANTS = {
    "c_mutants.py": (c_mutants, c_mutants.SOURCES, ""),
    "rust_mutants.py": (rust_mutants, [*(ROOT / "rust/src").rglob("*.rs")], "src/"),
}
# The last commit after which messages are looked at, since older ones can't change; and a path from the top of a machine.
LOOKED_AT_AFTER = "e2d4ae28812c838a05c2da4608fb5749741a8887"
OF_MACHINE = re.compile(r"(?<![\w./:*)\]}])(?:~|/[\w.-]+|[A-Z]:\\[\w.-]+)[/\\][\w.-]+")
FENCED = re.compile(r"^```.*?^```", re.M | re.S)
LINK = re.compile(r"\]\(([^)\s]+)\)")
FILE = re.compile(r"[\w./-]*\w\.(?:rt|antt|py|sh|rs|c|h|hpp)\b")
NAME = re.compile(r"[A-Za-z]\w*")
# A table with its head, and a prefix of names in code.
TABLE = re.compile(r"^[^\n]*\|[^\n]*\n[-:| ]+\n(?:[^\n]*\|[^\n]*\n)+", re.M)
PREFIX = re.compile(r"`(\w+_)`")
# What PROVED has one read for its claim: words, the file that defines them, how many lines that is; and all together.
READING = re.compile(r"^(`.*`)\|([^\s|]+)\|(\d+)$", re.M)
READ = re.compile(r"(\d+) lines with their comments")
# The words of std on which those lines stand, and what brings such words into a file.
STOOD_ON = re.compile(r"^They use (\d+) words of std: (.*)\.$", re.M)
STD = re.compile(r"\buse Rattle\.std[\w.]*\.\{([^}]*)\}")
MOST_TO_READ = 250
# The crates whose public calls a page has to have.
PROVED = ("range_merge", "range_entry", "range_collections", "range_list", "range_chunks", "range_map", "range_tracker", "range_chunked_tracker", "range_calc_answers", "range_track_answers")
# What a crate exports; what declares a call in Rattle: the type or trait that it belongs to, if any, and its name.
EXPORTED = re.compile(r"^pub use [^;]*;", re.M)
BLOCK = re.compile(r"^(?:impl\b(?P<impl>[^{;]*)\{|pub trait (?P<trait>\w+))|^(?P<indent> *)(?P<pub>pub )?(?:const )?fn (?P<name>\w+)", re.M)
# What declares one in C, by one of the four types; those of maps by their whole name.
C_CALL = re.compile(r"\b(?:range_set_(?:i64_)?|(?=range_map_i64_))(\w+)\(")
# The same of Python's classes and functions.
PYTHON_CALL = re.compile(r"^(?:    )?def ([a-z]\w*)", re.M)
# The newest version in CHANGELOG, where each package has it, and how.
NEWEST = re.compile(r"^## (\d+\.\d+\.\d+) ", re.M)
VERSIONED = ("c/Makefile", "c/include/range_set.h", "python/pyproject.toml", "python/src/range_sets/__init__.py", "rust/Cargo.toml")
VERSION = re.compile(r'^(?:(?:__version__|version|VERSION) = |#define RANGE_SET_VERSION )"?(\d+\.\d+\.\d+)"?$', re.M)
# What stands in code on a page and is no name of the sources: variables, and words of a clause.
PLAIN = {"a", "b", "d", "e", "i", "l", "n", "w", "x", "y", "N", "M", "length", "of"}


def texts(paths, ending):
    """The texts of the files of the crates with this ending."""
    return [(ROOT / it).read_text(encoding="utf-8") for it in paths if it.startswith("crates/") and it.endswith(ending)]


def names_beyond_the_crates(paths):
    """The names that stand in other languages: in the sources and tests of each package."""
    endings = (".rs", ".c", ".h", ".cpp", ".hpp", ".py", ".sh")
    found = (ROOT / it for it in paths if it.startswith(("rust/", "c/", "python/", "tests/")) and it.endswith(endings))
    return set(NAME.findall("\n".join(it.read_text(encoding="utf-8") for it in found)))


def prose(page):
    """The page without its blocks of code."""
    return FENCED.sub("", page.read_text(encoding="utf-8"))


def anchor(heading):
    """The anchor by which a link names a heading."""
    plain = re.sub(r"[^\w\- ]", "", heading.lstrip("#").strip().lower())
    return plain.replace(" ", "-")


def anchors(page):
    return {anchor(it) for it in prose(page).splitlines() if it.startswith("#")}


def wrong_links(page):
    for link in LINK.findall(prose(page)):
        target, _, name = link.partition("#")
        file = (page.parent / target).resolve() if target else page
        if "://" in link:
            continue
        if not file.exists() or (name and name not in anchors(file)):
            yield f"there is no {link}"


def wrong_files(page, paths):
    """Files that the page names, by the end of their path, and that are not there."""
    for file in sorted(set(FILE.findall(prose(page)))):
        if not any(path == file or path.endswith("/" + file.lstrip("./")) for path in paths):
            yield f"there is no file {file}"


def wrong_names(page, words):
    """Names in code of the page that no source has."""
    for code in re.findall(r"`([^`]+)`", prose(page)):
        if re.search(r"[\[\]{}$^()<>=/\\|&]|\.\.", code):
            continue
        for name in NAME.findall(code):
            if name not in words and name not in PLAIN and not Path(ROOT / "crates" / name).exists():
                yield f"no source has the name {name}, of `{code}`"


def undefined_words(page, specs):
    """Words that the model lists and no definition has."""
    for line in prose(page).splitlines():
        if not line.startswith("`") or "|" not in line:
            continue
        for code in re.findall(r"`([^`]+)`", line.split("|")[0]):
            word = NAME.match(code)
            if word and word[0] not in specs:
                yield f"no definition has the word {word[0]}"


def wrong_quotes(page, language, sources, quoted=r"ensures|record|struct|ghost is_"):
    """What the page quotes of Rattle otherwise than it stands in its source: contracts and definitions, or what `quoted` finds."""
    for block in re.findall(rf"^```{language}\n(.*?)^```", page.read_text(encoding="utf-8"), re.M | re.S):
        for part in re.split(r"\n\n+", block.strip("\n")):
            if re.search(quoted, part) and not any(part in text for text in sources):
                yield f"no source has the quoted lines that begin with {part.splitlines()[0]}"


def definition(text, word):
    """The lines that define the word: those between two blank ones, with the comment above it."""
    declares = re.compile(rf"^ *(?:\w+ )?(?:pub (?:record |data |enum |struct )?|ghost |fn ){word}\b", re.M)
    return next((it.splitlines() for it in re.split(r"\n\n+", text) if declares.search(it)), [])


def wrong_readings(page):
    """Numbers of lines to read that the page gives otherwise than they are, and too many of them."""
    total = 0
    for words, file, lines in READING.findall(page.read_text(encoding="utf-8")):
        text = (ROOT / "crates" / file).read_text(encoding="utf-8")
        found = [definition(text, it) for it in re.findall(r"`(\w+)`", words)]
        if not all(found):
            yield f"{file} doesn't define each of {words}"
        if sum(map(len, found)) != int(lines):
            yield f"{words} in {file} have {sum(map(len, found))} lines"
        total += int(lines)
    if [int(it) for it in READ.findall(prose(page))] != [total] or total > MOST_TO_READ:
        yield f"there are {total} lines to read for the headline"


def words_of_std(page):
    """The words of std in the lines that PROVED has one read."""
    found = set()
    for words, file, _ in READING.findall(page.read_text(encoding="utf-8")):
        text = (ROOT / "crates" / file).read_text(encoding="utf-8")
        lines = "\n".join(line for it in re.findall(r"`(\w+)`", words) for line in definition(text, it))
        tokens = set(re.findall(r"\[\]|[^\s()\[\]{},;.]+", re.sub(r"(?:--|//).*", "", lines)))
        for name in re.split(r",\s*", ", ".join(STD.findall(text))):
            word, _, other = name.partition(" as ")
            if (other or word).strip("◌") in tokens:
                found.add(word.strip("◌"))
    return found


def wrong_words_of_std(page):
    """Words of std on which the lines to read for the headline stand, and that the page doesn't name, or others."""
    for number, named in STOOD_ON.findall(page.read_text(encoding="utf-8")):
        named, used = set(re.findall(r"`([^`]+)`", named)), words_of_std(page)
        if named != used or int(number) != len(used):
            yield f"the headline stands on {len(used)} words of std: wrong are {sorted(named ^ used)}"
        return
    yield "the words of std on which the headline stands aren't named"


def texts_amiss(script, sources, before):
    """The mutants whose text doesn't stand once in the files that they name."""
    texts = {path: path.read_text(encoding="utf-8") for path in sources}
    for mutant in script.MUTANTS:
        times = sum(text.count(mutant.text) for path, text in texts.items() if path.match(before + mutant.file))
        if times != 1:
            yield f"the text of '{mutant.name}' stands {times} times in {mutant.file}"


def words_in_code(pages):
    """The names in the code of the pages, in blocks and in lines."""
    text = "\n".join(it.read_text(encoding="utf-8") for it in pages)
    code = FENCED.findall(text) + re.findall(r"`([^`\n]+)`", FENCED.sub("", text))
    return set(NAME.findall("\n".join(code)))


def prefixed_words(page):
    """The names in code of the columns whose head has a prefix in code, as `chunked_`, with that prefix."""
    found = set()
    for table in TABLE.findall(prose(page)):
        head, _, *rows = ([cell.strip() for cell in line.strip("| ").split("|")] for line in table.splitlines())
        for at, prefix in ((at, PREFIX.search(cell)) for at, cell in enumerate(head)):
            cells = "".join(row[at] for row in rows if prefix and at < len(row))
            found |= {prefix[1] + name for code in re.findall(r"`([^`]+)`", cells) for name in NAME.findall(code)}
    return found


def type_of(header):
    """The type that an `impl` is of, after its parameters; none if it implements a trait."""
    depth = 0
    for at, character in enumerate("" if " for " in header else header):
        depth += (character == "<") - (character == ">")
        if not depth and character != ">" and not character.isspace():
            return NAME.match(header, at)[0]
    return None


def public_calls(text, exported):
    """The public functions of exported types and traits, and the exported ones that stand alone."""
    owner, in_trait = None, False
    for found in BLOCK.finditer(text):
        if found["impl"] is not None:
            owner, in_trait = type_of(found["impl"]), False
        elif found["trait"]:
            owner, in_trait = found["trait"], True
        elif not found["indent"]:
            owner = None
            if found["pub"] and found["name"] in exported:
                yield found["name"]
        elif owner in exported and (found["pub"] or in_trait):
            yield found["name"]


def calls_of_crate(crate, paths):
    """The public calls of a proved crate, but for its laws, which do nothing."""
    sources = texts([it for it in paths if it.startswith(f"crates/{crate}/src/") and "/laws" not in it], ".rt")
    exported = set(NAME.findall("\n".join(it for text in sources for it in EXPORTED.findall(text))))
    return {it for text in sources for it in public_calls(text, exported)}


def calls_beyond_the_crates(paths):
    """Of each other language its page, and its public calls."""
    def read(path):
        return (ROOT / path).read_text(encoding="utf-8")

    layer = [it for it in paths if re.match(r"rust/src/(?!generated|support)", it) and it.endswith(".rs")]
    rust = {name for it in layer for name in re.findall(r"^ *pub fn (\w+)", read(it), re.M)}
    ours = {it for it in C_CALL.findall(read("c/include/range_set.h")) if not re.match(r"[iu](32|64)_", it)}
    python = [f"python/src/range_sets/{it}.py" for it in ("_buffers", "_fits", "_map_tables", "_maps", "_moves", "_ranges", "_sets", "_tables", "dask")]
    yield "rust/README.md", rust
    yield "c/README.md", ours
    yield "c/CPP.md", {name for _, name in calls_by_language.of_cpp() if name.isidentifier()}
    yield "python/README.md", {name for it in python for name in PYTHON_CALL.findall(read(it))}


def wrong_versions(page):
    """Files that give a package another version than the newest one on the page."""
    newest = NEWEST.findall(page.read_text(encoding="utf-8"))[:1]
    for path in VERSIONED:
        found = VERSION.findall((ROOT / path).read_text(encoding="utf-8"))
        if found != newest:
            yield f"{path} has the version {', '.join(found)}"


def messages():
    """The messages of the commits that are looked at, by their short names; none without a history that has the last before them."""
    words = ["git", "log", "-z", "--format=%h %B", f"{LOOKED_AT_AFTER}.."]
    try:
        said = subprocess.run(words, cwd=ROOT, capture_output=True, text=True, check=True).stdout
    except (OSError, subprocess.CalledProcessError):
        return []
    return [it.partition(" ")[::2] for it in said.split("\0") if it]


def shown(commit):
    """What a commit adds, or nothing without a history that has it."""
    words = ["git", "show", "--format=", commit]
    try:
        lines = subprocess.run(words, cwd=ROOT, capture_output=True, text=True, check=True).stdout.splitlines()
    except (OSError, subprocess.CalledProcessError):
        return None
    return "".join(f"{it[1:]}\n" for it in lines if it.startswith("+"))


def wrong_commits(page, shown_by):
    """Commits that a page names and the history lacks, and code that it quotes otherwise than the one has it that it follows."""
    text = page.read_text(encoding="utf-8")
    followed = re.search(r"`git show (\w+)`", text)
    added = shown_by(followed[1]) if followed else None
    if added is None:
        return
    yield from (f"there is no commit {it}" for it in sorted(set(re.findall(r"\b(?=\w*\d)[0-9a-f]{8}\b", prose(page)))) if shown_by(it) is None)
    for block in re.findall(r"^```rust\n(.*?)^```", text, re.M | re.S):
        if block not in added:
            yield f"{followed[1]} hasn't the lines that begin with {block.splitlines()[0].strip()}"


def missing_calls(calls, words):
    """The calls that no page has. A form with a counter goes with the call that it is of."""
    for call in sorted(calls):
        if not words & {call, call.removesuffix("_counted"), f"range_set_{call}"}:
            yield f"no page has the public call {call}"


def faults_found():
    """Each fault, on a page that otherwise has none: its name, and whether its check finds it there, and only there."""
    with tempfile.TemporaryDirectory(prefix="pages-") as folder:
        root = Path(folder)
        page, other = root / "page.md", root / "other.md"
        other.write_text("three four\n", encoding="utf-8")
        (root / "src").mkdir()
        (root / "src/a.rt").write_text("fn b() {}\n", encoding="utf-8")
        row = f"{rules.HEAD}x|src/a.rt|`b`\n"
        (root / "crates/range_a/src").mkdir(parents=True)
        (root / "crates/range_a/src/b.rt").write_text("const C: usize = 7;\n", encoding="utf-8")
        limit = "`C` in range_a/src/b.rt|7|x\n"
        for name, check, good, bad in (
            ("a link to no file", lambda: wrong_links(page), "[a](page.md)\n", "[a](pages.md)\n"),
            ("a link to no heading", lambda: wrong_links(page), "# A\n[a](#a)\n", "# A\n[a](#b)\n"),
            ("a file that isn't there", lambda: wrong_files(page, ["src/a.rt"]), "a.rt\n", "a.rt, b.rt\n"),
            ("a rule with no file", lambda: rules.wrong_rows(page, root), row, row.replace("a.rt", "b.rt")),
            ("a rule with two files", lambda: rules.wrong_rows(page, root), row, row.replace("a.rt", "a.rt, src/a.rt")),
            ("a rule with nothing to look for", lambda: rules.wrong_rows(page, root), row, row.replace("`b`", "")),
            ("a rule that isn't there", lambda: rules.wrong_rows(page, root), row, row.replace("`b`", "`c`")),
            ("a rule that is there once of two", lambda: rules.wrong_rows(page, root), row, row.replace("`b`", "`b`, `c`")),
            ("a rule that stands twice", lambda: rules.wrong_rows(page, root), row, f"{row}x|src/a.rt|`b`\n"),
            ("rules below another head", lambda: rules.wrong_rows(page, root), row, f"{row}\nRule|File\n---|---\ny|src/a.rt\n"),
            ("a constant without a row", lambda: rules.wrong_limits(page, root / "crates"), limit, "\n"),
            ("a row of no constant", lambda: rules.wrong_limits(page, root / "crates"), limit, limit + limit.replace("|7|", "|8|")),
            ("a definition without a rule", lambda: rules.missing(page, rules.words_of_model(page)), f"{row}\n`b x`|\n", f"{row}\n`c x`|\n"),
            ("a call without a rule", lambda: rules.missing(page, rules.words_of_promises(page)), f"{row}\nCalls|A\n---|---\n`b`|\n", f"{row}\nCalls|A\n---|---\n`c`|\n"),
            ("a call with a condition, and no rule", lambda: rules.missing(page, rules.words_of_promises(page)), f"{row}\nCondition|A\n---|---\n|`b`\n", f"{row}\nCondition|A\n---|---\n|`c`\n"),
            ("a name that no source has", lambda: wrong_names(page, {"known"}), "`known`\n", "`unknown`\n"),
            ("a message with a path", lambda: OF_MACHINE.findall(prose(page)), "Merge branch 'a/b': 1/2 of ./c, https://d.e/f\n", "Merge branch 'a' of /home/b\n"),
            ("a message with a home", lambda: OF_MACHINE.findall(prose(page)), "~ is not, /\n", "in ~/b\n"),
            ("a commit that isn't there", lambda: wrong_commits(page, {"a0": ""}.get), "`git show a0`\n", "`git show a0`, 12345678\n"),
            ("code that a commit hasn't", lambda: wrong_commits(page, {"a0": "b\n"}.get), "`git show a0`\n```rust\nb\n```\n", "`git show a0`\n```rust\nc\n```\n"),
            ("a word without a definition", lambda: undefined_words(page, {"member"}), "`member`|says\n", "`members`|says\n"),
        ):
            found = []
            for text in (good, bad):
                page.write_text(text, encoding="utf-8")
                found.append(len(list(check())))
            yield name, found == [0, 1]
    for name, row, paths in (
        ("a folder with other numbers", "docs 99 0  pages  x", ["docs/page.png"]),
        ("a file in no folder", "docs 1 0  pages  x", ["docs/page.png", "web/a.png"]),
        ("no table of folders", "docs", []),
    ):
        good = list(folders.faults("docs 1 0  pages  x", ["docs/page.png"]))
        yield name, not good and len(list(folders.faults(row, paths))) == 1
    table = "\n## Words\n" + "".join(f"{it}|\n" for it in model_words.WORDS)
    for name, text, left, page in (
        ("a word used otherwise", "fn first_row() {}\n", "", table),
        ("a word of a side used otherwise", "fn puts_left() {}\n", "", table),
        ("a name on the list that is gone", "fn first_fit() {}\n", "row: a/first_row\n", table),
        ("a word that the model lacks", "fn put_left() {}\nfn put_right() {}\n", "", table.replace("row|", "")),
    ):
        yield name, len(list(model_words.faults([("a/src/b.rt", text)], left, page))) == 1
    calls, holes = (it.read_text(encoding="utf-8") for it in (calls_by_language.PAGE, calls_by_language.HOLES))
    for name, bad, other in (
        ("a cell with another name", calls.replace("|`print`|", "|`text`|"), holes),
        ("a hole without a word", calls.replace("`cursor`|`cursor`|`cursor`|other", "`cursor`|`cursor`|`cursor`|?", 1), holes.replace(": cursor ", ": ", 1)),
        ("a word for no hole", calls, holes.replace(" clear covered_within", " clear contains covered_within", 1)),
        ("a word that isn't explained", calls.replace("- **loop**", "- loop"), holes),
        ("a word that no hole has", calls.replace("- **loop**", "- **rare**: it is.\n- **loop**"), holes),
    ):
        yield name, len(list(calls_by_language.faults(bad, other))) == 1


def main():
    paths = sorted(folders.files())
    pages = [ROOT / it for it in paths if it.endswith(".md")]
    sources = texts(paths, ".rt")
    specs = texts([it for it in paths if "/specs/" in it], ".antt")
    defined = set(NAME.findall("\n".join(specs)))
    words = defined | set(NAME.findall("\n".join(sources)))
    beyond = words | names_beyond_the_crates(paths)
    docs = ROOT / "docs"
    checks = [(it, "links", list(wrong_links(it))) for it in pages]
    checks += [(docs / it, "files", list(wrong_files(docs / it, paths))) for it in ("PROVED.md", "PROMISES.md", "ARCHITECTURE.md", "SECURITY.md")]
    checks += [(ROOT / "CONTRIBUTING.md", "files", list(wrong_files(ROOT / "CONTRIBUTING.md", paths)))]
    checks += [(ROOT / "CONTRIBUTING.md", "commits", list(wrong_commits(ROOT / "CONTRIBUTING.md", shown)))]
    checks += [(docs / "PROMISES.md", "names", list(wrong_names(docs / "PROMISES.md", words)))]
    checks += [(docs / it, "names", list(wrong_names(docs / it, beyond))) for it in ("PROVED.md", "SECURITY.md")]
    checks += [(docs / "MODEL.md", "words", list(undefined_words(docs / "MODEL.md", defined)))]
    table = (docs / "MODEL.md").read_text(encoding="utf-8")
    checks += [(model_words.LEFT, "names", list(model_words.faults(model_words.sources(), model_words.LEFT.read_text(encoding="utf-8"), table)))]
    calling = ROOT / "crates/range_collections/CALLING.md"
    checks += [(calling, "quotes", list(wrong_quotes(calling, "rust", sources)))]
    merging = ROOT / "crates/range_merge/CALLING.md"
    checks += [(merging, "quotes", list(wrong_quotes(merging, "rust", sources, quoted="")))]
    checks += [(docs / "PROVED.md", "quotes", list(wrong_quotes(docs / "PROVED.md", "antt", specs)))]
    checks += [(docs / "PROVED.md", "lines to read", list(wrong_readings(docs / "PROVED.md")))]
    checks += [(docs / "ARCHITECTURE.md", "folders", list(folders.faults((docs / "ARCHITECTURE.md").read_text(encoding="utf-8"), paths)))]
    checks += [(docs / "PROVED.md", "words of std", list(wrong_words_of_std(docs / "PROVED.md")))]
    words_of_rules = {*rules.words_of_model(docs / "MODEL.md"), *rules.words_of_promises(docs / "PROMISES.md")}
    checks += [(docs / "ARCHITECTURE.md", "limits", list(rules.wrong_limits(docs / "ARCHITECTURE.md")))]
    checks += [(rules.PAGE, "rules", [*rules.wrong_rows(rules.PAGE), *rules.missing(rules.PAGE, words_of_rules)])]
    checks += [(ROOT / "CHANGELOG.md", "versions", list(wrong_versions(ROOT / "CHANGELOG.md")))]
    checks += [(ROOT, f"message of {name}", OF_MACHINE.findall(text)) for name, text in messages()]
    checks += [(ROOT / "tests/pages.py", name, [] if found else ["its check doesn't find it"]) for name, found in faults_found()]
    shared = [ROOT / it for it in paths if it.endswith("CALLING.md")] + [docs / "PROMISES.md", docs / "PROVED.md"]
    for crate in PROVED:
        own = [it for it in pages if it.parent == ROOT / "crates" / crate]
        found = missing_calls(calls_of_crate(crate, paths), words_in_code(shared + own))
        checks.append((ROOT / "crates" / crate, "public calls", list(found)))
    for page, calls in calls_beyond_the_crates(paths):
        prefixed = prefixed_words(ROOT / page)
        found = [f"there is no call {it}" for it in sorted(prefixed - calls)]
        found += missing_calls(calls, prefixed | words_in_code([ROOT / page]))
        checks.append((ROOT / page, "public calls", found))
    texts_of_calls = [it.read_text(encoding="utf-8") for it in (calls_by_language.PAGE, calls_by_language.HOLES)]
    checks.append((docs / "CALLS.md", "calls", list(calls_by_language.faults(*texts_of_calls))))
    checks += [(ROOT / "tests/record_rows.py", name, [] if holds else ["it doesn't hold"]) for name, holds in record_rows.rows()]
    checks += [(ROOT / "tests" / name, "texts", [*texts_amiss(*by)]) for name, by in MUTANTS.items()]
    failed = 0
    for page, what, found in checks:
        failed += bool(found)
        for it in found:
            print(f"pages: FAILED: {page.relative_to(ROOT)}, {what}: {it}")
    print(f"{len(checks) - failed} passed, {failed} failed")
    return 1 if failed else 0


if __name__ == "__main__":
    sys.exit(main())
