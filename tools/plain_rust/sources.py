"""The sources, and the Rust that is made of each."""

from plain_rust import code, exports, ghosts, tables
from plain_rust.contracts import take_clauses
from plain_rust.items import items
from plain_rust.shaping import Shaping
from plain_rust.tokens import Refused, text_of, tokenized
from plain_rust.uses import Gone, change_uses, words_outside


class Source:
    """A file of Rattle, as `crate/path`, with its tokens without clauses and ghosts."""

    def __init__(self, file, text):
        self.file = file
        self.head, tokens = without_head(tokenized(text))
        self.words = words_outside(tokens)
        self.clauses = take_clauses(tokens)
        ghosts.drop_ghosts(tokens)
        self.exports = exports.take_exports(tokens, self.clauses)
        ghosts.change_attributes(tokens)
        ghosts.drop_bounds(tokens)
        self.tokens = tokens
        self.items = list(items(tokens, 0, len(tokens) - 1))

    def functions(self):
        return (item for item in self.items if item.kind == "fn")

    def asking(self):
        """Its functions that ask something of their callers."""
        for item in self.functions():
            if any(clause.kind == "requires" for clause in self.clauses.get(item.tokens[item.word], ())):
                yield item.name

    def laws(self):
        """Its functions without parameters, answer and code."""
        for item in self.functions():
            if [it.text for it in item.tokens[item.end - 4 : item.end]] == ["(", ")", "{", "}"]:
                yield item.name


def without_head(tokens):
    """The comment atop a file, and the tokens without it."""
    lines = tokens[0].lead.split("\n")
    head = [line for line in lines if line.startswith("//!")]
    rest = [line for line in lines if not line.startswith("//!")]
    tokens[0].lead = "\n" + "\n".join(rest).lstrip("\n")
    return head, tokens


class Known:
    """What is known of all files: the laws, the functions that ask something of their callers, and the names of all functions."""

    def __init__(self, sources):
        self.laws = {name for source in sources for name in source.laws()}
        self.asking = {name for source in sources for name in source.asking()}
        self.functions = {
            source.tokens[at + 1].text
            for source in sources
            for at in range(len(source.tokens) - 1)
            if source.tokens[at].text == "fn"
        }


def uncalled():
    """The names of items at the top of files that nothing calls: others may import them."""
    return {name.split()[1] for names in tables.UNCALLED.values() for name in names if "::" not in name}


def erased(source, known, left_out):
    """The Rust of a file, or nothing where no item stays."""
    shaping = Shaping(source.file, known.laws, left_out, source.clauses)
    tokens = shaping.shaped(source.tokens, 0, len(source.tokens) - 1) + source.tokens[-1:]
    shaping.refuse_what_is_left()
    code.drop_fields(tokens, tables.FIELDS_LEFT_OUT.get(source.file, ()))
    code.drop_hints(tokens)
    code.drop_calls(tokens, known.laws)
    code.write_else_out(tokens)
    code.change_formatters(tokens)
    traits = code.change_calls(tokens, known.functions)
    gone = Gone(known.laws | tables.LEFT_OUT_NAMES | uncalled(), source.words - words_outside(tokens), known.asking)
    exports.write_exports(tokens, source.exports)
    change_uses(tokens, source.file.split("/")[0], gone, traits)
    if not source.exports and all(item.kind == "use" and not item.is_exported() for item in items(tokens, 0, len(tokens) - 1)):
        return ""
    head = "".join(f"{line}\n" for line in source.head)
    body = text_of(tokens).strip("\n")
    return f"{head}\n{body}\n" if head else f"{body}\n"


def rust_of(texts):
    """The Rust of each file, by its name as `crate/path`, of the texts of all. Files in which nothing stays are left out."""
    known = Known(sources_of(texts, tables.LEFT_OUT))
    left_out = set(tables.LEFT_OUT)
    while True:
        written = {it.file: named(it.file, erased, it, known, left_out) for it in sources_of(texts, left_out)}
        empty = {file for file, text in written.items() if not text}
        if not empty:
            return written
        left_out |= empty


def sources_of(texts, left_out):
    return [named(file, Source, file, text) for file, text in sorted(texts.items()) if file not in left_out]


def named(file, function, *words):
    """What a function gives. What it refuses is named with the file."""
    try:
        return function(*words)
    except Refused as refused:
        raise Failed(file, refused) from refused


class Failed(Exception):
    """A form that isn't known, with its file and line."""

    def __init__(self, file, refused):
        crate, _, path = file.partition("/")
        super().__init__(f"crates/{crate}/src/{path}.rt:{refused.line}: {refused}")
