"""What is done to the items of a file: some are left out, and others get another visibility or their contract as documentation."""

import re

from plain_rust import tables
from plain_rust.contracts import with_contract
from plain_rust.items import items
from plain_rust.tokens import Refused, closing_angle, new_tokens, stands, text_of


class Shaping:
    """What the items of one file need: the file's name, the laws, the modules that are left out, and the clauses."""

    def __init__(self, file, laws, modules, clauses):
        self.file, self.laws, self.modules, self.clauses = file, laws, modules, clauses
        self.kept = tables.ITEMS_KEPT.get(file)
        self.wanted = set(tables.ITEMS_LEFT_OUT.get(file, ())) | set(tables.UNCALLED.get(file, ())) | (self.kept or set())
        self.hidden = set(tables.SHOWN.get(file, ()))
        self.cloned = set(tables.CLONED.get(file, ()))
        self.messages = dict(tables.MESSAGES.get(file, {}))
        self.growing = set(tables.GROWING.get(file, ()))
        self.shown = set()

    def file_of(self, module):
        crate, _, rest = self.file.partition("/")
        return f"{crate}/{module}" if rest == "lib" else f"{self.file}/{module}"

    def shaped(self, tokens, start, end, within=None):
        """The tokens of the items between two indices that stay. They stand at the top, or within another item."""
        kept = [token for item in items(tokens, start, end) for token in self.item(item, within)]
        return [one for token in kept for one in (new_tokens(token.text, token.lead, token.line) if "pub(" in token.text else [token])]

    def item(self, item, within):
        if self.is_left_out(item, within) or (within is None and self.is_not_kept(item)):
            return []
        if item.kind == "fn":
            self.document(item, within)
        if item.kind in ("fn", "struct", "mod"):
            self.show(item)
        if item.kind == "impl" and item.name.startswith("Clone for "):
            return cloning(item)
        if item.kind in ("impl", "trait"):
            return self.with_members(item)
        if item.kind == "struct" and item.name in self.cloned:
            self.cloned.remove(item.name)
            return with_clone(item)
        if item.kind == "enum" and item.name in self.growing:
            self.growing.remove(item.name)
            head = item.tokens[item.head]
            attribute = new_tokens("#[non_exhaustive]", head.lead, head.line)
            head.lead = "\n"
            return [*item.tokens[item.start : item.head], *attribute, *item.tokens[item.head : item.end]]
        return item.tokens[item.start : item.end]

    def with_members(self, item):
        tokens = item.tokens
        title = tokens[item.start : item.body]
        if item.kind == "trait" and needs_size(item):
            has_bounds = tokens[item.body - 1].text not in (item.name, ">")
            title += new_tokens("+ Sized" if has_bounds else ": Sized", " " if has_bounds else "", tokens[item.body].line)
        if item.kind == "trait" and item.name in self.messages:
            title = with_message(title, *self.messages.pop(item.name))
        members = self.shaped(tokens, item.body + 1, item.end - 1, item)
        if item.kind == "impl" and not members and not item.trait_and_type()[0]:
            return []
        return [*title, tokens[item.body], *members, tokens[item.end - 1]]

    def is_not_kept(self, item):
        """Whether others alone are written of the file."""
        if self.kept is None or item.kind in ("use", "mod"):
            return False
        self.wanted.discard(f"{item.kind} {item.name}")
        return f"{item.kind} {item.name}" not in self.kept

    def is_left_out(self, item, within):
        names = {f"{item.kind} {item.name}"}
        if within is not None:
            names.add(f"{within.name}::{item.name}")
        if item.kind == "impl":
            trait, of = item.trait_and_type()
            if trait.split("<")[0] in tables.IMPLS_LEFT_OUT:
                return True
            if not trait:
                names.add(f"impl {of}")
        if item.kind == "mod":
            return self.file_of(item.name) in self.modules
        if names & self.wanted and (self.kept is None or within is not None):
            self.wanted -= names
            return True
        return item.kind == "fn" and (item.name in tables.NOTHING or item.name in self.laws)

    def document(self, item, within):
        """Writes the contract of a public function, and hides one that asks something of its caller."""
        tokens = item.tokens
        clauses = self.clauses.get(tokens[item.word], ())
        exported = item.is_public() or (within and within.kind == "trait" and within.is_public())
        if exported and clauses:
            tokens[item.start].lead = with_contract(tokens[item.start].lead, clauses)
        if item.is_public() and any(clause.kind == "requires" for clause in clauses):
            tokens[item.head].text = "pub(crate)"
        if item.name == "clone":
            tokens[item.word + 1].text = tables.CLONE

    def show(self, item):
        """Lets the crate see a module, and what the tables name."""
        tokens = item.tokens
        if item.kind == "mod" and not item.is_exported():
            tokens[item.head].text = f"pub(crate) {tokens[item.head].text}"
        for at in range(item.word, item.end):
            name = tokens[at].text
            is_field = item.kind == "struct" and stands(tokens, at + 1, ":") and not stands(tokens, at + 2, ":")
            if name in self.hidden and (is_field or (item.kind == "fn" and at == item.word + 1)):
                token = tokens[at] if is_field else tokens[item.head]
                token.text = f"pub(crate) {token.text}"
                self.shown.add(name)

    def refuse_what_is_left(self):
        """Refuses names of the tables that the file hasn't."""
        left = sorted(self.wanted | self.hidden - self.shown | self.cloned | self.growing | set(self.messages))
        if left:
            raise Refused(1, f"the tables name what isn't there: {', '.join(left)}")


def needs_size(item):
    """Whether a trait speaks of values of its own type, which has a size in Rattle in any case."""
    tokens = item.tokens
    bounds = [token.text for token in tokens[item.word + 2 : item.body]]
    if "Sized" in bounds or "Copy" in bounds:
        return False
    own = (at for at in range(item.body, item.end) if tokens[at].text == "Self")
    return any(not stands(tokens, at + 1, ":", ":") for at in own)


def with_message(title, message, note):
    """The title of a trait, with what a compiler says where a type lacks it."""
    first = title[0]
    put = f'#[cfg_attr({tables.KNOWS_MESSAGES}, diagnostic::on_unimplemented(message = "{message}", note = "{note}"))]'
    attribute = new_tokens(put, first.lead, first.line)
    first.lead = "\n"
    return [*attribute, *title]


def with_clone(item):
    """A struct with a `Clone` that asks no more of its parameters than the struct does."""
    tokens = item.tokens
    of = text_of(tokens[item.word + 2 : closing_angle(tokens, item.word + 2) + 1])
    starts = [at for at in range(item.body + 1, item.end) if tokens[at - 1].text in ("{", ",", "pub") and stands(tokens, at + 1, ":")]
    fields = [tokens[at].text for at in starts]
    clones = ", ".join(f"{field}: Clone::clone(&self.{field})" for field in fields)
    # A field whose type is a parameter is cloned by that.
    whole = {tokens[at + 2].text for at in starts if tokens[at + 3].text in (",", "}")}
    parameters = re.sub(r":[^,<>]*", "", of)
    of = re.sub(r"\b([A-Z]\w*)(?=[,>])", lambda it: it[1] + ": Clone" if it[1] in whole else it[1], of)
    put = f"impl{of} Clone for {item.name}{parameters} {{ #[inline] fn clone(&self) -> Self {{ {item.name} {{ {clones} }} }} }}"
    return [*tokens[item.start : item.end], *new_tokens(put, "\n\n", tokens[item.start].line)]


def cloning(item):
    """A clone of a `Copy` type as Rust's. Of another type it may be refused, and Rust's has no room for that: `try_clone` stays."""
    tokens = item.tokens
    texts = [token.text for token in tokens[item.body : item.end]]
    if texts[-5:] == ["{", "*", "self", "}", "}"]:
        return tokens[item.start : item.end]
    if texts[-8:] != ["{", "Ok", "(", "*", "self", ")", "}", "}"]:
        return []
    start = next(at for at in range(item.body, item.end) if tokens[at].text == "fn")
    put = new_tokens("fn clone(&self) -> Self { *self } }", tokens[start].lead, tokens[start].line)
    return [*tokens[item.start : start], *put]
