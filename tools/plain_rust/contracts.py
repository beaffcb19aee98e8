"""The clauses of functions, taken out of the code and written as documentation."""

import textwrap

from plain_rust.tokens import Refused, closing, stands, text_of

CLAUSES = ("requires", "ensures")
WIDTH = 92


class Clause:
    def __init__(self, kind, name, text, remarks):
        self.kind, self.name, self.text, self.remarks = kind, name, text, remarks

    def lines(self):
        title = f"{self.kind} {self.name}:" if self.name else self.kind
        remarks = [line.strip() for line in self.remarks.split("\n") if line.strip()]
        for line in remarks:
            yield from wrapped(line, "// ")
        yield from wrapped(f"{title} {self.text}", "    ")


def wrapped(line, indent):
    return textwrap.wrap(line, WIDTH, subsequent_indent=indent, break_long_words=False, break_on_hyphens=False)


def clause_at(tokens, at):
    """The clause at `at`, and the index after it."""
    body = at + 1
    name = ""
    if tokens[body].kind == "word":
        name, body = tokens[body].text, body + 1
    if tokens[body].text != "{":
        raise Refused(tokens[at].line, f"{tokens[at].text} without a clause in braces")
    end = closing(tokens, body)
    text = " ".join(text_of(tokens[body + 1 : end]).split())
    return Clause(tokens[at].text, name, text, tokens[at].lead), end + 1


def take_clauses(tokens):
    """Takes the clauses of all functions out. Gives those of each, by its `fn`."""
    taken, at, function = {}, 0, None
    while at < len(tokens):
        text = tokens[at].text
        if text == "fn":
            function = tokens[at]
        elif text in CLAUSES and tokens[at].kind == "word" and is_clause(tokens, at):
            if function is None:
                raise Refused(tokens[at].line, f"{text} of no function")
            clause, end = clause_at(tokens, at)
            taken.setdefault(function, []).append(clause)
            del tokens[at:end]
            if tokens[at].text in ("{", ";"):
                tokens[at].lead = "" if tokens[at].text == ";" else " "
            continue
        at += 1
    return taken


def is_clause(tokens, at):
    """Whether this is no field or path of that name, which nothing here has: it is refused."""
    if stands(tokens, at - 1, ".") or stands(tokens, at - 1, ":", tokens[at].text):
        raise Refused(tokens[at].line, f"{tokens[at].text} as a name")
    return True


def with_contract(lead, clauses):
    """The comments before a function, with its contract after them."""
    above, _, indent = lead.rpartition("\n")
    comments = [line for line in above.split("\n") if line.strip()]
    lines = ["# Contract", "", "```text", *(line for clause in clauses for line in clause.lines()), "```"]
    if comments and comments[-1].strip().startswith("///"):
        lines.insert(0, "")
    docs = "\n".join(f"{indent}/// {line}".rstrip() for line in lines)
    return f"{above}\n{docs}\n{indent}"
