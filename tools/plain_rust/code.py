"""What differs in the code of functions: calls, formatters, and forms that Rust 1.63 hasn't."""

import re

from plain_rust import tables
from plain_rust.tokens import OPENING, Refused, closing, new_tokens, skipped, stands, text_of


def drop_hints(tokens):
    """Statements that are there for a proof alone."""
    at = 0
    while at < len(tokens):
        if tables.HINT in tokens[at].lead:
            if not (tokens[at].text == "let" and tokens[at + 1].text.startswith("_")):
                raise Refused(tokens[at].line, f"'{tables.HINT}' before something else than let _name")
            del tokens[at : skipped(tokens, at, {";"}) + 1]
        else:
            at += 1


def drop_fields(tokens, names):
    """Fields that clauses alone read, after another one: where a struct is declared, and where one is made."""
    at, left, within = 0, set(names), []
    while at < len(tokens):
        text = tokens[at].text
        if text in OPENING:
            within.append(text)
        elif text in (")", "]", "}"):
            within.pop()
        if text not in names or within[-1:] != ["{"] or not stands(tokens, at + 1, ":") or stands(tokens, at + 1, ":", ":"):
            at += 1
            continue
        left.discard(text)
        start = at - 1 if stands(tokens, at - 1, "pub") else at
        if tokens[start - 1].text != ",":
            raise Refused(tokens[at].line, f"the field {text} isn't after another one")
        end = at
        while tokens[end].text not in (",", "}"):
            end = closing(tokens, end) + 1 if tokens[end].text in OPENING else end + 1
        del tokens[start - 1 : end]
        at = start - 1
    if left:
        raise Refused(1, f"the tables name what isn't there: {', '.join(sorted(left))}")


def drop_calls(tokens, laws):
    """Calls of functions that do nothing, each of which is a statement."""
    at = 0
    while at < len(tokens):
        if tokens[at].text == "use" and tokens[at].kind == "word":
            at = skipped(tokens, at, {";"})
        if not is_call_of_nothing(tokens, at, laws):
            at += 1
            continue
        start = at
        while tokens[start - 1].text not in ("{", "}", ";"):
            start -= 1
        end = skipped(tokens, at, {";"})
        if tokens[end - 1].text != ")":
            raise Refused(tokens[at].line, f"{tokens[at].text} as something else than a statement of its own")
        del tokens[start : end + 1]
        at = start


def is_call_of_nothing(tokens, at, laws):
    """Whether a law is called here, or a method that does nothing."""
    if tokens[at].kind != "word":
        return False
    if tokens[at].text in laws:
        return True
    return tokens[at].text in tables.NOTHING and tokens[at - 1].text in (".", ":") and tokens[at + 1].text == "("


def write_else_out(tokens):
    """`let Some(x) = value else { .. };`, which Rust has since 1.65, also with names in parentheses for `x`."""
    at = 0
    while at < len(tokens):
        if tokens[at].text != "else" or stands(tokens, at - 1, "}"):
            at += 1
            continue
        start = at
        while tokens[start].text not in ("let", ";", "{"):
            start -= 1
        equals = next(i for i in range(start, at + 1) if tokens[i].text in ("=", "else"))
        opening = next((i for i in range(start, equals) if tokens[i].text == "("), equals)
        names = text_of(tokens[opening + 1 : equals - 1]).strip()
        if tokens[start].text != "let" or not start + 1 < opening or tokens[equals].text != "=" or not re.fullmatch(r"\w+|\((\w+, )+\w+\)", names):
            raise Refused(tokens[at].line, "an else of another form than let Name(name) = value else { .. };")
        end = closing(tokens, at + 1)
        if tokens[end + 1].text != ";":
            raise Refused(tokens[at].line, "an else that doesn't end its statement")
        case = text_of(tokens[start + 1 : opening]).strip()
        value, block = text_of(tokens[equals + 1 : at]).strip(), text_of(tokens[at + 1 : end + 1]).strip()
        if tokens[at + 2].text == "return" and skipped(tokens, at + 2, {";"}) == end - 1:
            block = text_of(tokens[at + 2 : end - 1]).strip()
        text = f"let {names} = match {value} {{ {case}({names}) => {names}, _ => {block} }};"
        tokens[start : end + 2] = new_tokens(text, tokens[start].lead, tokens[start].line)
        at = start + 1


def change_formatters(tokens):
    """`fmt<W: fmt::Write>(.., f: &mut fmt::Formatter<W>)`: Rust's has no parameter."""
    at = 0
    while at < len(tokens):
        if stands(tokens, at, "W", ":", "fmt", ":", ":", "Write"):
            start = at - 1 if tokens[at - 1].text == "," else at
            del tokens[start : at + 6]
            if stands(tokens, start - 1, "<", ">"):
                del tokens[start - 1 : start + 1]
            at = start
        elif stands(tokens, at, "Formatter", "<", "W", ">"):
            tokens[at + 2 : at + 3] = new_tokens("'_", "", tokens[at].line)
        at += 1


def change_calls(tokens, defined):
    """Gives `clone` and the methods of `tables.RENAMED` their names. Any other method has to be one of the sources, or the same in Rust.
    Gives the traits that are used."""
    traits = set()
    for at, token in enumerate(tokens):
        if token.kind != "word":
            continue
        if token.text in tables.UNKNOWN_WORDS:
            raise Refused(token.line, f"{token.text} isn't known")
        if stands(tokens, at + 1, "!") and tokens[at + 2].text in OPENING and token.text not in tables.MACROS:
            raise Refused(token.line, f"the macro {token.text}! isn't known")
        if not stands(tokens, at - 1, ".") or not is_called(tokens, at):
            continue
        if token.text == "clone":
            token.text = tables.CLONE
        elif token.text in tables.RENAMED:
            token.text, trait = tables.RENAMED[token.text]
            traits.add(trait)
        elif token.text not in defined | tables.SAME:
            raise Refused(token.line, f"the method {token.text} isn't known")
    return traits


def is_called(tokens, at):
    return stands(tokens, at + 1, "(") or stands(tokens, at + 1, ":", ":", "<")
