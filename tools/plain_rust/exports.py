"""The exports for C. Rattle passes a slice to C as a pointer and a length, and an allocator, which has no size, not at all. Rust
passes both otherwise, by the platform, so they are written out. While a file is changed an export is a function like another."""

from plain_rust import tables
from plain_rust.tokens import Refused, closing, new_tokens, skipped, stands, text_of


def take_exports(tokens, clauses):
    """Makes functions of the exports, and gives their names. Their contracts are no documentation: C reads the header."""
    names, at = [], 0
    while at < len(tokens):
        if stands(tokens, at, "#", "[", "unsafe", "("):
            names.append(take_export(tokens, at, clauses))
        at += 1
    return names


def take_export(tokens, at, clauses):
    """Makes a function of the export whose attribute begins at `at`, and gives its name."""
    if not stands(tokens, at + 4, "no_mangle", ")", "]"):
        raise Refused(tokens[at].line, "an unsafe attribute other than no_mangle")
    if not stands(tokens, at + 7, "pub", "extern", '"C"', "fn"):
        raise Refused(tokens[at + 7].line, 'no_mangle before something else than pub extern "C" fn')
    name = tokens[at + 11]
    if tables.EXPORT.fullmatch(name.text) is None:
        raise Refused(name.line, f"the export {name.text} has a name of another form than proved_range_set_i64_call")
    tokens[at + 7].lead = tokens[at].lead
    del tokens[at + 8 : at + 10], tokens[at : at + 7]
    clauses.pop(tokens[at + 1], None)
    return name.text


def write_exports(tokens, names):
    """Makes exports of the functions with these names, as Rust 1.63 has them."""
    at = 0
    while at < len(tokens):
        if stands(tokens, at, "fn") and tokens[at + 1].text in names:
            write_export(tokens, at)
        at += 1


def write_export(tokens, at):
    """Makes an export of the function whose `fn` stands at `at`. It isn't proved, so its name doesn't say so."""
    name, line, end = tokens[at + 1], tokens[at].line, closing(tokens, at + 2)
    arguments = [in_c(name, kind, line) for name, kind in parameters(tokens, at + 3, end)]
    body = skipped(tokens, end + 1, {"{"})
    tokens[body + 1 : body + 1] = new_tokens("".join(f"\n    {statement}" for _, statement in arguments if statement), "\n    ", line)
    tokens[at + 3 : end] = new_tokens(", ".join(words for words, _ in arguments if words), "", line)
    name.text = tables.PLAIN + name.text.removeprefix(tables.PROVED)
    head = at - 1 if stands(tokens, at - 1, "pub") else at
    lead, tokens[head].lead = tokens[head].lead, "\n"
    tokens[at:at] = new_tokens('unsafe extern "C"', " ", line)
    tokens[head:head] = new_tokens("#[no_mangle]", lead, line)


def parameters(tokens, at, end):
    """The name and the type of each parameter between two indices."""
    while at < end:
        comma = next((i for i in range(at, end) if tokens[i].text == ","), end)
        yield tokens[at].text, text_of(tokens[at + 2 : comma]).strip()
        at = comma + 1


def in_c(name, kind, line):
    """What C passes for a parameter of a type, and the statement that makes the parameter of it."""
    if kind == "Global":
        return "", f"let {name} = Global;"
    if tables.PASSED.fullmatch(kind):
        return f"{name}: {kind}", ""
    slice_of = tables.SLICE.fullmatch(kind)
    if slice_of is None:
        raise Refused(line, f"an export with a parameter of the type {kind}")
    pointer, function = ("mut", "room_at") if slice_of[1] else ("const", "items_at")
    return f"{name}: *{pointer} {slice_of[2]}, {name}_len: usize", f"let {name} = unsafe {{ {function}({name}, {name}_len) }};"
