"""What a file imports."""

from plain_rust import tables
from plain_rust.tokens import Refused, new_tokens, stands


def paths_of(tokens, at, front=()):
    """The paths of the tree of a `use` from `at` on, and the index after it."""
    path = list(front)
    while True:
        if tokens[at].text == "{":
            paths, at = [], at + 1
            while tokens[at].text != "}":
                more, at = paths_of(tokens, at, path)
                paths += more
                if tokens[at].text == ",":
                    at += 1
            return paths, at + 1
        if tokens[at].kind != "word":
            raise Refused(tokens[at].line, f"{tokens[at].text} in a use")
        path.append(tokens[at].text)
        at += 1
        if not stands(tokens, at, ":", ":"):
            if tokens[at].text not in (",", "}", ";"):
                raise Refused(tokens[at].line, f"{tokens[at].text} in a use")
            return [tuple(path)], at
        at += 2


def words_outside(tokens):
    """The words that stand outside of `use` lines."""
    words, at = set(), 0
    while at < len(tokens):
        if tokens[at].text == "use" and tokens[at].kind == "word":
            while tokens[at].text != ";":
                at += 1
        elif tokens[at].kind == "word":
            words.add(tokens[at].text)
        at += 1
    return words


def moved(path, crate, line):
    """Where a path leads in Rust."""
    if path[-1] in tables.BY_SUPPORT or path in tables.MOVED:
        return (*tables.SUPPORT, path[-1])
    if path[0] == "crate":
        return (*tables.ROOT, crate, *path[1:])
    if path[0] in tables.CRATES:
        return (*tables.ROOT, *path)
    if path[0] == "std" and path[1] in tables.CORE:
        return ("core", *path[1:])
    if path[0] in ("std", "smallvec"):
        raise Refused(line, f"{'::'.join(path)} isn't known")
    return path


def use_lines(paths, visibility, hidden):
    """`use` lines, one for all names of a module that are seen by the same."""
    modules = {}
    for *module, name in paths:
        seen = "pub(crate) " if name in hidden and visibility else visibility
        modules.setdefault((seen, *module), []).append(name)
    for (seen, *module), names in modules.items():
        tail = names[0] if len(names) == 1 else "{" + ", ".join(sorted(names)) + "}"
        yield f"{seen}use {'::'.join((*module, tail))};"


def start_of(tokens, at):
    """Where the visibility of the `use` at `at` begins, and its text."""
    if stands(tokens, at - 1, "pub"):
        return at - 1, "pub "
    if stands(tokens, at - 1, ")") and stands(tokens, at - 4, "pub"):
        return at - 4, "pub(crate) "
    return at, ""


class Gone:
    """Names that no file has any more, names that this file had for proofs alone, and names that the crate alone sees."""

    def __init__(self, everywhere, here, hidden):
        self.everywhere, self.here, self.hidden = everywhere, here, hidden


def change_uses(tokens, crate, gone, traits):
    """Leaves out what is gone, and leads the other paths to where their names are in Rust. What a file imports for itself stands in
    one place, with the words that need no `use` in Rattle and with `traits`."""
    own, first, at = [], None, 0
    while at < len(tokens):
        if tokens[at].text != "use" or tokens[at].kind != "word":
            refuse_path(tokens, at)
            at += 1
            continue
        line, (paths, end) = tokens[at].line, paths_of(tokens, at + 1)
        start, visibility = start_of(tokens, at)
        paths = [it for it in paths if it not in tables.GHOSTLY and it[-1] not in gone.everywhere]
        lines = ()
        if visibility:
            lines = use_lines([moved(it, crate, line) for it in paths], visibility, gone.hidden)
        else:
            own += [moved(it, crate, line) for it in paths if it[-1] not in gone.here]
            first = start if first is None else first
        put = new_tokens("\n".join(lines), tokens[start].lead, line)
        tokens[start : end + 1] = put
        at = start + len(put)
    names = {path[-1] for path in own}
    used = words_outside(tokens)
    own += [(*tables.SUPPORT, name) for name in {*traits, *(used & set(tables.PRELUDE))} - names]
    first = first or 0
    tokens[first:first] = new_tokens("\n".join(use_lines(sorted(own), "", ())), "\n\n", tokens[first].line)


def refuse_path(tokens, at):
    roots = ("crate", "std", "smallvec", *tables.CRATES)
    if tokens[at].kind == "word" and tokens[at].text in roots and stands(tokens, at + 1, ":", ":"):
        raise Refused(tokens[at].line, f"a path from {tokens[at].text} outside of a use")
