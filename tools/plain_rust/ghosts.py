"""What only proofs have a use for: ghosts, attributes and bounds. Each function takes one of them out of a file's tokens."""

from plain_rust import tables
from plain_rust.items import Item
from plain_rust.tokens import OPENING, Refused, closing, closing_angle, new_tokens, skipped, stands, text_of


def drop_ghosts(tokens):
    """`ghost use ..;`, `ghost name: {..};`, `ghost name = {..};`, and fields."""
    at = 0
    while at < len(tokens):
        if tokens[at].text != "ghost" or tokens[at].kind != "word":
            at += 1
        elif stands(tokens, at - 1, "pub"):
            at = drop_ghost_field(tokens, at - 1)
        elif tokens[at + 2].text == ":" and tokens[at + 3].text in OPENING and tokens[closing(tokens, at + 3) + 1].text in (",", "}"):
            at = drop_ghost_field(tokens, at)
        elif tokens[at + 1].text == "use" or tokens[at + 2].text in (":", "="):
            del tokens[at : skipped(tokens, at, {";"}) + 1]
        else:
            raise Refused(tokens[at].line, f"a ghost that is none of use, name: and name =: {tokens[at + 1].text}")


def drop_ghost_field(tokens, at):
    """A field of a struct. It guards the others, so those are private to the crate here."""
    if tokens[at].text == "pub" and tokens[at + 3].text != ":":
        raise Refused(tokens[at].line, "a public ghost that is no field")
    opening = at
    while tokens[opening].text != "{":
        opening -= 1
    for token in tokens[opening:at]:
        if token.text == "pub":
            token.text = "pub(crate)"
    line = tokens[at].line
    del tokens[at : skipped_field(tokens, at)]
    if tokens[at].text not in ("}", "ghost"):
        raise Refused(line, "a ghost before other fields")
    return at


def skipped_field(tokens, at):
    """The index after the field at `at`."""
    while tokens[at].text not in (",", "}"):
        at = closing(tokens, at) + 1 if tokens[at].text in OPENING else at + 1
    return at + 1 if tokens[at].text == "," else at


def change_attributes(tokens):
    """Removes those of proofs, takes `Drop` out of derives, writes a `derive_where` out, and has rustc inline some functions."""
    at = 0
    while at < len(tokens):
        inner = stands(tokens, at, "#", "!", "[")
        if not (inner or stands(tokens, at, "#", "[")):
            at += 1
            continue
        opening = at + 2 if inner else at + 1
        end = closing(tokens, opening)
        name = tokens[opening + 1].text
        if name in tables.PROOF_ATTRIBUTES:
            remove_attribute(tokens, at, end)
        elif name == "derive":
            at = change_derive(tokens, at, end)
        elif name == "derive_where":
            write_copy_out(tokens, at, end)
        elif name in tables.ATTRIBUTES and not inner:
            if name == "inline" and function_after(tokens, end) in tables.INLINED:
                tokens[opening + 2 : end] = new_tokens("(always)", "", tokens[at].line)
            at = closing(tokens, opening) + 1
        else:
            raise Refused(tokens[at].line, f"the attribute {name} isn't known")


def function_after(tokens, end):
    """The name of the function that an attribute before it is for, which ends at `end`, or None."""
    at = end + 1
    while tokens[at].text in ("pub", "(", "crate", "super", ")"):
        at += 1
    return tokens[at + 1].text if tokens[at].text == "fn" else None


def remove_attribute(tokens, at, end):
    tokens[end + 1].lead = tokens[at].lead
    del tokens[at : end + 1]


def change_derive(tokens, at, end):
    names = [token.text for token in tokens[at + 4 : end - 1] if token.text != ","]
    kept = [name for name in names if name != "Drop"]
    for name in kept:
        if name not in tables.DERIVES:
            raise Refused(tokens[at].line, f"a derive of {name} isn't known")
    if not kept:
        remove_attribute(tokens, at, end)
        return at
    put = new_tokens(f"#[derive({', '.join(kept)})]", tokens[at].lead, tokens[at].line)
    tokens[at : end + 1] = put
    return at + len(put)


def write_copy_out(tokens, at, end):
    """`derive_where(Clone, Copy)`: no parameter need be so."""
    if [token.text for token in tokens[at + 4 : end - 1]] != ["Clone", ",", "Copy"]:
        raise Refused(tokens[at].line, "a derive_where of others than Clone and Copy")
    struct = Item(tokens, at)
    if tokens[struct.word + 2].text != "<":
        raise Refused(tokens[at].line, "a derive_where of a type without parameters")
    of = text_of(tokens[struct.word + 2 : closing_angle(tokens, struct.word + 2) + 1])
    impls = (
        f"impl{of} Clone for {struct.name}{of} {{ #[inline(always)] fn clone(&self) -> Self {{ *self }} }}\n\n"
        f"impl{of} Copy for {struct.name}{of} {{}}"
    )
    tokens[struct.end : struct.end] = new_tokens(impls, "\n\n", tokens[at].line)
    remove_attribute(tokens, at, end)


def drop_bounds(tokens):
    """The bounds `Drop` and `MadeWith<Global>`: any type of Rust is dropped, and no list here has blank items."""
    at = 0
    while at < len(tokens):
        if tokens[at].text == "Drop":
            end = at + 1
        elif stands(tokens, at, "MadeWith", "<", "Global", ">"):
            end = at + 4
        else:
            at += 1
            continue
        if is_left_out_impl(tokens, end):
            at = end
            continue
        at = drop_bound(tokens, at, end)


def is_left_out_impl(tokens, end):
    return tokens[end].text == "for"


def drop_bound(tokens, at, end):
    """Drops the bound from `at` up to `end`, and gives the index where it stood."""
    before, after = tokens[at - 1].text, tokens[end].text
    if before == "+":
        del tokens[at - 1 : end]
        return at - 1
    if before != ":":
        raise Refused(tokens[at].line, f"{tokens[at].text} as something else than a bound")
    if after == "+":
        tokens[end + 1].lead = " "
        del tokens[at : end + 1]
        return at
    where = tokens[at - 3].text == "where"
    if not where:
        del tokens[at - 1 : end]
        return at - 1
    last = end + 1 if after == "," else end
    if tokens[last].text in ("{", ";"):
        del tokens[at - 3 : last]
        return at - 3
    tokens[last].lead = tokens[at - 2].lead
    del tokens[at - 2 : last]
    return at - 2
