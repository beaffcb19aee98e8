#!/usr/bin/env python3
"""Whether each module of rust/src/generated is its proved source less contracts, ghosts and comments.

    tests/generated.py

It shares nothing with tools/plain-rust, which writes a file for each crate, with a module for each of the crate's files.
It reads both texts by a tokenizer of its own, and compares each function, each other item and each `use` under its name,
token by token. What may differ stands in the tables below. A row is of the files that it names, or by `*` of every file.
One that nothing needs fails too.
"""

import re
import sys
from collections import Counter, defaultdict
from pathlib import Path

ROOT = Path(__file__).resolve().parent.parent
SOURCES, GENERATED = ROOT / "crates", ROOT / "rust" / "src" / "generated"
CRATES = ("range_c", "range_chunked_tracker", "range_chunks", "range_collections", "range_entry", "range_list", "range_map", "range_merge", "range_tracker")


def rows(table):
    """The rows of a table: a file, and what is said of it."""
    groups = [it.strip().split(": ", 1) for line in table.splitlines() if "//" not in line for it in line.split(" ; ") if it.strip()]
    return [(file, it) for files, said in groups for file in files.split(", ") for it in said.split(" | ")]


# What a source has → what its generated file has instead. A word in capitals stands for what ANY says.
ANY = {"NAME": r"\w+", "PATH": r"\w+(?: (?:\.|::) \w+)*", "VALUE": r"[^;{}]+", "BLOCK": r"[^{}]+", "LAW": r"(?:changes|weight)_\w+"}
INSTEAD = rows("""
    // That a value may be dropped, or made by std, needs no word in Rust.
    *: #[derive(Drop)] → | , Drop)] → )] | where T: Drop, { → { | : MadeWith<Global> + Drop →
    *: + MadeWith<Global> → | + Drop → | : Drop →
    // Calls for their clauses alone: laws, functions that do nothing, and reads.
    *: LAW::<NAME, Comparisons>(); → | PATH.known(); → | self.known_in_range(); → | R::left_items_stay(); →
    *: let _inline = PATH.capacity(); → | let _len = PATH.len(); → | let _lengths = (state.a_len(), state.b_len()); →
    *: let _length = self.len(); → | let _length = (*self).len(); →
    *: let _number = *self; → | let _character = *self; →
    // What Rust 1.63 writes otherwise: `let .. else`, an attribute, and a formatter, which hides where it writes.
    range_map/in_place: let Some(own) = key_at(steps, at) else { return Next { key, at, below: at, index: index + 1 }; }; → let own = match key_at(steps, at) { Some(own) => own, _ => { return Next { key, at, below: at, index: index + 1 } } };
    *: let PATH(NAME) = VALUE else { BLOCK; }; → let NAME = match VALUE { PATH(NAME) => NAME, _ => BLOCK, };
    *: #[unsafe(no_mangle)] → #[no_mangle] | <W: fmt::Write> → | , W: fmt::Write> → > | fmt::Formatter<W> → fmt::Formatter<'_>
    // Calls with an allocator, or later than Rust 1.63: of traits of rust/src/support.
    *: .sort( → .sort_in( | .div_ceil( → .div_up( | .ilog2( → .log2_down(
    // A clone of Rust can't fail: one that can has another name.
    range_chunks/set/making, range_map/map/copying: fn clone( → fn try_clone(
    range_collections/range_set, range_collections/range_set_range: fn clone( → fn try_clone(
    range_c/generated/chunked_i32, range_c/generated/chunked_u32, range_c/generated/chunked_i64, range_c/generated/chunked_u64: .clone() → .try_clone()
    range_c/generated/mapped_i64, range_c/generated/mapped_u64, range_chunks/set/joining, range_map/map/sets, range_map/map/union: .clone() → .try_clone()
    range_collections/view: fn clone(&self) -> Result<Self, AllocError> { Ok(*self) } → fn clone(&self) -> Self { *self }
    range_collections/view/cursor: fn clone(&self) -> Result<Self, AllocError> { Ok(*self) } → fn clone(&self) -> Self { *self }
    // An enum that may grow has to say so.
    range_collections/parse: pub enum ParseError → #[non_exhaustive] pub enum ParseError
    range_collections/parse: pub enum Expected → #[non_exhaustive] pub enum Expected
    range_tracker/track_error: pub enum TrackError → #[non_exhaustive] pub enum TrackError
    // A trait of Rust has to say that its types have a size.
    range_entry/entry_clone, range_entry/range_set_entry: : Ord { → : Ord + Sized {
    range_map/value: MapValue: Eq → MapValue: Eq + Sized ; range_merge/compare: trait Compare<K> → trait Compare<K>: Sized
    // rustc inlines these only if they say so.
    range_chunks/set/counted: #[inline] pub fn contains_counted → #[inline(always)] pub fn contains_counted
    range_collections/view/predicates: #[inline] pub fn contains_counted → #[inline(always)] pub fn contains_counted
    range_collections/view/cursor: #[inline] pub fn contains_counted → #[inline(always)] pub fn contains_counted
    range_merge/searching: #[inline] pub fn count_up_to → #[inline(always)] pub fn count_up_to
    range_list/list, range_map/places: #[inline] pub fn place_up_to → #[inline(always)] pub fn place_up_to
    range_list/searching: #[inline] pub fn up_to → #[inline(always)] pub fn up_to
    range_map/map: #[inline] pub fn get_counted → #[inline(always)] pub fn get_counted
    // A field that clauses alone read, and a derive that ADDED writes out.
    range_merge/merge_state/small_vec: , at_first: 0 → | , pub at_first: usize → ; range_merge/runs: #[derive_where(Clone, Copy)] →
""")
# Items that the generated file lacks: those in whose names these words stand. A module is left out with its file.
LEFT_OUT = rows("""
    // Ghosts, and what does nothing or drops field by field, as Rust does. IDLE says of each row with `*` that it is so.
    *: Model for | Drop for | fn known | fn known_in_range | fn left_items_stay
    // What clauses alone cite.
    range_c/mod, range_collections/mod, range_map/mod, range_merge/mod, range_tracker/mod: mod laws
    range_collections/comparisons: for Comparisons / fn made ; range_merge/compare: fn made
    // Of this the layer by hand or rust/src/support has its own: boxes, texts, clones, least values.
    range_c/mod: mod boxed ; range_chunks/mod, range_map/map: mod text ; range_collections/mod: mod json
    range_collections/text: mod chars ; range_collections/text, range_collections/range_set_range: Debug for
    range_chunks/set/making, range_collections/range_set, range_collections/range_set_range, range_map/map/copying: Clone for
    range_entry/lists, range_entry/numbers, range_entry/options, range_entry/texts: RangeSetEntry for
    range_entry/lists: fn is_empty_list | EntryClone for Vec<T> ; range_entry/texts: EntryClone for String
    range_entry/mod: mod non_zero | mod non_zero_std ; range_map/value: MapValue for T
    // Whether a compiler selects without a branch, which depends on rustc's version.
    range_merge/fast/branchless: const SELECTS
    // What nothing in Rust calls.
    range_chunks/space/fitting: impl<T: Unsigned> ChunkedSpace<T> ; range_chunks/set/ranges: fn items
    range_collections/range_set/by_view: fn contains_counted | fn contains_range_counted | fn range_at_counted | fn merge_test
    range_collections/range_set/by_view: fn split_counted | fn gaps_counted | fn ranges_within_counted | fn merge_into
    range_collections/range_set/operations, range_collections/view/operations: fn merge_new
    range_collections/range_set/operations, range_collections/range_set/values: + EntryClone, const N: usize> RangeSet<T, N>
    range_collections/range_set: mod taking ; range_collections/view: fn single ; range_list/list/reading: fn last
    range_map/map: mod building ; range_merge/merge_state/small_vec: fn new ; range_tracker/tracker: fn gaps
    // Merges in place work on lists of rust/src/support, where a hole is open, and not on those that fill it with blanks.
    range_merge/fast: mod moves ; range_merge/merge_state/small_vec: fn append_within ; range_collections/lists: fn append_both
    range_merge/in_place/builder: InPlaceBuilder<K, N> | fn puts_left | fn put | fn finish | fn put_item
    range_merge/in_place/owned: type InPlaceMergeState | InPlaceMergeState<K, N>
    range_merge/in_place/borrowed: type InPlaceMergeStateRef | InPlaceMergeStateRef<'a, K, P, N>
    range_merge/in_place/list: for SmallVec<K, N> | for &mut L | struct Slots | for Slots<'b, K> | fn set | fn put_between | fn replace_item
    range_merge/in_place/list: fn push_blanks | fn open_hole_in
""")
IDLE = re.compile(r"(?:\{(?: let Self \{ [\w :,]+ \} = self ;)? \}|;)$")
# Items that the source lacks: clones, of which COPIED says that they go field by field.
ADDED = rows("""
    range_chunks/iter, range_collections/iter, range_map/iter, range_list/items, range_map/gaps: Clone for
    range_chunks/within, range_collections/members, range_collections/questions/parts, range_merge/runs: Clone for
    range_merge/runs: Copy for
""")
FIELD = r"(\w+) : Clone :: clone \( & self \. \1 \)"
COPIED = re.compile(rf"# \[ inline [^\]]*\] fn clone \( & self \) -> Self \{{ (?:\* self|\w+ \{{(?: {FIELD}(?: ,)?)+ \}}) \}}")
# Names from rust/src/support, which is by hand: lists, boxes, the allocator, digits, merges in place, and traits of the calls above.
SUPPORT = """AllocError Box Buffer DivUp Error Global InPlaceMergeState InPlaceMergeStateRef Integer Log2Down Parts SELECTS
    SmallVec SortIn Vec append_both append_within items_at move_last_two room_at select_unpredictable""".split()
# What rustc says where a type lacks a trait: the generated file has it before the trait.
SAID = r'# \[ cfg_attr \( range_sets_messages , diagnostic :: on_unimplemented \( message = "[^"]*" , note = "[^"]*" \) \) \] '
# The file above all others.
TOP = """#![cfg_attr(not(feature = "c"), allow(dead_code))] #![allow(unused_imports, unused_variables)]
    #![allow(clippy::complexity, clippy::style)] #[cfg(feature = "c")] #[allow(unsafe_code)] pub mod range_c;"""
TOP += "".join(f"#[forbid(unsafe_code)] pub mod {crate};" for crate in CRATES[1:])

TOKEN = re.compile(
    r"""\s+|//[^\n]*|/\*.*?\*/|(b?"(?:\\.|[^"\\])*"|b?'(?:\\.[^']*|[^'\\])'|'?\w+'?|::|->|=>|\.\.=?|[-+*/%&|^!=<>]=|&&|\|\||.)""",
    re.S,
)


def tokens(text):
    """The tokens of a text without its comments, each without a blank."""
    return [it[1].replace(" ", "\u2423") for it in TOKEN.finditer(text) if it[1]]


def past(words, i):
    """The place after the token at i, or after what it opens."""
    depth = words[i] in "([{"
    while depth:
        i += 1
        depth += (words[i] in "([{") - (words[i] in ")]}")
    return i + 1


def modules(words, file):
    """The modules of a generated file, by their sources: the tokens of each, where those of another one are `mod name ;`."""
    own, i = [], 0
    while i < len(words):
        own.append(words[i])
        i += 1
        if words[i - 2 : i - 1] == ["mod"] and words[i] == "{":
            end = past(words, i)
            yield from modules(words[i + 1 : end - 1], f"{file.removesuffix('/mod')}/{own[-1]}")
            own.append(";")
            i = end
    yield file, own


def next_of(ends, words, i):
    """The place of the next of these tokens that is in no brackets."""
    while words[i] not in ends:
        i = past(words, i)
    return i


def bare(words):
    """The tokens of a source without clauses, ghosts, and attributes for proofs."""
    kept, i = [], 0
    while i < len(words):
        if words[i] in ("requires", "ensures") and "{" in words[i + 1 : i + 3]:
            i = past(words, words.index("{", i))
        elif words[i] == "#" and "tactic" in words[i + 2 : i + 4]:
            i = past(words, words.index("[", i))
        elif words[i] == "ghost":
            del kept[len(kept) - (4 if kept[-4:] == tokens("pub(crate)") else kept[-1:] == ["pub"]) :]
            i = next_of((";", ",", "}"), words, i)
            i += words[i] != "}"
        else:
            kept.append(words[i])
            i += 1
    return kept


def laid_out(words):
    """The tokens in one line, without a list's last comma and braces around an arm's value, where rustfmt has a choice."""
    text = re.sub(r"=> \{ ((?:[^{};]|\{[^{};]*\})+) \}(?: ,)?", r"=> \1 ,", " ".join(words))
    return re.sub(r" ,(?= [)\]}>])", "", text)


def rewritten(text, file, used):
    """A source's text as its generated file has it."""
    for row in INSTEAD:
        if row[0] in ("*", file):
            before, after = map(tokens, row[1].split("→"))
            before = "".join(f"(?P<{it}>{ANY[it]}) " if it in ANY else re.escape(f"{it} ") for it in before)
            after = "".join(rf"\g<{it}> " if it in ANY else f"{it} " for it in after)
            text, times = re.subn(rf"(?<!\S){before}", after, text)
            used[row] += times
    text = text.replace("use std ::", "use core ::").replace("use crate ::", f"use crate :: generated :: {file.split('/')[0]} ::")
    return re.sub(rf"\buse (?=(?:{'|'.join(CRATES)}) ::)", "use crate :: generated :: ", text)


def leaves(path):
    """The names that a `use` brings."""
    while it := re.search(r"([\w:]*)\{([^{}]*)\}", path):
        path = path[: it.start()] + ",".join(it[1] + leaf for leaf in it[2].split(",")) + path[it.end() :]
    return [" ".join(tokens(it)) for it in path.split(",")]


def items(words, block=""):
    """The items of a file and of its blocks: the name, and the text with the visibility before all."""
    end = 0
    while end < len(words):
        start = at = end
        while words[at] == "#":
            at = past(words, at + 1)
        i = head = at if words[at] != "pub" else past(words, at + 1) if words[at + 1] == "(" else at + 1
        while words[i] in ("unsafe", "extern", '"C"') or words[i : i + 2] == ["const", "fn"]:
            i += 1
        kind, name = words[i : i + 2]
        i = next_of(";" if kind in ("use", "const") else "{;", words, i)
        end, before = past(words, i), words[at:head] + words[start:at]
        if kind in ("impl", "trait"):
            name = " ".join(words[head:i])
            yield name, " ".join([*before, name])
            yield from items(words[i + 1 : end - 1], f"{name} / ")
        elif kind == "use":
            brought = leaves("".join(f" {it} " if it == "as" else it for it in words[head + 1 : i]))
            yield from ((f"use {it}", " ".join([*before, it])) for it in brought)
        else:
            yield f"{block}{kind} {name}", " ".join(before + words[head:end])


def exported(text):
    """An export as Rust has it: slices are pointers and lengths, and the allocator isn't passed."""
    head, body = text.split(" { ", 1)
    made = ["let alloc = Global ; "] if " , alloc : Global" in head else []
    for name, mut in re.findall(r"(\w+) : & (mut )?\[", head):
        made.append(f"let {name} = unsafe {{ {'room' if mut else 'items'}_at ( {name} , {name}_len ) }} ; ")
    head = re.sub(r"(\w+) : & (mut )?\[ (\w+) \]", lambda it: f"{it[1]} : * {it[2] or 'const '}{it[3]} , {it[1]}_len : usize", head)
    head = head.replace(" , alloc : Global", "").replace("extern", "unsafe extern").replace("proved_", "plain_")
    return f"{head} {{ {''.join(made)}{body}"


def is_right(name, ours, theirs, file, used):
    """Whether an item, whose text is empty where there is none, is what the source and the tables say."""
    if ours and theirs:
        # In Rust what is open to the crate may be open to all in the source, or to its file.
        opened = re.escape(theirs).replace(re.escape("pub ( crate ) "), r"(?:pub (?:\( crate \) )?)?")
        return ours == theirs or re.fullmatch(opened, ours)
    if name.startswith("use "):
        used["*", name] += 1
        return ours or name.removeprefix("use crate :: support :: ") in SUPPORT
    known = [row for row in (ADDED if theirs else LEFT_OUT) if row[0] in ("*", file) and f" {' '.join(tokens(row[1]))} " in f" {name} "]
    used.update(known)
    return known and (theirs == name or COPIED.fullmatch(theirs) if theirs else "*" not in dict(known) or ours == name or IDLE.search(ours))


def differences(file, source, generated, used):
    """What differs of a module's tokens, by the names of its items, and how many functions were compared."""
    ours, theirs, found = defaultdict(str), defaultdict(str), {}
    for name, text in items(laid_out(rewritten(laid_out(bare(tokens(source))) + " ", file, used).split()).split()):
        ours[name.replace("proved_", "plain_")] += exported(text) if name.startswith("fn proved_") else text
    for name, text in items(re.sub(SAID, "", laid_out(generated)).split()):
        theirs[name] += text
    for name in {**ours, **theirs}:
        if not is_right(name, ours.get(name, ""), theirs.get(name, ""), file, used):
            # Where the source is open to all, that the file is open to the crate is no difference.
            said = theirs[name] if "( crate )" in ours[name] else theirs[name].replace("( crate ) ", "")
            a, b = ours[name].split() + ["nothing"], said.split() + ["nothing"]
            i = next((i for i, (x, y) in enumerate(zip(a, b)) if x != y), 0)
            there, here, before = (" ".join(it) for it in (b[i : i + 8], a[i : i + 8], b[max(i - 6, 0) : i]))
            found[name] = f"`{there}` for `{here}` after `{before}`"
    return found, sum(" fn " in f" {name}" for name in ours if name in theirs)


def source_of(file):
    crate, _, inside = file.partition("/")
    return (SOURCES / crate / "src" / f"{'lib' if inside == 'mod' else inside}.rt").read_text()


def main():
    used, functions, count = Counter(), 0, 0
    said = [] if tokens((GENERATED / "mod.rs").read_text()) == tokens(TOP) else ["mod.rs: it isn't what TOP says"]
    for crate in CRATES:
        for file, words in modules(tokens((GENERATED / f"{crate}.rs").read_text()), f"{crate}/mod"):
            found, compared = differences(file, source_of(file), words, used)
            said += [f"{file}: {name}: {it}" for name, it in found.items()]
            functions, count = functions + compared, count + 1
    all_rows = [*INSTEAD, *LEFT_OUT, *ADDED, *(("*", f"use crate :: support :: {it}") for it in SUPPORT)]
    said += [f"a row of no use: {': '.join(row)}" for row in all_rows if not used[row]]
    print(*said, f"{functions} functions in {count} modules, {len(said)} differences", sep="\n")
    return 1 if said else 0


if __name__ == "__main__":
    sys.exit(main())
