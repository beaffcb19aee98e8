"""What differs between Rattle and Rust 1.63, by names. It has signatures and no bodies: those are in rust/src/support."""

import re

# The crates that are written, each as a module, and where.
CRATES = ("range_merge", "range_entry", "range_collections", "range_list", "range_chunks", "range_map", "range_tracker", "range_chunked_tracker", "range_c")
ROOT = ("crate", "generated")
SUPPORT = ("crate", "support")
# Crates that are compiled with a feature alone.
FEATURES = {"range_c": "c"}
# Crates with unsafe code: exports make slices of pointers.
UNSAFE = {"range_c"}

# The rustfmt by which the files are laid out. With another one only the tokens are compared.
RUSTFMT = "rustfmt 1.9.0"

# Modules of Rattle's std that are modules of Rust's core, with the same names in them.
CORE = {"cmp", "fmt", "iter", "marker", "mem", "num", "ops", "ptr", "slice", "str"}
# Names that come from elsewhere: from the support module.
MOVED = {("std", "alloc", "AllocError"), ("std", "alloc", "Global"), ("std", "error", "Error"), ("smallvec", "SmallVec")} | {
    ("itoa", "Buffer"),
    ("itoa", "Integer"),
    ("std", "hint", "select_unpredictable"),
}
# Names of std that only proofs have a use for.
GHOSTLY = {("std", "marker", "Model"), ("std", "default", "MadeWith")}
# Names that need no `use` in Rattle, or another one than in Rust; and what makes the slices of exports.
PRELUDE = ("Box", "Vec", "items_at", "room_at")

# Methods that pass the allocator, or that Rust has only since a later version: each is one of a trait of support.
#   [T]::sort(&mut self, alloc: Global) -> Result<(), AllocError>
#   usize::div_ceil(self, by: usize) -> usize, since 1.73
#   usize::ilog2(self) -> u32, since 1.67
#   u128::checked_next_multiple_of(self, by: u128) -> Option<u128>, since 1.73
RENAMED = {
    "sort": ("sort_in", "SortIn"),
    "div_ceil": ("div_up", "DivUp"),
    "ilog2": ("log2_down", "Log2Down"),
    "checked_next_multiple_of": ("next_multiple_up", "NextMultipleUp"),
}

# The sources' own `clone` may be refused, for which Rust's has no room: it and its calls have this name.
CLONE = "try_clone"

# Methods of std and of smallvec that are the same in Rust, or that support's lists have.
SAME = set(
    """
    abs_diff all allocator as_array as_bytes as_mut_slice as_ref as_slice bitand bitor bitxor capacity char_indices
    checked_add checked_sub chunks chunks_exact clear cmp contains copied copy_from_slice copy_within dedup drain
    enumerate eq expect extend_from_slice filter filter_map first fmt format from get insert into_box into_iter into_vec
    is_ascii_digit is_empty is_eq is_err is_ge is_gt is_le is_lt is_ne is_none is_ok is_some is_whitespace iter
    iter_mut last leading_zeros len map max min next next_back not ok ok_or or parse pop position push_reserved remove
    reserve retain rev reverse rotate_left rotate_right saturating_add saturating_mul saturating_sub shrink_to_fit
    size_hint sort_unstable sort_unstable_by_key split split_at split_at_mut split_first split_last split_off
    split_once strip_prefix sub swap swap_with_slice take then_some trailing_zeros trim truncate unwrap unwrap_or
    valid_up_to windows with_capacity wrapping_sub write_str zip
    """.split()
)
# Macros, attributes and derives that are the same in Rust.
MACROS = {"assert", "debug_assert", "unreachable", "write", "writeln"}
ATTRIBUTES = {"inline", "must_use", "cold", "repr"}
# Functions that are inlined in any case: rustc else keeps the count of their comparisons in memory.
INLINED = {"contains_counted", "count_up_to", "get_counted", "place_up_to", "up_to"}
DERIVES = {"Clone", "Copy", "Debug", "Default", "Eq", "Hash", "Ord", "PartialEq", "PartialOrd"}
# Those of proofs.
PROOF_ATTRIBUTES = {"cycle", "tactic"}
# Words of Rust that no source uses, and whose forms this script doesn't know.
UNKNOWN_WORDS = {"async", "await", "dyn", "extern", "macro_rules", "move", "static", "unsafe", "yield"}

# The names of exports: `proved_range_set_`, the type, and the call. Of plain Rust they begin with another word.
EXPORT = re.compile(r"proved_range_(set|map)_[iu]\d+_\w+")
PROVED, PLAIN = "proved_", "plain_"
# The parameters of exports that are slices, and those that C passes as they are.
SLICE = re.compile(r"&(mut )?\[(\w+)\]")
PASSED = re.compile(r"(&mut )?(bool|usize|[iu]\d+|(Chunked|Mapped)[IU]\d+)")

# Functions that do nothing when they run: a caller learns something by them.
#   fn known(&self), fn known_in_range(&self), fn left_items_stay()
NOTHING = {"known", "known_in_range", "left_items_stay"}
# The comment before a statement that is there for a proof alone.
HINT = "which the proof cites."

# Files that are left out: laws are found by their form; JSON is read and written by serde; std prints sets of
# characters, sets in chunks and maps, and collects maps; a set of Rattle's own needs numbers other than 0 that have a default; Rust takes
# ranges out of sets of elements without an order too; std turns a list by two places without a buffer; a
# box as its address is one of support.
LEFT_OUT = {
    "range_merge/fast/moves",
    "range_entry/non_zero",
    "range_entry/non_zero_std",
    "range_collections/json",
    "range_collections/range_set/taking",
    "range_collections/text/chars",
    "range_chunks/text",
    "range_map/map/building",
    "range_map/map/text",
    "range_c/boxed",
}
# Names whose files are left out, wherever they are imported.
LEFT_OUT_NAMES = {"JsonError", "NonZeroU8", "NonZeroU16", "NonZeroU32", "NonZeroU64", "NonZeroU128", "NonZeroUsize"}

# Files of which these items alone are written: lists of support have holes without items, where Rattle's have blank
# items, so what moves items is theirs. See the module `opened`.
ITEMS_KEPT = {"range_merge/in_place/list": {"trait GrowsByHole", "trait Exchanges"}}

# Items that are left out, by their file: a kind with a name, or an impl with its title up to the generics of the type.
ITEMS_LEFT_OUT = {
    "range_merge/in_place/builder": {"impl InPlaceBuilder<K, N>"},
    # There a list on the heap is appended to all at once.
    "range_merge/merge_state/small_vec": {"fn append_within"},
    # There the room is looked at once for both.
    "range_collections/lists": {"fn append_both"},
    "range_merge/in_place/owned": {"type InPlaceMergeState", "impl InPlaceMergeState"},
    "range_merge/in_place/borrowed": {"type InPlaceMergeStateRef", "impl InPlaceMergeStateRef"},
    # An earlier Rust selects by a branch.
    "range_merge/fast/branchless": {"const SELECTS"},
    # Elements are std's own lists and texts, and no lists of support.
    "range_entry/lists": {"impl EntryClone for Vec"},
    "range_entry/texts": {"impl EntryClone for String"},
    # Every element with std's Debug has one.
    "range_collections/text": {"impl fmt::Debug for RangeSet"},
    "range_collections/range_set_range": {"impl fmt::Debug for RangeSetRange"},
    # Rust drops a set's list by itself.
    "range_collections/range_set": {"impl Drop for RangeSet"},
    "range_list/list": {"impl Drop for Chunks"},
    "range_list/chunk_list": {"impl Drop for ChunkList"},
    "range_chunks/set": {"impl Drop for ChunkedRangeSet"},
    "range_chunks/space": {"impl Drop for ChunkedSpace"},
    "range_map/map": {"impl Drop for RangeMap"},
    # Values that aren't plain numbers have one by their `EntryClone`, in support.
    "range_map/value": {"impl MapValue for T"},
}
# What nothing in Rust calls, by its file: an item by its kind and name, a member by the name of its impl or trait.
UNCALLED = {
    "range_merge/compare": {"Compare::made"},
    "range_merge/in_place/builder": {"InPlaceBuilder::puts_left", "InPlaceBuilder::put", "InPlaceBuilder::finish", "fn put_item"},
    "range_merge/merge_state/small_vec": {"SmallVecMergeState::new"},
    "range_merge/in_place/list": {"GrowsByHole::set"},
    "range_entry/lists": {"fn is_empty_list"},
    "range_collections/comparisons": {"Compare for Comparisons::made"},
    "range_collections/range_set/by_view": {
        "RangeSet::contains_counted", "RangeSet::merge_test", "RangeSet::range_at_counted", "RangeSet::contains_range_counted",
        "RangeSet::split_counted", "RangeSet::gaps_counted", "RangeSet::ranges_within_counted", "RangeSet::merge_into",
    },
    "range_collections/range_set/operations": {"RangeSet::merge_new", "RangeSet::combine"},
    "range_collections/range_set/values": {"RangeSet::from_values"},
    "range_collections/view": {"RangeSetRef::single"},
    "range_collections/view/operations": {"RangeSetRef::merge_new"},
    "range_tracker/tracker": {"Tracker::gaps"},
    "range_list/list/reading": {"Chunks::last"},
    "range_chunks/set/ranges": {"ChunkedRangeSet::items"},
    "range_chunks/space/fitting": {"ChunkedSpace::first_fit"},
}
# Fields that clauses alone read, by their file.
FIELDS_LEFT_OUT = {"range_merge/merge_state/small_vec": {"at_first"}}
# Names that support has in place of what is left out.
BY_SUPPORT = {"InPlaceMergeState", "InPlaceMergeStateRef", "Parts", "SELECTS", "append_both", "append_within", "move_last_two"}
# Traits whose impls are left out: the crate has a trait of its own for its users, and one impl for all of them.
IMPLS_LEFT_OUT = {"MadeWith", "Model", "RangeSetEntry"}
# Private fields and functions that support and the layer use, by their file.
SHOWN = {
    "range_merge/in_place/borrowed": {"over"},
    "range_collections/range_set/values": {"range_of"},
    "range_list/list": {"chunks", "len"},
    "range_chunks/set": {"list"},
    "range_chunked_tracker/tracker": {"list", "len", "limit"},
    "range_map/map": {"steps"},
    "range_map/borrowed_steps": {"steps"},
    "range_tracker/tracker": {"set", "limit"},
}
# Structs that are cloned in Rust whatever their elements are, by their file: their fields are references.
CLONED = {
    "range_collections/iter": {"Iter", "RangesWithin"},
    "range_collections/questions/parts": {"Within"},
    "range_collections/members": {"Members"},
    "range_list/items": {"Items"},
    "range_chunks/iter": {"Iter"},
    "range_chunks/within": {"RangesWithin"},
    "range_map/gaps": {"Gaps"},
    "range_map/iter": {"Iter"},
}
# What a compiler says where a type lacks a trait, and what to do, by the file and the trait: their users know others, or
# have a way that asks for less.
MESSAGES = {
    "range_entry/range_set_entry": {
        "RangeSetEntry": ("`{Self}` has no least value", "implement `range_sets::RangeSetEntry` for it"),
    },
    "range_entry/entry_clone": {
        "EntryClone": (
            "`{Self}` has no copy that may be refused",
            "implement `range_sets::fallible::EntryClone` for it; calls of sets outside of `fallible` ask for `Clone`",
        ),
    },
}
# Enums that may grow: a match of another crate has an arm for what isn't there yet.
GROWING = {
    "range_collections/parse": {"ParseError", "Expected"},
    "range_tracker/track_error": {"TrackError"},
}
# What says that the compiler knows such messages.
KNOWS_MESSAGES = "range_sets_messages"
