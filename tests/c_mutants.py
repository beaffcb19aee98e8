#!/usr/bin/env python3
"""Tries mutants of the layer in C: each must compile, and make the tests that tests/c.sh runs fail.

    tests/c_mutants.py              all of them
    tests/c_mutants.py WORD..       those whose names have one of the words

A mutant is one replacement in the files of the layer for sets, in those for maps, in what both share or in the header, whose text must
be there exactly once, and the test that must see it: "test", the tests of every call, or "test_refused", where each request for memory
is refused in turn. The layer is linked with the proved object of dist/. The last line is 'N passed, M failed, K skipped', and the status
is 77 where a tool is missing.
"""

import os
import shutil
import subprocess
import sys
import tempfile
from concurrent.futures import ThreadPoolExecutor
from dataclasses import dataclass
from pathlib import Path

ROOT = Path(__file__).resolve().parent.parent
C = ROOT / "c"
LIBRARY = ROOT / "dist" / "librange_set.a"
SOURCES = [C / "range_set.c", *sorted(C.glob("*.h")), C / "include/range_set.h"]
SKIPPED = 77
# The arguments of each test: how many made-up cases each type has.
TESTS = {"test": ["100"], "test_refused": []}
WRAPPED = "-Wl,--wrap=malloc,--wrap=realloc"
# A test that runs for this many seconds goes round in circles.
LONGEST = 120
# The files of a mutant: the one that has its text is changed.
SETS, MAPS, LAYER, HEADER = "range_set_*.h", "range_map_*.h", "range_set.c", "range_set.h"
BAD = "return RANGE_SET_BAD_ARGUMENT;\n"
COMPILED = ["cc", "-std=c99", "-O0", "-w", f"-I{C / 'include'}", "-c"]
# The type whose calls are those of a mutant, by its files: the tests begin with it. Other types have the layer as it is, which is
# compiled once.
FIRST = {SETS: "i32", MAPS: "i64"}


@dataclass
class Mutant:
    name: str
    file: str
    text: str
    other: str
    test: str = "test"


# What every call asks of pointers and lengths.
POINTERS = [
    Mutant("a null pointer has a length", LAYER, " && (items != NULL || len == 0)", ""),
    Mutant("a length that no array has is one", LAYER, "len <= PTRDIFF_MAX / item_size && ", ""),
    Mutant("overlap is seen on one side", LAYER, "(from - other < other_size || other - from < size)", "(from - other < other_size)"),
    Mutant("overlap is seen on the other side", LAYER, "(from - other < other_size || other - from < size)", "(other - from < size)"),
    Mutant("no bytes overlap others", LAYER, " && size != 0 && other_size != 0;", ";"),
    Mutant("a buffer without room overlaps others", LAYER, " && size != 0 && other_size != 0;", " && other_size != 0;"),
    Mutant("two statuses have one sentence", LAYER, '"an allocation failed"', '"the buffer is too short"'),
    Mutant("memory of malloc doesn't grow", LAYER, "(void)old_size;\n    return realloc(memory, size);", "(void)old_size;\n    return NULL;"),
    Mutant("a null result is one", SETS, "return result != NULL && !overlap", "return !overlap"),
    Mutant("overlap is counted in items", SETS,
           "!overlap(result, sizeof *result, list, len * sizeof *list)", "!overlap(result, sizeof *result, list, len)"),
    Mutant("a result may lie in its list", SETS,
           "return result != NULL && !overlap(result, sizeof *result, list, len * sizeof *list);", "return result != NULL;"),
    Mutant("no length is too long for a buffer", SETS,
           "return is_array(out, room, sizeof *out) && NAME(is_result)(result, out, room) && !overlap(out",
           "return NAME(is_result)(result, out, room) && !overlap(out"),
    Mutant("a buffer may lie over a list", SETS, " && !overlap(out, room * sizeof *out, set.boundaries, size)\n", "\n"),
    Mutant("a result may lie in a set's list", SETS,
           "size)\n           && !overlap(result, sizeof *result, set.boundaries, size);", "size);"),
    Mutant("a list that isn't sorted is a set", SETS,
           "    if (!EXPORT(is_sorted)(list ? list : &NAME(nothing), len)) return RANGE_SET_NOT_SORTED;\n", ""),
    Mutant("view takes any pointer", SETS, "(!is_array(list, len, sizeof *list) || !NAME(is_result)(set, list, len))", "(set == NULL)"),
    Mutant("from_unsorted takes any pointer", SETS,
           "(!is_array(items, len, sizeof *items) || !NAME(is_result)(set, items, len))", "(set == NULL)"),
    Mutant("from_ranges takes any pointer", SETS,
           "(!is_array(ranges, count, 2 * sizeof *ranges) || !NAME(is_result)(set, ranges, 2 * count))", "(set == NULL)"),
    Mutant("from_ranges counts numbers", SETS, "is_array(ranges, count, 2 * sizeof *ranges)", "is_array(ranges, count, sizeof *ranges)"),
    Mutant("from_ranges sees half of its ranges", SETS, "NAME(is_result)(set, ranges, 2 * count)", "NAME(is_result)(set, ranges, count)"),
    Mutant("an end that isn't there is written", SETS, "if (it.has_end) range->end", "if (!it.has_end) range->end"),
    Mutant("null is a place for an answer", SETS,
           "return set.boundaries != NULL && (uintptr_t)place >= (uintptr_t)(set.boundaries + set.len);", "return set.boundaries != NULL;"),
    Mutant("an answer is written over what is read", SETS,
           "(uintptr_t)place >= (uintptr_t)(set.boundaries + set.len);", "place != NULL;"),
    Mutant("a null list is read", SETS, "return set.boundaries != NULL && (uintptr_t)place", "return (uintptr_t)place"),
    Mutant("what isn't found is written", SETS, "if (found && place != NULL) *place", "if (place != NULL) *place"),
]

# Calls that write a set.
WRITING = [
    Mutant("no room is a bad argument", SETS, "return len <= room ? RANGE_SET_DONE : RANGE_SET_NO_ROOM;\n}\n\n/* A connective",
           "return len <= room ? RANGE_SET_DONE : RANGE_SET_BAD_ARGUMENT;\n}\n\n/* A connective"),
    Mutant("a set lies where there is no room", SETS, "(len <= room ? out : NULL, len)", "(out, len)"),
    Mutant("combine takes any right side", SETS, " || !NAME(is_apart)(b, out, room, result)) return", ") return"),
    Mutant("combine takes any left side", SETS, "(!NAME(is_apart)(a, out, room, result) || ", "("),
    Mutant("negation takes any buffer", SETS,
           f"    if (!NAME(is_apart)(set, out, room, result)) {BAD}    return NAME(write_result)(EXPORT(negation)",
           "    return NAME(write_result)(EXPORT(negation)"),
    Mutant("gaps take any buffer", SETS, f"    if (!NAME(is_apart)(set, out, room, result)) {BAD}    return NAME(write_result)(EXPORT(gaps)",
           "    return NAME(write_result)(EXPORT(gaps)"),
    Mutant("neither is left out", SETS,
           "    if (keep & RANGE_SET_NEITHER) return EXPORT(combine_from)(LIST(a), LIST(b), keep & 15u, ROOM(out, room));\n", ""),
    Mutant("union_all takes any sets", SETS, "if (!is_array(sets, count, sizeof *sets) || ", "if ("),
    Mutant("union_all writes into the sets", SETS, "overlap(sets, count * sizeof *sets, result, sizeof *result)", "false"),
    Mutant("union_all writes over the sets", SETS, "overlap(sets, count * sizeof *sets, out, room * sizeof *out)", "false"),
    Mutant("union_all writes over a list", SETS, f"        if (!NAME(is_apart)(sets[i], out, room, result)) {BAD}", ""),
    Mutant("union_all of no set takes any buffer", SETS,
           "!is_array(sets, count, sizeof *sets) || !is_array(out, room, sizeof *out) || ", "!is_array(sets, count, sizeof *sets) || "),
    Mutant("union_all of no set takes any result", SETS,
           "is_array(out, room, sizeof *out) || !NAME(is_result)(result, out, room)\n        || overlap(sets",
           "is_array(out, room, sizeof *out) || overlap(sets"),
    Mutant("union_all asks for no room", SETS,
           "    if (needed > room) return NAME(write_result)(needed, out, room, result);\n    for (i", "    for (i"),
    Mutant("union_all loses a range without an end", SETS,
           "is_open = NAME(join_open)(is_open, &open, list + closed);", ""),
    Mutant("only the last range without an end counts", SETS, "(&before, is_open, start, 1, RANGE_SET_UNION", "(&before, false, start, 1, RANGE_SET_UNION"),
    Mutant("an open range loses its start", SETS, "(write_result)(2 * count + is_open,", "(write_result)(2 * count,"),
    Mutant("from_values asks for no room", SETS, "    if (2 * count > room) return NAME(write_result)(2 * count, out, room, result);\n", ""),
    Mutant("from_values writes into the numbers", SETS, "|| !NAME(is_result)(result, values, count) ", ""),
    Mutant("from_values writes over the numbers", SETS, " || overlap(values, count * sizeof *values, out, room * sizeof *out))", ")"),
    Mutant("the greatest number is lost", SETS, "has_greatest |= value == MOST;", ""),
]

# Texts.
TEXTS = [
    Mutant("print takes a set of any length", SETS, "(set.boundaries == NULL || set.len <= SIZE_MAX / 32) && ", ""),
    Mutant("print takes any buffer", SETS, "is_array(text, room, 1) && len != NULL", "len != NULL"),
    Mutant("print takes no length", SETS, "is_array(text, room, 1) && len != NULL", "is_array(text, room, 1)"),
    Mutant("the length of a text may lie in it", SETS, "!overlap(len, sizeof *len, text, room) && ", ""),
    Mutant("a text may lie over the list", SETS, " && !overlap(text, room, set.boundaries, size)", ""),
    Mutant("the length of a text may lie in the list", SETS, "\n           && !overlap(len, sizeof *len, set.boundaries, size);", ";"),
    Mutant("print has no room and says nothing", SETS,
           "return *len <= room ? RANGE_SET_DONE : RANGE_SET_NO_ROOM;", "return RANGE_SET_DONE;"),
    Mutant("parse takes any text", SETS, "return is_array(text, text_len, 1) && ", "return "),
    Mutant("parse takes any buffer", SETS,
           "is_array(text, text_len, 1) && is_array(out, room, sizeof *out) && ", "is_array(text, text_len, 1) && "),
    Mutant("parse takes any result", SETS,
           "is_array(text, text_len, 1) && is_array(out, room, sizeof *out) && NAME(is_result)(result, out, room)\n",
           "is_array(text, text_len, 1) && is_array(out, room, sizeof *out)\n"),
    Mutant("a text may lie in the buffer", SETS, "&& !overlap(text, text_len, out, size) ", ""),
    Mutant("a result may lie in the text", SETS, " && !overlap(text, text_len, result, sizeof *result)", ""),
    Mutant("a fault may lie in the text", SETS, "&& !overlap(fault, fault_size, text, text_len) ", ""),
    Mutant("a fault may lie in the buffer", SETS, " && !overlap(fault, fault_size, out, size)", ""),
    Mutant("a fault may lie in the result", SETS, "\n           && !overlap(fault, fault_size, result, sizeof *result);", ";"),
    Mutant("parse asks for no room", SETS, "        if (told > room) return NAME(write_result)(told, out, room, result);\n", ""),
    Mutant("a number that doesn't fit is malformed", SETS, "            status = RANGE_SET_OUT_OF_RANGE;\n",
           "            status = RANGE_SET_MALFORMED;\n"),
    Mutant("a malformed text is out of range", SETS, "default: return refused_at(RANGE_SET_MALFORMED, told, fault);",
           "default: return refused_at(RANGE_SET_OUT_OF_RANGE, told, fault);"),
    Mutant("where a text stops isn't written", LAYER, "if (fault != NULL) *fault = at;", "(void)fault, (void)at;"),
    Mutant("where a text stops is written to null", LAYER, "if (fault != NULL) *fault = at;", "*fault = at;"),
    Mutant("a number that doesn't fit is anywhere", SETS,
           "case TEXT_OUT_OF_RANGE: return NAME(check_pieces)(text, text_len, ',', &told, fault);", "case 2: return RANGE_SET_OUT_OF_RANGE;"),
    Mutant("the range of a number that doesn't fit begins at its blanks", SETS,
           "it.from + blanks_before(text + it.from, it.to - it.from);", "it.from;"),
    Mutant("blanks are ASCII", LAYER, " || (unsigned char)text[at] > '~'", ""),
    Mutant("blanks aren't ASCII", LAYER, "(unsigned char)text[at] <= ' ' || ", ""),
    Mutant("the last number that doesn't fit is named", SETS, "if (status == RANGE_SET_DONE) misfit = it.from", "misfit = it.from"),
    Mutant("a number that doesn't fit comes before what is malformed", SETS,
           "            status = RANGE_SET_OUT_OF_RANGE;\n            break;\n",
           "            return refused_at(RANGE_SET_OUT_OF_RANGE, misfit, fault);\n"),
    Mutant("where a text stops counts from the separator", SETS, "(RANGE_SET_MALFORMED, it.from + it.told, fault)",
           "(RANGE_SET_MALFORMED, it.told, fault)"),
    Mutant("a comma separates too", SETS,
           "        if (it.to < text_len && text[it.to] != separator) return refused_at(RANGE_SET_MALFORMED, it.to, fault);\n", ""),
    Mutant("a piece may have commas", SETS, " && text[it->to] != ',';)", ";)"),
    Mutant("a comma alone separates", SETS, "text[it->to] != separator && text", "text"),
    Mutant("a number alone has room in one number", SETS, "    it->told = PER_RANGE;\n", ""),
    Mutant("parse_by takes any pointer", SETS, "\n        || !NAME(are_apart)(text, text_len, out, room, result, fault))", ")"),
    Mutant("a separator isn't ASCII", SETS, "(unsigned char)separator > 127 || ", ""),
    Mutant("a separator is a digit", SETS, "is_digit(separator) || ", ""),
    *(Mutant(f"a separator is {it}", SETS, f" || separator == '{it}'", "") for it in "+-."),
    Mutant("parse_by reads what it refuses", SETS, "    if (status != RANGE_SET_DONE) return status;\n    if (needed > room)", "    if (needed > room)"),
    Mutant("parse_by asks for no room", SETS,
           "    if (needed > room) return NAME(write_result)(needed, out, room, result);\n    for (; it", "    for (; it"),
    Mutant("the greatest number alone has an end", SETS, "if (it.is_alone && start != MOST) range", "if (it.is_alone) range"),
    Mutant("a number alone has no end", SETS, "count = 1, opens = false;", "count = 1;"),
    Mutant("a number alone is two", SETS, "range[1] = start + 1, count", "range[1] = start + 2, count"),
    Mutant("parse_by takes any piece with a dot", SETS, "if (is_checked && memchr", "if (memchr"),
    Mutant("a range after a number alone is a number", SETS, ", it->is_alone = false;", ";"),
    Mutant("parse_by loses a range without an end", SETS, "        if (opens) is_open = NAME(join_open)(is_open, &open, &start);\n", ""),
    Mutant("a number stands alone before others", SETS, "it->is_alone = behind == TEXT_OF_RANGES && more == 0;", "it->is_alone = true;"),
    Mutant("a number stands alone before a range", SETS, "it->is_alone = behind == TEXT_OF_RANGES && more == 0;",
           "it->is_alone = behind == TEXT_OF_RANGES;"),
    Mutant("a sign stands alone", SETS, " || !is_digit(it->text[it->told - 1])) return;", ") return;"),
    Mutant("a text stops before the blanks after a number", SETS,
           "        it->told += blanks_before(it->text + it->told, behind == TEXT_MALFORMED ? more : rest);\n", ""),
    Mutant("a text stops after bytes that aren't blanks", SETS, "behind == TEXT_MALFORMED ? more : rest", "rest"),
    Mutant("a text stops after as many blanks as numbers", SETS, "behind == TEXT_MALFORMED ? more : rest", "more"),
    Mutant("what isn't UTF-8 may come after what is malformed", SETS, "if (status == RANGE_SET_MALFORMED && EXPORT", "if (false && EXPORT"),
    Mutant("a number alone always fits", SETS, "    it->status = EXPORT(check_text)(it->text, it->len, &it->told);\n    it->told = PER_RANGE;",
           "    it->status = TEXT_OF_RANGES;\n    it->told = PER_RANGE;"),
    Mutant("zeros are digits of a number alone", LAYER, "    while (end - number > 1 && *number == '0') number++;\n", ""),
    Mutant("zeros after a sign are digits", LAYER, "    if (!is_digit(*number)) it->from_on[it->len++] = *number++;\n", ""),
    Mutant("zero alone is no number", LAYER, "while (end - number > 1 && *number", "while (end - number > 0 && *number"),
    Mutant("a number alone loses digits", LAYER, "DIGITS = 24", "DIGITS = 18"),
]

# The allocator of sets in chunks and maps.
HEAP = [
    Mutant(name, file, text, other, "test_refused")
    for name, file, text, other in [
        ("no allocator is used", LAYER, "heap = allocator != NULL ? *allocator : by_malloc;", "(void)allocator, heap = by_malloc;"),
        ("malloc isn't used again", LAYER, "heap = allocator != NULL ? *allocator : by_malloc;",
         "(void)by_malloc; if (allocator != NULL) heap = *allocator;"),
        ("an allocator isn't asked for its head", LAYER, "return behind_head(heap.allocate(heap.context, size + HEAD), size + HEAD);",
         "return behind_head(heap.allocate(heap.context, size), size);"),
        ("a head has any alignment", LAYER, "enum { HEAD = 16 };", "enum { HEAD = 8 };"),
        ("what an allocator refuses has a head", LAYER, "    if (memory == NULL) return NULL;\n    memcpy(memory, &size", "    memcpy(memory, &size"),
        ("an allocator has no context", LAYER, "heap.release(heap.context, memory, size);", "heap.release(NULL, memory, size);"),
        ("an allocator is given another size", LAYER, "heap.release(heap.context, memory, size);", "heap.release(heap.context, memory, size - HEAD);"),
        ("an allocator is given the new size for the old", LAYER, "heap.resize(heap.context, memory, old_size, size + HEAD)",
         "heap.resize(heap.context, memory, size + HEAD, size + HEAD)"),
        ("memory is made longer without its head", LAYER, "heap.resize(heap.context, memory, old_size, size + HEAD), size + HEAD)",
         "heap.resize(heap.context, memory, old_size, size), size)"),
        ("malloc makes an allocator's memory longer", LAYER, "    if (heap.allocate == NULL) return realloc(memory, size);\n",
         "    return realloc(memory, size);\n"),
        ("malloc has an allocator's memory back", LAYER, "    if (heap.allocate == NULL) {\n        free", "    if (true) {\n        free"),
        ("malloc is asked in place of an allocator", LAYER, "    if (heap.allocate == NULL) return malloc(size);\n", "    return malloc(size);\n"),
        ("a list of chunks asks malloc", SETS, "range_heap_malloc((len + (len == 0))", "malloc((len + (len == 0))"),
        ("a connective keeps its memory", SETS, "    range_heap_free(items);\n    if (status", "    if (status"),
        ("values in chunks keep their memory", SETS, "chunked_of)(list, set);\n    range_heap_free(items);\n", "chunked_of)(list, set);\n"),
        ("a connective of two in chunks keeps its memory", SETS, "(set, list, keep);\n    range_heap_free(items);\n", "(set, list, keep);\n"),
        ("values in chunks have no memory", SETS, "    if (items == NULL) return RANGE_SET_NO_MEMORY;\n    status = NAME(from_values)",
         "    status = NAME(from_values)"),
        ("a connective of two in chunks has no memory", SETS,
         "    if (items == NULL) return RANGE_SET_NO_MEMORY;\n    status = NAME(chunked_copy)", "    status = NAME(chunked_copy)"),
        ("a connective has no memory", SETS, "    if (items == NULL) return RANGE_SET_NO_MEMORY;\n    if (NAME(chunked_copy)", "    if (NAME(chunked_copy)"),
    ]
]

# Sets in a buffer.
IN_PLACE = [
    Mutant("a buffer holds more than its room", SETS, "if (len > room || !is_array(items, room", "if (!is_array(items, room"),
    Mutant("buffer_view takes any room", SETS, "|| !is_array(items, room, sizeof *items) || buffer == NULL", "|| buffer == NULL"),
    Mutant("buffer_view writes to null", SETS, " || buffer == NULL\n        || overlap(buffer", "\n        || overlap(buffer"),
    Mutant("buffer_view writes into the items", SETS, "\n        || overlap(buffer, sizeof *buffer, items, room * sizeof *items))", ")"),
    Mutant("what isn't sorted is a set in a buffer", SETS,
           "    if (!EXPORT(is_sorted)(ROOM(items, len))) return RANGE_SET_NOT_SORTED;\n", ""),
    Mutant("null is a buffer", SETS, "return buffer != NULL && is_array", "return is_array"),
    Mutant("a buffer has any room", SETS, "is_array(buffer->items, buffer->room, sizeof *buffer->items) && ", ""),
    Mutant("a set lies elsewhere than in its buffer", SETS, " && buffer->set.boundaries == buffer->items\n", "\n"),
    Mutant("a set in a buffer may be longer than its room", SETS, "&& buffer->set.len <= buffer->room ", ""),
    Mutant("a buffer may lie in its items", SETS,
           " && !overlap(buffer, sizeof *buffer, buffer->items, buffer->room * sizeof *buffer->items)", ""),
    Mutant("the needed room isn't written", SETS, "        buffer->needed = len;\n", ""),
    Mutant("a change without room is done", SETS,
           "        buffer->needed = len;\n        return RANGE_SET_NO_ROOM;",
           "        buffer->needed = len;\n        return RANGE_SET_DONE;"),
    Mutant("insert takes any buffer", SETS, f"    if (!NAME(is_buffer)(buffer)) {BAD}    return NAME(set_len)(buffer, EXPORT(insert)",
           "    return NAME(set_len)(buffer, EXPORT(insert)"),
    Mutant("remove takes any buffer", SETS, f"    if (!NAME(is_buffer)(buffer)) {BAD}    return NAME(set_len)(buffer, EXPORT(remove)",
           "    return NAME(set_len)(buffer, EXPORT(remove)"),
    Mutant("combine_with takes any buffer", SETS, "if (!NAME(is_buffer)(buffer) || (keep", "if ((keep"),
    Mutant("combine_with takes neither", SETS, "(keep & RANGE_SET_NEITHER) != 0 || ", ""),
    Mutant("another set may lie in the buffer's struct", SETS,
           "!= 0 || overlap(buffer, sizeof *buffer, other.boundaries, size)\n", "!= 0\n"),
    Mutant("another set may lie in the buffer", SETS,
           "\n        || overlap(buffer->items, buffer->room * sizeof *buffer->items, other.boundaries, size))", ")"),
    Mutant("another set may lie behind the set in its buffer", SETS, "overlap(buffer->items, buffer->room * sizeof *buffer->items, other",
           "overlap(buffer->items, buffer->set.len * sizeof *buffer->items, other"),
]

# Owned sets.
OWNED = [
    Mutant("owned_init writes to null", SETS, "    if (owned == NULL) return;\n    owned->in =", "    owned->in ="),
    Mutant("owned_free frees null", SETS, "    if (owned == NULL) return;\n    NAME(release)", "    NAME(release)"),
    Mutant("an allocator isn't asked", SETS, "allocator != NULL ? *allocator : by_malloc", "by_malloc"),
    Mutant("what is freed keeps its memory", SETS,
           "    NAME(release)(owned, owned->in.items, owned->in.room);\n    owned->in =", "    owned->in ="),
    Mutant("what is freed keeps its set", SETS, "room);\n    owned->in = NAME(buffer_of)(NULL, 0);\n", "room);\n"),
    Mutant("owned_reserve takes null", SETS, f"    if (owned == NULL) {BAD}    if (room <=", "    if (room <="),
    Mutant("owned_reserve takes any room", SETS, "    if (room > PTRDIFF_MAX / sizeof *items) return RANGE_SET_NO_MEMORY;\n", ""),
    Mutant("owned_reserve gives room back", SETS, "    if (room <= owned->in.room) return RANGE_SET_DONE;\n", ""),
    Mutant("memory that is refused is no room", SETS, "    if (items == NULL) return RANGE_SET_NO_MEMORY;\n    NAME(replace)",
           "    if (items == NULL) return RANGE_SET_NO_ROOM;\n    NAME(replace)"),
    Mutant("owned_reserve loses the set", SETS,
           "NAME(replace)(owned, items, room, owned->in.set.len);", "NAME(replace)(owned, items, room, 0);"),
    Mutant("an owned set asks for each range", SETS, "needed < 8 ? 8 : needed + needed / 2", "needed"),
    Mutant("an owned set doesn't grow", SETS, "    status = NAME(grow)(owned, owned->in.needed);\n    return status", "    return status"),
    Mutant("a change of null is out of memory", SETS, "change(&owned->in, start, end) : RANGE_SET_BAD_ARGUMENT;",
           "change(&owned->in, start, end) : RANGE_SET_NO_MEMORY;"),
    Mutant("owned_insert removes", SETS, "(owned, start, end, NAME(insert));", "(owned, start, end, NAME(remove));"),
    Mutant("owned_remove inserts", SETS, "(owned, start, end, NAME(remove));", "(owned, start, end, NAME(insert));"),
    Mutant("owned_insert_from removes", HEADER, "range_set_i32_owned_combine(owned, rest, RANGE_SET_UNION)",
           "range_set_i32_owned_combine(owned, rest, RANGE_SET_DIFFERENCE)"),
    Mutant("owned_remove_from inserts", HEADER, "range_set_i32_owned_combine(owned, rest, RANGE_SET_DIFFERENCE)",
           "range_set_i32_owned_combine(owned, rest, RANGE_SET_UNION)"),
    Mutant("owned_clear clears null", HEADER, "range_set_i32_owned_clear(range_set_i32_owned *owned)\n{\n    if (owned) owned",
           "range_set_i32_owned_clear(range_set_i32_owned *owned)\n{\n    owned"),
    Mutant("owned_clear keeps the set", HEADER, "range_set_i32_owned_clear(range_set_i32_owned *owned)\n{\n    if (owned) owned->in.set.len = 0;",
           "range_set_i32_owned_clear(range_set_i32_owned *owned)\n{\n    (void)owned;"),
    Mutant("owned_assign takes null", SETS, f"    if (owned == NULL) {BAD}    if (len <=", "    if (len <="),
    Mutant("owned_assign without memory is done", SETS, "    if (items == NULL) return RANGE_SET_NO_MEMORY;\n    memcpy",
           "    if (items == NULL) return RANGE_SET_DONE;\n    memcpy"),
    Mutant("owned_assign copies a part of itself forwards", SETS,
           "owned->in.set.len = len;\n        return RANGE_SET_DONE;", "return RANGE_SET_DONE;"),
    Mutant("an owned set keeps the memory that it leaves", SETS,
           "    NAME(release)(owned, owned->in.items, owned->in.room);\n    NAME(replace)", "    NAME(replace)"),
    Mutant("owned_combine takes null", SETS, f"    if (owned == NULL) {BAD}    set =", "    set ="),
    Mutant("an owned set takes in what lies in its struct", SETS, "overlap(owned, sizeof *owned, other.boundaries, other_size) || ", ""),
    Mutant("an owned set takes in what stands after it", SETS, "(at > set.len || other_len > set.len - at)", "(at > owned->in.room)"),
    Mutant("an owned set takes in what stands behind that", SETS, "(at > set.len || other_len", "(other_len"),
    Mutant("owned_combine without memory is done", SETS, "    if (status != RANGE_SET_DONE) return status;\n    if (set.len > 0)",
           "    if (status != RANGE_SET_DONE) return RANGE_SET_DONE;\n    if (set.len > 0)"),
    Mutant("an owned set has no room for the least number", SETS, "(keep & RANGE_SET_NEITHER ? 1 : 0)", "0"),
    Mutant("a part of an owned set stays where it was", SETS, "    if (is_part) other.boundaries = set.boundaries + at;\n", ""),
]


def held(file, prefix, handle, call):
    """A call that changes a set in chunks or a map: without one, and without memory."""
    check = f"    if ({handle} == NULL || {handle}->at == NULL) {BAD}"
    done = f"    return EXPORT({prefix}{call})({'(HELD *)' if handle == 'map' else ''}{handle}, "
    end = {"insert": "start, end", "remove": "start, end"}.get(call, "start") + (", value" if handle == "map" and "insert" in call else "")
    return [
        Mutant(f"{handle}: {call} takes none", file, check + done, done),
        Mutant(f"{handle}: {call} without memory is done", file, f"{done}{end}) ? RANGE_SET_DONE : RANGE_SET_NO_MEMORY;",
               f"{done}{end}) ? RANGE_SET_DONE : RANGE_SET_DONE;", "test_refused"),
    ]


# What no set in chunks answers as the empty list does.
QUESTIONS = [
    "contains", "contains_range", "intersects_range", "is_empty", "is_all", "range_at", "range_from", "first", "last", "next_member",
    "next_gap", "prev_member", "prev_gap", "rank", "select", "covered", "first_run", "first_run_from", "ranges_len", "intersects",
    "is_subset", "is_superset",
]

# Sets in chunks and maps.
HELD = [
    Mutant("chunked_new writes to null", SETS, f"    if (set == NULL) {BAD}", ""),
    Mutant("chunked_new without memory is done", SETS,
           "EXPORT(chunked_new)(set) ? RANGE_SET_DONE : RANGE_SET_NO_MEMORY",
           "EXPORT(chunked_new)(set) ? RANGE_SET_DONE : RANGE_SET_DONE", "test_refused"),
    Mutant("a set that wasn't made has an address", SETS,
           "    set->at = NULL;\n    return EXPORT(chunked_new)(set)", "    return EXPORT(chunked_new)(set)", "test_refused"),
    Mutant("a set that wasn't made of a list has an address", SETS,
           "    set->at = NULL;\n    return EXPORT(chunked_of)(set", "    return EXPORT(chunked_of)(set", "test_refused"),
    Mutant("chunks of a list that isn't sorted", SETS, "    if (!EXPORT(is_sorted)(LIST(list))) return RANGE_SET_NOT_SORTED;\n", ""),
    Mutant("a connective of a list that isn't sorted", SETS, "    if (!EXPORT(is_sorted)(LIST(other))) return RANGE_SET_NOT_SORTED;\n", ""),
    Mutant("chunked_of writes to null", SETS,
           "if (set == NULL || (list.boundaries != NULL && overlap(set", "if ((list.boundaries != NULL && overlap(set"),
    Mutant("chunked_of writes into its list", SETS,
           "(list.boundaries != NULL && overlap(set, sizeof *set, list.boundaries, list.len * sizeof *list.boundaries))", "false"),
    Mutant("chunked_of without memory is done", SETS, "EXPORT(chunked_of)(set, LIST(list)) ? RANGE_SET_DONE : RANGE_SET_NO_MEMORY",
           "EXPORT(chunked_of)(set, LIST(list)) ? RANGE_SET_DONE : RANGE_SET_DONE", "test_refused"),
    Mutant("chunked_free frees null", SETS, "if (set != NULL && set->at != NULL) EXPORT(chunked_free)(set);", "EXPORT(chunked_free)(set);"),
    Mutant("chunked_clear clears null", SETS,
           "if (set != NULL && set->at != NULL) EXPORT(chunked_clear)(set);", "EXPORT(chunked_clear)(set);"),
    *(mutant for call in ("insert", "remove", "insert_from", "remove_from") for mutant in held(SETS, "chunked_", "set", call)),
    *(Mutant(f"no set in chunks is asked: {call}", SETS, f"if (set.at == NULL) return NAME({call})(", f"if (false) return NAME({call})(")
      for call in QUESTIONS),
    Mutant("ranges in chunks are written anywhere", SETS,
           f"    if (!is_array(out, room, sizeof *out) || !NAME(is_result)(result, out, room)) {BAD}    if (set.at", "    if (set.at"),
    Mutant("no set has ranges", SETS, "    if (set.at == NULL) return NAME(write_result)(0, out, room, result);\n", ""),
    Mutant("more ranges follow, and none is announced", SETS, "return RANGE_SET_MORE;", "return RANGE_SET_DONE;"),
    Mutant("more ranges follow each full buffer", SETS,
           "    if (!NAME(has_more)(&set, from, end)) return NAME(write_result)(len, out, room, result);\n", ""),
    Mutant("more ranges follow the last one", SETS, " || (last.has_end && from >= last.end)) return false;", ") return false;"),
    Mutant("no range follows below an end", SETS, " || EXPORT(chunked_intersects_range)(set, from, *end);", ";"),
    Mutant("the last range follows wherever the end lies", SETS, "end == NULL || last.start < *end || ", "true || "),
    Mutant("more ranges follow below a start", SETS, "    if (end != NULL && from >= *end) return false;\n", ""),
    Mutant("the range from the greatest number on is lost", SETS, "(len / 2 < room / 2 && end != NULL)", "(len / 2 < room / 2)"),
    Mutant("a range without an end has no room in the last number", SETS,
           "if (len < room && NAME(chunked_range_from)", "if (len + 1 < room && NAME(chunked_range_from)"),
    Mutant("ranges in chunks need no length", SETS,
           "    if (room < 2) return NAME(write_result)(NAME(write_ranges_len)(set, start, end), out, room, result);\n", ""),
    Mutant("the length is that of the first ranges", SETS, "        len += part.len;\n", "        len = part.len;\n"),
    Mutant("chunked_copy takes any buffer", SETS,
           f"    if (!is_array(out, room, sizeof *out) || !NAME(is_result)(result, out, room)) {BAD}    return NAME(write_result)(set.at",
           "    return NAME(write_result)(set.at"),
    Mutant("gaps in chunks go on past the end", SETS, "if (some[i] > start && some[i] < end)", "if (some[i] > start)"),
    Mutant("gaps in chunks begin before the start", SETS, "if (some[i] > start && some[i] < end)", "if (some[i] < end)"),
    Mutant("gaps in chunks leave out the one at the start", SETS,
           "    if (start < end && !NAME(chunked_contains)(set, start)) len = NAME(append_number)(start, out, room, len);\n", ""),
    Mutant("the last gap in chunks has no end", SETS, "    if (len % 2 == 1) len = NAME(append_number)(end, out, room, len);\n", ""),
    Mutant("gaps in chunks are written anywhere", SETS, "if (len < room) out[len] = number;", "out[len] = number;"),
    Mutant("gaps in chunks take any buffer", SETS,
           f"    if (!is_array(out, room, sizeof *out) || !NAME(is_result)(result, out, room)) {BAD}    if (start < end && !", "    if (start < end && !"),
    Mutant("a difference from few ranges is a union", SETS, "done = keep == RANGE_SET_UNION ? EXPORT(chunked_insert_all)", "done = keep != 0 ? EXPORT(chunked_insert_all)"),
    Mutant("few ranges are taken out by each connective", SETS, " && (keep == RANGE_SET_UNION || keep == RANGE_SET_DIFFERENCE)) {", ") {"),
    Mutant("contains_each takes any array", SETS,
           "    if (!is_array(values, count, sizeof *values) || !is_array(found, count, sizeof *found)\n        || overlap(found", "    if (overlap(found"),
    Mutant("contains_each answers in its values", SETS, "        || overlap(found, size, values, count * sizeof *values)\n", ""),
    Mutant("contains_each answers in its set", SETS,
           "        || (set.boundaries != NULL && overlap(found, size, set.boundaries, set.len * sizeof *set.boundaries)))\n", "        )\n"),
    Mutant("a connective of no set in chunks", SETS, "if (set == NULL || set->at == NULL || overlap(set", "if (overlap(set"),
    Mutant("a connective of a list in the struct", SETS, " || overlap(set, sizeof *set, other.boundaries, other_len * sizeof *items))", ")"),
    Mutant("a connective has no room for the least number", SETS, "room = len + other_len + 1;", "room = len + other_len;"),
    Mutant("a connective without memory is done", SETS, "EXPORT(chunked_of)(&made, LIST(list)))",
           "(EXPORT(chunked_of)(&made, LIST(list)) || true))", "test_refused"),
    Mutant("chunked_clone without memory is done", SETS, "EXPORT(chunked_clone)(copy, &set) ? RANGE_SET_DONE : RANGE_SET_NO_MEMORY",
           "EXPORT(chunked_clone)(copy, &set) ? RANGE_SET_DONE : RANGE_SET_DONE", "test_refused"),
    Mutant("chunked_clone writes to null", SETS, f"    if (copy == NULL) {BAD}", ""),
    Mutant("a copy in chunks is the set itself", SETS, "    copy->at = NULL;\n    return EXPORT(chunked_clone)",
           "    *copy = set;\n    return RANGE_SET_DONE;\n    return EXPORT(chunked_clone)"),
    Mutant("no set in chunks is copied", SETS, "    if (set.at == NULL) return NAME(chunked_new)(copy);\n", ""),
    Mutant("values in chunks are any array", SETS, "set == NULL || !is_array(values, count, 2 * sizeof *values) || overlap", "set == NULL || overlap"),
    Mutant("values in chunks are written over", SETS, " || overlap(set, sizeof *set, values, count * sizeof *values))\n        return RANGE_SET_BAD_ARGUMENT;\n    items",
           ")\n        return RANGE_SET_BAD_ARGUMENT;\n    items"),
    Mutant("no set in chunks intersects another", SETS, "return a.at != NULL && b.at != NULL && EXPORT", "return EXPORT"),
    Mutant("each set in chunks lies in none", SETS, "return a.at == b.at || NAME(chunked_is_empty)(a);", "return true;"),
    Mutant("no set in chunks lies in another", SETS, "return a.at == NULL || EXPORT(chunked_is_subset)", "return EXPORT(chunked_is_subset)"),
    Mutant("no set in chunks equals another", SETS, "if (a.at == b.at || a.at == NULL || b.at == NULL) return NAME", "if (a.at == b.at) return NAME"),
    Mutant("a text in chunks has no commas", SETS, 'if (room > 0) memcpy(text + len, ", ", 2);', ""),
    Mutant("a text in chunks needs no commas", SETS, "            len += 2;\n", ""),
    Mutant("a text in chunks has any room", SETS, "    if (*len > room) return RANGE_SET_NO_ROOM;\n", ""),
    Mutant("a text in chunks takes any buffer", SETS, f"    if (!NAME(is_apart_from_text)(NAME(no_member), text, room, len)) {BAD}", ""),
    Mutant("each insert is a change", SETS, "changed != NULL && !NAME(contains_range)(buffer->set, start, end);", "changed != NULL;"),
    Mutant("each remove is a change", SETS, "changed != NULL && NAME(intersects_range)(buffer->set, start, end);", "changed != NULL;"),
    Mutant("each insert in chunks is a change", SETS, "set != NULL && !NAME(chunked_contains_range)(*set, start, end);", "set != NULL;"),
    Mutant("each remove in chunks is a change", SETS, "set != NULL && NAME(chunked_intersects_range)(*set, start, end);", "set != NULL;"),
    Mutant("a change without room is written", SETS, "if (status == RANGE_SET_DONE) *changed = changes;", "*changed = changes;"),
    Mutant("keys without a value are the next", MAPS, "    if (!it.has_value && it.has_end) it = NAME(range_at)(map, it.end);\n", ""),
    Mutant("what isn't next is written", MAPS, "if (it.has_value && stretch != NULL) *stretch = it;", "if (stretch != NULL) *stretch = it;"),
    Mutant("next writes to null", MAPS, "if (it.has_value && stretch != NULL) *stretch = it;", "if (it.has_value) *stretch = it;"),
    Mutant("a map that is refused is kept", MAPS, "    if (status != RANGE_SET_DONE) NAME(free)(&made);\n", "", "test_refused"),
    Mutant("a map of any lists", MAPS, "|| !is_array(ranges, count, 2 * sizeof *ranges) || !is_array(values, count, sizeof *values)\n        ", ""),
    Mutant("a map in its ranges", MAPS, "|| overlap(map, sizeof *map, ranges, 2 * count * sizeof *ranges) ", ""),
    Mutant("a map in its values", MAPS, " || overlap(map, sizeof *map, values, count * sizeof *values))", ")"),
    Mutant("no map is copied", MAPS, "    if (map.at == NULL) return NAME(new)(copy);\n", ""),
    Mutant("a copy without memory is done", MAPS, "(HELD *)&map) ? RANGE_SET_DONE : RANGE_SET_NO_MEMORY;",
           "(HELD *)&map) ? RANGE_SET_DONE : RANGE_SET_DONE;", "test_refused"),
    Mutant("no map has next ranges", MAPS, "if (map.at == NULL || room == 0 || !is_array(out", "if (room == 0 || !is_array(out"),
    Mutant("next ranges are written to null", MAPS, "|| room == 0 || !is_array(out, room, sizeof *out)) return 0;", "|| room == 0) return 0;"),
    Mutant("next ranges are some", MAPS, "while (found == 2 * some && len < room);", "while (false);"),
    Mutant("the greatest key has no next range", MAPS, "if (last.has_value) out[len++] = last;", "(void)last;"),
    Mutant("the last range is next twice", MAPS, " && (len == 0 || out[len - 1].has_end)) {", ") {"),
    Mutant("next ranges are written to no buffer", MAPS, "if (is_array(out, room, sizeof *out) && len < room", "if (len < room"),
    Mutant("the last range has an end", MAPS, "const bool has_end = 2 * i + 1 < found;", "const bool has_end = true;"),
    Mutant("next ranges go on from the last start", MAPS, "from = has_end ? ends[2 * i + 1] : 0;", "from = has_end ? ends[2 * i] : 0;"),
    Mutant("of ranges in a list the first one around a key holds", MAPS,
           "for (i = 0; status == RANGE_SET_DONE && i < count; i++) status = NAME(insert)(&made, ranges[2 * i], ranges[2 * i + 1], values[i]);",
           "for (i = count; status == RANGE_SET_DONE && i > 0; i--) "
           "status = NAME(insert)(&made, ranges[2 * i - 2], ranges[2 * i - 1], values[i - 1]);"),
    Mutant("a copy is the map itself", MAPS, "    copy->at = NULL;\n    return EXPORT(copy)", "    *copy = map;\n    return RANGE_SET_DONE;\n    return EXPORT(copy)"),
    Mutant("a copy is written to null", MAPS, f"    if (copy == NULL) {BAD}", ""),
    Mutant("a new map is written to null", MAPS, f"    if (map == NULL) {BAD}", ""),
    Mutant("a new map without memory is done", MAPS,
           "EXPORT(new)((HELD *)map) ? RANGE_SET_DONE : RANGE_SET_NO_MEMORY", "EXPORT(new)((HELD *)map) ? RANGE_SET_DONE : RANGE_SET_DONE", "test_refused"),
    Mutant("no map is freed", MAPS, "if (map != NULL && map->at != NULL) EXPORT(free)((HELD *)map);", "EXPORT(free)((HELD *)map);"),
    *(mutant for call in ("insert", "remove", "insert_from", "remove_from") for mutant in held(MAPS, "", "map", call)),
    Mutant("no map is cleared", MAPS, "if (map != NULL && map->at != NULL) EXPORT(clear)((HELD *)map);", "EXPORT(clear)((HELD *)map);"),
    Mutant("ranges past the end overlap", MAPS, "write_ranges)(map, start, end, out, room);", "write_ranges)(map, start, GREATEST, out, room);"),
    Mutant("keys without a value are the last", MAPS,
           "    if (!it.has_value && it.has_start) it = NAME(range_at)(map, it.start - 1);\n", ""),
    Mutant("a span ends with the first range", MAPS, "(RANGE){first.start, last.end, last.has_end}", "(RANGE){first.start, first.end, first.has_end}"),
    Mutant("keys with a value are gaps", MAPS, "        if (it.has_value) continue;\n", ""),
    Mutant("gaps of a map go on past the end", MAPS, "CALL(append_number)(more ? it.end : end, out", "CALL(append_number)(it.end, out"),
    Mutant("gaps of a map take any buffer", MAPS,
           f"    if (!is_array(out, room, sizeof *out) || !CALL(is_result)(result, out, room)) {BAD}    for", "    for"),
    Mutant("values leave room", MAPS, "if (!it.has_value && NAME(fits)", "if (NAME(fits)"),
    Mutant("a fit of a map goes on past the end", MAPS, "NAME(fits)(start, more ? &it.end : end, count", "NAME(fits)(start, it.has_end ? &it.end : end, count"),
    Mutant("a count of 0 fits beside no value", MAPS, "    if (count == 0) return NAME(fits)(start, end, count, align, first);\n", ""),
    Mutant("the keys of the last range alone are covered", MAPS, "total += (COUNT)", "total = (COUNT)"),
    Mutant("the number of keys is written without an end", MAPS, "if (!more && count != NULL) *count = total;", "if (count != NULL) *count = total;"),
    Mutant("a range of a map has no start", MAPS, "it.start = (NUMBER)start, it.end", "it.end"),
    Mutant("a range of a map has no end", MAPS, ", it.end = (NUMBER)end;", ";"),
    Mutant("no map has a value", MAPS, "bool found = map.at != NULL && ", "bool found = "),
    Mutant("a key without a value has one", MAPS, "if (found && value != NULL) *value = it;", "if (value != NULL) *value = it;"),
]

MUTANTS = POINTERS + WRITING + TEXTS + IN_PLACE + OWNED + HEAP + HELD


def run(*words):
    return subprocess.run([str(it) for it in words], stdin=subprocess.DEVNULL, stdout=subprocess.PIPE, stderr=subprocess.STDOUT, text=True,
                          errors="replace", timeout=LONGEST, check=False)


def leave_one_type(types, name):
    """Leaves one type of those that the layer is included for."""
    blocks = types.read_text(encoding="utf-8").split("\n\n")
    kept = [it for it in blocks if not it.startswith("#define TYPE ") or it.startswith(f"#define TYPE {name}\n")]
    types.write_text("\n\n".join(kept) + "\n", encoding="utf-8")


class Layer:
    """Folders in which mutants are built and tested, beside the proved object and the tests, which are built once."""

    def __init__(self, folder):
        self.folder = folder
        shutil.copy(LIBRARY, folder)
        proved = ["--globalize-symbol=proved_*", "--localize-symbol=range_set_*", "--localize-symbol=range_map_*"]
        subprocess.run(["ar", "x", LIBRARY.name], cwd=folder, check=True)
        subprocess.run(["objcopy", "-w", *proved, "--globalize-symbol=range_heap_*", "range_set.o", "proved.o"], cwd=folder, check=True)
        # Its memory comes from the mutant.
        subprocess.run(["objcopy", "-w", "--weaken-symbol=range_heap_*", "proved.o"], cwd=folder, check=True)
        for test in TESTS:
            self.compile(test, C / "include", folder)
        subprocess.run([*COMPILED, C / LAYER, "-o", folder / "layer.o"], check=True)

    @staticmethod
    def compile(test, header, folder):
        """Compiles a test, and what the header in that folder defines with it."""
        subprocess.run(["cc", "-std=c99", "-O1", f"-I{header}", "-c", C / "tests" / f"{test}.c", "-o", folder / f"{test}.o"], check=True)

    def fault_of(self, mutant):
        """What is wrong with a mutant, or nothing where it compiles and its test fails. None stands for the layer as it is."""
        with tempfile.TemporaryDirectory(dir=self.folder) as name:
            folder = Path(name)
            for path in SOURCES:
                shutil.copy(path, folder)
            if mutant:
                texts = {path: path.read_text(encoding="utf-8") for path in folder.glob(mutant.file)}
                times = sum(it.count(mutant.text) for it in texts.values())
                if times != 1:
                    return f"its text stands {times} times in {mutant.file}"
                for path, kept in texts.items():
                    path.write_text(kept.replace(mutant.text, mutant.other), encoding="utf-8")
            if mutant and mutant.file in FIRST:
                leave_one_type(folder / "each_type.h", FIRST[mutant.file])
            built = run(*COMPILED, folder / LAYER, "-o", folder / "layer.o")
            if built.returncode:
                return f"it doesn't compile:\n{built.stdout[-2000:]}"
            if mutant and mutant.file == HEADER:
                self.compile(mutant.test, folder, folder)
            tests = [mutant.test] if mutant else list(TESTS)
            passing = all(self.passes(folder, test) for test in tests)
            return None if passing != bool(mutant) else "no test sees it" if mutant else "the tests fail without a mutant"

    def passes(self, folder, test):
        # Of names that the layer as it is has too the first is taken.
        own = folder / f"{test}.o"
        objects = [own if own.exists() else self.folder / own.name, folder / "layer.o", self.folder / "layer.o", self.folder / "proved.o"]
        subprocess.run(["cc", *objects, "-Wl,-z,muldefs", *([WRAPPED] if test == "test_refused" else []), "-o", folder / test], check=True)
        try:
            return run(folder / test, *TESTS[test]).returncode == 0
        except subprocess.TimeoutExpired:
            return False


def main(words):
    missing = [it for it in ("cc", "ar", "objcopy") if not shutil.which(it)]
    if missing:
        print(f"c_mutants: SKIPPED: {missing[0]} is missing; on Debian the packages gcc and binutils bring it")
        return SKIPPED
    mutants = [None] + [it for it in MUTANTS if not words or any(word in it.name for word in words)]
    with tempfile.TemporaryDirectory() as folder:
        layer = Layer(Path(folder))
        with ThreadPoolExecutor(os.cpu_count()) as pool:
            faults = list(pool.map(layer.fault_of, mutants))
    for mutant, fault in zip(mutants, faults):
        if fault:
            print(f"c_mutants: FAILED: {mutant.name if mutant else 'the layer'}: {fault}")
    failed = sum(fault is not None for fault in faults)
    print(f"{len(faults) - failed} passed, {failed} failed, 0 skipped")
    return 1 if failed else 0


if __name__ == "__main__":
    sys.exit(main(sys.argv[1:]))
