/* What every export for one type of numbers answers and writes, by the names of each_type.h. */

#define EXPORT(call) EXPORTED(PREFIX, CALL(call))
#include "../range_set_exports.h"

/* A number: small, among the ranges of some chunks, or near the least or the greatest. */
static NUMBER TEST(number)(struct input *input)
{
    const uint8_t byte = next(input);
    if (byte >= 0xf0) return (NUMBER)(MOST - (NUMBER)(byte - 0xf0));
    if (byte >= 0xe0) return (NUMBER)(LEAST + (NUMBER)(byte - 0xe0));
    return (NUMBER)(byte >= 0xc0 ? 100 * (byte - 0xc0) : byte % 64);
}

static size_t TEST(list)(struct input *input, NUMBER *items)
{
    const size_t len = next(input) % ITEMS;
    for (size_t i = 0; i < len; i++) items[i] = TEST(number)(input);
    return len;
}

/* A list, or of a long one a number that all of it makes. */
static void TEST(note_list)(struct log *log, const NUMBER *items, size_t len)
{
    uint64_t all = 0xcbf29ce484222325u;
    note(log, len);
    for (size_t i = 0; i < len; i++) {
        if (len <= 2 * ROOM) note(log, (uint64_t)items[i]);
        else all = (all ^ (uint64_t)items[i]) * 0x100000001b3u;
    }
    if (len > 2 * ROOM) note(log, all);
}

static void TEST(tell_range)(struct log *log, bool found, RANGE range)
{
    note(log, found);
    note(log, (uint64_t)range.start);
    note(log, (uint64_t)range.end);
    note(log, range.has_end);
}

/* The questions about one list, and one of two. */
static void TEST(questions)(struct log *log, SET a, SET b, NUMBER x, NUMBER y, uint64_t k)
{
    const NUMBER *list = a.boundaries, *other = b.boundaries;
    const size_t len = a.len, other_len = b.len;
    const NUMBER backwards[] = {x, y, x};
    char each[ITEMS];
    RANGE it = {7, 7, false};
    NUMBER at = 7;
    uint64_t count = 7;
    size_t below = 7, from = 7;
    bool found;
    note(log, EXPORT(contains)(list, len, x));
    EXPORT(contains_each)(list, len, other, other_len, each, other_len);
    for (size_t i = 0; i < other_len; i++) note(log, (uint64_t)each[i]);
    EXPORT(contains_each)(list, len, backwards, 3, each, 3);
    for (size_t i = 0; i < 3; i++) note(log, (uint64_t)each[i]);
    note(log, EXPORT(contains_range)(list, len, x, y));
    note(log, EXPORT(intersects_range)(list, len, x, y));
    note(log, EXPORT(is_empty)(list, len));
    note(log, EXPORT(is_all)(list, len));
    note(log, EXPORT(ranges_len)(list, len));
    found = EXPORT(range_at)(list, len, x, &it.start, &it.end, &it.has_end), TEST(tell_range)(log, found, it);
    found = EXPORT(range_from)(list, len, x, &it.start, &it.end, &it.has_end), TEST(tell_range)(log, found, it);
    found = EXPORT(range)(list, len, (size_t)k, &it.start, &it.end, &it.has_end), TEST(tell_range)(log, found, it);
    found = EXPORT(first)(list, len, &it.start, &it.end, &it.has_end), TEST(tell_range)(log, found, it);
    found = EXPORT(last)(list, len, &it.start, &it.end, &it.has_end), TEST(tell_range)(log, found, it);
    note(log, EXPORT(next_member)(list, len, x, &at)), note(log, (uint64_t)at);
    note(log, EXPORT(next_gap)(list, len, x, &at)), note(log, (uint64_t)at);
    note(log, EXPORT(prev_member)(list, len, x, &at)), note(log, (uint64_t)at);
    note(log, EXPORT(prev_gap)(list, len, x, &at)), note(log, (uint64_t)at);
    note(log, EXPORT(select)(list, len, k, &at)), note(log, (uint64_t)at);
    note(log, EXPORT(rank)(list, len, x));
    note(log, EXPORT(first_fit)(list, len, x, y, (COUNT)k, &at)), note(log, (uint64_t)at);
    note(log, EXPORT(first_fit_aligned)(list, len, x, y, (COUNT)(k / 16), (COUNT)(k % 16), &at)), note(log, (uint64_t)at);
    note(log, EXPORT(first_run)(list, len, x, y, (COUNT)k, &at)), note(log, (uint64_t)at);
    note(log, EXPORT(first_fit_from)(list, len, x, (COUNT)k, &at)), note(log, (uint64_t)at);
    note(log, EXPORT(first_fit_aligned_from)(list, len, x, (COUNT)(k / 16), (COUNT)(k % 16), &at)), note(log, (uint64_t)at);
    note(log, EXPORT(first_run_from)(list, len, x, (COUNT)k, &at)), note(log, (uint64_t)at);
    note(log, EXPORT(covered)(list, len, &count)), note(log, count);
    note(log, EXPORT(is_disjoint)(list, len, other, other_len));
    note(log, EXPORT(intersects)(list, len, other, other_len));
    note(log, EXPORT(is_subset)(list, len, other, other_len));
    note(log, EXPORT(equal)(list, len, other, other_len));
    EXPORT(split)(list, len, x, &below, &from);
    note(log, below), note(log, from);
}

/* The exports that write a list, into so much room, and what stands in the buffer then, unless it was too short. */
static void TEST(operations)(struct log *log, SET a, SET b, NUMBER x, NUMBER y, unsigned keep, size_t room)
{
    for (unsigned call = 0; call < 4; call++) {
        NUMBER out[ROOM] = {0};
        size_t len;
        switch (call) {
        case 0: len = EXPORT(combine)(a.boundaries, a.len, b.boundaries, b.len, keep % 8, out, room); break;
        case 1: len = EXPORT(combine_from)(a.boundaries, a.len, b.boundaries, b.len, keep, out, room); break;
        case 2: len = EXPORT(negation)(a.boundaries, a.len, out, room); break;
        default: len = EXPORT(gaps)(a.boundaries, a.len, x, y, out, room); break;
        }
        note(log, len);
        if (len <= room) TEST(note_list)(log, out, ROOM);
    }
}

/* The exports that change a list in its buffer, with so much room, and what stands there then. */
static void TEST(in_place)(struct log *log, SET a, SET b, NUMBER x, NUMBER y, unsigned keep, size_t room)
{
    if (room < a.len) room = a.len;
    for (unsigned call = 0; call < 3; call++) {
        NUMBER items[ROOM] = {0};
        size_t len;
        memcpy(items, a.boundaries, a.len * sizeof *items);
        switch (call) {
        case 0: len = EXPORT(insert)(items, room, a.len, x, y); break;
        case 1: len = EXPORT(remove)(items, room, a.len, x, y); break;
        default: len = EXPORT(combine_within)(items, room, a.len, b.boundaries, b.len, keep % 8); break;
        }
        note(log, len);
        TEST(note_list)(log, items, len <= room ? len : a.len);
    }
}

/* Numbers and ranges in any order. */
static void TEST(any_order)(struct log *log, const NUMBER *items, size_t len, bool is_open, NUMBER open)
{
    NUMBER list[ITEMS] = {0};
    size_t count;
    memcpy(list, items, len * sizeof *list);
    TEST(note_list)(log, list, EXPORT(from_unsorted)(list, len));
    memcpy(list, items, len * sizeof *list);
    TEST(note_list)(log, list, 2 * EXPORT(from_ranges)(list, len / 2));
    memcpy(list, items, len * sizeof *list);
    count = EXPORT(union_from)(list, len / 2, is_open, &open);
    TEST(note_list)(log, list, 2 * count), note(log, is_open ? (uint64_t)open : 7);
    note(log, EXPORT(is_sorted)(items, len));
}

/* A text of a list, and one of the input, which are read back where they are checked. */
static void TEST(texts)(struct log *log, SET a, struct input *input, size_t room)
{
    char text[TEXT];
    size_t len;
    memset(text, '#', sizeof text);
    len = EXPORT(print)(a.boundaries, a.len, text, room * 8), note(log, len);
    tell_bytes(log, text, room * 8);
    if (len > room * 8) len = 0;
    for (unsigned again = 0; again < 2; again++) {
        NUMBER out[TEXT] = {0}, open = 7;
        size_t told = 7;
        bool is_open = false;
        const uint32_t fault = EXPORT(check_text)(text, len, &told);
        note(log, fault), note(log, fault == 2 ? 7 : told);
        if (fault == 0) {
            const size_t count = EXPORT(parse)(text, len, out, told / 2, &is_open, &open);
            TEST(note_list)(log, out, 2 * count), note(log, is_open), note(log, is_open ? (uint64_t)open : 7);
        }
        for (len = 0; len < 32 && input->size > 0; len++) text[len] = texts[next(input) % (sizeof texts - 1)];
    }
}

/* What a set in chunks answers about two numbers and a count. */
static void TEST(asked_in_chunks)(struct log *log, CHUNKED *set, NUMBER start, NUMBER end, uint8_t k, size_t room)
{
    RANGE it = {7, 7, false};
    NUMBER at = 7, out[ROOM] = {0};
    bool found;
    note(log, EXPORT(chunked_contains)(set, end));
    note(log, EXPORT(chunked_contains_range)(set, start, end));
    note(log, EXPORT(chunked_intersects_range)(set, start, end));
    note(log, EXPORT(chunked_next_member)(set, start, &at)), note(log, (uint64_t)at);
    note(log, EXPORT(chunked_next_gap)(set, start, &at)), note(log, (uint64_t)at);
    note(log, EXPORT(chunked_prev_member)(set, start, &at)), note(log, (uint64_t)at);
    note(log, EXPORT(chunked_prev_gap)(set, start, &at)), note(log, (uint64_t)at);
    note(log, EXPORT(chunked_first_fit)(set, start, end, k % 32, &at)), note(log, (uint64_t)at);
    note(log, EXPORT(chunked_first_fit_aligned)(set, start, end, k / 16, k % 16, &at)), note(log, (uint64_t)at);
    note(log, EXPORT(chunked_first_run)(set, start, end, k % 32, &at)), note(log, (uint64_t)at);
    note(log, EXPORT(chunked_first_fit_from)(set, start, k % 32, &at)), note(log, (uint64_t)at);
    note(log, EXPORT(chunked_first_fit_aligned_from)(set, start, k / 16, k % 16, &at)), note(log, (uint64_t)at);
    note(log, EXPORT(chunked_first_run_from)(set, start, k % 32, &at)), note(log, (uint64_t)at);
    note(log, EXPORT(chunked_select)(set, 8u * k, &at)), note(log, (uint64_t)at);
    note(log, EXPORT(chunked_rank)(set, end));
    found = EXPORT(chunked_range_at)(set, start, &it.start, &it.end, &it.has_end), TEST(tell_range)(log, found, it);
    found = EXPORT(chunked_range_from)(set, start, &it.start, &it.end, &it.has_end), TEST(tell_range)(log, found, it);
    TEST(note_list)(log, out, EXPORT(chunked_overlapping)(set, start, end, out, room));
}

/* What it answers about itself, and all its boundaries. */
static void TEST(whole_in_chunks)(struct log *log, CHUNKED *set, size_t room)
{
    NUMBER out[LONGEST];
    RANGE it = {7, 7, false};
    uint64_t count = 7;
    size_t len;
    bool found = EXPORT(chunked_first)(set, &it.start, &it.end, &it.has_end);
    TEST(tell_range)(log, found, it);
    found = EXPORT(chunked_last)(set, &it.start, &it.end, &it.has_end), TEST(tell_range)(log, found, it);
    note(log, EXPORT(chunked_covered)(set, &count)), note(log, count);
    note(log, EXPORT(chunked_is_empty)(set)), note(log, EXPORT(chunked_is_all)(set));
    note(log, EXPORT(chunked_ranges_len)(set)), note(log, EXPORT(chunked_boundaries_len)(set));
    len = EXPORT(chunked_copy)(set, out, room), note(log, len);
    if (len <= room) TEST(note_list)(log, out, len);
    len = EXPORT(chunked_copy)(set, out, LONGEST), note(log, len);
    if (len > log->most) log->most = len;
    if (len <= LONGEST) TEST(note_list)(log, out, len);
}

/* What it answers about a list, and about a copy of itself that has what the list has too. */
static void TEST(beside_in_chunks)(struct log *log, CHUNKED *set, SET list)
{
    CHUNKED copy = {NULL};
    note(log, EXPORT(chunked_intersects_list)(set, list.boundaries, list.len));
    note(log, EXPORT(chunked_is_subset_list)(set, list.boundaries, list.len));
    note(log, EXPORT(chunked_is_superset_list)(set, list.boundaries, list.len));
    note(log, EXPORT(chunked_clone)(&copy, set));
    note(log, EXPORT(chunked_insert_all)(&copy, list.boundaries, list.len));
    note(log, EXPORT(chunked_intersects)(set, &copy)), note(log, EXPORT(chunked_intersects)(&copy, set));
    note(log, EXPORT(chunked_is_subset)(set, &copy)), note(log, EXPORT(chunked_is_subset)(&copy, set));
    note(log, EXPORT(chunked_equal)(set, &copy)), note(log, EXPORT(chunked_equal)(&copy, set));
    note(log, EXPORT(chunked_boundaries_len)(&copy));
    EXPORT(chunked_free)(&copy);
}

/* A set in chunks, changed as often as there are bytes and asked after each, at some changes by hundreds of ranges: a chunk has at most
 * 512 boundaries. */
static void TEST(in_chunks)(struct log *log, SET a, struct input *input, size_t room)
{
    CHUNKED set = {NULL};
    note(log, a.len % 2 == 0 ? EXPORT(chunked_of)(&set, a.boundaries, a.len) : EXPORT(chunked_new)(&set));
    for (unsigned step = 0, many = 0; step < 40 && input->size > 0; step++) {
        const uint8_t call = next(input);
        const NUMBER start = TEST(number)(input), end = TEST(number)(input);
        if (call % 16 == 0) {
            note(log, EXPORT(chunked_insert_from)(&set, start));
        } else if (call % 16 == 1) {
            note(log, EXPORT(chunked_remove_from)(&set, start));
        } else if (call % 16 == 4 || call % 16 == 5) {
            note(log, call % 2 == 0 ? EXPORT(chunked_insert_all)(&set, a.boundaries, a.len)
                                    : EXPORT(chunked_remove_all)(&set, a.boundaries, a.len));
        } else if (call % 16 < 4 && many++ < 3) {
            for (size_t i = 0; i < 4u * (call | 64); i++) {
                const NUMBER from = (NUMBER)(start + (NUMBER)(i * 5 % 1024 * 4));
                note(log, call % 16 == 2 ? EXPORT(chunked_insert)(&set, from, (NUMBER)(from + 2))
                                         : EXPORT(chunked_remove)(&set, from, (NUMBER)(from + 1)));
            }
        } else {
            note(log, call % 2 == 0 ? EXPORT(chunked_insert)(&set, start, end) : EXPORT(chunked_remove)(&set, start, end));
        }
        TEST(asked_in_chunks)(log, &set, start, end, call, room);
        if (step % 8 == 0) TEST(whole_in_chunks)(log, &set, room), TEST(beside_in_chunks)(log, &set, a);
    }
    TEST(whole_in_chunks)(log, &set, room);
    EXPORT(chunked_clear)(&set);
    note(log, EXPORT(chunked_boundaries_len)(&set));
    EXPORT(chunked_free)(&set);
    note(log, set.at == NULL);
}

#undef EXPORT
#if BITS == 64
#define EXPORT(call) EXPORTED(PREFIX, MAP_CALL(call))
#define KEY NUMBER
#define HELD MAP
#include "../range_map_exports.h"

/* A map that is changed as often as there are bytes, and whose copy is then gone over. */
static void TEST(mapped)(struct log *log, struct input *input)
{
    MAP map = {NULL}, copy = {NULL};
    STRETCH it = {LEAST, LEAST, 7, false, true, false};
    uint64_t value = 7, values[3] = {0};
    NUMBER ends[5] = {0};
    note(log, EXPORT(new)(&map));
    for (unsigned step = 0; step < 32 && input->size > 0; step++) {
        const uint8_t call = next(input);
        const NUMBER start = TEST(number)(input), end = TEST(number)(input);
        if (call % 16 == 0) note(log, EXPORT(insert_from)(&map, start, call / 64));
        else if (call % 16 == 1) note(log, EXPORT(remove_from)(&map, start));
        else if (call % 4 == 2) note(log, EXPORT(remove)(&map, start, end));
        else note(log, EXPORT(insert)(&map, start, end, call / 64));
        note(log, EXPORT(get)(&map, end, &value)), note(log, value);
        note(log, EXPORT(len)(&map));
        note(log, EXPORT(overlapping)(&map, start, end, ends, 5, values, 3));
        for (size_t at = 0; at < 5; at++) note(log, (uint64_t)ends[at]);
        for (size_t at = 0; at < 3; at++) note(log, values[at]);
    }
    note(log, EXPORT(copy)(&copy, &map));
    EXPORT(free)(&map);
    note(log, map.at == NULL);
    note(log, EXPORT(len)(&copy));
    while (it.has_end) {
        it.has_end = false;
        note(log, EXPORT(range_at)(&copy, it.end, &it.start, &it.has_start, &it.end, &it.has_end, &it.value));
        note(log, (uint64_t)it.start), note(log, it.has_start), note(log, (uint64_t)it.end), note(log, it.has_end), note(log, it.value);
    }
    EXPORT(clear)(&copy);
    note(log, EXPORT(len)(&copy));
    EXPORT(free)(&copy);
    note(log, copy.at == NULL);
}
#undef EXPORT
#endif
#define EXPORT(call) EXPORTED(PREFIX, CALL(call))

/* Every export, on lists that the input makes. */
static void TEST(answers)(struct log *log, struct input *input)
{
    NUMBER left[ITEMS], right[ITEMS];
    const size_t left_len = TEST(list)(input, left), right_len = TEST(list)(input, right);
    const NUMBER x = TEST(number)(input), y = TEST(number)(input);
    const unsigned keep = next(input) % 16;
    const size_t room = next(input) % ROOM;
    const uint64_t k = next(input);
    SET a, b;
    TEST(any_order)(log, left, left_len, k % 2 == 0, x);
    a.boundaries = left, a.len = EXPORT(from_unsorted)(left, left_len);
    b.boundaries = right, b.len = EXPORT(from_unsorted)(right, right_len);
    TEST(questions)(log, a, b, x, y, k);
    TEST(operations)(log, a, b, x, y, keep, room);
    TEST(in_place)(log, a, b, x, y, keep, room);
    TEST(texts)(log, a, input, room);
    if (k % 2 == 0) TEST(in_chunks)(log, a, input, room);
#if BITS == 64
    TEST(mapped)(log, input);
#endif
}

#undef EXPORT
