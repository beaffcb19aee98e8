/* Sets in chunks, over malloc. If memory runs out, the set is as it was. Included by range_set_calls.h. */

range_set_status NAME(chunked_new)(CHUNKED *set)
{
    if (set == NULL) return RANGE_SET_BAD_ARGUMENT;
    set->at = NULL;
    return EXPORT(chunked_new)(set) ? RANGE_SET_DONE : RANGE_SET_NO_MEMORY;
}

range_set_status NAME(chunked_of)(SET list, CHUNKED *set)
{
    if (set == NULL || (list.boundaries != NULL && overlap(set, sizeof *set, list.boundaries, list.len * sizeof *list.boundaries)))
        return RANGE_SET_BAD_ARGUMENT;
    if (!EXPORT(is_sorted)(LIST(list))) return RANGE_SET_NOT_SORTED;
    set->at = NULL;
    return EXPORT(chunked_of)(set, LIST(list)) ? RANGE_SET_DONE : RANGE_SET_NO_MEMORY;
}

range_set_status NAME(chunked_clone)(CHUNKED set, CHUNKED *copy)
{
    if (copy == NULL) return RANGE_SET_BAD_ARGUMENT;
    if (set.at == NULL) return NAME(chunked_new)(copy);
    copy->at = NULL;
    return EXPORT(chunked_clone)(copy, &set) ? RANGE_SET_DONE : RANGE_SET_NO_MEMORY;
}

/* Memory for a list, and null if there is none. */
static NUMBER *NAME(list_of)(size_t len)
{
    return len <= PTRDIFF_MAX / sizeof(NUMBER) ? range_heap_malloc((len + (len == 0)) * sizeof(NUMBER)) : NULL;
}

range_set_status NAME(chunked_from_values)(const NUMBER *values, size_t count, CHUNKED *set)
{
    NUMBER *items;
    SET list;
    range_set_status status;
    if (set == NULL || !is_array(values, count, 2 * sizeof *values) || overlap(set, sizeof *set, values, count * sizeof *values))
        return RANGE_SET_BAD_ARGUMENT;
    items = NAME(list_of)(2 * count);
    if (items == NULL) return RANGE_SET_NO_MEMORY;
    status = NAME(from_values)(values, count, items, 2 * count, &list);
    if (status == RANGE_SET_DONE) status = NAME(chunked_of)(list, set);
    range_heap_free(items);
    return status;
}

/* A set and itself are asked as one: the exports take two. */
bool NAME(chunked_intersects)(CHUNKED a, CHUNKED b)
{
    if (a.at == b.at) return !NAME(chunked_is_empty)(a);
    return a.at != NULL && b.at != NULL && EXPORT(chunked_intersects)(&a, &b);
}

bool NAME(chunked_is_subset)(CHUNKED a, CHUNKED b)
{
    if (a.at == b.at || b.at == NULL) return a.at == b.at || NAME(chunked_is_empty)(a);
    return a.at == NULL || EXPORT(chunked_is_subset)(&a, &b);
}

bool NAME(chunked_equal)(CHUNKED a, CHUNKED b)
{
    if (a.at == b.at || a.at == NULL || b.at == NULL) return NAME(chunked_is_subset)(a, b) && NAME(chunked_is_subset)(b, a);
    return EXPORT(chunked_equal)(&a, &b);
}

bool NAME(chunked_next)(CHUNKED set, NUMBER from, RANGE *range)
{
    RANGE it = {0, 0, false};
    bool found = NAME(chunked_next_member)(set, from, &it.start);
    if (found) it.has_end = NAME(chunked_next_gap)(set, it.start, &it.end);
    return NAME(write_range)(found, it, range);
}

/* Whether a range has a number at or above `from`, and below `end` if that isn't null. A search is made only if the last range begins at or
 * above the end. */
static inline bool NAME(has_more)(CHUNKED *set, NUMBER from, const NUMBER *end)
{
    RANGE last;
    if (end != NULL && from >= *end) return false;
    if (!EXPORT(chunked_last)(set, PARTS(&last)) || (last.has_end && from >= last.end)) return false;
    return end == NULL || last.start < *end || EXPORT(chunked_intersects_range)(set, from, *end);
}

static size_t NAME(write_ranges_len)(CHUNKED set, NUMBER start, const NUMBER *end);

/* Writes the ranges that have a number at or above `start`, and below `end` if that isn't null. The export writes room / 2 of them at most.
 * It always looks below an end, and so never at the greatest number: a last range without an end, of one boundary, may be left to write. */
static WITHIN range_set_status NAME(write_ranges)(CHUNKED set, NUMBER start, const NUMBER *end, NUMBER *out, size_t room, SET *result)
{
    RANGE next;
    NUMBER from = start;
    size_t len;
    if (!is_array(out, room, sizeof *out) || !NAME(is_result)(result, out, room)) return RANGE_SET_BAD_ARGUMENT;
    if (set.at == NULL) return NAME(write_result)(0, out, room, result);
    len = EXPORT(chunked_overlapping)(&set, start, end != NULL ? *end : MOST, ROOM(out, room));
    if (len % 2 == 1 || (len / 2 < room / 2 && end != NULL)) return NAME(write_result)(len, out, room, result);
    if (len > 0) from = out[len - 1];
    if (!NAME(has_more)(&set, from, end)) return NAME(write_result)(len, out, room, result);
    if (len < room && NAME(chunked_range_from)(set, from, &next) && !next.has_end) {
        out[len] = next.start;
        return NAME(write_result)(len + 1, out, room, result);
    }
    if (room < 2) return NAME(write_result)(NAME(write_ranges_len)(set, start, end), out, room, result);
    *result = NAME(set_of)(out, len);
    return RANGE_SET_MORE;
}

/* How many boundaries those ranges have. They are written SOME at a time: with that room `write_ranges` never asks for the length again,
 * and has written at least one range if more follow. */
static size_t NAME(write_ranges_len)(CHUNKED set, NUMBER start, const NUMBER *end)
{
    enum { SOME = 64 };
    NUMBER some[SOME];
    size_t len = 0;
    SET part;
    while (NAME(write_ranges)(set, start, end, some, SOME, &part) == RANGE_SET_MORE) {
        len += part.len;
        start = some[part.len - 1];
    }
    return len + part.len;
}

range_set_status NAME(chunked_overlapping)(CHUNKED set, NUMBER start, NUMBER end, NUMBER *out, size_t room, SET *result)
{
    return NAME(write_ranges)(set, start, &end, out, room, result);
}

range_set_status NAME(chunked_next_ranges)(CHUNKED set, NUMBER from, NUMBER *out, size_t room, SET *result)
{
    return NAME(write_ranges)(set, from, NULL, out, room, result);
}

size_t NAME(chunked_boundaries_len)(CHUNKED set)
{
    return set.at != NULL ? EXPORT(chunked_boundaries_len)(&set) : 0;
}

range_set_status NAME(chunked_copy)(CHUNKED set, NUMBER *out, size_t room, SET *result)
{
    if (!is_array(out, room, sizeof *out) || !NAME(is_result)(result, out, room)) return RANGE_SET_BAD_ARGUMENT;
    return NAME(write_result)(set.at != NULL ? EXPORT(chunked_copy)(&set, ROOM(out, room)) : 0, out, room, result);
}

/* Some ranges at a time, and a comma and a space before all but the first. Without room for all it only counts. */
static size_t NAME(put_text)(CHUNKED set, char *text, size_t room)
{
    enum { SOME = 64 };
    NUMBER some[SOME], from = LEAST;
    range_set_status status = RANGE_SET_MORE;
    size_t len = 0, part_len;
    SET part;
    while (status == RANGE_SET_MORE) {
        status = NAME(write_ranges)(set, from, NULL, some, SOME, &part);
        if (len > 0) {
            if (room > 0) memcpy(text + len, ", ", 2);
            len += 2;
        }
        if (NAME(print)(part, room > 0 ? text + len : NULL, room > 0 ? room - len : 0, &part_len) != RANGE_SET_DONE) room = 0;
        len += part_len;
        from = some[SOME - 1];
    }
    return len;
}

range_set_status NAME(chunked_print)(CHUNKED set, char *text, size_t room, size_t *len)
{
    if (!NAME(is_apart_from_text)(NAME(no_member), text, room, len)) return RANGE_SET_BAD_ARGUMENT;
    *len = NAME(put_text)(set, NULL, 0);
    if (*len > room) return RANGE_SET_NO_ROOM;
    NAME(put_text)(set, text, room);
    return RANGE_SET_DONE;
}

/* Writes a number behind `len` others, where there is room, and returns how many there are. */
static inline size_t NAME(append_number)(NUMBER number, NUMBER *out, size_t room, size_t len)
{
    if (len < room) out[len] = number;
    return len + 1;
}

/* The ranges there are read some at a time. Between the two each boundary is the start or the end of a gap. */
range_set_status NAME(chunked_gaps)(CHUNKED set, NUMBER start, NUMBER end, NUMBER *out, size_t room, SET *result)
{
    enum { SOME = 64 };
    NUMBER some[SOME], from = start;
    range_set_status status = start < end ? RANGE_SET_MORE : RANGE_SET_DONE;
    size_t len = 0, i;
    SET part;
    if (!is_array(out, room, sizeof *out) || !NAME(is_result)(result, out, room)) return RANGE_SET_BAD_ARGUMENT;
    if (start < end && !NAME(chunked_contains)(set, start)) len = NAME(append_number)(start, out, room, len);
    while (status == RANGE_SET_MORE) {
        status = NAME(write_ranges)(set, from, &end, some, SOME, &part);
        for (i = 0; i < part.len; i++)
            if (some[i] > start && some[i] < end) len = NAME(append_number)(some[i], out, room, len);
        from = some[SOME - 1];
    }
    if (len % 2 == 1) len = NAME(append_number)(end, out, room, len);
    return NAME(write_result)(len, out, room, result);
}

/* A union with few ranges, or the difference from them, changes the set where these lie. Else it is by a list of both, beside one of the
 * set. */
range_set_status NAME(chunked_combine)(CHUNKED *set, SET other, unsigned keep)
{
    size_t other_len = other.boundaries ? other.len : 0, len, room;
    NUMBER *items;
    SET list;
    CHUNKED made = {NULL};
    bool done;
    range_set_status status = RANGE_SET_NO_MEMORY;
    if (set == NULL || set->at == NULL || overlap(set, sizeof *set, other.boundaries, other_len * sizeof *items))
        return RANGE_SET_BAD_ARGUMENT;
    if (!EXPORT(is_sorted)(LIST(other))) return RANGE_SET_NOT_SORTED;
    keep &= RANGE_SET_UNION | RANGE_SET_NEITHER;
    len = NAME(chunked_boundaries_len)(*set), room = len + other_len + 1;
    if (other_len <= len / 256 + 2 && (keep == RANGE_SET_UNION || keep == RANGE_SET_DIFFERENCE)) {
        done = keep == RANGE_SET_UNION ? EXPORT(chunked_insert_all)(set, LIST(other)) : EXPORT(chunked_remove_all)(set, LIST(other));
        return done ? RANGE_SET_DONE : RANGE_SET_NO_MEMORY;
    }
    items = NAME(list_of)(len + room);
    if (items == NULL) return RANGE_SET_NO_MEMORY;
    if (NAME(chunked_copy)(*set, items, len, &list) == RANGE_SET_DONE
        && NAME(combine)(list, other, keep, items + len, room, &list) == RANGE_SET_DONE && EXPORT(chunked_of)(&made, LIST(list)))
        status = RANGE_SET_DONE;
    range_heap_free(items);
    if (status != RANGE_SET_DONE) return status;
    NAME(chunked_free)(set);
    *set = made;
    return status;
}

range_set_status NAME(chunked_combine_chunked)(CHUNKED *set, CHUNKED other, unsigned keep)
{
    const size_t len = NAME(chunked_boundaries_len)(other);
    NUMBER *items = NAME(list_of)(len);
    SET list;
    range_set_status status;
    if (items == NULL) return RANGE_SET_NO_MEMORY;
    status = NAME(chunked_copy)(other, items, len, &list);
    if (status == RANGE_SET_DONE) status = NAME(chunked_combine)(set, list, keep);
    range_heap_free(items);
    return status;
}

range_set_status NAME(chunked_insert_changed)(CHUNKED *set, NUMBER start, NUMBER end, bool *changed)
{
    bool changes = set != NULL && !NAME(chunked_contains_range)(*set, start, end);
    return NAME(write_change)(changed != NULL ? NAME(chunked_insert)(set, start, end) : RANGE_SET_BAD_ARGUMENT, changes, changed);
}

range_set_status NAME(chunked_remove_changed)(CHUNKED *set, NUMBER start, NUMBER end, bool *changed)
{
    bool changes = set != NULL && NAME(chunked_intersects_range)(*set, start, end);
    return NAME(write_change)(changed != NULL ? NAME(chunked_remove)(set, start, end) : RANGE_SET_BAD_ARGUMENT, changes, changed);
}
