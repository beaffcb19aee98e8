/* Operations that write a set into a buffer. Of a buffer that is too short the result is null, with the length that it needs. Included by
 * range_set_calls.h. */

/* Whether the buffer has no byte in common with the set's list or the result, and the result has none with that list. */
static inline bool NAME(is_apart)(SET set, const NUMBER *out, size_t room, const SET *result)
{
    size_t size = set.boundaries ? set.len * sizeof *set.boundaries : 0;
    return is_array(out, room, sizeof *out) && NAME(is_result)(result, out, room) && !overlap(out, room * sizeof *out, set.boundaries, size)
           && !overlap(result, sizeof *result, set.boundaries, size);
}

/* Makes the `len` boundaries in the buffer the result. If the buffer has no room for them, the result has that length alone. */
static inline range_set_status NAME(write_result)(size_t len, const NUMBER *out, size_t room, SET *result)
{
    *result = NAME(set_of)(len <= room ? out : NULL, len);
    return len <= room ? RANGE_SET_DONE : RANGE_SET_NO_ROOM;
}

/* A connective's result, whose length is returned. That of one that is on where neither set is may begin at the least number. */
static inline size_t NAME(combine_to)(SET a, SET b, unsigned keep, NUMBER *out, size_t room)
{
    if (keep & RANGE_SET_NEITHER) return EXPORT(combine_from)(LIST(a), LIST(b), keep & 15u, ROOM(out, room));
    return EXPORT(combine)(LIST(a), LIST(b), keep & 7u, ROOM(out, room));
}

range_set_status NAME(combine)(SET a, SET b, unsigned keep, NUMBER *out, size_t room, SET *result)
{
    if (!NAME(is_apart)(a, out, room, result) || !NAME(is_apart)(b, out, room, result)) return RANGE_SET_BAD_ARGUMENT;
    return NAME(write_result)(NAME(combine_to)(a, b, keep, out, room), out, room, result);
}

size_t NAME(combine_len)(SET a, SET b, unsigned keep)
{
    return NAME(combine_to)(a, b, keep, NULL, 0);
}

range_set_status NAME(negation)(SET set, NUMBER *out, size_t room, SET *result)
{
    if (!NAME(is_apart)(set, out, room, result)) return RANGE_SET_BAD_ARGUMENT;
    return NAME(write_result)(EXPORT(negation)(LIST(set), ROOM(out, room)), out, room, result);
}

range_set_status NAME(gaps)(SET set, NUMBER start, NUMBER end, NUMBER *out, size_t room, SET *result)
{
    if (!NAME(is_apart)(set, out, room, result)) return RANGE_SET_BAD_ARGUMENT;
    return NAME(write_result)(EXPORT(gaps)(LIST(set), start, end, ROOM(out, room)), out, room, result);
}

/* The sum of a length and a set's, or SIZE_MAX if it is greater. */
static size_t NAME(len_with)(size_t len, SET set)
{
    size_t more = set.boundaries ? set.len : 0;
    return more <= SIZE_MAX - len ? len + more : SIZE_MAX;
}

/* Adds the numbers from `start` on to those from `open` on, if `is_open` says that there are such. Returns true. */
static bool NAME(join_open)(bool is_open, NUMBER *open, const NUMBER *start)
{
    NUMBER before = *open;
    return EXPORT(combine)(&before, is_open, start, 1, RANGE_SET_UNION, open, 1) > 0;
}

/* Makes the `count` ranges at the front of the buffer the result, with the numbers from `open` on if `is_open`. There is room for it. */
static inline range_set_status NAME(write_open_result)(size_t count, bool is_open, NUMBER open, NUMBER *out, size_t room, SET *result)
{
    if (is_open) out[2 * count] = open;
    return NAME(write_result)(2 * count + is_open, out, room, result);
}

/* The same for ranges in any order. Those without an end have been joined: they are the numbers from `open` on. */
static range_set_status NAME(write_joined_result)(size_t count, bool is_open, NUMBER open, NUMBER *out, size_t room, SET *result)
{
    count = EXPORT(union_from)(ROOM(out, count), is_open, &open);
    return NAME(write_open_result)(count, is_open, open, out, room, result);
}

/* The ranges with an end are copied; those without are sets of one boundary, whose union is one too. */
range_set_status NAME(union_all)(const SET *sets, size_t count, NUMBER *out, size_t room, SET *result)
{
    size_t needed = 0, len = 0, i;
    bool is_open = false;
    NUMBER open = 0;
    if (!is_array(sets, count, sizeof *sets) || !is_array(out, room, sizeof *out) || !NAME(is_result)(result, out, room)
        || overlap(sets, count * sizeof *sets, out, room * sizeof *out) || overlap(sets, count * sizeof *sets, result, sizeof *result))
        return RANGE_SET_BAD_ARGUMENT;
    for (i = 0; i < count; i++) {
        if (!NAME(is_apart)(sets[i], out, room, result)) return RANGE_SET_BAD_ARGUMENT;
        needed = NAME(len_with)(needed, sets[i]);
    }
    if (needed > room) return NAME(write_result)(needed, out, room, result);
    for (i = 0; i < count; i++) {
        const NUMBER *list = sets[i].boundaries;
        size_t closed = list ? sets[i].len / 2 * 2 : 0;
        if (closed > 0) memcpy(out + len, list, closed * sizeof *list);
        len += closed;
        if (list == NULL || closed == sets[i].len) continue;
        is_open = NAME(join_open)(is_open, &open, list + closed);
    }
    return NAME(write_joined_result)(len / 2, is_open, open, out, room, result);
}

/* Each number is a range that ends before the next, but for the greatest, whose range has no end. */
range_set_status NAME(from_values)(const NUMBER *values, size_t count, NUMBER *out, size_t room, SET *result)
{
    bool has_greatest = false;
    size_t len = 0, i;
    if (!is_array(values, count, 2 * sizeof *values) || !is_array(out, room, sizeof *out) || !NAME(is_result)(result, out, room)
        || !NAME(is_result)(result, values, count) || overlap(values, count * sizeof *values, out, room * sizeof *out))
        return RANGE_SET_BAD_ARGUMENT;
    if (2 * count > room) return NAME(write_result)(2 * count, out, room, result);
    for (i = 0; i < count; i++) {
        const NUMBER value = values[i];
        has_greatest |= value == MOST;
        if (value == MOST) continue;
        out[len++] = value;
        out[len++] = value + 1;
    }
    return NAME(write_joined_result)(len / 2, has_greatest, MOST, out, room, result);
}
