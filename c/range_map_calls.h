/* The calls for maps from ranges of one type of numbers, by the names of each_type.h: NAME(call) is a call of the header, and EXPORT(call)
 * the export that it stands before, whose map is HELD and whose keys are KEY, up to GREATEST. `new` and `copy` are given no map first,
 * {NULL}, and the others a map. */
#include "range_map_exports.h"
#include "range_map_passed_on.h"

range_set_status NAME(new)(MAP *map)
{
    if (map == NULL) return RANGE_SET_BAD_ARGUMENT;
    map->at = NULL;
    return EXPORT(new)((HELD *)map) ? RANGE_SET_DONE : RANGE_SET_NO_MEMORY;
}

bool NAME(get)(MAP map, NUMBER key, uint64_t *value)
{
    uint64_t it = 0;
    bool found = map.at != NULL && EXPORT(get)((HELD *)&map, key, &it);
    if (found && value != NULL) *value = it;
    return found;
}

/* The longest range around a key, which may be one that is too wide for the type. */
static STRETCH NAME(around)(MAP map, KEY key)
{
    STRETCH it = {0, 0, 0, false, false, false};
    KEY start = 0, end = 0;
    if (map.at != NULL) it.has_value = EXPORT(range_at)((HELD *)&map, key, &start, &it.has_start, &end, &it.has_end, &it.value);
    it.start = (NUMBER)start, it.end = (NUMBER)end;
    return it;
}

STRETCH NAME(range_at)(MAP map, NUMBER key)
{
    return NAME(around)(map, key);
}

/* Writes the first ranges that share a key with `from` to below `end`, as many as there is room for, and returns how many these are. */
static size_t NAME(write_ranges)(MAP map, KEY from, KEY end, STRETCH *out, size_t room)
{
    enum { SOME = 32 };
    KEY ends[2 * SOME];
    uint64_t values[SOME];
    size_t len = 0, some, found, i;
    if (map.at == NULL || room == 0 || !is_array(out, room, sizeof *out)) return 0;
    do {
        some = room - len < SOME ? room - len : SOME;
        found = EXPORT(overlapping)((HELD *)&map, from, end, ends, 2 * some, values, some);
        for (i = 0; 2 * i < found; i++) {
            const bool has_end = 2 * i + 1 < found;
            from = has_end ? ends[2 * i + 1] : 0;
            out[len++] = (STRETCH){(NUMBER)ends[2 * i], (NUMBER)from, values[i], true, has_end, true};
        }
    } while (found == 2 * some && len < room);
    return len;
}

size_t NAME(overlapping)(MAP map, NUMBER start, NUMBER end, STRETCH *out, size_t room)
{
    return NAME(write_ranges)(map, start, end, out, room);
}

size_t NAME(next_ranges)(MAP map, NUMBER from, STRETCH *out, size_t room)
{
    size_t len = NAME(write_ranges)(map, from, GREATEST, out, room);
    if (is_array(out, room, sizeof *out) && len < room && (len == 0 || out[len - 1].has_end)) {
        const STRETCH last = NAME(around)(map, GREATEST);
        if (last.has_value) out[len++] = last;
    }
    return len;
}

/* Writes a range to the caller's place, if its keys have a value and there is one. Returns whether they have. */
static bool NAME(write_stretch)(STRETCH it, STRETCH *stretch)
{
    if (it.has_value && stretch != NULL) *stretch = it;
    return it.has_value;
}

bool NAME(next)(MAP map, NUMBER from, STRETCH *stretch)
{
    STRETCH it = NAME(range_at)(map, from);
    /* After keys without a value come some that have one. */
    if (!it.has_value && it.has_end) it = NAME(range_at)(map, it.end);
    return NAME(write_stretch)(it, stretch);
}

bool NAME(first)(MAP map, STRETCH *stretch)
{
    return NAME(next)(map, LEAST, stretch);
}

bool NAME(last)(MAP map, STRETCH *stretch)
{
    STRETCH it = NAME(range_at)(map, MOST);
    /* Before keys without a value come some that have one. */
    if (!it.has_value && it.has_start) it = NAME(range_at)(map, it.start - 1);
    return NAME(write_stretch)(it, stretch);
}

bool NAME(span)(MAP map, RANGE *range)
{
    STRETCH first = {0, 0, 0, false, false, false}, last = first;
    bool found = NAME(first)(map, &first) && NAME(last)(map, &last);
    return CALL(write_range)(found, (RANGE){first.start, last.end, last.has_end}, range);
}

range_set_status NAME(gaps)(MAP map, NUMBER start, NUMBER end, NUMBER *out, size_t room, SET *result)
{
    bool more = start < end;
    size_t len = 0;
    STRETCH it;
    if (!is_array(out, room, sizeof *out) || !CALL(is_result)(result, out, room)) return RANGE_SET_BAD_ARGUMENT;
    for (; more; start = it.end) {
        it = NAME(range_at)(map, start);
        more = it.has_end && it.end < end;
        if (it.has_value) continue;
        len = CALL(append_number)(start, out, room, len);
        len = CALL(append_number)(more ? it.end : end, out, room, len);
    }
    return CALL(write_result)(len, out, room, result);
}

/* Where numbers fit between two keys, or where `end` is null from one on, if no key there has a value. */
static bool NAME(fits)(NUMBER start, const NUMBER *end, COUNT count, COUNT align, NUMBER *first)
{
    return end != NULL ? CALL(first_fit_aligned)(CALL(no_member), start, *end, count, align, first)
                       : CALL(first_fit_aligned_from)(CALL(no_member), start, count, align, first);
}

/* The first of the parts without a value in which they fit. A count of 0 fits beside any values. */
static bool NAME(first_free)(MAP map, NUMBER start, const NUMBER *end, COUNT count, COUNT align, NUMBER *first)
{
    bool more = true;
    STRETCH it;
    if (count == 0) return NAME(fits)(start, end, count, align, first);
    for (; more; start = it.end) {
        it = NAME(range_at)(map, start);
        more = it.has_end && (end == NULL || it.end < *end);
        if (!it.has_value && NAME(fits)(start, more ? &it.end : end, count, align, first)) return true;
    }
    return false;
}

bool NAME(first_fit)(MAP map, NUMBER start, NUMBER end, COUNT count, NUMBER *first)
{
    return NAME(first_free)(map, start, &end, count, 1, first);
}

bool NAME(first_fit_from)(MAP map, NUMBER start, COUNT count, NUMBER *first)
{
    return NAME(first_free)(map, start, NULL, count, 1, first);
}

bool NAME(first_fit_aligned)(MAP map, NUMBER start, NUMBER end, COUNT count, COUNT align, NUMBER *first)
{
    return NAME(first_free)(map, start, &end, count, align, first);
}

bool NAME(first_fit_aligned_from)(MAP map, NUMBER start, COUNT count, COUNT align, NUMBER *first)
{
    return NAME(first_free)(map, start, NULL, count, align, first);
}

bool NAME(covered)(MAP map, uint64_t *count)
{
    uint64_t total = 0;
    STRETCH it;
    bool more = NAME(first)(map, &it);
    for (; more && it.has_end; more = NAME(next)(map, it.end, &it)) total += (COUNT)((COUNT)it.end - (COUNT)it.start);
    if (!more && count != NULL) *count = total;
    return !more;
}

range_set_status NAME(of)(const NUMBER *ranges, const uint64_t *values, size_t count, MAP *map)
{
    MAP made;
    range_set_status status;
    size_t i;
    if (map == NULL || !is_array(ranges, count, 2 * sizeof *ranges) || !is_array(values, count, sizeof *values)
        || overlap(map, sizeof *map, ranges, 2 * count * sizeof *ranges) || overlap(map, sizeof *map, values, count * sizeof *values))
        return RANGE_SET_BAD_ARGUMENT;
    status = NAME(new)(&made);
    for (i = 0; status == RANGE_SET_DONE && i < count; i++) status = NAME(insert)(&made, ranges[2 * i], ranges[2 * i + 1], values[i]);
    if (status != RANGE_SET_DONE) NAME(free)(&made);
    *map = made;
    return status;
}

range_set_status NAME(copy)(MAP map, MAP *copy)
{
    if (copy == NULL) return RANGE_SET_BAD_ARGUMENT;
    if (map.at == NULL) return NAME(new)(copy);
    copy->at = NULL;
    return EXPORT(copy)((HELD *)copy, (HELD *)&map) ? RANGE_SET_DONE : RANGE_SET_NO_MEMORY;
}

size_t NAME(len)(MAP map)
{
    return map.at != NULL ? EXPORT(len)((HELD *)&map) : 0;
}
