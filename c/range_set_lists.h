/* Sets of the caller's lists, and where a question of one writes its result: nowhere if it has none, or the place is null. Included by
 * range_set_calls.h. */

static inline SET NAME(set_of)(const NUMBER *boundaries, size_t len)
{
    SET set;
    set.boundaries = boundaries;
    set.len = len;
    return set;
}

/* Whether it is a place for a set beside a list. */
static inline bool NAME(is_result)(const SET *result, const NUMBER *list, size_t len)
{
    return result != NULL && !overlap(result, sizeof *result, list, len * sizeof *list);
}

range_set_status NAME(view)(const NUMBER *list, size_t len, SET *set)
{
    if (!is_array(list, len, sizeof *list) || !NAME(is_result)(set, list, len)) return RANGE_SET_BAD_ARGUMENT;
    if (!EXPORT(is_sorted)(list ? list : &NAME(nothing), len)) return RANGE_SET_NOT_SORTED;
    *set = NAME(set_of)(list, len);
    return RANGE_SET_DONE;
}

range_set_status NAME(from_unsorted)(NUMBER *items, size_t len, SET *set)
{
    if (!is_array(items, len, sizeof *items) || !NAME(is_result)(set, items, len)) return RANGE_SET_BAD_ARGUMENT;
    *set = NAME(set_of)(items, EXPORT(from_unsorted)(ROOM(items, len)));
    return RANGE_SET_DONE;
}

range_set_status NAME(from_ranges)(NUMBER *ranges, size_t count, SET *set)
{
    if (!is_array(ranges, count, 2 * sizeof *ranges) || !NAME(is_result)(set, ranges, 2 * count)) return RANGE_SET_BAD_ARGUMENT;
    *set = NAME(set_of)(ranges, 2 * EXPORT(from_ranges)(ROOM(ranges, count)));
    return RANGE_SET_DONE;
}

/* Writes the range that an export found to the caller's place, if there is one. Returns whether one was found. */
static bool NAME(write_range)(bool found, RANGE it, RANGE *range)
{
    if (!found || range == NULL) return found;
    range->start = it.start;
    range->has_end = it.has_end;
    if (it.has_end) range->end = it.end;
    return true;
}

/* The same with a number. */
static bool NAME(write_number)(bool found, NUMBER it, NUMBER *place)
{
    if (found && place != NULL) *place = it;
    return found;
}

/* Whether an export may write the caller's place itself: it lies above the list, as a place on the stack mostly does. Any other place may
 * be null or lie in the list, so a place of the layer's own is written first, and the caller's once the list has been read. */
static inline bool NAME(is_above)(const void *place, SET set)
{
    return set.boundaries != NULL && (uintptr_t)place >= (uintptr_t)(set.boundaries + set.len);
}

typedef bool (*NAME(question))(const NUMBER *a, size_t a_len, NUMBER from, NUMBER *place);

static APART bool NAME(ask_before_writing)(SET set, NUMBER from, NUMBER *place, NAME(question) export)
{
    NUMBER at = 0;
    bool found = export(LIST(set), from, &at);
    return NAME(write_number)(found, at, place);
}

static inline bool NAME(ask)(SET set, NUMBER from, NUMBER *place, NAME(question) export)
{
    return NAME(is_above)(place, set) ? export(set.boundaries, set.len, from, place) : NAME(ask_before_writing)(set, from, place, export);
}

static APART bool NAME(get_before_writing)(SET set, size_t index, RANGE *range)
{
    RANGE it = {0, 0, false};
    bool found = EXPORT(range)(LIST(set), index, PARTS(&it));
    return NAME(write_range)(found, it, range);
}

bool NAME(get)(SET set, size_t index, RANGE *range)
{
    if (!NAME(is_above)(range, set)) return NAME(get_before_writing)(set, index, range);
    return EXPORT(range)(set.boundaries, set.len, index, PARTS(range));
}

range_set_status NAME(contains_each)(SET set, const NUMBER *values, size_t count, bool *found)
{
    const size_t size = count * sizeof *found;
    if (!is_array(values, count, sizeof *values) || !is_array(found, count, sizeof *found)
        || overlap(found, size, values, count * sizeof *values)
        || (set.boundaries != NULL && overlap(found, size, set.boundaries, set.len * sizeof *set.boundaries)))
        return RANGE_SET_BAD_ARGUMENT;
    if (count != 0) EXPORT(contains_each)(LIST(set), values, count, (char *)found, count);
    return RANGE_SET_DONE;
}

void NAME(split)(SET set, NUMBER at, SET *below, SET *from)
{
    size_t left_len = 0, right_start = 0;
    EXPORT(split)(LIST(set), at, &left_len, &right_start);
    if (below != NULL) *below = NAME(set_of)(set.boundaries, left_len);
    if (from != NULL) *from = set.boundaries ? NAME(set_of)(set.boundaries + right_start, set.len - right_start) : set;
}
