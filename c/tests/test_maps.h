/* The tests of maps from ranges of one type of numbers, by the names of each_type.h: made-up changes beside an array that has the value of
 * each key. */

/* The values of POINTS keys that lie 3 apart from the least on, 0 for none. The last one also has all keys above. */
static NUMBER TEST(key)(int place)
{
    return (NUMBER)(LEAST + 3 * (NUMBER)place);
}

static void TEST(same)(STRETCH a, STRETCH b)
{
    check(a.start == b.start && a.has_start && b.has_start && a.has_end == b.has_end && (!a.has_end || a.end == b.end) && a.has_value
              && a.value == b.value,
        "next_ranges: a range");
}

/* The ranges of a map one after the other, which are those that have a value. */
static void TEST(next_ranges)(MAP map, const uint64_t *values)
{
    STRETCH it = {0, 0, 77, false, false, false}, some[POINTS];
    const size_t room = random_below(POINTS + 1), found = MAP_CALL(next_ranges)(map, LEAST, some, room);
    size_t ranges = 0;
    int p = 0, q;
    bool more = MAP_CALL(next)(map, LEAST, &it);
    while (p < POINTS) {
        for (q = p; q < POINTS && values[q] == values[p]; q++) {
        }
        if (values[p] != 0) {
            check(more && it.has_value && it.value == values[p] && it.start == TEST(key)(p), "next: the range");
            check(it.has_end == (q < POINTS) && (q == POINTS || it.end == TEST(key)(q)), "next: the end");
            check(MAP_CALL(next)(map, (NUMBER)(TEST(key)(p) + 1), NULL), "next: within a range");
            if (ranges < found) TEST(same)(some[ranges], it);
            ranges++;
            more = it.has_end && MAP_CALL(next)(map, it.end, &it);
        }
        p = q;
    }
    check(!more, "next: past the last range");
    check(found == (ranges < room ? ranges : room), "next_ranges: how many");
    check(MAP_CALL(next_ranges)((MAP){NULL}, LEAST, some, POINTS) == 0 && MAP_CALL(next_ranges)(map, LEAST, NULL, 1) == 0
              && MAP_CALL(next_ranges)(map, LEAST, some, SIZE_MAX) == 0,
        "next_ranges: no map, no buffer");
    it.value = 77;
    check(!MAP_CALL(next)((MAP){NULL}, LEAST, &it) && it.value == 77, "next: no map");
}

/* What is asked of the keys that have a value is answered as of their set, which is told by its boundaries: gaps with several rooms, fits,
 * the number of keys, and the first range, the last one, and both. */
static void TEST(as_set)(MAP map, const uint64_t *values)
{
    NUMBER keys[POINTS + 1], wanted[POINTS + 2], out[POINTS + 2], at, of_set;
    const RANGE none = {77, 78, true};
    const STRETCH no_range = {77, 78, 79, true, true, true};
    STRETCH it = no_range, last = no_range;
    RANGE range = none, first = none, end = none;
    SET set, list, gaps;
    uint64_t count = 77, of_list = 77;
    size_t len = 0, room;
    int i, p;
    bool found;
    for (p = 0; p < POINTS; p++)
        if ((values[p] != 0) != (p > 0 && values[p - 1] != 0)) keys[len++] = TEST(key)(p);
    check(CALL(view)(keys, len, &set) == RANGE_SET_DONE, "as a set");
    found = len > 0;
    check(CALL(covered)(set, &of_list) == MAP_CALL(covered)(map, &count) && count == of_list, "covered");
    check(CALL(covered)(set, NULL) == MAP_CALL(covered)(map, NULL), "covered: no place");
    check(MAP_CALL(first)(map, &it) == found && MAP_CALL(last)(map, &last) == found && MAP_CALL(span)(map, &range) == found, "first, last");
    check(MAP_CALL(first)(map, NULL) == found && MAP_CALL(last)(map, NULL) == found && MAP_CALL(span)(map, NULL) == found,
        "first, last, span: no place");
    if (found) {
        check(CALL(first)(set, &first) && CALL(last)(set, &end), "as a set: the first range and the last");
        check(it.has_start && it.start == first.start && it.has_value && it.value == values[(it.start - LEAST) / 3], "first");
        check(last.has_value && last.has_end == end.has_end && (!end.has_end || last.end == end.end), "last");
        check(last.value == values[(last.start - LEAST) / 3] && !MAP_CALL(next)(map, last.has_end ? last.end : MOST, NULL) == last.has_end,
            "last: the value");
        check(range.start == first.start && range.has_end == end.has_end && range.end == end.end, "span");
    } else check(it.value == 79 && last.value == 79 && range.start == 77, "first, last, span: of no key");
    for (i = 0; i < 6; i++) {
        const NUMBER from = TEST(key)((int)random_below(POINTS)) + (NUMBER)random_below(2),
                     to = i == 0 ? MOST : TEST(key)((int)random_below(POINTS)) + (NUMBER)random_below(2);
        const COUNT many = (COUNT)random_below(12), align = (COUNT)random_below(6);
        check(CALL(gaps)(set, from, to, wanted, POINTS + 2, &list) == RANGE_SET_DONE, "gaps of the set");
        for (room = 0; room <= list.len + 1; room++) {
            out[room] = 77;
            check(
                MAP_CALL(gaps)(map, from, to, out, room, &gaps) == (room < list.len ? RANGE_SET_NO_ROOM : RANGE_SET_DONE), "gaps: status");
            check(gaps.len == list.len && out[room] == 77, "gaps: the length");
            check(room < list.len ? gaps.boundaries == NULL : CALL(equal)(gaps, list), "gaps: the set");
        }
        at = of_set = 77, found = CALL(first_fit)(set, from, to, many, &of_set);
        check(MAP_CALL(first_fit)(map, from, to, many, &at) == found && at == of_set, "first_fit");
        at = of_set = 77, found = CALL(first_fit_from)(set, from, many, &of_set);
        check(MAP_CALL(first_fit_from)(map, from, many, &at) == found && at == of_set, "first_fit_from");
        at = of_set = 77, found = CALL(first_fit_aligned)(set, from, to, many, align, &of_set);
        check(MAP_CALL(first_fit_aligned)(map, from, to, many, align, &at) == found && at == of_set, "first_fit_aligned");
        at = of_set = 77, found = CALL(first_fit_aligned_from)(set, from, many, align, &of_set);
        check(MAP_CALL(first_fit_aligned_from)(map, from, many, align, &at) == found && at == of_set, "first_fit_aligned_from");
    }
    check(MAP_CALL(gaps)(map, LEAST, MOST, NULL, 1, &gaps) == RANGE_SET_BAD_ARGUMENT
              && MAP_CALL(gaps)(map, LEAST, MOST, out, 1, NULL) == RANGE_SET_BAD_ARGUMENT,
        "gaps: null");
}

/* The ranges that share a key with a range are those of `next` from its start on that begin below its end; with too little room the first
 * ones, after which it goes on. */
static void TEST(overlaps)(MAP map)
{
    int i;
    for (i = 0; i < 4; i++) {
        const NUMBER from = TEST(key)((int)random_below(POINTS)) + 1, to = TEST(key)((int)random_below(POINTS)) + (NUMBER)random_below(2);
        const size_t room = 1 + random_below(POINTS);
        STRETCH some[POINTS], it;
        NUMBER at = from;
        size_t len = MAP_CALL(overlapping)(map, from, to, some, room), p = 0;
        bool more = MAP_CALL(next)(map, from, &it);
        for (; more && from < to && it.start < to; more = it.has_end && MAP_CALL(next)(map, it.end, &it), p++) {
            if (p == len) len += MAP_CALL(overlapping)(map, at, to, some + len, POINTS - len < room ? POINTS - len : room);
            check(p < len, "overlapping: one more");
            TEST(same)(some[p], it);
            at = it.end;
        }
        check(p == len, "overlapping: how many");
    }
}

static void TEST(is_map)(MAP map, const uint64_t *values);

/* A map of ranges in a list, of which the last one around a key holds; copies, which are maps of their own. */
static void TEST(made_of)(void)
{
    enum { COUNT_OF = 12 };
    NUMBER ranges[2 * COUNT_OF] = {0};
    uint64_t given[COUNT_OF] = {0}, values[POINTS] = {0}, none[POINTS] = {0};
    MAP map, copy, empty = {NULL};
    size_t i, count = random_below(COUNT_OF + 1);
    int p;
    for (i = 0; i < count; i++) {
        const int from = (int)random_below(POINTS), to = (int)random_below(POINTS);
        ranges[2 * i] = TEST(key)(from), ranges[2 * i + 1] = TEST(key)(to), given[i] = 1 + random_below(3);
        for (p = from; p < to; p++) values[p] = given[i];
    }
    check(MAP_CALL(of)(ranges, given, count, &map) == RANGE_SET_DONE, "of");
    TEST(is_map)(map, values);
    if (count % 2 == 0) {
        check(MAP_CALL(insert_from)(&map, TEST(key)(POINTS - 2), 5) == RANGE_SET_DONE, "of: a range without an end");
        values[POINTS - 2] = values[POINTS - 1] = 5;
    }
    check(MAP_CALL(copy)(map, &copy) == RANGE_SET_DONE && copy.at != map.at, "copy");
    check(MAP_CALL(copy)(map, NULL) == RANGE_SET_BAD_ARGUMENT, "copy: null");
    check(MAP_CALL(remove_from)(&map, LEAST) == RANGE_SET_DONE, "copy: the other is emptied");
    TEST(is_map)(copy, values);
    TEST(is_map)(map, none);
    MAP_CALL(free)(&copy);
    check(MAP_CALL(copy)(empty, &copy) == RANGE_SET_DONE && copy.at != NULL && MAP_CALL(len)(copy) == 0, "copy: of no map");
    MAP_CALL(free)(&copy);
    MAP_CALL(free)(&map);
    check(MAP_CALL(of)(NULL, NULL, 0, &map) == RANGE_SET_DONE && MAP_CALL(len)(map) == 0 && !MAP_CALL(next)(map, LEAST, NULL),
        "of: no ranges");
    MAP_CALL(free)(&map);
    check(!MAP_CALL(next)(empty, LEAST, NULL), "next: no map and no place");
    check(MAP_CALL(of)(NULL, given, 1, &map) == RANGE_SET_BAD_ARGUMENT && MAP_CALL(of)(ranges, NULL, 1, &map) == RANGE_SET_BAD_ARGUMENT
              && MAP_CALL(of)(ranges, given, 1, NULL) == RANGE_SET_BAD_ARGUMENT && MAP_CALL(copy)(empty, NULL) == RANGE_SET_BAD_ARGUMENT,
        "of and copy: null");
    check(MAP_CALL(of)(ranges, given, 1, (MAP *)(void *)ranges) == RANGE_SET_BAD_ARGUMENT
              && MAP_CALL(of)(ranges, given, 1, (MAP *)(void *)given) == RANGE_SET_BAD_ARGUMENT
              && MAP_CALL(of)(ranges, given, SIZE_MAX / 8, &map) == RANGE_SET_BAD_ARGUMENT,
        "of: a map in its lists, and a length that no list has");
}

/* Compares a map with the values. */
static void TEST(is_map)(MAP map, const uint64_t *values)
{
    size_t ranges = 0;
    int p = 0, q, in;
    STRETCH it = MAP_CALL(range_at)(map, LEAST);
    while (p < POINTS) {
        for (q = p; q < POINTS && values[q] == values[p]; q++)
            for (in = 0; in < 3; in++) {
                STRETCH same = MAP_CALL(range_at)(map, (NUMBER)(TEST(key)(q) + (NUMBER)in));
                uint64_t value = 77;
                check(MAP_CALL(get)(map, (NUMBER)(TEST(key)(q) + (NUMBER)in), &value) == (values[p] != 0), "get");
                check(value == (values[p] != 0 ? values[p] : 77), "get: the value");
                check(same.has_start == it.has_start && same.start == it.start && same.has_end == it.has_end && same.end == it.end,
                    "range_at: of each key of a stretch");
            }
        check(it.has_start == (p > 0 || values[p] != 0) && (!it.has_start || it.start == TEST(key)(p)), "range_at: the start");
        check(it.has_end == (q < POINTS) && (q == POINTS || it.end == TEST(key)(q)), "range_at: the end");
        check(it.has_value == (values[p] != 0) && (values[p] == 0 || it.value == values[p]), "range_at: the value");
        ranges += values[p] != 0;
        if (it.has_end) it = MAP_CALL(range_at)(map, it.end);
        p = q;
    }
    check(MAP_CALL(get)(map, MOST, NULL) == (values[POINTS - 1] != 0), "get: of the greatest key");
    check(MAP_CALL(len)(map) == ranges, "len");
    TEST(next_ranges)(map, values);
    TEST(as_set)(map, values);
    TEST(overlaps)(map);
}

/* Ranges put in and taken out, empty and reversed ones too. */
static void TEST(changes)(long cases)
{
    while (cases-- > 0) {
        uint64_t values[POINTS] = {0};
        MAP map;
        int change, p;
        check(MAP_CALL(new)(&map) == RANGE_SET_DONE && map.at != NULL, "new");
        TEST(is_map)(map, values);
        for (change = 0; change < 6; change++) {
            int from = (int)random_below(POINTS), to = (int)random_below(POINTS);
            uint64_t value = 1 + random_below(3);
            range_set_status status;
            switch (random_below(6)) {
            case 0: status = MAP_CALL(remove)(&map, TEST(key)(from), TEST(key)(to)), value = 0; break;
            case 1: status = MAP_CALL(insert_from)(&map, TEST(key)(from), value), to = POINTS; break;
            case 2: status = MAP_CALL(remove_from)(&map, TEST(key)(from)), to = POINTS, value = 0; break;
            default: status = MAP_CALL(insert)(&map, TEST(key)(from), TEST(key)(to), value); break;
            }
            if (random_below(20) == 0) MAP_CALL(clear)(&map), from = 0, to = POINTS, value = 0;
            check(status == RANGE_SET_DONE, "maps: status");
            for (p = from; p < to; p++) values[p] = value;
            TEST(is_map)(map, values);
        }
        MAP_CALL(free)(&map);
        check(map.at == NULL, "free leaves an address");
    }
}

/* No map, and values of all sizes. */
static void TEST(bad_maps)(void)
{
    MAP none = {NULL}, map;
    STRETCH it = MAP_CALL(range_at)(none, MOST), both[2];
    uint64_t value = 5;
    check(MAP_CALL(new)(NULL) == RANGE_SET_BAD_ARGUMENT, "new: a null map");
    check(MAP_CALL(insert)(NULL, 1, 2, 3) == RANGE_SET_BAD_ARGUMENT && MAP_CALL(insert)(&none, 1, 2, 3) == RANGE_SET_BAD_ARGUMENT,
        "insert: no map");
    check(MAP_CALL(remove)(NULL, 1, 2) == RANGE_SET_BAD_ARGUMENT && MAP_CALL(remove)(&none, 1, 2) == RANGE_SET_BAD_ARGUMENT,
        "remove: no map");
    check(MAP_CALL(insert_from)(NULL, 1, 3) == RANGE_SET_BAD_ARGUMENT && MAP_CALL(insert_from)(&none, 1, 3) == RANGE_SET_BAD_ARGUMENT,
        "insert_from: no map");
    check(MAP_CALL(remove_from)(NULL, 1) == RANGE_SET_BAD_ARGUMENT && MAP_CALL(remove_from)(&none, 1) == RANGE_SET_BAD_ARGUMENT,
        "remove_from: no map");
    check(!MAP_CALL(get)(none, 1, &value) && value == 5 && MAP_CALL(len)(none) == 0, "no map has a value");
    check(!it.has_start && !it.has_end && !it.has_value, "no map: one stretch without a value");
    MAP_CALL(free)(NULL);
    MAP_CALL(free)(&none);
    MAP_CALL(clear)(NULL);
    MAP_CALL(clear)(&none);
    check(MAP_CALL(overlapping)(none, LEAST, MOST, both, 2) == 0 && !MAP_CALL(first)(none, &it) && !MAP_CALL(last)(none, NULL)
              && !MAP_CALL(span)(none, NULL) && MAP_CALL(covered)(none, &value) && value == 0,
        "no map has a range");
    check(MAP_CALL(first_fit_from)(none, MOST, 1, NULL) && !MAP_CALL(first_fit)(none, MOST, MOST, 1, NULL), "no map: fits");
    value = 5;
    check(MAP_CALL(new)(&map) == RANGE_SET_DONE, "new");
    check(MAP_CALL(insert)(&map, LEAST, MOST, UINT64_MAX) == RANGE_SET_DONE && MAP_CALL(insert_from)(&map, MOST, 0) == RANGE_SET_DONE,
        "insert");
    check(
        MAP_CALL(get)(map, LEAST, &value) && value == UINT64_MAX && MAP_CALL(get)(map, MOST, &value) && value == 0, "values of all sizes");
    check(MAP_CALL(next_ranges)(map, LEAST, both, 2) == 2 && both[0].end == MOST && both[1].start == MOST && !both[1].has_end,
        "next_ranges: the greatest key");
    check(MAP_CALL(next_ranges)(map, MOST, both, 2) == 1 && both[0].start == MOST && both[0].value == 0,
        "next_ranges: from the greatest key");
    check(MAP_CALL(overlapping)(map, LEAST, MOST, both, 2) == 1 && MAP_CALL(overlapping)(map, MOST, MOST, both, 2) == 0
              && MAP_CALL(overlapping)(map, LEAST, MOST, NULL, 2) == 0 && MAP_CALL(overlapping)(map, LEAST, MOST, both, 0) == 0,
        "overlapping: the greatest key");
    check(MAP_CALL(remove)(&map, LEAST, MOST) == RANGE_SET_DONE && MAP_CALL(next_ranges)(map, 1, both, 2) == 1 && both[0].start == MOST,
        "next_ranges: the greatest key alone");
    MAP_CALL(free)(&map);
}

/* The first key of a range of a map in chunks: they lie 20 apart. */
static NUMBER TEST(start)(size_t place)
{
    return (NUMBER)(LEAST + 20 * (NUMBER)place);
}

/* Saves the ranges of a map as a list of starts and ends, and one of their values, and reads them back. */
static void TEST(saved)(MAP map, size_t count)
{
    NUMBER *const ranges = malloc(2 * count * sizeof *ranges);
    uint64_t *const values = malloc(count * sizeof *values);
    STRETCH it, same;
    MAP read;
    size_t len = 0;
    bool more;
    STRETCH *const all = malloc((count + 1) * sizeof *all);
    check(ranges != NULL && values != NULL && all != NULL, "saved: memory");
    check(MAP_CALL(next_ranges)(map, LEAST, all, count + 1) == count, "saved: at once");
    for (more = MAP_CALL(next)(map, LEAST, &it); more; more = MAP_CALL(next)(map, it.end, &it), len++) {
        TEST(same)(all[len], it);
        check(len < count && it.has_start && it.has_end, "saved: a range");
        ranges[2 * len] = it.start, ranges[2 * len + 1] = it.end, values[len] = it.value;
    }
    check(len == count && MAP_CALL(of)(ranges, values, count, &read) == RANGE_SET_DONE && MAP_CALL(len)(read) == count, "saved: of");
    for (len = 0; len < count; len++) {
        same = MAP_CALL(range_at)(read, ranges[2 * len]);
        check(
            same.has_value && same.start == ranges[2 * len] && same.end == ranges[2 * len + 1] && same.value == values[len], "saved: same");
    }
    MAP_CALL(free)(&read);
    free(all);
    free(ranges);
    free(values);
}

/* A map of many ranges, put in in scrambled order, of which every second one is then taken out, and all others in one call. Its copy
 * stays as it was. */
static void TEST(in_chunks)(size_t count)
{
    MAP map, copy;
    size_t p;
    uint64_t value;
    check(MAP_CALL(new)(&map) == RANGE_SET_DONE, "new");
    for (p = 0; p < count; p++) {
        /* Each place once: the prime has no divisor of the count. */
        const size_t at = (size_t)((uint64_t)p * 1000003 % count);
        const NUMBER start = TEST(start)(at);
        check(MAP_CALL(insert)(&map, start, (NUMBER)(start + 10), (uint64_t)(at % 3 + 1)) == RANGE_SET_DONE, "in chunks: insert");
    }
    check(MAP_CALL(len)(map) == count, "in chunks: len");
    TEST(saved)(map, count);
    check(MAP_CALL(copy)(map, &copy) == RANGE_SET_DONE, "in chunks: copy");
    for (p = 0; p < count; p++) {
        const NUMBER start = TEST(start)(p);
        const STRETCH it = MAP_CALL(range_at)(map, (NUMBER)(start + 9));
        check(MAP_CALL(get)(map, start, &value) && value == (uint64_t)(p % 3 + 1) && !MAP_CALL(get)(map, (NUMBER)(start + 10), NULL),
            "in chunks: get");
        check(it.has_value && it.has_start && it.start == start && it.has_end && it.end == (NUMBER)(start + 10), "in chunks: range_at");
        if (p % 2 == 0) check(MAP_CALL(remove)(&map, start, (NUMBER)(start + 10)) == RANGE_SET_DONE, "in chunks: remove");
    }
    check(MAP_CALL(len)(map) == count / 2, "in chunks: every second one");
    for (p = 0; p < count; p++) check(MAP_CALL(get)(map, TEST(start)(p), NULL) == (p % 2 == 1), "in chunks: what is left");
    check(MAP_CALL(insert)(&map, TEST(start)(1), TEST(start)(count - 1), 7) == RANGE_SET_DONE && MAP_CALL(len)(map) == 2,
        "in chunks: one over all");
    check(MAP_CALL(remove_from)(&map, LEAST) == RANGE_SET_DONE && MAP_CALL(len)(map) == 0, "in chunks: all taken out");
    MAP_CALL(free)(&map);
    for (p = 0; p < count; p++)
        check(MAP_CALL(get)(copy, TEST(start)(p), &value) && value == (uint64_t)(p % 3 + 1), "in chunks: a copy's value");
    TEST(saved)(copy, count);
    MAP_CALL(free)(&copy);
}

static void TEST(all)(long cases)
{
    TEST(bad_maps)();
    /* A million ranges for 5,000 cases, and some for none. */
    TEST(in_chunks)(1500 + 200 * (size_t)cases);
    TEST(changes)(cases);
    while (cases-- > 0) TEST(made_of)();
}
