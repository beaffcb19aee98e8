/* Sets in chunks, beside lists. Included by test_calls.h. */

/* The ranges are read into so much room at a time, as long as more follow. What stands after the room stays as it is. */
static void TEST(read_by)(CHUNKED set, const NUMBER *wanted, size_t len, size_t room)
{
    NUMBER some[65], from = LEAST;
    SET part = {NULL, 77};
    size_t at = 0;
    range_set_status status;
    do {
        some[room] = 77;
        status = CALL(chunked_next_ranges)(set, from, some, room, &part);
        check(status == (len - at > room ? RANGE_SET_MORE : RANGE_SET_DONE), "chunked_next_ranges: status");
        check(part.len == (len - at > room ? room / 2 * 2 : len - at), "chunked_next_ranges: the length");
        check(TEST(is)(part, part.len == 0 ? wanted : wanted + at, part.len), "chunked_next_ranges: the ranges");
        check(some[room] == 77, "chunked_next_ranges: what stands after them");
        at += part.len;
        if (part.len > 0) from = some[part.len - 1];
    } while (status == RANGE_SET_MORE);
    check(at == len, "chunked_next_ranges: how many there are");
}

/* A set in chunks has these boundaries: read range by range, and copied with the exact room, with more and with too little. */
static void TEST(has_boundaries)(CHUNKED set, const NUMBER *wanted, size_t len)
{
    NUMBER *list = malloc((len + 2) * sizeof *list);
    SET result = {NULL, 77};
    RANGE it = {77, 78, true};
    size_t at = 0, room;
    bool more;
    if (list == NULL) fail("no memory");
    for (more = CALL(chunked_next)(set, LEAST, &it); more; more = it.has_end && CALL(chunked_next)(set, it.end, &it)) {
        check(at < len && it.start == wanted[at], "chunked: where a range starts");
        check(it.has_end == (at + 1 < len) && (!it.has_end || it.end == wanted[at + 1]), "chunked: where a range ends");
        at += it.has_end ? 2 : 1;
    }
    check(at == len, "chunked: how many ranges are read");
    for (room = 2; room <= 64; room += 31) TEST(read_by)(set, wanted, len, room);
    check(CALL(chunked_boundaries_len)(set) == len && CALL(chunked_ranges_len)(set) == len / 2 + len % 2, "chunked: the lengths");
    check(CALL(chunked_is_empty)(set) == (len == 0), "chunked: whether it is empty");
    for (room = len; room <= len + 2; room += 2) {
        list[len] = 5, list[len + 1] = 6;
        check(CALL(chunked_copy)(set, list, room, &result) == RANGE_SET_DONE, "chunked_copy: status");
        check(TEST(is)(result, wanted, len) && (len == 0 || result.boundaries == list), "chunked_copy: the set");
        check(list[len] == 5 && list[len + 1] == 6, "chunked_copy: what stands after the set");
    }
    if (len > 0) {
        list[0] = 5, list[len - 1] = 6;
        check(CALL(chunked_copy)(set, list, len - 1, &result) == RANGE_SET_NO_ROOM, "chunked_copy: too little room");
        check(result.boundaries == NULL && result.len == len && list[len - 1] == 6 && (len == 1 || list[0] == 5),
            "chunked_copy: the room that it needs");
    }
    check(CALL(chunked_copy)(set, NULL, 0, &result) == (len > 0 ? RANGE_SET_NO_ROOM : RANGE_SET_DONE), "chunked_copy: no buffer");
    check(result.boundaries == NULL && result.len == len, "chunked_copy: the length alone");
    check(CALL(chunked_copy)(set, NULL, 1, &result) == RANGE_SET_BAD_ARGUMENT, "chunked_copy: a null buffer");
    check(CALL(chunked_copy)(set, list, len, NULL) == RANGE_SET_BAD_ARGUMENT, "chunked_copy: a null result");
    if (len * sizeof *list >= sizeof result)
        check(CALL(chunked_copy)(set, list, len, (SET *)(void *)list) == RANGE_SET_BAD_ARGUMENT, "chunked_copy: the result in the buffer");
    free(list);
}

/* The boundaries of the first ranges of a list, up to `most`, that have a number from `start` on and, where there is an end, below it. */
static size_t TEST(ranges_among)(SET list, NUMBER start, const NUMBER *end, size_t most, NUMBER *wanted)
{
    size_t len = 0, i;
    for (i = 0; i < list.len && most > 0; i += 2) {
        if (i + 1 < list.len && list.boundaries[i + 1] <= start) continue;
        if (end != NULL && (list.boundaries[i] >= *end || start >= *end)) continue;
        wanted[len++] = list.boundaries[i];
        if (i + 1 < list.len) wanted[len++] = list.boundaries[i + 1];
        most--;
    }
    return len;
}

/* The ranges from `start` on, up to below `end` where there is one, into a room: all, or the first and that more follow, or the length. */
static void TEST(ranges_into)(CHUNKED set, SET list, NUMBER start, const NUMBER *end, NUMBER *some, size_t room)
{
    NUMBER wanted[POINTS + 2];
    SET part = {NULL, 77};
    const size_t all = TEST(ranges_among)(list, start, end, SIZE_MAX, wanted);
    const size_t len = all <= room ? all : TEST(ranges_among)(list, start, end, room / 2, wanted);
    const range_set_status status = end != NULL ? CALL(chunked_overlapping)(set, start, *end, some, room, &part)
                                                : CALL(chunked_next_ranges)(set, start, some, room, &part);
    if (all > room && room < 2) {
        check(status == RANGE_SET_NO_ROOM && part.boundaries == NULL && part.len == all, "ranges in chunks: the length alone");
    } else {
        check(status == (all > room ? RANGE_SET_MORE : RANGE_SET_DONE), "ranges in chunks: status");
        check(TEST(is)(part, wanted, len) && part.boundaries == some, "ranges in chunks: the ranges");
    }
}

/* The ranges of a set in chunks that share a number with a range, or that have one from its start on, into much room and little. */
static void TEST(ranges_from)(CHUNKED set, SET list, NUMBER start, NUMBER end)
{
    NUMBER some[POINTS + 5];
    SET part = {NULL, 77};
    size_t room;
    for (room = 0; room <= POINTS + 4; room += room < 6 ? 1 : POINTS - 2) {
        some[room] = 78;
        TEST(ranges_into)(set, list, start, &end, some, room);
        TEST(ranges_into)(set, list, start, NULL, some, room);
        check(some[room] == 78, "ranges in chunks: what stands after them");
    }
    TEST(ranges_into)(set, list, start, &end, NULL, 0);
    TEST(ranges_into)(set, list, start, NULL, NULL, 0);
    check(CALL(chunked_overlapping)(set, start, end, NULL, 1, &part) == RANGE_SET_BAD_ARGUMENT, "chunked_overlapping: a null buffer");
    check(CALL(chunked_next_ranges)(set, start, NULL, 1, &part) == RANGE_SET_BAD_ARGUMENT, "chunked_next_ranges: a null buffer");
    check(CALL(chunked_overlapping)(set, start, end, some, 4, NULL) == RANGE_SET_BAD_ARGUMENT, "chunked_overlapping: a null result");
    check(CALL(chunked_next_ranges)(set, start, some, 4, NULL) == RANGE_SET_BAD_ARGUMENT, "chunked_next_ranges: a null result");
}

static bool TEST(told_same)(bool found, bool wanted_found, RANGE it, RANGE wanted)
{
    return found == wanted_found && it.start == wanted.start && it.end == wanted.end && it.has_end == wanted.has_end;
}

/* Each question that writes a number or a range is answered by a set in chunks as by the list of its boundaries, which is tested
 * against bitmaps; also where there is no place for the answer. */
static void TEST(answers_at)(CHUNKED set, SET list, NUMBER from, uint64_t k)
{
    const RANGE none = {77, 78, true};
    RANGE it = none, wanted = none;
    NUMBER at = 77, number = 77;
    bool found = CALL(range_at)(list, from, &wanted);
    check(TEST(told_same)(CALL(chunked_range_at)(set, from, &it), found, it, wanted), "chunked_range_at");
    check(CALL(chunked_range_at)(set, from, NULL) == found, "chunked_range_at without a place");
    it = wanted = none, found = CALL(range_from)(list, from, &wanted);
    check(TEST(told_same)(CALL(chunked_range_from)(set, from, &it), found, it, wanted), "chunked_range_from");
    check(CALL(chunked_range_from)(set, from, NULL) == found, "chunked_range_from without a place");
    found = CALL(prev_member)(list, from, &number);
    check(CALL(chunked_prev_member)(set, from, &at) == found && at == number, "chunked_prev_member");
    check(CALL(chunked_prev_member)(set, from, NULL) == found, "chunked_prev_member without a place");
    at = number = 77, found = CALL(prev_gap)(list, from, &number);
    check(CALL(chunked_prev_gap)(set, from, &at) == found && at == number, "chunked_prev_gap");
    check(CALL(chunked_prev_gap)(set, from, NULL) == found, "chunked_prev_gap without a place");
    at = number = 77, found = CALL(select)(list, k, &number);
    check(CALL(chunked_select)(set, k, &at) == found && at == number, "chunked_select");
    check(CALL(chunked_select)(set, k, NULL) == found, "chunked_select without a place");
    check(CALL(chunked_rank)(set, from) == CALL(rank)(list, from), "chunked_rank");
}

/* The same of all questions, at some numbers and in ranges between them. */
static void TEST(answers_as)(CHUNKED set, SET list, const NUMBER *points, size_t n)
{
    const RANGE none = {77, 78, true};
    RANGE it = none, wanted = none;
    uint64_t count = 77, of_list = 77;
    size_t p;
    bool found = CALL(first)(list, &wanted);
    check(CALL(chunked_is_empty)(set) == CALL(is_empty)(list), "chunked_is_empty");
    check(CALL(chunked_is_all)(set) == CALL(is_all)(list), "chunked_is_all");
    check(TEST(told_same)(CALL(chunked_first)(set, &it), found, it, wanted), "chunked_first");
    check(CALL(chunked_first)(set, NULL) == found, "chunked_first without a place");
    it = wanted = none, found = CALL(last)(list, &wanted);
    check(TEST(told_same)(CALL(chunked_last)(set, &it), found, it, wanted), "chunked_last");
    check(CALL(chunked_last)(set, NULL) == found, "chunked_last without a place");
    found = CALL(covered)(list, &of_list);
    check(CALL(chunked_covered)(set, &count) == found && count == of_list, "chunked_covered");
    check(CALL(chunked_covered)(set, NULL) == found, "chunked_covered without a place");
    TEST(answers_at)(set, list, MOST, UINT64_MAX);
    for (p = 0; p < n; p++) {
        NUMBER start = points[p], end = points[random_below((unsigned)n)], at = 77, number = 77;
        COUNT many = (COUNT)random_below(5), align = (COUNT)random_below(9);
        TEST(answers_at)(set, list, start, random_below((unsigned)n));
        TEST(ranges_from)(set, list, start, end);
        TEST(ranges_from)(set, list, start, MOST);
        found = CALL(first_fit_aligned)(list, start, end, many, align, &number);
        check(CALL(chunked_first_fit_aligned)(&set, start, end, many, align, &at) == found && at == number, "chunked_first_fit_aligned");
        check(CALL(chunked_first_fit_aligned)(&set, start, end, many, align, NULL) == found, "chunked_first_fit_aligned without a place");
        at = number = 77, found = CALL(first_run)(list, start, end, many, &number);
        check(CALL(chunked_first_run)(set, start, end, many, &at) == found && at == number, "chunked_first_run");
        check(CALL(chunked_first_run)(set, start, end, many, NULL) == found, "chunked_first_run without a place");
    }
    TEST(ranges_from)(set, list, MOST, MOST);
}

/* The same of a set in chunks that is made of the list. */
static void TEST(in_chunks)(SET list, const NUMBER *points, size_t n)
{
    CHUNKED set = {NULL};
    check(CALL(chunked_of)(list, &set) == RANGE_SET_DONE, "chunked_of: status");
    TEST(has_boundaries)(set, list.boundaries, list.len);
    TEST(answers_as)(set, list, points, n);
    CALL(chunked_free)(&set);
}

/* Where a number of points in a row, of two numbers each, are no members, from a point on, against trying each point. */
static void TEST(chunked_fits)(CHUNKED *set, const NUMBER *points, const bool *on, size_t from)
{
    NUMBER end = points[POINTS - 1] + 2, at;
    size_t many, p, free;
    bool fits;
    for (many = 1; many <= POINTS; many++) {
        for (p = from, free = 0; p < POINTS && free < many; p++) free = on[p] ? 0 : free + 1;
        at = 77;
        fits = CALL(chunked_first_fit)(set, points[from], end, (COUNT)(2 * many), &at);
        check(fits == (free == many) && at == (fits ? points[p - many] : 77), "chunked_first_fit");
    }
}

/* A set in chunks through some changes, against a bitmap. */
static void TEST(chunked)(void)
{
    NUMBER points[POINTS], wanted[POINTS], next = 77;
    bool on[POINTS] = {false};
    size_t p, from, to, steps, len;
    CHUNKED set = {NULL}, copy = {NULL};

    for (p = 0; p < POINTS; p++) points[p] = LEAST + (NUMBER)(2 * p);
    check(CALL(chunked_new)(&set) == RANGE_SET_DONE && set.at != NULL, "chunked_new");
    for (steps = 0; steps < 20; steps++) {
        unsigned which = random_below(4);
        range_set_status status;
        from = random_below(POINTS), to = random_below(POINTS);
        switch (which) {
        case 0: status = CALL(chunked_insert)(&set, points[from], points[to]); break;
        case 1: status = CALL(chunked_remove)(&set, points[from], points[to]); break;
        case 2: status = CALL(chunked_insert_from)(&set, points[from]), to = POINTS; break;
        default: status = CALL(chunked_remove_from)(&set, points[from]), to = POINTS; break;
        }
        check(status == RANGE_SET_DONE, "chunked: status");
        for (p = from; p < to; p++) on[p] = which % 2 == 0;
        len = TEST(boundaries)(points, on, POINTS, wanted);
        TEST(has_boundaries)(set, wanted, len);
        for (p = 0; p < POINTS; p++) {
            size_t after;
            bool all = true, some = false;
            check(
                CALL(chunked_contains)(set, points[p]) == on[p] && CALL(chunked_contains)(set, points[p] + 1) == on[p], "chunked_contains");
            for (after = p; after < POINTS; after++) {
                check(CALL(chunked_contains_range)(set, points[p], points[after]) == all, "chunked_contains_range");
                check(CALL(chunked_intersects_range)(set, points[p], points[after]) == some, "chunked_intersects_range");
                all = all && on[after], some = some || on[after];
            }
            check(CALL(chunked_contains_range)(set, points[p], LEAST), "chunked_contains_range: no number");
            check(!CALL(chunked_intersects_range)(set, points[p], LEAST), "chunked_intersects_range: no number");
            for (after = p; after < POINTS && !on[after]; after++) {
            }
            check(CALL(chunked_next_member)(set, points[p], &next) == (after < POINTS) && (after == POINTS || next == points[after]),
                "chunked_next_member");
            TEST(chunked_fits)(&set, points, on, p);
            for (after = p; after < POINTS && on[after]; after++) {
            }
            check(CALL(chunked_next_gap)(set, points[p], &next) == (after < POINTS) && (after == POINTS || next == points[after]),
                "chunked_next_gap");
        }
        check(CALL(chunked_of)(TEST(set)(wanted, len), &copy) == RANGE_SET_DONE, "chunked_of: status");
        TEST(has_boundaries)(copy, wanted, len);
        CALL(chunked_free)(&copy);
    }
    CALL(chunked_clear)(&set);
    TEST(has_boundaries)(set, NULL, 0);
    check(CALL(chunked_insert)(&set, points[0], points[1]) == RANGE_SET_DONE, "chunked: a set used again");
    TEST(has_boundaries)(set, points, 2);
    CALL(chunked_free)(&set);
    check(set.at == NULL, "chunked_free leaves an address");
}

/* Of ranges with gaps of two between, three numbers fit behind the last alone, again and again; and where a range was. */
static void TEST(fits_behind)(CHUNKED *set, const NUMBER *boundaries, size_t len)
{
    NUMBER first = 0, last = boundaries[len - 1];
    for (int again = 0; again < 2; again++) {
        check(CALL(chunked_first_fit)(set, 0, last + 9, 3, &first) && first == last, "chunked_first_fit: behind");
        check(!CALL(chunked_first_fit)(set, 0, last + 2, 3, &first) && first == last, "chunked_first_fit: nowhere");
        check(CALL(chunked_first_fit)(set, 0, last + 9, 2, &first) && first == boundaries[1], "chunked_first_fit: the first gap");
    }
    check(CALL(chunked_remove)(set, boundaries[len / 2], boundaries[len / 2 + 1]) == RANGE_SET_DONE, "chunked_first_fit: remove");
    check(CALL(chunked_first_fit)(set, 0, last + 9, 3, &first) && first == boundaries[len / 2 - 1], "chunked_first_fit: where one was");
    check(CALL(chunked_insert)(set, boundaries[len / 2], boundaries[len / 2 + 1]) == RANGE_SET_DONE, "chunked_first_fit: insert");
    check(CALL(chunked_first_fit)(set, 0, last + 9, 3, NULL), "chunked_first_fit: a null place");
    check(CALL(chunked_first_fit)(set, 0, last + 9, 3, &first) && first == last, "chunked_first_fit: behind again");
}

/* Where numbers fit from a multiple on, by what the set has learned of gaps for other multiples and counts, as in the list of its
 * boundaries. */
static void TEST(fits_aligned)(CHUNKED *set, SET list, NUMBER end)
{
    for (int again = 0; again < 200; again++) {
        NUMBER start = (NUMBER)(3 * random_below(1000)), at = 77, number = 77;
        COUNT count = (COUNT)random_below(4), align = (COUNT)random_below(9);
        bool found = CALL(first_fit_aligned)(list, start, end, count, align, &number);
        check(CALL(chunked_first_fit_aligned)(set, start, end, count, align, &at) == found && at == number,
            "chunked_first_fit_aligned: again");
        at = number = 77, found = CALL(first_fit)(list, start, end, count, &number);
        check(CALL(chunked_first_fit)(set, start, end, count, &at) == found && at == number,
            "chunked_first_fit: after one from a multiple on");
    }
}

/* Where many numbers fit in a set in chunks, and numbers on both sides of zero. */
static void TEST(chunked_fits_far)(void)
{
    static const NUMBER both[] = {LEAST, LEAST + 2, MOST - 5, MOST - 3};
    const COUNT all = (COUNT)((COUNT)MOST - (COUNT)LEAST), between = (COUNT)(all - 7);
    CHUNKED set = {NULL};
    NUMBER at = 77;
    check(CALL(chunked_of)(TEST(set)(both, 4), &set) == RANGE_SET_DONE, "chunked_first_fit: of a list");
    check(CALL(chunked_first_fit)(&set, LEAST, MOST, between, &at) && at == LEAST + 2, "chunked_first_fit of as many as the gap has");
    check(!CALL(chunked_first_fit)(&set, LEAST, MOST, (COUNT)(between + 1), NULL), "chunked_first_fit of one more than the gap has");
    check(CALL(chunked_first_fit)(&set, MOST - 5, MOST, 3, &at) && at == MOST - 3, "chunked_first_fit at the end");
    check(CALL(chunked_first_fit)(&set, LEAST, LEAST, 0, &at) && at == LEAST, "chunked_first_fit of no number");
    check(!CALL(chunked_first_fit)(&set, MOST, LEAST, 0, &at) && !CALL(chunked_first_fit)(&set, MOST, LEAST, 1, &at) && at == LEAST,
        "chunked_first_fit in a reversed range");
    CALL(chunked_clear)(&set);
    check(CALL(chunked_first_fit)(&set, LEAST, MOST, all, &at) && at == LEAST, "chunked_first_fit of all numbers but one");
    CALL(chunked_free)(&set);
}

/* Where numbers fit, or are members, up to the greatest one: a list, the same in chunks, and of fits a map whose keys have values there. */
static void TEST(fits_to_the_end)(void)
{
    static const NUMBER few[] = {LEAST, LEAST + 2, MOST - 5, MOST - 3}, open[] = {MOST - 7}, all[] = {LEAST}, block[] = {LEAST, MOST - 127};
    const COUNT most = (COUNT)((COUNT)MOST - (COUNT)LEAST);
    enum { FIT, ALIGNED, RUN };
    const struct {
        const char *name;
        int call;
        const NUMBER *list;
        size_t len;
        NUMBER start;
        COUNT count, align;
        bool found;
        NUMBER at;
    } rows[] = {{"from: the last numbers", FIT, few, 4, MOST - 5, 4, 0, true, MOST - 3},
        {"from: one more than the last", FIT, few, 4, MOST - 5, 5, 0, false, 77},
        {"from: the greatest", FIT, few, 4, MOST, 1, 0, true, MOST}, {"from: past the greatest", FIT, few, 4, MOST, 2, 0, false, 77},
        {"from: no number", FIT, few, 4, MOST - 4, 0, 0, true, MOST - 4}, {"from: a gap before", FIT, few, 4, LEAST, 5, 0, true, LEAST + 2},
        {"from: all but one", FIT, NULL, 0, LEAST, most, 0, true, LEAST},
        {"from: as many as there are", FIT, NULL, 0, LEAST + 1, most, 0, true, LEAST + 1},
        {"from: one too many", FIT, NULL, 0, LEAST + 2, most, 0, false, 77}, {"from: no end", FIT, open, 1, MOST - 7, 1, 0, false, 77},
        {"from: a multiple", ALIGNED, few, 4, MOST - 5, 4, 4, true, MOST - 3},
        {"from: a multiple at the end", ALIGNED, few, 4, MOST - 2, 2, 2, true, MOST - 1},
        {"from: the block 255.255.255.128/25 of uint32_t", ALIGNED, block, 2, LEAST, 128, 128, true, MOST - 127},
        {"from: no multiple left", ALIGNED, few, 4, MOST, 1, 2, false, 77}, {"from: of 0", ALIGNED, few, 4, LEAST, 1, 0, false, 77},
        {"from: no number, no multiple", ALIGNED, few, 4, MOST, 0, 2, false, 77},
        {"from: no number at a multiple", ALIGNED, few, 4, MOST - 4, 0, 4, true, MOST - 3},
        {"from: members without an end", RUN, open, 1, LEAST, 8, 0, true, MOST - 7},
        {"from: one member too many", RUN, open, 1, LEAST, 9, 0, false, 77}, {"from: a last member", RUN, open, 1, MOST, 1, 0, true, MOST},
        {"from: members before", RUN, few, 4, LEAST + 1, 2, 0, true, MOST - 5},
        {"from: all members but one", RUN, all, 1, LEAST, most, 0, true, LEAST},
        {"from: as many members as there are", RUN, all, 1, LEAST + 1, most, 0, true, LEAST + 1},
        {"from: one more than there are", RUN, all, 1, LEAST + 2, most, 0, false, 77}};
    size_t row, i;
    for (row = 0; row < sizeof rows / sizeof *rows; row++) {
        const NUMBER start = rows[row].start;
        const COUNT count = rows[row].count, align = rows[row].align;
        const SET list = TEST(set)(rows[row].list, rows[row].len);
        CHUNKED set;
        MAP map;
        NUMBER at[3] = {77, 77, 77};
        bool found[6];
        check(CALL(chunked_of)(list, &set) == RANGE_SET_DONE && MAP_CALL(new)(&map) == RANGE_SET_DONE, "from: made");
        for (i = 0; i < list.len; i += 2)
            check((i + 1 < list.len ? MAP_CALL(insert)(&map, list.boundaries[i], list.boundaries[i + 1], i)
                                    : MAP_CALL(insert_from)(&map, list.boundaries[i], i))
                      == RANGE_SET_DONE,
                "from: values");
        if (rows[row].call == FIT) {
            found[0] = CALL(first_fit_from)(list, start, count, &at[0]), found[1] = CALL(first_fit_from)(list, start, count, NULL);
            found[2] = CALL(chunked_first_fit_from)(&set, start, count, &at[1]);
            found[3] = CALL(chunked_first_fit_from)(&set, start, count, NULL);
            found[4] = MAP_CALL(first_fit_from)(map, start, count, &at[2]), found[5] = MAP_CALL(first_fit_from)(map, start, count, NULL);
        } else if (rows[row].call == ALIGNED) {
            found[0] = CALL(first_fit_aligned_from)(list, start, count, align, &at[0]);
            found[1] = CALL(first_fit_aligned_from)(list, start, count, align, NULL);
            found[2] = CALL(chunked_first_fit_aligned_from)(&set, start, count, align, &at[1]);
            found[3] = CALL(chunked_first_fit_aligned_from)(&set, start, count, align, NULL);
            found[4] = MAP_CALL(first_fit_aligned_from)(map, start, count, align, &at[2]);
            found[5] = MAP_CALL(first_fit_aligned_from)(map, start, count, align, NULL);
        } else {
            found[0] = CALL(first_run_from)(list, start, count, &at[0]), found[1] = CALL(first_run_from)(list, start, count, NULL);
            found[2] = CALL(chunked_first_run_from)(set, start, count, &at[1]);
            found[3] = CALL(chunked_first_run_from)(set, start, count, NULL);
            found[4] = found[5] = found[0], at[2] = at[0];
        }
        for (i = 0; i < 6; i++) check(found[i] == rows[row].found && at[i / 2] == rows[row].at, rows[row].name);
        CALL(chunked_free)(&set);
        MAP_CALL(free)(&map);
    }
}

/* Many ranges, put in far from each other, so that there are many chunks; and all taken out again. */
static void TEST(chunked_many)(void)
{
    enum { MANY = 5000 };
    static NUMBER wanted[2 * MANY];
    CHUNKED set = {NULL};
    size_t p;
    for (p = 0; p < MANY; p++) wanted[2 * p] = (NUMBER)(3 * p), wanted[2 * p + 1] = (NUMBER)(3 * p + 1);
    check(CALL(chunked_new)(&set) == RANGE_SET_DONE, "chunked: many: new");
    for (p = 0; p < MANY; p++) {
        NUMBER start = wanted[2 * (p * 1237 % MANY)];
        check(CALL(chunked_insert)(&set, start, start + 1) == RANGE_SET_DONE, "chunked: many: insert");
    }
    TEST(has_boundaries)(set, wanted, 2 * MANY);
    TEST(fits_behind)(&set, wanted, 2 * MANY);
    TEST(fits_aligned)(&set, TEST(set)(wanted, 2 * MANY), 3 * MANY + 9);
    for (p = 0; p < MANY / 2; p++)
        check(CALL(chunked_remove)(&set, wanted[2 * p], wanted[2 * p + 1]) == RANGE_SET_DONE, "chunked: many: remove");
    TEST(has_boundaries)(set, wanted + MANY, MANY);
    TEST(fits_aligned)(&set, TEST(set)(wanted + MANY, MANY), 3 * MANY + 9);
    CALL(chunked_free)(&set);
    check(CALL(chunked_of)(TEST(set)(wanted, 2 * MANY), &set) == RANGE_SET_DONE, "chunked: many: of a list");
    TEST(has_boundaries)(set, wanted, 2 * MANY);
    for (p = 0; p < MANY; p += 97) TEST(answers_at)(set, TEST(set)(wanted, 2 * MANY), (NUMBER)(3 * p + 2), p);
    CALL(chunked_free)(&set);
}

/* Answers that lie some chunks on: of ranges of six numbers with gaps of four between, one was taken out and two were joined. */
static void TEST(beyond_a_chunk)(void)
{
    enum { MANY = 2000, OUT = 1600, JOINED = 1700, FIRST = 100, PAST = 1900 };
    const NUMBER end = 10 * MANY;
    static const NUMBER gaps[] = {6, 10, 16, 18};
    static NUMBER wanted[2 * MANY], some[2 * MANY];
    CHUNKED set = {NULL};
    SET part = {NULL, 77};
    NUMBER at = 77;
    size_t p, len = 0;
    check(CALL(chunked_new)(&set) == RANGE_SET_DONE, "some chunks on: new");
    for (p = 0; p < MANY; p++) {
        check(CALL(chunked_insert)(&set, (NUMBER)(10 * p), (NUMBER)(10 * p + 6)) == RANGE_SET_DONE, "some chunks on: insert");
        if (p == OUT || p < FIRST || p >= PAST) continue;
        if (p != JOINED + 1) wanted[len++] = (NUMBER)(10 * p);
        if (p != JOINED) wanted[len++] = (NUMBER)(10 * p + 6);
    }
    check(CALL(chunked_remove)(&set, 10 * OUT, 10 * OUT + 6) == RANGE_SET_DONE, "some chunks on: remove");
    check(CALL(chunked_insert)(&set, 10 * JOINED + 6, 10 * JOINED + 10) == RANGE_SET_DONE, "some chunks on: join");
    check(CALL(chunked_first_fit)(&set, 0, end, 5, &at) && at == 10 * OUT - 4, "some chunks on: first_fit");
    check(CALL(chunked_first_fit_aligned)(&set, 0, end, 5, 16, &at) && at == 10 * OUT, "some chunks on: first_fit_aligned");
    check(!CALL(chunked_first_fit_aligned)(&set, 0, end, 11, 16, &at), "some chunks on: first_fit_aligned of one too many");
    check(CALL(chunked_first_run)(set, 0, end, 7, &at) && at == 10 * JOINED, "some chunks on: first_run");
    check(CALL(chunked_first_run)(set, 0, end, 16, &at) && at == 10 * JOINED && !CALL(chunked_first_run)(set, 0, end, 17, &at),
        "some chunks on: first_run of all, and of one more");
    check(CALL(chunked_overlapping)(set, 10 * FIRST, 10 * PAST, some, 2 * MANY, &part) == RANGE_SET_DONE && TEST(is)(part, wanted, len),
        "some chunks on: overlapping");
    check(CALL(chunked_overlapping)(set, 10 * FIRST, 10 * PAST, some, len, &part) == RANGE_SET_DONE && TEST(is)(part, wanted, len),
        "some chunks on: overlapping with the exact room");
    check(CALL(chunked_overlapping)(set, 10 * FIRST, 10 * PAST, some, len - 2, &part) == RANGE_SET_MORE && TEST(is)(part, wanted, len - 2),
        "some chunks on: overlapping but for the last range");
    check(CALL(chunked_overlapping)(set, 10 * FIRST, 10 * PAST, NULL, 0, &part) == RANGE_SET_NO_ROOM && part.len == len,
        "some chunks on: overlapping: the length alone");
    check(
        CALL(chunked_gaps)(set, 3, 18, some, 4, &part) == RANGE_SET_DONE && TEST(is)(part, gaps, 4), "some chunks on: gaps to within one");
    check(CALL(chunked_gaps)(set, 10 * FIRST + 3, 10 * PAST - 7, some, len - 2, &part) == RANGE_SET_DONE
              && TEST(is)(part, wanted + 1, len - 2),
        "some chunks on: gaps");
    check(CALL(chunked_gaps)(set, 10 * FIRST + 3, 10 * PAST - 7, some, len - 3, &part) == RANGE_SET_NO_ROOM && part.len == len - 2,
        "some chunks on: the length of gaps");
    CALL(chunked_free)(&set);
}

/* What is no set has no member, and no call changes it. */
static void TEST(chunked_none)(void)
{
    CHUNKED none = {NULL};
    NUMBER next = 77;
    SET overlapping = {(const NUMBER *)(const void *)&none, 1};
    TEST(has_boundaries)(none, NULL, 0);
    TEST(answers_as)(none, TEST(set)(NULL, 0), &next, 1);
    check(!CALL(chunked_contains)(none, 5) && CALL(chunked_contains_range)(none, 5, 5) && !CALL(chunked_contains_range)(none, 5, 6),
        "no set: contains");
    check(CALL(chunked_contains_range)(none, 6, 5), "no set: contains_range of a reversed range");
    check(!CALL(chunked_intersects_range)(none, 5, 6), "no set: intersects_range");
    CALL(chunked_clear)(&none);
    CALL(chunked_clear)(NULL);
    check(none.at == NULL, "no set: clear");
    check(!CALL(chunked_next_member)(none, 5, &next) && next == 77, "no set: next_member");
    check(CALL(chunked_next_gap)(none, 5, &next) && next == 5 && CALL(chunked_next_gap)(none, 5, NULL), "no set: next_gap");
    check(CALL(chunked_first_fit)(&none, 5, 8, 3, &next) && next == 5, "no set: first_fit");
    check(!CALL(chunked_first_fit)(&none, 4, 8, 5, &next) && next == 5, "no set: first_fit of one too many");
    check(!CALL(chunked_first_run)(none, 4, 8, 1, &next) && next == 5, "no set: first_run");
    check(CALL(chunked_first_fit)(NULL, 5, 8, 3, NULL) && !CALL(chunked_first_fit)(NULL, 5, 8, 4, NULL), "null: first_fit");
    check(CALL(chunked_first_fit_aligned)(&none, 5, 9, 1, 4, &next) && next == 8, "no set: first_fit_aligned");
    check(CALL(chunked_first_fit_aligned)(NULL, 5, 9, 1, 4, NULL) && !CALL(chunked_first_fit_aligned)(NULL, 5, 8, 1, 4, NULL),
        "null: first_fit_aligned");
    check(CALL(chunked_first_fit_from)(NULL, MOST, 1, &next) && next == MOST && !CALL(chunked_first_run_from)(none, MOST, 1, NULL)
              && CALL(chunked_first_fit_aligned_from)(&none, MOST - 3, 4, 4, &next) && next == MOST - 3,
        "no set: fits up to the greatest number");
    check(CALL(chunked_insert)(&none, 5, 6) == RANGE_SET_BAD_ARGUMENT && CALL(chunked_insert)(NULL, 5, 6) == RANGE_SET_BAD_ARGUMENT,
        "no set: insert");
    check(CALL(chunked_remove)(&none, 5, 6) == RANGE_SET_BAD_ARGUMENT && CALL(chunked_remove)(NULL, 5, 6) == RANGE_SET_BAD_ARGUMENT,
        "no set: remove");
    check(CALL(chunked_insert_from)(&none, 5) == RANGE_SET_BAD_ARGUMENT && CALL(chunked_insert_from)(NULL, 5) == RANGE_SET_BAD_ARGUMENT,
        "no set: insert_from");
    check(CALL(chunked_remove_from)(&none, 5) == RANGE_SET_BAD_ARGUMENT && CALL(chunked_remove_from)(NULL, 5) == RANGE_SET_BAD_ARGUMENT,
        "no set: remove_from");
    check(CALL(chunked_new)(NULL) == RANGE_SET_BAD_ARGUMENT && CALL(chunked_of)(overlapping, NULL) == RANGE_SET_BAD_ARGUMENT,
        "no set: a null result");
    check(CALL(chunked_of)(overlapping, &none) == RANGE_SET_BAD_ARGUMENT && none.at == NULL, "chunked_of: a list that overlaps the result");
    CALL(chunked_free)(&none);
    CALL(chunked_free)(NULL);
}

/* The gaps of a set in chunks in a window, as those of its list, with several rooms. */
static void TEST(chunked_gaps)(CHUNKED set, SET list, NUMBER start, NUMBER end)
{
    NUMBER wanted[2 * POINTS + 2], out[2 * POINTS + 2];
    SET gaps, result;
    size_t room;
    check(CALL(gaps)(list, start, end, wanted, 2 * POINTS + 2, &gaps) == RANGE_SET_DONE, "gaps of the list");
    for (room = 0; room <= gaps.len + 2; room++) {
        out[room] = 77;
        check(CALL(chunked_gaps)(set, start, end, out, room, &result) == (room < gaps.len ? RANGE_SET_NO_ROOM : RANGE_SET_DONE),
            "chunked_gaps: status");
        check(result.len == gaps.len && out[room] == 77, "chunked_gaps: the length");
        check(room < gaps.len ? result.boundaries == NULL : TEST(is)(result, wanted, gaps.len), "chunked_gaps: the set");
    }
    check(CALL(chunked_gaps)(set, start, end, NULL, 1, &result) == RANGE_SET_BAD_ARGUMENT, "chunked_gaps: a null buffer");
    check(CALL(chunked_gaps)(set, start, end, out, 1, NULL) == RANGE_SET_BAD_ARGUMENT, "chunked_gaps: a null result");
}

/* Whether a change is one: whether the set in chunks, and the same in a buffer, is another then. */
static void TEST(change_is_told)(SET list, bool inserts, NUMBER start, NUMBER end)
{
    NUMBER items[2 * POINTS + 4], after[2 * POINTS + 4];
    CHUNKED set;
    BUFFER buffer = CALL(buffer_of)(items, 2 * POINTS + 4), full = CALL(buffer_of)(NULL, 0);
    SET now = {NULL, 0};
    bool changed = false, of_chunks = false;
    if (list.len > 0) memcpy(items, list.boundaries, list.len * sizeof *items);
    buffer.set.len = list.len;
    check(CALL(chunked_of)(list, &set) == RANGE_SET_DONE, "a change: of a list");
    check((inserts ? CALL(insert_changed)(&buffer, start, end, &changed) : CALL(remove_changed)(&buffer, start, end, &changed))
              == RANGE_SET_DONE,
        "a change in a buffer");
    check(
        (inserts ? CALL(chunked_insert_changed)(&set, start, end, &of_chunks) : CALL(chunked_remove_changed)(&set, start, end, &of_chunks))
            == RANGE_SET_DONE,
        "a change in chunks");
    check(CALL(chunked_copy)(set, after, 2 * POINTS + 4, &now) == RANGE_SET_DONE && CALL(equal)(now, buffer.set), "the same change");
    check(changed == !CALL(equal)(list, now) && of_chunks == changed, "whether it is one");
    check(CALL(insert_changed)(&buffer, start, end, NULL) == RANGE_SET_BAD_ARGUMENT
              && CALL(remove_changed)(&buffer, start, end, NULL) == RANGE_SET_BAD_ARGUMENT
              && CALL(insert_changed)(NULL, start, end, &changed) == RANGE_SET_BAD_ARGUMENT
              && CALL(remove_changed)(NULL, start, end, &changed) == RANGE_SET_BAD_ARGUMENT,
        "a change in a buffer: null");
    check(CALL(chunked_insert_changed)(&set, start, end, NULL) == RANGE_SET_BAD_ARGUMENT
              && CALL(chunked_remove_changed)(&set, start, end, NULL) == RANGE_SET_BAD_ARGUMENT
              && CALL(chunked_insert_changed)(NULL, start, end, &changed) == RANGE_SET_BAD_ARGUMENT
              && CALL(chunked_remove_changed)(NULL, start, end, &changed) == RANGE_SET_BAD_ARGUMENT,
        "a change in chunks: null");
    check(CALL(equal)(now, buffer.set), "what is refused changes nothing");
    changed = of_chunks;
    check(CALL(insert_changed)(&full, 3, 5, &changed) == RANGE_SET_NO_ROOM && changed == of_chunks, "a change without room writes nothing");
    CALL(chunked_free)(&set);
}
