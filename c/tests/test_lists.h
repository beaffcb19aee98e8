/* Sets made of numbers, of ranges and of other sets. Included by test_calls.h. */

/* The set of made-up numbers, near the least number, in the middle and near the greatest, with the exact room, more, and one too little. */
static void TEST(from_values)(void)
{
    enum { COUNT_OF_VALUES = 12, GUARDED = 2 * COUNT_OF_VALUES + 2 };
    const NUMBER bases[] = {LEAST, 50, (NUMBER)(MOST - (POINTS - 1))};
    for (size_t b = 0; b < 3; b++) {
        NUMBER values[COUNT_OF_VALUES + 1], buffer[GUARDED], *out = buffer + 1;
        bool on[POINTS] = {false};
        SET set = {NULL, 77};
        const size_t count = random_below(COUNT_OF_VALUES + 1), room = 2 * count + random_below(2) * (GUARDED - 2 - 2 * count);
        size_t i;
        for (i = 0; i < count; i++) {
            const unsigned p = random_below(POINTS);
            values[i] = (NUMBER)(bases[b] + (NUMBER)p), on[p] = true;
        }
        for (i = 0; i < GUARDED; i++) buffer[i] = 77;
        check(CALL(from_values)(values, count, out, room, &set) == RANGE_SET_DONE && set.boundaries == out, "from_values: status");
        for (i = 0; i < POINTS; i++) check(CALL(contains)(set, (NUMBER)(bases[b] + (NUMBER)i)) == on[i], "from_values: the members");
        check(CALL(view)(set.boundaries, set.len, &set) == RANGE_SET_DONE, "from_values: the list");
        check(b == 2 || set.len % 2 == 0, "from_values: the end");
        check(buffer[0] == 77 && out[room] == 77, "from_values: a number beside the buffer");
        if (count == 0) continue;
        out[0] = 77;
        check(CALL(from_values)(values, count, out, 2 * count - 1, &set) == RANGE_SET_NO_ROOM, "from_values with too little room");
        check(set.boundaries == NULL && set.len == 2 * count && out[0] == 77, "from_values with too little room: the length");
        check(CALL(from_values)(values, count, values, 2 * count, &set) == RANGE_SET_BAD_ARGUMENT, "from_values over the numbers");
        check(CALL(from_values)(values, count, out, room, (SET *)(void *)values) == RANGE_SET_BAD_ARGUMENT, "from_values into the numbers");
        check(CALL(from_values)(values, count, out, room, (SET *)(void *)out) == RANGE_SET_BAD_ARGUMENT, "from_values into the buffer");
        check(CALL(from_values)(values, count, out, room, NULL) == RANGE_SET_BAD_ARGUMENT, "from_values without a result");
        check(CALL(from_values)(NULL, count, out, room, &set) == RANGE_SET_BAD_ARGUMENT, "from_values of null");
        check(CALL(from_values)(values, SIZE_MAX / 4, out, room, &set) == RANGE_SET_BAD_ARGUMENT, "from_values of too many");
        check(CALL(from_values)(values, count, NULL, room, &set) == RANGE_SET_BAD_ARGUMENT, "from_values into null");
    }
}

/* Numbers in any order, some of them several times, between guard words. */
static void TEST(shuffled)(const NUMBER *points, size_t n)
{
    enum { GUARD = 4, MOST_ITEMS = 2 * POINTS };
    const NUMBER guard = (NUMBER)0x5a5a5a5a5a5a5a5a;
    NUMBER buffer[GUARD + MOST_ITEMS + GUARD], *items = buffer + GUARD;
    bool is_there[POINTS + 1] = {false};
    size_t len = random_below(MOST_ITEMS + 1), wanted = 0, i;
    SET set = {NULL, 77};

    for (i = 0; i < GUARD; i++) buffer[i] = buffer[GUARD + len + i] = guard;
    for (i = 0; i < len; i++) {
        size_t p = random_below((unsigned)n);
        items[i] = points[p];
        is_there[p] = true;
    }
    check(CALL(from_unsorted)(items, len, &set) == RANGE_SET_DONE && set.boundaries == items, "from_unsorted: status");
    for (i = 0; i < n; i++)
        if (is_there[i]) check(wanted < set.len && items[wanted++] == points[i], "from_unsorted: the list");
    check(set.len == wanted, "from_unsorted: length");
    for (i = 0; i < GUARD; i++) check(buffer[i] == guard && buffer[GUARD + len + i] == guard, "from_unsorted: a word beside the buffer");
}

/* Ranges in any order, empty and reversed ones too, between guard words. */
static void TEST(ranges_shuffled)(const NUMBER *points, size_t n)
{
    enum { GUARD = 4, MOST_RANGES = POINTS / 2 };
    const NUMBER guard = (NUMBER)0x5a5a5a5a5a5a5a5a;
    NUMBER buffer[GUARD + 2 * MOST_RANGES + GUARD], *ranges = buffer + GUARD, wanted[POINTS + 1];
    bool on[POINTS + 1] = {false};
    size_t count = random_below(MOST_RANGES + 1), i, p;
    SET set = {NULL, 77};

    for (i = 0; i < GUARD; i++) buffer[i] = buffer[GUARD + 2 * count + i] = guard;
    for (i = 0; i < count; i++) {
        size_t from = random_below((unsigned)n), to = random_below(4) == 0 ? random_below((unsigned)n) : from + random_below(4);
        if (to >= n) to = n - 1;
        ranges[2 * i] = points[from], ranges[2 * i + 1] = points[to];
        for (p = from; p < to; p++) on[p] = true;
    }
    check(CALL(from_ranges)(ranges, count, &set) == RANGE_SET_DONE && set.boundaries == ranges, "from_ranges: status");
    check(TEST(is)(set, wanted, TEST(boundaries)(points, on, n, wanted)), "from_ranges: the list");
    for (i = 0; i < GUARD; i++)
        check(buffer[i] == guard && buffer[GUARD + 2 * count + i] == guard, "from_ranges: a word beside the buffer");
}

/* The union of some sets, against the bitmaps, with room and with one number too little, between guard words. */
static void TEST(unions)(const NUMBER *points, size_t n)
{
    enum { MOST_SETS = 5, GUARD = 4 };
    const NUMBER guard = (NUMBER)0x5a5a5a5a5a5a5a5a;
    NUMBER lists[MOST_SETS][POINTS + 1], wanted[POINTS + 1], buffer[GUARD + MOST_SETS * (POINTS + 1) + GUARD], *out = buffer + GUARD;
    bool on[POINTS + 1] = {false};
    SET sets[MOST_SETS], result = {NULL, 77};
    size_t count = random_below(MOST_SETS + 1), all = 0, i, p;

    for (i = 0; i < count; i++) {
        bool of_set[POINTS + 1];
        unsigned sparse = 1 + random_below(9);
        for (p = 0; p < n; p++) {
            of_set[p] = (p > 0 && of_set[p - 1]) != (random_below(sparse) == 0);
            on[p] = on[p] || of_set[p];
        }
        sets[i] = TEST(set)(lists[i], TEST(boundaries)(points, of_set, n, lists[i]));
        if (sets[i].len == 0 && random_below(2) == 0) sets[i].boundaries = NULL, sets[i].len = 3;
        else all += sets[i].len;
    }
    for (i = 0; i < sizeof buffer / sizeof *buffer; i++) buffer[i] = guard;
    check(CALL(union_all)(sets, count, out, all, &result) == RANGE_SET_DONE, "union_all: status");
    check(TEST(is)(result, wanted, TEST(boundaries)(points, on, n, wanted)) && result.boundaries == out, "union_all: the list");
    for (i = 0; i < GUARD; i++) check(buffer[i] == guard && out[all + i] == guard, "union_all: a word beside the buffer");
    check(CALL(union_all)(sets, 0, NULL, 1, &result) == RANGE_SET_BAD_ARGUMENT, "union_all of no set: a null buffer");
    check(CALL(union_all)(sets, 0, out, 1, NULL) == RANGE_SET_BAD_ARGUMENT, "union_all of no set: a null result");
    if (all == 0) return;
    for (i = 0; i < sizeof buffer / sizeof *buffer; i++) buffer[i] = guard;
    check(CALL(union_all)(sets, count, out, all - 1, &result) == RANGE_SET_NO_ROOM, "union_all with too little room: status");
    check(result.boundaries == NULL && result.len == all && out[0] == guard, "union_all with too little room: the length");
    check(
        CALL(union_all)(sets, count, lists[0], all, &result) == RANGE_SET_BAD_ARGUMENT || CALL(is_empty)(sets[0]), "union_all over a list");
    check(CALL(union_all)(NULL, count, out, all, &result) == RANGE_SET_BAD_ARGUMENT, "union_all of null");
    check(CALL(union_all)(sets, SIZE_MAX, out, all, &result) == RANGE_SET_BAD_ARGUMENT, "union_all of too many");
    check(CALL(union_all)(sets, count, out, all, sets) == RANGE_SET_BAD_ARGUMENT, "union_all into the sets");
    check(CALL(union_all)(sets, count, (NUMBER *)(void *)sets, count, &result) == RANGE_SET_BAD_ARGUMENT, "union_all over the sets");
}

/* Many numbers and many ranges, in an order made up. */
static void TEST(many)(void)
{
    enum { MANY = 5000 };
    NUMBER *items = malloc(4 * MANY * sizeof *items);
    size_t i, step;
    SET set = {NULL, 77};
    if (items == NULL) fail("no memory");
    for (step = 1; step <= 7919; step += 7918) {
        for (i = 0; i < 4 * MANY; i++) items[i] = (NUMBER)(i * step % MANY);
        check(CALL(from_unsorted)(items, 4 * MANY, &set) == RANGE_SET_DONE && set.len == MANY, "from_unsorted of many");
        for (i = 0; i < MANY; i++) check(items[i] == (NUMBER)i, "from_unsorted of many: the list");
        for (i = 0; i < 2 * MANY; i++) {
            items[2 * i] = (NUMBER)(4 * (i * step % MANY));
            items[2 * i + 1] = items[2 * i] + (NUMBER)(i < MANY ? 1 : 2);
        }
        check(CALL(from_ranges)(items, 2 * MANY, &set) == RANGE_SET_DONE && set.len == 2 * MANY, "from_ranges of many");
        for (i = 0; i < 2 * MANY; i++) check(items[i] == (NUMBER)(2 * i), "from_ranges of many: the list");
    }
    free(items);
}
