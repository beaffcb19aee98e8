/* Sets in chunks combined with lists. Included by test_calls.h. */

/* What each connective keeps of a set in chunks and a list. */
static void TEST(chunked_combined)(SET a, SET b)
{
    NUMBER wanted[2 * POINTS + 2];
    CHUNKED set, none = {NULL};
    SET result, overlapping = {(const NUMBER *)(const void *)&set, 1};
    unsigned keep;
    for (keep = 0; keep < CONNECTIVES; keep++) {
        check(CALL(chunked_of)(a, &set) == RANGE_SET_DONE, "chunked_combine: of a list");
        check(CALL(combine)(a, b, keep, wanted, 2 * POINTS + 2, &result) == RANGE_SET_DONE, "chunked_combine: of lists");
        check(CALL(chunked_combine)(&set, b, keep) == RANGE_SET_DONE, "chunked_combine: status");
        TEST(has_boundaries)(set, wanted, result.len);
        check(CALL(chunked_combine)(&set, overlapping, keep) == RANGE_SET_BAD_ARGUMENT, "chunked_combine: a list in the struct");
        CALL(chunked_free)(&set);
    }
    check(CALL(chunked_combine)(NULL, b, 7) == RANGE_SET_BAD_ARGUMENT && CALL(chunked_combine)(&none, b, 7) == RANGE_SET_BAD_ARGUMENT,
        "chunked_combine: no set");
}

/* What is asked of two sets in chunks, and of one and a list: as of the lists, which are asked otherwise. */
static void TEST(chunked_compared)(CHUNKED one, CHUNKED other, SET a, SET b)
{
    check(CALL(chunked_intersects)(one, other) == CALL(intersects)(a, b), "chunked_intersects");
    check(CALL(chunked_is_disjoint)(one, other) == CALL(is_disjoint)(a, b), "chunked_is_disjoint");
    check(CALL(chunked_is_subset)(one, other) == CALL(is_subset)(a, b), "chunked_is_subset");
    check(CALL(chunked_is_superset)(one, other) == CALL(is_superset)(a, b), "chunked_is_superset");
    check(CALL(chunked_equal)(one, other) == CALL(equal)(a, b), "chunked_equal");
    check(CALL(chunked_intersects_list)(one, b) == CALL(intersects)(a, b), "chunked_intersects_list");
    check(CALL(chunked_is_disjoint_list)(one, b) == CALL(is_disjoint)(a, b), "chunked_is_disjoint_list");
    check(CALL(chunked_is_subset_list)(one, b) == CALL(is_subset)(a, b), "chunked_is_subset_list");
    check(CALL(chunked_is_superset_list)(one, b) == CALL(is_superset)(a, b), "chunked_is_superset_list");
    check(CALL(chunked_equal_list)(one, b) == CALL(equal)(a, b), "chunked_equal_list");
}

/* Two sets in chunks: what is asked of them, a copy of one, and what each connective keeps of both, and of one and itself. */
static void TEST(chunked_beside)(SET a, SET b)
{
    const SET nothing = {NULL, 0};
    NUMBER wanted[2 * POINTS + 2];
    CHUNKED one = {NULL}, other = {NULL}, copy = {wanted}, none = {NULL};
    SET result;
    unsigned keep;
    check(CALL(chunked_of)(a, &one) == RANGE_SET_DONE && CALL(chunked_of)(b, &other) == RANGE_SET_DONE, "beside: of lists");
    TEST(chunked_compared)(one, other, a, b);
    TEST(chunked_compared)(one, one, a, a);
    TEST(chunked_compared)(one, none, a, nothing);
    TEST(chunked_compared)(none, one, nothing, a);
    TEST(chunked_compared)(none, none, nothing, nothing);
    for (keep = 0; keep < CONNECTIVES; keep++) {
        check(CALL(chunked_clone)(one, &copy) == RANGE_SET_DONE && copy.at != one.at, "chunked_clone");
        check(CALL(combine)(a, b, keep, wanted, 2 * POINTS + 2, &result) == RANGE_SET_DONE, "chunked_combine_chunked: of lists");
        check(CALL(chunked_combine_chunked)(&copy, other, keep) == RANGE_SET_DONE, "chunked_combine_chunked: status");
        TEST(has_boundaries)(copy, wanted, result.len);
        check(CALL(chunked_combine_chunked)(&copy, copy, RANGE_SET_DIFFERENCE) == RANGE_SET_DONE && CALL(chunked_is_empty)(copy),
            "chunked_combine_chunked: with itself");
        CALL(chunked_free)(&copy);
    }
    TEST(has_boundaries)(one, a.boundaries, a.len);
    TEST(has_boundaries)(other, b.boundaries, b.len);
    check(CALL(chunked_clone)(none, &copy) == RANGE_SET_DONE && copy.at != NULL && CALL(chunked_is_empty)(copy), "chunked_clone: no set");
    check(CALL(chunked_combine_chunked)(&copy, none, RANGE_SET_NEITHER) == RANGE_SET_DONE && CALL(chunked_is_all)(copy),
        "chunked_combine_chunked: with no set");
    CALL(chunked_free)(&copy);
    check(CALL(chunked_clone)(one, NULL) == RANGE_SET_BAD_ARGUMENT && CALL(chunked_combine_chunked)(NULL, one, 7) == RANGE_SET_BAD_ARGUMENT
              && CALL(chunked_combine_chunked)(&none, one, 7) == RANGE_SET_BAD_ARGUMENT,
        "chunked_clone, chunked_combine_chunked: null");
    CALL(chunked_free)(&one);
    CALL(chunked_free)(&other);
}

/* A set in chunks as a text, with the exact room, more, and one byte too little: as its list. */
static void TEST(chunked_printed)(SET list)
{
    enum { MANY = 200, LONGEST = 44 * MANY };
    static NUMBER many[MANY + 1];
    static char wanted[LONGEST], text[LONGEST];
    CHUNKED set, none = {NULL};
    size_t len = 0, of_chunks = 0, p, room;
    int again;
    for (p = 0; p <= MANY; p++) many[p] = LEAST + (NUMBER)(7 * p);
    for (again = 0; again < 3; again++) {
        if (again > 0) list = TEST(set)(many, (size_t)MANY - (size_t)again + 2);
        check(
            CALL(print)(list, wanted, LONGEST, &len) == RANGE_SET_DONE && CALL(chunked_of)(list, &set) == RANGE_SET_DONE, "print: a list");
        for (room = len == 0 ? 0 : len - 1; room <= len + 1; room++) {
            memset(text, '#', sizeof text);
            check(CALL(chunked_print)(set, text, room, &of_chunks) == (room < len ? RANGE_SET_NO_ROOM : RANGE_SET_DONE), "chunked_print");
            check(of_chunks == len && text[room < len ? 0 : len] == '#', "chunked_print: the length");
            check(room < len || memcmp(text, wanted, len) == 0, "chunked_print: the text");
        }
        check(CALL(chunked_print)(set, NULL, 0, &of_chunks) == (len > 0 ? RANGE_SET_NO_ROOM : RANGE_SET_DONE) && of_chunks == len,
            "chunked_print: the length alone");
        CALL(chunked_free)(&set);
    }
    check(CALL(chunked_print)(none, text, 5, &len) == RANGE_SET_DONE && len == 0, "chunked_print: no set");
    check(CALL(chunked_print)(none, NULL, 1, &len) == RANGE_SET_BAD_ARGUMENT
              && CALL(chunked_print)(none, text, 1, NULL) == RANGE_SET_BAD_ARGUMENT
              && CALL(chunked_print)(none, (char *)&len, sizeof len, &len) == RANGE_SET_BAD_ARGUMENT,
        "chunked_print: null, and the length in the text");
}

/* The set in chunks of some values, as the list of them. */
static void TEST(chunked_of_values)(void)
{
    /* It lies below the values, which so many would else overlap. */
    static CHUNKED below;
    NUMBER values[POINTS], wanted[2 * POINTS];
    const size_t count = random_below(POINTS + 1);
    CHUNKED set;
    SET list;
    size_t i;
    for (i = 0; i < count; i++) values[i] = random_below(8) == 0 ? MOST : (NUMBER)random_below(40);
    check(CALL(from_values)(values, count, wanted, 2 * POINTS, &list) == RANGE_SET_DONE, "chunked_from_values: of a list");
    check(CALL(chunked_from_values)(values, count, &set) == RANGE_SET_DONE, "chunked_from_values");
    TEST(has_boundaries)(set, list.boundaries, list.len);
    CALL(chunked_free)(&set);
    check(CALL(chunked_from_values)(values, count, NULL) == RANGE_SET_BAD_ARGUMENT
              && CALL(chunked_from_values)(NULL, 1, &set) == RANGE_SET_BAD_ARGUMENT
              && CALL(chunked_from_values)(values, PTRDIFF_MAX / sizeof *values / 2 + 1, &below) == RANGE_SET_BAD_ARGUMENT
              && CALL(chunked_from_values)(values, POINTS, (CHUNKED *)(void *)values) == RANGE_SET_BAD_ARGUMENT,
        "chunked_from_values: null, too many, and in the values");
    check(CALL(chunked_from_values)(NULL, 0, &set) == RANGE_SET_DONE && CALL(chunked_is_empty)(set), "chunked_from_values: of no value");
    CALL(chunked_free)(&set);
}

/* Few ranges that are put into some chunks or taken out of them, the last one at times without an end: beside the list of both. Some lie
 * together, and some far apart. */
static void TEST(chunked_combined_few)(void)
{
    enum { MANY = 6000, FEW = 24 };
    static NUMBER list[MANY], wanted[MANY + FEW];
    NUMBER few[FEW];
    const unsigned keep = random_below(2) == 0 ? RANGE_SET_UNION : RANGE_SET_DIFFERENCE;
    const size_t len = random_below(FEW + 1);
    CHUNKED set;
    SET a, result;
    size_t p;
    for (p = 0; p < MANY; p++) list[p] = LEAST + (NUMBER)(8 * p);
    a = TEST(set)(list, MANY - random_below(2));
    for (p = 0; p < len; p++) few[p] = (p > 0 ? few[p - 1] : LEAST) + 1 + (NUMBER)random_below(random_below(2) == 0 ? 12 : 1600);
    check(CALL(combine)(a, TEST(set)(few, len), keep, wanted, MANY + FEW, &result) == RANGE_SET_DONE, "chunked_combine, few: of lists");
    check(CALL(chunked_of)(a, &set) == RANGE_SET_DONE, "chunked_combine, few: of a list");
    check(CALL(chunked_combine)(&set, TEST(set)(few, len), keep) == RANGE_SET_DONE, "chunked_combine, few: status");
    TEST(has_boundaries)(set, result.boundaries, result.len);
    CALL(chunked_free)(&set);
}

/* A list that isn't strictly sorted makes no set in chunks, and changes none, whether it is short beside the set or long. */
static void TEST(chunked_unsorted)(void)
{
    enum { MANY = 200, LONG = 52000 };
    static const NUMBER turned[] = {2, 1}, repeated[] = {1, 1}, turned_last[] = {1, 2, 4, 3};
    static NUMBER many[MANY], list[LONG];
    const struct {
        const char *name;
        const NUMBER *items;
        size_t len;
    } rows[] = {{"unsorted: two numbers", turned, 2}, {"unsorted: a repeated number", repeated, 2},
        {"unsorted: the last two", turned_last, 4}, {"unsorted: two hundred", many, MANY}};
    size_t row, len, p;
    unsigned keep;
    for (p = 0; p < MANY; p++) many[p] = (NUMBER)(p * 77 % MANY);
    for (p = 0; p < LONG; p++) list[p] = (NUMBER)p;
    for (len = 2; len <= LONG; len += LONG - 2) {
        CHUNKED set, unmade = {list};
        check(CALL(chunked_of)(TEST(set)(list, len), &set) == RANGE_SET_DONE, "unsorted: a set beside");
        for (row = 0; row < sizeof rows / sizeof *rows; row++) {
            const SET unsorted = {rows[row].items, rows[row].len};
            check(CALL(chunked_of)(unsorted, &unmade) == RANGE_SET_NOT_SORTED && unmade.at == list, rows[row].name);
            for (keep = 0; keep < CONNECTIVES; keep++)
                check(CALL(chunked_combine)(&set, unsorted, keep) == RANGE_SET_NOT_SORTED, rows[row].name);
        }
        TEST(has_boundaries)(set, list, len);
        CALL(chunked_free)(&set);
    }
}
