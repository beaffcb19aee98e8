/* Sets as texts, and from texts. Included by test_calls.h. */

/* How many bytes a boundary takes in a text at most, as the header says. */
static const size_t TEST(text_room) = BITS == 64 ? 22 : IS_UNSIGNED ? 12 : 13;

/* The text of a set in a buffer of `room` bytes, between guard bytes, against the text that it has to be. */
static void TEST(printed_with_room)(SET a, const char *wanted, size_t room)
{
    enum { GUARD = 8 };
    char buffer[GUARD + 24 * (POINTS + 2) + GUARD], before[sizeof buffer];
    size_t wanted_len = strlen(wanted), len = 77;
    check(GUARD + room + GUARD <= sizeof buffer, "the text buffer of the test is too short");
    memset(buffer, 'x', sizeof buffer);
    memset(before, 'x', sizeof before);
    if (room >= wanted_len) memcpy(before + GUARD, wanted, wanted_len);
    check(CALL(print)(a, buffer + GUARD, room, &len) == (room < wanted_len ? RANGE_SET_NO_ROOM : RANGE_SET_DONE), "print: status");
    check(len == wanted_len && len <= a.len * TEST(text_room), "print: length");
    check(memcmp(buffer, before, sizeof buffer) == 0, "print: the text, and what stands beside it");
}

static void TEST(printed)(SET a, const char *wanted)
{
    size_t wanted_len = strlen(wanted), len = 77;
    TEST(printed_with_room)(a, wanted, wanted_len);
    TEST(printed_with_room)(a, wanted, wanted_len + 9);
    TEST(printed_with_room)(a, wanted, 0);
    if (wanted_len > 0) TEST(printed_with_room)(a, wanted, wanted_len - 1);
    check(CALL(print)(a, NULL, 0, &len) == (wanted_len > 0 ? RANGE_SET_NO_ROOM : RANGE_SET_DONE) && len == wanted_len, "print into null");
}

/* A number as C prints it, put after a text. */
static void TEST(put_number)(char *text, NUMBER n)
{
#if IS_UNSIGNED
    sprintf(text + strlen(text), "%ju", (uintmax_t)n);
#else
    sprintf(text + strlen(text), "%jd", (intmax_t)n);
#endif
}

/* Reads a text by parse, or by parse_by where there is a separator. */
static range_set_status TEST(read)(int separator, const char *text, NUMBER *out, size_t room, SET *set, size_t *fault)
{
    if (separator == NO_SEPARATOR) return CALL(parse)(text, strlen(text), out, room, set, fault);
    return CALL(parse_by)(text, strlen(text), (char)separator, out, room, set, fault);
}

/* What a text is read as, with so much room, between guard words. */
static void TEST(parsed_with_room)(int separator, const char *text, size_t numbers, const NUMBER *wanted, size_t wanted_len, size_t room)
{
    enum { GUARD = 4 };
    const NUMBER guard = (NUMBER)0x5a5a5a5a5a5a5a5a;
    NUMBER buffer[GUARD + 2 * POINTS + 8 + GUARD], before[sizeof buffer / sizeof *buffer];
    size_t all = GUARD + room + GUARD, fault = 77, i;
    SET set = {buffer, 77};
    range_set_status status;
    check(all <= sizeof buffer / sizeof *buffer, "the buffer of the test is too short");
    for (i = 0; i < sizeof buffer / sizeof *buffer; i++) buffer[i] = before[i] = guard;
    status = TEST(read)(separator, text, buffer + GUARD, room, &set, &fault);
    check(status == (room < numbers ? RANGE_SET_NO_ROOM : RANGE_SET_DONE) && fault == 77, "parse: status");
    if (status == RANGE_SET_DONE) {
        check(set.boundaries == buffer + GUARD && TEST(is)(set, wanted, wanted_len), "parse: the set");
    } else {
        check(set.boundaries == NULL && set.len == numbers, "parse: the room that is needed");
        check(memcmp(buffer, before, sizeof buffer) == 0, "parse: what has no room is written");
    }
    for (i = 0; i < GUARD; i++) check(buffer[i] == guard && buffer[GUARD + room + i] == guard, "parse: a word beside the buffer");
}

static void TEST(parsed_by)(int separator, const char *text, size_t numbers, const NUMBER *wanted, size_t wanted_len)
{
    SET set = {NULL, 77};
    TEST(parsed_with_room)(separator, text, numbers, wanted, wanted_len, numbers);
    TEST(parsed_with_room)(separator, text, numbers, wanted, wanted_len, numbers + 3);
    if (numbers > 0) TEST(parsed_with_room)(separator, text, numbers, wanted, wanted_len, numbers - 1);
    check(TEST(read)(separator, text, NULL, 0, &set, NULL) == (numbers > 0 ? RANGE_SET_NO_ROOM : RANGE_SET_DONE) && set.len == numbers,
        "parse into null");
}

/* What parse reads is what parse_by reads between commas. */
static void TEST(parsed)(const char *text, size_t numbers, const NUMBER *wanted, size_t wanted_len)
{
    TEST(parsed_by)(NO_SEPARATOR, text, numbers, wanted, wanted_len);
    TEST(parsed_by)(',', text, numbers, wanted, wanted_len);
}

/* A text that isn't read, and the byte at which it stops being one of ranges, or at which a range begins that doesn't fit. */
static void TEST(not_parsed)(int separator, const char *text, range_set_status wanted, size_t at, const char *name)
{
    NUMBER out[8] = {1, 2, 3, 4, 5, 6, 7, 8};
    static const NUMBER as_was[8] = {1, 2, 3, 4, 5, 6, 7, 8};
    SET set = {out, 77};
    size_t fault = 99;
    check(TEST(read)(separator, text, out, 8, &set, &fault) == wanted, name);
    check(fault == at, name);
    check(TEST(read)(separator, text, out, 8, &set, NULL) == wanted, name);
    check(set.boundaries == out && set.len == 77 && memcmp(out, as_was, sizeof out) == 0, name);
}

/* Texts that aren't read, by parse and between lines and blanks. */
static void TEST(texts_not_parsed)(void)
{
    static const struct {
        int separator;
        const char *text;
        range_set_status wanted;
        size_t at;
    } rows[] = {
        {NO_SEPARATOR, "x", RANGE_SET_MALFORMED, 0},
        {NO_SEPARATOR, "..5", RANGE_SET_MALFORMED, 0},
        {NO_SEPARATOR, "5", RANGE_SET_MALFORMED, 1},
        {NO_SEPARATOR, "0.5", RANGE_SET_MALFORMED, 2},
        {NO_SEPARATOR, "1..-", RANGE_SET_MALFORMED, 4},
        {NO_SEPARATOR, "0..5 6", RANGE_SET_MALFORMED, 5},
        {NO_SEPARATOR, "1..2,", RANGE_SET_MALFORMED, 5},
        {NO_SEPARATOR, "1..2,,3..4", RANGE_SET_MALFORMED, 5},
        {NO_SEPARATOR, "1 ..2", RANGE_SET_MALFORMED, 1},
        {NO_SEPARATOR, "1..\xff", RANGE_SET_MALFORMED, 3},
        {NO_SEPARATOR, "x\xff", RANGE_SET_MALFORMED, 1},
        {NO_SEPARATOR, "1..2\xe2\x80", RANGE_SET_MALFORMED, 4},
        {NO_SEPARATOR, "1..2,\xff", RANGE_SET_MALFORMED, 5},
        {NO_SEPARATOR, "1..99999999999999999999", RANGE_SET_OUT_OF_RANGE, 0},
        {NO_SEPARATOR, "99999999999999999999..1,x", RANGE_SET_MALFORMED, 24},
        {NO_SEPARATOR, "99999999999999999999..1,2..3", RANGE_SET_OUT_OF_RANGE, 0},
        {NO_SEPARATOR, "0..1, +5..99999999999999999999", RANGE_SET_OUT_OF_RANGE, 6},
        {NO_SEPARATOR, "0..1,\xc2\xa0 99999999999999999999..7 ,99999999999999999999..", RANGE_SET_OUT_OF_RANGE, 8},
        {NO_SEPARATOR, "0..1,\xe3\x80\x80\n-99999999999999999999..", RANGE_SET_OUT_OF_RANGE, 9},
#if IS_UNSIGNED
        {NO_SEPARATOR, "-1..5", RANGE_SET_OUT_OF_RANGE, 0},
        {NO_SEPARATOR, "0..1,-1..5", RANGE_SET_OUT_OF_RANGE, 5},
        {'\n', "1\n-1", RANGE_SET_OUT_OF_RANGE, 2},
#endif
        {'\n', "1\n 99999999999999999999\n", RANGE_SET_OUT_OF_RANGE, 3},
        {'\n', "99999999999999999999999999999999999999999999999999", RANGE_SET_OUT_OF_RANGE, 0},
        {'\n', "1..2\n-99999999999999999999\n99999999999999999999..", RANGE_SET_OUT_OF_RANGE, 5},
        {'\n', "1\n99999999999999999999..\n5..x", RANGE_SET_MALFORMED, 28},
        {'\n', "1\n2\nx", RANGE_SET_MALFORMED, 4},
        {'\n', "1;2", RANGE_SET_MALFORMED, 1},
        {'\n', "12 x", RANGE_SET_MALFORMED, 3},
        {'\n', "5 6", RANGE_SET_MALFORMED, 2},
        {'\n', "5 6..7", RANGE_SET_MALFORMED, 2},
        {'\n', "5 \xc3\xa9", RANGE_SET_MALFORMED, 2},
        {'\n', "5\xe3\x80\x80 \x01", RANGE_SET_MALFORMED, 5},
        {'\n', "99999999999999999999 99999999999999999999..", RANGE_SET_MALFORMED, 21},
        {'\n', "1..2\n3..4,5..6", RANGE_SET_MALFORMED, 9},
        {'\n', "1..2\n5, 7", RANGE_SET_MALFORMED, 6},
        {'\n', "1\n+", RANGE_SET_MALFORMED, 3},
        {'\n', "1\n1..-\n", RANGE_SET_MALFORMED, 6},
        {'\n', "1\n11111111111111111111111111111111..-", RANGE_SET_MALFORMED, 37},
        {'\n', "1\n..2", RANGE_SET_MALFORMED, 2},
        {'\n', "1\n2\xff\n3", RANGE_SET_MALFORMED, 3},
        {'\n', "1..2,\xff", RANGE_SET_MALFORMED, 5},
        {'\n', "x\n\xff", RANGE_SET_MALFORMED, 2},
        {'\n', "99999999999999999999\n5 6\n\xff", RANGE_SET_MALFORMED, 25},
        {' ', "1 .. 2", RANGE_SET_MALFORMED, 2},
    };
    char name[32];
    size_t i;
    for (i = 0; i < sizeof rows / sizeof *rows; i++) {
        sprintf(name, "texts_not_parsed, row %zu", i);
        TEST(not_parsed)(rows[i].separator, rows[i].text, rows[i].wanted, rows[i].at, name);
    }
}

/* Whether a text can begin so: whether one of these ends makes it whole. */
static bool TEST(can_begin)(int separator, const char *text, size_t len)
{
    static const char *const ends[] = {"", ".", "..", "0", "0.."};
    char whole[32];
    SET set;
    size_t i;
    for (i = 0; i < sizeof ends / sizeof *ends; i++) {
        sprintf(whole, "%.*s%s", (int)len, text, ends[i]);
        if (TEST(read)(separator, whole, NULL, 0, &set, NULL) != RANGE_SET_MALFORMED) return true;
    }
    return false;
}

/* Each text of four pieces stops being one where it says: it can begin with what stands before that, and not with one piece more. */
static void TEST(stops_where_it_says)(int separator)
{
    enum { PIECES = 9, TEXTS = PIECES * PIECES * PIECES * PIECES };
    static const char *const pieces[PIECES] = {"1", " ", ".", "-", ",", "\n", "x", "\xc2\xa0", "\xc3\xa9"};
    unsigned n, k;
    SET set;
    for (n = 0; n < TEXTS; n++) {
        char text[16] = "";
        size_t at = 99, past;
        for (k = 1; k < TEXTS; k *= PIECES) strcat(text, pieces[n / k % PIECES]);
        if (TEST(read)(separator, text, NULL, 0, &set, &at) != RANGE_SET_MALFORMED) continue;
        check(at <= strlen(text) && TEST(can_begin)(separator, text, at), text);
        past = at + ((unsigned char)text[at] < 128 ? 1 : 2);
        check(text[at] == 0 || !TEST(can_begin)(separator, text, past), text);
    }
}

/* The text of a set, against what C prints of its boundaries, and read back. */
static void TEST(printed_by_c)(SET a)
{
    char wanted[24 * (POINTS + 2)] = "";
    size_t i;
    for (i = 0; i < a.len; i++) {
        if (i > 0 && i % 2 == 0) strcat(wanted, ", ");
        TEST(put_number)(wanted, a.boundaries[i]);
        if (i % 2 == 0) strcat(wanted, "..");
    }
    TEST(printed)(a, wanted);
    TEST(parsed)(wanted, a.len, a.boundaries, a.len);
}

/* Ranges in any order, empty, reversed and without an end, and numbers alone, as a text with blanks and some separator, against a
 * bitmap. */
static void TEST(ranges_parsed)(const NUMBER *points, size_t n)
{
    static const int separators[] = {NO_SEPARATOR, ',', '\n', ';', ' ', '\t', 'x'};
    const int separator = separators[random_below(sizeof separators / sizeof *separators)];
    const char between[2] = {(char)(separator == NO_SEPARATOR ? ',' : separator), 0};
    char text[POINTS / 2 * 48] = "";
    NUMBER wanted[POINTS + 1];
    bool on[POINTS + 1] = {false};
    size_t count = random_below(POINTS / 2), numbers = 0, i, p;
    for (i = 0; i < count; i++) {
        size_t from = random_below((unsigned)n), to = random_below((unsigned)n);
        bool is_alone = false;
        if (random_below(6) == 0) to = n;
        if (separator != NO_SEPARATOR && random_below(2)) {
            is_alone = from + 1 < n ? points[from + 1] - 1 == points[from] : points[from] == MOST;
            if (is_alone) to = from + 1;
        }
        if (i > 0) strcat(text, between);
        strcat(text, random_below(2) ? " " : "\t");
        TEST(put_number)(text, points[from]);
        if (!is_alone) strcat(text, "..");
        if (!is_alone && to < n) TEST(put_number)(text, points[to]);
        if (random_below(2)) strcat(text, "\xc2\xa0");
        if (separator != NO_SEPARATOR && separator != ',' && random_below(4) == 0) strcat(text, between);
        numbers += is_alone || to < n ? 2 : 1;
        for (p = from; p < to; p++) on[p] = true;
    }
    TEST(parsed_by)(separator, text, numbers, wanted, TEST(boundaries)(points, on, n, wanted));
}

/* Texts of known sets, and what print refuses. */
static void TEST(texts)(void)
{
    static const NUMBER items[] = {0, 10, 20}, ends[] = {LEAST, 7, MOST - 1, MOST}, all[] = {LEAST};
    NUMBER list[] = {1, 2, 3, 4, 5, 6, 7, 8};
    const SET nothing = {NULL, 0}, null_and_long = {NULL, SIZE_MAX}, set = {items, 3}, too_long = {items, SIZE_MAX / 16},
              of_list = {list, 8};
    SET none = {NULL, 77};
    size_t len = 77;
    char text[32] = "as it was";
    struct {
        char text[8];
        size_t len;
        SET set;
        NUMBER list[2];
    } before = {"", 77, {NULL, 0}, {1, 2}};
    TEST(printed)(TEST(set)(items, 3), "0..10, 20..");
    TEST(printed)(TEST(set)(items, 2), "0..10");
    TEST(printed)(nothing, "");
    TEST(printed)(null_and_long, "");
    TEST(printed_by_c)(TEST(set)(ends, 4));
    TEST(printed_by_c)(TEST(set)(all, 1));
    check(CALL(print)(set, text, 32, NULL) == RANGE_SET_BAD_ARGUMENT, "print with null for the length");
    check(CALL(print)(set, NULL, 1, &len) == RANGE_SET_BAD_ARGUMENT, "print into null with room");
    check(CALL(print)(set, text, SIZE_MAX, &len) == RANGE_SET_BAD_ARGUMENT, "print into too much room");
    check(CALL(print)(too_long, text, 32, &len) == RANGE_SET_BAD_ARGUMENT, "print of a length that no array has");
    before.set.boundaries = before.list, before.set.len = SIZE_MAX / 32 + 1;
    check(CALL(print)(before.set, before.text, 8, &before.len) == RANGE_SET_BAD_ARGUMENT, "print of a length whose text has none");
    check(CALL(print)(of_list, (char *)list, 4, &len) == RANGE_SET_BAD_ARGUMENT, "print over the list");
    check(CALL(print)(of_list, (char *)(list + 7), 1, &len) == RANGE_SET_BAD_ARGUMENT, "print over the last boundary");
    check(CALL(print)(of_list, text, 32, (size_t *)(void *)list) == RANGE_SET_BAD_ARGUMENT, "the length of a text in the list");
    check(CALL(print)(set, (char *)&len, sizeof len, &len) == RANGE_SET_BAD_ARGUMENT, "the length of a text in the text");
    TEST(parsed)("", 0, NULL, 0);
    TEST(parsed)(" \t\n", 0, NULL, 0);
    TEST(parsed)("0..10, 20..", 3, items, 3);
    TEST(parsed)("20.. ,\n+4..10,0..5", 5, items, 3);
    TEST(parsed)("0..2,3..10,1..9,20..,30..", 8, items, 3);
    TEST(parsed)("0..010, 7..7, 9..3,20..", 7, items, 3);
    check(CALL(parse)(NULL, 1, list, 8, &none, &len) == RANGE_SET_BAD_ARGUMENT, "parse of null");
    check(CALL(parse)(text, SIZE_MAX, list, 8, &none, &len) == RANGE_SET_BAD_ARGUMENT, "parse of too much text");
    check(CALL(parse)(text, 9, NULL, 1, &none, &len) == RANGE_SET_BAD_ARGUMENT, "parse into null with room");
    check(CALL(parse)(text, 9, list, SIZE_MAX, &none, &len) == RANGE_SET_BAD_ARGUMENT, "parse into too much room");
    check(CALL(parse)(text, 9, list, 8, NULL, &len) == RANGE_SET_BAD_ARGUMENT, "parse with null for the result");
    check(CALL(parse)((char *)list, 4, list, 8, &none, &len) == RANGE_SET_BAD_ARGUMENT, "parse of a text in the buffer");
    check(CALL(parse)(text, 9, list, 8, (SET *)(void *)list, &len) == RANGE_SET_BAD_ARGUMENT, "parse with the result in the buffer");
    check(CALL(parse)((char *)&none, 4, list, 8, &none, &len) == RANGE_SET_BAD_ARGUMENT, "parse with the result in the text");
    check(CALL(parse)(text, 9, list, 8, &none, (size_t *)(void *)list) == RANGE_SET_BAD_ARGUMENT, "parse with the fault in the buffer");
    check(CALL(parse)((char *)&len, 4, list, 8, &none, &len) == RANGE_SET_BAD_ARGUMENT, "parse with the fault in the text");
    check(CALL(parse)(text, 9, list, 8, &none, &none.len) == RANGE_SET_BAD_ARGUMENT, "parse with the fault in the result");
    check(none.boundaries == NULL && none.len == 77, "parse: what is refused writes a set");
    check(CALL(parse)(NULL, 0, NULL, 0, &none, NULL) == RANGE_SET_DONE && none.len == 0, "parse of a null pointer with length 0");
    check(len == 77 && strcmp(text, "as it was") == 0 && list[0] == 1 && list[7] == 8, "print: what is refused is written");
}

/* Texts with other separators, and with numbers alone. */
static void TEST(texts_by)(void)
{
    static const NUMBER items[] = {0, 10, 20}, five[] = {5, 6}, most[] = {MOST}, least[] = {LEAST, LEAST + 1};
    NUMBER list[8] = {1, 2, 3, 4, 5, 6, 7, 8};
    char text[64] = "";
    SET none = {NULL, 77};
    size_t fault = 77;
    int c;
    TEST(parsed_by)('\n', "", 0, NULL, 0);
    TEST(parsed_by)('\n', "\n \n\xc2\xa0\n\n", 0, NULL, 0);
    TEST(parsed_by)('\n', "0..10\n20..\n", 3, items, 3);
    TEST(parsed_by)('\n', "20..\r\n0..4\r\n4\r\n 5..9 \r\n\r\n9\r\n7..7\r\n9..2", 13, items, 3);
    TEST(parsed_by)(';', "20..;\xc2\xa0+4..10\t;;0..5", 5, items, 3);
    TEST(parsed_by)(' ', " 0..9 0009  +20.. 25", 7, items, 3);
    TEST(parsed_by)(',', "3, 1,0..1 ,2,,4..10,30..,20..,25..", 13, items, 3);
    TEST(parsed_by)('\n', "5", 2, five, 2);
    TEST(parsed_by)('\n', "\xe3\x80\x80+5\xe3\x80\x80", 2, five, 2);
    TEST(parsed_by)('\n', "00000000000000000000000000000000000000000000000005", 2, five, 2);
    TEST(parsed_by)('\n', "+00000000000000000000000000000000000000000000000005", 2, five, 2);
    TEST(put_number)(text, MOST);
    TEST(parsed_by)('\n', text, 2, most, 1);
    strcat(text, "..\n");
    TEST(put_number)(text, MOST);
    TEST(parsed_by)('\n', text, 3, most, 1);
    *text = 0;
    TEST(put_number)(text, LEAST);
    TEST(parsed_by)('|', text, 2, least, 2);
    *text = 0;
    TEST(put_number)(text, MOST);
    text[strlen(text) - 1]++;
    TEST(not_parsed)('\n', text, RANGE_SET_OUT_OF_RANGE, 0, "one more than the greatest number");
    for (c = 0; c < 256; c++) {
        const bool is_bad = c > 127 || (c != 0 && strchr("0123456789+-.", c) != NULL);
        none.len = 77, fault = 77;
        check(CALL(parse_by)("", 0, (char)c, list, 8, &none, &fault) == (is_bad ? RANGE_SET_BAD_ARGUMENT : RANGE_SET_DONE), "a separator");
        check(none.len == (is_bad ? 77 : 0) && fault == 77, "what a separator that is refused writes");
    }
    none.len = 77;
    check(CALL(parse_by)(NULL, 1, '\n', list, 8, &none, &fault) == RANGE_SET_BAD_ARGUMENT, "parse_by of null");
    check(CALL(parse_by)((char *)list, 4, '\n', list, 8, &none, &fault) == RANGE_SET_BAD_ARGUMENT, "parse_by of a text in the buffer");
    check(none.len == 77 && list[0] == 1 && fault == 77, "parse_by: what is refused is written");
    check(CALL(parse_by)(NULL, 0, '\n', NULL, 0, &none, NULL) == RANGE_SET_DONE && none.len == 0, "parse_by of null with length 0");
}

/* A text of many ranges is read in about the same time whatever their order is, descending or made up. Each order has the
   least of some attempts, since a busy machine slows one more than another. */
static void TEST(parsed_in_any_order)(void)
{
    enum { MANY = 20000, ASCENDING = 0, DESCENDING = 1, ORDERS = 3, ATTEMPTS = 5 };
    char *text = malloc(MANY * 24);
    NUMBER *items = malloc(2 * MANY * sizeof *items);
    clock_t taken, least[ORDERS];
    size_t i, k;
    int order, attempt;
    SET set = {NULL, 77};
    if (items == NULL || text == NULL) fail("no memory");
    for (order = 0; order < ORDERS; order++) {
        char *end = text;
        for (i = 0; i < MANY; i++) {
            k = order == ASCENDING ? i : order == DESCENDING ? MANY - 1 - i : i * 7919 % MANY;
            end += sprintf(end, "%s%zu..%zu", i > 0 ? "," : "", 3 * k, 3 * k + 2);
        }
        for (attempt = 0; attempt < ATTEMPTS; attempt++) {
            taken = clock();
            check(CALL(parse)(text, (size_t)(end - text), items, 2 * MANY, &set, NULL) == RANGE_SET_DONE && set.len == 2 * MANY,
                "parse of many ranges");
            taken = clock() - taken;
            if (attempt == 0 || taken < least[order]) least[order] = taken;
        }
        for (i = 0; i < MANY; i++)
            check(items[2 * i] == (NUMBER)(3 * i) && items[2 * i + 1] == (NUMBER)(3 * i + 2), "parse of many ranges: the list");
        check(least[order] <= 10 * least[ASCENDING] + CLOCKS_PER_SEC / 20, "parse of many ranges in another order takes longer");
    }
    free(text);
    free(items);
}
