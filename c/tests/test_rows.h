/* What the calls answer to the rows of tables, for one type of numbers, by the names of each_type.h. An answer is written as the words
 * that stand behind the sign = of a row. */

/* A number as a word, behind what was written. */
static void TEST(put)(char *out, NUMBER value)
{
#if IS_UNSIGNED
    sprintf(out + strlen(out), "%ju", (uintmax_t)value);
#else
    sprintf(out + strlen(out), "%jd", (intmax_t)value);
#endif
}

static NUMBER TEST(number)(const char *word)
{
#if IS_UNSIGNED
    return (NUMBER)strtoull(word, NULL, 10);
#else
    return (NUMBER)strtoll(word, NULL, 10);
#endif
}

/* The numbers of a word: with commas between them, or with .. between the ends of ranges. */
static size_t TEST(numbers)(const char *word, NUMBER *list)
{
    size_t len = 0;
    for (; *word != '\0' && strcmp(word, "-") != 0; word += *word == ',' || *word == '.') {
        list[len++] = TEST(number)(word);
        word += *word == '-' || *word == '+';
        word += strspn(word, "0123456789");
        if (*word == '.') word++;
    }
    return len;
}

static SET TEST(set_of)(const char *word, NUMBER *list)
{
    SET set;
    if (CALL(view)(list, TEST(numbers)(word, list), &set) != RANGE_SET_DONE) fail("a row has boundaries that aren't sorted");
    return set;
}

static void TEST(put_list)(char *out, SET set)
{
    size_t i;
    if (set.len == 0) strcat(out, "-");
    for (i = 0; i < set.len; i++) {
        if (i > 0) strcat(out, ",");
        TEST(put)(out, set.boundaries[i]);
    }
}

static void TEST(put_range)(char *out, bool is_there, RANGE range)
{
    if (!is_there) {
        strcat(out, "none");
        return;
    }
    TEST(put)(out, range.start);
    strcat(out, "..");
    if (range.has_end) TEST(put)(out, range.end);
}

/* The ranges of a set whose last one has an end, or of any set. */
static void TEST(put_ranges)(char *out, SET set)
{
    RANGE range;
    size_t i;
    if (set.len == 0) strcat(out, "-");
    for (i = 0; CALL(get)(set, i, &range); i++) {
        if (i > 0) strcat(out, ",");
        TEST(put_range)(out, true, range);
    }
}

static void TEST(put_truths)(char *out, bool first, bool second)
{
    sprintf(out + strlen(out), "%s %s", first ? "true" : "false", second ? "true" : "false");
}

/* What combine keeps, by a word of four answers: where neither side is on, the left alone is, the right alone is, and both are. */
static unsigned TEST(keep)(const char *word)
{
    const unsigned keep[] = {RANGE_SET_NEITHER, RANGE_SET_LEFT, RANGE_SET_RIGHT, RANGE_SET_BOTH};
    unsigned all = 0;
    size_t i;
    for (i = 0; i < 4; i++) all |= word[i] == '1' ? keep[i] : 0;
    return all;
}

/* The boundaries with a range put in and with it taken out. */
static void TEST(put_changed)(char *out, SET set, const NUMBER *ends)
{
    NUMBER items[LONGEST + 2];
    BUFFER buffer;
    int removes;
    for (removes = 0; removes < 2; removes++) {
        if (set.len > 0) memcpy(items, set.boundaries, set.len * sizeof *items);
        if (CALL(buffer_view)(items, set.len, LONGEST + 2, &buffer) != RANGE_SET_DONE) fail("buffer_view");
        if ((removes ? CALL(remove) : CALL(insert))(&buffer, ends[0], ends[1]) != RANGE_SET_DONE) fail("a change");
        if (removes) strcat(out, " ");
        TEST(put_list)(out, buffer.set);
    }
}

/* The answer to the questions of one set. It is false if the table has none of them. */
static bool TEST(asks_one)(const char *table, char **given, char *out)
{
    NUMBER list[LONGEST], ends[2] = {0, 0}, value = 0;
    const SET set = TEST(set_of)(given[0], list);
    RANGE range = {0, 0, false};
    SET below, from;
    if (given[1] != NULL && TEST(numbers)(given[1], ends) > 0) value = ends[0];
    if (strcmp(table, "contains") == 0) strcat(out, CALL(contains)(set, value) ? "true" : "false");
    else if (strcmp(table, "intersects_range") == 0) strcat(out, CALL(intersects_range)(set, ends[0], ends[1]) ? "true" : "false");
    else if (strcmp(table, "is_all") == 0) strcat(out, CALL(is_all)(set) ? "true" : "false");
    else if (strcmp(table, "range_at") == 0) {
        bool is_there = CALL(range_at)(set, value, &range);
        TEST(put_range)(out, is_there, range);
    } else if (strcmp(table, "rank") == 0) sprintf(out + strlen(out), "%ju", (uintmax_t)CALL(rank)(set, value));
    else if (strcmp(table, "ranges") == 0) TEST(put_ranges)(out, set);
    else if (strcmp(table, "split") == 0) {
        CALL(split)(set, value, &below, &from);
        TEST(put_list)(out, below);
        strcat(out, " ");
        TEST(put_list)(out, from);
    } else if (strcmp(table, "insert") == 0) TEST(put_changed)(out, set, ends);
    else return false;
    return true;
}

/* The same of calls that write a set. */
static bool TEST(writes)(const char *table, char **given, char *out)
{
    NUMBER a[LONGEST], b[LONGEST], items[2 * LONGEST + 2], ends[2];
    SET made = {NULL, 0};
    range_set_status status = RANGE_SET_DONE;
    if (strcmp(table, "negation") == 0) status = CALL(negation)(TEST(set_of)(given[0], a), items, LONGEST, &made);
    else if (strcmp(table, "connectives") == 0)
        status = CALL(combine)(TEST(set_of)(given[1], a), TEST(set_of)(given[2], b), TEST(keep)(given[0]), items, 2 * LONGEST + 2, &made);
    else if (strcmp(table, "from_unsorted") == 0) status = CALL(from_unsorted)(items, TEST(numbers)(given[0], items), &made);
    else if (strcmp(table, "from_values") == 0) status = CALL(from_values)(a, TEST(numbers)(given[0], a), items, 2 * LONGEST, &made);
    else if (strcmp(table, "from_ranges") == 0) {
        /* No call takes ranges without an end. */
        if (strstr(given[0], "..,") != NULL || given[0][strlen(given[0]) - 1] == '.') return false;
        status = CALL(from_ranges)(items, TEST(numbers)(given[0], items) / 2, &made);
    } else if (strcmp(table, "gaps") == 0) {
        SET within;
        const SET set = TEST(set_of)(given[0], a);
        TEST(numbers)(given[1], ends);
        if (CALL(gaps)(set, ends[0], ends[1], items, LONGEST, &made) != RANGE_SET_DONE) fail("gaps");
        TEST(put_ranges)(out, made);
        if (CALL(contains_range)(set, ends[0], ends[1]) != (made.len == 0)) fail("contains_range");
        if (CALL(view)(ends, ends[0] < ends[1] ? 2 : 0, &within) != RANGE_SET_DONE) fail("view");
        status = CALL(intersection)(set, within, items, LONGEST, &made);
        strcat(out, " ");
        TEST(put_ranges)(out, made);
        return status == RANGE_SET_DONE;
    } else return false;
    if (status != RANGE_SET_DONE) fail("a call that writes a set");
    TEST(put_list)(out, made);
    return true;
}

/* The same of two sets. */
static bool TEST(asks_two)(const char *table, char **given, char *out)
{
    const unsigned operations[] = {RANGE_SET_UNION, RANGE_SET_INTERSECTION, RANGE_SET_DIFFERENCE, RANGE_SET_SYMMETRIC_DIFFERENCE};
    NUMBER a[LONGEST], b[LONGEST], items[2 * LONGEST];
    SET left, right, made;
    size_t i;
    if (given[1] == NULL || (strcmp(table, "two_sets") != 0 && strcmp(table, "operations") != 0)) return false;
    left = TEST(set_of)(given[0], a), right = TEST(set_of)(given[1], b);
    if (table[0] == 't') {
        if (CALL(is_disjoint)(left, right) == CALL(intersects)(left, right)) fail("is_disjoint");
        strcat(out, CALL(intersects)(left, right) ? "true " : "false ");
        TEST(put_truths)(out, CALL(is_subset)(left, right), CALL(is_superset)(left, right));
        return true;
    }
    for (i = 0; i < 4; i++) {
        if (CALL(combine)(left, right, operations[i], items, 2 * LONGEST, &made) != RANGE_SET_DONE) fail("combine");
        if (CALL(combine_len)(left, right, operations[i]) != made.len) fail("combine_len");
        if (i > 0) strcat(out, " ");
        TEST(put_list)(out, made);
    }
    return true;
}

/* The answer to a row of a table, if there is a call for it. */
static bool TEST(answers)(const char *table, char **given, char *out)
{
    if (strncmp(table, "from_", 5) == 0) return TEST(writes)(table, given, out);
    return TEST(asks_two)(table, given, out) || TEST(writes)(table, given, out) || TEST(asks_one)(table, given, out);
}
