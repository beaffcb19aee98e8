/* Arguments that calls refuse. Included by test_calls.h. */

/* An answer into a place that lies right below the list, in it, right above it, or nowhere; and of a set whose boundaries are null. */
static void TEST(places_of_answers)(void)
{
    bool (*const asked[])(SET, NUMBER, NUMBER *) = {CALL(next_member), CALL(next_gap), CALL(prev_member), CALL(prev_gap)};
    static const NUMBER list[] = {10, 20, 30, 40, 50, 60, 70, 80};
    const SET set = TEST(set)(list, 8), null_and_long = {NULL, 5};
    size_t i, k;
    for (k = 0; k < 4; k++) {
        NUMBER from, wanted = 77;
        check(asked[k](null_and_long, 15, &wanted) == (k % 2 == 1) && wanted == (k % 2 == 1 ? 15 : 77), "an answer of the empty set");
        for (from = 5; from < 90; from += 5) {
            bool found = asked[k](set, from, &wanted);
            check(asked[k](set, from, NULL) == found, "an answer without a place");
            for (i = 0; i < 10; i++) {
                NUMBER room[10];
                const SET among = {memcpy(room + 1, list, sizeof list), 8};
                check(asked[k](among, from, room + i) == found && (!found || room[i] == wanted), "an answer beside the list, or in it");
            }
        }
    }
    for (k = 0; k < 4; k++) {
        RANGE it, range = {77, 78, false};
        check(!CALL(get)(null_and_long, k, &range) && range.start == 77 && CALL(get)(set, k, &it), "get of the empty set");
        for (i = 0; i < 12; i++) {
            NUMBER room[14];
            const SET among = {memcpy(room + 3, list, sizeof list), 8};
            check(CALL(get)(among, k, (RANGE *)(void *)(room + i)), "get beside the list, or in it");
            memcpy(&range, room + i, sizeof range);
            check(range.start == it.start && range.end == it.end && range.has_end, "get: the range beside the list, or in it");
        }
    }
}

/* Each call that makes a set of a list leaves all as it was where the list is none, or isn't sorted. */
static void TEST(bad_lists)(void)
{
    static const NUMBER good[] = {1, 2}, turned[] = {3, 2}, repeated[] = {3, 3};
    static const NUMBER as_before[8] = {1, 2, 3, 4};
    NUMBER list[8] = {1, 2, 3, 4};
    bool *const bytes = (bool *)(void *)list;
    SET set = {good, 77}, *in_list = (SET *)(void *)list, *in_last = (SET *)(void *)(list + 2);
    const SET asked = {list + 2, 2};
    bool found = false;
    struct {
        SET set;
        NUMBER list[2];
    } after = {{NULL, 77}, {1, 2}};
    check(CALL(view)(turned, 2, &set) == RANGE_SET_NOT_SORTED, "view of a list in the other order");
    check(CALL(view)(repeated, 2, &set) == RANGE_SET_NOT_SORTED, "view of a repeated number");
    check(CALL(view)(NULL, 1, &set) == RANGE_SET_BAD_ARGUMENT, "view of null");
    check(CALL(view)(good, SIZE_MAX, &set) == RANGE_SET_BAD_ARGUMENT, "view of too many");
    check(CALL(view)(good, SIZE_MAX / sizeof *good + 3, &set) == RANGE_SET_BAD_ARGUMENT, "view of a length that wraps");
    check(CALL(view)(good, 2, NULL) == RANGE_SET_BAD_ARGUMENT, "view into null");
    check(CALL(view)(list, 4, in_list) == RANGE_SET_BAD_ARGUMENT, "view into the list");
    check(CALL(contains_each)(asked, NULL, 1, &found) == RANGE_SET_BAD_ARGUMENT, "contains_each of null");
    check(CALL(contains_each)(asked, good, 1, NULL) == RANGE_SET_BAD_ARGUMENT, "contains_each into null");
    check(CALL(contains_each)(asked, good, SIZE_MAX, &found) == RANGE_SET_BAD_ARGUMENT, "contains_each of too many");
    check(CALL(contains_each)(asked, list, 1, bytes) == RANGE_SET_BAD_ARGUMENT, "contains_each into the values");
    check(CALL(contains_each)(asked, good, 1, bytes + 2 * sizeof *list) == RANGE_SET_BAD_ARGUMENT, "contains_each into the set");
    /* The last byte of what is read is written, or what is written ends in the first. */
    check(CALL(contains_each)(asked, list + 4, 2, bytes + 6 * sizeof *list - 1) == RANGE_SET_BAD_ARGUMENT,
        "contains_each into the last value");
    check(CALL(contains_each)(asked, list + 1, 1, bytes + 4 * sizeof *list - 1) == RANGE_SET_BAD_ARGUMENT,
        "contains_each into the set's end");
    check(CALL(contains_each)(asked, list + 4, 2, bytes + 2 * sizeof *list - 1) == RANGE_SET_BAD_ARGUMENT, "contains_each up to the set");
    check(
        CALL(contains_each)(asked, list + 5, 2, bytes + 5 * sizeof *list - 1) == RANGE_SET_BAD_ARGUMENT, "contains_each up to the values");
    check(!found && memcmp(list, as_before, sizeof list) == 0, "contains_each: nothing is written");
    check(CALL(from_unsorted)(NULL, 1, &set) == RANGE_SET_BAD_ARGUMENT, "from_unsorted of null");
    check(CALL(from_unsorted)(list, 4, NULL) == RANGE_SET_BAD_ARGUMENT, "from_unsorted into null");
    check(CALL(from_unsorted)(list, SIZE_MAX, &set) == RANGE_SET_BAD_ARGUMENT, "from_unsorted of too many");
    check(CALL(from_unsorted)(list, 4, in_list) == RANGE_SET_BAD_ARGUMENT, "from_unsorted into the list");
    check(CALL(from_ranges)(NULL, 1, &set) == RANGE_SET_BAD_ARGUMENT, "from_ranges of null");
    check(CALL(from_ranges)(list, 2, NULL) == RANGE_SET_BAD_ARGUMENT, "from_ranges into null");
    check(CALL(from_ranges)(list, SIZE_MAX, &set) == RANGE_SET_BAD_ARGUMENT, "from_ranges of too many");
    check(CALL(from_ranges)(list, SIZE_MAX / 2 + 3, &set) == RANGE_SET_BAD_ARGUMENT, "from_ranges of twice too many");
    check(CALL(from_ranges)(after.list, PTRDIFF_MAX / sizeof after.list + 1, &after.set) == RANGE_SET_BAD_ARGUMENT,
        "from_ranges of a length that numbers have and ranges haven't");
    check(CALL(from_ranges)(list, 2, in_list) == RANGE_SET_BAD_ARGUMENT, "from_ranges into the list");
    check(CALL(from_ranges)(list, 2, in_last) == RANGE_SET_BAD_ARGUMENT, "from_ranges into the last range");
    check(set.boundaries == good && set.len == 77, "what is refused writes a set");
    check(list[0] == 1 && list[1] == 2 && list[2] == 3 && list[3] == 4, "what is refused changes the list");
}

/* With a buffer or a result that lies nowhere, or in what a call reads or writes beside it, each call leaves all as it was. */
static void TEST(bad_places)(void)
{
    NUMBER lists[2][8] = {{1, 2}, {1, 2}}, out[8] = {1, 2, 3, 4, 5, 6, 7, 8}, *left = lists[0], *right = lists[1];
    static const NUMBER as_was[8] = {1, 2, 3, 4, 5, 6, 7, 8};
    SET result = {NULL, 77};
    struct TEST(operation) o;
    o.a = TEST(set)(left, 2), o.b = TEST(set)(right, 2), o.start = 1, o.end = 2;
    for (o.which = 0; o.which < FIRST_IN_PLACE; o.which++) {
        check(TEST(run)(&o, NULL, 1, &result) == RANGE_SET_BAD_ARGUMENT, "null for the buffer");
        check(TEST(run)(&o, out, SIZE_MAX, &result) == RANGE_SET_BAD_ARGUMENT, "a buffer that is too long");
        check(TEST(run)(&o, out, 8, NULL) == RANGE_SET_BAD_ARGUMENT, "null for the result");
        check(TEST(run)(&o, left, 2, &result) == RANGE_SET_BAD_ARGUMENT, "the buffer over the left list");
        check(TEST(run)(&o, left + 1, 1, &result) == RANGE_SET_BAD_ARGUMENT, "the buffer over half of the left list");
        check(TEST(run)(&o, out, 8, (SET *)(void *)left) == RANGE_SET_BAD_ARGUMENT, "the result in the left list");
        check(TEST(run)(&o, out, 8, (SET *)(void *)(out + 4)) == RANGE_SET_BAD_ARGUMENT, "the result in the buffer");
        if (o.which >= CONNECTIVES) continue;
        check(TEST(run)(&o, right + 1, 2, &result) == RANGE_SET_BAD_ARGUMENT, "the buffer over the right list");
        check(TEST(run)(&o, out, 8, (SET *)(void *)right) == RANGE_SET_BAD_ARGUMENT, "the result in the right list");
    }
    check(CALL(union)(o.a, o.b, left + 6, 3, &result) == RANGE_SET_BAD_ARGUMENT, "the buffer begins before the right list");
    check(result.boundaries == NULL && result.len == 77, "what is refused writes the result");
    check(memcmp(out, as_was, sizeof out) == 0 && memcmp(left, as_was, 2 * sizeof *left) == 0
              && memcmp(right, as_was, 2 * sizeof *right) == 0,
        "what is refused is written");
    check(CALL(union)(o.a, o.b, left + 2, 2, &result) == RANGE_SET_DONE && TEST(is)(result, as_was, 2), "the buffer beside a list");
    check(CALL(union)(o.a, o.b, left + 2, 2, &o.a) == RANGE_SET_DONE && TEST(is)(o.a, as_was, 2), "the result in the place of a set");
}

/* What is no buffer, or none with a set at its front, is refused by each call in place, and left as it was. */
static void TEST(bad_buffers)(void)
{
    NUMBER items[16] = {1, 2, 9, 9}, *last = items + 14;
    const BUFFER good = CALL(buffer_of)(items, 4);
    BUFFER it = good, *inside = (BUFFER *)(void *)items;
    union {
        BUFFER buffer;
        NUMBER items[16];
    } itself;
    struct {
        BUFFER buffer;
        NUMBER items[4];
    } beside;
    SET within = {(const NUMBER *)(const void *)&it, 1}, behind = {items + 8, 2}, result;
    int which;

    check(CALL(negation)(TEST(set)(items, 2), items + 1, 0, &result) == RANGE_SET_NO_ROOM, "a buffer without room within the list");
    check(CALL(buffer_view)(items, 2, 1, &it) == RANGE_SET_BAD_ARGUMENT, "buffer_view of more than the room");
    check(CALL(buffer_view)(items, 4, 4, &it) == RANGE_SET_NOT_SORTED, "buffer_view of a repeated number");
    check(CALL(buffer_view)(NULL, 0, 1, &it) == RANGE_SET_BAD_ARGUMENT, "buffer_view of null");
    check(CALL(buffer_view)(items, 2, SIZE_MAX, &it) == RANGE_SET_BAD_ARGUMENT, "buffer_view of too much room");
    check(CALL(buffer_view)(items, 2, 4, NULL) == RANGE_SET_BAD_ARGUMENT, "buffer_view into null");
    check(CALL(buffer_view)(beside.items, 0, PTRDIFF_MAX / sizeof *items + 1, &beside.buffer) == RANGE_SET_BAD_ARGUMENT,
        "buffer_view of a room that no array has");
    check(CALL(buffer_view)(items, 2, 16, inside) == RANGE_SET_BAD_ARGUMENT, "buffer_view into the items");
    check(memcmp(&it, &good, sizeof it) == 0, "what is refused writes a buffer");
    check(CALL(buffer_view)(items, 2, 3, &it) == RANGE_SET_DONE && TEST(is)(it.set, items, 2) && it.room == 3, "buffer_view");
    check(CALL(buffer_view)(NULL, 0, 0, &it) == RANGE_SET_DONE && it.set.len == 0, "buffer_view of a null pointer with no room");
    for (which = 0; which < 2; which++) {
        range_set_status (*change)(BUFFER *, NUMBER, NUMBER) = which ? CALL(remove) : CALL(insert);
        check(change(NULL, 1, 2) == RANGE_SET_BAD_ARGUMENT, "a null buffer");
        it = good, it.items = NULL;
        check(change(&it, 1, 2) == RANGE_SET_BAD_ARGUMENT, "a buffer without items");
        it.set.boundaries = NULL;
        check(change(&it, 1, 2) == RANGE_SET_BAD_ARGUMENT, "a buffer of null with room");
        it = good, it.room = SIZE_MAX;
        check(change(&it, 1, 2) == RANGE_SET_BAD_ARGUMENT, "a buffer with too much room");
        it = good, it.set.len = 5;
        check(change(&it, 1, 2) == RANGE_SET_BAD_ARGUMENT, "a buffer with a set longer than its room");
        it = good, it.set.boundaries = last;
        check(change(&it, 1, 2) == RANGE_SET_BAD_ARGUMENT, "a buffer with a set elsewhere");
        itself.buffer = CALL(buffer_of)(itself.items, 16);
        check(change(&itself.buffer, 1, 2) == RANGE_SET_BAD_ARGUMENT, "a buffer in its own items");
    }
    check(items[0] == 1 && items[1] == 2 && items[2] == 9, "what is refused changes the items");
    check(CALL(buffer_view)(items, 2, 16, &it) == RANGE_SET_DONE, "buffer_view");
    check(CALL(union_with)(&it, it.set) == RANGE_SET_BAD_ARGUMENT && it.set.len == 2, "a set with itself in its buffer");
    check(CALL(union_with)(&it, within) == RANGE_SET_BAD_ARGUMENT, "a set whose list lies in the struct of the buffer");
    items[8] = 3, items[9] = 4;
    check(CALL(union_with)(&it, behind) == RANGE_SET_BAD_ARGUMENT && it.set.len == 2 && items[8] == 3,
        "a set whose list lies behind the set in its buffer");
    check(CALL(combine_with)(&it, CALL(buffer_of)(NULL, 0).set, RANGE_SET_NEITHER) == RANGE_SET_BAD_ARGUMENT, "neither in a buffer");
    check(CALL(union_with)(NULL, it.set) == RANGE_SET_BAD_ARGUMENT, "union_with a null buffer");
    it = CALL(buffer_of)(NULL, 0);
    check(CALL(insert)(&it, 1, 2) == RANGE_SET_NO_ROOM && it.needed == 2, "insert with no room at all");
    check(CALL(insert)(&it, 2, 2) == RANGE_SET_DONE && CALL(remove)(&it, 1, 2) == RANGE_SET_DONE && it.set.len == 0, "no room is needed");
}
