/* Operations that write a set, with several rooms. Included by test_calls.h. */

/* A list that lies in memory of its own, so that valgrind sees each read beside it. */
static NUMBER *TEST(copy)(const NUMBER *items, size_t len)
{
    NUMBER *list = malloc(len * sizeof *list + (len == 0));
    if (list == NULL) fail("no memory");
    if (len > 0) memcpy(list, items, len * sizeof *list);
    return list;
}

/* The set of a list that is strictly sorted. */
static SET TEST(set)(const NUMBER *list, size_t len)
{
    SET set = {NULL, 77};
    check(CALL(view)(list, len, &set) == RANGE_SET_DONE, "view of a sorted list");
    check(set.boundaries == list && set.len == len, "view: the set");
    return set;
}

static bool TEST(is)(SET set, const NUMBER *wanted, size_t len)
{
    return set.len == len && (len == 0 || memcmp(set.boundaries, wanted, len * sizeof *wanted) == 0);
}

/* One call that writes a set, so that each is tried with several rooms: an operation by its number in test.c. */
struct TEST(operation) {
    int which;
    SET a, b;
    NUMBER start, end;
};

static range_set_status TEST(run)(const struct TEST(operation) *o, NUMBER *out, size_t room, SET *result)
{
    switch (o->which) {
    case RANGE_SET_UNION: return CALL(union)(o->a, o->b, out, room, result);
    case RANGE_SET_INTERSECTION: return CALL(intersection)(o->a, o->b, out, room, result);
    case RANGE_SET_DIFFERENCE: return CALL(difference)(o->a, o->b, out, room, result);
    case RANGE_SET_SYMMETRIC_DIFFERENCE: return CALL(symmetric_difference)(o->a, o->b, out, room, result);
    case NEGATION: return CALL(negation)(o->a, out, room, result);
    case GAPS: return CALL(gaps)(o->a, o->start, o->end, out, room, result);
    default: return CALL(combine)(o->a, o->b, (unsigned)o->which, out, room, result);
    }
}

/* The call into a buffer of `room` numbers, with guard words on both sides, against the list that it has to write. */
static void TEST(with_room)(const struct TEST(operation) *o, const NUMBER *wanted, size_t wanted_len, size_t room)
{
    enum { GUARD = 4 };
    const NUMBER guard = (NUMBER)0x5a5a5a5a5a5a5a5a;
    NUMBER buffer[GUARD + 2 * POINTS + 8 + GUARD];
    size_t all = GUARD + room + GUARD, i;
    SET result = {buffer, 77};
    range_set_status status;

    check(all <= sizeof buffer / sizeof *buffer, "the buffer of the test is too short");
    for (i = 0; i < all; i++) buffer[i] = guard;
    status = TEST(run)(o, buffer + GUARD, room, &result);
    check(status == (room < wanted_len ? RANGE_SET_NO_ROOM : RANGE_SET_DONE), "status");
    check(result.len == wanted_len, "length");
    check(result.boundaries == (status == RANGE_SET_DONE ? buffer + GUARD : NULL), "where the set lies");
    for (i = 0; i < GUARD; i++) check(buffer[i] == guard && buffer[GUARD + room + i] == guard, "a word beside the buffer");
    if (status != RANGE_SET_DONE) {
        check(CALL(is_empty)(result), "the result where there is no room isn't the empty set");
        return;
    }
    check(TEST(is)(result, wanted, wanted_len), "the list");
    for (i = wanted_len; i < room; i++) check(buffer[GUARD + i] == guard, "a word after the list");
}

/* A call that changes a set in its buffer, with so much room and guard words on both sides, against the list that it has to leave. */
static void TEST(changed_with_room)(const struct TEST(operation) *o, const NUMBER *wanted, size_t wanted_len, size_t room)
{
    enum { GUARD = 4 };
    const NUMBER guard = (NUMBER)0x5a5a5a5a5a5a5a5a;
    NUMBER memory[GUARD + POINTS + 8 + GUARD], before[sizeof memory / sizeof *memory];
    size_t i;
    BUFFER buffer;
    range_set_status status;

    if (room < o->a.len) return;
    check(GUARD + room + GUARD <= sizeof memory / sizeof *memory, "the buffer of the test is too short");
    for (i = 0; i < sizeof memory / sizeof *memory; i++) memory[i] = guard;
    for (i = 0; i < o->a.len; i++) memory[GUARD + i] = o->a.boundaries[i];
    memcpy(before, memory, sizeof memory);
    check(CALL(buffer_view)(memory + GUARD, o->a.len, room, &buffer) == RANGE_SET_DONE, "buffer_view");
    buffer.needed = 77;
    status = o->which == INSERT ? CALL(insert)(&buffer, o->start, o->end) : CALL(remove)(&buffer, o->start, o->end);
    check(status == (room < wanted_len ? RANGE_SET_NO_ROOM : RANGE_SET_DONE), "in place: status");
    check(buffer.needed == (room < wanted_len ? wanted_len : 77), "in place: the room that is needed");
    check(buffer.set.boundaries == memory + GUARD && buffer.items == memory + GUARD && buffer.room == room, "in place: the buffer");
    if (status == RANGE_SET_DONE) check(TEST(is)(buffer.set, wanted, wanted_len), "in place: the list");
    else check(buffer.set.len == o->a.len && memcmp(memory, before, sizeof memory) == 0, "in place: what is refused changes");
    for (i = 0; i < GUARD; i++) check(memory[i] == guard && memory[GUARD + room + i] == guard, "in place: a word beside the buffer");
}

static void TEST(in_place)(const struct TEST(operation) *o, const NUMBER *wanted, size_t wanted_len)
{
    TEST(changed_with_room)(o, wanted, wanted_len, wanted_len);
    if (wanted_len > 0) TEST(changed_with_room)(o, wanted, wanted_len, wanted_len - 1);
    if (wanted_len != o->a.len) TEST(changed_with_room)(o, wanted, wanted_len, o->a.len);
    TEST(changed_with_room)(o, wanted, wanted_len, o->a.len + 3);
}

/* Whether exactly the points that are on are members: those with an odd number of boundaries at or below. */
static bool TEST(has_members)(SET set, const NUMBER *points, const bool *on, size_t n)
{
    size_t p, i, below;
    for (p = 0; p < n; p++) {
        for (below = i = 0; i < set.len; i++) below += set.boundaries[i] <= points[p];
        if ((below % 2 == 1) != on[p]) return false;
    }
    for (i = 1; i < set.len; i++)
        if (set.boundaries[i - 1] >= set.boundaries[i]) return false;
    return true;
}

/* An owned set with so much room, combined with another. Where it has room it takes no more memory, and it keeps what it has. */
static void TEST(combined_by_owned)(const struct TEST(operation) *o, const NUMBER *points, const bool *on, size_t n, size_t room)
{
    struct memory memory = {0, 3};
    const range_set_allocator allocator = {take, take_more, give_back, &memory};
    OWNED owned;
    CALL(owned_init)(&owned, &allocator);
    check(CALL(owned_reserve)(&owned, room) == RANGE_SET_DONE && CALL(owned_assign)(&owned, o->a) == RANGE_SET_DONE,
        "owned_combine: the set before");
    if (room >= 8 * POINTS) memory.left = 0;
    check(CALL(owned_combine)(&owned, o->b, (unsigned)o->which) == RANGE_SET_DONE, "owned_combine: status");
    check(TEST(has_members)(owned.in.set, points, on, n), "owned_combine: the members");
    check(owned.in.room >= room && owned.in.set.boundaries == owned.in.items, "owned_combine: the room that it had");
    CALL(owned_free)(&owned);
    check(memory.out == 0, "owned_combine: what is freed has no memory");
}

/* The same of two sets, which needs room for the set and for what is left. */
static void TEST(combined_with_room)(const struct TEST(operation) *o, const NUMBER *wanted, size_t wanted_len, size_t room)
{
    enum { GUARD = 4 };
    const NUMBER guard = (NUMBER)0x5a5a5a5a5a5a5a5a;
    NUMBER memory[GUARD + 4 * POINTS + GUARD], before[sizeof memory / sizeof *memory];
    size_t i, needed = o->a.len + wanted_len;
    BUFFER buffer;
    range_set_status status;

    if (room < o->a.len) return;
    check(GUARD + room + GUARD <= sizeof memory / sizeof *memory, "the buffer of the test is too short");
    for (i = 0; i < sizeof memory / sizeof *memory; i++) memory[i] = guard;
    for (i = 0; o->a.boundaries != NULL && i < o->a.len; i++) memory[GUARD + i] = o->a.boundaries[i];
    memcpy(before, memory, sizeof memory);
    check(CALL(buffer_view)(memory + GUARD, o->a.boundaries ? o->a.len : 0, room, &buffer) == RANGE_SET_DONE, "buffer_view");
    buffer.needed = 77;
    switch (o->which) {
    case RANGE_SET_UNION: status = CALL(union_with)(&buffer, o->b); break;
    case RANGE_SET_INTERSECTION: status = CALL(intersection_with)(&buffer, o->b); break;
    case RANGE_SET_DIFFERENCE: status = CALL(difference_with)(&buffer, o->b); break;
    case RANGE_SET_SYMMETRIC_DIFFERENCE: status = CALL(symmetric_difference_with)(&buffer, o->b); break;
    default: status = CALL(combine_with)(&buffer, o->b, (unsigned)o->which);
    }
    check(status == (room < needed ? RANGE_SET_NO_ROOM : RANGE_SET_DONE), "combine_with: status");
    check(buffer.needed == (room < needed ? needed : 77), "combine_with: the room that is needed");
    if (status == RANGE_SET_DONE) check(TEST(is)(buffer.set, wanted, wanted_len), "combine_with: the list");
    else check(memcmp(memory, before, sizeof memory) == 0, "combine_with: what is refused changes");
    for (i = 0; i < GUARD; i++) check(memory[i] == guard && memory[GUARD + room + i] == guard, "combine_with: a word beside the buffer");
}

static void TEST(combined)(const struct TEST(operation) *o, const NUMBER *wanted, size_t wanted_len)
{
    size_t needed = o->a.len + wanted_len, always = 2 * o->a.len + (o->b.boundaries ? o->b.len : 0);
    TEST(combined_with_room)(o, wanted, wanted_len, needed);
    if (needed > 0) TEST(combined_with_room)(o, wanted, wanted_len, needed - 1);
    TEST(combined_with_room)(o, wanted, wanted_len, o->a.len);
    TEST(combined_with_room)(o, wanted, wanted_len, needed + 3);
    TEST(combined_with_room)(o, wanted, wanted_len, always);
    if (always > 0) TEST(combined_with_room)(o, wanted, wanted_len, always - 1);
}

static void TEST(with_rooms)(const struct TEST(operation) *o, const NUMBER *wanted, size_t wanted_len)
{
    SET result = {wanted, 77};
    if (o->which >= FIRST_IN_PLACE) {
        TEST(in_place)(o, wanted, wanted_len);
        return;
    }
    if (o->which < (int)RANGE_SET_NEITHER && (o->a.boundaries != NULL || o->a.len == 0)) TEST(combined)(o, wanted, wanted_len);
    TEST(with_room)(o, wanted, wanted_len, wanted_len);
    if (wanted_len > 0) TEST(with_room)(o, wanted, wanted_len, wanted_len - 1);
    TEST(with_room)(o, wanted, wanted_len, 0);
    TEST(with_room)(o, wanted, wanted_len, wanted_len + 3);
    check(TEST(run)(o, NULL, 0, &result) == (wanted_len > 0 ? RANGE_SET_NO_ROOM : RANGE_SET_DONE), "status at no buffer");
    check(result.len == wanted_len && result.boundaries == NULL, "length at no buffer");
    if (o->which < CONNECTIVES) check(CALL(combine_len)(o->a, o->b, (unsigned)o->which) == wanted_len, "the length alone");
}

/* The boundaries of a bitmap over the points. */
static size_t TEST(boundaries)(const NUMBER *points, const bool *on, size_t n, NUMBER *list)
{
    size_t len = 0, p;
    for (p = 0; p < n; p++)
        if (on[p] != (p > 0 && on[p - 1])) list[len++] = points[p];
    return len;
}

/* Whether the operation holds of a point that is in the sets and in the range, or not. */
static bool TEST(holds)(int which, bool in_a, bool in_b, bool in_range)
{
    switch (which) {
    case NEGATION: return !in_a;
    case GAPS: return !in_a && in_range;
    case INSERT: return in_a || in_range;
    case REMOVE: return in_a && !in_range;
    default: return (which & (int)(in_a ? in_b ? RANGE_SET_BOTH : RANGE_SET_LEFT : in_b ? RANGE_SET_RIGHT : RANGE_SET_NEITHER)) != 0;
    }
}
