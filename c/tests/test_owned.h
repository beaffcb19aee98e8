/* Sets that own their memory. Included by test_calls.h. */

/* An owned set through some changes, against a bitmap, where each request for memory may be refused: then it is as it was. */
static void TEST(owned)(void)
{
    enum { INSERTS, REMOVES, ASSIGNS, RESERVES, UNITES, SUBTRACTS, DIFFERS, INSERTS_FROM, REMOVES_FROM, CLEARS, CHANGES };
    struct memory memory = {0, 0};
    const range_set_allocator allocator = {take, take_more, give_back, &memory};
    NUMBER points[POINTS], list[POINTS], wanted[POINTS];
    bool on[POINTS] = {false}, next[POINTS];
    size_t p, from, to, steps;
    const SET null_and_long = {NULL, SIZE_MAX};
    OWNED owned;

    for (p = 0; p < POINTS; p++) points[p] = LEAST + (NUMBER)p;
    CALL(owned_init)(&owned, &allocator);
    check(CALL(is_empty)(owned.in.set) && memory.out == 0, "an owned set begins without members and memory");
    for (steps = 0; steps < 20; steps++) {
        unsigned which = random_below(CHANGES);
        range_set_status status;
        SET other;
        memory.left = (long)random_below(3);
        from = random_below(POINTS), to = random_below(POINTS);
        for (p = 0; p < POINTS; p++) next[p] = p >= from && p < to && (p % 3) != 0;
        other = TEST(set)(list, TEST(boundaries)(points, next, POINTS, list));
        for (p = 0; p < POINTS; p++) {
            bool in_range = from <= p && p < to;
            next[p] = which == INSERTS        ? on[p] || in_range
                      : which == REMOVES      ? on[p] && !in_range
                      : which == ASSIGNS      ? next[p]
                      : which == RESERVES     ? on[p]
                      : which == INSERTS_FROM ? on[p] || from <= p
                      : which == REMOVES_FROM ? on[p] && p < from
                      : which == CLEARS       ? false
                                              : TEST(holds)(which == UNITES      ? RANGE_SET_UNION
                                                            : which == SUBTRACTS ? RANGE_SET_DIFFERENCE
                                                                                 : RANGE_SET_SYMMETRIC_DIFFERENCE,
                                            on[p], next[p], false);
        }
        switch (which) {
        case INSERTS: status = CALL(owned_insert)(&owned, points[from], points[to]); break;
        case REMOVES: status = CALL(owned_remove)(&owned, points[from], points[to]); break;
        case ASSIGNS: status = CALL(owned_assign)(&owned, other); break;
        case RESERVES: status = CALL(owned_reserve)(&owned, from); break;
        case UNITES: status = CALL(owned_combine)(&owned, other, RANGE_SET_UNION); break;
        case SUBTRACTS: status = CALL(owned_combine)(&owned, other, RANGE_SET_DIFFERENCE); break;
        case INSERTS_FROM: status = CALL(owned_insert_from)(&owned, points[from]); break;
        case REMOVES_FROM: status = CALL(owned_remove_from)(&owned, points[from]); break;
        case CLEARS: CALL(owned_clear)(&owned), status = RANGE_SET_DONE; break;
        default: status = CALL(owned_combine)(&owned, other, RANGE_SET_SYMMETRIC_DIFFERENCE); break;
        }
        check(status == RANGE_SET_DONE || (status == RANGE_SET_NO_MEMORY && memory.left < 0), "owned: status");
        if (status == RANGE_SET_DONE) memcpy(on, next, sizeof on);
        check(TEST(is)(owned.in.set, wanted, TEST(boundaries)(points, on, POINTS, wanted)), "owned: the set");
        check(memory.out == owned.in.room * sizeof(NUMBER), "owned: the memory that it has");
        check(which != RESERVES || status != RANGE_SET_DONE || owned.in.room >= from, "owned: the room");
    }
    memory.left = 1;
    check(CALL(owned_combine)(&owned, null_and_long, RANGE_SET_UNION) == RANGE_SET_DONE, "owned: with a null pointer and a length");
    check(TEST(is)(owned.in.set, wanted, TEST(boundaries)(points, on, POINTS, wanted)), "owned: with a null pointer: the set");
    memory.left = 1;
    check(CALL(owned_combine)(&owned, owned.in.set, RANGE_SET_SYMMETRIC_DIFFERENCE) == RANGE_SET_DONE, "owned: with itself");
    check(owned.in.set.len == 0, "owned: a set without itself has no member");
    CALL(owned_free)(&owned);
    check(memory.out == 0 && CALL(is_empty)(owned.in.set), "owned: what is freed has no memory");
    check(CALL(owned_reserve)(&owned, SIZE_MAX) == RANGE_SET_NO_MEMORY, "owned: more room than there is");
    CALL(owned_free)(&owned);
}

/* An owned set by malloc, with many ranges, which takes a part of itself. One that grows doubles its room, so that it asks seldom. */
static void TEST(owned_many)(void)
{
    struct memory memory = {0, 20};
    const range_set_allocator allocator = {take, take_more, give_back, &memory};
    OWNED owned;
    SET below, from;
    size_t p;
    CALL(owned_init)(&owned, &allocator);
    for (p = 0; p < 1000; p++)
        check(CALL(owned_insert)(&owned, (NUMBER)(3 * p), (NUMBER)(3 * p + 1)) == RANGE_SET_DONE, "owned: twenty requests are enough");
    CALL(owned_free)(&owned);
    CALL(owned_init)(&owned, NULL);
    for (p = 0; p < 1000; p++)
        check(CALL(owned_insert)(&owned, (NUMBER)(3 * p), (NUMBER)(3 * p + 1)) == RANGE_SET_DONE, "owned: by malloc");
    check(CALL(ranges_len)(owned.in.set) == 1000, "owned: many ranges");
    CALL(split)(owned.in.set, 30, &below, &from);
    check(CALL(owned_assign)(&owned, from) == RANGE_SET_DONE && CALL(ranges_len)(owned.in.set) == 990, "owned: a part of itself");
    for (p = 0; p < 990; p++) check(owned.in.set.boundaries[2 * p] == (NUMBER)(3 * p + 30), "owned: a part of itself: the list");
    check(CALL(owned_insert)(&owned, 0, 3000) == RANGE_SET_DONE && CALL(ranges_len)(owned.in.set) == 1, "owned: all joined");
    CALL(owned_free)(&owned);
}

/* An owned set combined with a part of itself, where it has room and where it grows, and with what isn't its set in its buffer or struct. */
static void TEST(owned_with_its_part)(void)
{
    static const NUMBER items[] = {10, 20, 30, 40, 50}, neither[] = {LEAST, 10, 20};
    SET set = TEST(set)(items, 5), part = {NULL, 77}, within;
    OWNED owned;
    size_t room;
    for (room = 0; room <= 100; room += 100) {
        CALL(owned_init)(&owned, NULL);
        check(CALL(owned_reserve)(&owned, room) == RANGE_SET_DONE && CALL(owned_assign)(&owned, set) == RANGE_SET_DONE, "owned: a copy");
        CALL(split)(owned.in.set, 35, NULL, &part);
        check(CALL(owned_combine)(&owned, part, RANGE_SET_DIFFERENCE) == RANGE_SET_DONE && TEST(is)(owned.in.set, items, 2),
            "owned: without a part");
        check(CALL(owned_combine)(&owned, owned.in.set, RANGE_SET_UNION) == RANGE_SET_DONE && TEST(is)(owned.in.set, items, 2),
            "owned: with itself");
        within.boundaries = owned.in.items + 2, within.len = 1;
        check(CALL(owned_combine)(&owned, within, RANGE_SET_UNION) == RANGE_SET_BAD_ARGUMENT, "owned: with what stands after it");
        within.boundaries++;
        check(CALL(owned_combine)(&owned, within, RANGE_SET_UNION) == RANGE_SET_BAD_ARGUMENT, "owned: with what stands behind that");
        within.boundaries = (const NUMBER *)(const void *)&owned;
        check(CALL(owned_combine)(&owned, within, RANGE_SET_UNION) == RANGE_SET_BAD_ARGUMENT, "owned: with what lies in its struct");
        check(TEST(is)(owned.in.set, items, 2), "owned: what is refused changes the set");
        check(CALL(owned_combine)(&owned, owned.in.set, RANGE_SET_NEITHER) == RANGE_SET_DONE && TEST(is)(owned.in.set, neither, 3),
            "owned: neither in itself");
        CALL(owned_free)(&owned);
    }
}

/* An owned set whose room is exact grows by a range put in and by one taken out, leaves its memory where it takes more, and refuses a
 * room whose bytes have no number. */
static void TEST(owned_grows)(void)
{
    static const NUMBER items[] = {0, 10, 20, 30}, cut[] = {0, 3, 5, 10}, more[] = {0, 10, 12, 14};
    struct memory memory = {0, 9};
    const range_set_allocator allocator = {take, take_more, give_back, &memory};
    OWNED owned;
    CALL(owned_init)(&owned, &allocator);
    check(CALL(owned_assign)(&owned, TEST(set)(items, 2)) == RANGE_SET_DONE && owned.in.room == 2, "owned: an exact room");
    check(CALL(owned_remove)(&owned, 3, 5) == RANGE_SET_DONE && TEST(is)(owned.in.set, cut, 4), "owned: it grows by a range cut");
    CALL(owned_free)(&owned);
    check(CALL(owned_assign)(&owned, TEST(set)(items, 2)) == RANGE_SET_DONE && owned.in.room == 2, "owned: an exact room again");
    check(CALL(owned_insert)(&owned, 12, 14) == RANGE_SET_DONE && TEST(is)(owned.in.set, more, 4), "owned: it grows by a range put in");
    CALL(owned_free)(&owned);
    check(CALL(owned_assign)(&owned, TEST(set)(items, 2)) == RANGE_SET_DONE, "owned: a short set");
    check(CALL(owned_assign)(&owned, TEST(set)(items, 4)) == RANGE_SET_DONE && TEST(is)(owned.in.set, items, 4), "owned: a longer set");
    check(memory.out == owned.in.room * sizeof(NUMBER), "owned: the memory that it left");
    check(CALL(owned_reserve)(&owned, SIZE_MAX / sizeof(NUMBER) + 2) == RANGE_SET_NO_MEMORY, "owned: a room whose bytes have no number");
    memory.left = 0;
    check(CALL(owned_reserve)(&owned, owned.in.room) == RANGE_SET_DONE, "owned: the room that it has takes no request");
    check(TEST(is)(owned.in.set, items, 4), "owned: what is refused changes the set");
    CALL(owned_free)(&owned);
    check(memory.out == 0, "owned: all memory is given back");
    check(CALL(owned_assign)(&owned, TEST(set)(items, 4)) == RANGE_SET_NO_MEMORY && CALL(is_empty)(owned.in.set),
        "owned: a set without memory");
    CALL(owned_free)(&owned);
}

/* No owned set: what answers a status refuses it, and the other calls do nothing. */
static void TEST(owned_null)(void)
{
    static const NUMBER items[] = {1, 2};
    const SET set = TEST(set)(items, 2);
    CALL(owned_init)(NULL, NULL);
    CALL(owned_free)(NULL);
    CALL(owned_clear)(NULL);
    check(CALL(owned_reserve)(NULL, 0) == RANGE_SET_BAD_ARGUMENT, "null: owned_reserve");
    check(CALL(owned_assign)(NULL, set) == RANGE_SET_BAD_ARGUMENT, "null: owned_assign");
    check(CALL(owned_insert)(NULL, 1, 2) == RANGE_SET_BAD_ARGUMENT, "null: owned_insert");
    check(CALL(owned_remove)(NULL, 1, 2) == RANGE_SET_BAD_ARGUMENT, "null: owned_remove");
    check(CALL(owned_insert_from)(NULL, 1) == RANGE_SET_BAD_ARGUMENT, "null: owned_insert_from");
    check(CALL(owned_remove_from)(NULL, 1) == RANGE_SET_BAD_ARGUMENT, "null: owned_remove_from");
    check(CALL(owned_combine)(NULL, set, RANGE_SET_UNION) == RANGE_SET_BAD_ARGUMENT, "null: owned_combine");
}
