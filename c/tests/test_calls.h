/* The tests for one type of numbers, by the names of each_type.h. */
#include "test_operations.h"
#include "test_lists.h"
#include "test_questions.h"
#include "test_texts.h"
#include "test_chunked.h"
#include "test_combined.h"
#include "test_owned.h"
#include "test_arguments.h"

/* A made-up case: two bitmaps, all calls. */
static void TEST(made_up)(void)
{
    static const NUMBER bases[] = {LEAST, LEAST + 1, LEAST + 1000, MOST - POINTS + 1};
    NUMBER points[POINTS + 1], a[POINTS + 1], b[POINTS + 1], wanted[POINTS + 1], *list, *other;
    bool on_a[POINTS + 1] = {false}, on_b[POINTS + 1] = {false}, on[POINTS + 1] = {false};
    bool any = false, only = false, more = false, same = true;
    NUMBER base = bases[random_below(4)];
    size_t n = 0, p, a_len, b_len;
    size_t wide = 1 + random_below(POINTS);
    unsigned sparse = 1 + random_below(6), sparse_b = 1 + random_below(6);
    struct TEST(operation) o;

    points[n++] = LEAST;
    for (p = 0; p < wide; p++)
        if (base + (NUMBER)p != LEAST) points[n++] = base + (NUMBER)p;
    for (p = 0; p < n; p++) {
        on_a[p] = (p > 0 && on_a[p - 1]) != (random_below(sparse) == 0);
        on_b[p] = (p > 0 && on_b[p - 1]) != (random_below(sparse_b) == 0);
        any = any || (on_a[p] && on_b[p]);
        only = only || (on_a[p] && !on_b[p]);
        more = more || (!on_a[p] && on_b[p]);
        same = same && on_a[p] == on_b[p];
    }
    a_len = TEST(boundaries)(points, on_a, n, a);
    b_len = TEST(boundaries)(points, on_b, n, b);
    list = TEST(copy)(a, a_len);
    other = TEST(copy)(b, b_len);
    o.a = TEST(set)(list, a_len), o.b = TEST(set)(other, b_len);
    o.start = points[random_below((unsigned)n)], o.end = points[random_below((unsigned)n)];
    for (o.which = 0; o.which < OPERATIONS; o.which++) {
        for (p = 0; p < n; p++) on[p] = TEST(holds)(o.which, on_a[p], on_b[p], o.start <= points[p] && points[p] < o.end);
        TEST(with_rooms)(&o, wanted, TEST(boundaries)(points, on, n, wanted));
        if (o.which >= CONNECTIVES) continue;
        TEST(combined_by_owned)(&o, points, on, n, 0);
        TEST(combined_by_owned)(&o, points, on, n, 1000);
    }
    check(CALL(is_empty)(o.a) == (a_len == 0), "is_empty");
    check(CALL(is_all)(o.a) == (a_len == 1 && a[0] == LEAST), "is_all");
    check(CALL(intersects)(o.a, o.b) == any, "intersects");
    check(CALL(is_disjoint)(o.a, o.b) == !any, "is_disjoint");
    check(CALL(is_subset)(o.a, o.b) == !only, "is_subset");
    check(CALL(is_superset)(o.a, o.b) == !more, "is_superset");
    check(CALL(equal)(o.a, o.b) == same, "equal");
    for (p = 0; p < n; p++) check(CALL(contains)(o.a, points[p]) == on_a[p], "contains");
    TEST(each_of)(o.a, points, on_a, n);
    TEST(split_at)(o.a, points, on_a, n);
    TEST(parts_of)(o.a, points, on_a, n);
    TEST(whole_ranges)(o.a, points, on_a, n);
    TEST(next_ones)(o.a, points, on_a, n);
    TEST(previous_ones)(o.a, points, on_a, n);
    TEST(fits)(o.a, points, on_a, n);
    TEST(rows_of_numbers)(o.a, points, n);
    if (random_below(4) == 0) TEST(in_chunks)(o.a, points, n);
    TEST(unions)(points, n);
    TEST(printed_by_c)(o.a);
    TEST(ranges_parsed)(points, n);
    TEST(shuffled)(points, n);
    TEST(ranges_shuffled)(points, n);
    free(list);
    free(other);
}

/* The calls that are made of others, on two sets that are made up. */
static void TEST(of_others)(void)
{
    static const NUMBER few[] = {LEAST + 2, LEAST + 4, LEAST + 8};
    NUMBER points[POINTS], first[POINTS], second[POINTS];
    bool on[POINTS], too[POINTS];
    size_t p, many;
    CHUNKED set, none = {NULL};
    SET a, b, nothing = {NULL, 2};
    for (p = 0; p < POINTS; p++) points[p] = LEAST + (NUMBER)(2 * p), on[p] = random_below(2) == 0, too[p] = random_below(2) == 0;
    a = TEST(set)(first, TEST(boundaries)(points, on, POINTS, first));
    b = TEST(set)(second, TEST(boundaries)(points, too, POINTS, second));
    check(CALL(chunked_of)(a, &set) == RANGE_SET_DONE, "of others: of a list");
    for (many = 0; many < 6; many++) {
        const NUMBER start = points[random_below(POINTS)], end = (NUMBER)(points[random_below(POINTS)] + (NUMBER)random_below(2));
        TEST(chunked_gaps)(set, a, start, end);
        TEST(change_is_told)(a, many % 2 == 0, start, end);
    }
    TEST(chunked_gaps)(set, a, MOST - 1, MOST);
    TEST(chunked_gaps)(none, TEST(set)(NULL, 0), LEAST, MOST);
    TEST(chunked_combined)(a, b);
    TEST(chunked_beside)(a, b);
    TEST(chunked_beside)(a, a);
    TEST(chunked_beside)(a, TEST(set)(first, a.len / 2));
    TEST(chunked_printed)(a);
    for (p = 0; p < 4; p++) TEST(chunked_combined_few)();
    /* No range, one without an end, one, and two, which the set may have. */
    for (p = 0; p <= 3; p++) TEST(chunked_combined)(a, TEST(set)(few, p));
    /* Its complement has one boundary more. */
    TEST(chunked_combined)(TEST(set)(few, 2), TEST(set)(NULL, 0));
    /* A set without a list is empty, whatever its length is. */
    TEST(chunked_combined)(a, nothing);
    CALL(chunked_free)(&set);
}

/* Rows with their answers written out. */
static void TEST(rows)(void)
{
    static const NUMBER a[] = {0, 10}, b[] = {5, 20}, open[] = {20}, least[] = {LEAST};
    static const NUMBER unions[] = {0, 20}, both[] = {5, 10}, left[] = {0, 5}, one_of[] = {0, 5, 10, 20}, with_open[] = {0, 10, 20};
    static const NUMBER not_open[] = {LEAST, 20}, put_in[] = {0, 10, 12, 14}, cut[] = {0, 3, 7, 10};
    static const NUMBER both_ways[] = {LEAST, MOST}, gap[] = {10, 20}, around[] = {3, 5, 20, 25}, below[] = {LEAST, 0, 20},
                        *neither = LEAST == 0 ? below + 2 : below;
    NUMBER mixed[] = {7, 5, 7, MOST, LEAST, 5}, ranges[] = {20, 30, 9, 9, 0, 10, 8, 4, 10, 12, 25, MOST}, room[4];
    const NUMBER mixed_set[] = {LEAST, 5, 7, MOST}, ranges_set[] = {0, 12, 20, MOST};
    const SET nothing = {NULL, 0}, null_and_long = {NULL, 5};
    SET in_a = TEST(set)(a, 2), in_b = TEST(set)(b, 2), in_open = TEST(set)(open, 1), set = {NULL, 77}, part = {NULL, 77};
    RANGE it = {77, 78, true};
    struct TEST(operation) o;
    uint64_t count = 77;
    bool found = true;

    o.a = in_a, o.b = in_b, o.start = 0, o.end = 0;
    o.which = RANGE_SET_UNION, TEST(with_rooms)(&o, unions, 2);
    o.which = RANGE_SET_INTERSECTION, TEST(with_rooms)(&o, both, 2);
    o.which = RANGE_SET_DIFFERENCE, TEST(with_rooms)(&o, left, 2);
    o.which = RANGE_SET_SYMMETRIC_DIFFERENCE, TEST(with_rooms)(&o, one_of, 4);
    o.which = RANGE_SET_RIGHT, TEST(with_rooms)(&o, gap, 2);
    o.which = 0, TEST(with_rooms)(&o, NULL, 0);
    o.which = RANGE_SET_NEITHER, TEST(with_rooms)(&o, neither, LEAST == 0 ? 1 : 3);
    o.which = RANGE_SET_NEITHER | RANGE_SET_UNION, TEST(with_rooms)(&o, least, 1);
    o.b = in_open, o.which = RANGE_SET_UNION, TEST(with_rooms)(&o, with_open, 3);
    o.b = nothing, TEST(with_rooms)(&o, a, 2);
    o.b = null_and_long, TEST(with_rooms)(&o, a, 2);
    o.b = in_a, o.which = RANGE_SET_SYMMETRIC_DIFFERENCE, TEST(with_rooms)(&o, NULL, 0);
    o.start = 5, o.end = 20, o.which = GAPS, TEST(with_rooms)(&o, gap, 2);
    o.start = 20, o.end = 5, o.which = GAPS, TEST(with_rooms)(&o, NULL, 0);
    o.start = 12, o.end = 14, o.which = INSERT, TEST(with_rooms)(&o, put_in, 4);
    o.start = 14, o.end = 12, o.which = INSERT, TEST(with_rooms)(&o, a, 2);
    o.start = 3, o.end = 7, o.which = REMOVE, TEST(with_rooms)(&o, cut, 4);
    o.start = LEAST, o.end = MOST, o.which = REMOVE, TEST(with_rooms)(&o, NULL, 0);
    o.a = in_b, o.start = 3, o.end = 25, o.which = GAPS, TEST(with_rooms)(&o, around, 4);
    o.a = in_open, o.which = NEGATION, TEST(with_rooms)(&o, not_open, 2);
    o.a = nothing, o.which = NEGATION, TEST(with_rooms)(&o, least, 1);
    o.a = null_and_long, o.which = NEGATION, TEST(with_rooms)(&o, least, 1);
    o.a = TEST(set)(least, 1), o.which = NEGATION, TEST(with_rooms)(&o, NULL, 0);
    check(CALL(view)(NULL, 0, &set) == RANGE_SET_DONE && set.len == 0, "view of a null pointer with length 0");
    check(CALL(is_empty)(nothing) && CALL(is_empty)(null_and_long) && !CALL(is_empty)(in_a), "is_empty");
    check(CALL(is_all)(o.a) && !CALL(is_all)(nothing) && !CALL(is_all)(TEST(set)(both_ways, 2)), "is_all");
    check(!CALL(contains)(nothing, 1) && !CALL(contains)(null_and_long, 1), "contains of the empty set");
    check(CALL(contains)(in_a, 9) && !CALL(contains)(in_a, 10) && CALL(contains)(in_open, MOST), "contains");
    check(CALL(contains_each)(nothing, both_ways, 1, &found) == RANGE_SET_DONE && !found, "contains_each of the empty set");
    check(CALL(contains_each)(in_a, NULL, 0, NULL) == RANGE_SET_DONE, "contains_each of no value");
    check(CALL(contains_range)(in_a, 3, 10) && !CALL(contains_range)(in_a, 3, 11), "contains_range at the end");
    check(CALL(contains_range)(nothing, 3, 3) && !CALL(contains_range)(nothing, 3, 4), "contains_range of the empty set");
    check(CALL(range_at)(in_a, 9, &it) && it.has_end && it.start == 0 && it.end == 10, "range_at");
    it.end = 78;
    check(CALL(range_at)(in_open, MOST, &it) && !it.has_end && it.start == 20 && it.end == 78, "range_at without an end");
    check(!CALL(range_at)(in_a, 10, &it) && it.start == 20, "range_at of no member");
    check(CALL(ranges_len)(in_a) == 1 && CALL(ranges_len)(in_open) == 1 && CALL(ranges_len)(nothing) == 0, "ranges_len");
    check(CALL(covered)(in_a, &count) && count == 10, "covered");
    check(CALL(covered)(TEST(set)(both_ways, 2), &count) && count == (uint64_t)MOST - (uint64_t)LEAST,
        "covered of all but the greatest number");
    check(CALL(covered)(null_and_long, &count) && count == 0, "covered of the empty set");
    check(!CALL(covered)(in_open, &count) && count == 0, "covered without an end");
    CALL(split)(null_and_long, 5, &set, &part);
    check(CALL(is_empty)(set) && CALL(is_empty)(part), "split of the empty set");
    check(CALL(is_superset)(in_a, nothing) && !CALL(is_superset)(nothing, in_a), "is_superset of the empty set");
    check(
        CALL(combine)(in_a, in_b, RANGE_SET_BOTH | 48u, room, 4, &set) == RANGE_SET_DONE && TEST(is)(set, both, 2), "combine: other bits");
    check(CALL(combine)(in_open, in_open, RANGE_SET_NEITHER | 48u, room, 4, &set) == RANGE_SET_DONE && TEST(is)(set, not_open, 2),
        "combine: other bits, and neither");
    check(CALL(combine_len)(in_a, in_b, RANGE_SET_UNION | 48u) == 2, "combine_len: other bits");
    check(CALL(union_len)(in_a, in_b) == 2 && CALL(intersection_len)(in_a, in_b) == 2, "the lengths of union and intersection");
    check(CALL(difference_len)(in_a, in_b) == 2 && CALL(symmetric_difference_len)(in_a, in_b) == 4, "the lengths of the differences");
    check(CALL(from_unsorted)(mixed, 6, &set) == RANGE_SET_DONE && TEST(is)(set, mixed_set, 4), "from_unsorted");
    check(CALL(from_unsorted)(NULL, 0, &set) == RANGE_SET_DONE && set.len == 0, "from_unsorted of a null pointer with length 0");
    check(CALL(from_ranges)(ranges, 6, &set) == RANGE_SET_DONE && TEST(is)(set, ranges_set, 4), "from_ranges");
    check(CALL(from_ranges)(NULL, 0, &set) == RANGE_SET_DONE && set.len == 0, "from_ranges of a null pointer with length 0");
}

static void TEST(all)(long cases)
{
    long i;
    TEST(rows)();
    TEST(texts)();
    TEST(texts_by)();
    TEST(texts_not_parsed)();
    TEST(stops_where_it_says)(NO_SEPARATOR);
    TEST(stops_where_it_says)('\n');
    TEST(stops_where_it_says)(',');
    TEST(fits_far)();
    TEST(many)();
    TEST(owned_many)();
    TEST(owned_with_its_part)();
    TEST(owned_grows)();
    TEST(owned_null)();
    TEST(chunked_many)();
    TEST(beyond_a_chunk)();
    TEST(chunked_fits_far)();
    TEST(fits_to_the_end)();
    TEST(chunked_none)();
    TEST(chunked_unsorted)();
    TEST(parsed_in_any_order)();
    TEST(places_of_answers)();
    TEST(bad_lists)();
    TEST(bad_places)();
    TEST(bad_buffers)();
    for (i = 0; i < cases; i++) TEST(made_up)();
    for (i = 0; i < cases / 10; i++) TEST(members)();
    for (i = 0; i < cases / 10; i++) TEST(from_values)();
    for (i = 0; i < cases / 10; i++) TEST(owned)();
    for (i = 0; i <= cases / 100; i++) TEST(chunked_of_values)();
    for (i = 0; i < cases / 100; i++) TEST(chunked)();
    for (i = 0; i <= cases / 100; i++) TEST(of_others)();
    for (i = 0; i < cases / 10; i++) TEST(unsorted_searches)();
}
