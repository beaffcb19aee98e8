/* Questions of a list, and its members and ranges. Included by test_calls.h. */

static void TEST(split_at)(SET a, const NUMBER *points, const bool *on, size_t n)
{
    size_t p, i, less, up_to;
    for (p = 0; p < n; p++) {
        SET below = {NULL, 77}, from = {NULL, 77};
        CALL(split)(a, points[p], &below, &from);
        for (less = up_to = i = 0; i < a.len; i++) {
            less += a.boundaries[i] < points[p];
            up_to += a.boundaries[i] <= points[p];
        }
        check(below.boundaries == a.boundaries && below.len == less, "split: the part below");
        if (on[p]) up_to--;
        check(from.boundaries == a.boundaries + up_to && from.len == a.len - up_to, "split: the part from the number on");
    }
    CALL(split)(a, points[0], NULL, NULL);
}

/* The range at each point, the ranges in order, and how many numbers are members, by the bitmap. */
static void TEST(parts_of)(SET a, const NUMBER *points, const bool *on, size_t n)
{
    size_t p, first, next, ranges = 0, last = n;
    uint64_t count = 0, number = 77;
    for (p = 0; p < n; p++) {
        RANGE it = {77, 78, (p % 2) == 1};
        check(CALL(range_at)(a, points[p], &it) == on[p], "range_at: whether it is a member");
        check(CALL(range_at)(a, points[p], NULL) == on[p], "range_at without a place for the range");
        for (first = p; on[p] && first > 0 && on[first - 1]; first--) continue;
        for (next = p; next < n && on[next]; next++) continue;
        if (!on[p]) {
            check(it.start == 77 && it.end == 78 && it.has_end == ((p % 2) == 1), "range_at of no member writes");
            continue;
        }
        check(it.start == points[first] && it.has_end == (next < n) && it.end == (next < n ? points[next] : 78), "range_at: the range");
        if (p + 1 < n) count += (uint64_t)points[p + 1] - (uint64_t)points[p];
        if (first == p) {
            RANGE by_index = {77, 78, false}, lowest = {77, 78, false};
            check(CALL(get)(a, ranges, &by_index) && CALL(get)(a, ranges, NULL), "get");
            check(by_index.start == it.start && by_index.end == it.end && by_index.has_end == it.has_end, "get: the range");
            if (ranges++ == 0)
                check(CALL(first)(a, &lowest) && lowest.start == it.start && lowest.end == it.end && lowest.has_end == it.has_end, "first");
            last = p;
        }
    }
    check(CALL(ranges_len)(a) == ranges, "ranges_len");
    check(!CALL(get)(a, ranges, NULL) && !CALL(get)(a, SIZE_MAX, NULL) && !CALL(get)(a, SIZE_MAX / 2 + 1, NULL), "get past the last range");
    check(CALL(first)(a, NULL) == (ranges > 0) && CALL(last)(a, NULL) == (ranges > 0), "first and last without a place for the range");
    if (ranges > 0) {
        RANGE highest = {77, 78, false}, it = {77, 78, false};
        check(CALL(last)(a, &highest) && CALL(range_at)(a, points[last], &it), "last");
        check(highest.start == it.start && highest.end == it.end && highest.has_end == it.has_end, "last: the range");
    }
    if (n > 0 && on[n - 1]) check(!CALL(covered)(a, &number) && number == 77, "covered of a set without an end");
    else check(CALL(covered)(a, &number) && number == count && CALL(covered)(a, NULL), "covered");
}

/* From each point on the next member, the next number that is none, and the next range. */
static void TEST(next_ones)(SET a, const NUMBER *points, const bool *on, size_t n)
{
    size_t p, member, gap;
    for (p = 0; p < n; p++) {
        NUMBER next = 77;
        RANGE it = {77, 78, true}, wanted = {77, 78, true};
        for (member = p; member < n && !on[member]; member++) continue;
        for (gap = p; gap < n && on[gap]; gap++) continue;
        check(CALL(next_member)(a, points[p], &next) == (member < n), "next_member: whether there is one");
        check(next == (member < n ? points[member] : 77), "next_member");
        next = 77;
        check(CALL(next_gap)(a, points[p], &next) == (gap < n), "next_gap: whether there is one");
        check(next == (gap < n ? points[gap] : 77), "next_gap");
        check(CALL(next_member)(a, points[p], NULL) == (member < n) && CALL(next_gap)(a, points[p], NULL) == (gap < n),
            "next ones without a place");
        check(CALL(range_from)(a, points[p], &it) == (member < n), "range_from: whether there is one");
        check(CALL(range_from)(a, points[p], NULL) == (member < n), "range_from without a place for the range");
        if (member < n) CALL(range_at)(a, points[member], &wanted);
        check(it.start == wanted.start && it.end == wanted.end && it.has_end == wanted.has_end, "range_from: the range");
    }
}

/* From each point back the member before, and the number before that is none; the member with a number of others below it. */
static void TEST(previous_ones)(SET a, const NUMBER *points, const bool *on, size_t n)
{
    uint64_t below = 0;
    NUMBER at = 77;
    size_t p, q;
    for (p = 0; p < n; p++) {
        NUMBER previous = 77, wanted;
        bool is_there;
        /* A number is what the last point at or below it is, and none is a member below all points. */
        for (q = p + 1; q > 0 && !on[q - 1]; q--) continue;
        is_there = q > 0;
        wanted = !is_there ? 77 : q == p + 1 ? points[p] : (NUMBER)(points[q] - 1);
        check(CALL(prev_member)(a, points[p], &previous) == is_there && previous == wanted, "prev_member");
        check(CALL(prev_member)(a, points[p], NULL) == is_there, "prev_member without a place");
        for (q = p + 1; q > 0 && on[q - 1]; q--) continue;
        is_there = q > 0 || points[0] > LEAST;
        wanted = !is_there ? 77 : q == p + 1 ? points[p] : (NUMBER)(points[q] - 1);
        previous = 77;
        check(CALL(prev_gap)(a, points[p], &previous) == is_there && previous == wanted, "prev_gap");
        check(CALL(prev_gap)(a, points[p], NULL) == is_there, "prev_gap without a place");
        if (on[p]) check(CALL(select)(a, below, &at) && at == points[p] && CALL(select)(a, below, NULL), "select");
        check(CALL(rank)(a, points[p]) == below, "rank");
        if (on[p] && p + 1 < n) below += (uint64_t)points[p + 1] - (uint64_t)points[p];
    }
    at = 77;
    if (!on[n - 1]) check(!CALL(select)(a, below, &at) && at == 77, "select past the last member");
}

/* The members one by one, upwards and downwards, of made-up sets: near the least number and in the middle, and near the greatest, where
 * a range may have no end. */
static void TEST(members)(void)
{
    const NUMBER bases[] = {LEAST, 50, (NUMBER)(MOST - (POINTS - 1))};
    for (size_t b = 0; b < 3; b++) {
        NUMBER items[POINTS];
        SET set;
        CALL(members) it;
        size_t len = 0, p;
        for (p = 0; p < POINTS; p++)
            if (random_below(3) == 0) items[len++] = (NUMBER)(bases[b] + (NUMBER)p);
        if (b < 2) len -= len % 2;
        check(CALL(view)(items, len, &set) == RANGE_SET_DONE, "the set of some members");
        it = CALL(members_first)(set);
        for (p = 0; p < POINTS; p++) {
            const NUMBER at = (NUMBER)(bases[b] + (NUMBER)p);
            if (!CALL(contains)(set, at)) continue;
            check(it.has_value && it.value == at, "members upwards");
            CALL(members_next)(&it);
        }
        check(!it.has_value, "members past the last");
        it = CALL(members_last)(set);
        for (p = POINTS; p-- > 0;) {
            const NUMBER at = (NUMBER)(bases[b] + (NUMBER)p);
            if (!CALL(contains)(set, at)) continue;
            check(it.has_value && it.value == at, "members downwards");
            CALL(members_prev)(&it);
        }
        check(!it.has_value, "members before the first");
    }
}

/* Each point by one call: in ascending order, in descending order, each twice, and at random. */
static void TEST(each_of)(SET a, const NUMBER *points, const bool *on, size_t n)
{
    NUMBER values[2 * (POINTS + 1)];
    size_t at[2 * (POINTS + 1)], order, p;
    for (order = 0; order < 4; order++) {
        const size_t count = order == 2 ? 2 * n : n;
        bool found[2 * (POINTS + 1) + 1];
        memset(found, true, sizeof found);
        for (p = 0; p < count; p++) {
            at[p] = order == 0 ? p : order == 1 ? n - 1 - p : order == 2 ? p / 2 : random_below((unsigned)n);
            values[p] = points[at[p]];
        }
        check(CALL(contains_each)(a, values, count, found) == RANGE_SET_DONE, "contains_each");
        for (p = 0; p < count; p++) check(found[p] == on[at[p]], "contains_each: the members");
        check(found[count], "contains_each writes no more");
    }
}

/* Whether all numbers from one point on, up to another, are members, and whether any is. */
static void TEST(whole_ranges)(SET a, const NUMBER *points, const bool *on, size_t n)
{
    size_t i, from, to, p;
    for (i = 0; i < 8; i++) {
        bool all = true, any;
        from = random_below((unsigned)n), to = random_below((unsigned)n);
        for (p = from; p < to; p++) all = all && on[p];
        check(CALL(contains_range)(a, points[from], points[to]) == all, "contains_range");
        for (p = from, any = false; p < to; p++) any = any || on[p];
        check(CALL(intersects_range)(a, points[from], points[to]) == any, "intersects_range");
    }
}

/* Where a length fits, against trying each point. */
static void TEST(fits)(SET a, const NUMBER *points, const bool *on, size_t n)
{
    size_t i, p, q, from, to;
    for (i = 0; i < 8; i++) {
        COUNT count = (COUNT)random_below(5);
        NUMBER at = 77, least = 0;
        bool fits = false;
        from = random_below((unsigned)n), to = random_below((unsigned)n);
        /* The first point is the least number, and may stand far below the second, so the search starts at the second. */
        if (from == 0 && n > 1) from = 1;
        if (count == 0 && points[from] <= points[to]) fits = true, least = points[from];
        for (p = from; count > 0 && p < to && !fits; p++) {
            fits = (uint64_t)points[to] - (uint64_t)points[p] >= count;
            for (q = p; fits && q < to && (uint64_t)points[q] - (uint64_t)points[p] < count; q++) fits = !on[q];
            least = points[p];
        }
        check(CALL(first_fit)(a, points[from], points[to], count, &at) == fits && at == (fits ? least : 77), "first_fit");
        check(CALL(first_fit)(a, points[from], points[to], count, NULL) == fits, "first_fit without a place for the number");
    }
}

/* Whether the number is a multiple, above 0 or below. */
static bool TEST(is_multiple)(NUMBER x, COUNT of)
{
    COUNT size = LEAST != 0 && x < 1 ? (COUNT)((COUNT)0 - (COUNT)x) : (COUNT)x;
    return of > 0 && size % of == 0;
}

/* Where a number of members, or from a multiple on of others, stand in a row, against trying each number. */
static void TEST(rows_of_numbers)(SET a, const NUMBER *points, size_t n)
{
    size_t i;
    for (i = 0; i < 8; i++) {
        COUNT count = (COUNT)random_below(5), align = (COUNT)random_below(9), left, k;
        NUMBER start = points[random_below((unsigned)n)], end = points[random_below((unsigned)n)], at = 77, run = 77, x;
        bool fits = false, runs = false, some, all;
        if (start < points[n > 1]) start = points[n > 1];
        left = start <= end ? (COUNT)((COUNT)end - (COUNT)start) : 0;
        if (left > 2000) continue;
        for (x = start; start <= end && count <= left; x++, left--) {
            for (k = 0, some = false, all = true; k < count; k++) {
                bool on = CALL(contains)(a, (NUMBER)((COUNT)x + k));
                some = some || on, all = all && on;
            }
            if (!fits && !some && TEST(is_multiple)(x, align)) fits = true, at = x;
            if (!runs && all) runs = true, run = x;
            if (left == 0) break;
        }
        x = 77;
        check(CALL(first_fit_aligned)(a, start, end, count, align, &x) == fits && x == at, "first_fit_aligned");
        check(CALL(first_fit_aligned)(a, start, end, count, align, NULL) == fits, "first_fit_aligned without a place for the number");
        x = 77;
        check(CALL(first_run)(a, start, end, count, &x) == runs && x == run, "first_run");
        check(CALL(first_run)(a, start, end, count, NULL) == runs, "first_run without a place for the number");
    }
}

/* Where many numbers fit, and numbers on both sides of zero. */
static void TEST(fits_far)(void)
{
    static const NUMBER both[] = {LEAST, LEAST + 2, MOST - 5, MOST - 3};
    const COUNT all = (COUNT)((COUNT)MOST - (COUNT)LEAST), between = (COUNT)(all - 7);
    const SET nothing = {NULL, 0};
    SET set = TEST(set)(both, 4);
    NUMBER at = 77;
    check(CALL(first_fit)(nothing, LEAST, MOST, all, &at) && at == LEAST, "first_fit of all numbers but one");
    check(!CALL(first_fit)(nothing, LEAST, MOST - 1, all, &at) && !CALL(first_fit)(nothing, LEAST + 1, MOST, all, &at),
        "first_fit of one too many");
    check(CALL(first_fit)(set, LEAST, MOST, between, &at) && at == LEAST + 2, "first_fit of as many as the gap has");
    check(!CALL(first_fit)(set, LEAST, MOST, (COUNT)(between + 1), NULL), "first_fit of one more than the gap has");
    check(CALL(first_fit)(set, MOST - 5, MOST, 3, &at) && at == MOST - 3, "first_fit at the end");
    check(CALL(first_fit)(set, LEAST, LEAST, 0, &at) && at == LEAST, "first_fit of no number");
    check(CALL(first_fit_aligned)(nothing, 0, MOST, 5, 10, &at) && at == 0, "first_fit_aligned at 0");
    check(CALL(first_fit_aligned)(nothing, 1, MOST, 5, 60, &at) && at == 60, "first_fit_aligned past 0");
    check(CALL(first_fit_aligned)(nothing, LEAST, MOST, 1, all, &at) && at == 0, "first_fit_aligned to all numbers");
    check(CALL(first_fit_aligned)(set, LEAST, MOST, 3, 4, &at) && at == LEAST + 4, "first_fit_aligned");
    check(!CALL(first_fit_aligned)(set, LEAST, MOST, 1, 0, &at) && at == LEAST + 4, "first_fit_aligned to no multiple");
    check(CALL(first_run)(set, LEAST + 1, MOST, 2, &at) && at == MOST - 5, "first_run");
    check(!CALL(first_run)(set, LEAST, MOST, 3, &at) && at == MOST - 5, "first_run of one too many");
    at = LEAST;
    check(!CALL(first_fit)(set, MOST, LEAST, 0, &at) && !CALL(first_fit)(set, MOST, LEAST, 1, &at) && at == LEAST,
        "first_fit in a reversed range");
}

/* Searches in a set that was made otherwise, and isn't sorted, answer something, and stay within the list. */
static void TEST(unsorted_searches)(void)
{
    NUMBER items[POINTS], *list, at;
    size_t len = random_below(POINTS), i;
    SET set, below = {NULL, 77}, from = {NULL, 77};
    for (i = 0; i < len; i++) items[i] = (NUMBER)random_below(9);
    list = TEST(copy)(items, len);
    set.boundaries = list, set.len = len;
    for (i = 0; i < 10; i++) {
        RANGE it = {77, 77, false};
        CALL(split)(set, (NUMBER)i, &below, &from);
        check(below.len <= len && from.len <= len && from.boundaries + from.len == list + len, "split of an unsorted list");
        check(CALL(contains)(set, (NUMBER)i) == CALL(range_at)(set, (NUMBER)i, &it), "contains of an unsorted list");
        check(!CALL(contains_range)(set, (NUMBER)(i + 2), (NUMBER)(i + 3)) || len > 0, "contains_range of an unsorted list");
        check(!CALL(intersects_range)(set, (NUMBER)i, (NUMBER)(i + 3)) || len > 0, "intersects_range of an unsorted list");
        check(!CALL(range_from)(set, (NUMBER)i, &it) || len > 0, "range_from of an unsorted list");
        check(!CALL(next_member)(set, (NUMBER)i, &at) || len > 0, "next_member of an unsorted list");
        check(CALL(next_gap)(set, (NUMBER)i, &at) || len > 0, "next_gap of an unsorted list");
        check(!CALL(prev_member)(set, (NUMBER)i, &at) || len > 0, "prev_member of an unsorted list");
        check(CALL(prev_gap)(set, (NUMBER)i, &at) || len > 0, "prev_gap of an unsorted list");
    }
    free(list);
}
