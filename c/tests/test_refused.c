/* Tests of sets in chunks and of maps where memory is refused: each request of each call in turn, of malloc and then of an allocator. It is
 * linked with -Wl,--wrap=malloc,--wrap=realloc, so that it stands before malloc. */
#include "checking.h"
#include "range_set.h"

#include <string.h>

void *__real_malloc(size_t size);
void *__real_realloc(void *memory, size_t size);
void *__wrap_malloc(size_t size);
void *__wrap_realloc(void *memory, size_t size);

static long refused;
/* How many requests are met before one is refused; all if it is negative. */
static long left = -1;
/* How many reach malloc. */
static long of_malloc;

static bool is_met(void)
{
    if (left < 0) return true;
    if (left == 0) refused++;
    return left > 0 && left-- > 0;
}

void *__wrap_malloc(size_t size)
{
    of_malloc++;
    return is_met() ? __real_malloc(size) : NULL;
}

void *__wrap_realloc(void *memory, size_t size)
{
    of_malloc++;
    return is_met() ? __real_realloc(memory, size) : NULL;
}

/* An allocator of blocks that are aligned to 16 bytes and no more, which knows each by its place and size, and changes what a block leaves. */
enum { BLOCKS = 4096, ALIGN = 16 };

static struct memory {
    struct block {
        char *whole, *at;
        size_t size;
    } blocks[BLOCKS];
    size_t many, most, requests;
} memory;

static void *take(void *context, size_t size)
{
    struct memory *of = context;
    struct block *block = &of->blocks[of->many];
    check(of == &memory && of->many < BLOCKS && size > 0, "an allocator: its context and a size");
    of->requests++;
    if (!is_met()) return NULL;
    block->whole = __real_malloc(size + 4 * ALIGN);
    check(block->whole != NULL, "an allocator: no memory");
    block->at = block->whole + (2 * ALIGN - (uintptr_t)block->whole % (2 * ALIGN)) + ALIGN;
    block->size = size;
    memset(block->at, 0xa5, size);
    block->at[size] = 77;
    if (++of->many > of->most) of->most = of->many;
    return block->at;
}

static void give_back(void *context, void *at, size_t size)
{
    struct memory *of = context;
    size_t i = of->many;
    while (i > 0 && of->blocks[i - 1].at != at) i--;
    check(of == &memory && i > 0 && of->blocks[i - 1].size == size, "an allocator: a block and its size");
    check(of->blocks[i - 1].at[size] == 77, "an allocator: the byte after a block");
    memset(at, 0x5a, size);
    free(of->blocks[i - 1].whole);
    of->blocks[i - 1] = of->blocks[--of->many];
}

static void *take_more(void *context, void *at, size_t old_size, size_t size)
{
    void *more = take(context, size);
    if (more == NULL) return NULL;
    memcpy(more, at, old_size < size ? old_size : size);
    give_back(context, at, old_size);
    return more;
}

enum { MANY = 1500 };

/* Makes a call again and again, with one request more met each time, until it is done. What is refused leaves `len` boundaries. */
#define UNTIL_DONE(number, call, len) \
    for (k = 0;; k++) { \
        range_set_status status; \
        left = k; \
        status = call; \
        left = -1; \
        if (status == RANGE_SET_DONE) break; \
        check(status == RANGE_SET_NO_MEMORY, "what is refused: status"); \
        check(range_set_##number##_chunked_boundaries_len(set) == (len), "what is refused changes the set"); \
    }

/* Three ways to the set with `list` for its boundaries. */
#define REFUSED(number, NUMBER) \
    static void is_list_##number(range_set_##number##_chunked set, const NUMBER *list) \
    { \
        static NUMBER copy[2 * MANY]; \
        range_set_##number result; \
        size_t p; \
        check(range_set_##number##_chunked_copy(set, copy, 2 * MANY, &result) == RANGE_SET_DONE && result.len == 2 * MANY, "the length"); \
        for (p = 0; p < 2 * MANY; p++) check(copy[p] == list[p], "the boundaries"); \
    } \
    /* With each request met and refused in turn, three more numbers fit behind the last of many ranges, and no more before it. */ \
    static void fits_##number(range_set_##number##_chunked *set, NUMBER last) \
    { \
        NUMBER first = 0; \
        long k, before; \
        for (k = 0;; k++) { \
            before = refused; \
            left = k; \
            check(range_set_##number##_chunked_first_fit(set, 0, (NUMBER)(last + 3), 3, &first) && first == last, "first_fit: behind"); \
            check(!range_set_##number##_chunked_first_fit(set, 0, (NUMBER)(last + 2), 3, &first) && first == last, "first_fit: nowhere"); \
            left = -1; \
            if (refused == before) break; \
        } \
        check(k > 0, "first_fit: what is remembered takes a request"); \
    } \
    static void refused_##number(void) \
    { \
        static NUMBER list[2 * MANY]; \
        range_set_##number##_chunked set, copy; \
        range_set_##number view, one; \
        size_t p; \
        long k; \
        for (p = 0; p < 2 * MANY; p++) list[p] = (NUMBER)(2 * p); \
        check(range_set_##number##_view(list, 2 * MANY, &view) == RANGE_SET_DONE, "view"); \
        set.at = list; \
        UNTIL_DONE(number, range_set_##number##_chunked_of(view, &set), 0) \
        check(k > 2, "a list takes some requests"); \
        check((uintptr_t)set.at % ALIGN == 0, "what an allocator answers keeps its alignment"); \
        is_list_##number(set, list); \
        check(range_set_##number##_view(list + 8, 2, &one) == RANGE_SET_DONE, "a view of one range"); \
        left = 0; \
        check( \
            range_set_##number##_chunked_combine(&set, one, RANGE_SET_UNION) == RANGE_SET_DONE, "a range that is there takes no request"); \
        left = -1; \
        is_list_##number(set, list); \
        UNTIL_DONE(number, range_set_##number##_chunked_combine(&set, view, RANGE_SET_UNION), 2 * MANY) \
        check(k > 2, "a connective takes some requests"); \
        is_list_##number(set, list); \
        UNTIL_DONE(number, range_set_##number##_chunked_combine_chunked(&set, set, RANGE_SET_UNION), 2 * MANY) \
        check(k > 3, "a connective with a set in chunks takes one request more"); \
        is_list_##number(set, list); \
        UNTIL_DONE(number, range_set_##number##_chunked_clone(set, &copy), 2 * MANY) \
        check(k > 2, "a copy takes some requests"); \
        range_set_##number##_chunked_free(&set); \
        is_list_##number(copy, list); \
        range_set_##number##_chunked_free(&copy); \
        UNTIL_DONE(number, range_set_##number##_chunked_from_values(list, 2 * MANY, &set), 0) \
        check(k > 3 && range_set_##number##_chunked_ranges_len(set) == 2 * MANY, "values take some requests"); \
        range_set_##number##_chunked_free(&set); \
        set.at = list; \
        UNTIL_DONE(number, range_set_##number##_chunked_new(&set), 0) \
        check(k == 1, "the empty set takes one request"); \
        for (p = 0; p < MANY; p++) UNTIL_DONE(number, range_set_##number##_chunked_insert(&set, list[2 * p], list[2 * p + 1]), 2 * p) \
        is_list_##number(set, list); \
        fits_##number(&set, list[2 * MANY - 1]); \
        is_list_##number(set, list); \
        range_set_##number##_chunked_free(&set); \
        UNTIL_DONE(number, range_set_##number##_chunked_new(&set), 0) \
        UNTIL_DONE(number, range_set_##number##_chunked_insert_from(&set, 0), 0) \
        for (p = 0; p < MANY; p++) \
            UNTIL_DONE(number, range_set_##number##_chunked_remove(&set, list[2 * p + 1], (NUMBER)(list[2 * p + 1] + 2)), 2 * p + 1) \
        UNTIL_DONE(number, range_set_##number##_chunked_remove_from(&set, (NUMBER)(4 * MANY)), 2 * MANY + 1) \
        is_list_##number(set, list); \
        range_set_##number##_chunked_free(&set); \
    }

/* A set without an end that has no room for the end which it gets. */
#define REFUSED_END(number, NUMBER) \
    static void refused_end_##number(void) \
    { \
        static const NUMBER list[] = {0, 1, 2}; \
        range_set_##number##_chunked set; \
        range_set_##number view; \
        long k; \
        check(range_set_##number##_view(list, 3, &view) == RANGE_SET_DONE, "an end: view"); \
        check(range_set_##number##_chunked_of(view, &set) == RANGE_SET_DONE, "an end: of a list"); \
        UNTIL_DONE(number, range_set_##number##_chunked_remove_from(&set, 5), 3) \
        check(k > 0 && range_set_##number##_chunked_boundaries_len(set) == 4, "an end takes a request"); \
        range_set_##number##_chunked_free(&set); \
    }

/* Few ranges, some of which make a set longer, and one of these without an end. What is refused leaves each boundary. */
#define REFUSED_FEW(number, NUMBER) \
    static void refused_few_##number(unsigned keep) \
    { \
        enum { LEN = 10000, RANGES = 20, FEW = 2 * RANGES + 1, ROOM = LEN + FEW }; \
        static NUMBER list[LEN], few[FEW], wanted[ROOM], copy[ROOM]; \
        range_set_##number##_chunked set; \
        range_set_##number view, other, made, result; \
        range_set_status status; \
        size_t p; \
        long k; \
        for (p = 0; p < LEN; p++) list[p] = (NUMBER)(10 * p); \
        for (p = 0; p < RANGES; p++) { \
            few[2 * p] = (NUMBER)(1400 * p + (p % 4 == 0 ? 13 : p % 4 == 2 ? 3 : 5)); \
            few[2 * p + 1] = (NUMBER)(few[2 * p] + (p % 2 == 0 ? 3 : 40)); \
        } \
        few[2 * RANGES] = (NUMBER)(10 * LEN + 1); \
        check(range_set_##number##_view(list, LEN, &view) == RANGE_SET_DONE, "few ranges: view"); \
        check(range_set_##number##_view(few, FEW, &other) == RANGE_SET_DONE, "few ranges: view of them"); \
        check(range_set_##number##_combine(view, other, keep, wanted, ROOM, &made) == RANGE_SET_DONE, "few ranges: of lists"); \
        check(range_set_##number##_chunked_of(view, &set) == RANGE_SET_DONE, "few ranges: of a list"); \
        for (k = 0;; k++) { \
            left = k; \
            status = range_set_##number##_chunked_combine(&set, other, keep); \
            left = -1; \
            check(range_set_##number##_chunked_copy(set, copy, ROOM, &result) == RANGE_SET_DONE, "few ranges: copy"); \
            if (status == RANGE_SET_DONE) break; \
            check(status == RANGE_SET_NO_MEMORY && range_set_##number##_equal(result, view), "few ranges: what is refused"); \
        } \
        check(k > 3, "few ranges take some requests"); \
        check(range_set_##number##_equal(result, made), "few ranges: the set"); \
        range_set_##number##_chunked_free(&set); \
    }

REFUSED_FEW(i32, int32_t)
REFUSED_FEW(u32, uint32_t)
REFUSED_FEW(i64, int64_t)
REFUSED_FEW(u64, uint64_t)
REFUSED_END(i32, int32_t)
REFUSED_END(u32, uint32_t)
REFUSED_END(i64, int64_t)
REFUSED_END(u64, uint64_t)
REFUSED(i32, int32_t)
REFUSED(u32, uint32_t)
REFUSED(i64, int64_t)
REFUSED(u64, uint64_t)

/* Makes a call on a map again and again, as UNTIL_DONE. What is refused leaves it as many ranges, and the value of one key. */
#define MAP_UNTIL_DONE(call, len, key, has) \
    for (k = 0;; k++) { \
        range_set_status status; \
        left = k; \
        status = call; \
        left = -1; \
        if (status == RANGE_SET_DONE) break; \
        check(status == RANGE_SET_NO_MEMORY, "maps: what is refused: status"); \
        check(range_map_i64_len(map) == (len) && range_map_i64_get(map, key, NULL) == (has), "maps: what is refused changes the map"); \
    }

/* A map that grows by ranges that don't touch, and by ranges that are cut in two. */
static void refused_maps(void)
{
    range_map_i64 map;
    int64_t p;
    long k;
    size_t requests = 0;
    MAP_UNTIL_DONE(range_map_i64_new(&map), 0, 0, false)
    check(k == 1, "maps: the empty map takes one request");
    for (p = 0; p < MANY; p++) {
        MAP_UNTIL_DONE(range_map_i64_insert(&map, 10 * p, 10 * p + 9, (uint64_t)p), (size_t)p, 10 * p, false)
        requests += (size_t)k;
    }
    check(requests > 10, "maps: growth takes requests");
    for (p = 0; p < MANY; p++) MAP_UNTIL_DONE(range_map_i64_remove(&map, 10 * p + 3, 10 * p + 4), (size_t)(MANY + p), 10 * p + 3, true)
    MAP_UNTIL_DONE(range_map_i64_insert_from(&map, 10 * MANY, 5), 2 * (size_t)MANY, 10 * MANY, false)
    MAP_UNTIL_DONE(range_map_i64_remove_from(&map, 10 * MANY + 5), 2 * (size_t)MANY + 1, 10 * MANY + 6, true)
    for (p = 0; p < MANY; p++) {
        uint64_t value = 0;
        check(range_map_i64_get(map, 10 * p + 4, &value) && value == (uint64_t)p && !range_map_i64_get(map, 10 * p + 3, NULL),
            "maps: the values");
    }
    range_map_i64 copy, list;
    static int64_t ranges[2 * MANY];
    static uint64_t values[MANY];
    for (k = 0;; k++) {
        left = k;
        const range_set_status status = range_map_i64_copy(map, &copy);
        left = -1;
        if (status == RANGE_SET_DONE) break;
        check(status == RANGE_SET_NO_MEMORY && copy.at == NULL, "maps: a copy that is refused is none");
    }
    check(k > 1 && range_map_i64_len(copy) == range_map_i64_len(map), "maps: a copy takes requests");
    range_map_i64_free(&copy);
    range_map_i64_free(&map);
    for (p = 0; p < MANY; p++) ranges[2 * p] = 10 * p, ranges[2 * p + 1] = 10 * p + 9, values[p] = (uint64_t)p;
    for (k = 0;; k++) {
        left = k;
        const range_set_status status = range_map_i64_of(ranges, values, MANY, &list);
        left = -1;
        if (status == RANGE_SET_DONE) break;
        check(status == RANGE_SET_NO_MEMORY && list.at == NULL, "maps: a map of a list that is refused is none");
    }
    check(k > 1 && range_map_i64_len(list) == MANY, "maps: a list takes requests");
    range_map_i64_free(&list);
    range_map_u64 other;
    left = 0;
    check(range_map_u64_new(&other) == RANGE_SET_NO_MEMORY && other.at == NULL, "maps: a map that is refused is none");
    left = -1;
}

/* A map of ranges that begin without an end and get one, after others that touch. Of two, which have three keys, the map's lists are full
 * before an end; of none they are before a start. */
static void refused_ends_of_maps(int64_t touching)
{
    range_map_i64 map;
    int64_t p;
    long k, starts = 0, ends = 0;
    check(range_map_i64_new(&map) == RANGE_SET_DONE, "maps: ends: new");
    for (p = 0; p < touching; p++) check(range_map_i64_insert(&map, p, p + 1, (uint64_t)p) == RANGE_SET_DONE, "maps: ends: insert");
    for (p = 0; p < MANY; p++) {
        MAP_UNTIL_DONE(range_map_i64_insert_from(&map, 10 * p + 10, 7), (size_t)(touching + p), 10 * p + 10, false)
        starts += k;
        MAP_UNTIL_DONE(range_map_i64_remove_from(&map, 10 * p + 15), (size_t)(touching + p + 1), 10 * p + 15, true)
        ends += k;
    }
    check((touching == 2 ? ends : starts) > 5, "maps: growth by starts and ends takes requests");
    range_map_i64_free(&map);
}

static void refused_all(void)
{
    refused_few_i32(RANGE_SET_UNION);
    refused_few_i32(RANGE_SET_DIFFERENCE);
    refused_few_u32(RANGE_SET_UNION);
    refused_few_u32(RANGE_SET_DIFFERENCE);
    refused_few_i64(RANGE_SET_UNION);
    refused_few_i64(RANGE_SET_DIFFERENCE);
    refused_few_u64(RANGE_SET_UNION);
    refused_few_u64(RANGE_SET_DIFFERENCE);
    refused_end_i32();
    refused_end_u32();
    refused_end_i64();
    refused_end_u64();
    refused_ends_of_maps(0);
    refused_ends_of_maps(2);
    refused_i32();
    refused_u32();
    refused_i64();
    refused_u64();
    refused_maps();
}

int main(void)
{
    range_set_allocator allocator = {take, take_more, give_back, &memory};
    long by_malloc, refused_by_malloc;
    refused_all();
    by_malloc = of_malloc, refused_by_malloc = refused;
    range_set_use_allocator(&allocator);
    /* It has a copy. */
    memset(&allocator, 0, sizeof allocator);
    refused_all();
    check(of_malloc == by_malloc && refused == 2 * refused_by_malloc, "an allocator is asked as malloc is, and malloc isn't");
    check(memory.many == 0 && memory.most > 1 && (long)memory.requests == by_malloc, "an allocator has all blocks back");
    range_set_use_allocator(NULL);
    refused_all();
    check(of_malloc == 2 * by_malloc && (long)memory.requests == by_malloc, "malloc is asked again");
    printf("test_refused: %ld checks, %ld requests refused\n", checks, refused);
    return 0;
}
