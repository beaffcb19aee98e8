/* Tests of every call: rows, bad input, and made-up cases against a bitmap, each with the exact room, one too little, none
 * and more, and with guard words around the buffer.
 *
 *   test [CASES]   how many made-up cases each type of numbers has; 50000 if left out
 */
#include "checking.h"
#include "range_set.h"

#include <string.h>
#include <time.h>

enum { POINTS = 24 };

/* What is tried with several rooms: what `combine` keeps, as a number below CONNECTIVES, and these. Those from FIRST_IN_PLACE on change a
 * set in its buffer. */
enum { CONNECTIVES = 16, NEGATION = CONNECTIVES, GAPS, INSERT, REMOVE, OPERATIONS, FIRST_IN_PLACE = INSERT };

/* In place of a separator, for parse, which has none. */
enum { NO_SEPARATOR = -1 };

/* An allocator that counts what is out, and refuses once `left` requests were met. */
struct memory {
    size_t out;
    long left;
};

static void *take(void *context, size_t size)
{
    struct memory *memory = context;
    if (memory->left-- <= 0) return NULL;
    memory->out += size;
    return malloc(size);
}

static void *take_more(void *context, void *items, size_t old_size, size_t size)
{
    struct memory *memory = context;
    if (memory->left-- <= 0) return NULL;
    memory->out += size - old_size;
    return realloc(items, size);
}

static void give_back(void *context, void *items, size_t size)
{
    ((struct memory *)context)->out -= size;
    free(items);
}

#define TEST(name) GLUE(, TYPE, _##name)
#define CALLS "tests/test_calls.h"
#include "../each_type.h"
#undef TEST

#define TEST(name) GLUE(, TYPE, _maps_##name)
#define CALLS "tests/test_maps.h"
#include "../each_type.h"

/* Each status has a sentence of its own, and what is no status has one. */
static void status_texts(void)
{
    int s, t;
    for (s = RANGE_SET_DONE; s <= RANGE_SET_MORE + 1; s++)
        for (t = RANGE_SET_DONE; t <= RANGE_SET_MORE + 1; t++)
            check((strcmp(range_set_status_text((range_set_status)s), range_set_status_text((range_set_status)t)) == 0) == (s == t),
                "two statuses have one text");
}

static void version(void)
{
    char text[32];
    snprintf(text, sizeof text, "%d.%d.%d", RANGE_SET_VERSION_MAJOR, RANGE_SET_VERSION_MINOR, RANGE_SET_VERSION_PATCH);
    check(strcmp(text, RANGE_SET_VERSION) == 0 && strcmp(text, range_set_version()) == 0, "the version");
}

int main(int argc, char **argv)
{
    long cases = argc > 1 ? strtol(argv[1], NULL, 10) : 50000;
    status_texts();
    version();
    i32_all(cases);
    u32_all(cases);
    i64_all(cases);
    u64_all(cases);
    i64_maps_all(cases / 10);
    u64_maps_all(cases / 10);
    i32_maps_all(cases / 10);
    u32_maps_all(cases / 10);
    printf("test: %ld checks of %ld made-up cases for each type\n", checks, cases);
    return 0;
}
