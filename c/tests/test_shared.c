/* Two threads that ask one set in chunks and one map at the same time, by each call that takes a set or map itself. tests/c.sh runs it
 * under helgrind, which sees each write that another thread may read.
 *
 *   test_shared           the calls that only read
 *   test_shared writes    chunked_first_fit, which takes the address of a set and writes: helgrind must see that
 */
#include "range_set.h"

#include <pthread.h>
#include <stdio.h>
#include <stdlib.h>

enum { RANGES = 1000, ROOM = 64, TIMES = 20 };

static range_set_i64_chunked set;
static range_map_i64 map;

static void *ask(void *answer)
{
    range_set_i64_range range;
    range_set_i64 part = {NULL, 0};
    range_map_i64 copy = {NULL};
    range_map_i64_stretch stretches[ROOM];
    int64_t out[2 * RANGES], at = 0;
    uint64_t sum = 0, count = 0, value = 0;
    for (int64_t i = 0; i < TIMES; i++) {
        const int64_t x = i * 977 % (10 * RANGES);
        sum += range_set_i64_chunked_contains(set, x) + range_set_i64_chunked_contains_range(set, x, x + 3);
        sum += range_set_i64_chunked_intersects_range(set, x, x + 3) + range_set_i64_chunked_is_empty(set);
        sum += range_set_i64_chunked_is_all(set) + range_set_i64_chunked_range_at(set, x, &range);
        sum += range_set_i64_chunked_range_from(set, x, &range) + range_set_i64_chunked_first(set, &range);
        sum += range_set_i64_chunked_last(set, &range) + range_set_i64_chunked_prev_member(set, x, &at);
        sum += range_set_i64_chunked_prev_gap(set, x, &at) + range_set_i64_chunked_rank(set, x);
        sum += range_set_i64_chunked_select(set, (uint64_t)x, &at) + range_set_i64_chunked_covered(set, &count);
        sum += range_set_i64_chunked_next_member(set, x, &at) + range_set_i64_chunked_next_gap(set, x, &at);
        sum += range_set_i64_chunked_next(set, x, &range) + range_set_i64_chunked_first_run(set, x, x + 100, 5, &at);
        sum += range_set_i64_chunked_overlapping(set, x, x + 100, out, ROOM, &part) + part.len;
        sum += range_set_i64_chunked_next_ranges(set, x, out, ROOM, &part) + part.len;
        sum += range_set_i64_chunked_ranges_len(set) + range_set_i64_chunked_boundaries_len(set);
        sum += range_set_i64_chunked_copy(set, out, 2 * RANGES, &part) + part.len;
        sum += range_map_i64_get(map, x, &value) + range_map_i64_len(map) + (uint64_t)range_map_i64_range_at(map, x).end;
        sum += range_map_i64_next(map, x, stretches) + range_map_i64_next_ranges(map, x, stretches, ROOM);
        sum += range_map_i64_copy(map, &copy) == RANGE_SET_DONE && range_map_i64_len(copy) == RANGES;
        range_map_i64_free(&copy);
        sum += count + value + (uint64_t)at;
    }
    *(uint64_t *)answer = sum;
    return NULL;
}

static void *search(void *answer)
{
    int64_t at = 0;
    *(uint64_t *)answer = range_set_i64_chunked_first_fit(&set, 0, 10 * RANGES, 6, &at);
    return NULL;
}

int main(int argc, char **argv)
{
    void *(*run)(void *) = argc > 1 && argv[1][0] == 'w' ? search : ask;
    uint64_t answers[2] = {0, 1};
    pthread_t threads[2];
    if (range_set_i64_chunked_new(&set) || range_map_i64_new(&map)) return 1;
    for (int64_t i = 0; i < RANGES; i++) {
        if (range_set_i64_chunked_insert(&set, 10 * i, 10 * i + 5)) return 1;
        if (range_map_i64_insert(&map, 10 * i, 10 * i + 5, (uint64_t)i)) return 1;
    }
    for (int i = 0; i < 2; i++)
        if (pthread_create(&threads[i], NULL, run, &answers[i])) return 1;
    for (int i = 0; i < 2; i++)
        if (pthread_join(threads[i], NULL)) return 1;
    range_set_i64_chunked_free(&set);
    range_map_i64_free(&map);
    printf("test_shared: %llu\n", (unsigned long long)answers[0]);
    return answers[0] != answers[1];
}
