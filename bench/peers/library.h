// What the static library of the crate range_bench exports. A list is strictly sorted. What makes a set writes the front
// of its boundaries to `out`, as far as `out_len` reaches, drops it, and returns how many it has, or SIZE_MAX where
// memory is refused.
#ifndef LIBRARY_H
#define LIBRARY_H

#include <stdbool.h>
#include <stddef.h>
#include <stdint.h>

#ifdef __cplusplus
extern "C" {
#endif

typedef size_t range_bench_two(const int64_t *left, size_t left_len, const int64_t *right, size_t right_len,
                               int64_t *out, size_t out_len);
range_bench_two range_bench_union, range_bench_intersection, range_bench_difference, range_bench_symmetric_difference;
range_bench_two range_bench_union_borrowed, range_bench_intersection_borrowed, range_bench_difference_borrowed,
    range_bench_symmetric_difference_borrowed;
range_bench_two range_bench_union_owned, range_bench_intersection_owned, range_bench_difference_owned,
    range_bench_symmetric_difference_owned;
range_bench_two range_bench_copies;
size_t range_bench_copy(const int64_t *left, size_t left_len, int64_t *out, size_t out_len);

typedef size_t range_bench_commands(const int64_t *left, size_t left_len, const int64_t *starts, size_t starts_len,
                                    const int64_t *ends, size_t ends_len, int64_t *out, size_t out_len);
range_bench_commands range_bench_insert, range_bench_remove, range_bench_insert_all;

bool range_bench_is_disjoint(const int64_t *left, size_t left_len, const int64_t *right, size_t right_len);
bool range_bench_is_subset(const int64_t *left, size_t left_len, const int64_t *right, size_t right_len);
size_t range_bench_union_len(const int64_t *left, size_t left_len, const int64_t *right, size_t right_len);
uint64_t range_bench_union_comparisons(const int64_t *left, size_t left_len, const int64_t *right, size_t right_len);
size_t range_bench_contains(const int64_t *set, size_t set_len, const int64_t *values, size_t values_len);
size_t range_bench_contains_text(const char *texts, size_t texts_len, const char *values, size_t values_len);
size_t range_bench_split(const int64_t *set, size_t set_len, const int64_t *values, size_t values_len);
int64_t range_bench_iter(const int64_t *set, size_t set_len);

#ifdef __cplusplus
}
#endif

#endif
