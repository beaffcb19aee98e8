// A linear merge in C, into a buffer with room for both sides; and one range put into a list by two searches and one
// memmove. A number is a member where an odd number of boundaries is at or below it.
#ifndef LINEAR_H
#define LINEAR_H

#include <stdbool.h>
#include <stddef.h>
#include <stdint.h>

#ifdef __cplusplus
extern "C" {
#endif

// Each writes its result to `out` and answers how many boundaries that is: at most those of both.
size_t linear_union(const int64_t *a, size_t a_len, const int64_t *b, size_t b_len, int64_t *out);
size_t linear_intersection(const int64_t *a, size_t a_len, const int64_t *b, size_t b_len, int64_t *out);
size_t linear_difference(const int64_t *a, size_t a_len, const int64_t *b, size_t b_len, int64_t *out);
size_t linear_symmetric_difference(const int64_t *a, size_t a_len, const int64_t *b, size_t b_len, int64_t *out);

size_t linear_union_len(const int64_t *a, size_t a_len, const int64_t *b, size_t b_len);
bool linear_is_disjoint(const int64_t *a, size_t a_len, const int64_t *b, size_t b_len);
bool linear_is_subset(const int64_t *a, size_t a_len, const int64_t *b, size_t b_len);

// How many of the boundaries are below `value`: a binary search that stops where it finds an equal one.
size_t linear_search(const int64_t *a, size_t a_len, int64_t value, bool *found);
bool linear_contains(const int64_t *a, size_t a_len, int64_t value);

// Puts the range from `start` up to `end` in or takes it out, where `a` has room for two more, and answers how many
// boundaries there are then.
size_t linear_insert(int64_t *a, size_t a_len, int64_t start, int64_t end);
size_t linear_remove(int64_t *a, size_t a_len, int64_t start, int64_t end);

#ifdef __cplusplus
}
#endif

#endif
