#include "linear.h"

#include <string.h>

enum operation { UNITE, INTERSECT, SUBTRACT, DIFFER };

// Whether the result has what comes after `i` boundaries of one side and `j` of the other.
static inline bool is_on(enum operation operation, size_t i, size_t j) {
    switch (operation) {
    case UNITE:
        return (i | j) & 1;
    case INTERSECT:
        return i & j & 1;
    case SUBTRACT:
        return i & ~j & 1;
    default:
        return (i ^ j) & 1;
    }
}

// The loop of every operation: it branches on which boundary is next, each is written, and it stays where the result
// changes at it.
static inline size_t merge(enum operation operation, const int64_t *a, size_t a_len, const int64_t *b, size_t b_len,
                           int64_t *out) {
    size_t i = 0, j = 0, made = 0;
    while (i < a_len && j < b_len) {
        if (a[i] < b[j]) {
            out[made] = a[i++];
        } else if (b[j] < a[i]) {
            out[made] = b[j++];
        } else {
            out[made] = a[i++];
            j++;
        }
        made += is_on(operation, i, j) != (made & 1);
    }
    for (; i < a_len; made += is_on(operation, i, j) != (made & 1)) {
        out[made] = a[i++];
    }
    for (; j < b_len; made += is_on(operation, i, j) != (made & 1)) {
        out[made] = b[j++];
    }
    return made;
}

// The same without a list, up to the first change where `stops`.
static inline size_t count(enum operation operation, bool stops, const int64_t *a, size_t a_len, const int64_t *b,
                           size_t b_len) {
    size_t i = 0, j = 0, made = 0;
    while (i < a_len && j < b_len) {
        if (a[i] < b[j]) {
            i++;
        } else if (b[j] < a[i]) {
            j++;
        } else {
            i++;
            j++;
        }
        made += is_on(operation, i, j) != (made & 1);
        if (stops && made != 0) {
            return made;
        }
    }
    for (; i < a_len && !(stops && made != 0); made += is_on(operation, i, j) != (made & 1)) {
        i++;
    }
    for (; j < b_len && !(stops && made != 0); made += is_on(operation, i, j) != (made & 1)) {
        j++;
    }
    return made;
}

size_t linear_union(const int64_t *a, size_t a_len, const int64_t *b, size_t b_len, int64_t *out) {
    return merge(UNITE, a, a_len, b, b_len, out);
}

size_t linear_intersection(const int64_t *a, size_t a_len, const int64_t *b, size_t b_len, int64_t *out) {
    return merge(INTERSECT, a, a_len, b, b_len, out);
}

size_t linear_difference(const int64_t *a, size_t a_len, const int64_t *b, size_t b_len, int64_t *out) {
    return merge(SUBTRACT, a, a_len, b, b_len, out);
}

size_t linear_symmetric_difference(const int64_t *a, size_t a_len, const int64_t *b, size_t b_len, int64_t *out) {
    return merge(DIFFER, a, a_len, b, b_len, out);
}

size_t linear_union_len(const int64_t *a, size_t a_len, const int64_t *b, size_t b_len) {
    return count(UNITE, false, a, a_len, b, b_len);
}

bool linear_is_disjoint(const int64_t *a, size_t a_len, const int64_t *b, size_t b_len) {
    return count(INTERSECT, true, a, a_len, b, b_len) == 0;
}

bool linear_is_subset(const int64_t *a, size_t a_len, const int64_t *b, size_t b_len) {
    return count(SUBTRACT, true, a, a_len, b, b_len) == 0;
}

size_t linear_search(const int64_t *a, size_t a_len, int64_t value, bool *found) {
    size_t low = 0, high = a_len;
    *found = false;
    while (low < high) {
        size_t middle = low + (high - low) / 2;
        if (a[middle] < value) {
            low = middle + 1;
        } else if (a[middle] > value) {
            high = middle;
        } else {
            *found = true;
            return middle;
        }
    }
    return low;
}

bool linear_contains(const int64_t *a, size_t a_len, int64_t value) {
    bool found;
    size_t below = linear_search(a, a_len, value, &found);
    return (below + found) & 1;
}

// What lies from the start up to the end gives way: to a start where an even (`on` 0) or odd number of boundaries is
// below the start, and to an end where one is at or below the end.
static size_t replace(int64_t *a, size_t a_len, int64_t start, int64_t end, size_t on) {
    bool found;
    if (start >= end) {
        return a_len;
    }
    size_t low = linear_search(a, a_len, start, &found);
    size_t high = linear_search(a, a_len, end, &found);
    high += found;
    bool puts_start = (low & 1) == on, puts_end = (high & 1) == on;
    memmove(a + low + puts_start + puts_end, a + high, (a_len - high) * sizeof *a);
    if (puts_start) {
        a[low] = start;
    }
    if (puts_end) {
        a[low + puts_start] = end;
    }
    return a_len - (high - low) + puts_start + puts_end;
}

size_t linear_insert(int64_t *a, size_t a_len, int64_t start, int64_t end) {
    return replace(a, a_len, start, end, 0);
}

size_t linear_remove(int64_t *a, size_t a_len, int64_t start, int64_t end) {
    return replace(a, a_len, start, end, 1);
}
