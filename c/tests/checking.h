/* What the tests in C and in C++ share: checks that are counted, of which the first that doesn't hold ends the program, and numbers
 * that are the same in every run. */
#include <stdbool.h>
#include <stdint.h>
#include <stdio.h>
#include <stdlib.h>

static long checks;

static inline void fail(const char *what)
{
    fprintf(stderr, "FAILED: %s\n", what);
    exit(1);
}

static inline void check(bool holds, const char *what)
{
    checks++;
    if (!holds) fail(what);
}

static inline unsigned random_below(unsigned n)
{
    static uint64_t state = 0x9e3779b97f4a7c15u;
    state ^= state << 13;
    state ^= state >> 7;
    state ^= state << 17;
    return (unsigned)((state >> 11) % n);
}
