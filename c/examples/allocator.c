/* An allocator of addresses: blocks are taken where they first fit at a multiple of eight, given back, and taken again. */
#include "range_set.h"

#include <inttypes.h>
#include <stdio.h>

enum { ALIGN = 8 };

/* The addresses of which blocks are taken, and which are. */
typedef struct {
    uint64_t start, end;
    range_set_u64_owned used;
} arena;

static range_set_status take(arena *arena, uint64_t size, uint64_t *at)
{
    range_set_status status;

    if (!range_set_u64_first_fit_aligned(arena->used.in.set, arena->start, arena->end, size, ALIGN, at)) {
        printf("no %" PRIu64 " in a row are free\n", size);
        return RANGE_SET_DONE;
    }
    status = range_set_u64_owned_insert(&arena->used, *at, *at + size);
    if (status == RANGE_SET_DONE) printf("%" PRIu64 " at %" PRIu64 "\n", size, *at);
    return status;
}

static range_set_status give_back(arena *arena, uint64_t at, uint64_t size)
{
    return range_set_u64_owned_remove(&arena->used, at, at + size);
}

int main(void)
{
    enum { BLOCKS = 3 };
    static const uint64_t sizes[BLOCKS] = {400, 300, 200};
    arena arena;
    uint64_t at[BLOCKS] = {0}, there = 0;
    range_set_status status = RANGE_SET_DONE;

    arena.start = 1000;
    arena.end = 2000;
    range_set_u64_owned_init(&arena.used, NULL);
    for (size_t i = 0; status == RANGE_SET_DONE && i < BLOCKS; i++) status = take(&arena, sizes[i], &at[i]);
    if (status == RANGE_SET_DONE) status = give_back(&arena, at[1], sizes[1]);
    if (status == RANGE_SET_DONE) status = take(&arena, 305, &there);
    if (status == RANGE_SET_DONE) status = take(&arena, 250, &there);
    if (range_set_u64_covered(arena.used.in.set, &there)) printf("%" PRIu64 " are taken\n", there);
    range_set_u64_owned_free(&arena.used);
    if (status != RANGE_SET_DONE) fprintf(stderr, "allocator: %s\n", range_set_status_text(status));
    return status != RANGE_SET_DONE;
}
