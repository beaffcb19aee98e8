/* The ranges of a download as they come: how much is there, and what to ask for next. */
#include "range_set.h"

#include <inttypes.h>
#include <stdio.h>

enum { SIZE = 1000, ROOM = 64 };

int main(void)
{
    static const uint64_t came[][2] = {{0, 100}, {300, 450}, {100, 200}, {440, 500}, {900, 1000}, {200, 900}};
    uint64_t items[ROOM], gap_items[ROOM + 2], there;
    range_set_u64_buffer got = range_set_u64_buffer_of(items, ROOM);
    range_set_u64 gaps;
    range_set_u64_range next;
    range_set_status status = RANGE_SET_DONE;

    for (size_t i = 0; status == RANGE_SET_DONE && i < sizeof came / sizeof *came; i++) {
        status = range_set_u64_insert(&got, came[i][0], came[i][1]);
        if (status == RANGE_SET_DONE) status = range_set_u64_gaps(got.set, 0, SIZE, gap_items, ROOM + 2, &gaps);
        if (status != RANGE_SET_DONE || !range_set_u64_covered(got.set, &there)) continue;
        printf("%3" PRIu64 "%%", 100 * there / SIZE);
        if (range_set_u64_first(gaps, &next)) printf(", next: %" PRIu64 " to %" PRIu64, next.start, next.end);
        printf("\n");
    }
    if (status != RANGE_SET_DONE) fprintf(stderr, "example: %s\n", range_set_status_text(status));
    return status != RANGE_SET_DONE;
}
