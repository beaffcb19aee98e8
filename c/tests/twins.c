/* What every export that the layer in C calls answers and writes for an input, as bytes. tests/c.sh compiles it over the proved
 * exports, and over those that cargo builds: PREFIX is what their names begin with, and ANSWERS names the function that
 * returns their answers. twins_compare.c compares both. Exports get what their contracts ask for. */
#include "range_set.h"

#include <stdlib.h>
#include <string.h>

/* The longest list, whose room is what the operations of two need; and the boundaries of a set in chunks, which has several. */
enum { ITEMS = 16, ROOM = 40, TEXT = 512, LONGEST = 4096 };

struct input {
    const uint8_t *bytes;
    size_t size;
};

/* The answers, and the most boundaries that a set in chunks had. */
struct log {
    uint8_t *bytes;
    size_t room, len;
    uint64_t most;
};

static const char texts[] = "0123456789.. ,-+x0.5..1..,";

/* The next byte, or 0 after the last one. */
static uint8_t next(struct input *input)
{
    if (input->size == 0) return 0;
    input->size--;
    return *input->bytes++;
}

static void tell_bytes(struct log *log, const void *bytes, size_t size)
{
    if (size > log->room - log->len) abort();
    memcpy(log->bytes + log->len, bytes, size);
    log->len += size;
}

static void note(struct log *log, uint64_t answer)
{
    tell_bytes(log, &answer, sizeof answer);
}

#define JOINED(prefix, name) prefix##name
#define EXPORTED(prefix, name) JOINED(prefix, name)
#define TEST(name) GLUE(, TYPE, _##name)
#define CALLS "tests/twins_calls.h"
#include "../each_type.h"

/* What the exports for the type that the first byte names answer, and last the most boundaries that a set in chunks had. Returns how
 * many bytes that are. */
size_t ANSWERS(const uint8_t *bytes, size_t size, uint8_t *out, size_t room);

size_t ANSWERS(const uint8_t *bytes, size_t size, uint8_t *out, size_t room)
{
    struct input input = {bytes, size};
    struct log log = {out, room, 0, 0};
    switch (next(&input) % 4) {
    case 0: i32_answers(&log, &input); break;
    case 1: u32_answers(&log, &input); break;
    case 2: i64_answers(&log, &input); break;
    default: u64_answers(&log, &input); break;
    }
    note(&log, log.most);
    return log.len;
}
