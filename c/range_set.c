/* The layer before the exports of range_c: what only C can say of pointers, and the statuses. It makes a set of a
 * list that is strictly sorted, refuses a null pointer with a length, a length that no array has, and a buffer or result
 * that overlaps another argument, puts a valid address for a null pointer, and calls the export. Owned sets are made
 * of these calls. It is tested and not proved.
 *
 * The exports are those of the proved object; or, where RANGE_SET_PLAIN is defined, those of the Rust crate, which
 * tools/plain-rust writes from the same source. */

/* What is inline for other files is a symbol here. */
#define RANGE_SET_INLINE extern inline
#include "range_set.h"

#include <stdlib.h>
#include <string.h>

#ifdef RANGE_SET_PLAIN
#define EXPORTED(name) GLUE(plain_, name, )
#else
#define EXPORTED(name) GLUE(proved_, name, )
#endif

/* APART: the function isn't inlined, so that a function which ends by calling it needs no frame. WITHIN: it is, since some arguments are
 * constant. */
#ifdef __GNUC__
#define APART __attribute__((noinline))
#define WITHIN inline __attribute__((always_inline))
#else
#define APART
#define WITHIN inline
#endif

const char *range_set_version(void)
{
    return RANGE_SET_VERSION;
}

const char *range_set_status_text(range_set_status status)
{
    switch (status) {
    case RANGE_SET_DONE: return "the call was done";
    case RANGE_SET_NOT_SORTED: return "the list isn't strictly sorted";
    case RANGE_SET_NO_ROOM: return "the buffer is too short";
    case RANGE_SET_BAD_ARGUMENT: return "a pointer is null, a length is that of no array, or a buffer overlaps another argument";
    case RANGE_SET_NO_MEMORY: return "an allocation failed";
    case RANGE_SET_MALFORMED: return "the text isn't one of ranges";
    case RANGE_SET_OUT_OF_RANGE: return "a number of the text doesn't fit the type";
    case RANGE_SET_MORE: return "the buffer is full, and more ranges follow";
    }
    return "this is no status";
}

/* Whether `size` bytes at p and `other_size` bytes at q have one in common: whether one begins within the other. No bytes have none. */
static inline bool overlap(const void *p, size_t size, const void *q, size_t other_size)
{
    uintptr_t from = (uintptr_t)p, other = (uintptr_t)q;
    return (from - other < other_size || other - from < size) && size != 0 && other_size != 0;
}

/* Whether an array of `len` items can stand there. */
static inline bool is_array(const void *items, size_t len, size_t item_size)
{
    return len <= PTRDIFF_MAX / item_size && (items != NULL || len == 0);
}

/* malloc, realloc and free, as an allocator. */
static void *allocate(void *context, size_t size)
{
    (void)context;
    return malloc(size);
}

static void *resize(void *context, void *memory, size_t old_size, size_t size)
{
    (void)context, (void)old_size;
    return realloc(memory, size);
}

static void release(void *context, void *memory, size_t size)
{
    (void)context, (void)size;
    free(memory);
}

/* The allocator of sets in chunks and maps. Without functions it stands for malloc. */
static range_set_allocator heap;

/* Memory of an allocator begins with its own size. These bytes keep every alignment that an export asks for. */
enum { HEAD = 16 };

void range_set_use_allocator(const range_set_allocator *allocator)
{
    static const range_set_allocator by_malloc = {NULL, NULL, NULL, NULL};
    heap = allocator != NULL ? *allocator : by_malloc;
}

static void *behind_head(void *memory, size_t size)
{
    if (memory == NULL) return NULL;
    memcpy(memory, &size, sizeof size);
    return (char *)memory + HEAD;
}

static void *with_head(void *memory, size_t *size)
{
    memory = (char *)memory - HEAD;
    memcpy(size, memory, sizeof *size);
    return memory;
}

/* These stand for malloc, realloc and free below the exports. No size is above PTRDIFF_MAX, and no memory null. */
void *range_heap_malloc(size_t size);
void *range_heap_realloc(void *memory, size_t size);
void range_heap_free(void *memory);

void *range_heap_malloc(size_t size)
{
    if (heap.allocate == NULL) return malloc(size);
    return behind_head(heap.allocate(heap.context, size + HEAD), size + HEAD);
}

void *range_heap_realloc(void *memory, size_t size)
{
    size_t old_size;
    if (heap.allocate == NULL) return realloc(memory, size);
    memory = with_head(memory, &old_size);
    return behind_head(heap.resize(heap.context, memory, old_size, size + HEAD), size + HEAD);
}

void range_heap_free(void *memory)
{
    size_t size;
    if (heap.allocate == NULL) {
        free(memory);
        return;
    }
    memory = with_head(memory, &size);
    heap.release(heap.context, memory, size);
}

/* What check_text returns. Bytes that aren't UTF-8, of which it tells the first wherever it lies, are refused as a malformed text. */
enum { TEXT_OF_RANGES = 0, TEXT_MALFORMED = 1, TEXT_OUT_OF_RANGE = 2, TEXT_NOT_UTF8 = 3 };

/* The boundaries of a range with an end. */
enum { PER_RANGE = 2 };

/* A piece of a text between two separators, from index `from` to below `to`. It is read as the `len` bytes at `text`, for which check_text
 * returned `status` and wrote `told`. A number alone is read as the range from it on, which is in `from_on`, and `told` is PER_RANGE. */
typedef struct piece {
    size_t from, to, len, told;
    const char *text;
    uint32_t status;
    bool is_alone;
    char from_on[32];
} piece;

/* How many bytes before a range are blanks. */
static size_t blanks_before(const char *text, size_t len)
{
    size_t at = 0;
    while (at < len && ((unsigned char)text[at] <= ' ' || (unsigned char)text[at] > '~')) at++;
    return at;
}

static bool is_digit(char it)
{
    return it >= '0' && it <= '9';
}

/* Has a piece that is a number alone read as the range from that number on. The number ends where the piece stops being a text of ranges.
 * A number of more than DIGITS digits after the zeros fits no type, so the other digits are left out. */
static void take_alone(piece *it)
{
    enum { DIGITS = 24 };
    const char *number = it->text + blanks_before(it->text, it->told), *end = it->text + it->told;
    it->len = 0;
    if (!is_digit(*number)) it->from_on[it->len++] = *number++;
    while (end - number > 1 && *number == '0') number++;
    for (; number < end && it->len < DIGITS; number++) it->from_on[it->len++] = *number;
    memcpy(it->from_on + it->len, "..", 2);
    it->len += 2;
    it->text = it->from_on;
}

/* Writes where a text is refused, and returns the status. */
static range_set_status refused_at(range_set_status status, size_t at, size_t *fault)
{
    if (fault != NULL) *fault = at;
    return status;
}

/* A call of the header, and the export that it stands before. */
#define NAME(call) CALL(call)
#define EXPORT(call) EXPORTED(CALL(call))
#define CALLS "range_set_calls.h"
#include "each_type.h"
#undef NAME
#undef EXPORT

/* Maps with keys of 32 bits are kept as maps with keys of 64. */
#define KEY GLUE(NUMBER_, WIDE, )
#define GREATEST GLUE(MOST_, WIDE, )
#define HELD GLUE(range_map_, WIDE, )
#define NAME(call) MAP_CALL(call)
#define EXPORT(call) EXPORTED(GLUE(range_map_, WIDE, _##call))
#define CALLS "range_map_calls.h"
#include "each_type.h"
