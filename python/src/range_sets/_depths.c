/* How many of some ranges have each number. It is tested, not proved. */
#include "_lists.h"

/* Sorts numbers by one byte after the other, the lowest first, with room for as many. Returns where they lie. */
static uint64_t *sorted(uint64_t *numbers, uint64_t *room, size_t len)
{
    for (int shift = 0; len > 0 && shift < 64; shift += 8) {
        size_t places[256] = {0}, sum = 0;
        for (size_t i = 0; i < len; i++) places[numbers[i] >> shift & 255]++;
        if (places[numbers[0] >> shift & 255] == len) continue;
        for (int byte = 0; byte < 256; byte++) {
            size_t count = places[byte];
            places[byte] = sum;
            sum += count;
        }
        for (size_t i = 0; i < len; i++) room[places[numbers[i] >> shift & 255]++] = numbers[i];
        uint64_t *moved = room;
        room = numbers;
        numbers = moved;
    }
    return numbers;
}

/* The starts and the ends of ranges, each by its distance from the least number; and what is counted of them. */
typedef struct {
    uint64_t *starts, *ends;
    size_t starts_len, ends_len;
} Edges;

/* Reads ranges, but for those that are empty, and the starts of those without an end. */
static void read_edges(const List *ranges, const List *open, Edges *edges)
{
    const uint64_t *items = ranges->items, *starts = open->items;
    uint64_t least = least_of(ranges->is_signed);
    for (size_t i = 0; i + 1 < ranges->len; i += 2) {
        uint64_t start = items[i] - least, end = items[i + 1] - least;
        if (start >= end) continue;
        edges->starts[edges->starts_len++] = start;
        edges->ends[edges->ends_len++] = end;
    }
    for (size_t i = 0; i < open->len; i++) edges->starts[edges->starts_len++] = starts[i] - least;
}

/* Writes the ends of ranges in turn, and how many ranges have each one's numbers. The least number as an end says that there is none. */
static size_t sweep(const Edges *edges, uint64_t least, uint64_t *ends, uint64_t *depths)
{
    size_t len = 0, i = 0, j = 0;
    while (i < edges->starts_len || j < edges->ends_len) {
        bool starts = j == edges->ends_len || (i < edges->starts_len && edges->starts[i] < edges->ends[j]);
        uint64_t at = starts ? edges->starts[i] : edges->ends[j], before = i - j;
        while (i < edges->starts_len && edges->starts[i] == at) i++;
        while (j < edges->ends_len && edges->ends[j] == at) j++;
        if (i - j == before) continue;
        if (before > 0) ends[2 * len++ + 1] = at + least;
        ends[2 * len] = at + least;
        depths[len] = i - j;
    }
    if (i > j) ends[2 * len++ + 1] = least;
    return len;
}

/* The ends and the depths as `change` of a map takes them. */
static PyObject *as_of_map(const uint64_t *ends, const uint64_t *depths, size_t len)
{
    PyObject *values = PyTuple_New(len);
    for (size_t i = 0; values != NULL && i < len; i++) {
        PyObject *depth = PyLong_FromSize_t(depths[i]);
        if (depth == NULL) Py_CLEAR(values);
        else PyTuple_SET_ITEM(values, i, depth);
    }
    return values == NULL ? NULL : Py_BuildValue("y#N", ends, (Py_ssize_t)(16 * len), values);
}

/* Is given ranges by their starts and ends in turn, and the starts of those without an end. */
PyObject *core_depths(PyObject *module, PyObject *const *args, Py_ssize_t n)
{
    List ranges, open;
    PyObject *answer = NULL;
    if (!has_arguments(n, 2) || !borrow(args[0], &ranges, true, false)) return NULL;
    if (!borrow(args[1], &open, false, false)) {
        release(&ranges);
        return NULL;
    }
    /* Each end of a range, and each depth, and as much for the order. */
    size_t most = ranges.len / 2 + open.len, len;
    uint64_t *memory = PyMem_Malloc((most + 1) * 8 * sizeof *memory);
    if (memory == NULL) {
        PyErr_NoMemory();
    } else {
        uint64_t *room = memory + 2 * (most + 1), *depths = memory + 6 * (most + 1);
        Edges edges = {memory, memory + most + 1, 0, 0};
        PyThreadState *thread = let_others_run(ranges.len);
        read_edges(&ranges, &open, &edges);
        uint64_t *starts = sorted(edges.starts, room, edges.starts_len);
        edges.starts = memcpy(edges.starts, starts, 8 * edges.starts_len);
        uint64_t *ends = sorted(edges.ends, room, edges.ends_len);
        edges.ends = memcpy(edges.ends, ends, 8 * edges.ends_len);
        len = sweep(&edges, least_of(ranges.is_signed), room, depths);
        go_on(thread);
        answer = as_of_map(room, depths, len);
    }
    PyMem_Free(memory);
    release(&open);
    release(&ranges);
    return answer;
}
