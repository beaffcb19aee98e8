/* The ranges of a set with each start and end moved, and those that are long enough. It is tested, not proved. */
#include "_lists.h"

/* How far a number moves: by more than 64 bits hold, it leaves all numbers. */
typedef struct {
    uint64_t size;
    bool is_down, is_beyond;
} Move;

/* Where a number is, once it has moved: by its distance from the least one of a kind, or beyond these. */
typedef enum { BELOW, WITHIN, ABOVE } Place;

static bool read_move(PyObject *object, Move *move)
{
    int beyond;
    long long by = PyLong_AsLongLongAndOverflow(object, &beyond);
    if (by == -1 && PyErr_Occurred()) return false;
    move->is_down = (beyond == 0 ? by : beyond) < 0;
    move->size = move->is_down ? -(uint64_t)by : (uint64_t)by;
    move->is_beyond = false;
    if (beyond == 0) return true;
    PyObject *size = PyNumber_Absolute(object);
    if (size == NULL) return false;
    move->size = PyLong_AsUnsignedLongLong(size);
    Py_DECREF(size);
    move->is_beyond = PyErr_Occurred() != NULL;
    PyErr_Clear();
    return true;
}

static Place place_after(uint64_t *distance, Move move, uint64_t most)
{
    if (move.is_down && (move.is_beyond || move.size > *distance)) return BELOW;
    if (!move.is_down && (move.is_beyond || move.size > most - *distance)) return ABOVE;
    *distance = move.is_down ? *distance - move.size : *distance + move.size;
    return WITHIN;
}

/* What a call is given: a set, the least number of its kind and the greatest that an end may be, how far starts and ends move, whether a
 * start at the least number stays, and whether a range without an end has it at that greatest one. */
typedef struct {
    List list;
    uint64_t least, most;
    Move starts, ends;
    bool least_stays, ends_at_most;
} Moves;

/* Writes the ranges that have numbers of the kind by their starts and ends, and the start of the first one without an end. */
static size_t move(const Moves *given, uint64_t *out, bool *has_open, uint64_t *open)
{
    uint64_t top = given->most - given->least;
    size_t len = 0;
    *has_open = false;
    for (size_t i = 0; !*has_open && 2 * i < given->list.len; i++) {
        Range range = range_in(&given->list, i);
        uint64_t start = range.start - given->least, end = range.has_end ? range.end - given->least : top;
        bool stays = given->least_stays && start == 0, has_end = range.has_end || given->ends_at_most;
        Place first = stays ? WITHIN : place_after(&start, given->starts, top);
        Place last = has_end ? place_after(&end, given->ends, top) : ABOVE;
        if (first == BELOW) start = 0;
        if (first == ABOVE || last == BELOW || (given->ends_at_most && start == top)) continue;
        *has_open = last == ABOVE;
        *open = start + given->least;
        if (*has_open || start >= end) continue;
        out[len++] = start + given->least;
        out[len++] = end + given->least;
    }
    return len;
}

static bool read_moves(Moves *given, PyObject *const *args, Py_ssize_t n)
{
    if (!has_arguments(n, 7) || !borrow_own(args[0], &given->list)) return false;
    bool is_signed = given->list.is_signed;
    given->least_stays = args[5] == Py_True;
    given->ends_at_most = args[6] == Py_True;
    return read_number(args[1], is_signed, &given->least) && read_number(args[2], is_signed, &given->most)
           && read_move(args[3], &given->starts) && read_move(args[4], &given->ends);
}

/* The starts and ends of the ranges in turn, as numbers in bytes, and the start of the first one without an end, or None. */
PyObject *core_moved(PyObject *module, PyObject *const *args, Py_ssize_t n)
{
    Moves given;
    if (!read_moves(&given, args, n)) return NULL;
    PyObject *bytes = PyBytes_FromStringAndSize(NULL, 8 * (given.list.len + 1));
    if (bytes == NULL) return NULL;
    bool has_open;
    uint64_t open;
    PyThreadState *thread = let_others_run(given.list.len);
    size_t len = move(&given, (uint64_t *)PyBytes_AS_STRING(bytes), &has_open, &open);
    go_on(thread);
    if (_PyBytes_Resize(&bytes, 8 * len) < 0) return NULL;
    return Py_BuildValue("NN", bytes, has_open ? as_python(open, given.list.is_signed) : Py_NewRef(Py_None));
}

/* The ranges that have at least a count of numbers, or no end. */
PyObject *core_at_least(PyObject *module, PyObject *const *args, Py_ssize_t n)
{
    List list;
    uint64_t count;
    if (!has_arguments(n, 2) || !borrow_own(args[0], &list) || !read_number(args[1], false, &count)) return NULL;
    PyObject *bytes = PyBytes_FromStringAndSize(NULL, 8 * list.len);
    if (bytes == NULL) return NULL;
    uint64_t *out = (uint64_t *)PyBytes_AS_STRING(bytes);
    size_t len = 0;
    PyThreadState *thread = let_others_run(list.len);
    for (size_t i = 0; 2 * i < list.len; i++) {
        Range range = range_in(&list, i);
        if (range.has_end && range.end - range.start < count) continue;
        out[len++] = range.start;
        if (range.has_end) out[len++] = range.end;
    }
    go_on(thread);
    return list_over(bytes, len, list.is_signed);
}
