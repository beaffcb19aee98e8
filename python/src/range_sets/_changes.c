/* Changes of a map, which are all done or none, and what is put into another. It is tested, not proved.
 *
 * Each call is whole by the interpreter's lock: values whose ranges touch are compared first, which may run Python's code, and from a
 * look at the map that finds it as it was then, no code runs until all is done. */
#include "_maps.h"

/* What a stretch has of a range, from a key on. */
static Range cut(const Steps *self, const Stretch *it, Range range, uint64_t from)
{
    return ends_below(self, it, range) ? (Range){from, it->end, true} : (Range){from, range.end, range.has_end};
}

/* ---- A change ---- */

/* Counts the ranges that have a key of a range, up or down. */
static void count_in(Steps *self, Range range, size_t by)
{
    Stretch it;
    for (Walk walk = {range}; step(self, &walk, &it);) {
        self->len += by;
        count_ranges(&self->values, it.value, by);
    }
}

/* A range with the keys just below and above it. */
static Range around(const Steps *self, Range range)
{
    if (range.start != LEAST(self)) range.start--;
    range.has_end = range.has_end && range.end++ != MOST(self);
    return range;
}

#define PUT(type, handle, range, value) \
    ((range).has_end ? range_map_##type##_insert(handle, (range).start, (range).end, value) \
                     : range_map_##type##_insert_from(handle, (range).start, value))
#define TAKE(type, handle, range) \
    ((range).has_end ? range_map_##type##_remove(handle, (range).start, (range).end) \
                     : range_map_##type##_remove_from(handle, (range).start))

range_set_status put(Steps *self, Range range, size_t number)
{
    self->changes++;
    if (number == NONE) return self->is_signed ? TAKE(i64, &self->handle.i64, range) : TAKE(u64, &self->handle.u64, range);
    return self->is_signed ? PUT(i64, &self->handle.i64, range, number) : PUT(u64, &self->handle.u64, range, number);
}

/* Counts a range that has the value of a number, unless that is none or another one. */
static void count_apart(Steps *self, size_t number, size_t from)
{
    if (number == NONE || number == from) return;
    self->len++;
    count_ranges(&self->values, number, 1);
}

/* The ranges that lose keys are counted down, and up again as far as they are left; so is the new one, which takes in those of its number
 * just below and above. */
static range_set_status change(Steps *self, Change it)
{
    if (is_reversed(it.range, self->is_signed)) return RANGE_SET_DONE;
    Range near = around(self, it.range);
    size_t below = NONE, above = NONE;
    Stretch old;
    for (Walk walk = {near}; step(self, &walk, &old);) {
        self->len--;
        count_ranges(&self->values, old.value, -1);
        if (!is_reversed((Range){old.start, it.range.start, true}, self->is_signed)) below = old.value;
        if (it.range.has_end && !ends_below(self, &old, near)) above = old.value;
    }
    range_set_status status = put(self, it.range, it.number);
    if (status != RANGE_SET_DONE) {
        count_in(self, near, 1);
        return status;
    }
    count_apart(self, below, it.number);
    count_apart(self, above, it.number);
    count_apart(self, it.number, NONE);
    return status;
}

/* Whether no range is empty, and each one begins where the one before ends or above. */
static bool are_in_order(const Steps *self, const Change *changes, size_t count)
{
    for (size_t i = 0; i < count; i++) {
        if (is_reversed(changes[i].range, self->is_signed)) return false;
        if (i == 0) continue;
        Range between = {changes[i - 1].range.end, changes[i].range.start, true};
        if (!changes[i - 1].range.has_end || (between.start != between.end && is_reversed(between, self->is_signed))) return false;
    }
    return true;
}

/* Adds a change to some, of which there may be more. */
static bool add_change(Change **changes, size_t *len, size_t *room, Change it)
{
    if (*len == *room) {
        size_t more = 2 * (*len + 8);
        Change *longer = PyMem_Realloc(*changes, more * sizeof **changes);
        if (longer == NULL) return false;
        *changes = longer;
        *room = more;
    }
    (*changes)[(*len)++] = it;
    return true;
}

/* Notes what a range has, or nothing if there is no memory for it. */
static range_set_status note(Steps *self, Range range)
{
    size_t len = self->undo_len;
    Stretch it = {.end = range.start};
    do {
        uint64_t from = it.end;
        it = stretch_at(self, from);
        Change before = {cut(self, &it, range, from), it.has_value ? it.value : NONE};
        if (!add_change(&self->undo, &len, &self->undo_room, before)) return RANGE_SET_NO_MEMORY;
    } while (ends_below(self, &it, range));
    self->undo_len = len;
    return RANGE_SET_DONE;
}

void forget_undo(Steps *self)
{
    PyMem_Free(self->undo);
    self->undo = NULL;
    self->undo_len = self->undo_room = 0;
}

bool settle(Steps *self)
{
    if (self->undo_len == 0) return true;
    for (; self->undo_len > 0; self->undo_len--) {
        range_set_status status = change(self, self->undo[self->undo_len - 1]);
        if (status != RANGE_SET_DONE) return raise_status(status, 0) != NULL;
    }
    forget_undo(self);
    return true;
}

void drop_unused(Steps *self)
{
    if (self->undo_len == 0) drop_left(&self->values);
}

/* Whether changes leave nothing of what a map has, which is in a list or nothing: then they make a new list. */
static bool are_all(const Steps *self, const Change *changes, size_t count)
{
    return self->len == 0 || (self->has_list && count == 1 && changes->range.start == LEAST(self) && !changes->range.has_end);
}

/* Readies a map for changes. */
static bool make_ready(Steps *self, const Change *changes, size_t count)
{
    return settle(self) && (are_all(self, changes, count) || is_built(self));
}

/* Does all changes, which are in order, or none. A single one is whole by itself. */
static bool change_all(Steps *self, const Change *changes, size_t count)
{
    bool is_new = are_all(self, changes, count);
    range_set_status status = is_new ? list_in_order(self, changes, count) : RANGE_SET_DONE;
    if (!is_new && self->has_list) forget_list(self);
    for (size_t i = 0; status == RANGE_SET_DONE && !is_new && i < count; i++) {
        if (count > 1) status = note(self, changes[i].range);
        if (status == RANGE_SET_DONE) status = change(self, changes[i]);
    }
    if (status == RANGE_SET_DONE) forget_undo(self);
    else if (settle(self)) raise_status(status, 0);
    return status == RANGE_SET_DONE;
}

/* ---- Neighbours ---- */

/* Whether two numbers are those of values that are one; -1 where their `==` raises an error. */
static int are_of_one(const Steps *self, size_t a, size_t b)
{
    if (a == NONE || b == NONE) return 0;
    return a == b ? 1 : are_one(self->values.places[a].value, self->values.places[b].value);
}

/* Whether ranges in order may touch one of these or of the map. */
static bool may_touch(const Steps *self, const Change *pieces, size_t count)
{
    bool may = self->len > 0;
    for (size_t i = 1; !may && i < count; i++) may = pieces[i].range.start == pieces[i - 1].range.end;
    return may;
}

/* Gives ranges in order that touch one with an equal value its number: one of these before, or one of the map. Of two values of the map the
 * lower one's stays. Is given a list for as many; returns how many ranges these are, or -1 where an `==` raises an error; or breaks off
 * where one changes the map. */
static Py_ssize_t join(const Steps *self, const Change *pieces, size_t count, Change *joined)
{
    uint64_t seen = self->changes;
    size_t len = 0;
    /* Whether the last one's value stood in the map before. */
    bool is_known = false;
    for (size_t i = 0; i < count; i++) {
        const Change *it = &pieces[i];
        Change *last = len > 0 ? &joined[len - 1] : NULL;
        bool touches = last != NULL && last->range.has_end && last->range.end == it->range.start;
        size_t number = touches ? last->number : NONE, above;
        bool is_value = it->number != NONE && self->len > 0;
        if (!touches && is_value && it->range.start != LEAST(self)) number = number_at(self, it->range.start - 1);
        int is_one = are_of_one(self, number, it->number);
        if (is_one < 0 || self->changes != seen) return is_one;
        if (touches && is_one) {
            last->range = (Range){last->range.start, it->range.end, it->range.has_end};
        } else {
            last = &joined[len++];
            *last = (Change){it->range, is_one ? number : it->number};
            is_known = is_one;
        }
        bool has_next = i + 1 < count;
        Range up_to = {last->range.end, has_next ? pieces[i + 1].range.start : 0, has_next};
        if (!is_value || !last->range.has_end || (has_next && up_to.start == up_to.end)) continue;
        above = number_at(self, up_to.start);
        is_one = are_of_one(self, last->number, above);
        if (is_one < 0 || self->changes != seen) return is_one;
        if (is_one && is_known && last->number != above) {
            Stretch all = stretch_at(self, up_to.start);
            last->range = cut(self, &all, up_to, last->range.start);
        }
        if (is_one && !is_known) last->number = above;
        is_known |= is_one;
    }
    return len;
}

/* Lays changes over each other, of which none takes a value away, in a map of their own; and returns what is left of each, in order. */
static Change *laid_over(Steps *laid, const Change *changes, size_t *count)
{
    range_set_status status = make_handle(laid);
    for (size_t i = 0; status == RANGE_SET_DONE && i < *count; i++) status = put(laid, changes[i].range, changes[i].number);
    /* Each puts two ends in at most. */
    Change *pieces = status == RANGE_SET_DONE ? PyMem_Malloc(2 * *count * sizeof *pieces) : NULL;
    Stretch it;
    *count = 0;
    for (Walk walk = {ALL(laid)}; pieces != NULL && step(laid, &walk, &it);)
        pieces[(*count)++] = (Change){{it.start, it.end, it.has_end}, it.value};
    return pieces;
}

/* Reads ranges: a list of the library's own, or their ends in turn as numbers in bytes. */
static bool read_ranges(const Steps *self, PyObject *object, List *list)
{
    *list = (List){.is_signed = self->is_signed};
    if (!PyBytes_CheckExact(object) && !borrow_own(object, list)) return false;
    if (list->is_signed != self->is_signed) return refuse(PyExc_TypeError, "signed and unsigned numbers don't mix");
    if (!PyBytes_CheckExact(object)) return true;
    list->items = PyBytes_AS_STRING(object);
    list->len = PyBytes_GET_SIZE(object) / 8;
    return PyBytes_GET_SIZE(object) % 16 == 0 || refuse(PyExc_ValueError, "expected a start and an end each");
}

static size_t count_of(const List *ranges)
{
    return (ranges->len + 1) / 2;
}

/* The least number as an end says that there is none. */
static Range range_of(const Steps *self, const List *ranges, size_t place)
{
    Range range = range_in(ranges, place);
    range.has_end = range.has_end && range.end != LEAST(self);
    return range;
}

/* Reads what each range gets, from a tuple of values or None, and keeps the values, as far as there is memory. */
static size_t read_changes(Steps *self, const List *ranges, PyObject *values, Change *changes)
{
    for (size_t i = 0; i < count_of(ranges); i++) {
        changes[i] = (Change){range_of(self, ranges, i), NONE};
        if (values == Py_None) continue;
        if (!find_or_add(&self->values, PyTuple_GET_ITEM(values, i), &changes[i].number)) return i;
        self->values.places[changes[i].number].calls++;
    }
    return count_of(ranges);
}

PyObject *take_kind(Steps *self, PyObject *kind)
{
    PyObject *before = self->kind;
    self->is_plain = kind == before ? self->is_plain : is_plain(kind);
    self->kind = Py_NewRef(kind);
    return before;
}

/* Takes all that a map has which nothing else reads, and leaves it nothing. */
static bool take_over(Steps *self, Steps *laid)
{
    Handle before = self->handle;
    self->handle = laid->handle;
    laid->handle = before;
    forget_list(self);
    self->changes++;
    count_in(self, ALL(self), 1);
    return true;
}

/* Changes a map of a kind, or returns False if it has another by now. Where an `==` changes the map, neighbours are compared anew. */
static PyObject *change_joined(Steps *self, Change *pieces, size_t count, PyObject *kind, Steps *laid)
{
    if (!settle(self)) return NULL;
    bool may_join = may_touch(self, pieces, count);
    Change *joined = may_join ? PyMem_Malloc(count * sizeof *joined) : pieces;
    uint64_t seen;
    Py_ssize_t len;
    if (joined == NULL) return PyErr_NoMemory();
    do {
        len = make_ready(self, pieces, count) ? (Py_ssize_t)count : -1;
        seen = self->changes;
        if (len >= 0 && may_join && self->kind == kind) len = join(self, pieces, count, joined);
    } while (len >= 0 && self->changes != seen);
    bool is_kind = self->kind == kind, is_alone = laid->handle.u64.at != NULL && self->len == 0 && (size_t)len == count;
    bool is_done = len >= 0 && is_kind && (is_alone ? take_over(self, laid) : change_all(self, joined, len));
    if (may_join) PyMem_Free(joined);
    return is_done ? Py_True : len >= 0 && !is_kind ? Py_False : NULL;
}

/* Is given ranges, their values in a tuple, or None to take theirs away, the kind that the map was seen to have and the one that it
 * takes. All is done or nothing; False if the map has another kind by now. Without kinds a map that has nothing takes what
 * `ends_and_values` returned of another, as it is. */
PyObject *steps_change(Steps *self, PyObject *const *args, Py_ssize_t n)
{
    List ranges;
    PyObject *answer = NULL, *before = NULL;
    bool is_copy = n == 2;
    if (!(is_copy || has_arguments(n, 4)) || !read_ranges(self, args[0], &ranges)) return NULL;
    size_t count = count_of(&ranges), len = count;
    bool has_values = PyTuple_CheckExact(args[1]);
    if (!(args[1] == Py_None && !is_copy) && !(has_values && (size_t)PyTuple_GET_SIZE(args[1]) == count))
        return PyErr_Format(has_values ? PyExc_ValueError : PyExc_TypeError, "expected a tuple with a value for each range");
    Change *changes = PyMem_Malloc(count * sizeof *changes), *pieces = changes;
    Steps laid = {.is_signed = self->is_signed};
    if (changes == NULL) return PyErr_NoMemory();
    size_t read = read_changes(self, &ranges, args[1], changes);
    bool in_order = read < count || !has_values || are_in_order(self, changes, count);
    if (!in_order && !is_copy && (pieces = laid_over(&laid, changes, &len)) == NULL) PyErr_NoMemory();
    else if (is_copy && (!in_order || self->len > 0)) refuse(PyExc_ValueError, "expected the ranges of a map in order, each above the one before");
    else if (read == count && is_copy) answer = settle(self) && change_all(self, pieces, len) ? Py_True : NULL;
    else if (read == count) answer = change_joined(self, pieces, len, args[2], &laid);
    if (answer == Py_True && count > 0 && !is_copy) before = take_kind(self, args[3]);
    while (read-- > 0) {
        if (changes[read].number != NONE) let_go(&self->values, changes[read].number);
    }
    if (pieces != changes) PyMem_Free(pieces);
    free_handle(&laid);
    PyMem_Free(changes);
    Py_XDECREF(before);
    drop_unused(self);
    return Py_XNewRef(answer);
}

/* ---- Parts ---- */

/* Changes by which a map has what another has of some keys. */
typedef struct {
    Change *changes;
    size_t len, room;
} Pieces;

/* Adds what the keys of a range have, whose values are put into the other map. */
static bool add_part(Steps *self, Range range, Steps *made, Pieces *pieces)
{
    Stretch it;
    for (Walk walk = {range, true}; step(self, &walk, &it);) {
        size_t number;
        if (!find_or_add(&made->values, value_of(self, &it), &number)) return false;
        Change piece = {cut(self, &it, range, it.start), number};
        if (!add_change(&pieces->changes, &pieces->len, &pieces->room, piece)) return PyErr_NoMemory() != NULL;
    }
    return PyErr_Occurred() == NULL;
}

/* Another map with the values of some keys. Is given a list of the library's own, whose ranges are sorted and don't touch. */
PyObject *steps_part(Steps *self, PyObject *object)
{
    List ranges;
    Pieces pieces = {NULL, 0, 0};
    if (PyBytes_CheckExact(object)) return PyErr_Format(PyExc_TypeError, "expected a list of the library's own");
    Steps *made = read_ranges(self, object, &ranges) ? new_steps(Py_TYPE(self), self->is_signed) : NULL;
    bool fits = made != NULL && settle(self);
    if (fits) take_kind(made, self->kind);
    for (size_t i = 0; fits && i < count_of(&ranges); i++) fits = add_part(self, range_of(self, &ranges, i), made, &pieces);
    fits = fits && change_all(made, pieces.changes, pieces.len);
    PyMem_Free(pieces.changes);
    if (!fits) Py_CLEAR(made);
    return (PyObject *)made;
}

/* ---- Pairs ---- */

/* Reads a pair of a range and a value, where the range is a pair of whole numbers or None, which run no code. */
static bool read_plain(PyObject *pair, bool is_signed, Range *range)
{
    PyObject *keys = PyTuple_CheckExact(pair) && PyTuple_GET_SIZE(pair) == 2 ? PyTuple_GET_ITEM(pair, 0) : NULL;
    if (keys == NULL || !PyTuple_CheckExact(keys) || PyTuple_GET_SIZE(keys) != 2) return false;
    PyObject *start = PyTuple_GET_ITEM(keys, 0), *end = PyTuple_GET_ITEM(keys, 1);
    return (start == Py_None || PyLong_CheckExact(start)) && (end == Py_None || PyLong_CheckExact(end))
           && read_range(start, end, is_signed, range);
}

/* The ends of ranges in turn and the values of a list of such pairs, without those of no number; or None for anything else. */
PyObject *core_ends_and_values(PyObject *module, PyObject *const *args, Py_ssize_t n)
{
    if (!has_arguments(n, 2)) return NULL;
    PyObject *pairs = PySequence_Tuple(args[0]);
    Py_ssize_t len = pairs == NULL ? 0 : PyTuple_GET_SIZE(pairs), count = 0;
    PyObject *bytes = pairs == NULL ? NULL : PyBytes_FromStringAndSize(NULL, 16 * len);
    PyObject *values = bytes == NULL ? NULL : PyTuple_New(len), *answer = NULL;
    bool fits = values != NULL, is_signed = args[1] == Py_False;
    for (Py_ssize_t i = 0; fits && i < len; i++) {
        Range range;
        uint64_t *ends = (uint64_t *)PyBytes_AS_STRING(bytes) + 2 * count;
        fits = read_plain(PyTuple_GET_ITEM(pairs, i), is_signed, &range);
        if (!fits || is_reversed(range, is_signed)) continue;
        ends[0] = range.start;
        ends[1] = range.has_end ? range.end : least_of(is_signed);
        PyTuple_SET_ITEM(values, count++, Py_NewRef(PyTuple_GET_ITEM(PyTuple_GET_ITEM(pairs, i), 1)));
    }
    if (fits && _PyBytes_Resize(&bytes, 16 * count) == 0 && _PyTuple_Resize(&values, count) == 0) {
        answer = PyTuple_Pack(2, bytes, values);
    } else if (values != NULL && !fits) {
        /* They are read anew, and an error says more. */
        PyErr_Clear();
        answer = Py_NewRef(Py_None);
    }
    Py_XDECREF(pairs);
    Py_XDECREF(bytes);
    Py_XDECREF(values);
    return answer;
}
