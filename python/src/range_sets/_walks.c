/* What goes over the ranges of a map. It is tested, not proved. */
#include "_maps.h"

/* ---- Keys ---- */

/* Whether the values of a map are one with a value, by their numbers: as far as they were compared, each once. */
typedef struct {
    PyObject *value;
    signed char *answers;
    size_t room;
} Sought;

/* Compares the value of a number, whose code may change the map; -1 where it raises an error, or there is no memory. */
static int ask(Steps *self, Sought *sought, size_t number)
{
    if (number >= sought->room) {
        size_t room = self->values.room;
        signed char *longer = PyMem_Realloc(sought->answers, room);
        if (longer == NULL) return PyErr_NoMemory() == NULL ? -1 : 0;
        memset(longer + sought->room, UNKNOWN, room - sought->room);
        sought->answers = longer;
        sought->room = room;
    }
    int answer = are_one(self->values.places[number].value, sought->value);
    sought->answers[number] = answer;
    return settle(self) ? answer : -1;
}

/* The boundaries of the keys that have the value, or with NULL any. Beyond the range there may be more or fewer. */
static PyObject *keys_of(Steps *self, Range range, PyObject *value)
{
    size_t len = 0, room = 64;
    uint64_t *items = PyMem_Malloc(8 * room);
    Sought sought = {value};
    Stretch it;
    Walk walk;
    int is_one = 1;
    /* No value is dropped, so that none gets the number of one that was compared. */
    self->values.readers++;
    begin_walk(self, range, &walk);
    while (items != NULL && step(self, &walk, &it)) {
        if (value != NULL) is_one = it.value < sought.room ? sought.answers[it.value] : UNKNOWN;
        if (is_one == UNKNOWN) is_one = ask(self, &sought, it.value);
        if (is_one < 0) break;
        if (!is_one) continue;
        if (len > 0 && items[len - 1] == it.start) len--;
        else items[len++] = it.start;
        if (it.has_end) items[len++] = it.end;
        if (len + 2 > room) items = with_more_room(items, &room, 2);
    }
    self->values.readers--;
    PyMem_Free(sought.answers);
    drop_unused(self);
    if (!PyErr_Occurred()) return list_and_free(items, len, self->is_signed);
    PyMem_Free(items);
    return NULL;
}

/* Is given a start and an end. */
PyObject *steps_domain(Steps *self, PyObject *const *args, Py_ssize_t n)
{
    Range range;
    bool fits = has_arguments(n, 2) && read_range(args[0], args[1], self->is_signed, &range) && settle(self);
    return fits ? keys_of(self, range, NULL) : NULL;
}

PyObject *steps_find(Steps *self, PyObject *value)
{
    return settle(self) ? keys_of(self, ALL(self), value) : NULL;
}

/* ---- Many ranges ---- */

/* The ends of all ranges in turn, as `change` takes them, and their values. */
PyObject *steps_ends_and_values(Steps *self, PyObject *unused)
{
    PyObject *bytes = NULL, *values = NULL;
    size_t len, i = 0;
    /* A new tuple may run the collector, and by it a change. */
    do {
        Py_XDECREF(bytes);
        Py_XDECREF(values);
        len = self->len;
        bytes = settle(self) ? PyBytes_FromStringAndSize(NULL, 16 * len) : NULL;
        values = bytes == NULL ? NULL : PyTuple_New(len);
    } while (values != NULL && (self->len != len || self->undo_len > 0));
    Stretch it;
    Walk walk;
    begin_walk(self, ALL(self), &walk);
    for (; values != NULL && step(self, &walk, &it); i++) {
        uint64_t *ends = (uint64_t *)PyBytes_AS_STRING(bytes) + 2 * i;
        ends[0] = it.start;
        ends[1] = it.has_end ? it.end : LEAST(self);
        PyTuple_SET_ITEM(values, i, Py_NewRef(value_of(self, &it)));
    }
    PyObject *both = values == NULL ? NULL : PyTuple_Pack(2, bytes, values);
    Py_XDECREF(bytes);
    Py_XDECREF(values);
    return both;
}

/* Whether another map gives the same keys the same values, by `==`, whose code may change both. */
PyObject *steps_equals(Steps *self, PyObject *object)
{
    Steps *other = (Steps *)object;
    if (!Py_IS_TYPE(object, Py_TYPE(self))) return PyErr_Format(PyExc_TypeError, "expected another map");
    Walk mine, theirs;
    bool more = true;
    int is_same = self->is_signed == other->is_signed;
    begin_walk(self, ALL(self), &mine);
    begin_walk(other, ALL(other), &theirs);
    while (is_same > 0 && more) {
        Stretch a, b;
        if (!settle(self) || !settle(other)) return NULL;
        is_same = self->len == other->len;
        more = step(self, &mine, &a);
        is_same = is_same && step(other, &theirs, &b) == more;
        if (PyErr_Occurred()) return NULL;
        if (is_same == 0 || !more) break;
        is_same = a.start == b.start && a.has_end == b.has_end && (!a.has_end || a.end == b.end);
        if (is_same > 0) is_same = are_one(value_of(self, &a), value_of(other, &b));
    }
    return is_same < 0 ? NULL : PyBool_FromLong(is_same);
}

/* ---- Ranges in turn ---- */

/* An iterator over ranges, their values, or both, of a map that has as many as it had. It gives no more than these. */
typedef struct {
    PyObject_HEAD
    Steps *steps;
    Walk walk;
    size_t len, given;
    bool has_keys, has_values;
} Items;

/* An end of a range, which may run code of its kind. */
static PyObject *key_of(bool is_plain, PyObject *kind, PyObject *number)
{
    if (number == NULL || is_plain) return number;
    return PyObject_CallMethod(kind, "value", "N", number);
}

/* A tuple of two, which it takes over, or NULL where one of them is. The collector needn't go over one that holds no other objects. */
static PyObject *pair_of(PyObject *first, PyObject *second, bool is_watched)
{
    PyObject *pair = first == NULL || second == NULL ? NULL : PyTuple_New(2);
    if (pair == NULL) {
        Py_XDECREF(first);
        Py_XDECREF(second);
        return NULL;
    }
    PyTuple_SET_ITEM(pair, 0, first);
    PyTuple_SET_ITEM(pair, 1, second);
    if (!is_watched) PyObject_GC_UnTrack(pair);
    return pair;
}

static PyObject *items_next(Items *self)
{
    Steps *steps = self->steps;
    Stretch it;
    if (self->walk.is_done || !settle(steps)) return NULL;
    bool is_same = steps->len == self->len;
    if (is_same && !step(steps, &self->walk, &it)) return NULL;
    if (!is_same || self->given++ == self->len) {
        self->len = SIZE_MAX;
        return PyErr_Format(PyExc_RuntimeError, "the map got more or fewer ranges while it was read: list(m.items()) has them as they are");
    }
    /* All is read before other code runs. */
    PyObject *value = self->has_values ? Py_NewRef(value_of(steps, &it)) : NULL;
    if (!self->has_keys) return value;
    bool is_plain = steps->is_plain;
    PyObject *kind = Py_NewRef(steps->kind);
    PyObject *start = key_of(is_plain, kind, as_python(it.start, steps->is_signed)), *end = NULL;
    if (start != NULL) end = it.has_end ? key_of(is_plain, kind, as_python(it.end, steps->is_signed)) : Py_NewRef(Py_None);
    Py_DECREF(kind);
    PyObject *keys = pair_of(start, end, !is_plain);
    return value == NULL ? keys : pair_of(keys, value, !is_plain || PyObject_IS_GC(value));
}

static int items_traverse(Items *self, visitproc visit, void *arg)
{
    Py_VISIT(self->steps);
    return 0;
}

static void items_dealloc(Items *self)
{
    PyObject_GC_UnTrack(self);
    Py_XDECREF(self->steps);
    Py_TYPE(self)->tp_free(self);
}

static PyTypeObject items_type = {
    PyVarObject_HEAD_INIT(NULL, 0)
    .tp_name = "range_sets._core.Items",
    .tp_basicsize = sizeof(Items),
    .tp_flags = Py_TPFLAGS_DEFAULT | Py_TPFLAGS_HAVE_GC,
    .tp_dealloc = (destructor)items_dealloc,
    .tp_traverse = (traverseproc)items_traverse,
    .tp_iter = PyObject_SelfIter,
    .tp_iternext = (iternextfunc)items_next,
};

/* Is given the start and the end of the keys, of which each range that it gives has one. */
static PyObject *iterated(Steps *self, PyObject *const *args, Py_ssize_t n, bool has_keys, bool has_values)
{
    Range range;
    if (!has_arguments(n, 2) || !read_range(args[0], args[1], self->is_signed, &range) || !settle(self)) return NULL;
    Items *made = PyObject_GC_New(Items, &items_type);
    if (made == NULL) return NULL;
    made->steps = (Steps *)Py_NewRef(self);
    begin_walk(self, range, &made->walk);
    made->walk.is_done = is_reversed(range, self->is_signed);
    made->len = self->len;
    made->given = 0;
    made->has_keys = has_keys;
    made->has_values = has_values;
    PyObject_GC_Track(made);
    return (PyObject *)made;
}

#define ITERATOR(name, has_keys, has_values) \
    PyObject *steps_##name(Steps *self, PyObject *const *args, Py_ssize_t n) { return iterated(self, args, n, has_keys, has_values); }

ITERATOR(keys, true, false)
ITERATOR(values, false, true)
ITERATOR(items, true, true)

int add_items(void)
{
    return PyType_Ready(&items_type);
}
