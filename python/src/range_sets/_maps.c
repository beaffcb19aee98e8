/* A map from ranges to values, by the proved calls for C: its type, its stretches, and what a key has. It is tested, not proved. */
#include "_maps.h"

/* ---- Stretches ---- */

Stretch stretch_at(const Steps *self, uint64_t key)
{
    if (!self->is_signed) return range_map_u64_range_at(self->handle.u64, key);
    range_map_i64_stretch it = range_map_i64_range_at(self->handle.i64, (int64_t)key);
    return (Stretch){(uint64_t)it.start, (uint64_t)it.end, it.value, it.has_start, it.has_end, it.has_value};
}

bool ends_below(const Steps *self, const Stretch *it, Range range)
{
    return it->has_end && (!range.has_end || !is_reversed((Range){it->end, range.end, true}, self->is_signed));
}

/* One by one at first, since most walks are short. */
static void read_some(Steps *self, Walk *walk)
{
    uint64_t from = walk->left.start;
    size_t room = walk->read < FEW ? 1 : SOME;
    walk->at = walk->len = 0;
    if (!is_built(self)) return;
    if (room == 1) walk->len = self->is_signed ? range_map_i64_next(self->handle.i64, (int64_t)from, walk->some.i64)
                                               : range_map_u64_next(self->handle.u64, from, walk->some.u64);
    else walk->len = self->is_signed ? range_map_i64_next_ranges(self->handle.i64, (int64_t)from, walk->some.i64, room)
                                     : range_map_u64_next_ranges(self->handle.u64, from, walk->some.u64, room);
    walk->read++;
    walk->changes = self->changes;
}

bool step_on(Steps *self, Walk *walk, Stretch *it)
{
    /* A list that the map gets later isn't that of the walk's place. */
    walk->is_listed = false;
    if (!walk->is_done && (walk->at == walk->len || walk->changes != self->changes)) read_some(self, walk);
    walk->is_done = walk->is_done || walk->at == walk->len;
    if (walk->is_done) return false;
    *it = walk->some.u64[walk->at++];
    bool is_behind = walk->left.has_end && is_reversed((Range){it->start, walk->left.end, true}, self->is_signed);
    if (walk->is_cut && is_reversed((Range){walk->left.start, it->start, true}, self->is_signed)) it->start = walk->left.start;
    walk->is_done = is_behind || !ends_below(self, it, walk->left);
    walk->is_cut = true;
    walk->left.start = it->end;
    return !is_behind;
}

/* ---- Questions ---- */

PyObject *value_of(const Steps *self, const Stretch *it)
{
    return self->values.places[it->value].value;
}

/* Its start, its end or None, and its value or what stands for none: owned ones, since a new tuple may run the collector. */
static PyObject *in_python(const Steps *self, const Stretch *it, PyObject *nothing)
{
    PyObject *end = it->has_end ? as_python(it->end, self->is_signed) : Py_NewRef(Py_None);
    PyObject *start = as_python(it->has_start ? it->start : LEAST(self), self->is_signed);
    return Py_BuildValue("(NNN)", start, end, Py_NewRef(it->has_value ? value_of(self, it) : nothing));
}

static bool read_key(Steps *self, PyObject *const *args, Py_ssize_t n, Py_ssize_t wanted, uint64_t *key)
{
    return has_arguments(n, wanted) && read_number(args[0], self->is_signed, key) && settle(self) && is_built(self);
}

size_t number_at(const Steps *self, uint64_t key)
{
    uint64_t number = NONE;
    if (self->is_signed) range_map_i64_get(self->handle.i64, (int64_t)key, &number);
    else range_map_u64_get(self->handle.u64, key, &number);
    return number;
}

/* The value of a number, or what is given for none. */
static PyObject *value_or(const Steps *self, size_t number, PyObject *nothing)
{
    return Py_NewRef(number == NONE ? nothing : self->values.places[number].value);
}

/* The value of a key, or what is given for none. */
static PyObject *steps_get(Steps *self, PyObject *const *args, Py_ssize_t n)
{
    uint64_t key;
    return read_key(self, args, n, 2, &key) ? value_or(self, number_at(self, key), args[1]) : NULL;
}

/* The longest range around a key whose keys have its value, or none. */
static PyObject *steps_range_at(Steps *self, PyObject *const *args, Py_ssize_t n)
{
    uint64_t key;
    if (!read_key(self, args, n, 2, &key)) return NULL;
    Stretch it = stretch_at(self, key);
    return in_python(self, &it, args[1]);
}

/* The start of the first range and the end of the last, or None if there is none. An end None is no end. */
static PyObject *steps_span(Steps *self, PyObject *unused)
{
    Stretch first, last;
    if (!settle(self)) return NULL;
    Walk walk;
    begin_walk(self, ALL(self), &walk);
    if (!step(self, &walk, &first)) Py_RETURN_NONE;
    if (self->has_list) read_listed(self, self->len - 1, &last);
    else last = stretch_at(self, MOST(self));
    /* Above all ranges is a stretch without a value. */
    uint64_t end = last.has_value ? last.end : last.start;
    bool has_end = last.has_end || !last.has_value;
    return Py_BuildValue("(NN)", as_python(first.start, self->is_signed), has_end ? as_python(end, self->is_signed) : Py_NewRef(Py_None));
}

/* Writes the value of each key of an array, or what is given for those that have none or are said to be gone, into an array of objects.
 * Is given the numbers of the keys, bytes that say whether each is gone, what stands for no value, and the array. */
static PyObject *steps_get_each(Steps *self, PyObject *const *args, Py_ssize_t n)
{
    List keys;
    Py_buffer out;
    if (!has_arguments(n, 4) || !borrow(args[0], &keys, false, false)) return NULL;
    bool fits = PyBytes_CheckExact(args[1]) && PyObject_GetBuffer(args[3], &out, PyBUF_CONTIG | PyBUF_FORMAT) == 0;
    if (fits) {
        PyObject **found = out.buf;
        const char *gone = PyBytes_AS_STRING(args[1]);
        fits = (size_t)PyBytes_GET_SIZE(args[1]) == keys.len && keys.is_signed == self->is_signed && strcmp(out.format, "O") == 0
               && (size_t)out.len == keys.len * sizeof *found && settle(self) && is_built(self);
        for (size_t i = 0; fits && i < keys.len; i++) {
            PyObject *before = found[i];
            found[i] = value_or(self, gone[i] ? NONE : number_at(self, ((const uint64_t *)keys.items)[i]), args[2]);
            Py_XDECREF(before);
        }
        PyBuffer_Release(&out);
    }
    release(&keys);
    if (!fits && !PyErr_Occurred()) refuse(PyExc_TypeError, "expected numbers, whether each is gone, and an array of objects");
    return fits ? Py_NewRef(Py_None) : NULL;
}

static Py_ssize_t steps_len(Steps *self)
{
    return settle(self) ? (Py_ssize_t)self->len : -1;
}

static PyObject *steps_kind(Steps *self, void *unused)
{
    return Py_NewRef(self->kind);
}

/* A list has both ends and a value of each range; the library keeps a number and a value for each end, and one for both of ranges that
 * touch. */
static PyObject *steps_sizeof(Steps *self, PyObject *unused)
{
    const Values *values = &self->values;
    size_t of_each = (self->has_list ? 24 : 0) + (self->handle.u64.at == NULL ? 0 : 2 * 24);
    return PyLong_FromSize_t(sizeof *self + values->room * sizeof *values->places + values->numbers.room * sizeof *values->numbers.slots
                             + self->len * of_each);
}

/* ---- New maps ---- */

range_set_status make_handle(Steps *self)
{
    return self->is_signed ? range_map_i64_new(&self->handle.i64) : range_map_u64_new(&self->handle.u64);
}

void free_handle(Steps *self)
{
    if (self->is_signed) range_map_i64_free(&self->handle.i64);
    else range_map_u64_free(&self->handle.u64);
}

Steps *new_steps(PyTypeObject *type, bool is_signed)
{
    Steps *self = (Steps *)type->tp_alloc(type, 0);
    if (self == NULL) return NULL;
    self->is_signed = is_signed;
    self->has_list = true;
    clear_values(&self->values);
    return self;
}

/* Another map with the same values. */
static PyObject *steps_copy(Steps *self, PyObject *unused)
{
    /* This may run the collector, and by it a change. */
    Steps *made = new_steps(Py_TYPE(self), self->is_signed);
    if (made == NULL || !settle(self) || !copy_values(&self->values, &made->values)) {
        Py_XDECREF(made);
        return NULL;
    }
    made->kind = Py_NewRef(self->kind);
    made->is_plain = self->is_plain;
    range_set_status status = RANGE_SET_DONE;
    bool fits = !self->has_list || copy_list(self, made);
    made->has_list = self->has_list;
    if (self->handle.u64.at != NULL) status = self->is_signed ? range_map_i64_copy(self->handle.i64, &made->handle.i64)
                                                              : range_map_u64_copy(self->handle.u64, &made->handle.u64);
    if (fits && status == RANGE_SET_DONE) {
        made->len = self->len;
        return (PyObject *)made;
    }
    Py_DECREF(made);
    return fits ? raise_status(status, 0) : NULL;
}

/* ---- The type ---- */

/* Is given the kind of the keys, and whether their numbers have no sign. */
static PyObject *steps_new(PyTypeObject *type, PyObject *args, PyObject *names)
{
    PyObject *kind;
    int is_unsigned;
    Steps *self = PyArg_ParseTuple(args, "Op", &kind, &is_unsigned) ? new_steps(type, !is_unsigned) : NULL;
    if (self != NULL) take_kind(self, kind);
    return (PyObject *)self;
}

static int steps_traverse(Steps *self, visitproc visit, void *arg)
{
    Py_VISIT(Py_TYPE(self));
    Py_VISIT(self->kind);
    return visit_values(&self->values, visit, arg);
}

/* Leaves a map that has nothing. */
static int steps_clear(Steps *self)
{
    free_handle(self);
    forget_list(self);
    self->has_list = true;
    forget_undo(self);
    self->len = 0;
    self->changes++;
    clear_values(&self->values);
    return 0;
}

static void steps_dealloc(Steps *self)
{
    PyObject_GC_UnTrack(self);
    /* Of a long chain, in which each map holds an iterator of the one before, the rest ends after this call. */
    Py_TRASHCAN_BEGIN(self, steps_dealloc)
    PyTypeObject *type = Py_TYPE(self);
    steps_clear(self);
    Py_XDECREF(self->kind);
    type->tp_free(self);
    Py_DECREF(type);
    Py_TRASHCAN_END
}

#define METHOD(name) {#name, (PyCFunction)(void (*)(void))steps_##name, METH_FASTCALL, NULL}

static PyMethodDef methods[] = {
    METHOD(change), METHOD(get), METHOD(get_each), METHOD(range_at), METHOD(domain),
    METHOD(keys), METHOD(values), METHOD(items), METHOD(combine),
    {"copy", (PyCFunction)steps_copy, METH_NOARGS, NULL},
    {"span", (PyCFunction)steps_span, METH_NOARGS, NULL},
    {"ends_and_values", (PyCFunction)steps_ends_and_values, METH_NOARGS, NULL},
    {"equals", (PyCFunction)steps_equals, METH_O, NULL},
    {"find", (PyCFunction)steps_find, METH_O, NULL},
    {"part", (PyCFunction)steps_part, METH_O, NULL},
    {"__sizeof__", (PyCFunction)steps_sizeof, METH_NOARGS, NULL},
    {NULL, NULL, 0, NULL},
};

static PyGetSetDef attributes[] = {
    {"kind", (getter)steps_kind, NULL, NULL, NULL},
    {NULL, NULL, NULL, NULL, NULL},
};

static PyType_Slot slots[] = {
    {Py_tp_new, steps_new}, {Py_tp_dealloc, steps_dealloc}, {Py_tp_traverse, steps_traverse}, {Py_tp_clear, steps_clear},
    {Py_tp_methods, methods}, {Py_tp_getset, attributes}, {Py_sq_length, steps_len}, {0, NULL},
};

static PyType_Spec spec = {.name = "range_sets._core.Steps", .basicsize = sizeof(Steps),
                           .flags = Py_TPFLAGS_DEFAULT | Py_TPFLAGS_HAVE_GC | Py_TPFLAGS_IMMUTABLETYPE, .slots = slots};

int add_maps(PyObject *module)
{
    PyObject *type = add_items() < 0 ? NULL : PyType_FromModuleAndSpec(module, &spec, NULL);
    if (type == NULL) return -1;
    int added = PyModule_AddType(module, (PyTypeObject *)type);
    Py_DECREF(type);
    return added;
}
