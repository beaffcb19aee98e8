/* A set in chunks, which changes in place, by the proved calls for C. It is tested, not proved.
 *
 * Each call is whole by the interpreter's lock: what a call is given is read first, which may run Python's code, and from
 * its look at the set's kind on it runs none and lets no other thread run. */
#include "_lists.h"

typedef struct {
    PyObject_HEAD
    /* The kind of the elements, as Python has it. */
    PyObject *kind;
    /* The boundaries as a list that nothing changes, and the kind; or NULL since a change. */
    PyObject *now;
    /* The boundaries in chunks, or none yet. The set is empty if there is no list either. */
    Chunked handle;
    bool is_signed, is_plain;
    uint64_t changes;
    /* Of a change that was refused memory midway, and then again to go back: what it put in or took out, and what of that the
     * set had before. Until it is back, each call is refused memory. */
    PyObject *undone, *had;
} Chunks;

#define HANDLE(self) ((self)->handle.i64.at)
#define ASK(self, name) \
    ((self)->is_signed ? range_set_i64_chunked_##name((self)->handle.i64) : range_set_u64_chunked_##name((self)->handle.u64))
#define ASK_OF(self, name, ...) \
    ((self)->is_signed ? range_set_i64_chunked_##name((self)->handle.i64, __VA_ARGS__) \
                       : range_set_u64_chunked_##name((self)->handle.u64, __VA_ARGS__))

static void free_handle(Chunked *handle, bool is_signed)
{
    if (is_signed) range_set_i64_chunked_free(&handle->i64);
    else range_set_u64_chunked_free(&handle->u64);
}

/* ---- What the set is ---- */

/* Borrows the list, or one of no number if there is none of such numbers. It stays until the next change. */
static void see_list(const Chunks *self, bool is_signed, List *list)
{
    *list = (List){.is_signed = is_signed, .is_own = true};
    if (self->now != NULL && self->is_signed == is_signed) borrow_own(PyTuple_GET_ITEM(self->now, 0), list);
}

/* How many boundaries the list has. */
static size_t list_len(const Chunks *self)
{
    List list;
    see_list(self, self->is_signed, &list);
    return list.len;
}

/* Makes the chunks of the list. */
static bool make_handle(Chunks *self, bool is_signed, Chunked *made)
{
    List list;
    see_list(self, is_signed, &list);
    range_set_status status = is_signed ? range_set_i64_chunked_of(SET(i64, list), &made->i64)
                                        : range_set_u64_chunked_of(SET(u64, list), &made->u64);
    return status == RANGE_SET_DONE || raise_status(status, 0) != NULL;
}

#define CHANGE(type, handle) \
    (inserts ? range.has_end ? range_set_##type##_chunked_insert(handle, range.start, range.end) \
                             : range_set_##type##_chunked_insert_from(handle, range.start) \
             : range.has_end ? range_set_##type##_chunked_remove(handle, range.start, range.end) \
                             : range_set_##type##_chunked_remove_from(handle, range.start))

/* Puts each range of a list into the chunks, or takes it out. */
static range_set_status change_each(Chunks *self, PyObject *ranges, bool inserts)
{
    List list;
    range_set_status status = RANGE_SET_DONE;
    borrow_own(ranges, &list);
    for (size_t i = 0; status == RANGE_SET_DONE && 2 * i < list.len; i++) {
        Range range = range_in(&list, i);
        status = self->is_signed ? CHANGE(i64, &self->handle.i64) : CHANGE(u64, &self->handle.u64);
    }
    return status;
}

static void forget_undone(Chunks *self)
{
    Py_CLEAR(self->undone);
    Py_CLEAR(self->had);
}

/* Goes back to what the set was before a change that was refused memory midway. */
static bool settle(Chunks *self)
{
    if (self->undone == NULL) return true;
    range_set_status status = change_each(self, self->undone, false);
    if (status == RANGE_SET_DONE) status = change_each(self, self->had, true);
    if (status != RANGE_SET_DONE) return raise_status(status, 0) != NULL;
    forget_undone(self);
    return true;
}

static bool see_handle(Chunks *self)
{
    return settle(self) && (HANDLE(self) != NULL || make_handle(self, self->is_signed, &self->handle));
}

bool see_chunks(PyObject *object, bool wants_chunks, List *list, Chunked **chunked)
{
    Chunks *self = (Chunks *)object;
    see_list(self, self->is_signed, list);
    if (!settle(self) || (wants_chunks && !see_handle(self))) return false;
    *chunked = HANDLE(self) == NULL ? NULL : &self->handle;
    return true;
}

/* What the set was at one moment of the call. It is kept until the next change. Making a list may run Python's collector
 * and by it another change. */
static PyObject *chunks_now(Chunks *self, void *unused)
{
    if (self->now != NULL) return Py_NewRef(self->now);
    if (!settle(self)) return NULL;
    uint64_t changes = self->changes;
    size_t len = ASK(self, boundaries_len);
    PyObject *bytes = PyBytes_FromStringAndSize(NULL, 8 * len);
    if (bytes == NULL) return NULL;
    void *out = PyBytes_AS_STRING(bytes);
    Made made;
    range_set_status status = self->is_signed ? range_set_i64_chunked_copy(self->handle.i64, out, len, &made.i64)
                                              : range_set_u64_chunked_copy(self->handle.u64, out, len, &made.u64);
    if (status != RANGE_SET_DONE) {
        Py_DECREF(bytes);
        return raise_status(status, len);
    }
    PyObject *kind = Py_NewRef(self->kind);
    PyObject *now = list_and_kind(list_over(bytes, len, self->is_signed), kind);
    Py_DECREF(kind);
    if (now != NULL && self->now == NULL && self->changes == changes) self->now = Py_NewRef(now);
    return now;
}

bool is_plain(PyObject *kind)
{
    PyObject *found = PyObject_GetAttrString(kind, "is_plain");
    if (found == NULL) PyErr_Clear();
    Py_XDECREF(found);
    return found == Py_True;
}

/* Makes the set what it is from now on. */
static void become(Chunks *self, PyObject *now, Chunked handle, bool is_signed, PyObject *kind)
{
    PyObject *now_before = self->now, *kind_before = self->kind;
    if (HANDLE(self) != handle.i64.at) free_handle(&self->handle, self->is_signed);
    self->now = now;
    self->handle = handle;
    self->is_signed = is_signed;
    if (kind != kind_before) self->is_plain = is_plain(kind);
    self->kind = Py_NewRef(kind);
    self->changes++;
    forget_undone(self);
    Py_XDECREF(now_before);
    Py_DECREF(kind_before);
}

/* ---- Changes ---- */

/* Puts a range in or takes it out. A set of another kind is an empty one, which takes the kind that is given. */
static bool change(Chunks *self, bool inserts, Range range, bool is_signed, PyObject *kind)
{
    Chunked made = {.i64 = {NULL}};
    if (!settle(self)) return false;
    bool is_new = HANDLE(self) == NULL || self->is_signed != is_signed;
    if (is_reversed(range, is_signed)) {
        if (self->kind != kind) become(self, NULL, made, is_signed, kind);
        return true;
    }
    if (is_new && !make_handle(self, is_signed, &made)) return false;
    Chunked *handle = is_new ? &made : &self->handle;
    range_set_status status = is_signed ? CHANGE(i64, &handle->i64) : CHANGE(u64, &handle->u64);
    if (status != RANGE_SET_DONE) {
        if (is_new) free_handle(&made, is_signed);
        return raise_status(status, 0) != NULL;
    }
    become(self, NULL, *handle, is_signed, kind);
    return true;
}

/* Whether the numbers of a kind have a sign. */
static bool read_sign(const Chunks *self, PyObject *kind, bool *is_signed)
{
    *is_signed = self->is_signed;
    if (kind == self->kind) return true;
    PyObject *is_unsigned = PyObject_GetAttrString(kind, "unsigned");
    if (is_unsigned == NULL) return false;
    *is_signed = is_unsigned != Py_True;
    Py_DECREF(is_unsigned);
    return true;
}

/* Is given a start, an end, the kind that the set was seen to have and the one that it takes. False if it has another
 * by now. Without kinds it is given numbers, or else the answer is False too. */
static PyObject *change_range(Chunks *self, PyObject *const *args, Py_ssize_t n, bool inserts)
{
    Range range;
    bool is_signed;
    if (n == 2 && (!self->is_plain || (args[1] == Py_Ellipsis && !PyLong_CheckExact(args[0])))) Py_RETURN_FALSE;
    if (n != 2 && !has_arguments(n, 4)) return NULL;
    PyObject *seen = n == 2 ? self->kind : args[2], *kind = n == 2 ? seen : args[3];
    if (!read_sign(self, kind, &is_signed) || !read_range(args[0], args[1], is_signed, &range)) return NULL;
    if (self->kind != seen) Py_RETURN_FALSE;
    return change(self, inserts, range, is_signed, kind) ? Py_NewRef(Py_True) : NULL;
}

#define CHANGE_OF(name, inserts) \
    static PyObject *chunks_##name(Chunks *self, PyObject *const *args, Py_ssize_t n) { return change_range(self, args, n, inserts); }

CHANGE_OF(insert, true)
CHANGE_OF(remove, false)

static PyObject *chunks_clear(Chunks *self, PyObject *unused)
{
    become(self, NULL, (Chunked){.i64 = {NULL}}, self->is_signed, self->kind);
    Py_RETURN_NONE;
}

/* ---- Operations with another set ---- */

/* Writes the ranges that have a number of a range, whole: as many of the first as there is room for. */
static size_t overlapping(const Chunks *self, Range range, void *out, size_t room)
{
    Made made;
    range_set_status status =
        self->is_signed
            ? range.has_end ? range_set_i64_chunked_overlapping(self->handle.i64, range.start, range.end, out, room, &made.i64)
                            : range_set_i64_chunked_next_ranges(self->handle.i64, range.start, out, room, &made.i64)
            : range.has_end ? range_set_u64_chunked_overlapping(self->handle.u64, range.start, range.end, out, room, &made.u64)
                            : range_set_u64_chunked_next_ranges(self->handle.u64, range.start, out, room, &made.u64);
    bool is_written = status == RANGE_SET_DONE || status == RANGE_SET_MORE;
    return !is_written ? 0 : made.u64.len;
}

/* As many boundaries are few beside those of the set, in chunks or in a list. */
static bool are_few(const Chunks *self, size_t len)
{
    return HANDLE(self) != NULL ? len <= 64 || len <= ASK(self, boundaries_len) / 64 : len <= list_len(self) / 64;
}

/* The set's ranges that have a number of a list, whole, from its chunks. */
static PyObject *near_in_chunks(const Chunks *self, const List *of)
{
    size_t len = 0, room = 64;
    uint64_t *items = PyMem_Malloc(8 * room);
    for (size_t i = 0; items != NULL && 2 * i < of->len && len % 2 == 0;) {
        Range range = range_in(of, i);
        /* Those up to the last end are written. */
        if (len > 0 && !is_reversed((Range){range.start, items[len - 1], true}, self->is_signed)) range.start = items[len - 1];
        size_t more = is_reversed(range, self->is_signed) ? 0 : overlapping(self, range, items + len, room - len);
        if (len + more + 1 < room) {
            len += more;
            i++;
        } else {
            items = with_more_room(items, &room, 8);
        }
    }
    return list_and_free(items, len, self->is_signed);
}

static PyObject *list_now(Chunks *self)
{
    PyObject *now = chunks_now(self, NULL), *list = now == NULL ? NULL : Py_NewRef(PyTuple_GET_ITEM(now, 0));
    Py_XDECREF(now);
    return list;
}

/* At least the set's ranges that have a number of a list, whole: no others, if the list is short and the set in chunks. */
static PyObject *near(Chunks *self, const List *of)
{
    if (!settle(self)) return NULL;
    return HANDLE(self) != NULL && are_few(self, of->len) ? near_in_chunks(self, of) : list_now(self);
}

/* Is given a list and its kind. A set of another kind was empty when it was seen. */
static PyObject *chunks_near(Chunks *self, PyObject *const *args, Py_ssize_t n)
{
    List of;
    if (!has_arguments(n, 2) || !borrow_own(args[0], &of)) return NULL;
    return self->kind == args[1] ? near(self, &of) : PyObject_GetAttrString(args[1], "nothing");
}

/* Whether the set has a number of a range. */
static bool meets_range(const Chunks *self, Range range)
{
    return range.has_end ? ASK_OF(self, intersects_range, range.start, range.end) : ASK_OF(self, next_member, range.start, NULL);
}

/* Whether the set has a number of a list: in chunks, by a search for each range of a short one. Is given the list and its kind. */
static PyObject *chunks_meets(Chunks *self, PyObject *const *args, Py_ssize_t n)
{
    List of, list;
    bool meets = false;
    if (!has_arguments(n, 2) || !borrow_own(args[0], &of)) return NULL;
    if (self->kind != args[1]) Py_RETURN_FALSE;
    if (!settle(self)) return NULL;
    if (HANDLE(self) != NULL && are_few(self, of.len)) {
        for (size_t i = 0; !meets && 2 * i < of.len; i++) meets = meets_range(self, range_in(&of, i));
        return PyBool_FromLong(meets);
    }
    PyObject *mine = list_now(self);
    if (mine == NULL || !borrow_own(mine, &list)) return NULL;
    meets = self->is_signed ? range_set_i64_intersects(SET(i64, list), SET(i64, of)) : range_set_u64_intersects(SET(u64, list), SET(u64, of));
    Py_DECREF(mine);
    return PyBool_FromLong(meets);
}

/* A connective with a list, by a change of the chunks for each of its ranges. All are done or none. */
static bool combine_few(Chunks *self, PyObject *other, const List *ranges, unsigned keep, PyObject *kind)
{
    List list;
    PyObject *around = see_handle(self) ? near_in_chunks(self, ranges) : NULL, *had = NULL, *puts = NULL;
    range_set_status status = RANGE_SET_NO_MEMORY;
    if (around != NULL && borrow_own(around, &list)) had = joined(&list, ranges, RANGE_SET_INTERSECTION);
    if (had != NULL && borrow_own(had, &list)) puts = joined(ranges, &list, keep == RANGE_SET_UNION ? RANGE_SET_UNION : RANGE_SET_DIFFERENCE);
    if (puts != NULL) {
        self->undone = Py_NewRef(other);
        self->had = Py_NewRef(had);
        status = keep == RANGE_SET_UNION ? RANGE_SET_DONE : change_each(self, other, false);
        if (status == RANGE_SET_DONE && keep != RANGE_SET_DIFFERENCE) status = change_each(self, puts, true);
        if (status == RANGE_SET_DONE) become(self, NULL, self->handle, self->is_signed, kind);
        else if (settle(self)) raise_status(status, 0);
    }
    Py_XDECREF(around);
    Py_XDECREF(had);
    Py_XDECREF(puts);
    return status == RANGE_SET_DONE;
}

/* A connective with a list, as a list of the kind that takes the place of the set; NULL without an error if another change came
 * between, by Python's collector. */
static PyObject *combined(Chunks *self, const List *other, unsigned keep, PyObject *kind)
{
    List list;
    uint64_t changes = self->changes;
    bool is_narrow = keep == RANGE_SET_INTERSECTION && self->is_signed == other->is_signed;
    PyObject *mine = is_narrow ? near(self, other) : list_now(self), *made = NULL;
    if (mine != NULL && borrow_own(mine, &list)) made = list_and_kind(joined(&list, other, keep), kind);
    Py_XDECREF(mine);
    if (self->changes != changes) Py_CLEAR(made);
    return made;
}

/* Is given another set's list, the kind that the set was seen to have and the one that it takes. False if it has another
 * by now. Goes over both sets, unless the other has few ranges. */
static PyObject *combine(Chunks *self, PyObject *const *args, Py_ssize_t n, unsigned keep)
{
    List other;
    PyObject *answer = NULL, *made;
    if (!has_arguments(n, 3) || !borrow_own(args[0], &other)) return NULL;
    while (answer == NULL && !PyErr_Occurred()) {
        bool adds = keep == RANGE_SET_UNION, takes = keep == RANGE_SET_DIFFERENCE;
        if (self->kind != args[1]) {
            answer = Py_False;
        } else if ((adds || takes) && other.len <= 2) {
            Range range = other.len > 0 ? range_in(&other, 0) : (Range){0, 0, true};
            if (change(self, adds, range, other.is_signed, args[2])) answer = Py_True;
        } else if (keep != RANGE_SET_INTERSECTION && self->kind == args[2] && are_few(self, other.len)) {
            if (combine_few(self, args[0], &other, keep, args[2])) answer = Py_True;
        } else if ((made = combined(self, &other, keep, args[2])) != NULL) {
            become(self, made, (Chunked){.i64 = {NULL}}, other.is_signed, args[2]);
            answer = Py_True;
        }
    }
    return Py_XNewRef(answer);
}

#define OPERATION(name, keep) \
    static PyObject *chunks_##name(Chunks *self, PyObject *const *args, Py_ssize_t n) { return combine(self, args, n, keep); }

OPERATION(union, RANGE_SET_UNION)
OPERATION(intersection, RANGE_SET_INTERSECTION)
OPERATION(difference, RANGE_SET_DIFFERENCE)
OPERATION(symmetric_difference, RANGE_SET_SYMMETRIC_DIFFERENCE)

/* Makes the set another one, of a list and its kind, if it is what it was seen to be. */
static PyObject *chunks_replace(Chunks *self, PyObject *const *args, Py_ssize_t n)
{
    List list;
    if (!has_arguments(n, 3) || !borrow_own(args[0], &list)) return NULL;
    PyObject *now = list_and_kind(Py_NewRef(args[0]), args[1]);
    if (now == NULL) return NULL;
    bool is_seen = self->now == args[2];
    if (is_seen) become(self, now, (Chunked){.i64 = {NULL}}, list.is_signed, PyTuple_GET_ITEM(now, 1));
    else Py_DECREF(now);
    return PyBool_FromLong(is_seen);
}

/* ---- Questions ---- */

/* How many ranges the set has. */
static Py_ssize_t chunks_len(Chunks *self)
{
    if (!settle(self)) return -1;
    return HANDLE(self) != NULL ? ASK(self, ranges_len) : (list_len(self) + 1) / 2;
}

static int chunks_bool(Chunks *self)
{
    if (!settle(self)) return -1;
    return HANDLE(self) != NULL ? ASK_OF(self, next_member, least_of(self->is_signed), NULL) : list_len(self) > 0;
}

static PyObject *chunks_kind(Chunks *self, void *unused)
{
    return Py_NewRef(self->kind);
}

static PyObject *chunks_sizeof(Chunks *self, PyObject *unused)
{
    return PyLong_FromSize_t(sizeof *self + 8 * (list_len(self) + ASK(self, boundaries_len)));
}

/* ---- The type ---- */

/* Is given a list of the library's own, and its kind. */
static PyObject *chunks_new(PyTypeObject *type, PyObject *args, PyObject *names)
{
    PyObject *boundaries, *kind;
    List list;
    if (!PyArg_ParseTuple(args, "OO", &boundaries, &kind) || !borrow_own(boundaries, &list)) return NULL;
    PyObject *now = list_and_kind(Py_NewRef(boundaries), kind);
    Chunks *self = now == NULL ? NULL : (Chunks *)type->tp_alloc(type, 0);
    if (self == NULL) {
        Py_XDECREF(now);
        return NULL;
    }
    self->now = now;
    self->kind = Py_NewRef(PyTuple_GET_ITEM(now, 1));
    self->is_signed = list.is_signed;
    self->is_plain = is_plain(kind);
    return (PyObject *)self;
}

static void chunks_dealloc(Chunks *self)
{
    free_handle(&self->handle, self->is_signed);
    forget_undone(self);
    Py_XDECREF(self->now);
    Py_XDECREF(self->kind);
    Py_TYPE(self)->tp_free(self);
}

#define METHOD(name) {#name, (PyCFunction)(void (*)(void))chunks_##name, METH_FASTCALL, NULL}

static PyMethodDef methods[] = {
    METHOD(insert), METHOD(remove), METHOD(union), METHOD(intersection), METHOD(difference), METHOD(symmetric_difference),
    METHOD(replace), METHOD(near), METHOD(meets),
    {"clear", (PyCFunction)chunks_clear, METH_NOARGS, NULL},
    {"__sizeof__", (PyCFunction)chunks_sizeof, METH_NOARGS, NULL},
    {NULL, NULL, 0, NULL},
};

static PyGetSetDef attributes[] = {
    {"now", (getter)chunks_now, NULL, NULL, NULL},
    {"kind", (getter)chunks_kind, NULL, NULL, NULL},
    {NULL, NULL, NULL, NULL, NULL},
};

static PyTypeObject chunks_type = {
    PyVarObject_HEAD_INIT(NULL, 0)
    .tp_name = "range_sets._core.Chunks",
    .tp_basicsize = sizeof(Chunks),
    .tp_flags = Py_TPFLAGS_DEFAULT,
    .tp_new = chunks_new,
    .tp_dealloc = (destructor)chunks_dealloc,
    .tp_methods = methods,
    .tp_getset = attributes,
    .tp_as_sequence = &(PySequenceMethods){.sq_length = (lenfunc)chunks_len},
    .tp_as_number = &(PyNumberMethods){.nb_bool = (inquiry)chunks_bool},
};

bool is_chunks(PyObject *object, bool *is_signed)
{
    if (!Py_IS_TYPE(object, &chunks_type)) return false;
    *is_signed = ((Chunks *)object)->is_signed;
    return true;
}

int add_chunks(PyObject *module)
{
    return PyModule_AddType(module, &chunks_type);
}
