#include "_lists.h"
#include <structmember.h>

/* From MANY boundaries on, other threads run during a call that goes over them. */
enum { MANY = 4096 };

bool refuse(PyObject *error, const char *text)
{
    PyErr_SetString(error, text);
    return false;
}

bool has_arguments(Py_ssize_t n, Py_ssize_t wanted)
{
    if (n == wanted) return true;
    PyErr_Format(PyExc_TypeError, "expected %zd arguments, not %zd", wanted, n);
    return false;
}

/* ---- The library's own lists ---- */

/* Sorted boundaries in the memory of bytes. Only `list_over` and parts of lists make them. */
typedef struct {
    PyObject_HEAD
    PyObject *bytes;
    uint64_t *items;
    Py_ssize_t len;
    bool is_signed;
} Boundaries;

static PyTypeObject boundaries_type;

/* Takes the bytes over. */
static PyObject *boundaries_in(PyObject *bytes, uint64_t *items, Py_ssize_t len, bool is_signed)
{
    Boundaries *made = bytes == NULL ? NULL : PyObject_New(Boundaries, &boundaries_type);
    if (made == NULL) {
        Py_XDECREF(bytes);
        return NULL;
    }
    made->bytes = bytes;
    made->items = items;
    made->len = len;
    made->is_signed = is_signed;
    return (PyObject *)made;
}

PyObject *list_over(PyObject *bytes, size_t len, bool is_signed)
{
    if (_PyBytes_Resize(&bytes, 8 * len) < 0) return NULL;
    return boundaries_in(bytes, (uint64_t *)PyBytes_AS_STRING(bytes), len, is_signed);
}

PyObject *list_of(const uint64_t *numbers, size_t len, bool is_signed)
{
    PyObject *bytes = PyBytes_FromStringAndSize((const char *)numbers, 8 * len);
    return bytes == NULL ? NULL : list_over(bytes, len, is_signed);
}

uint64_t *with_more_room(uint64_t *numbers, size_t *room, size_t times)
{
    uint64_t *longer = PyMem_Realloc(numbers, 8 * (*room *= times));
    if (longer == NULL) PyMem_Free(numbers);
    return longer;
}

PyObject *list_and_free(uint64_t *numbers, size_t len, bool is_signed)
{
    PyObject *made = numbers == NULL ? PyErr_NoMemory() : list_of(numbers, len, is_signed);
    PyMem_Free(numbers);
    return made;
}

PyObject *list_or_error(PyObject *bytes, size_t len, bool is_signed, range_set_status status)
{
    if (status == RANGE_SET_DONE) return list_over(bytes, len, is_signed);
    Py_DECREF(bytes);
    return raise_status(status, len);
}

PyObject *list_and_kind(PyObject *list, PyObject *kind)
{
    PyObject *both = NULL;
    /* A kind of values that sort is called, and has a list of its own for each set. */
    if (list != NULL) both = Py_TYPE(kind)->tp_call != NULL ? PyObject_CallOneArg(kind, list) : PyTuple_Pack(2, list, kind);
    Py_XDECREF(list);
    return both;
}

/* A part of less than half of what lies in the memory is copied if it `is_kept`, so that it doesn't keep all of that. */
static PyObject *part_of(Boundaries *self, Py_ssize_t start, Py_ssize_t end, bool is_kept)
{
    Py_ssize_t len = start < end ? end - start : 0;
    if (len == self->len) return Py_NewRef(self);
    if (!is_kept || 16 * len >= PyBytes_GET_SIZE(self->bytes))
        return boundaries_in(Py_NewRef(self->bytes), self->items + start, len, self->is_signed);
    return list_of(self->items + start, len, self->is_signed);
}

static void boundaries_dealloc(Boundaries *self)
{
    Py_DECREF(self->bytes);
    PyObject_Free(self);
}

static int boundaries_buffer(Boundaries *self, Py_buffer *view, int flags)
{
    if (PyBuffer_FillInfo(view, (PyObject *)self, self->items, 8 * self->len, true, flags) < 0) return -1;
    /* Without a format they are bytes. */
    if (view->format == NULL) return 0;
    view->itemsize = 8;
    view->format = self->is_signed ? "q" : "Q";
    if (view->shape != NULL) view->shape = &self->len;
    return 0;
}

static Py_ssize_t boundaries_len(Boundaries *self)
{
    return self->len;
}

static PyObject *boundaries_item(Boundaries *self, Py_ssize_t at)
{
    if (at < 0 || at >= self->len) return PyErr_Format(PyExc_IndexError, "there is no such boundary");
    return as_python(self->items[at], self->is_signed);
}

static PyObject *boundaries_subscript(Boundaries *self, PyObject *at)
{
    Py_ssize_t start, end, step;
    if (!PySlice_Check(at)) {
        start = PyNumber_AsSsize_t(at, PyExc_IndexError);
        if (start == -1 && PyErr_Occurred()) return NULL;
        return boundaries_item(self, start < 0 ? start + self->len : start);
    }
    if (PySlice_Unpack(at, &start, &end, &step) < 0) return NULL;
    if (step != 1) return PyErr_Format(PyExc_ValueError, "expected a step of 1");
    PySlice_AdjustIndices(self->len, &start, &end, step);
    return part_of(self, start, end, false);
}

/* A slice from a place to another, which may stay for long. */
static PyObject *boundaries_part(Boundaries *self, PyObject *const *args, Py_ssize_t n)
{
    if (!has_arguments(n, 2)) return NULL;
    Py_ssize_t start = PyNumber_AsSsize_t(args[0], NULL), end = PyNumber_AsSsize_t(args[1], NULL);
    if (PyErr_Occurred()) return NULL;
    PySlice_AdjustIndices(self->len, &start, &end, 1);
    return part_of(self, start, end, true);
}

/* The ranges that have a number from a start to below an end, whole. */
static PyObject *boundaries_overlapping(Boundaries *self, PyObject *const *args, Py_ssize_t n)
{
    Range range;
    List list;
    if (!has_arguments(n, 2) || !read_range(args[0], args[1], self->is_signed, &range)) return NULL;
    if (!borrow((PyObject *)self, &list, false, false)) return NULL;
    if (is_reversed(range, self->is_signed)) list.len = 0;
    else cut_to(&list, range);
    Py_ssize_t start = (uint64_t *)list.items - self->items;
    return part_of(self, start, start + list.len, true);
}

static PyMethodDef boundaries_methods[] = {
    {"part", (PyCFunction)(void (*)(void))boundaries_part, METH_FASTCALL, NULL},
    {"overlapping", (PyCFunction)(void (*)(void))boundaries_overlapping, METH_FASTCALL, NULL},
    {NULL, NULL, 0, NULL},
};

static PyMemberDef boundaries_members[] = {
    {"memory", T_OBJECT, offsetof(Boundaries, bytes), READONLY, NULL},
    {NULL, 0, 0, 0, NULL},
};

/* No program makes or inherits one. */
static PyTypeObject boundaries_type = {
    PyVarObject_HEAD_INIT(NULL, 0)
    .tp_name = "range_sets._core.Boundaries",
    .tp_basicsize = sizeof(Boundaries),
    .tp_flags = Py_TPFLAGS_DEFAULT | Py_TPFLAGS_DISALLOW_INSTANTIATION,
    .tp_dealloc = (destructor)boundaries_dealloc,
    .tp_methods = boundaries_methods,
    .tp_members = boundaries_members,
    .tp_as_buffer = &(PyBufferProcs){.bf_getbuffer = (getbufferproc)boundaries_buffer},
    .tp_as_sequence = &(PySequenceMethods){.sq_length = (lenfunc)boundaries_len, .sq_item = (ssizeargfunc)boundaries_item},
    .tp_as_mapping = &(PyMappingMethods){.mp_length = (lenfunc)boundaries_len, .mp_subscript = (binaryfunc)boundaries_subscript},
};

int add_lists(PyObject *module)
{
    return PyModule_AddType(module, &boundaries_type);
}

/* ---- Borrowed lists ---- */

/* Reads the type of the numbers from the format: one letter, before which the order of the bytes may stand. */
static bool read_format(List *list)
{
    const char *format = list->view.format ? list->view.format : "B";
    const char *letter = format + (*format && strchr(PY_LITTLE_ENDIAN ? "@=<" : "@=>", *format) != NULL);
    list->is_signed = *letter == 'q' || *letter == 'l';
    if (list->view.itemsize == 8 && *letter && strchr("qlQL", *letter) && letter[1] == '\0') return true;
    PyErr_Format(PyExc_TypeError, "expected 64-bit whole numbers in this machine's order of bytes, as array('q') and numpy's "
                 "int64 and uint64 have them, not those of the format '%s'", format);
    return false;
}

static bool read_shape(List *list, bool pairs)
{
    const Py_buffer *view = &list->view;
    if (view->ndim != 1 && !(pairs && view->ndim == 2 && view->shape[1] == 2))
        return refuse(PyExc_TypeError, pairs ? "expected a list of starts and ends in turn, or a table with two columns"
                                             : "expected a list, with one dimension");
    list->len = view->len / 8;
    if (pairs && list->len % 2 != 0) return refuse(PyExc_ValueError, "expected a start and an end each");
    return PyBuffer_IsContiguous(view, 'C')
           || refuse(PyExc_TypeError, "expected numbers that lie side by side: copy the buffer first, as numpy's a.copy() does");
}

static bool read_place(List *list, bool writable)
{
    list->items = list->view.buf;
    if (writable && list->view.readonly) return refuse(PyExc_TypeError, "the buffer can't be written to");
    if ((uintptr_t)list->items % 8 == 0 || list->len == 0) return true;
    if (writable) return refuse(PyExc_ValueError, "the buffer's numbers don't lie at multiples of 8 bytes");
    list->items = list->copy = PyMem_Malloc(8 * list->len);
    if (list->copy == NULL) return PyErr_NoMemory() != NULL;
    memcpy(list->copy, list->view.buf, 8 * list->len);
    return true;
}

bool borrow_own(PyObject *object, List *list)
{
    bool is_own = Py_IS_TYPE(object, &boundaries_type) && borrow(object, list, false, false);
    return is_own || refuse(PyExc_TypeError, "expected a list of the library's own");
}

void release(List *list)
{
    PyMem_Free(list->copy);
    PyBuffer_Release(&list->view);
}

bool borrow(PyObject *object, List *list, bool pairs, bool writable)
{
    list->is_own = Py_IS_TYPE(object, &boundaries_type) && !pairs && !writable;
    if (list->is_own) {
        const Boundaries *own = (Boundaries *)object;
        list->view.obj = NULL;
        list->items = own->items;
        list->copy = NULL;
        list->len = own->len;
        list->is_signed = own->is_signed;
        return true;
    }
    if (!PyObject_CheckBuffer(object)) {
        PyErr_Format(PyExc_TypeError, "expected a buffer of 64-bit whole numbers, as an array('q') or a numpy array, not %.100s",
                     Py_TYPE(object)->tp_name);
        return false;
    }
    list->copy = NULL;
    if (PyObject_GetBuffer(object, &list->view, PyBUF_FULL_RO) < 0) return false;
    if (read_format(list) && read_shape(list, pairs) && read_place(list, writable)) return true;
    release(list);
    return false;
}

PyObject *as_python(uint64_t bits, bool is_signed)
{
    return is_signed ? PyLong_FromLongLong((int64_t)bits) : PyLong_FromUnsignedLongLong(bits);
}

bool read_number(PyObject *object, bool is_signed, uint64_t *bits)
{
    PyObject *number = PyNumber_Index(object);
    if (number == NULL) return false;
    *bits = is_signed ? (uint64_t)PyLong_AsLongLong(number) : PyLong_AsUnsignedLongLong(number);
    bool fits = *bits != UINT64_MAX || !PyErr_Occurred();
    Py_DECREF(number);
    return fits || refuse(PyExc_OverflowError, is_signed ? "expected a number from -2**63 to 2**63 - 1"
                                                         : "expected a number from 0 to 2**64 - 1");
}

PyObject *numbers_of(PyObject *values, bool (*read)(PyObject *value, bool is_aware, int64_t *number), bool is_aware)
{
    /* A zone may change the list. */
    PyObject *each = PySequence_Tuple(values);
    PyObject *numbers = each == NULL ? NULL : PyList_New(PyTuple_GET_SIZE(each));
    for (Py_ssize_t i = 0; numbers != NULL && i < PyTuple_GET_SIZE(each); i++) {
        int64_t number;
        bool has_number = read(PyTuple_GET_ITEM(each, i), is_aware, &number);
        PyObject *made = has_number ? PyLong_FromLongLong(number) : NULL;
        if (made != NULL) PyList_SET_ITEM(numbers, i, made);
        else if (has_number || PyErr_Occurred()) Py_CLEAR(numbers);
        else Py_SETREF(numbers, Py_NewRef(Py_None));
        if (numbers == Py_None) break;
    }
    Py_XDECREF(each);
    return numbers;
}

bool read_range(PyObject *start, PyObject *end, bool is_signed, Range *range)
{
    range->has_end = end != Py_None;
    range->start = least_of(is_signed);
    if (end == Py_Ellipsis) {
        if (!read_number(start, is_signed, &range->start)) return false;
        range->end = range->start + 1;
        range->has_end = range->end != least_of(is_signed);
        return true;
    }
    return (start == Py_None || read_number(start, is_signed, &range->start))
           && (end == Py_None || read_number(end, is_signed, &range->end));
}

/* One boundary if the range has no end, and none if it is empty or reversed. */
PyObject *core_range_list(PyObject *module, PyObject *const *args, Py_ssize_t n)
{
    Range range;
    if (!has_arguments(n, 3) || !read_range(args[0], args[1], args[2] == Py_False, &range)) return NULL;
    Py_ssize_t len = is_reversed(range, args[2] == Py_False) ? 0 : 1 + range.has_end;
    return list_of((uint64_t[]){range.start, range.end}, len, args[2] == Py_False);
}

range_set_status check_list(const List *list)
{
    if (list->is_own) return RANGE_SET_DONE;
    Made made;
    return list->is_signed ? range_set_i64_view(list->items, list->len, &made.i64)
                           : range_set_u64_view(list->items, list->len, &made.u64);
}

Range range_in(const List *list, size_t place)
{
    const uint64_t *ends = (const uint64_t *)list->items + 2 * place;
    bool has_end = 2 * place + 1 < list->len;
    return (Range){ends[0], has_end ? ends[1] : 0, has_end};
}

PyObject *joined(const List *a, const List *b, unsigned keep)
{
    Made made = {.u64 = {NULL, 0}};
    size_t room = a->len + b->len;
    PyObject *bytes = PyBytes_FromStringAndSize(NULL, 8 * room);
    if (bytes == NULL) return NULL;
    void *out = PyBytes_AS_STRING(bytes);
    range_set_status status = b->is_signed ? range_set_i64_combine(SET(i64, *a), SET(i64, *b), keep, out, room, &made.i64)
                                           : range_set_u64_combine(SET(u64, *a), SET(u64, *b), keep, out, room, &made.u64);
    return list_or_error(bytes, made.u64.len, b->is_signed, status);
}

/* The ranges that end at or below its start stand before it, and those that start below its end up to there. */
#define CUT(type) \
    { \
        range_set_##type below, from; \
        range_set_##type##_split(SET(type, *list), range.start, &below, &from); \
        start = list->len - from.len; \
        range_set_##type##_split(SET(type, *list), range.end, &below, &from); \
        if (range.has_end && below.len + below.len % 2 < end) end = below.len + below.len % 2; \
    }

void cut_to(List *list, Range range)
{
    size_t start, end = list->len;
    if (list->is_signed) CUT(i64)
    else CUT(u64)
    list->items = (uint64_t *)list->items + start;
    list->len = start < end ? end - start : 0;
}

void cut_to_span(List *list, const List *of)
{
    const uint64_t *numbers = of->items;
    if (of->len == 0) list->len = 0;
    else cut_to(list, (Range){numbers[0], numbers[of->len - 1], of->len % 2 == 0});
}

PyObject *raise_status(range_set_status status, size_t needed)
{
    if (status == RANGE_SET_NO_MEMORY) return PyErr_NoMemory();
    PyObject *errors = PyImport_ImportModule("range_sets._errors"), *error;
    if (errors == NULL) return NULL;
    if (status == RANGE_SET_NOT_SORTED) error = PyObject_CallMethod(errors, "NotSorted", "s", "a list isn't strictly sorted");
    else if (status == RANGE_SET_NO_ROOM) error = PyObject_CallMethod(errors, "NoRoom", "n", (Py_ssize_t)needed);
    else error = PyObject_CallFunction(PyExc_ValueError, "s", "the buffer overlaps a list");
    if (error != NULL) PyErr_SetObject((PyObject *)Py_TYPE(error), error);
    Py_XDECREF(error);
    Py_DECREF(errors);
    return NULL;
}

PyThreadState *let_others_run(size_t len)
{
    return len < MANY ? NULL : PyEval_SaveThread();
}

void go_on(PyThreadState *thread)
{
    if (thread != NULL) PyEval_RestoreThread(thread);
}
