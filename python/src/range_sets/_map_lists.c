/* Maps that lie in lists. It is tested, not proved.
 *
 * A map that is made of ranges in order has a list of these until it is changed, and what goes over all of it reads the list. The library's
 * map is built of it for the first search or change. */
#include "_maps.h"

void forget_list(Steps *self)
{
    Py_CLEAR(self->ends);
    PyMem_Free(self->numbers);
    self->numbers = NULL;
    self->has_list = false;
}

/* Counts the ranges of a list, up or down. */
static void count_listed(Steps *self, size_t by)
{
    for (size_t i = 0; i < self->len; i++) count_ranges(&self->values, self->numbers[i], by);
}

range_set_status list_in_order(Steps *self, const Change *changes, size_t count)
{
    size_t len = 0, *numbers = PyMem_Malloc(count * sizeof *numbers);
    PyObject *bytes = PyBytes_FromStringAndSize(NULL, 16 * count);
    uint64_t *ends = bytes == NULL ? NULL : (uint64_t *)PyBytes_AS_STRING(bytes);
    for (size_t i = 0; numbers != NULL && bytes != NULL && i < count; i++) {
        const Change *it = &changes[i];
        if (it->number == NONE) continue;
        /* Neighbours that have one value are one range. */
        bool is_one = len > 0 && numbers[len - 1] == it->number && ends[2 * len - 1] == it->range.start;
        if (!is_one) {
            ends[2 * len] = it->range.start;
            numbers[len++] = it->number;
        }
        ends[2 * len - 1] = it->range.has_end ? it->range.end : LEAST(self);
    }
    if (numbers == NULL || bytes == NULL || _PyBytes_Resize(&bytes, 16 * len) < 0) {
        PyErr_Clear();
        PyMem_Free(numbers);
        Py_XDECREF(bytes);
        return RANGE_SET_NO_MEMORY;
    }
    if (self->has_list) count_listed(self, -1);
    forget_list(self);
    free_handle(self);
    self->has_list = true;
    self->ends = bytes;
    self->numbers = numbers;
    self->len = len;
    self->changes++;
    count_listed(self, 1);
    return RANGE_SET_DONE;
}

bool build(Steps *self)
{
    Steps made = {.is_signed = self->is_signed};
    range_set_status status = make_handle(&made);
    bool is_open = false;
    for (size_t i = 0; status == RANGE_SET_DONE && i < self->len; i++) {
        Stretch it, next;
        bool has_next = i + 1 < self->len;
        read_listed(self, i, &it);
        if (has_next) read_listed(self, i + 1, &next);
        bool touches = has_next && next.start == it.end;
        /* Of neighbours each is put over the rest of the one before, which takes one search where a range with an end takes two. */
        status = put(&made, (Range){it.start, it.end, it.has_end && !touches && !is_open}, it.value);
        if (is_open && !touches && it.has_end && status == RANGE_SET_DONE) status = put(&made, (Range){it.end, 0, false}, NONE);
        is_open = touches;
    }
    if (status == RANGE_SET_DONE) {
        self->handle = made.handle;
        return true;
    }
    free_handle(&made);
    return raise_status(status, 0) != NULL;
}

bool copy_list(const Steps *self, Steps *made)
{
    size_t *numbers = PyMem_Malloc(self->len * sizeof *numbers);
    if (numbers == NULL) return PyErr_NoMemory() != NULL;
    made->numbers = self->len == 0 ? numbers : memcpy(numbers, self->numbers, self->len * sizeof *numbers);
    made->ends = Py_XNewRef(self->ends);
    return true;
}
