/* Lists of 64-bit whole numbers: how they are borrowed from buffers, and how new ones are made.
 *
 * A buffer is borrowed for the length of a call, and its format says the type of its numbers. A new list is a `Boundaries`, which
 * the library alone makes, and nothing changes: so what a set has is sorted, and isn't checked again. */
#ifndef RANGE_SETS_LISTS_H
#define RANGE_SETS_LISTS_H

#define PY_SSIZE_T_CLEAN
#include <Python.h>
#include "range_set.h"

/* Numbers that are borrowed from a buffer, or a copy of them if they don't lie at multiples of 8 bytes. */
typedef struct {
    Py_buffer view;
    void *items, *copy;
    size_t len;
    bool is_signed;
    /* Whether it is a `Boundaries`, which is sorted. */
    bool is_own;
} List;

/* The numbers from a start on, up to below an end if there is one. */
typedef struct {
    uint64_t start, end;
    bool has_end;
} Range;

/* A list as a set. Operations and questions of two lists check first that those of others are sorted; searches
 * don't, and stay within any list. */
#define SET(type, list) ((range_set_##type){(list).items, (list).len})

/* A set that a call makes, by the sign of its numbers. Either has its length. */
typedef union {
    range_set_i64 i64;
    range_set_u64 u64;
} Made;

/* Sets an error. */
bool refuse(PyObject *error, const char *text);

/* Borrows the numbers of a buffer. With `pairs` it may have a row for each two of them. */
bool borrow(PyObject *object, List *list, bool pairs, bool writable);
void release(List *list);

/* Borrows a list of the library's own, which needn't be released. */
bool borrow_own(PyObject *object, List *list);

bool has_arguments(Py_ssize_t n, Py_ssize_t wanted);

/* The least number, and a number as Python has it. */
static inline uint64_t least_of(bool is_signed)
{
    return is_signed ? (uint64_t)INT64_MIN : 0;
}
PyObject *as_python(uint64_t bits, bool is_signed);

/* Reads a number of 64 bits, and a range. A start None is the least number, an end None is none, and `...` says that it is one number. */
bool read_number(PyObject *object, bool is_signed, uint64_t *bits);
bool read_range(PyObject *start, PyObject *end, bool is_signed, Range *range);

/* The numbers of a list's values by a call that reads one, of times with a zone or without one; or None if one has none. */
PyObject *numbers_of(PyObject *values, bool (*read)(PyObject *value, bool is_aware, int64_t *number), bool is_aware);

/* The range that stands at a place in a sorted list. */
Range range_in(const List *list, size_t place);

/* Whether a range has no number. */
static inline bool is_reversed(Range range, bool is_signed)
{
    return range.has_end && (is_signed ? (int64_t)range.start >= (int64_t)range.end : range.start >= range.end);
}

/* Whether the list is sorted. */
range_set_status check_list(const List *list);

/* The members that a connective keeps of two sorted lists, as a new one. */
PyObject *joined(const List *a, const List *b, unsigned keep);

/* Leaves of a sorted list the ranges that have a number of a range, whole; or a number from its first to its last in another. */
void cut_to(List *list, Range range);
void cut_to_span(List *list, const List *of);

/* A list of a copy of numbers that are sorted; and of the first ones of some bytes, which it takes over. */
PyObject *list_of(const uint64_t *numbers, size_t len, bool is_signed);
PyObject *list_over(PyObject *bytes, size_t len, bool is_signed);
PyObject *list_or_error(PyObject *bytes, size_t len, bool is_signed, range_set_status status);

/* Numbers in memory that is made this many times as long; NULL where it is refused, and then they are freed. And a list of such, which it
 * frees. */
uint64_t *with_more_room(uint64_t *numbers, size_t *room, size_t times);
PyObject *list_and_free(uint64_t *numbers, size_t len, bool is_signed);

/* Raises what a call for C answers, with the length that it returns. */
PyObject *raise_status(range_set_status status, size_t needed);

/* Lets other threads run if there are many boundaries to go over. */
PyThreadState *let_others_run(size_t len);
void go_on(PyThreadState *thread);

/* A set in other forms: as a text, and in few bytes. */
PyObject *core_parse(PyObject *module, PyObject *const *args, Py_ssize_t n);
PyObject *core_print(PyObject *module, PyObject *object);
PyObject *core_pack(PyObject *module, PyObject *object);
PyObject *core_unpack(PyObject *module, PyObject *object);
PyObject *core_over(PyObject *module, PyObject *const *args, Py_ssize_t n);

/* The boundaries of a range, of numbers with or without a sign. */
PyObject *core_range_list(PyObject *module, PyObject *const *args, Py_ssize_t n);

/* A list, which it takes over, and its kind. */
PyObject *list_and_kind(PyObject *list, PyObject *kind);

/* Sets whose starts and ends move, and those of long ranges alone. */
PyObject *core_moved(PyObject *module, PyObject *const *args, Py_ssize_t n);
PyObject *core_at_least(PyObject *module, PyObject *const *args, Py_ssize_t n);

/* Numbers of floats. */
PyObject *core_depths(PyObject *module, PyObject *const *args, Py_ssize_t n);
PyObject *core_mirror(PyObject *module, PyObject *const *args, Py_ssize_t n);
PyObject *core_numbers_of_floats(PyObject *module, PyObject *object);
PyObject *core_lengths_of_floats(PyObject *module, PyObject *object);

/* Numbers of times. */
PyObject *core_number_of_time(PyObject *module, PyObject *const *args, Py_ssize_t n);
PyObject *core_numbers_of_times(PyObject *module, PyObject *const *args, Py_ssize_t n);

/* Operations on two lists. */
PyObject *core_union(PyObject *module, PyObject *const *args, Py_ssize_t n);
PyObject *core_intersection(PyObject *module, PyObject *const *args, Py_ssize_t n);
PyObject *core_difference(PyObject *module, PyObject *const *args, Py_ssize_t n);
PyObject *core_symmetric_difference(PyObject *module, PyObject *const *args, Py_ssize_t n);

/* Adds the type of lists to the module, and that of sets. */
int add_lists(PyObject *module);
int add_sets(PyObject *module);

/* Adds the type of sets in chunks to the module. */
int add_chunks(PyObject *module);

/* A set in chunks, by the sign of its numbers. */
typedef union {
    range_set_i64_chunked i64;
    range_set_u64_chunked u64;
} Chunked;

bool is_chunks(PyObject *object, bool *is_signed);

/* Whether the elements of a kind are numbers, which the extension reads. */
bool is_plain(PyObject *kind);

/* What a set that changes is now, until other code of Python runs: in chunks, or else as a list if it has one, unless chunks
 * are wanted. */
bool see_chunks(PyObject *object, bool wants_chunks, List *list, Chunked **chunked);

/* The ranges and values of a list of pairs of whole numbers. */
PyObject *core_ends_and_values(PyObject *module, PyObject *const *args, Py_ssize_t n);

/* Adds the type of maps. */
int add_maps(PyObject *module);

#endif
