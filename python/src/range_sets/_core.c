/* Functions over buffers of 64-bit whole numbers, by the proved calls for C. They are tested, not proved. */
#include "_lists.h"

/* What a call is given: up to two lists, up to two numbers of their type as bits, and up to two counts. */
typedef struct {
    List lists[2];
    int held;
    /* Whether the first list is any numbers. */
    bool any_order;
    /* A set in chunks in the place of the first list, or NULL. */
    Chunked *chunked;
    uint64_t numbers[2], counts[2];
} Arguments;

/* A call of range_set.h for the type of the lists, and what it is given. */
#define CALL(name, arguments) \
    (given->lists[0].is_signed ? range_set_i64_##name(arguments(i64)) : range_set_u64_##name(arguments(u64)))
#define LIST(type) SET(type, given->lists[0])
#define LISTS(type) SET(type, given->lists[0]), SET(type, given->lists[1])
#define VALUES(type) given->lists[0].items, given->lists[0].len
#define LIST_AND_NUMBER(type) SET(type, given->lists[0]), given->numbers[0]
#define LIST_AND_NUMBERS(type) LIST_AND_NUMBER(type), given->numbers[1]

/* ---- What a call is given ---- */

static void release_all(Arguments *given)
{
    while (given->held > 0) release(&given->lists[--given->held]);
}

/* Reads numbers of the type of the lists, and counts. */
static bool read_numbers(Arguments *given, PyObject *const *args, bool is_signed, int numbers, int counts)
{
    bool fits = true;
    for (int i = 0; fits && i < numbers; i++) fits = read_number(args[i], is_signed, &given->numbers[i]);
    for (int i = 0; fits && i < counts; i++) fits = read_number(args[numbers + i], false, &given->counts[i]);
    return fits;
}

/* Reads `lists` lists, then `numbers` numbers and `counts` counts; `more` objects may follow, which it leaves. */
static bool read_arguments(Arguments *given, PyObject *const *args, Py_ssize_t n, int lists, int numbers, int counts, int more)
{
    int wanted = lists + numbers + counts;
    if (n < wanted || n > wanted + more) {
        PyErr_Format(PyExc_TypeError, "expected %d arguments, not %zd", wanted, n);
        return false;
    }
    bool fits = true;
    given->lists[1].len = 0;
    given->chunked = NULL;
    given->any_order = false;
    for (given->held = 0; fits && given->held < lists; given->held += fits)
        fits = borrow(args[given->held], &given->lists[given->held], false, false);
    if (fits && lists == 2 && given->lists[0].is_signed != given->lists[1].is_signed)
        fits = refuse(PyExc_TypeError, "signed and unsigned numbers don't mix: both lists have to be of one type");
    fits = fits && read_numbers(given, args + lists, given->lists[0].is_signed, numbers, counts);
    if (!fits) release_all(given);
    return fits;
}

/* ---- Operations ---- */

typedef range_set_status Operation(const Arguments *given, void *out, size_t room, size_t *written);

/* Checks that each list of others is sorted. */
static range_set_status check_sorted(const Arguments *given)
{
    range_set_status status = RANGE_SET_DONE;
    for (int i = 0; !given->any_order && status == RANGE_SET_DONE && i < given->held; i++) status = check_list(&given->lists[i]);
    return status;
}

/* Of which lists a call reads no more than the ranges that have numbers of the span of the other. */
enum { NONE = 0, LEFT = 1, RIGHT = 2, BOTH = LEFT | RIGHT };

/* Whether a call's lists have to be sets, or its list is any numbers. */
enum { SORTED = false, ANY_ORDER = true };

/* Cuts the library's own lists. Others are gone over anyway, and `out` mustn't overlap any part of them. */
static void cut(Arguments *given, int cuts)
{
    if (!given->lists[0].is_own || !given->lists[1].is_own) return;
    if (cuts & RIGHT) cut_to_span(&given->lists[1], &given->lists[0]);
    if (cuts & LEFT) cut_to_span(&given->lists[0], &given->lists[1]);
}

static range_set_status run(Operation *call, const Arguments *given, void *out, size_t room, size_t *written)
{
    PyThreadState *thread = let_others_run(given->lists[0].len + given->lists[1].len);
    range_set_status status = check_sorted(given);
    if (status == RANGE_SET_DONE) status = call(given, out, room, written);
    go_on(thread);
    return status;
}

/* The set as a new list. No result is longer than both lists together and one more, but a set of numbers has two for each. Of a few
 * boundaries just the result is allocated. */
static PyObject *write_new(const Arguments *given, Operation *call)
{
    uint64_t few[64];
    size_t room = given->lists[0].len + given->lists[given->any_order ? 0 : 1].len + 1, written = 0;
    bool are_few = room <= sizeof few / 8;
    PyObject *bytes = are_few ? NULL : PyBytes_FromStringAndSize(NULL, 8 * room);
    if (bytes == NULL && !are_few) return NULL;
    range_set_status status = run(call, given, are_few ? (char *)few : PyBytes_AS_STRING(bytes), room, &written);
    if (are_few) bytes = PyBytes_FromStringAndSize((char *)few, status == RANGE_SET_DONE ? 8 * written : 0);
    return bytes == NULL ? NULL : list_or_error(bytes, written, given->lists[0].is_signed, status);
}

/* The set in the caller's buffer, and its length as the answer. */
static PyObject *write_into(const Arguments *given, Operation *call, PyObject *object)
{
    List out;
    size_t written = 0;
    PyObject *answer = NULL;
    if (!borrow(object, &out, false, true)) return NULL;
    if (out.is_signed == given->lists[0].is_signed) {
        range_set_status status = run(call, given, out.items, out.len, &written);
        answer = status == RANGE_SET_DONE ? PyLong_FromSize_t(written) : raise_status(status, written);
    } else {
        refuse(PyExc_TypeError, "signed and unsigned numbers don't mix: the buffer has to be of the type of the lists");
    }
    release(&out);
    return answer;
}

static PyObject *operate(PyObject *const *args, Py_ssize_t n, int lists, int cuts, bool any_order, Operation *call)
{
    Arguments given;
    if (!read_arguments(&given, args, n, lists, 0, 0, 1)) return NULL;
    if (lists == 2) cut(&given, cuts);
    given.any_order = any_order;
    PyObject *out = n > lists ? args[n - 1] : Py_None;
    PyObject *answer = out == Py_None ? write_new(&given, call) : write_into(&given, call, out);
    release_all(&given);
    return answer;
}

#define OPERATION(name, list_count, cuts, any_order, arguments) \
    static range_set_status write_##name(const Arguments *given, void *out, size_t room, size_t *written) \
    { \
        Made made = {.u64 = {NULL, 0}}; \
        range_set_status status = given->lists[0].is_signed ? range_set_i64_##name(arguments(i64), out, room, &made.i64) \
                                                            : range_set_u64_##name(arguments(u64), out, room, &made.u64); \
        *written = made.u64.len; \
        return status; \
    } \
    PyObject *core_##name(PyObject *module, PyObject *const *args, Py_ssize_t n) \
    { return operate(args, n, list_count, cuts, any_order, write_##name); }

OPERATION(union, 2, NONE, SORTED, LISTS)
OPERATION(intersection, 2, BOTH, SORTED, LISTS)
OPERATION(difference, 2, RIGHT, SORTED, LISTS)
OPERATION(symmetric_difference, 2, NONE, SORTED, LISTS)
OPERATION(negation, 1, NONE, SORTED, LIST)
OPERATION(from_values, 1, NONE, ANY_ORDER, VALUES)

/* ---- Lists made of a copy, in its place ---- */

typedef range_set_status Arrangement(const List *copy, size_t *written);

#define ARRANGEMENT(name, call, pairs, count) \
    static range_set_status arrange_##name(const List *copy, size_t *written) \
    { \
        Made made = {.u64 = {NULL, 0}}; \
        range_set_status status = copy->is_signed ? range_set_i64_##call(copy->items, count, &made.i64) \
                                                  : range_set_u64_##call(copy->items, count, &made.u64); \
        *written = made.u64.len; \
        return status; \
    } \
    static PyObject *core_##name(PyObject *module, PyObject *object) { return arrange(object, pairs, arrange_##name); }

/* Takes the bytes over, which have `len` numbers. */
static PyObject *arranged(PyObject *bytes, size_t len, bool is_signed, Arrangement *call)
{
    if (bytes == NULL) return NULL;
    List list = {.items = PyBytes_AS_STRING(bytes), .len = len, .is_signed = is_signed};
    size_t written = 0;
    PyThreadState *thread = let_others_run(len);
    range_set_status status = call(&list, &written);
    go_on(thread);
    return list_or_error(bytes, written, is_signed, status);
}

static PyObject *arrange(PyObject *object, bool pairs, Arrangement *call)
{
    List list;
    if (!borrow(object, &list, pairs, false)) return NULL;
    PyObject *bytes = PyBytes_FromStringAndSize(list.items, 8 * list.len);
    release(&list);
    return arranged(bytes, list.len, list.is_signed, call);
}

ARRANGEMENT(from_boundaries, view, false, copy->len)
ARRANGEMENT(from_unsorted, from_unsorted, false, copy->len)
ARRANGEMENT(from_ranges, from_ranges, true, copy->len / 2)

/* What `from_pairs` is given. It reads tuples alone, since numbers of other types may run code that changes a list. */
typedef enum { OTHER, PAIR, TUPLE_OF_PAIRS, LIST_OF_PAIRS } Source;

static bool is_pair(PyObject *object)
{
    return PyTuple_CheckExact(object) && PyTuple_GET_SIZE(object) == 2 && PyIndex_Check(PyTuple_GET_ITEM(object, 0))
           && PyIndex_Check(PyTuple_GET_ITEM(object, 1));
}

/* Its items may be others. */
static Source source_of(PyObject *object)
{
    if (PyList_CheckExact(object)) return LIST_OF_PAIRS;
    if (is_pair(object)) return PAIR;
    return PyTuple_CheckExact(object) ? TUPLE_OF_PAIRS : OTHER;
}

static bool read_pair(PyObject *pair, bool is_signed, uint64_t *out)
{
    return is_pair(pair) && read_number(PyTuple_GET_ITEM(pair, 0), is_signed, &out[0])
           && read_number(PyTuple_GET_ITEM(pair, 1), is_signed, &out[1]);
}

/* Reads a tuple of pairs. If it was a list, a pair may be a list too. */
static bool read_pairs(PyObject *pairs, bool was_list, bool is_signed, uint64_t *out)
{
    bool fits = true;
    for (Py_ssize_t i = 0; fits && i < PyTuple_GET_SIZE(pairs); i++) {
        PyObject *item = PyTuple_GET_ITEM(pairs, i), *pair = was_list && PyList_CheckExact(item) ? PyList_AsTuple(item) : Py_NewRef(item);
        fits = pair != NULL && read_pair(pair, is_signed, &out[2 * i]);
        Py_XDECREF(pair);
    }
    return fits;
}

/* The numbers of a pair of whole numbers, or of a list or a tuple of these, in bytes, or None for anything else. */
static PyObject *core_numbers_of_pairs(PyObject *module, PyObject *const *args, Py_ssize_t n)
{
    if (!has_arguments(n, 2)) return NULL;
    bool is_signed = args[1] == Py_False;
    Source source = source_of(args[0]);
    if (source == OTHER) Py_RETURN_NONE;
    PyObject *pairs = source == LIST_OF_PAIRS ? PyList_AsTuple(args[0]) : Py_NewRef(args[0]);
    if (pairs == NULL) return NULL;
    size_t len = source == PAIR ? 1 : PyTuple_GET_SIZE(pairs);
    PyObject *bytes = PyBytes_FromStringAndSize(NULL, 16 * len);
    uint64_t *out = bytes == NULL ? NULL : (uint64_t *)PyBytes_AS_STRING(bytes);
    bool fits = out != NULL
                && (source == PAIR ? read_pair(pairs, is_signed, out) : read_pairs(pairs, source == LIST_OF_PAIRS, is_signed, out));
    Py_DECREF(pairs);
    if (out == NULL || fits) return bytes;
    /* It is read anew, and the error says more. */
    PyErr_Clear();
    Py_DECREF(bytes);
    Py_RETURN_NONE;
}

/* The union of the same. */
static PyObject *core_from_pairs(PyObject *module, PyObject *const *args, Py_ssize_t n)
{
    PyObject *bytes = core_numbers_of_pairs(module, args, n);
    return bytes == NULL || bytes == Py_None ? bytes : arranged(bytes, PyBytes_GET_SIZE(bytes) / 8, args[1] == Py_False, arrange_from_ranges);
}

/* The starts and ends in turn of a list of pairs of anything, or None for anything else. */
static PyObject *core_ends_of_pairs(PyObject *module, PyObject *source)
{
    /* Making the list may run Python's code, and by it a change. */
    PyObject *pairs = PyList_CheckExact(source) ? PyList_AsTuple(source) : PyTuple_New(0), *ends = NULL;
    Py_ssize_t count = pairs == NULL ? 0 : PyTuple_GET_SIZE(pairs), i = 0;
    while (i < count && PyTuple_CheckExact(PyTuple_GET_ITEM(pairs, i)) && PyTuple_GET_SIZE(PyTuple_GET_ITEM(pairs, i)) == 2) i++;
    if (pairs != NULL) ends = count > 0 && i == count ? PyList_New(2 * count) : Py_NewRef(Py_None);
    for (i = 0; ends != NULL && ends != Py_None && i < 2 * count; i++)
        PyList_SET_ITEM(ends, i, Py_NewRef(PyTuple_GET_ITEM(PyTuple_GET_ITEM(pairs, i / 2), i % 2)));
    Py_XDECREF(pairs);
    return ends;
}

/* The union of ranges by the numbers of their starts and ends in turn, or None if one isn't from the least to the most. */
static PyObject *core_from_codes(PyObject *module, PyObject *const *args, Py_ssize_t n)
{
    uint64_t least, most;
    bool is_signed = n == 4 && args[3] == Py_False, fits = true;
    if (!has_arguments(n, 4) || !read_number(args[1], is_signed, &least) || !read_number(args[2], is_signed, &most)) return NULL;
    if (!PyList_CheckExact(args[0])) return PyErr_Format(PyExc_TypeError, "expected a list of numbers");
    Py_ssize_t len = PyList_GET_SIZE(args[0]);
    PyObject *bytes = PyBytes_FromStringAndSize(NULL, 8 * len);
    uint64_t *out = bytes == NULL ? NULL : (uint64_t *)PyBytes_AS_STRING(bytes);
    for (Py_ssize_t i = 0; out != NULL && fits && i < len; i++)
        fits = PyLong_CheckExact(PyList_GET_ITEM(args[0], i)) && read_number(PyList_GET_ITEM(args[0], i), is_signed, &out[i])
               && is_reversed((Range){out[i], least, true}, is_signed) && is_reversed((Range){most, out[i], true}, is_signed);
    if (fits) return arranged(bytes, len, is_signed, arrange_from_ranges);
    PyErr_Clear();
    Py_DECREF(bytes);
    Py_RETURN_NONE;
}

/* ---- Questions ---- */

typedef bool Question(const Arguments *given);

static PyObject *ask(PyObject *const *args, Py_ssize_t n, int lists, int numbers, int cuts, Question *call)
{
    Arguments given;
    bool answer = false;
    if (!read_arguments(&given, args, n, lists, numbers, 0, 0)) return NULL;
    if (lists == 2) cut(&given, cuts);
    PyThreadState *thread = let_others_run(lists == 2 ? given.lists[0].len + given.lists[1].len : 0);
    range_set_status status = lists == 2 ? check_sorted(&given) : RANGE_SET_DONE;
    if (status == RANGE_SET_DONE) answer = call(&given);
    go_on(thread);
    release_all(&given);
    return status == RANGE_SET_DONE ? PyBool_FromLong(answer) : raise_status(status, 0);
}

#define QUESTION(name, list_count, number_count, cuts, answer) \
    static bool ask_##name(const Arguments *given) { return answer; } \
    static PyObject *core_##name(PyObject *module, PyObject *const *args, Py_ssize_t n) \
    { return ask(args, n, list_count, number_count, cuts, ask_##name); }

QUESTION(is_signed, 1, 0, NONE, given->lists[0].is_signed)
QUESTION(is_sorted, 1, 0, NONE, check_sorted(given) == RANGE_SET_DONE)
QUESTION(is_empty, 1, 0, NONE, CALL(is_empty, LIST))
QUESTION(is_disjoint, 2, 0, BOTH, CALL(is_disjoint, LISTS))
QUESTION(intersects, 2, 0, BOTH, CALL(intersects, LISTS))
QUESTION(is_subset, 2, 0, RIGHT, CALL(is_subset, LISTS))
QUESTION(equal, 2, 0, NONE, CALL(equal, LISTS))

/* ---- Numbers and ranges ---- */

/* A set that changes may stand in the place of the list. It is looked at when the numbers are read, which may run Python's code. */
static bool read_question(Arguments *given, PyObject *const *args, Py_ssize_t n, int numbers, int counts, bool wants_chunks)
{
    bool is_signed;
    if (n == 0 || !is_chunks(args[0], &is_signed)) return read_arguments(given, args, n, 1, numbers, counts, 0);
    bool fits = has_arguments(n, 1 + numbers + counts);
    given->held = 0;
    given->any_order = false;
    fits = fits && read_numbers(given, args + 1, is_signed, numbers, counts);
    if (!fits || !see_chunks(args[0], wants_chunks, &given->lists[0], &given->chunked)) return false;
    return given->lists[0].is_signed == is_signed || refuse(PyExc_TypeError, "the kind of the set has changed meanwhile");
}

/* A call of range_set.h for the set in chunks or the list. */
#define ASK_OF(type, name, ...) \
    (given->chunked ? range_set_##type##_chunked_##name(given->chunked->type, __VA_ARGS__) \
                    : range_set_##type##_##name(SET(type, given->lists[0]), __VA_ARGS__))

/* The same of where a count of numbers fits, which chunks remember. */
#define ASK_TO_FIT(type, name, ...) \
    (given->chunked ? range_set_##type##_chunked_##name(&given->chunked->type, __VA_ARGS__) \
                    : range_set_##type##_##name(SET(type, given->lists[0]), __VA_ARGS__))

/* Each for a type of numbers, which `as_python` makes a number of Python's. */
#define FOUND(type, name, ...) \
    static PyObject *find_##name##_##type(const Arguments *given) { __VA_ARGS__ }
#define FOUND_RANGE(type, name) \
    FOUND(type, name, range_set_##type##_range range; \
          if (!ASK_OF(type, name, given->numbers[0], &range)) Py_RETURN_NONE; \
          return found_range_##type(range.start, &range);)
#define FOUND_NUMBER(type, number, as_python, name, asked, ...) \
    FOUND(type, name, number found; \
          return asked(type, name, __VA_ARGS__, &found) ? as_python(found) : Py_NewRef(Py_None);)
#define FINDS(type, number, as_python) \
    static PyObject *found_range_##type(number start, const range_set_##type##_range *last) \
    { \
        return Py_BuildValue("NN", as_python(start), last->has_end ? as_python(last->end) : Py_NewRef(Py_None)); \
    } \
    FOUND(type, contains, return PyBool_FromLong(ASK_OF(type, contains, given->numbers[0]));) \
    FOUND(type, contains_range, return PyBool_FromLong(ASK_OF(type, contains_range, given->numbers[0], given->numbers[1]));) \
    FOUND(type, rank, return PyLong_FromUnsignedLongLong(ASK_OF(type, rank, given->numbers[0]));) \
    FOUND_RANGE(type, range_at) \
    FOUND_RANGE(type, range_from) \
    FOUND_NUMBER(type, number, as_python, next_member, ASK_OF, given->numbers[0]) \
    FOUND_NUMBER(type, number, as_python, next_gap, ASK_OF, given->numbers[0]) \
    FOUND_NUMBER(type, number, as_python, prev_member, ASK_OF, given->numbers[0]) \
    FOUND_NUMBER(type, number, as_python, prev_gap, ASK_OF, given->numbers[0]) \
    FOUND(type, span, range_set_##type##_range first, last; \
          if (!ASK_OF(type, first, &first) || !ASK_OF(type, last, &last)) Py_RETURN_NONE; \
          return found_range_##type(first.start, &last);) \
    FOUND(type, split, range_set_##type below, from; \
          range_set_##type##_split(LIST_AND_NUMBER(type), &below, &from); \
          return Py_BuildValue("nn", (Py_ssize_t)below.len, (Py_ssize_t)(given->lists[0].len - from.len));) \
    FOUND_NUMBER(type, number, as_python, first_fit, ASK_TO_FIT, given->numbers[0], given->numbers[1], given->counts[0]) \
    FOUND_NUMBER(type, number, as_python, first_fit_from, ASK_TO_FIT, given->numbers[0], given->counts[0]) \
    FOUND_NUMBER(type, number, as_python, first_fit_aligned, ASK_TO_FIT, given->numbers[0], given->numbers[1], given->counts[0], given->counts[1]) \
    FOUND_NUMBER(type, number, as_python, first_fit_aligned_from, ASK_TO_FIT, given->numbers[0], given->counts[0], given->counts[1]) \
    FOUND_NUMBER(type, number, as_python, first_run, ASK_OF, given->numbers[0], given->numbers[1], given->counts[0]) \
    FOUND_NUMBER(type, number, as_python, first_run_from, ASK_OF, given->numbers[0], given->counts[0]) \
    FOUND_NUMBER(type, number, as_python, select, ASK_OF, given->counts[0]) \
    FOUND(type, covered, uint64_t count; \
          range_set_status status = check_sorted(given); \
          if (status != RANGE_SET_DONE) return raise_status(status, 0); \
          return ASK_OF(type, covered, &count) ? PyLong_FromUnsignedLongLong(count) : Py_NewRef(Py_None);)

FINDS(i64, int64_t, PyLong_FromLongLong)
FINDS(u64, uint64_t, PyLong_FromUnsignedLongLong)

#define FIND(name, number_count, count_count, wants_chunks) \
    static PyObject *core_##name(PyObject *module, PyObject *const *args, Py_ssize_t n) \
    { \
        Arguments given; \
        if (!read_question(&given, args, n, number_count, count_count, wants_chunks)) return NULL; \
        PyObject *found = given.lists[0].is_signed ? find_##name##_i64(&given) : find_##name##_u64(&given); \
        release_all(&given); \
        return found; \
    }

FIND(contains, 1, 0, false)
FIND(contains_range, 2, 0, false)
FIND(range_at, 1, 0, false)
FIND(range_from, 1, 0, false)
FIND(next_member, 1, 0, false)
FIND(next_gap, 1, 0, false)
FIND(prev_member, 1, 0, false)
FIND(prev_gap, 1, 0, false)
FIND(span, 0, 0, false)
FIND(split, 1, 0, false)
FIND(rank, 1, 0, false)
/* The chunks remember the gaps. */
FIND(first_fit, 2, 1, true)
FIND(first_fit_from, 1, 1, true)
FIND(first_fit_aligned, 2, 2, true)
FIND(first_fit_aligned_from, 1, 2, true)
FIND(first_run, 2, 1, false)
FIND(first_run_from, 1, 1, false)
FIND(select, 0, 1, false)
FIND(covered, 0, 0, false)

/* ---- Questions of many numbers ---- */

/* A number that follows the one before, within FAR boundaries, is sought from there on by longer and longer parts, and another in
 * the whole list. Then it is asked for in the first range that ends above it. */
enum { FAR = 4096 };

#define EACH(type, number) \
    static range_set_##type rest_##type(range_set_##type set, range_set_##type rest, number value) \
    { \
        bool is_after = rest.len < set.len && rest.boundaries[-1] <= value && (rest.len <= FAR || rest.boundaries[FAR - 1] > value); \
        range_set_##type from = is_after ? rest : set; \
        size_t part = 8; \
        while (is_after && part < from.len && from.boundaries[part - 1] <= value) part *= 8; \
        range_set_##type##_split((range_set_##type){from.boundaries, is_after && part < from.len ? part : from.len}, value, NULL, &rest); \
        return (range_set_##type){rest.boundaries, from.len - (rest.boundaries - from.boundaries)}; \
    } \
    static void each_##type(range_set_##type set, const List *values, uint64_t *below, uint64_t *out) \
    { \
        const number *asked = values->items; \
        range_set_##type rest = set; \
        for (size_t i = 0; below != NULL && i < set.len; i += 2) { \
            range_set_##type##_covered((range_set_##type){set.boundaries + i, i + 1 < set.len ? 2 : 0}, &below[i / 2 + 1]); \
            below[i / 2 + 1] += below[i / 2]; \
        } \
        for (size_t i = 0; i < values->len; i++) { \
            rest = rest_##type(set, rest, asked[i]); \
            range_set_##type first = {rest.boundaries, rest.len < 2 ? rest.len : 2}; \
            size_t place = set.len - rest.len; \
            if (below != NULL) out[i] = below[place / 2] + range_set_##type##_rank(first, asked[i]); \
            else out[i] = range_set_##type##_contains(first, asked[i]) ? place : SIZE_MAX; \
        } \
    }

EACH(i64, int64_t)
EACH(u64, uint64_t)

/* For each number of the second list how many members of the first are below, or else at which place in it the number's range starts,
 * or -1: as numbers in bytes. */
static PyObject *each(PyObject *const *args, Py_ssize_t n, bool is_rank)
{
    Arguments given;
    if (!read_arguments(&given, args, n, 2, 0, 0, 0)) return NULL;
    const List *set = &given.lists[0], *values = &given.lists[1];
    uint64_t *below = is_rank ? PyMem_Calloc(set->len / 2 + 2, 8) : NULL;
    PyObject *bytes = is_rank && below == NULL ? PyErr_NoMemory() : PyBytes_FromStringAndSize(NULL, 8 * values->len);
    if (bytes != NULL) {
        void *out = PyBytes_AS_STRING(bytes);
        PyThreadState *thread = let_others_run(values->len);
        if (set->is_signed) each_i64(SET(i64, *set), values, below, out);
        else each_u64(SET(u64, *set), values, below, out);
        go_on(thread);
    }
    PyMem_Free(below);
    release_all(&given);
    return bytes;
}

/* For each number of the second list whether it is a member of the first, as bools in bytes. */
static PyObject *core_contains_each(PyObject *module, PyObject *const *args, Py_ssize_t n)
{
    Arguments given;
    if (!read_arguments(&given, args, n, 2, 0, 0, 0)) return NULL;
    const List *set = &given.lists[0], *values = &given.lists[1];
    PyObject *bytes = PyBytes_FromStringAndSize(NULL, values->len);
    if (bytes != NULL) {
        bool *found = (bool *)PyBytes_AS_STRING(bytes);
        PyThreadState *thread = let_others_run(values->len);
        range_set_status status = set->is_signed ? range_set_i64_contains_each(SET(i64, *set), values->items, values->len, found)
                                                 : range_set_u64_contains_each(SET(u64, *set), values->items, values->len, found);
        go_on(thread);
        if (status != RANGE_SET_DONE) {
            Py_CLEAR(bytes);
            raise_status(status, 0);
        }
    }
    release_all(&given);
    return bytes;
}

#define EACH_OF(name, is_rank) \
    static PyObject *core_##name(PyObject *module, PyObject *const *args, Py_ssize_t n) { return each(args, n, is_rank); }

EACH_OF(places, false)
EACH_OF(ranks, true)

/* ---- The module ---- */

#define METHOD(name) {#name, (PyCFunction)(void (*)(void))core_##name, METH_FASTCALL, NULL}
#define METHOD_OF_ONE(name) {#name, core_##name, METH_O, NULL}

static PyMethodDef methods[] = {
    METHOD(union), METHOD(intersection), METHOD(difference), METHOD(symmetric_difference), METHOD(negation),
    METHOD_OF_ONE(from_boundaries), METHOD_OF_ONE(from_unsorted), METHOD_OF_ONE(from_ranges), METHOD(is_signed), METHOD(is_sorted),
    METHOD(is_empty), METHOD(contains), METHOD(contains_range), METHOD(is_disjoint), METHOD(intersects), METHOD(is_subset),
    METHOD(equal), METHOD(range_at), METHOD(range_from), METHOD(next_member), METHOD(next_gap), METHOD(prev_member), METHOD(prev_gap),
    METHOD(split), METHOD(rank), METHOD(first_fit), METHOD(first_fit_from), METHOD(first_fit_aligned), METHOD(first_fit_aligned_from),
    METHOD(first_run), METHOD(first_run_from), METHOD(select), METHOD(covered), METHOD(span), METHOD(parse),
    METHOD_OF_ONE(print), METHOD_OF_ONE(pack), METHOD_OF_ONE(unpack), METHOD(over), METHOD(from_values), METHOD(places), METHOD(ranks),
    METHOD(contains_each), METHOD(range_list), METHOD(from_pairs), METHOD_OF_ONE(ends_of_pairs), METHOD(from_codes), METHOD(numbers_of_pairs), METHOD(depths), METHOD(ends_and_values), METHOD(moved),
    METHOD(at_least), METHOD(mirror), METHOD_OF_ONE(numbers_of_floats), METHOD_OF_ONE(lengths_of_floats), METHOD(number_of_time), METHOD(numbers_of_times),
    {NULL, NULL, 0, NULL},
};

static struct PyModuleDef definition = {PyModuleDef_HEAD_INIT, .m_name = "range_sets._core", .m_methods = methods,
                                        .m_slots = (PyModuleDef_Slot[]){{Py_mod_exec, add_lists}, {Py_mod_exec, add_sets}, {Py_mod_exec, add_chunks}, {Py_mod_exec, add_maps}, {0, NULL}}};

PyMODINIT_FUNC PyInit__core(void)
{
    return PyModuleDef_Init(&definition);
}
