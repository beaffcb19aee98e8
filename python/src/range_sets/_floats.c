/* Floats in the order of their bits. It is tested, not proved. */
#include "_lists.h"

/* Of those below zero, the bits of what they are above it with a minus: so floats have numbers in their order, and numbers floats. */
static int64_t mirrored(int64_t bits)
{
    return bits >= 0 ? bits : INT64_MIN - bits;
}

/* Writes the numbers of floats that are given by their bits, or the bits of floats that are given by their numbers, into a buffer. */
PyObject *core_mirror(PyObject *module, PyObject *const *args, Py_ssize_t n)
{
    List list, out;
    if (!has_arguments(n, 2) || !borrow(args[0], &list, false, false)) return NULL;
    bool fits = borrow(args[1], &out, false, true);
    if (fits) {
        const int64_t *from = list.items;
        int64_t *to = out.items;
        fits = list.len == out.len || refuse(PyExc_ValueError, "expected a buffer of the same length");
        for (size_t i = 0; fits && i < list.len; i++) to[i] = mirrored(from[i]);
        release(&out);
    }
    release(&list);
    return fits ? Py_NewRef(Py_None) : NULL;
}

/* The number of a float of Python's that isn't NaN. */
static bool read_float(PyObject *value, bool unused, int64_t *number)
{
    double found = PyFloat_Check(value) ? PyFloat_AS_DOUBLE(value) : NAN;
    memcpy(number, &found, sizeof found);
    *number = mirrored(*number);
    return !isnan(found);
}

PyObject *core_numbers_of_floats(PyObject *module, PyObject *values)
{
    return numbers_of(values, read_float, false);
}

/* ---- Sums ---- */

/* Floats by their exponents: the sums of what they have at each, in halves so that none overflows. */
enum { EXPONENTS = 2048, MANTISSA = 52 };

typedef struct {
    uint64_t low[EXPONENTS], high[EXPONENTS];
} Sums;

static double float_of(int64_t number)
{
    double value;
    int64_t bits = mirrored(number);
    memcpy(&value, &bits, sizeof value);
    return value;
}

static void add_length(Sums *sums, double length)
{
    uint64_t bits;
    memcpy(&bits, &length, sizeof bits);
    /* Without the sign, which a length has if the numbers aren't those of floats in order. */
    size_t exponent = bits >> MANTISSA & (EXPONENTS - 1);
    uint64_t part = bits & (((uint64_t)1 << MANTISSA) - 1);
    if (exponent > 0) part |= (uint64_t)1 << MANTISSA;
    sums->low[exponent] += part & UINT32_MAX;
    sums->high[exponent] += part >> 32;
}

/* Adds `count` times 2 to the power `at` to a list of pairs. */
static bool append(PyObject *list, uint64_t count, size_t at)
{
    PyObject *pair = Py_BuildValue("Kn", (unsigned long long)count, (Py_ssize_t)at);
    bool fits = pair != NULL && PyList_Append(list, pair) == 0;
    Py_XDECREF(pair);
    return fits;
}

/* The lengths of the ranges of a list of numbers of floats, as pairs of a count and a power of two, of the least float above zero:
 * their sum is that of all lengths. An infinite one counts as more than any float. */
PyObject *core_lengths_of_floats(PyObject *module, PyObject *object)
{
    List list;
    if (!borrow(object, &list, false, false)) return NULL;
    Sums *sums = PyMem_Calloc(1, sizeof *sums);
    PyObject *pairs = sums == NULL ? PyErr_NoMemory() : PyList_New(0);
    if (pairs != NULL) {
        const int64_t *numbers = list.items;
        PyThreadState *thread = let_others_run(list.len);
        for (size_t i = 0; i + 1 < list.len; i += 2) add_length(sums, float_of(numbers[i + 1]) - float_of(numbers[i]));
        go_on(thread);
    }
    bool fits = pairs != NULL;
    for (size_t i = 0; fits && i < EXPONENTS; i++) {
        size_t at = i > 0 ? i - 1 : 0;
        if (sums->low[i] > 0) fits = append(pairs, sums->low[i], at);
        if (fits && sums->high[i] > 0) fits = append(pairs, sums->high[i], at + 32);
    }
    if (!fits) Py_CLEAR(pairs);
    PyMem_Free(sums);
    release(&list);
    return pairs;
}
