/* Times of Python's as numbers. It is tested, not proved. */
#include "_lists.h"
#include <datetime.h>

enum { DAY = 86400, MICROSECONDS = 1000000 };

/* The days from 1970 on of a date of Python's calendar, in which a year begins with March here, so that a leap day is its last. */
static int64_t days_of(int year, int month, int day)
{
    int64_t from_march = month > 2 ? year : year - 1, of_year = (153 * (month > 2 ? month - 3 : month + 9) + 2) / 5 + day - 1;
    return 365 * from_march + from_march / 4 - from_march / 100 + from_march / 400 + of_year - 719468;
}

/* The microseconds by which the clock of a time goes before that of UTC; false if it has no time zone, or its zone raises an error. */
static bool read_offset(PyObject *time, int64_t *offset)
{
    *offset = 0;
    if (PyDateTime_DATE_GET_TZINFO(time) == PyDateTime_TimeZone_UTC) return true;
    PyObject *delta = PyObject_CallMethod(time, "utcoffset", NULL);
    bool is_aware = delta != NULL && PyDelta_Check(delta);
    if (is_aware) *offset = ((int64_t)PyDateTime_DELTA_GET_DAYS(delta) * DAY + PyDateTime_DELTA_GET_SECONDS(delta)) * MICROSECONDS
                            + PyDateTime_DELTA_GET_MICROSECONDS(delta);
    Py_XDECREF(delta);
    return is_aware;
}

/* The microseconds from 1970 on of a time with a time zone, or without one; false if it is another, or its zone raises an error. */
static bool read_time(PyObject *time, bool is_aware, int64_t *number)
{
    int64_t offset = 0;
    if (!PyDateTime_CheckExact(time)) return false;
    /* A zone may say of some times that they have none. */
    bool has_zone = PyDateTime_DATE_GET_TZINFO(time) != Py_None && read_offset(time, &offset);
    if (PyErr_Occurred() || has_zone != is_aware) return false;
    int64_t days = days_of(PyDateTime_GET_YEAR(time), PyDateTime_GET_MONTH(time), PyDateTime_GET_DAY(time));
    int64_t seconds = days * DAY + PyDateTime_DATE_GET_HOUR(time) * 3600 + PyDateTime_DATE_GET_MINUTE(time) * 60
                      + PyDateTime_DATE_GET_SECOND(time);
    *number = seconds * MICROSECONDS + PyDateTime_DATE_GET_MICROSECOND(time) - offset;
    return true;
}

static bool is_ready(void)
{
    if (PyDateTimeAPI == NULL) PyDateTime_IMPORT;
    return PyDateTimeAPI != NULL;
}

/* The number of a time, or None if it is no time of Python's own with a time zone, or without one. Is given whether it has one. */
PyObject *core_number_of_time(PyObject *module, PyObject *const *args, Py_ssize_t n)
{
    int64_t number;
    if (!has_arguments(n, 2) || !is_ready()) return NULL;
    if (read_time(args[0], args[1] == Py_True, &number)) return PyLong_FromLongLong(number);
    return PyErr_Occurred() ? NULL : Py_NewRef(Py_None);
}

/* The same of each time of a list, or None if one has no number. */
PyObject *core_numbers_of_times(PyObject *module, PyObject *const *args, Py_ssize_t n)
{
    return has_arguments(n, 2) && is_ready() ? numbers_of(args[0], read_time, args[1] == Py_True) : NULL;
}
