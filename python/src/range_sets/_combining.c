/* What is made of two maps. It is tested, not proved. */
#include "_maps.h"

typedef struct {
    Steps *maps[2];
    /* What is made: of two values by a function, and of one alone with what stands for the other, or NULL if it stays. */
    Steps *made;
    PyObject *how, *missing;
    /* The longest ranges whose keys have one value or none in each map, and one in either; and the numbers of these, or NONE. That of a
     * piece is the one of its value; before that it is NONE if no other piece has the pair. */
    Change *pieces;
    size_t (*pairs)[2];
    size_t len;
    /* The first piece of each pair that more may have. */
    Numbers firsts;
} Meeting;

static void forget(Meeting *meeting)
{
    PyMem_Free(meeting->pieces);
    PyMem_Free(meeting->pairs);
    PyMem_Free(meeting->firsts.slots);
}

/* The stretch from a key on, which may have no value: of a walk, and the range that it gave last. */
static Stretch stretch_on(Steps *self, Walk *walk, Stretch *next, uint64_t at)
{
    if (next->has_end && next->end == at && !step(self, walk, next)) *next = (Stretch){.has_value = false};
    return next->has_value && next->start == at ? *next : (Stretch){.end = next->start, .has_end = next->has_value};
}

static bool has_one_range(const Steps *self, size_t number)
{
    return number != NONE && self->values.places[number].ranges == 1;
}

/* Goes over both maps. It runs no code of Python. */
static bool meet(Meeting *meeting)
{
    Steps *self = meeting->maps[0], *other = meeting->maps[1];
    Walk of_mine, of_theirs;
    uint64_t at = LEAST(self);
    Stretch a = {.end = at, .has_end = true}, b = a, next = a, other_next = a;
    begin_walk(self, ALL(self), &of_mine);
    begin_walk(other, ALL(other), &of_theirs);
    /* Each end of a range begins one piece at most. */
    size_t most = 2 * (self->len + other->len);
    meeting->pieces = PyMem_Malloc(most * sizeof *meeting->pieces);
    meeting->pairs = PyMem_Malloc(most * sizeof *meeting->pairs);
    if (meeting->pieces == NULL || meeting->pairs == NULL) return PyErr_NoMemory() != NULL;
    while (a.has_end || b.has_end) {
        if (a.has_end && a.end == at) a = stretch_on(self, &of_mine, &next, at);
        if (b.has_end && b.end == at) b = stretch_on(other, &of_theirs, &other_next, at);
        bool is_mine = !b.has_end || (a.has_end && is_reversed((Range){b.end, a.end, true}, self->is_signed));
        const Stretch *first = is_mine ? &a : &b;
        if (a.has_value || b.has_value) {
            size_t *pair = meeting->pairs[meeting->len];
            pair[0] = a.has_value ? a.value : NONE;
            pair[1] = b.has_value ? b.value : NONE;
            bool is_once = has_one_range(self, pair[0]) && has_one_range(other, pair[1]);
            meeting->pieces[meeting->len++] = (Change){{at, first->end, first->has_end}, is_once ? NONE : 0};
        }
        at = first->end;
    }
    return true;
}

/* What is made of a pair, which a caller owns. */
static PyObject *made_of(const Meeting *meeting, const size_t *pair)
{
    PyObject *both[2];
    for (int i = 0; i < 2; i++)
        both[i] = pair[i] == NONE ? meeting->missing : meeting->maps[i]->values.places[pair[i]].value;
    return PyObject_Vectorcall(meeting->how, both, 2, NULL);
}

/* The same, once for all pieces of a pair: the first has the number of what was made as its second one. Two of one hash that begin alike are
 * one pair. */
static PyObject *made_once(Meeting *meeting, size_t piece)
{
    size_t *pair = meeting->pairs[piece], first;
    uint64_t hash = pair[0] * 0xD1B54A32D192ED03u + pair[1];
    Values *values = &meeting->made->values;
    size_t slot = first_slot(&meeting->firsts, hash);
    for (; (first = next_number(&meeting->firsts, hash, &slot)) != NONE; slot++) {
        if (meeting->pairs[first][0] == pair[0]) return Py_NewRef(values->places[meeting->pairs[first][1]].value);
    }
    PyObject *value = made_of(meeting, pair);
    if (value != NULL && !(find_or_add(values, value, &pair[1]) && add_number(&meeting->firsts, hash, piece))) Py_CLEAR(value);
    return value;
}

/* Leaves with a piece the number of its value, or of the one before it if these touch and are one. */
static bool number_value(Meeting *meeting, size_t piece, PyObject *value)
{
    Values *values = &meeting->made->values;
    Change *it = &meeting->pieces[piece], *before = piece > 0 ? it - 1 : NULL;
    bool touches = before != NULL && before->range.has_end && before->range.end == it->range.start;
    int is_one = touches ? are_one(values->places[before->number].value, value) : 0;
    if (is_one > 0) it->number = before->number;
    return is_one > 0 || (is_one == 0 && find_or_add(values, value, &it->number));
}

/* Leaves with each piece the number of what is made of its pair, in order and once for each pair. */
static bool make_values(Meeting *meeting)
{
    bool fits = true;
    for (size_t i = 0; fits && i < meeting->len; i++) {
        const size_t *pair = meeting->pairs[i];
        int side = pair[0] == NONE;
        PyObject *value;
        if (meeting->missing == NULL && pair[!side] == NONE) value = Py_NewRef(meeting->maps[side]->values.places[pair[side]].value);
        else value = meeting->pieces[i].number == NONE ? made_of(meeting, pair) : made_once(meeting, i);
        fits = value != NULL && number_value(meeting, i, value);
        Py_XDECREF(value);
    }
    return fits;
}

/* Another map of what a function makes of the values of both, once for each pair that meets. Is given the other map, the function, and
 * what stands for no value, or else what does so elsewhere. */
PyObject *steps_combine(Steps *self, PyObject *const *args, Py_ssize_t n)
{
    if (!has_arguments(n, 4)) return NULL;
    Steps *other = (Steps *)args[0], *made;
    if (!Py_IS_TYPE(args[0], Py_TYPE(self)) || other->is_signed != self->is_signed)
        return PyErr_Format(PyExc_TypeError, "expected another map of the kind");
    made = new_steps(Py_TYPE(self), self->is_signed);
    if (made == NULL) return NULL;
    Meeting meeting = {{self, other}, made, args[1], args[2] == args[3] ? NULL : args[2]};
    /* The function may run any code, which can't reach the map before it is whole, and drops no value of the others. */
    PyObject_GC_UnTrack(made);
    self->values.readers++;
    other->values.readers++;
    bool fits = settle(self) && settle(other);
    if (fits) {
        made->kind = Py_NewRef(self->kind);
        made->is_plain = self->is_plain;
        fits = meet(&meeting) && make_values(&meeting);
    }
    if (fits) {
        range_set_status status = list_in_order(made, meeting.pieces, meeting.len);
        fits = status == RANGE_SET_DONE || raise_status(status, 0) != NULL;
    }
    forget(&meeting);
    self->values.readers--;
    other->values.readers--;
    if (fits) PyObject_GC_Track(made);
    else Py_CLEAR(made);
    drop_unused(self);
    drop_unused(other);
    if (fits) drop_unused(made);
    return (PyObject *)made;
}
