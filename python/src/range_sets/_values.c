/* The values of a map by their numbers. */
#include "_values.h"

/* ---- Numbers by hashes ---- */

size_t first_slot(const Numbers *self, uint64_t hash)
{
    /* Of values made one after the other, which lie side by side, so do the slots; those far apart are spread. */
    return (size_t)((hash >> 4) + (hash >> 16) * 0x9E3779B97F4A7C15u) & (self->room - 1);
}

size_t next_number(const Numbers *self, uint64_t hash, size_t *slot)
{
    if (self->room == 0) return NONE;
    for (;; ++*slot) {
        *slot &= self->room - 1;
        if (self->slots[*slot].number == NONE || self->slots[*slot].hash == hash) return self->slots[*slot].number;
    }
}

/* Puts a number in, for which there is room. */
static void put_number(Numbers *self, uint64_t hash, size_t number)
{
    size_t slot = first_slot(self, hash);
    while (self->slots[slot].number != NONE) slot = (slot + 1) & (self->room - 1);
    self->slots[slot].hash = hash;
    self->slots[slot].number = number;
    self->used++;
}

bool add_number(Numbers *self, uint64_t hash, size_t number)
{
    if (2 * self->used == self->room) {
        Numbers made = {.room = self->room == 0 ? 8 : 2 * self->room};
        made.slots = PyMem_Malloc(made.room * sizeof *made.slots);
        if (made.slots == NULL) return PyErr_NoMemory() != NULL;
        for (size_t i = 0; i < made.room; i++) made.slots[i].number = NONE;
        for (size_t i = 0; i < self->room; i++) {
            if (self->slots[i].number != NONE) put_number(&made, self->slots[i].hash, self->slots[i].number);
        }
        PyMem_Free(self->slots);
        *self = made;
    }
    put_number(self, hash, number);
    return true;
}

/* Takes a number out. The next ones move up, so that a search meets no free slot before them. */
static void take_number(Numbers *self, uint64_t hash, size_t number)
{
    size_t last = self->room - 1, free = first_slot(self, hash), at;
    while (self->slots[free].number != number) free = (free + 1) & last;
    for (at = (free + 1) & last; self->slots[at].number != NONE; at = (at + 1) & last) {
        if (((at - first_slot(self, self->slots[at].hash)) & last) < ((at - free) & last)) continue;
        self->slots[free] = self->slots[at];
        free = at;
    }
    self->slots[free].number = NONE;
    self->used--;
}

/* ---- Values ---- */

/* Makes a free place. */
static bool make_room(Values *self)
{
    size_t used = self->room, room = used == 0 ? 4 : 2 * used;
    if (self->free != NONE) return true;
    Value *places = PyMem_Realloc(self->places, room * sizeof *places);
    if (places == NULL) return PyErr_NoMemory() != NULL;
    self->places = places;
    self->room = room;
    for (size_t i = room; i-- > used; self->free = i) places[i] = (Value){.next = self->free};
    return true;
}

#if PY_VERSION_HEX < 0x030C0000
/* As later Pythons have them. */
#define PyUnstable_Long_IsCompact(it) (Py_ABS(Py_SIZE(it)) <= 1)
#define PyUnstable_Long_CompactValue(it) (Py_SIZE(it) * (Py_ssize_t)(it)->ob_digit[0])
#endif

/* Whether two objects of one type are equal, or UNKNOWN unless they are floats, texts or small whole numbers, for which no call is made. */
static int are_equal_at_sight(PyObject *a, PyObject *b)
{
    if (PyFloat_CheckExact(a)) return PyFloat_AS_DOUBLE(a) == PyFloat_AS_DOUBLE(b);
    /* Before 3.12 a text that nothing has read yet may have no kind. */
    if (PyUnicode_CheckExact(a) && PyUnicode_KIND(a) != 0 && PyUnicode_KIND(b) != 0) {
        Py_ssize_t len = PyUnicode_GET_LENGTH(a), kind = PyUnicode_KIND(a);
        return PyUnicode_GET_LENGTH(b) == len && PyUnicode_KIND(b) == kind && memcmp(PyUnicode_DATA(a), PyUnicode_DATA(b), len * kind) == 0;
    }
    PyLongObject *m = (PyLongObject *)a, *n = (PyLongObject *)b;
    if (!PyLong_CheckExact(a) || !PyUnstable_Long_IsCompact(m) || !PyUnstable_Long_IsCompact(n)) return UNKNOWN;
    return PyUnstable_Long_CompactValue(m) == PyUnstable_Long_CompactValue(n);
}

/* Only what has a truth of its own is an answer: an array has one for each element, if the two fit at all. */
int are_one(PyObject *a, PyObject *b)
{
    if (a == b || !Py_IS_TYPE(a, Py_TYPE(b))) return a == b;
    int at_sight = are_equal_at_sight(a, b);
    if (at_sight != UNKNOWN) return at_sight;
    Py_INCREF(a);
    Py_INCREF(b);
    PyObject *answer = PyObject_RichCompare(a, b, Py_EQ);
    int is_one = 0;
    if (answer == NULL) {
        if (PyErr_ExceptionMatches(PyExc_ValueError)) PyErr_Clear();
        else is_one = -1;
    } else if (PyBool_Check(answer) || strncmp(Py_TYPE(answer)->tp_name, "numpy.bool", 10) == 0) {
        is_one = PyObject_IsTrue(answer);
    }
    Py_XDECREF(answer);
    Py_DECREF(a);
    Py_DECREF(b);
    return is_one;
}

static void see_left(Values *self, size_t number)
{
    Value *it = &self->places[number];
    if (it->ranges > 0 || it->calls > 0 || it->is_left) return;
    it->is_left = true;
    it->next = self->left;
    self->left = number;
}

bool find_or_add(Values *self, PyObject *value, size_t *number)
{
    uint64_t place = (uintptr_t)value;
    size_t slot = first_slot(&self->numbers, place);
    *number = next_number(&self->numbers, place, &slot);
    if (*number != NONE) return true;
    if (!make_room(self) || !add_number(&self->numbers, place, self->free)) return false;
    *number = self->free;
    self->free = self->places[*number].next;
    self->places[*number] = (Value){.value = Py_NewRef(value)};
    see_left(self, *number);
    return true;
}

void let_go(Values *self, size_t number)
{
    self->places[number].calls--;
    see_left(self, number);
}

void count_ranges(Values *self, size_t number, size_t by)
{
    self->places[number].ranges += by;
    see_left(self, number);
}

void drop_left(Values *self)
{
    while (self->left != NONE && self->readers == 0) {
        size_t number = self->left;
        Value *it = &self->places[number];
        self->left = it->next;
        it->is_left = false;
        if (it->ranges > 0 || it->calls > 0) continue;
        take_number(&self->numbers, (uintptr_t)it->value, number);
        it->next = self->free;
        self->free = number;
        Py_CLEAR(it->value);
    }
}

bool copy_values(const Values *self, Values *other)
{
    size_t places_size = self->room * sizeof *self->places, slots_size = self->numbers.room * sizeof *self->numbers.slots;
    if (self->room == 0) return true;
    Value *places = PyMem_Malloc(places_size);
    void *slots = PyMem_Malloc(slots_size);
    if (places == NULL || slots == NULL) {
        PyMem_Free(places);
        PyMem_Free(slots);
        return PyErr_NoMemory() != NULL;
    }
    *other = *self;
    other->places = memcpy(places, self->places, places_size);
    other->numbers.slots = memcpy(slots, self->numbers.slots, slots_size);
    other->readers = 0;
    /* The calls are about to put theirs into this table alone. */
    for (size_t i = 0; i < other->room; i++) {
        if (places[i].value == NULL) continue;
        Py_INCREF(places[i].value);
        places[i].calls = 0;
        see_left(other, i);
    }
    /* No value ends by this: the other table has it too. */
    drop_left(other);
    return true;
}

int visit_values(const Values *self, visitproc visit, void *arg)
{
    for (size_t i = 0; i < self->room; i++) Py_VISIT(self->places[i].value);
    return 0;
}

void clear_values(Values *self)
{
    Values all = *self;
    *self = (Values){.free = NONE, .left = NONE};
    PyMem_Free(all.numbers.slots);
    for (size_t i = 0; i < all.room; i++) Py_XDECREF(all.places[i].value);
    PyMem_Free(all.places);
}
