/* A map from ranges to values: what it has, and how it is gone over. */
#ifndef RANGE_SETS_MAPS_H
#define RANGE_SETS_MAPS_H

#include "_values.h"

typedef union {
    range_map_i64 i64;
    range_map_u64 u64;
} Handle;

/* The number of the value that the keys of a range get, or NONE. */
typedef struct {
    Range range;
    size_t number;
} Change;

typedef struct {
    PyObject_HEAD
    /* The kind of the keys, as Python has it. */
    PyObject *kind;
    /* The map from ranges to the numbers of values, or {NULL}; and if it has a list, the ends of the ranges in turn, as numbers in bytes, and
     * the numbers of their values, NULL both where there is none. It has at least one of the two. */
    Handle handle;
    bool has_list;
    PyObject *ends;
    size_t *numbers;
    Values values;
    bool is_signed, is_plain;
    /* How many ranges have a value, and how often that was changed. */
    size_t len;
    uint64_t changes;
    /* What was there before changes that were refused memory midway, and then again to go back. Until all is put back, the last one
     * first, each call is refused memory. */
    Change *undo;
    size_t undo_len, undo_room;
} Steps;

typedef range_map_u64_stretch Stretch;

#define LEAST(self) least_of((self)->is_signed)
#define MOST(self) (LEAST(self) - 1)
#define ALL(self) ((Range){LEAST(self), 0, false})

/* Builds the library's map of the list. False where there is no memory for that: then there is the list as before. */
bool build(Steps *self);

/* The same if there is none yet. */
static inline bool is_built(Steps *self)
{
    return self->handle.u64.at != NULL || build(self);
}

/* Reads a range of the list. The least number as an end says that there is none. */
static inline void read_listed(const Steps *self, size_t place, Stretch *it)
{
    const uint64_t *ends = (const uint64_t *)PyBytes_AS_STRING(self->ends) + 2 * place;
    it->start = ends[0];
    it->end = ends[1];
    it->value = self->numbers[place];
    it->has_end = ends[1] != LEAST(self);
    it->has_start = it->has_value = true;
}

/* Lays ranges in order, each of which begins where the one before ends or above, into a list, in the place of all that the map had: that
 * was in a list too, or nothing. */
range_set_status list_in_order(Steps *self, const Change *changes, size_t count);
void forget_list(Steps *self);

/* Lays the same list into a map that has nothing. False where there is no memory. */
bool copy_list(const Steps *self, Steps *made);

/* Gives the keys of a range the value of a number, or with NONE none, in the library's map, without a count. */
range_set_status put(Steps *self, Range range, size_t number);

/* The longest range around a key whose keys have one value, or all have none. */
Stretch stretch_at(const Steps *self, uint64_t key);

/* The number of a key's value, or NONE. */
size_t number_at(const Steps *self, uint64_t key);

/* Whether a stretch ends below a range's end. */
bool ends_below(const Steps *self, const Stretch *it, Range range);

/* A walk over the ranges that have a value: the keys that are left, and whether the one below them was read. Some ranges are read at
 * once, and anew after a change. One over all of a list reads that from a place on, as long as it is there. */
enum { FEW = 3, SOME = 16 };
typedef struct {
    Range left;
    bool is_cut, is_done, is_listed;
    size_t at, len, read, place;
    uint64_t changes;
    union {
        range_map_i64_stretch i64[SOME];
        range_map_u64_stretch u64[SOME];
    } some;
} Walk;

/* Begins a walk over the ranges that have a key of a range. */
static inline void begin_walk(const Steps *self, Range range, Walk *walk)
{
    walk->left = range;
    walk->is_cut = walk->is_done = false;
    walk->is_listed = self->has_list && range.start == LEAST(self) && !range.has_end;
    walk->at = walk->len = walk->read = walk->place = 0;
    walk->changes = self->changes;
}

/* Reads the next range in the library's map, which is built where there is none. */
bool step_on(Steps *self, Walk *walk, Stretch *it);

/* Reads the next range. What was read isn't read again, also if a change came between. Then, and where a walk doesn't go over all of a list,
 * there may be no memory to go on, which is an error. */
static inline bool step(Steps *self, Walk *walk, Stretch *it)
{
    if (!walk->is_listed || walk->changes != self->changes || !self->has_list) return step_on(self, walk, it);
    walk->is_done = walk->place == self->len;
    if (walk->is_done) return false;
    read_listed(self, walk->place++, it);
    walk->left.start = it->end;
    walk->is_cut = true;
    walk->is_done = !it->has_end;
    return true;
}

/* Makes the library's map of one, and frees it. */
range_set_status make_handle(Steps *self);
void free_handle(Steps *self);

/* A map without a kind yet. */
Steps *new_steps(PyTypeObject *type, bool is_signed);

/* Goes back to what the map was before changes that were refused memory midway; and forgets what it was. */
bool settle(Steps *self);
void forget_undo(Steps *self);

/* Gives the map a kind, and leaves the one before. */
PyObject *take_kind(Steps *self, PyObject *kind);

/* Drops the values that have no range any more, unless those are to be put back. */
void drop_unused(Steps *self);

/* The value of a stretch that has one, which is borrowed. */
PyObject *value_of(const Steps *self, const Stretch *it);

/* Methods that change ranges, or take them into another map. */
PyObject *steps_change(Steps *self, PyObject *const *args, Py_ssize_t n);
PyObject *steps_part(Steps *self, PyObject *object);

/* Methods that go over ranges. */
PyObject *steps_domain(Steps *self, PyObject *const *args, Py_ssize_t n);
PyObject *steps_find(Steps *self, PyObject *value);
PyObject *steps_ends_and_values(Steps *self, PyObject *unused);
PyObject *steps_combine(Steps *self, PyObject *const *args, Py_ssize_t n);
PyObject *steps_equals(Steps *self, PyObject *object);
PyObject *steps_keys(Steps *self, PyObject *const *args, Py_ssize_t n);
PyObject *steps_values(Steps *self, PyObject *const *args, Py_ssize_t n);
PyObject *steps_items(Steps *self, PyObject *const *args, Py_ssize_t n);

/* Readies the type of iterators. */
int add_items(void);

#endif
