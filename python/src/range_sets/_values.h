/* The values of a map by their numbers, each of which is a place in a table.
 *
 * A value is kept by identity: each object has one number, by which the library, whose maps give ranges numbers, joins ranges and tells
 * them apart. Of other objects only those are compared whose ranges touch, before a change, since an `==` may run any code. */
#ifndef RANGE_SETS_VALUES_H
#define RANGE_SETS_VALUES_H

#include "_lists.h"

/* The number of no value, and the answer that isn't known yet. */
#define NONE SIZE_MAX
enum { UNKNOWN = 2 };

/* Numbers by their hashes, of which some may be equal. No more than half of the slots are used, and these are a power of two, or none
 * yet. A number lies in the first free slot from the place of its hash on. */
typedef struct {
    struct {
        uint64_t hash;
        /* NONE in a free slot. */
        size_t number;
    } *slots;
    size_t room, used;
} Numbers;

/* Adds a number. False where there is no memory. */
bool add_number(Numbers *self, uint64_t hash, size_t number);

/* The slot from which a hash is searched, and the next number of the hash from a slot on, or NONE. It moves on to the number's slot. */
size_t first_slot(const Numbers *self, uint64_t hash);
size_t next_number(const Numbers *self, uint64_t hash, size_t *slot);

typedef struct {
    /* NULL in a free place. */
    PyObject *value;
    /* How many ranges have it, and how many calls are about to put it in. */
    size_t ranges, calls;
    /* Whether it may have no range any more; the next such, or the next free place. */
    bool is_left;
    size_t next;
} Value;

/* No values where all is 0, but for `free` and `left`, which are NONE. */
typedef struct {
    /* A power of two of places, or none yet. */
    Value *places;
    size_t room;
    Numbers numbers;
    /* The first free place, and the first one that may have no range any more. */
    size_t free, left;
    /* How many calls read values by their numbers: until these end, no value is dropped. */
    size_t readers;
} Values;

/* Whether two values are one: identical, or of one type and equal. Their `==` may run any code; -1 where it raises an error other than a
 * ValueError. One that answers no bool says no. */
int are_one(PyObject *a, PyObject *b);

/* Finds the number of a value, or puts it in, to be dropped with those that have no range. It runs no code of Python's. False where there
 * is no memory. */
bool find_or_add(Values *self, PyObject *value, size_t *number);

/* Ends the care of a call that is about to put a value in. */
void let_go(Values *self, size_t number);

/* Counts ranges that have a value, up or down. */
void count_ranges(Values *self, size_t number, size_t by);

/* Drops the values that have no range any more, whose ends may run any code. */
void drop_left(Values *self);

/* Puts into another table, which has none, the values that have a range, with their numbers. False where there is no memory. */
bool copy_values(const Values *self, Values *other);

int visit_values(const Values *self, visitproc visit, void *arg);

/* Drops all values. */
void clear_values(Values *self);

#endif
