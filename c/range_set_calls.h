/* The calls for sets of one type of numbers, by the names of each_type.h: NAME(call) is a call of the header, and EXPORT(call) the export
 * that it stands before.
 *
 * A list is passed as its address and its length. Exports that write a list return its length. If that is at most the buffer's, the list
 * was written; if not, an export that changes a set in place has changed nothing. `parse` may be called only with a text for which
 * `check_text` returned TEXT_OF_RANGES, and with room for half as many ranges as that counted numbers. `parse` and `union_from` return
 * how many ranges with an end their set has, and write whether it has one without an end, and where that starts.
 *
 * `chunked_new` and `chunked_of` take a handle without a set, {NULL}, and the other exports for sets in chunks one with a set. Those that
 * return whether they were done return false if memory runs out, and have then changed nothing. */
#include "range_set_exports.h"

/* Exports take this address in place of a null pointer. Nothing is read from it or written to it. */
static NUMBER NAME(nothing);

/* The list of a set, and a buffer, as a pointer and a length. */
#define LIST(set) (set).boundaries ? (set).boundaries : &NAME(nothing), (set).boundaries ? (set).len : 0
#define ROOM(out, room) (out) ? (out) : &NAME(nothing), (room)

/* Where an export writes a range. */
#define PARTS(range) &(range)->start, &(range)->end, &(range)->has_end

/* A handle without a set in chunks is asked as the empty list. */
static const SET NAME(no_member) = {NULL, 0};

#include "range_set_lists.h"
#include "range_set_operations.h"
#include "range_set_passed_on.h"
#include "range_set_texts.h"
#include "range_set_buffers.h"
#include "range_set_chunked.h"
