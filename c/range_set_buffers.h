/* Sets that change in a buffer, and owned sets, whose buffer grows. A change is done whole, or nothing has changed: if the buffer is too
 * short, `needed` says how much room it takes. Included by range_set_calls.h. */

/* ---- Sets in a buffer ---- */

range_set_status NAME(buffer_view)(NUMBER *items, size_t len, size_t room, BUFFER *buffer)
{
    if (len > room || !is_array(items, room, sizeof *items) || buffer == NULL
        || overlap(buffer, sizeof *buffer, items, room * sizeof *items))
        return RANGE_SET_BAD_ARGUMENT;
    if (!EXPORT(is_sorted)(ROOM(items, len))) return RANGE_SET_NOT_SORTED;
    *buffer = NAME(buffer_of)(items, room);
    buffer->set.len = len;
    return RANGE_SET_DONE;
}

/* Whether it is a buffer with a set at its front. */
static bool NAME(is_buffer)(const BUFFER *buffer)
{
    return buffer != NULL && is_array(buffer->items, buffer->room, sizeof *buffer->items) && buffer->set.boundaries == buffer->items
           && buffer->set.len <= buffer->room && !overlap(buffer, sizeof *buffer, buffer->items, buffer->room * sizeof *buffer->items);
}

/* Sets the length of a buffer's set after a change. If the buffer has no room for it, nothing was changed, and it is the length needed. */
static range_set_status NAME(set_len)(BUFFER *buffer, size_t len)
{
    if (len > buffer->room) {
        buffer->needed = len;
        return RANGE_SET_NO_ROOM;
    }
    buffer->set.len = len;
    return RANGE_SET_DONE;
}

range_set_status NAME(insert)(BUFFER *buffer, NUMBER start, NUMBER end)
{
    if (!NAME(is_buffer)(buffer)) return RANGE_SET_BAD_ARGUMENT;
    return NAME(set_len)(buffer, EXPORT(insert)(ROOM(buffer->items, buffer->room), buffer->set.len, start, end));
}

range_set_status NAME(remove)(BUFFER *buffer, NUMBER start, NUMBER end)
{
    if (!NAME(is_buffer)(buffer)) return RANGE_SET_BAD_ARGUMENT;
    return NAME(set_len)(buffer, EXPORT(remove)(ROOM(buffer->items, buffer->room), buffer->set.len, start, end));
}

range_set_status NAME(combine_with)(BUFFER *buffer, SET other, unsigned keep)
{
    size_t size = other.boundaries ? other.len * sizeof *other.boundaries : 0;
    if (!NAME(is_buffer)(buffer) || (keep & RANGE_SET_NEITHER) != 0 || overlap(buffer, sizeof *buffer, other.boundaries, size)
        || overlap(buffer->items, buffer->room * sizeof *buffer->items, other.boundaries, size))
        return RANGE_SET_BAD_ARGUMENT;
    return NAME(set_len)(buffer, EXPORT(combine_within)(ROOM(buffer->items, buffer->room), buffer->set.len, LIST(other), keep & 7u));
}

/* Writes whether a call changed the set, if the call was done. Returns its status. */
static range_set_status NAME(write_change)(range_set_status status, bool changes, bool *changed)
{
    if (status == RANGE_SET_DONE) *changed = changes;
    return status;
}

range_set_status NAME(insert_changed)(BUFFER *buffer, NUMBER start, NUMBER end, bool *changed)
{
    bool changes = buffer != NULL && changed != NULL && !NAME(contains_range)(buffer->set, start, end);
    return NAME(write_change)(changed != NULL ? NAME(insert)(buffer, start, end) : RANGE_SET_BAD_ARGUMENT, changes, changed);
}

range_set_status NAME(remove_changed)(BUFFER *buffer, NUMBER start, NUMBER end, bool *changed)
{
    bool changes = buffer != NULL && changed != NULL && NAME(intersects_range)(buffer->set, start, end);
    return NAME(write_change)(changed != NULL ? NAME(remove)(buffer, start, end) : RANGE_SET_BAD_ARGUMENT, changes, changed);
}

/* ---- Owned sets. Of null each is a bad argument, and those without a status do nothing. ---- */

void NAME(owned_init)(OWNED *owned, const range_set_allocator *allocator)
{
    static const range_set_allocator by_malloc = {allocate, resize, release, NULL};
    if (owned == NULL) return;
    owned->in = NAME(buffer_of)(NULL, 0);
    owned->allocator = allocator != NULL ? *allocator : by_malloc;
}

static void NAME(release)(const OWNED *owned, NUMBER *items, size_t room)
{
    if (items != NULL) owned->allocator.release(owned->allocator.context, items, room * sizeof *items);
}

void NAME(owned_free)(OWNED *owned)
{
    if (owned == NULL) return;
    NAME(release)(owned, owned->in.items, owned->in.room);
    owned->in = NAME(buffer_of)(NULL, 0);
}

/* Gives the owned set this buffer, whose first `len` numbers are its boundaries. */
static void NAME(replace)(OWNED *owned, NUMBER *items, size_t room, size_t len)
{
    owned->in = NAME(buffer_of)(items, room);
    owned->in.set.len = len;
}

range_set_status NAME(owned_reserve)(OWNED *owned, size_t room)
{
    const range_set_allocator *by;
    NUMBER *items;
    if (owned == NULL) return RANGE_SET_BAD_ARGUMENT;
    if (room <= owned->in.room) return RANGE_SET_DONE;
    by = &owned->allocator, items = owned->in.items;
    if (room > PTRDIFF_MAX / sizeof *items) return RANGE_SET_NO_MEMORY;
    items = items == NULL ? by->allocate(by->context, room * sizeof *items)
                          : by->resize(by->context, items, owned->in.room * sizeof *items, room * sizeof *items);
    if (items == NULL) return RANGE_SET_NO_MEMORY;
    NAME(replace)(owned, items, room, owned->in.set.len);
    return RANGE_SET_DONE;
}

/* Makes room for `needed` boundaries, and for half as many more, so that a set that grows asks seldom. */
static range_set_status NAME(grow)(OWNED *owned, size_t needed)
{
    return needed <= owned->in.room ? RANGE_SET_DONE : NAME(owned_reserve)(owned, needed < 8 ? 8 : needed + needed / 2);
}

typedef range_set_status (*NAME(change))(BUFFER *buffer, NUMBER start, NUMBER end);

static range_set_status NAME(change_owned)(OWNED *owned, NUMBER start, NUMBER end, NAME(change) change)
{
    range_set_status status = owned != NULL ? change(&owned->in, start, end) : RANGE_SET_BAD_ARGUMENT;
    if (status != RANGE_SET_NO_ROOM) return status;
    status = NAME(grow)(owned, owned->in.needed);
    return status == RANGE_SET_DONE ? change(&owned->in, start, end) : status;
}

range_set_status NAME(owned_insert)(OWNED *owned, NUMBER start, NUMBER end)
{
    return NAME(change_owned)(owned, start, end, NAME(insert));
}

range_set_status NAME(owned_remove)(OWNED *owned, NUMBER start, NUMBER end)
{
    return NAME(change_owned)(owned, start, end, NAME(remove));
}

range_set_status NAME(owned_assign)(OWNED *owned, SET set)
{
    size_t len = set.boundaries ? set.len : 0;
    if (owned == NULL) return RANGE_SET_BAD_ARGUMENT;
    if (len <= owned->in.room) {
        if (len > 0) memmove(owned->in.items, set.boundaries, len * sizeof *set.boundaries);
        owned->in.set.len = len;
        return RANGE_SET_DONE;
    }
    NUMBER *items = owned->allocator.allocate(owned->allocator.context, len * sizeof *items);
    if (items == NULL) return RANGE_SET_NO_MEMORY;
    memcpy(items, set.boundaries, len * sizeof *items);
    NAME(release)(owned, owned->in.items, owned->in.room);
    NAME(replace)(owned, items, len, len);
    return RANGE_SET_DONE;
}

/* The set moves behind room for the longest result, which is written at the front. The other set may be a part of it, and moves
 * with it then; it mustn't lie elsewhere in the buffer. */
range_set_status NAME(owned_combine)(OWNED *owned, SET other, unsigned keep)
{
    size_t other_len = other.boundaries ? other.len : 0, other_size = other_len * sizeof(NUMBER);
    size_t longest, at;
    bool is_part;
    range_set_status status;
    SET set;
    if (owned == NULL) return RANGE_SET_BAD_ARGUMENT;
    set = owned->in.set;
    longest = set.len + other_len + (keep & RANGE_SET_NEITHER ? 1 : 0);
    at = ((uintptr_t)other.boundaries - (uintptr_t)owned->in.items) / sizeof(NUMBER);
    is_part = overlap(owned->in.items, owned->in.room * sizeof(NUMBER), other.boundaries, other_size);
    if (overlap(owned, sizeof *owned, other.boundaries, other_size) || (is_part && (at > set.len || other_len > set.len - at)))
        return RANGE_SET_BAD_ARGUMENT;
    status = NAME(grow)(owned, longest + set.len);
    if (status != RANGE_SET_DONE) return status;
    if (set.len > 0) set.boundaries = memmove(owned->in.items + longest, owned->in.items, set.len * sizeof(NUMBER));
    if (is_part) other.boundaries = set.boundaries + at;
    return NAME(combine)(set, other, keep, owned->in.items, longest, &owned->in.set);
}
