/* Sets as texts, and from texts. A text is checked whole before a set is written. Included by range_set_calls.h. */

/* Whether a text has no byte in common with the set's list or the result, nor the result with that list. No text is so long that its
 * length doesn't fit: each boundary takes fewer than 32 bytes. */
static inline bool NAME(is_apart_from_text)(SET set, const char *text, size_t room, const size_t *len)
{
    size_t size = set.boundaries ? set.len * sizeof *set.boundaries : 0;
    return (set.boundaries == NULL || set.len <= SIZE_MAX / 32) && is_array(text, room, 1) && len != NULL
           && !overlap(len, sizeof *len, text, room) && !overlap(text, room, set.boundaries, size)
           && !overlap(len, sizeof *len, set.boundaries, size);
}

range_set_status NAME(print)(SET set, char *text, size_t room, size_t *len)
{
    static char no_text;
    if (!NAME(is_apart_from_text)(set, text, room, len)) return RANGE_SET_BAD_ARGUMENT;
    *len = EXPORT(print)(LIST(set), text ? text : &no_text, room);
    return *len <= room ? RANGE_SET_DONE : RANGE_SET_NO_ROOM;
}

/* Whether the text, the buffer, and the places for the result and for the fault have no byte in common. */
static inline bool NAME(are_apart)(
    const char *text, size_t text_len, const NUMBER *out, size_t room, const SET *result, const size_t *fault)
{
    size_t size = room * sizeof *out, fault_size = fault != NULL ? sizeof *fault : 0;
    return is_array(text, text_len, 1) && is_array(out, room, sizeof *out) && NAME(is_result)(result, out, room)
           && !overlap(text, text_len, out, size) && !overlap(text, text_len, result, sizeof *result)
           && !overlap(fault, fault_size, text, text_len) && !overlap(fault, fault_size, out, size)
           && !overlap(fault, fault_size, result, sizeof *result);
}

/* Reads the piece that begins at it->from and ends before the separator or a comma. If it stops being a text of ranges after a digit it is
 * a number alone where nothing but blanks follows, or else stops after those. A piece that was checked before and has a dot is a range. */
static void NAME(take_piece)(const char *text, size_t text_len, char separator, bool is_checked, piece *it)
{
    size_t rest, more = 0;
    uint32_t behind;
    for (it->to = it->from; it->to < text_len && text[it->to] != separator && text[it->to] != ',';) it->to++;
    it->text = text + it->from, it->len = it->to - it->from, it->is_alone = false;
    if (is_checked && memchr(it->text, '.', it->len) != NULL) return;
    it->status = EXPORT(check_text)(it->text, it->len, &it->told);
    if (it->status != TEXT_MALFORMED || it->told == 0 || !is_digit(it->text[it->told - 1])) return;
    rest = it->len - it->told;
    behind = EXPORT(check_text)(it->text + it->told, rest, &more);
    it->is_alone = behind == TEXT_OF_RANGES && more == 0;
    if (!it->is_alone) {
        it->told += blanks_before(it->text + it->told, behind == TEXT_MALFORMED ? more : rest);
        return;
    }
    take_alone(it);
    it->status = EXPORT(check_text)(it->text, it->len, &it->told);
    it->told = PER_RANGE;
}

/* Whether each piece of a text is a range, a number alone or blank. Counts the room that their ranges need. */
static range_set_status NAME(check_pieces)(const char *text, size_t text_len, char separator, size_t *needed, size_t *fault)
{
    range_set_status status = RANGE_SET_DONE;
    size_t misfit = 0;
    piece it = {0};
    for (; it.from <= text_len; it.from = it.to + 1) {
        NAME(take_piece)(text, text_len, separator, false, &it);
        switch (it.status) {
        case TEXT_OF_RANGES: *needed += it.told; break;
        case TEXT_OUT_OF_RANGE:
            if (status == RANGE_SET_DONE) misfit = it.from + blanks_before(text + it.from, it.to - it.from);
            status = RANGE_SET_OUT_OF_RANGE;
            break;
        default: return refused_at(RANGE_SET_MALFORMED, it.from + it.told, fault);
        }
        if (it.to < text_len && text[it.to] != separator) return refused_at(RANGE_SET_MALFORMED, it.to, fault);
    }
    return status == RANGE_SET_DONE ? status : refused_at(status, misfit, fault);
}

range_set_status NAME(parse)(const char *text, size_t text_len, NUMBER *out, size_t room, SET *result, size_t *fault)
{
    static const char no_text;
    size_t told = 0, count;
    bool is_open = false;
    NUMBER open = 0;
    if (!NAME(are_apart)(text, text_len, out, room, result, fault)) return RANGE_SET_BAD_ARGUMENT;
    if (text == NULL) text = &no_text;
    switch (EXPORT(check_text)(text, text_len, &told)) {
    case TEXT_OF_RANGES:
        if (told > room) return NAME(write_result)(told, out, room, result);
        count = EXPORT(parse)(text, text_len, ROOM(out, told / PER_RANGE), &is_open, &open);
        return NAME(write_open_result)(count, is_open, open, out, room, result);
    case TEXT_OUT_OF_RANGE: return NAME(check_pieces)(text, text_len, ',', &told, fault);
    default: return refused_at(RANGE_SET_MALFORMED, told, fault);
    }
}

range_set_status NAME(parse_by)(const char *text, size_t text_len, char separator, NUMBER *out, size_t room, SET *result, size_t *fault)
{
    static const char no_text;
    size_t needed = 0, len = 0, count;
    bool is_open = false, opens = false;
    NUMBER open = 0, start = 0, range[PER_RANGE] = {0, 0};
    range_set_status status;
    piece it = {0};
    if ((unsigned char)separator > 127 || is_digit(separator) || separator == '+' || separator == '-' || separator == '.'
        || !NAME(are_apart)(text, text_len, out, room, result, fault))
        return RANGE_SET_BAD_ARGUMENT;
    if (text == NULL) text = &no_text;
    status = NAME(check_pieces)(text, text_len, separator, &needed, fault);
    if (status == RANGE_SET_MALFORMED && EXPORT(check_text)(text, text_len, &needed) == TEXT_NOT_UTF8)
        return refused_at(status, needed, fault);
    if (status != RANGE_SET_DONE) return status;
    if (needed > room) return NAME(write_result)(needed, out, room, result);
    for (; it.from <= text_len; it.from = it.to + 1) {
        NAME(take_piece)(text, text_len, separator, true, &it);
        count = EXPORT(parse)(it.text, it.len, range, 1, &opens, &start);
        if (it.is_alone && start != MOST) range[0] = start, range[1] = start + 1, count = 1, opens = false;
        if (count > 0) memcpy(out + len, range, sizeof range);
        len += PER_RANGE * count;
        if (opens) is_open = NAME(join_open)(is_open, &open, &start);
    }
    return NAME(write_joined_result)(len / PER_RANGE, is_open, open, out, room, result);
}
