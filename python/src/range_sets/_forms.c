/* Sets in other forms: as texts of ranges, and in few bytes. */
#include "_lists.h"

/* Whether a call is given bytes, and whether numbers are unsigned. */
static bool are_bytes(PyObject *const *args, Py_ssize_t n)
{
    return (n == 2 && PyBytes_CheckExact(args[0])) || refuse(PyExc_TypeError, "expected bytes, and whether numbers are unsigned");
}

/* Reads a text of ranges in UTF-8 as a list, or finds the byte at which it stops being one, or None if a number of it is out
 * of range. */
PyObject *core_parse(PyObject *module, PyObject *const *args, Py_ssize_t n)
{
    if (!are_bytes(args, n)) return NULL;
    const char *text = PyBytes_AS_STRING(args[0]);
    size_t text_len = PyBytes_GET_SIZE(args[0]), fault = 0;
    bool is_signed = args[1] == Py_False;
    /* Each number has a digit, and something stands between two. */
    size_t room = text_len / 2 + 1;
    PyObject *bytes = PyBytes_FromStringAndSize(NULL, 8 * room);
    if (bytes == NULL) return NULL;
    void *items = PyBytes_AS_STRING(bytes);
    Made made = {.u64 = {NULL, 0}};
    PyThreadState *thread = let_others_run(text_len);
    range_set_status status = is_signed ? range_set_i64_parse(text, text_len, items, room, &made.i64, &fault)
                                        : range_set_u64_parse(text, text_len, items, room, &made.u64, &fault);
    go_on(thread);
    if (status == RANGE_SET_DONE) return list_over(bytes, made.u64.len, is_signed);
    Py_DECREF(bytes);
    if (status == RANGE_SET_OUT_OF_RANGE) Py_RETURN_NONE;
    return status == RANGE_SET_MALFORMED ? PyLong_FromSize_t(fault) : raise_status(status, 0);
}

PyObject *core_print(PyObject *module, PyObject *object)
{
    List list;
    size_t text_len = 0;
    if (!borrow(object, &list, false, false)) return NULL;
    /* No number takes more, with what stands before it. */
    size_t room = 22 * list.len;
    PyObject *answer = NULL;
    char *text = PyMem_Malloc(room);
    if (text == NULL) {
        PyErr_NoMemory();
    } else {
        PyThreadState *thread = let_others_run(list.len);
        range_set_status status = check_list(&list);
        if (status == RANGE_SET_DONE)
            status = list.is_signed ? range_set_i64_print(SET(i64, list), text, room, &text_len)
                                    : range_set_u64_print(SET(u64, list), text, room, &text_len);
        go_on(thread);
        answer = status == RANGE_SET_DONE ? PyUnicode_DecodeASCII(text, text_len, NULL) : raise_status(status, text_len);
    }
    PyMem_Free(text);
    release(&list);
    return answer;
}

/* A set in few bytes: the version of this form, the letter of its numbers, and each boundary by its
 * distance from the one before it, of the first one from the least number. A distance is written
 * seven bits a byte, the lowest first, with the eighth bit set in each byte but the last. */
enum { VERSION = 1, HEAD = 2, LONGEST = 10 };

static size_t write_distances(const List *list, unsigned char *out)
{
    const uint64_t *numbers = list->items;
    uint64_t before = least_of(list->is_signed);
    unsigned char *at = out;
    for (size_t i = 0; i < list->len; i++) {
        uint64_t number = numbers[i], distance = number - before;
        for (; distance > 127; distance >>= 7) *at++ = (unsigned char)distance | 128;
        *at++ = (unsigned char)distance;
        before = number;
    }
    return at - out;
}

PyObject *core_pack(PyObject *module, PyObject *object)
{
    List list;
    if (!borrow(object, &list, false, false)) return NULL;
    PyObject *bytes = PyBytes_FromStringAndSize(NULL, HEAD + LONGEST * list.len);
    if (bytes != NULL) {
        unsigned char *out = (unsigned char *)PyBytes_AS_STRING(bytes);
        out[0] = VERSION;
        out[1] = list.is_signed ? 'q' : 'Q';
        PyThreadState *thread = let_others_run(list.len);
        size_t len = write_distances(&list, out + HEAD);
        go_on(thread);
        _PyBytes_Resize(&bytes, HEAD + len);
    }
    release(&list);
    return bytes;
}

/* The eighth bit of each of eight bytes. */
#define EIGHTH UINT64_C(0x8080808080808080)

/* Eight bytes as a number, the first one lowest. */
static uint64_t word_at(const unsigned char *at)
{
    uint64_t word;
    memcpy(&word, at, sizeof word);
    return PY_LITTLE_ENDIAN ? word : __builtin_bswap64(word);
}

/* How many distances some bytes have: a byte without the eighth bit ends each. */
static size_t count_distances(const unsigned char *at, const unsigned char *end)
{
    size_t count = 0;
    /* The highest byte of the product is the sum of all. */
    for (; end - at >= 8; at += 8) count += ((~word_at(at) & EIGHTH) >> 7) * UINT64_C(0x0101010101010101) >> 56;
    for (; at < end; at++) count += *at < 128;
    return count;
}

/* The distance in the lowest `bits` bits of a word, eight for each seven of its own. */
static uint64_t distance_in(uint64_t word, int bits)
{
    word &= ~EIGHTH & (UINT64_MAX >> (64 - bits));
    word = (word & UINT64_C(0x007f007f007f007f)) | (word & UINT64_C(0x7f007f007f007f00)) >> 1;
    word = (word & UINT64_C(0x00003fff00003fff)) | (word & UINT64_C(0x3fff00003fff0000)) >> 2;
    return (word & UINT64_C(0x000000000fffffff)) | (word & UINT64_C(0x0fffffff00000000)) >> 4;
}

/* Reads one distance byte by byte, unless it has more than 64 bits or the bytes end within it. */
static bool read_distance(const unsigned char **at, const unsigned char *end, uint64_t *distance)
{
    unsigned char byte = 128;
    *distance = 0;
    for (int shift = 0; byte > 127; shift += 7) {
        if (*at == end || shift > 63) return false;
        byte = *(*at)++;
        if (shift == 63 && byte > 1) return false;
        *distance |= (uint64_t)(byte & 127) << shift;
    }
    return true;
}

/* Reads `count` distances, unless one has more than 64 bits or bytes are left. Whether the list is sorted is checked afterwards. */
static bool read_distances(const unsigned char *at, const unsigned char *end, List *list, size_t count)
{
    uint64_t *numbers = list->items, number = least_of(list->is_signed), distance;
    size_t len = 0;
    while (len < count) {
        uint64_t word = end - at < 8 ? EIGHTH : word_at(at), lasts = ~word & EIGHTH;
        if (lasts == EIGHTH && count - len >= 8) {
            /* Eight of one byte each; fewer are left only if another thread writes into the bytes. */
#pragma GCC unroll 8
            for (int i = 0; i < 8; i++) numbers[len + i] = number += word >> 8 * i & 127;
            len += 8;
            at += 8;
        } else if (lasts > 0) {
            int bits = __builtin_ctzll(lasts) + 1;
            numbers[len++] = number += distance_in(word, bits);
            at += bits / 8;
        } else {
            if (!read_distance(&at, end, &distance)) return false;
            numbers[len++] = number += distance;
        }
    }
    list->len = len;
    return at == end;
}

static PyObject *unpack(const Py_buffer *packed)
{
    const unsigned char *at = packed->buf, *end = at + packed->len;
    if (packed->len < HEAD || at[0] != VERSION || (at[1] != 'q' && at[1] != 'Q')) {
        refuse(PyExc_ValueError, "the bytes are no set, or are one of another version");
        return NULL;
    }
    List list = {.is_signed = at[1] == 'q'};
    size_t count = count_distances(at + HEAD, end);
    PyObject *bytes = PyBytes_FromStringAndSize(NULL, 8 * count);
    if (bytes == NULL) return NULL;
    list.items = PyBytes_AS_STRING(bytes);
    PyThreadState *thread = let_others_run(count);
    bool is_read = read_distances(at + HEAD, end, &list, count);
    range_set_status status = is_read ? check_list(&list) : RANGE_SET_DONE;
    go_on(thread);
    if (is_read && status == RANGE_SET_DONE) return list_over(bytes, list.len, list.is_signed);
    Py_DECREF(bytes);
    if (is_read) return raise_status(status, 0);
    refuse(PyExc_ValueError, "the bytes of a set are damaged");
    return NULL;
}

PyObject *core_unpack(PyObject *module, PyObject *object)
{
    Py_buffer packed;
    if (PyObject_GetBuffer(object, &packed, PyBUF_SIMPLE) < 0) return NULL;
    PyObject *list = unpack(&packed);
    PyBuffer_Release(&packed);
    return list;
}

/* The list of boundaries as they lie in bytes, which stay. */
PyObject *core_over(PyObject *module, PyObject *const *args, Py_ssize_t n)
{
    if (!are_bytes(args, n)) return NULL;
    if (PyBytes_GET_SIZE(args[0]) % 8 != 0) return PyErr_Format(PyExc_ValueError, "the bytes of a set are damaged");
    List list = {.items = PyBytes_AS_STRING(args[0]), .len = PyBytes_GET_SIZE(args[0]) / 8, .is_signed = args[1] == Py_False};
    PyThreadState *thread = let_others_run(list.len);
    range_set_status status = check_list(&list);
    go_on(thread);
    return list_or_error(Py_NewRef(args[0]), list.len, list.is_signed, status);
}
