/* Appends terms to bytes. */
#include "external.h"

void begin_bytes(Bytes *to) {
    to->bytes = to->first;
    to->len = 0;
    to->size = sizeof to->first;
}

void free_bytes(Bytes *to) {
    if (to->bytes != to->first) PyMem_Free(to->bytes);
}

/* Appends bytes whose content the caller writes. Returns NULL with an exception if there is no memory. */
static uint8_t *append(Bytes *to, size_t more) {
    if (more > to->size - to->len) {
        size_t size = to->size * 2 > to->len + more ? to->size * 2 : to->len + more;
        uint8_t *bytes = to->bytes == to->first ? PyMem_Malloc(size) : PyMem_Realloc(to->bytes, size);
        if (!bytes) {
            PyErr_NoMemory();
            return NULL;
        }
        if (to->bytes == to->first) memcpy(bytes, to->first, to->len);
        to->bytes = bytes;
        to->size = size;
    }
    to->len += more;
    return to->bytes + to->len - more;
}

static void write32(uint8_t *at, uint32_t number) {
    at[0] = number >> 24;
    at[1] = number >> 16;
    at[2] = number >> 8;
    at[3] = number;
}

static Outcome put_byte(Bytes *to, uint8_t byte) {
    uint8_t *at = append(to, 1);
    if (!at) return FAILED;
    at[0] = byte;
    return DONE;
}

/* Appends a tag and a count of four bytes. */
static Outcome put_count(Bytes *to, uint8_t tag, size_t count) {
    if (count > UINT32_MAX) return UNFIT;
    uint8_t *at = append(to, 5);
    if (!at) return FAILED;
    at[0] = tag;
    write32(at + 1, (uint32_t)count);
    return DONE;
}

static Outcome put_digits(Bytes *to, const uint8_t *digits, size_t count, int is_negative) {
    while (count > 0 && digits[count - 1] == 0) count--;
    uint8_t *at = append(to, 3 + count);
    if (!at) return FAILED;
    at[0] = SMALL_BIG;
    at[1] = (uint8_t)count;
    at[2] = (uint8_t)is_negative;
    memcpy(at + 3, digits, count);
    return DONE;
}

/* Appends an integer of more than 64 bits. */
static Outcome put_long(Bytes *to, PyObject *number, int is_negative) {
    PyObject *magnitude = PyNumber_Absolute(number);
    PyObject *digits = magnitude ? PyObject_CallMethod(magnitude, "to_bytes", "is", 16, "little") : NULL;
    Py_XDECREF(magnitude);
    if (!digits) {
        if (!PyErr_ExceptionMatches(PyExc_OverflowError)) return FAILED;
        PyErr_Clear();
        return UNFIT;
    }
    const uint8_t *bytes = (const uint8_t *)PyBytes_AsString(digits);
    Outcome done = is_magnitude(bytes, is_negative) ? put_digits(to, bytes, 16, is_negative) : UNFIT;
    Py_DECREF(digits);
    return done;
}

static Outcome put_integer(Bytes *to, PyObject *term) {
    int overflow;
    long long number = PyLong_AsLongLongAndOverflow(term, &overflow);
    if (overflow) return put_long(to, term, overflow < 0);
    if (number < INT32_MIN || number > INT32_MAX) {
        uint64_t magnitude = number < 0 ? 0 - (uint64_t)number : (uint64_t)number;
        uint8_t digits[8];
        for (int place = 0; place < 8; place++) digits[place] = (uint8_t)(magnitude >> 8 * place);
        return put_digits(to, digits, 8, number < 0);
    }
    int is_small = 0 <= number && number <= UINT8_MAX;
    uint8_t *at = append(to, is_small ? 2 : 5);
    if (!at) return FAILED;
    at[0] = is_small ? SMALL_INTEGER : INTEGER;
    if (is_small) at[1] = (uint8_t)number;
    else write32(at + 1, (uint32_t)number);
    return DONE;
}

/* Appends an atom with this text. */
static Outcome put_text(Bytes *to, PyObject *text) {
    Py_ssize_t len;
    const char *from = PyUnicode_Check(text) ? PyUnicode_AsUTF8AndSize(text, &len) : NULL;
    PyErr_Clear();
    if (!from || len > UINT8_MAX) return UNFIT;
    uint8_t *at = append(to, 2 + (size_t)len);
    if (!at) return FAILED;
    at[0] = ATOM;
    at[1] = (uint8_t)len;
    memcpy(at + 2, from, (size_t)len);
    return DONE;
}

static Outcome put_atom(State *state, Bytes *to, PyObject *term) {
    PyObject *text = PyObject_GetAttr(term, state->text);
    if (!text) return FAILED;
    Outcome done = put_text(to, text);
    Py_DECREF(text);
    return done;
}

/* Appends a pid or a reference: its number between two texts. */
static Outcome put_number(State *state, Bytes *to, PyObject *term, const char *head, size_t head_len, const char *end, size_t end_len) {
    PyObject *number = PyObject_GetAttr(term, state->number);
    if (!number) return FAILED;
    unsigned long value = PyLong_AsUnsignedLong(number);
    Py_DECREF(number);
    if (PyErr_Occurred()) return FAILED;
    uint8_t *at = append(to, head_len + 4 + end_len);
    if (!at) return FAILED;
    memcpy(at, head, head_len);
    write32(at + head_len, (uint32_t)value);
    memcpy(at + head_len + 4, end, end_len);
    return DONE;
}

static Outcome put_bytes(Bytes *to, PyObject *term) {
    char *from;
    Py_ssize_t len;
    if (PyBytes_AsStringAndSize(term, &from, &len) < 0) return FAILED;
    Outcome done = put_count(to, BINARY, (size_t)len);
    if (done != DONE) return done;
    uint8_t *at = append(to, (size_t)len);
    if (!at) return FAILED;
    memcpy(at, from, (size_t)len);
    return DONE;
}

/* Appends a list of bytes as a string. Any other list is unfit. */
static Outcome put_string(Bytes *to, PyObject *list, Py_ssize_t count) {
    PyObject *first = PyList_GetItem(list, 0);
    if (!first || !PyLong_CheckExact(first) || count > UINT16_MAX) return first ? UNFIT : FAILED;
    uint8_t *at = append(to, 3 + (size_t)count);
    if (!at) return FAILED;
    at[0] = STRING;
    at[1] = (uint8_t)(count >> 8);
    at[2] = (uint8_t)count;
    for (Py_ssize_t place = 0; place < count; place++) {
        PyObject *each = PyList_GetItem(list, place);
        int overflow = 0;
        long code = each && PyLong_CheckExact(each) ? PyLong_AsLongAndOverflow(each, &overflow) : -1;
        if (overflow || code < 0 || code > UINT8_MAX) {
            to->len -= 3 + (size_t)count;
            return each ? UNFIT : FAILED;
        }
        at[3 + place] = (uint8_t)code;
    }
    return DONE;
}

static Outcome put_term(State *state, Bytes *to, PyObject *term, int levels);

static Outcome put_each(State *state, Bytes *to, PyObject *row, Py_ssize_t count, PyObject *(*item)(PyObject *, Py_ssize_t), int levels) {
    for (Py_ssize_t place = 0; place < count; place++) {
        PyObject *each = item(row, place);
        if (!each) return FAILED;
        Py_INCREF(each);
        Outcome done = put_term(state, to, each, levels);
        Py_DECREF(each);
        if (done != DONE) return done;
    }
    return DONE;
}

static Outcome put_list(State *state, Bytes *to, PyObject *list, int levels) {
    Py_ssize_t count = PyList_Size(list);
    if (count == 0) return put_byte(to, NIL);
    Outcome done = put_string(to, list, count);
    if (done != UNFIT) return done;
    done = put_count(to, LIST, (size_t)count);
    if (done == DONE) done = put_each(state, to, list, count, PyList_GetItem, levels);
    return done == DONE ? put_byte(to, NIL) : done;
}

static Outcome put_tuple(State *state, Bytes *to, PyObject *tuple, int levels) {
    Py_ssize_t count = PyTuple_Size(tuple);
    Outcome done = DONE;
    if (count > UINT8_MAX) {
        done = put_count(to, LARGE_TUPLE, (size_t)count);
    } else {
        uint8_t *at = append(to, 2);
        if (!at) return FAILED;
        at[0] = SMALL_TUPLE;
        at[1] = (uint8_t)count;
    }
    return done == DONE ? put_each(state, to, tuple, count, PyTuple_GetItem, levels) : done;
}

/* Appends a term with at most this many levels. */
static Outcome put_term(State *state, Bytes *to, PyObject *term, int levels) {
    PyObject *kind = (PyObject *)Py_TYPE(term);
    if (kind == (PyObject *)&PyLong_Type) return put_integer(to, term);
    if (kind == state->atom) return put_atom(state, to, term);
    if (kind == (PyObject *)&PyBytes_Type) return put_bytes(to, term);
    if (kind == state->tid) return put_number(state, to, term, REFERENCE_HEAD, LENGTH(REFERENCE_HEAD), "", 0);
    if (kind == state->pid) return put_number(state, to, term, PID_HEAD, LENGTH(PID_HEAD), PID_END, LENGTH(PID_END));
    if (levels == 0) return UNFIT;
    if (kind == (PyObject *)&PyTuple_Type) return put_tuple(state, to, term, levels - 1);
    if (kind == (PyObject *)&PyList_Type) return put_list(state, to, term, levels - 1);
    return UNFIT;
}

Outcome encode_call(State *state, Bytes *to, PyObject *name, PyObject *const *terms, Py_ssize_t count) {
    uint8_t *at = append(to, 3);
    if (!at) return FAILED;
    at[0] = VERSION;
    at[1] = SMALL_TUPLE;
    at[2] = 2;
    Outcome done = put_text(to, name);
    if (done == DONE) done = put_count(to, LIST, (size_t)count);
    for (Py_ssize_t place = 0; done == DONE && place < count; place++) done = put_term(state, to, terms[place], LEVELS);
    return done == DONE ? put_byte(to, NIL) : done;
}
