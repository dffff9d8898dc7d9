/* Reads terms from bytes. Each function returns NULL with an exception, or NULL without one if Python has to read the bytes. */
#include "external.h"

/* At most this many atoms, pids and table identifiers are kept. */
enum { MOST = 4096 };

typedef struct Reader {
    State *state;
    const uint8_t *at, *end;
} Reader;

/* Goes past `len` bytes. Returns where they begin, or NULL if there are fewer. */
static const uint8_t *piece(Reader *from, size_t len) {
    if (len > (size_t)(from->end - from->at)) return NULL;
    from->at += len;
    return from->at - len;
}

static uint32_t read32(const uint8_t *at) {
    return (uint32_t)at[0] << 24 | (uint32_t)at[1] << 16 | (uint32_t)at[2] << 8 | at[3];
}

/* Returns what is kept by this key, or makes it with its class and keeps it. Takes the key. */
static PyObject *kept(PyObject *by_key, PyObject *key, PyObject *class) {
    if (!key) return NULL;
    PyObject *it = PyDict_GetItemWithError(by_key, key);
    Py_XINCREF(it);
    if (!it && !PyErr_Occurred()) {
        it = PyObject_CallFunctionObjArgs(class, key, NULL);
        if (PyDict_Size(by_key) >= MOST) PyDict_Clear(by_key);
        if (it && PyDict_SetItem(by_key, key, it) < 0) Py_CLEAR(it);
    }
    Py_DECREF(key);
    return it;
}

static PyObject *get_atom(Reader *from) {
    const uint8_t *len = piece(from, 1), *text = len ? piece(from, *len) : NULL;
    if (!text) return NULL;
    PyObject *key = PyUnicode_DecodeASCII((const char *)text, *len, NULL);
    if (!key && PyErr_ExceptionMatches(PyExc_UnicodeError)) PyErr_Clear();
    return kept(from->state->atoms, key, from->state->atom);
}

/* Reads a number between two texts; the first begins with the tag, which is read already. */
static PyObject *get_number(Reader *from, const char *head, size_t head_len, const char *end, size_t end_len) {
    const uint8_t *at = piece(from, head_len - 1 + 4 + end_len);
    if (!at || memcmp(at, head + 1, head_len - 1) || memcmp(at + head_len - 1 + 4, end, end_len)) return NULL;
    return PyLong_FromUnsignedLong(read32(at + head_len - 1));
}

static PyObject *get_big(Reader *from) {
    const uint8_t *head = piece(from, 2), *digits = head ? piece(from, head[0]) : NULL;
    size_t count = digits ? head[0] : 0;
    if (!digits || count > 16 || (count == 16 && !is_magnitude(digits, head[1]))) return NULL;
    PyObject *number;
    if (count > 8) {
        number = PyObject_CallMethod((PyObject *)&PyLong_Type, "from_bytes", "y#s", (const char *)digits, (Py_ssize_t)count, "little");
    } else {
        uint64_t magnitude = 0;
        while (count > 0) magnitude = magnitude << 8 | digits[--count];
        number = PyLong_FromUnsignedLongLong(magnitude);
    }
    if (!number || !head[1]) return number;
    PyObject *negative = PyNumber_Negative(number);
    Py_DECREF(number);
    return negative;
}

static PyObject *get_string(Reader *from) {
    const uint8_t *head = piece(from, 2);
    size_t count = head ? (size_t)head[0] << 8 | head[1] : 0;
    const uint8_t *codes = head ? piece(from, count) : NULL;
    PyObject *list = codes ? PyList_New((Py_ssize_t)count) : NULL;
    for (size_t place = 0; list && place < count; place++) {
        PyObject *code = PyLong_FromLong(codes[place]);
        if (!code || PyList_SetItem(list, (Py_ssize_t)place, code) < 0) Py_CLEAR(list);
    }
    return list;
}

static PyObject *get_bytes(Reader *from) {
    const uint8_t *len = piece(from, 4), *bytes = len ? piece(from, read32(len)) : NULL;
    return bytes ? PyBytes_FromStringAndSize((const char *)bytes, read32(len)) : NULL;
}

static PyObject *get_term(Reader *from, int levels);

/* Reads the number of elements, and these. `make` makes a row of this size, and `set` takes an element. */
static PyObject *get_row(Reader *from, size_t width, int levels, PyObject *(*make)(Py_ssize_t), int (*set)(PyObject *, Py_ssize_t, PyObject *)) {
    const uint8_t *head = piece(from, width);
    size_t count = !head ? 0 : width == 1 ? head[0] : read32(head);
    /* Each element has a byte or more. */
    if (!head || count > (size_t)(from->end - from->at)) return NULL;
    PyObject *row = make((Py_ssize_t)count);
    for (size_t place = 0; row && place < count; place++) {
        PyObject *each = get_term(from, levels);
        if (!each || set(row, (Py_ssize_t)place, each) < 0) Py_CLEAR(row);
    }
    return row;
}

static PyObject *get_list(Reader *from, int levels) {
    PyObject *list = get_row(from, 4, levels, PyList_New, PyList_SetItem);
    const uint8_t *tail = list ? piece(from, 1) : NULL;
    if (list && (!tail || *tail != NIL)) Py_CLEAR(list);
    return list;
}

/* Reads a term with at most this many levels. */
static PyObject *get_term(Reader *from, int levels) {
    const uint8_t *tag = piece(from, 1), *at;
    if (!tag || levels == 0) return NULL;
    switch (*tag) {
    case SMALL_INTEGER: return (at = piece(from, 1)) ? PyLong_FromLong(*at) : NULL;
    case INTEGER: return (at = piece(from, 4)) ? PyLong_FromLong((int32_t)read32(at)) : NULL;
    case SMALL_BIG: return get_big(from);
    case ATOM: return get_atom(from);
    case PID: return kept(from->state->pids, get_number(from, PID_HEAD, LENGTH(PID_HEAD), PID_END, LENGTH(PID_END)), from->state->pid);
    case REFERENCE: return kept(from->state->tids, get_number(from, REFERENCE_HEAD, LENGTH(REFERENCE_HEAD), "", 0), from->state->tid);
    case SMALL_TUPLE: return get_row(from, 1, levels - 1, PyTuple_New, PyTuple_SetItem);
    case LARGE_TUPLE: return get_row(from, 4, levels - 1, PyTuple_New, PyTuple_SetItem);
    case NIL: return PyList_New(0);
    case STRING: return get_string(from);
    case LIST: return get_list(from, levels - 1);
    case BINARY: return get_bytes(from);
    default: return NULL;
    }
}

PyObject *decode_term(State *state, const uint8_t *bytes, size_t len) {
    Reader from = {state, bytes, bytes + len};
    const uint8_t *version = piece(&from, 1);
    PyObject *term = version && *version == VERSION ? get_term(&from, LEVELS) : NULL;
    if (term && from.at != from.end) Py_CLEAR(term);
    return term;
}
