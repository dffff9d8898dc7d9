/* Terms between Python objects and Erlang's External Term Format. Both directions do the usual terms here, and leave all else to
   the modules external and decoding of the package: errors, derived types, terms of many levels, and forms that the store does
   not write. So both sides have one meaning. */
#ifndef YOYOASH_EXTERNAL_H
#define YOYOASH_EXTERNAL_H

#define PY_SSIZE_T_CLEAN
#define Py_LIMITED_API 0x030A0000 /* one build for Python 3.10 and later */
#include <Python.h>
#include <stdint.h>
#include <string.h>

/* At most this many levels are done here. */
#define LEVELS 128

enum { VERSION = 131 };
enum { SMALL_INTEGER = 97, INTEGER = 98, SMALL_BIG = 110, ATOM = 119, PID = 88, REFERENCE = 90 };
enum { SMALL_TUPLE = 104, LARGE_TUPLE = 105, NIL = 106, STRING = 107, LIST = 108, BINARY = 109 };

/* The bytes of an identifier before and after its number. */
#define NODE "\x77\x0dnonode@nohost"
#define PID_HEAD "\x58" NODE
#define PID_END "\0\0\0\0\0\0\0\0"
#define REFERENCE_HEAD "\x5a\0\1" NODE "\0\0\0\0"
#define LENGTH(text) (sizeof(text) - 1)

/* What the module holds. */
typedef struct State {
    PyObject *atom, *pid, *tid;     /* the classes */
    PyObject *atoms, *pids, *tids;  /* those that were decoded, by their text or number */
    PyObject *encode_call, *decode; /* the functions in Python */
    PyObject *text, *number;        /* the names of attributes */
    PyObject *caller;               /* the type Caller */
} State;

/* Bytes that grow. They begin in `first`. */
typedef struct Bytes {
    uint8_t *bytes;
    size_t len, size;
    uint8_t first[1024];
} Bytes;

/* Whether something was done: yes, no since Python has to do it, or no with an exception. */
typedef enum Outcome { FAILED = -1, UNFIT = 0, DONE = 1 } Outcome;

/* Returns whether an integer of 128 bits has this magnitude, the lowest byte first. */
static inline int is_magnitude(const uint8_t digits[16], int is_negative) {
    static const uint8_t least[16] = {[15] = 0x80};
    return digits[15] < 0x80 || (is_negative && memcmp(digits, least, sizeof least) == 0);
}

void begin_bytes(Bytes *to);
void free_bytes(Bytes *to);

/* Appends a call, `{Name,Arguments}`. */
Outcome encode_call(State *state, Bytes *to, PyObject *name, PyObject *const *terms, Py_ssize_t count);

/* Returns the term of these bytes, the version included. Returns NULL with an exception, or NULL without one if Python has to do
   it. */
PyObject *decode_term(State *state, const uint8_t *bytes, size_t len);

/* Returns whether a function was given at least this many arguments. Raises a TypeError otherwise. */
int has_arguments(Py_ssize_t count, Py_ssize_t least);

#define METHOD(function) (PyCFunction)(void (*)(void))function

extern PyType_Spec caller_spec;

/* Has forks counted from now on. Returns 0, or an error number. */
int watch_forks(void);

#endif
