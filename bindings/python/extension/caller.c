/* The class Caller: makes calls of a store in this process. */
#include "external.h"
#include <pthread.h>
#include <stdlib.h>

enum { VALUE = 0, CLOSED = 6, UNTOLD = 7 };

typedef int32_t Calling(void *store, uint32_t pid, const uint8_t *call, size_t call_len, uint8_t *out, size_t out_size, size_t *len);
typedef int32_t Writing(void *store, uint8_t *out, size_t out_size, size_t *len);

/* Makes calls of one store. Its lock is that of the store. */
typedef struct Caller {
    PyObject_HEAD
    State *state;
    PyThread_type_lock lock;
    PyObject *owner; /* what has the memory of the store */
    void *store;
    Calling *call;
    Writing *reply, *why;
    unsigned forks; /* the number of forks when it was made */
} Caller;

/* Counts the forks that led to this process since the module was loaded. A store stays with the process that opened it. */
static unsigned forks;
static void count_fork(void) { forks++; }
int watch_forks(void) { return pthread_atfork(NULL, NULL, count_fork); }

/* What came of a call. */
typedef struct Answer {
    int32_t status;
    size_t len, why_len;
    int32_t why_status;
    uint8_t *longer; /* a reply that `reply` has no room for */
    uint8_t reply[4096], why[256];
} Answer;

/* Makes the call of these bytes, and reads the reason if it is refused. Needs no Python, and lets other threads run it. */
static void make_call(Caller *self, uint32_t pid, const uint8_t *bytes, size_t len, Answer *answer) {
    answer->longer = NULL;
    answer->len = answer->why_len = 0;
    answer->status = answer->why_status = CLOSED;
    /* In a forked child a thread that it does not have may hold the lock. */
    if (self->forks != forks) return;
    Py_BEGIN_ALLOW_THREADS
    PyThread_acquire_lock(self->lock, WAIT_LOCK);
    answer->status = self->call(self->store, pid, bytes, len, answer->reply, sizeof answer->reply, &answer->len);
    if (answer->status == VALUE && answer->len > sizeof answer->reply) {
        answer->longer = malloc(answer->len);
        answer->status = answer->longer ? self->reply(self->store, answer->longer, answer->len, &answer->len) : UNTOLD;
    }
    if (answer->status != VALUE) answer->why_status = self->why(self->store, answer->why, sizeof answer->why, &answer->why_len);
    PyThread_release_lock(self->lock);
    Py_END_ALLOW_THREADS
}

/* Returns the term of a reply. */
static PyObject *decoded(State *state, const uint8_t *bytes, size_t len) {
    PyObject *term = decode_term(state, bytes, len);
    if (term || PyErr_Occurred()) return term;
    return PyObject_CallFunction(state->decode, "y#", (const char *)bytes, (Py_ssize_t)len);
}

/* Returns a tuple of these. */
static PyObject *tuple_of(PyObject *const *elements, Py_ssize_t count) {
    PyObject *tuple = PyTuple_New(count);
    for (Py_ssize_t place = 0; tuple && place < count; place++) {
        Py_INCREF(elements[place]);
        if (PyTuple_SetItem(tuple, place, elements[place]) < 0) Py_CLEAR(tuple);
    }
    return tuple;
}

/* Calls `report(process, pid, call, status, length, reason)` for a call that has no reply. `call` is its bytes, or a tuple of its
   name and its terms. */
static PyObject *reported(PyObject *const *given, Py_ssize_t count, const Answer *answer) {
    size_t known = answer->why_len < sizeof answer->why ? answer->why_len : sizeof answer->why;
    const char *why = answer->why_status == VALUE ? (const char *)answer->why : NULL;
    PyObject *call = given[3], *made = PyBytes_Check(call) ? NULL : tuple_of(given + 3, count - 3);
    if (!made && PyErr_Occurred()) return NULL;
    PyObject *result = PyObject_CallFunction(given[0], "OOOins#", given[1], given[2], made ? made : call, (int)answer->status,
                                             (Py_ssize_t)answer->len, why, (Py_ssize_t)known);
    Py_XDECREF(made);
    return result;
}

/* Makes the call of these bytes. Returns its reply, or what `report` returns. */
static PyObject *asked(Caller *self, PyObject *const *given, Py_ssize_t count, const uint8_t *bytes, size_t len) {
    unsigned long pid = PyLong_AsUnsignedLong(given[2]);
    if (PyErr_Occurred()) return NULL;
    Answer answer;
    make_call(self, (uint32_t)pid, bytes, len, &answer);
    PyObject *reply = answer.status != VALUE ? reported(given, count, &answer)
                                             : decoded(self->state, answer.longer ? answer.longer : answer.reply, answer.len);
    free(answer.longer);
    return reply;
}

static PyObject *asked_object(Caller *self, PyObject *const *given, Py_ssize_t count, PyObject *call) {
    char *bytes;
    Py_ssize_t len;
    if (!call || PyBytes_AsStringAndSize(call, &bytes, &len) < 0) return NULL;
    return asked(self, given, count, (const uint8_t *)bytes, (size_t)len);
}

/* Encodes a call in Python: `encode_call(name, terms)`. */
static PyObject *encoded(State *state, PyObject *name, PyObject *const *terms, Py_ssize_t count) {
    PyObject *row = tuple_of(terms, count);
    PyObject *call = row ? PyObject_CallFunctionObjArgs(state->encode_call, name, row, NULL) : NULL;
    Py_XDECREF(row);
    return call;
}

int has_arguments(Py_ssize_t count, Py_ssize_t least) {
    if (count < least) PyErr_Format(PyExc_TypeError, "%zd arguments, at least %zd expected", count, least);
    return count >= least;
}

static PyObject *call_terms(Caller *self, PyObject *const *given, Py_ssize_t count) {
    if (!has_arguments(count, 4)) return NULL;
    Bytes call;
    begin_bytes(&call);
    Outcome done = encode_call(self->state, &call, given[3], given + 4, count - 4);
    PyObject *reply = NULL;
    if (done == DONE) {
        reply = asked(self, given, count, call.bytes, call.len);
    } else if (done == UNFIT) {
        PyObject *bytes = encoded(self->state, given[3], given + 4, count - 4);
        reply = asked_object(self, given, count, bytes);
        Py_XDECREF(bytes);
    }
    free_bytes(&call);
    return reply;
}

static PyObject *send(Caller *self, PyObject *const *given, Py_ssize_t count) {
    return has_arguments(count, 4) ? asked_object(self, given, count, given[3]) : NULL;
}

static PyObject *enter(Caller *self, PyObject *nothing) {
    (void)nothing;
    Py_BEGIN_ALLOW_THREADS
    PyThread_acquire_lock(self->lock, WAIT_LOCK);
    Py_END_ALLOW_THREADS
    Py_INCREF(self);
    return (PyObject *)self;
}

static PyObject *leave(Caller *self, PyObject *raised) {
    (void)raised;
    PyThread_release_lock(self->lock);
    Py_INCREF(Py_None);
    return Py_None;
}

static PyObject *new_caller(PyTypeObject *type, PyObject *arguments, PyObject *names) {
    PyObject *owner;
    unsigned long long store, call, reply, why;
    (void)names;
    if (!PyArg_ParseTuple(arguments, "OKKKK", &owner, &store, &call, &reply, &why)) return NULL;
    allocfunc alloc = (allocfunc)PyType_GetSlot(type, Py_tp_alloc);
    Caller *self = (Caller *)alloc(type, 0);
    if (!self) return NULL;
    self->state = PyType_GetModuleState(type);
    self->lock = PyThread_allocate_lock();
    Py_INCREF(owner);
    self->owner = owner;
    self->store = (void *)(uintptr_t)store;
    self->call = (Calling *)(uintptr_t)call;
    self->reply = (Writing *)(uintptr_t)reply;
    self->why = (Writing *)(uintptr_t)why;
    self->forks = forks;
    if (self->lock) return (PyObject *)self;
    Py_DECREF(self);
    return PyErr_NoMemory();
}

static void drop_caller(Caller *self) {
    PyTypeObject *type = Py_TYPE(self);
    if (self->lock) PyThread_free_lock(self->lock);
    Py_XDECREF(self->owner);
    freefunc release = (freefunc)PyType_GetSlot(type, Py_tp_free);
    release(self);
    Py_DECREF(type);
}

static PyMethodDef methods[] = {
    {"call", METHOD(call_terms), METH_FASTCALL, "call(report, process, pid, name, *terms)\n\nMakes a call, and returns its reply."},
    {"send", METHOD(send), METH_FASTCALL, "send(report, process, pid, call)\n\nMakes the call of these bytes, and returns its reply."},
    {"__enter__", METHOD(enter), METH_NOARGS, "Takes the lock of the store."},
    {"__exit__", METHOD(leave), METH_VARARGS, "Gives the lock of the store back."},
    {NULL, NULL, 0, NULL},
};

static PyType_Slot slots[] = {
    {Py_tp_doc, "Caller(owner, store, call, reply, why)\n\nMakes calls of a store: the address of the store, and of three functions of the library."},
    {Py_tp_new, new_caller},
    {Py_tp_dealloc, drop_caller},
    {Py_tp_methods, methods},
    {0, NULL},
};

PyType_Spec caller_spec = {"yoyoash._external.Caller", sizeof(Caller), 0, Py_TPFLAGS_DEFAULT, slots};
