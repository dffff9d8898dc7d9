/* The module yoyoash._external. */
#include "external.h"

static PyObject *encode_here(PyObject *module, PyObject *const *given, Py_ssize_t count) {
    Bytes call;
    begin_bytes(&call);
    Outcome done = has_arguments(count, 1) ? encode_call(PyModule_GetState(module), &call, given[0], given + 1, count - 1) : FAILED;
    PyObject *bytes = done == DONE ? PyBytes_FromStringAndSize((const char *)call.bytes, (Py_ssize_t)call.len) : NULL;
    free_bytes(&call);
    if (done == UNFIT) Py_RETURN_NONE;
    return bytes;
}

static PyObject *decode_here(PyObject *module, PyObject *data) {
    char *bytes;
    Py_ssize_t len;
    if (PyBytes_AsStringAndSize(data, &bytes, &len) < 0) return NULL;
    PyObject *term = decode_term(PyModule_GetState(module), (const uint8_t *)bytes, (size_t)len);
    if (!term && !PyErr_Occurred()) Py_RETURN_NONE;
    return term;
}

static PyMethodDef functions[] = {
    {"encode_call", METHOD(encode_here), METH_FASTCALL, "encode_call(name, *terms)\n\nReturns the bytes of a call, or None if Python has to encode it."},
    {"decode", decode_here, METH_O, "decode(data)\n\nReturns the term of these bytes, or None if Python has to decode them."},
    {NULL, NULL, 0, NULL},
};

/* Returns an attribute of a module of the package. */
static PyObject *imported(const char *module, const char *name) {
    PyObject *found = PyImport_ImportModule(module), *it = found ? PyObject_GetAttrString(found, name) : NULL;
    Py_XDECREF(found);
    return it;
}

static int begin_module(PyObject *module) {
    static int is_watching;
    State *state = PyModule_GetState(module);
    if (!is_watching && watch_forks()) PyErr_NoMemory();
    is_watching = 1;
    state->atom = imported("yoyoash.terms", "Atom");
    state->pid = imported("yoyoash.terms", "Pid");
    state->tid = imported("yoyoash.terms", "Tid");
    state->encode_call = imported("yoyoash.external", "encode_call");
    state->decode = imported("yoyoash.decoding", "decode");
    state->atoms = PyDict_New();
    state->pids = PyDict_New();
    state->tids = PyDict_New();
    state->text = PyUnicode_InternFromString("text");
    state->number = PyUnicode_InternFromString("number");
    state->caller = PyType_FromModuleAndSpec(module, &caller_spec, NULL);
    if (PyErr_Occurred()) return -1;
    return PyModule_AddObjectRef(module, "Caller", state->caller);
}

static int visit_module(PyObject *module, visitproc visit, void *arg) {
    State *state = PyModule_GetState(module);
    PyObject **all = (PyObject **)state;
    for (size_t place = 0; state && place < sizeof *state / sizeof *all; place++) Py_VISIT(all[place]);
    return 0;
}

static int clear_module(PyObject *module) {
    State *state = PyModule_GetState(module);
    PyObject **all = (PyObject **)state;
    for (size_t place = 0; state && place < sizeof *state / sizeof *all; place++) Py_CLEAR(all[place]);
    return 0;
}

static void free_module(void *module) { clear_module(module); }

static PyModuleDef_Slot module_slots[] = {{Py_mod_exec, begin_module}, {0, NULL}};
static struct PyModuleDef module_def = {PyModuleDef_HEAD_INIT, "yoyoash._external", "Calls of a store in this process.", sizeof(State), functions,
                                        module_slots, visit_module, clear_module, free_module};

PyMODINIT_FUNC PyInit__external(void) { return PyModuleDef_Init(&module_def); }
