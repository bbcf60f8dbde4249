/* The module: its types, and what stands beside them. */
#include "native.h"

#include <pthread.h>
#include <stdatomic.h>
#include <string.h>

PyTypeObject *clsm_store_type, *clsm_snapshot_type, *clsm_rows_type;

/* ---- Forks */

static atomic_uint forks;

static void count_fork(void) { atomic_fetch_add(&forks, 1); }

unsigned clsm_forks_seen(void) { return atomic_load_explicit(&forks, memory_order_relaxed); }

/* ---- Threads */

uint64_t clsm_thread_number(void) {
    static atomic_ullong last;
    static _Thread_local uint64_t own;
    if (own == 0) own = (uint64_t)atomic_fetch_add(&last, 1) + 1;
    return own;
}

/* ---- Objects */

void clsm_free_object(PyObject *self) {
    PyTypeObject *type = Py_TYPE(self);
    const freefunc release = (freefunc)(uintptr_t)PyType_GetSlot(type, Py_tp_free);
    release(self);
    Py_DECREF(type);
}

/* ---- Refusals */

static PyObject *error_of; /* makes an exception of a code */

PyObject *clsm_refuse(int code, bool is_forked) {
    PyObject *error = NULL;
    PyObject *const truth = is_forked ? Py_True : Py_False;
    if (error_of) error = PyObject_CallFunction(error_of, "iO", code, truth);
    else PyErr_SetString(PyExc_RuntimeError, clsm_strerror(code));
    if (!error) return NULL;
    PyErr_SetObject((PyObject *)Py_TYPE(error), error);
    Py_DECREF(error);
    return NULL;
}

static PyObject *refuse_by(PyObject *module, PyObject *call) {
    (void)module;
    PyObject *old = error_of;
    Py_INCREF(call);
    error_of = call;
    Py_XDECREF(old);
    Py_RETURN_NONE;
}

/* ---- Calls of the module */

static PyObject *name_of(PyObject *module, PyObject *code) {
    (void)module;
    const long number = PyLong_AsLong(code);
    if (number == -1 && PyErr_Occurred()) return NULL;
    const bool is_int = number >= INT_MIN && number <= INT_MAX;
    return PyUnicode_FromString(clsm_strerror(is_int ? (int)number : INT_MIN));
}

static PyObject *pack(PyObject *module, PyObject *const *arguments, Py_ssize_t count) {
    clsm_row row;
    (void)module;
    memset(&row, 0, sizeof row);
    if (!clsm_has_arguments(count, 2) || !clsm_read_key(arguments[0], &row.key)
        || !clsm_read_value_or_none(arguments[1], &row.value))
        return NULL;
    return PyBytes_FromStringAndSize((const char *)&row, sizeof row);
}

static PyMethodDef methods[] = {
    {"name_of", name_of, METH_O, NULL},
    {"pack", (PyCFunction)(void (*)(void))pack, METH_FASTCALL, NULL},
    {"refuse_by", refuse_by, METH_O, NULL},
    {NULL, NULL, 0, NULL},
};

/* ---- The module */

static bool add_type(PyObject *module, const char *name, PyType_Spec *spec, PyTypeObject **type) {
    if (!*type) *type = (PyTypeObject *)PyType_FromSpec(spec);
    return *type && PyModule_AddObjectRef(module, name, (PyObject *)*type) == 0;
}

static int fill(PyObject *module) {
    static PyInterpreterState *owner;
    PyInterpreterState *interpreter = PyInterpreterState_Get();
    if (owner && owner != interpreter) {
        PyErr_SetString(PyExc_ImportError, "another interpreter of this process has the extension");
        return -1;
    }
    if (!owner && pthread_atfork(NULL, NULL, count_fork)) {
        PyErr_NoMemory();
        return -1;
    }
    owner = interpreter;
    const bool is_filled = PyModule_AddStringConstant(module, "VERSION", clsm_version()) == 0
                           && add_type(module, "Store", &clsm_store_spec, &clsm_store_type)
                           && add_type(module, "Snapshot", &clsm_snapshot_spec, &clsm_snapshot_type)
                           && add_type(module, "Rows", &clsm_rows_spec, &clsm_rows_type);
    return is_filled ? 0 : -1;
}

/* A function goes into a slot as a pointer to an object, as in all of Python. */
#define SLOT(function) ((void *)(uintptr_t)(function))

static PyModuleDef_Slot slots[2];

static struct PyModuleDef definition = {
    .m_base = PyModuleDef_HEAD_INIT,
    .m_name = "_native",
    .m_size = 0,
    .m_methods = methods,
    .m_slots = slots,
};

PyMODINIT_FUNC PyInit__native(void);
PyMODINIT_FUNC PyInit__native(void) {
    slots[0] = (PyModuleDef_Slot){Py_mod_exec, SLOT(fill)};
    return PyModuleDef_Init(&definition);
}
