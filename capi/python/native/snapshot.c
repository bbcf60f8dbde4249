/* Snapshots. */
#include "native.h"

/* ---- Calls */

bool clsm_await_calls(struct snapshot *snapshot) {
    while (snapshot->is_in_call)
        if (!clsm_sleep_in(&snapshot->waiting, CLOSERS, CLOSERS)) return false;
    return true;
}

/* Whether a call may be made now, once no other one is running on it; a child process has no thread
 * that would end one of its parent's. */
bool clsm_enter_snapshot(struct snapshot *self) {
    if (!clsm_is_forked_object(self->store) && !clsm_await_calls(self)) return false;
    if (self->handle && clsm_is_usable(self->store)) return true;
    clsm_refuse_call(self->store, CLSM_BAD_POINTER);
    return false;
}

void clsm_begin_on(struct snapshot *self) {
    self->is_in_call = true;
    clsm_begin_call(self->store);
}

void clsm_end_on(struct snapshot *self) {
    self->is_in_call = false;
    clsm_wake_all(self->waiting);
    clsm_end_call(self->store);
}

static PyObject *get(struct snapshot *self, PyObject *const *arguments, Py_ssize_t count) {
    clsm_value value;
    uint64_t key;
    if (!clsm_has_arguments(count, 2) || !clsm_read_key(arguments[0], &key)
        || !clsm_enter_snapshot(self))
        return NULL;
    const int code = clsm_snapshot_get(self->handle, key, &value);
    if (code == CLSM_OK) return clsm_new_value(&value);
    if (code != CLSM_NOT_FOUND) return clsm_refuse_call(self->store, code);
    Py_INCREF(arguments[1]);
    return arguments[1];
}

static PyObject *has(struct snapshot *self, PyObject *object) {
    uint64_t key;
    if (!clsm_read_key(object, &key) || !clsm_enter_snapshot(self)) return NULL;
    const int code = clsm_snapshot_get(self->handle, key, NULL);
    if (code != CLSM_OK && code != CLSM_NOT_FOUND) return clsm_refuse_call(self->store, code);
    return PyBool_FromLong(code == CLSM_OK);
}

static PyObject *count(struct snapshot *self, PyObject *const *arguments, Py_ssize_t number) {
    uint64_t first, last, keys = 0;
    int code;
    if (!clsm_has_arguments(number, 2) || !clsm_read_key(arguments[0], &first)
        || !clsm_read_key(arguments[1], &last) || !clsm_enter_snapshot(self))
        return NULL;
    clsm_begin_on(self);
    Py_BEGIN_ALLOW_THREADS
    code = clsm_snapshot_count(self->handle, first, last, &keys);
    Py_END_ALLOW_THREADS
    clsm_end_on(self);
    if (code != CLSM_OK) return clsm_refuse_call(self->store, code);
    return PyLong_FromUnsignedLongLong(keys);
}

int clsm_read_snapshot(struct snapshot *self, clsm_snapshot_paging *page, uint64_t from,
                       uint64_t to, clsm_row *rows, size_t room, clsm_page_end *told) {
    int code;
    if (!clsm_is_forked_object(self->store) && !clsm_await_calls(self)) return -1;
    if (!self->handle || !clsm_is_usable(self->store)) return CLSM_BAD_POINTER;
    clsm_begin_on(self);
    Py_BEGIN_ALLOW_THREADS
    code = page(self->handle, from, to, rows, room, told);
    Py_END_ALLOW_THREADS
    clsm_end_on(self);
    return code;
}

static PyObject *time_of(PyObject *object, void *none) {
    const struct snapshot *self = (struct snapshot *)object;
    (void)none;
    return PyLong_FromUnsignedLongLong(self->time);
}

/* ---- Opening and closing */

static PyObject *open_snapshot(PyTypeObject *type, PyObject *arguments, PyObject *names) {
    PyObject *store;
    (void)names;
    if (!PyArg_ParseTuple(arguments, "O!", clsm_store_type, &store)) return NULL;
    const allocfunc allocate = (allocfunc)(uintptr_t)PyType_GetSlot(type, Py_tp_alloc);
    PyObject *object = allocate(type, 0);
    if (!object) return NULL;
    struct snapshot *self = (struct snapshot *)object;
    Py_INCREF(store);
    self->store = (struct store *)store;
    if (clsm_open_snapshot(self->store, self) == CLSM_OK) return object;
    Py_DECREF(object);
    return NULL;
}

void clsm_close_snapshot(struct snapshot *self) {
    if (!self->link) return;
    *self->link = self->next;
    if (self->next) self->next->link = self->link;
    self->link = NULL;
    clsm_snapshot_close_at(&self->handle);
}

static PyObject *close_it(struct snapshot *self, PyObject *none) {
    (void)none;
    if (clsm_is_forked_object(self->store)) Py_RETURN_NONE;
    if (!clsm_await_calls(self)) return NULL;
    clsm_close_snapshot(self);
    Py_RETURN_NONE;
}

static PyObject *enter_with(PyObject *self, PyObject *none) {
    (void)none;
    Py_INCREF(self);
    return self;
}

static int traverse(PyObject *object, visitproc visit, void *arg) {
    struct snapshot *self = (struct snapshot *)object;
    Py_VISIT((PyObject *)self->store);
    Py_VISIT(Py_TYPE(object));
    return 0;
}

static void dealloc(PyObject *object) {
    struct snapshot *self = (struct snapshot *)object;
    PyObject_GC_UnTrack(object);
    if (self->store && !clsm_is_forked_object(self->store) && Py_IsInitialized())
        clsm_close_snapshot(self);
    Py_XDECREF((PyObject *)self->store);
    clsm_free_object(object);
}

/* ---- The type */

#define METHOD(name) ((PyCFunction)(void (*)(void))(name))
#define SLOT(function) ((void *)(uintptr_t)(function))

static PyMethodDef methods[] = {
    {"_get", METHOD(get), METH_FASTCALL, NULL},
    {"_get_many", METHOD(clsm_get_many_at), METH_O, NULL},
    {"_get_into", METHOD(clsm_get_into_at), METH_FASTCALL, NULL},
    {"_end", METHOD(clsm_end_at), METH_FASTCALL, NULL},
    {"_has", METHOD(has), METH_O, NULL},
    {"_count", METHOD(count), METH_FASTCALL, NULL},
    {"close", METHOD(close_it), METH_NOARGS, NULL},
    {"__enter__", METHOD(enter_with), METH_NOARGS, NULL},
    {"__exit__", METHOD(close_it), METH_VARARGS, NULL},
    {NULL, NULL, 0, NULL},
};

static PyGetSetDef fields[] = {
    {"_time", time_of, NULL, NULL, NULL},
    {NULL, NULL, NULL, NULL, NULL},
};

static PyType_Slot slots[] = {
    {Py_tp_new, SLOT(open_snapshot)},   {Py_tp_traverse, SLOT(traverse)},
    {Py_tp_dealloc, SLOT(dealloc)},     {Py_tp_methods, methods},
    {Py_tp_getset, fields},             {0, NULL},
};

PyType_Spec clsm_snapshot_spec = {
    .name = "cupolanettle._native.Snapshot",
    .basicsize = sizeof(struct snapshot),
    .flags = Py_TPFLAGS_DEFAULT | Py_TPFLAGS_BASETYPE | Py_TPFLAGS_HAVE_GC,
    .slots = slots,
};
