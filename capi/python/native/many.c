/* Many keys: reads of several keys, the ends of a range, batches with conditions, ranges that are
 * removed. */
#include "native.h"

/* ---- Several keys */

/* The keys of a list or a tuple, and room for their values. */
struct many {
    uint64_t *keys;
    clsm_value *values;
    size_t count;
};

static void free_many(struct many *many) {
    PyMem_Free(many->keys);
    PyMem_Free(many->values);
}

/* Reads the keys: false once it has raised an exception. */
static bool read_keys(PyObject *list, struct many *many) {
    const Py_ssize_t count = PyList_Check(list) ? PyList_Size(list) : -1;
    if (count < 0) {
        PyErr_SetString(PyExc_TypeError, "keys are a list");
        return false;
    }
    many->count = (size_t)count;
    many->keys = PyMem_Malloc(many->count * sizeof *many->keys);
    many->values = PyMem_Malloc(many->count * sizeof *many->values);
    if (!many->keys || !many->values) {
        PyErr_NoMemory();
        return false;
    }
    for (Py_ssize_t i = 0; i < count; i++) {
        PyObject *key = PyList_GetItem(list, i); /* null if a key has made the list shorter */
        if (!key) return false;
        Py_INCREF(key);
        const bool is_read = clsm_read_key(key, &many->keys[i]);
        Py_DECREF(key);
        if (!is_read) return false;
    }
    return true;
}

/* The values that were found, in a list. */
static PyObject *new_values(const struct many *many) {
    PyObject *list = PyList_New((Py_ssize_t)many->count);
    for (size_t i = 0; list && i < many->count; i++) {
        PyObject *value = clsm_new_value(&many->values[i]);
        if (!value || PyList_SetItem(list, (Py_ssize_t)i, value)) Py_CLEAR(list);
    }
    return list;
}

static int call_get_many(clsm_caller *caller, struct call *call) {
    return clsm_get_many(caller, call->many, call->count, call->values);
}

static int get_of(struct store *self, const struct many *many) {
    if (many->count <= FEW_KEYS)
        return clsm_is_usable(self)
                   ? clsm_get_many(self->shared, many->keys, many->count, many->values)
                   : CLSM_BAD_POINTER;
    struct call call = {.make = call_get_many, .many = many->keys, .values = many->values};
    call.count = many->count;
    return clsm_make_call(self, READERS, WRITERS, &call);
}

static int get_at(struct snapshot *self, const struct many *many) {
    int code;
    if (!clsm_enter_snapshot(self)) return -1;
    if (many->count <= FEW_KEYS)
        return clsm_snapshot_get_many(self->handle, many->keys, many->count, many->values);
    clsm_begin_on(self);
    Py_BEGIN_ALLOW_THREADS
    code = clsm_snapshot_get_many(self->handle, many->keys, many->count, many->values);
    Py_END_ALLOW_THREADS
    clsm_end_on(self);
    return code;
}

PyObject *clsm_get_many_of(struct store *self, PyObject *keys) {
    struct many many = {NULL, NULL, 0};
    const int code = read_keys(keys, &many) ? get_of(self, &many) : -1;
    PyObject *values = code == CLSM_OK ? new_values(&many) : NULL;
    if (code > 0) clsm_refuse_call(self, code);
    free_many(&many);
    return values;
}

PyObject *clsm_get_many_at(struct snapshot *self, PyObject *keys) {
    struct many many = {NULL, NULL, 0};
    const int code = read_keys(keys, &many) ? get_at(self, &many) : -1;
    PyObject *values = code == CLSM_OK ? new_values(&many) : NULL;
    if (code > 0) clsm_refuse_call(self->store, code);
    free_many(&many);
    return values;
}

/* ---- The ends of a range */

/* The range, and whether its end is asked for: false once it has raised an exception. */
static bool read_end(PyObject *const *arguments, Py_ssize_t count, uint64_t range[2], int *falls) {
    if (!clsm_has_arguments(count, 3) || !clsm_read_key(arguments[0], &range[0])
        || !clsm_read_key(arguments[1], &range[1]))
        return false;
    *falls = PyObject_IsTrue(arguments[2]);
    return *falls >= 0;
}

static PyObject *row_or_none(const struct store *store, int code, const clsm_row *row) {
    if (code == CLSM_OK) return clsm_new_row(row);
    if (code != CLSM_NOT_FOUND) return clsm_refuse_call(store, code);
    Py_RETURN_NONE;
}

PyObject *clsm_end_of(struct store *self, PyObject *const *arguments, Py_ssize_t count) {
    uint64_t range[2];
    clsm_row row;
    int falls;
    if (!read_end(arguments, count, range, &falls)) return NULL;
    if (!clsm_is_usable(self)) return clsm_refuse_call(self, CLSM_BAD_POINTER);
    const int code = falls ? clsm_last(self->shared, range[0], range[1], &row)
                           : clsm_first(self->shared, range[0], range[1], &row);
    return row_or_none(self, code, &row);
}

PyObject *clsm_end_at(struct snapshot *self, PyObject *const *arguments, Py_ssize_t count) {
    uint64_t range[2];
    clsm_row row;
    int falls;
    if (!read_end(arguments, count, range, &falls) || !clsm_enter_snapshot(self)) return NULL;
    const int code = falls ? clsm_snapshot_last(self->handle, range[0], range[1], &row)
                           : clsm_snapshot_first(self->handle, range[0], range[1], &row);
    return row_or_none(self->store, code, &row);
}

/* ---- Batches with conditions */

static int call_batch_if(clsm_caller *caller, struct call *call) {
    return clsm_batch_if(caller, call->expected_rows, call->expected_count, call->counts,
                         call->counts_count, call->rows, call->count, &call->unmet);
}

/* A copy, which is aligned, of the parts that these bytes are: null once it has raised an
 * exception. */
static void *copy_parts(PyObject *object, size_t size, size_t *count) {
    char *bytes;
    Py_ssize_t length;
    if (PyBytes_AsStringAndSize(object, &bytes, &length)) return NULL;
    *count = (size_t)length / size;
    char *copy = PyMem_Malloc(*count * size);
    if (!copy) return PyErr_NoMemory();
    for (size_t i = 0; i < *count * size; i++) copy[i] = bytes[i];
    return copy;
}

/* Writes rows if the conditions hold, which are rows and counts of ranges, all packed: None, or the
 * place of the first condition that does not hold. */
PyObject *clsm_write_if(struct store *self, PyObject *const *arguments, Py_ssize_t count) {
    struct call call = {.make = call_batch_if};
    if (!clsm_has_arguments(count, 3)) return NULL;
    clsm_row *expected = copy_parts(arguments[0], sizeof *expected, &call.expected_count);
    clsm_range_count *counts = NULL;
    clsm_row *rows = NULL;
    if (expected) counts = copy_parts(arguments[1], sizeof *counts, &call.counts_count);
    if (counts) rows = copy_parts(arguments[2], sizeof *rows, &call.count);
    call.expected_rows = expected;
    call.counts = counts;
    call.rows = rows;
    const int code = rows ? clsm_make_write(self, &call) : -1;
    PyMem_Free(expected);
    PyMem_Free(counts);
    PyMem_Free(rows);
    if (code < 0) return NULL;
    if (code == CLSM_KEPT) return PyLong_FromSize_t(call.unmet);
    if (code != CLSM_OK) return clsm_refuse_call(self, code);
    Py_RETURN_NONE;
}

/* ---- Ranges that are removed */

/* Made again it goes on, so that it counts on. */
static int call_remove_range(clsm_caller *caller, struct call *call) {
    uint64_t removed;
    const int code = clsm_remove_range(caller, call->key, call->last, &removed);
    call->keys += removed;
    return code;
}

/* Sets the first item of the list, the last argument, to how many keys were removed. */
PyObject *clsm_remove_keys(struct store *self, PyObject *const *arguments, Py_ssize_t count) {
    struct call call = {.make = call_remove_range};
    if (!clsm_has_arguments(count, 3) || !clsm_read_key(arguments[0], &call.key)
        || !clsm_read_key(arguments[1], &call.last))
        return NULL;
    const int code = clsm_make_write(self, &call);
    PyObject *removed = PyLong_FromUnsignedLongLong(call.keys);
    if (!removed || PyList_SetItem(arguments[2], 0, removed) || code < 0) return NULL;
    if (code != CLSM_OK) return clsm_refuse_call(self, code);
    Py_RETURN_NONE;
}
