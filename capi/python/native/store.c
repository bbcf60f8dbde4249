/* Stores. */
#include "native.h"

#include <sched.h>
#include <string.h>
#include <time.h>

enum {
    LONGEST_WAIT = 100,   /* milliseconds that a call waits for a snapshot to be closed */
    MILLISECONDS = 1000,  /* of a second */
    NANOSECONDS = 1000000 /* of a millisecond */
};

/* ---- Refusals */

bool clsm_is_forked_object(const struct store *store) {
    return store->was_opened && store->forks != clsm_forks_seen();
}

PyObject *clsm_refuse_call(const struct store *store, int code) {
    return clsm_refuse(code, clsm_is_forked_object(store));
}

/* Whether calls may be made; raises the exception if not. */
static bool check_open(const struct store *store) {
    if (clsm_is_usable(store)) return true;
    clsm_refuse_call(store, CLSM_BAD_POINTER);
    return false;
}

static PyObject *none_or_refuse(const struct store *store, int code) {
    if (code != CLSM_OK) return clsm_refuse_call(store, code);
    Py_RETURN_NONE;
}

/* Notes what the library refused, if that is tried again, as it counts that. */
static void note_try(struct store *store, int code) {
    switch (code) {
    case CLSM_VERSIONS_FULL: store->tried_again.versions_full++; break;
    case CLSM_RUN_FULL: store->tried_again.run_full++; break;
    case CLSM_NO_SEAT: store->tried_again.no_seat++; break;
    default: break;
    }
}

/* ---- The pool */

void clsm_begin_call(struct store *store) { store->calls++; }

void clsm_end_call(struct store *store) {
    store->calls--;
    if (store->calls == 0 && store->is_closing) clsm_wake_all(store->waiting);
}

/* Whether this caller is free, once it was opened: 1, 0, or -1 once it has raised an exception. */
static int is_free(struct store *store, struct caller *caller) {
    if (caller->is_in_call) return 0;
    if (caller->handle) return 1;
    const int code = clsm_caller_open(store->handle, &caller->handle);
    note_try(store, code);
    if (code == CLSM_NO_SEAT) return 0;
    if (code == CLSM_OK) return 1;
    clsm_refuse_call(store, code);
    return -1;
}

/* A caller from the first to before the last that is in no call, or -1 once it has raised an
 * exception. Waits for one if all are. */
static int find_caller(struct store *store, int first, int last) {
    for (;;) {
        if (!check_open(store)) return -1;
        for (int i = first; i < last; i++) {
            const int found = is_free(store, &store->callers[i]);
            if (found != 0) return found < 0 ? -1 : i;
        }
        if (!clsm_sleep_in(&store->waiting, first, last)) return -1;
    }
}

static bool has_opened_snapshots(const struct store *store, int caller) {
    for (const struct snapshot *open = store->snapshots; open; open = open->next)
        if (open->opener == caller) return true;
    return false;
}

/* Closes callers that are in no call and opened no snapshot, for another snapshot. */
static void give_up_seats(struct store *store) {
    for (int i = 0; i < CALLERS; i++) {
        struct caller *caller = &store->callers[i];
        const bool is_first = i == OPENERS || i == READERS || i == WRITERS;
        if (!is_first && !caller->is_in_call && !has_opened_snapshots(store, i))
            clsm_caller_close_at(&caller->handle);
    }
}

/* ---- Calls that give up the interpreter's lock */

int clsm_make_call(struct store *store, int first, int last, struct call *call) {
    const int number = find_caller(store, first, last);
    if (number < 0) return -1;
    struct caller *caller = &store->callers[number];
    int code = clsm_follow(caller->handle, clsm_seen(store->shared));
    if (code != CLSM_OK) return code;
    caller->is_in_call = true;
    clsm_begin_call(store);
    Py_BEGIN_ALLOW_THREADS
    code = call->make(caller->handle, call);
    Py_END_ALLOW_THREADS
    caller->is_in_call = false;
    clsm_follow(store->shared, clsm_seen(caller->handle));
    clsm_wake_for(store->waiting, number);
    clsm_end_call(store);
    return code;
}

/* Makes a call that writes: by the opener of a snapshot that this thread has open, so that the
 * library knows of it, or by any writer. */
static int make_write_once(struct store *store, struct call *call) {
    const uint64_t thread = clsm_thread_number();
    for (const struct snapshot *open = store->snapshots; open; open = open->next)
        if (open->thread == thread)
            return clsm_make_call(store, open->opener, open->opener + 1, call);
    return clsm_make_call(store, WRITERS, CALLERS, call);
}

static int64_t milliseconds(void) {
    struct timespec now;
    clock_gettime(CLOCK_MONOTONIC, &now);
    return (int64_t)now.tv_sec * MILLISECONDS + (int64_t)now.tv_nsec / NANOSECONDS;
}

int clsm_make_write(struct store *store, struct call *call) {
    int64_t began = 0;
    for (;;) {
        const int code = make_write_once(store, call);
        if (code != CLSM_VERSIONS_FULL || store->wait <= LONGEST_WAIT) return code;
        if (began == 0) began = milliseconds() - LONGEST_WAIT;
        if (milliseconds() - began >= store->wait) return code;
        note_try(store, code);
        if (PyErr_CheckSignals()) return -1;
    }
}

/* ---- Reads */

static PyObject *get(struct store *self, PyObject *const *arguments, Py_ssize_t count) {
    clsm_value value;
    uint64_t key;
    if (!clsm_has_arguments(count, 2) || !clsm_read_key(arguments[0], &key) || !check_open(self))
        return NULL;
    const int code = clsm_get(self->shared, key, &value);
    if (code == CLSM_OK) return clsm_new_value(&value);
    if (code != CLSM_NOT_FOUND) return clsm_refuse_call(self, code);
    Py_INCREF(arguments[1]);
    return arguments[1];
}

static PyObject *has(struct store *self, PyObject *object) {
    uint64_t key;
    if (!clsm_read_key(object, &key) || !check_open(self)) return NULL;
    const int code = clsm_get(self->shared, key, NULL);
    if (code != CLSM_OK && code != CLSM_NOT_FOUND) return clsm_refuse_call(self, code);
    return PyBool_FromLong(code == CLSM_OK);
}

static int call_count(clsm_caller *caller, struct call *call) {
    return clsm_count(caller, call->key, call->last, &call->keys);
}

static PyObject *count(struct store *self, PyObject *const *arguments, Py_ssize_t number) {
    struct call call = {.make = call_count};
    if (!clsm_has_arguments(number, 2) || !clsm_read_key(arguments[0], &call.key)
        || !clsm_read_key(arguments[1], &call.last))
        return NULL;
    const int code = clsm_make_call(self, READERS, WRITERS, &call);
    if (code < 0) return NULL;
    if (code != CLSM_OK) return clsm_refuse_call(self, code);
    return PyLong_FromUnsignedLongLong(call.keys);
}

static PyObject *stats(struct store *self, PyObject *none) {
    clsm_statistics told;
    (void)none;
    if (!check_open(self)) return NULL;
    const int code = clsm_stats(self->handle, &told);
    if (code != CLSM_OK) return clsm_refuse_call(self, code);
    told.versions_full -= self->tried_again.versions_full;
    told.run_full -= self->tried_again.run_full;
    told.no_seat -= self->tried_again.no_seat;
    uint64_t numbers[sizeof told / sizeof(uint64_t)];
    memcpy(numbers, &told, sizeof told);
    const Py_ssize_t size = (Py_ssize_t)(sizeof numbers / sizeof *numbers);
    PyObject *tuple = PyTuple_New(size);
    for (Py_ssize_t i = 0; tuple && i < size; i++) {
        PyObject *number = PyLong_FromUnsignedLongLong(numbers[i]);
        if (!number || PyTuple_SetItem(tuple, i, number)) Py_CLEAR(tuple);
    }
    return tuple;
}

/* Sweeps. While a read holds what a merge replaced, it lets handlers of signals in and asks again. */
static PyObject *sweep(struct store *self, PyObject *none) {
    (void)none;
    for (;;) {
        if (!check_open(self)) return NULL;
        int code;
        clsm_begin_call(self);
        Py_BEGIN_ALLOW_THREADS
        code = clsm_sweep(self->handle);
        if (code == CLSM_PINNED) sched_yield();
        Py_END_ALLOW_THREADS
        clsm_end_call(self);
        if (code != CLSM_PINNED) return none_or_refuse(self, code == CLSM_IDLE ? CLSM_OK : code);
        if (PyErr_CheckSignals()) return NULL;
    }
}

/* ---- Writes */

static int call_put(clsm_caller *caller, struct call *call) {
    return clsm_put(caller, call->key, call->value.words, call->value.length);
}

static PyObject *put(struct store *self, PyObject *const *arguments, Py_ssize_t number) {
    struct call call;
    if (!clsm_has_arguments(number, 2) || !clsm_read_key(arguments[0], &call.key)
        || !clsm_read_value(arguments[1], &call.value) || !check_open(self))
        return NULL;
    int code = clsm_try_put(self->shared, call.key, call.value.words, call.value.length);
    if (code != CLSM_OK) { /* it may be another one if the write waits */
        note_try(self, code);
        call.make = call_put;
        code = clsm_make_write(self, &call);
    }
    return code < 0 ? NULL : none_or_refuse(self, code);
}

static int call_remove(clsm_caller *caller, struct call *call) {
    return clsm_remove(caller, call->key);
}

static PyObject *remove_key(struct store *self, PyObject *object) {
    struct call call = {.make = call_remove};
    if (!clsm_read_key(object, &call.key) || !check_open(self)) return NULL;
    int code = clsm_try_remove(self->shared, call.key);
    if (code != CLSM_OK) {
        note_try(self, code);
        code = clsm_make_write(self, &call);
    }
    return code < 0 ? NULL : none_or_refuse(self, code);
}

static int call_batch(clsm_caller *caller, struct call *call) {
    return clsm_batch(caller, call->rows, call->count);
}

/* Writes a batch, and takes what it wrote out of it: others may add to it meanwhile. */
static PyObject *write_rows(struct store *self, PyObject *rows) {
    if (!PyByteArray_Check(rows)) {
        PyErr_SetString(PyExc_TypeError, "rows are a bytearray");
        return NULL;
    }
    struct call call = {.make = call_batch};
    call.count = (size_t)PyByteArray_Size(rows) / sizeof *call.rows;
    const size_t size = call.count * sizeof *call.rows;
    clsm_row *copied = PyMem_Malloc(size);
    if (!copied) return PyErr_NoMemory();
    memcpy(copied, PyByteArray_AsString(rows), size);
    call.rows = copied;
    const int code = clsm_make_write(self, &call);
    PyMem_Free(copied);
    if (code < 0) return NULL;
    if (code == CLSM_OK && PySequence_DelSlice(rows, 0, (Py_ssize_t)size)) return NULL;
    return none_or_refuse(self, code);
}

/* ---- Changes */

static int call_add(clsm_caller *caller, struct call *call) {
    return clsm_add(caller, call->key, call->last, &call->changed);
}

static PyObject *add(struct store *self, PyObject *const *arguments, Py_ssize_t number) {
    struct call call = {.make = call_add};
    if (!clsm_has_arguments(number, 2) || !clsm_read_key(arguments[0], &call.key)
        || !clsm_read_word(arguments[1], &call.last))
        return NULL;
    const int code = clsm_make_write(self, &call);
    if (code < 0) return NULL;
    if (code == CLSM_OK) return clsm_new_value(&call.changed.after);
    if (code != CLSM_KEPT) return clsm_refuse_call(self, code);
    const bool is_tuple = call.changed.before.length > 1;
    if (is_tuple) PyErr_SetString(PyExc_ValueError, "a tuple cannot be added to");
    else PyErr_SetString(PyExc_OverflowError, "the sum is greater than 2**64 - 1");
    return NULL;
}

static int call_put_if_absent(clsm_caller *caller, struct call *call) {
    return clsm_put_if_absent(caller, call->key, &call->value, &call->changed);
}

static PyObject *put_if_absent(struct store *self, PyObject *const *arguments, Py_ssize_t number) {
    struct call call = {.make = call_put_if_absent};
    if (!clsm_has_arguments(number, 2) || !clsm_read_key(arguments[0], &call.key)
        || !clsm_read_value(arguments[1], &call.value))
        return NULL;
    const int code = clsm_make_write(self, &call);
    if (code < 0) return NULL;
    if (code != CLSM_OK && code != CLSM_KEPT) return clsm_refuse_call(self, code);
    return clsm_new_value(&call.changed.after);
}

static int call_replace(clsm_caller *caller, struct call *call) {
    return clsm_replace(caller, call->key, &call->expected, &call->value, &call->changed);
}

/* Whether it has written, and what the key had and has. */
static PyObject *replace(struct store *self, PyObject *const *arguments, Py_ssize_t number) {
    struct call call = {.make = call_replace};
    if (!clsm_has_arguments(number, 3) || !clsm_read_key(arguments[0], &call.key)
        || !clsm_read_value_or_none(arguments[1], &call.expected)
        || !clsm_read_value_or_none(arguments[2], &call.value))
        return NULL;
    const int code = clsm_make_write(self, &call);
    if (code < 0) return NULL;
    if (code != CLSM_OK && code != CLSM_KEPT) return clsm_refuse_call(self, code);
    PyObject *before = clsm_new_value(&call.changed.before);
    PyObject *after = clsm_new_value(&call.changed.after);
    PyObject *told = NULL;
    if (before && after)
        told = PyTuple_Pack(3, code == CLSM_OK ? Py_True : Py_False, before, after);
    Py_XDECREF(before);
    Py_XDECREF(after);
    return told;
}

/* ---- Snapshots */

static int open_once(struct store *store, struct snapshot *snapshot) {
    const int opener = find_caller(store, OPENERS, READERS);
    if (opener < 0) return -1;
    clsm_caller *caller = store->callers[opener].handle;
    int code = clsm_follow(caller, clsm_seen(store->shared));
    if (code == CLSM_OK) code = clsm_snapshot_open(caller, &snapshot->handle);
    if (code == CLSM_OK) clsm_follow(store->shared, clsm_seen(caller));
    snapshot->opener = opener;
    return code;
}

int clsm_open_snapshot(struct store *store, struct snapshot *snapshot) {
    int code = open_once(store, snapshot);
    if (code == CLSM_NO_SEAT) {
        note_try(store, code);
        give_up_seats(store);
        code = open_once(store, snapshot);
    }
    if (code > 0) clsm_refuse_call(store, code);
    if (code != CLSM_OK) return -1;
    snapshot->time = clsm_snapshot_time(snapshot->handle);
    snapshot->thread = clsm_thread_number();
    snapshot->next = store->snapshots;
    snapshot->link = &store->snapshots;
    if (snapshot->next) snapshot->next->link = &snapshot->next;
    store->snapshots = snapshot;
    return CLSM_OK;
}

/* ---- Opening and closing */

static void close_idle_snapshots(struct store *store) {
    struct snapshot *next;
    for (struct snapshot *open = store->snapshots; open; open = next) {
        next = open->next;
        if (!open->is_in_call) clsm_close_snapshot(open);
    }
}

/* Closes all, while no call is running: the code. Gives up the interpreter's lock. */
static int close_all(struct store *self) {
    int code = CLSM_OK;
    close_idle_snapshots(self);
    for (int i = 0; i < CALLERS; i++) clsm_caller_close_at(&self->callers[i].handle);
    clsm_caller_close_at(&self->shared);
    if (!self->handle) return CLSM_OK;
    clsm_begin_call(self);
    Py_BEGIN_ALLOW_THREADS
    code = clsm_close_at(&self->handle);
    Py_END_ALLOW_THREADS
    clsm_end_call(self);
    return code;
}

static PyObject *close_store(struct store *self, PyObject *none) {
    (void)none;
    if (!self->was_opened || clsm_is_forked_object(self)) Py_RETURN_NONE;
    self->is_closing = true;
    clsm_wake_all(self->waiting);
    close_idle_snapshots(self); /* for which writes may be waiting */
    while (self->calls > 0)
        if (!clsm_sleep_in(&self->waiting, CLOSERS, CLOSERS)) return NULL;
    return none_or_refuse(self, close_all(self));
}

static int open_callers(struct store *self) {
    int code = clsm_caller_open(self->handle, &self->shared);
    const int first[] = {OPENERS, READERS, WRITERS};
    for (size_t i = 0; i < sizeof first / sizeof *first && code == CLSM_OK; i++)
        code = clsm_caller_open(self->handle, &self->callers[first[i]].handle);
    return code;
}

/* Opens it, as a copy of another store if one is given: the code. Gives up the interpreter's lock,
 * and the other one is closed behind that. */
static int open_once_more(struct store *self, const clsm_options *options, struct store *source) {
    int code;
    if (source) clsm_begin_call(source);
    Py_BEGIN_ALLOW_THREADS
    if (source) code = clsm_copy(source->handle, options, &self->handle);
    else code = clsm_open(options, &self->handle);
    Py_END_ALLOW_THREADS
    if (source) clsm_end_call(source);
    return code;
}

/* The same, where the other one gives up seats if it has none left: the code. */
static int open_handle(struct store *self, const clsm_options *options, struct store *source) {
    int code = open_once_more(self, options, source);
    if (!source || code != CLSM_NO_SEAT || !clsm_is_usable(source)) return code;
    note_try(source, code);
    give_up_seats(source);
    return open_once_more(self, options, source);
}

static int open_store(PyObject *object, PyObject *arguments, PyObject *names) {
    struct store *self = (struct store *)object, *source = NULL;
    Py_ssize_t keys, epoch, versions;
    long long wait;
    clsm_options options;
    memset(&options, 0, sizeof options);
    if (names && PyDict_Size(names) > 0) {
        PyErr_SetString(PyExc_TypeError, "options have no names here");
        return -1;
    }
    if (!PyArg_ParseTuple(arguments, "nniinL|O!", &keys, &epoch, &options.patience, &options.merge,
                          &versions, &wait, clsm_store_type, &source)
        || (source && !check_open(source)))
        return -1;
    if (self->was_opened) {
        PyErr_SetString(PyExc_RuntimeError, "it was opened before");
        return -1;
    }
    options.keys = (size_t)keys;
    options.epoch = (size_t)epoch;
    options.versions = (size_t)versions;
    options.wait = wait < LONGEST_WAIT ? wait : LONGEST_WAIT;
    self->wait = wait;
    self->was_opened = true;
    self->forks = clsm_forks_seen();
    int code = open_handle(self, &options, source);
    if (code == CLSM_OK) code = open_callers(self);
    if (code == CLSM_OK) return 0;
    self->is_closing = true;
    close_all(self);
    clsm_refuse(code, false);
    return -1;
}

static PyObject *is_open(struct store *self, PyObject *none) {
    (void)none;
    return PyBool_FromLong(clsm_is_usable(self));
}

static PyObject *enter(PyObject *self, PyObject *none) {
    (void)none;
    Py_INCREF(self);
    return self;
}

static PyObject *leave(struct store *self, PyObject *arguments) {
    return close_store(self, arguments);
}

/* Warns of a store that was not closed. */
static void finalize(PyObject *object) {
    struct store *self = (struct store *)object;
    PyObject *type, *value, *trace;
    if (!clsm_is_usable(self) || !Py_IsInitialized()) return;
    PyErr_Fetch(&type, &value, &trace);
    if (PyErr_ResourceWarning(object, 1, "a Store was not closed")) PyErr_WriteUnraisable(object);
    PyErr_Restore(type, value, trace);
}

static void dealloc(PyObject *object) {
    struct store *self = (struct store *)object;
    if (Py_TYPE(object) == clsm_store_type) finalize(object);
    if (!clsm_is_forked_object(self) && Py_IsInitialized()) {
        self->is_closing = true;
        close_all(self);
    }
    clsm_free_object(object);
}

/* ---- The type */

#define METHOD(name) ((PyCFunction)(void (*)(void))(name))

static PyMethodDef methods[] = {
    {"_get", METHOD(get), METH_FASTCALL, NULL},
    {"_get_many", METHOD(clsm_get_many_of), METH_O, NULL},
    {"_get_into", METHOD(clsm_get_into_of), METH_FASTCALL, NULL},
    {"_end", METHOD(clsm_end_of), METH_FASTCALL, NULL},
    {"_has", METHOD(has), METH_O, NULL},
    {"_count", METHOD(count), METH_FASTCALL, NULL},
    {"_stats", METHOD(stats), METH_NOARGS, NULL},
    {"_sweep", METHOD(sweep), METH_NOARGS, NULL},
    {"_put", METHOD(put), METH_FASTCALL, NULL},
    {"_remove", METHOD(remove_key), METH_O, NULL},
    {"_write_rows", METHOD(write_rows), METH_O, NULL},
    {"_put_words", METHOD(clsm_put_words), METH_FASTCALL, NULL},
    {"_write_if", METHOD(clsm_write_if), METH_FASTCALL, NULL},
    {"_remove_range", METHOD(clsm_remove_keys), METH_FASTCALL, NULL},
    {"_add", METHOD(add), METH_FASTCALL, NULL},
    {"_put_if_absent", METHOD(put_if_absent), METH_FASTCALL, NULL},
    {"_replace", METHOD(replace), METH_FASTCALL, NULL},
    {"_is_open", METHOD(is_open), METH_NOARGS, NULL},
    {"close", METHOD(close_store), METH_NOARGS, NULL},
    {"__enter__", METHOD(enter), METH_NOARGS, NULL},
    {"__exit__", METHOD(leave), METH_VARARGS, NULL},
    {NULL, NULL, 0, NULL},
};

#define SLOT(function) ((void *)(uintptr_t)(function))

static PyType_Slot slots[] = {
    {Py_tp_init, SLOT(open_store)},
    {Py_tp_finalize, SLOT(finalize)},
    {Py_tp_dealloc, SLOT(dealloc)},
    {Py_tp_methods, methods},
    {0, NULL},
};

PyType_Spec clsm_store_spec = {
    .name = "cupolanettle._native.Store",
    .basicsize = sizeof(struct store),
    .flags = Py_TPFLAGS_DEFAULT | Py_TPFLAGS_BASETYPE,
    .slots = slots,
};
