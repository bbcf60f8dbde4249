/* The C extension of the Python package: what its parts share.
 *
 * All of it runs under the interpreter's lock, which no call here gives up, except where it says
 * so. So fields of objects need no other lock, and no handler of a signal, which Python runs
 * between two of its own steps, comes between the steps of a call. */
#ifndef CLSM_NATIVE_H
#define CLSM_NATIVE_H

#define PY_SSIZE_T_CLEAN
#define Py_LIMITED_API 0x030a0000 /* 3.10 */
#include <Python.h>

#include "clsm.h"

/* ---- module.c */

extern PyTypeObject *clsm_store_type, *clsm_snapshot_type, *clsm_rows_type;

/* Raises the exception for a code. Answers null. */
PyObject *clsm_refuse(int code, bool is_forked);
/* How many forks this process descends from. */
unsigned clsm_forks_seen(void);
/* A number that no other thread has, nor will have. */
uint64_t clsm_thread_number(void);
/* Frees an object that was torn down. */
void clsm_free_object(PyObject *self);

/* ---- values.c: each answers false, or null, once it has raised an exception. */

bool clsm_read_key(PyObject *object, uint64_t *key);
bool clsm_read_word(PyObject *object, uint64_t *word);
bool clsm_read_value(PyObject *object, clsm_value *value);
/* None is no value. */
bool clsm_read_value_or_none(PyObject *object, clsm_value *value);
/* The value, or None. */
PyObject *clsm_new_value(const clsm_value *value);
PyObject *clsm_new_row(const clsm_row *row);
/* Checks how many arguments were given. */
bool clsm_has_arguments(Py_ssize_t given, Py_ssize_t wanted);

/* ---- waiting.c */

/* A thread that waits for one of some callers, or for something else if there are none. */
struct waiter {
    PyThread_type_lock lock;
    struct waiter *next;
    int first, last;
    bool is_woken;
};

/* Gives up the interpreter's lock and sleeps until it is woken. Handlers of signals run. False if
 * one has raised an exception. */
bool clsm_sleep_in(struct waiter **queue, int first, int last);
/* Wakes the first who waits for this caller. */
void clsm_wake_for(struct waiter *queue, int caller);
void clsm_wake_all(struct waiter *queue);

/* ---- store.c */

/* Callers of the pool, by what they do. The first one of each kind is always open. */
enum {
    OPENERS = 0,  /* open snapshots, and write for threads that have one open */
    READERS = 4,  /* count */
    WRITERS = 8,  /* write for the other threads */
    CALLERS = 16,
    CLOSERS = -1, /* no caller: until no call is running */
    NO_RANGE = -2
};

struct caller {
    clsm_caller *handle;
    bool is_in_call; /* which has given up the interpreter's lock */
};

struct snapshot;

struct store {
    PyObject_HEAD
    clsm_store *handle;
    clsm_caller *shared; /* for calls that keep the interpreter's lock */
    struct caller callers[CALLERS];
    struct snapshot *snapshots; /* that are open */
    struct waiter *waiting;
    unsigned calls; /* so many run without the interpreter's lock */
    unsigned forks; /* as they were when it was opened */
    int64_t wait;   /* so many milliseconds a write waits for a snapshot to be closed */
    clsm_statistics tried_again; /* how often the library refused what was then tried again */
    bool was_opened, is_closing;
};

/* Whether calls may be made. */
static inline bool clsm_is_usable(const struct store *store) {
    return store->shared && !store->is_closing && store->forks == clsm_forks_seen();
}

bool clsm_is_forked_object(const struct store *store);
/* Raises the exception of a code that a call of this store was answered. Answers null. */
PyObject *clsm_refuse_call(const struct store *store, int code);
/* Notes that a call begins, or has ended, which gives up the interpreter's lock. */
void clsm_begin_call(struct store *store);
void clsm_end_call(struct store *store);
/* Opens a snapshot of the store: OK, or -1 once it has raised an exception. */
int clsm_open_snapshot(struct store *store, struct snapshot *snapshot);

/* What a call is given, and where its answers go. */
struct call {
    int (*make)(clsm_caller *caller, struct call *call);
    uint64_t key, last;
    clsm_value value, expected;
    clsm_changed changed;
    const clsm_row *rows, *expected_rows;
    const clsm_range_count *counts;
    size_t count, expected_count, counts_count, unmet;
    const uint64_t *many; /* keys, and a value of each */
    clsm_value *values;
    uint64_t keys;
    void *own; /* what one kind of call has besides */
};

/* Makes a call by a caller of this range. It follows what was seen, and is followed, so nothing
 * that a thread saw runs back. The code, or -1 once it has raised an exception. */
int clsm_make_call(struct store *store, int first, int last, struct call *call);
/* Makes a call that writes. While it waits for a snapshot to be closed, it comes back now and then,
 * for handlers of signals and for other writers. */
int clsm_make_write(struct store *store, struct call *call);

extern PyType_Spec clsm_store_spec;

/* ---- snapshot.c */

struct snapshot {
    PyObject_HEAD
    struct store *store;
    clsm_snapshot *handle;
    uint64_t time;   /* at which it reads */
    uint64_t thread; /* that has opened it */
    int opener;      /* the caller that has */
    bool is_in_call; /* which has given up the interpreter's lock */
    struct waiter *waiting;
    struct snapshot *next, **link; /* in the list of the store; link is null if it is not open */
};

/* Closes it, if it is open. No call may be running on it. */
void clsm_close_snapshot(struct snapshot *snapshot);
/* Waits until no call is running on it: false once it has raised an exception. */
bool clsm_await_calls(struct snapshot *snapshot);
/* Waits until a call may be made on it: false once it has raised an exception. */
bool clsm_enter_snapshot(struct snapshot *snapshot);
/* Notes that a call begins, or has ended, which gives up the interpreter's lock. */
void clsm_begin_on(struct snapshot *snapshot);
void clsm_end_on(struct snapshot *snapshot);
/* Reads a page without the interpreter's lock: the code, or -1 once it has raised an exception. */
typedef int clsm_snapshot_paging(clsm_snapshot *snapshot, uint64_t from, uint64_t to,
                                 clsm_row *rows, size_t room, clsm_page_end *end);
int clsm_read_snapshot(struct snapshot *snapshot, clsm_snapshot_paging *page, uint64_t from,
                       uint64_t to, clsm_row *rows, size_t room, clsm_page_end *end);

extern PyType_Spec clsm_snapshot_spec;

/* ---- many.c: methods of stores and of snapshots */

/* So many keys are read while the interpreter's lock is kept. */
enum { FEW_KEYS = 256 };

PyObject *clsm_get_many_of(struct store *self, PyObject *keys);
PyObject *clsm_get_many_at(struct snapshot *self, PyObject *keys);
PyObject *clsm_end_of(struct store *self, PyObject *const *arguments, Py_ssize_t count);
PyObject *clsm_end_at(struct snapshot *self, PyObject *const *arguments, Py_ssize_t count);
PyObject *clsm_write_if(struct store *self, PyObject *const *arguments, Py_ssize_t count);
PyObject *clsm_remove_keys(struct store *self, PyObject *const *arguments, Py_ssize_t count);

/* ---- buffers.c: methods of stores and of snapshots */

PyObject *clsm_get_into_of(struct store *self, PyObject *const *arguments, Py_ssize_t count);
PyObject *clsm_get_into_at(struct snapshot *self, PyObject *const *arguments, Py_ssize_t count);
PyObject *clsm_put_words(struct store *self, PyObject *const *arguments, Py_ssize_t count);

/* ---- rows.c */

extern PyType_Spec clsm_rows_spec;

#endif
