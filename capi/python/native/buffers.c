/* Many keys over buffers. What is read of a buffer is copied, as other threads may write it. */
#include "native.h"

#include <string.h>

enum {
    WORD = sizeof(uint64_t),
    AT_ONCE = 4096 /* rows that are written until handlers of signals are let in */
};

/* ---- Buffers
 *
 * These two are in every version of the stable ABI, which has Py_buffer from 3.11 on. Headers leave
 * them out, or call them deprecated, since nothing keeps the bytes where they are. Here that is
 * done by the memoryview, which nobody else has. */

int clsm_bytes_of(PyObject *, const void **, Py_ssize_t *) __asm__("PyObject_AsReadBuffer");
int clsm_room_of(PyObject *, void **, Py_ssize_t *) __asm__("PyObject_AsWriteBuffer");

static bool check_view(PyObject *object) {
    if (PyMemoryView_Check(object)) return true;
    PyErr_SetString(PyExc_TypeError, "buffers are memoryviews");
    return false;
}

/* The bytes of the view: null once it has raised an exception. */
static const char *read_view(PyObject *view, size_t *size) {
    const void *bytes = NULL;
    Py_ssize_t length;
    if (!check_view(view) || clsm_bytes_of(view, &bytes, &length)) return NULL;
    *size = (size_t)length;
    return length > 0 ? bytes : "";
}

/* The same of a view that may be written. */
static char *write_view(PyObject *view, size_t *size) {
    static char nothing[1];
    void *bytes = NULL;
    Py_ssize_t length;
    if (!check_view(view) || clsm_room_of(view, &bytes, &length)) return NULL;
    *size = (size_t)length;
    return length > 0 ? bytes : nothing;
}

static bool refuse_length(void) {
    PyErr_SetString(PyExc_ValueError, "the buffers have not the same number of items");
    return false;
}

/* ---- Reads */

/* The keys, and where their words go, and whether each has one, if that is asked for. */
struct into {
    uint64_t *keys;
    clsm_value *values;
    size_t count;
    uint64_t absent; /* the word of those without */
    uint64_t number; /* of those that have one */
    char *words, *found;
};

static void free_into(struct into *into) {
    PyMem_Free(into->keys);
    PyMem_Free(into->values);
}

static bool copy_keys(const char *keys, struct into *into) {
    into->keys = PyMem_Malloc(into->count * WORD);
    into->values = PyMem_Malloc(into->count * sizeof *into->values);
    if (!into->keys || !into->values) {
        PyErr_NoMemory();
        return false;
    }
    memcpy(into->keys, keys, into->count * WORD);
    return true;
}

/* Reads keys, values, the default, and marks, which are empty if they are not asked for: false once
 * it has raised an exception. */
static bool read_into(PyObject *const *arguments, Py_ssize_t count, struct into *into) {
    size_t size, room, marks;
    if (!clsm_has_arguments(count, 4) || !clsm_read_word(arguments[2], &into->absent)) return false;
    const char *keys = read_view(arguments[0], &size);
    if (keys) into->words = write_view(arguments[1], &room);
    if (into->words) into->found = write_view(arguments[3], &marks);
    if (!into->found) return false;
    into->count = size / WORD;
    if (size % WORD || room != size || (marks != 0 && marks != into->count)) return refuse_length();
    if (marks == 0) into->found = NULL;
    return copy_keys(keys, into);
}

/* Leaves the words in the buffers. KEPT if a value has several: all is as before then. */
static int leave_words(struct into *into) {
    for (size_t i = 0; i < into->count; i++)
        if (into->values[i].length > 1) return CLSM_KEPT;
    for (size_t i = 0; i < into->count; i++) {
        const clsm_value *value = &into->values[i];
        const bool has_word = value->length == 1;
        memcpy(into->words + i * WORD, has_word ? value->words : &into->absent, WORD);
        if (into->found) into->found[i] = has_word;
        into->number += has_word;
    }
    return CLSM_OK;
}

static int call_get_into(clsm_caller *caller, struct call *call) {
    struct into *into = call->own;
    const int code = clsm_get_many(caller, into->keys, into->count, into->values);
    return code == CLSM_OK ? leave_words(into) : code;
}

static int get_of(struct store *self, struct into *into) {
    struct call call = {.make = call_get_into, .own = into};
    if (into->count > FEW_KEYS) return clsm_make_call(self, READERS, WRITERS, &call);
    return clsm_is_usable(self) ? call_get_into(self->shared, &call) : CLSM_BAD_POINTER;
}

static int read_at(clsm_snapshot *snapshot, struct into *into) {
    const int code = clsm_snapshot_get_many(snapshot, into->keys, into->count, into->values);
    return code == CLSM_OK ? leave_words(into) : code;
}

static int get_at(struct snapshot *self, struct into *into) {
    int code;
    if (!clsm_enter_snapshot(self)) return -1;
    if (into->count <= FEW_KEYS) return read_at(self->handle, into);
    clsm_begin_on(self);
    Py_BEGIN_ALLOW_THREADS
    code = read_at(self->handle, into);
    Py_END_ALLOW_THREADS
    clsm_end_on(self);
    return code;
}

/* How many keys have a value. */
static PyObject *number_or_refuse(const struct store *store, int code, struct into *into) {
    free_into(into);
    if (code == CLSM_OK) return PyLong_FromUnsignedLongLong(into->number);
    if (code == CLSM_KEPT) PyErr_SetString(PyExc_ValueError, "a value has several words");
    else if (code > 0) clsm_refuse_call(store, code);
    return NULL;
}

PyObject *clsm_get_into_of(struct store *self, PyObject *const *arguments, Py_ssize_t count) {
    struct into into = {.keys = NULL};
    const int code = read_into(arguments, count, &into) ? get_of(self, &into) : -1;
    return number_or_refuse(self, code, &into);
}

PyObject *clsm_get_into_at(struct snapshot *self, PyObject *const *arguments, Py_ssize_t count) {
    struct into into = {.keys = NULL};
    const int code = read_into(arguments, count, &into) ? get_at(self, &into) : -1;
    return number_or_refuse(self->store, code, &into);
}

/* ---- Writes */

/* Keys and their words, in batches of so many rows at most: those done are written, and it goes on
 * to the end. */
struct writes {
    const char *keys, *words;
    clsm_row *rows;
    size_t count, room, done, end;
};

/* Reads keys, words, and the rows of a batch: false once it has raised an exception. */
static bool read_writes(PyObject *const *arguments, struct writes *writes) {
    size_t size, words;
    uint64_t room;
    if (!clsm_read_word(arguments[2], &room)) return false;
    writes->keys = read_view(arguments[0], &size);
    if (writes->keys) writes->words = read_view(arguments[1], &words);
    if (!writes->words) return false;
    if (size % WORD || words != size) return refuse_length();
    writes->count = size / WORD;
    writes->room = room < 1 ? 1 : room < AT_ONCE ? (size_t)room : AT_ONCE;
    writes->rows = PyMem_Calloc(writes->room, sizeof *writes->rows);
    if (!writes->rows) PyErr_NoMemory();
    return writes->rows != NULL;
}

static size_t fill_rows(const struct writes *writes) {
    const size_t left = writes->end - writes->done;
    const size_t count = left < writes->room ? left : writes->room;
    for (size_t i = 0; i < count; i++) {
        const size_t at = (writes->done + i) * WORD;
        memcpy(&writes->rows[i].key, writes->keys + at, WORD);
        memcpy(writes->rows[i].value.words, writes->words + at, WORD);
        writes->rows[i].value.length = 1;
    }
    return count;
}

static int call_put_words(clsm_caller *caller, struct call *call) {
    struct writes *writes = call->own;
    while (writes->done < writes->end) {
        const size_t count = fill_rows(writes);
        const int code = clsm_batch(caller, writes->rows, count);
        if (code != CLSM_OK) return code;
        writes->done += count;
    }
    return CLSM_OK;
}

/* The code of the first batch that was not written, or -1 once it has raised an exception. */
static int write_all(struct store *self, struct writes *writes) {
    struct call call = {.make = call_put_words, .own = writes};
    while (writes->done < writes->count) {
        const size_t left = writes->count - writes->done;
        writes->end = writes->done + (left < AT_ONCE ? left : AT_ONCE);
        const int code = clsm_make_write(self, &call);
        if (code != CLSM_OK) return code;
        if (PyErr_CheckSignals()) return -1;
    }
    return CLSM_OK;
}

/* Sets the first item of the list, the last argument, to how many rows were written. */
PyObject *clsm_put_words(struct store *self, PyObject *const *arguments, Py_ssize_t count) {
    struct writes writes = {.keys = NULL};
    if (!clsm_has_arguments(count, 4) || !read_writes(arguments, &writes)) return NULL;
    const int code = write_all(self, &writes);
    PyMem_Free(writes.rows);
    PyObject *written = PyLong_FromSize_t(writes.done);
    if (!written || PyList_SetItem(arguments[3], 0, written) || code < 0) return NULL;
    if (code != CLSM_OK) return clsm_refuse_call(self, code);
    Py_RETURN_NONE;
}
