/* The rows of a range, page by page: of a snapshot, or of a store, each page of its own moment. */
#include "native.h"

struct rows {
    PyObject_HEAD
    PyObject *reader; /* a snapshot or a store; null at the end */
    clsm_row *page;
    size_t count, at;    /* rows of the page, and the next one of them */
    uint64_t next, last; /* the range behind the page, downwards if it falls */
    bool more, falls;
    bool is_own; /* the snapshot is closed with it */
    size_t room, greatest_room;
    unsigned long long pages; /* that were read */
};

static bool is_snapshot(PyObject *reader) { return PyObject_TypeCheck(reader, clsm_snapshot_type); }

/* ---- Reading */

static int read_store(struct store *store, const struct rows *self, clsm_row *page, size_t room,
                      clsm_page_end *end) {
    if (!clsm_is_usable(store)) return CLSM_BAD_POINTER;
    return self->falls ? clsm_page_down(store->shared, self->next, self->last, page, room, end)
                       : clsm_page(store->shared, self->next, self->last, page, room, end);
}

/* Reads the next page: the code, or -1 once it has raised an exception. */
static int read_page(const struct rows *self, PyObject *reader, clsm_row *page, size_t room,
                     clsm_page_end *end) {
    if (!is_snapshot(reader)) return read_store((struct store *)reader, self, page, room, end);
    return clsm_read_snapshot((struct snapshot *)reader,
                              self->falls ? clsm_snapshot_page_down : clsm_snapshot_page,
                              self->next, self->last, page, room, end);
}

static void refuse(PyObject *reader, int code) {
    const bool is_of_snapshot = is_snapshot(reader);
    clsm_refuse_call(is_of_snapshot ? ((struct snapshot *)reader)->store : (struct store *)reader,
                     code);
}

static void take_page(struct rows *self, clsm_row *page, const clsm_page_end *end) {
    PyMem_Free(self->page);
    self->page = page;
    self->count = (size_t)end->rows;
    self->at = 0;
    self->next = end->next;
    self->more = end->more;
    self->pages++;
    self->room = 2 * self->room < self->greatest_room ? 2 * self->room : self->greatest_room;
}

/* Reads the next page, unless another thread has done so, or ended it, meanwhile: false once it has
 * raised an exception. */
static bool turn(struct rows *self) {
    const unsigned long long pages = self->pages;
    const size_t room = self->room; /* another thread may change it meanwhile */
    clsm_page_end end;
    clsm_row *page = PyMem_Malloc(room * sizeof *page);
    if (!page) {
        PyErr_NoMemory();
        return false;
    }
    PyObject *reader = self->reader;
    Py_INCREF(reader);
    const int code = read_page(self, reader, page, room, &end);
    const bool is_next = self->reader && self->pages == pages;
    if (is_next && code == CLSM_OK) take_page(self, page, &end);
    else PyMem_Free(page);
    if (is_next && code > 0) refuse(reader, code);
    Py_DECREF(reader);
    return code >= 0 && !(is_next && code > 0);
}

/* Ends it: false once it has raised an exception. */
static bool end_rows(struct rows *self) {
    PyObject *reader = self->reader;
    if (!reader) return true;
    if (self->is_own && is_snapshot(reader)) {
        struct snapshot *snapshot = (struct snapshot *)reader;
        if (!clsm_is_forked_object(snapshot->store)) {
            Py_INCREF(reader);
            const bool may_close = clsm_await_calls(snapshot);
            if (may_close) clsm_close_snapshot(snapshot);
            Py_DECREF(reader);
            if (!may_close) return false;
        }
    }
    self->count = 0;
    self->at = 0;
    Py_CLEAR(self->reader);
    return true;
}

static PyObject *next(PyObject *object) {
    struct rows *self = (struct rows *)object;
    while (self->at == self->count) {
        if (!self->reader) return NULL;
        if (!self->more) {
            end_rows(self);
            return NULL;
        }
        if (!turn(self)) return NULL;
    }
    return clsm_new_row(&self->page[self->at++]);
}

/* ---- Opening and closing */

static PyObject *open_rows(PyTypeObject *type, PyObject *arguments, PyObject *names) {
    PyObject *reader;
    unsigned long long first, last;
    Py_ssize_t room, greatest_room;
    int is_own, falls = 0;
    (void)names;
    if (!PyArg_ParseTuple(arguments, "OKKnnp|p", &reader, &first, &last, &room, &greatest_room,
                          &is_own, &falls))
        return NULL;
    if (room < 1 || greatest_room < room) {
        PyErr_SetString(PyExc_ValueError, "a page has room for a row");
        return NULL;
    }
    if (!PyObject_TypeCheck(reader, clsm_store_type) && !is_snapshot(reader)) {
        PyErr_SetString(PyExc_TypeError, "rows are of a store or a snapshot");
        return NULL;
    }
    const allocfunc allocate = (allocfunc)(uintptr_t)PyType_GetSlot(type, Py_tp_alloc);
    PyObject *object = allocate(type, 0);
    if (!object) return NULL;
    struct rows *self = (struct rows *)object;
    Py_INCREF(reader);
    self->reader = reader;
    self->next = falls ? last : first;
    self->last = falls ? first : last;
    self->falls = falls != 0;
    self->more = true;
    self->is_own = is_own != 0;
    self->room = (size_t)room;
    self->greatest_room = (size_t)greatest_room;
    return object;
}

static PyObject *close_rows(struct rows *self, PyObject *none) {
    (void)none;
    if (!end_rows(self)) return NULL;
    Py_RETURN_NONE;
}

static PyObject *itself(PyObject *self) {
    Py_INCREF(self);
    return self;
}

static int traverse(PyObject *object, visitproc visit, void *arg) {
    struct rows *self = (struct rows *)object;
    Py_VISIT(self->reader);
    Py_VISIT(Py_TYPE(object));
    return 0;
}

static int clear(PyObject *object) {
    struct rows *self = (struct rows *)object;
    self->count = 0;
    self->at = 0;
    Py_CLEAR(self->reader);
    return 0;
}

static void dealloc(PyObject *object) {
    struct rows *self = (struct rows *)object;
    PyObject_GC_UnTrack(object);
    clear(object);
    PyMem_Free(self->page);
    clsm_free_object(object);
}

/* ---- The type */

#define METHOD(name) ((PyCFunction)(void (*)(void))(name))
#define SLOT(function) ((void *)(uintptr_t)(function))

static PyMethodDef methods[] = {
    {"close", METHOD(close_rows), METH_NOARGS, NULL},
    {NULL, NULL, 0, NULL},
};

static PyType_Slot slots[] = {
    {Py_tp_new, SLOT(open_rows)},     {Py_tp_iter, SLOT(itself)},
    {Py_tp_iternext, SLOT(next)},     {Py_tp_traverse, SLOT(traverse)},
    {Py_tp_clear, SLOT(clear)},       {Py_tp_dealloc, SLOT(dealloc)},
    {Py_tp_methods, methods},         {0, NULL},
};

PyType_Spec clsm_rows_spec = {
    .name = "cupolanettle._native.Rows",
    .basicsize = sizeof(struct rows),
    .flags = Py_TPFLAGS_DEFAULT | Py_TPFLAGS_BASETYPE | Py_TPFLAGS_HAVE_GC,
    .slots = slots,
};
