/* Threads that wait for one another. */
#include "native.h"

static void enqueue(struct waiter **queue, struct waiter *waiter) {
    while (*queue) queue = &(*queue)->next;
    *queue = waiter;
}

static void dequeue(struct waiter **queue, const struct waiter *waiter) {
    while (*queue != waiter) queue = &(*queue)->next;
    *queue = waiter->next;
}

static void wake(struct waiter *waiter) {
    waiter->is_woken = true;
    PyThread_release_lock(waiter->lock);
}

void clsm_wake_for(struct waiter *queue, int caller) {
    for (; queue; queue = queue->next)
        if (!queue->is_woken && queue->first <= caller && caller < queue->last) {
            wake(queue);
            return;
        }
}

void clsm_wake_all(struct waiter *queue) {
    for (; queue; queue = queue->next)
        if (!queue->is_woken) wake(queue);
}

/* Sleeps until the waiter is woken: false if a handler of a signal has raised an exception. */
static bool sleep_until_woken(const struct waiter *waiter) {
    for (;;) {
        PyLockStatus status;
        Py_BEGIN_ALLOW_THREADS
        status = PyThread_acquire_lock_timed(waiter->lock, -1, 1);
        Py_END_ALLOW_THREADS
        if (status == PY_LOCK_ACQUIRED) return true;
        if (PyErr_CheckSignals()) return false;
    }
}

bool clsm_sleep_in(struct waiter **queue, int first, int last) {
    struct waiter waiter = {.lock = PyThread_allocate_lock(), .first = first, .last = last};
    if (!waiter.lock) {
        PyErr_NoMemory();
        return false;
    }
    PyThread_acquire_lock(waiter.lock, 1);
    enqueue(queue, &waiter);
    const bool was_woken = sleep_until_woken(&waiter);
    dequeue(queue, &waiter);
    /* Whoever was woken, and does not look, lets the next one look. */
    if (!was_woken && waiter.is_woken) clsm_wake_all(*queue);
    if (!was_woken && !waiter.is_woken) PyThread_release_lock(waiter.lock);
    PyThread_free_lock(waiter.lock);
    return was_woken;
}
