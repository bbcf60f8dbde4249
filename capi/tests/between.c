/* Stands between a test with its library and pthreads: link it with -Wl,--wrap= for each __wrap_
 * function below. Ends the test as soon as every thread of it sleeps, as nobody can wake them then.
 */
#define _POSIX_C_SOURCE 200809L
#include "between.h"

#include <errno.h>
#include <pthread.h>
#include <semaphore.h>
#include <stdatomic.h>
#include <stdbool.h>
#include <stdio.h>
#include <stdlib.h>
#include <time.h>

int __wrap_pthread_cond_wait(pthread_cond_t *, pthread_mutex_t *);
int __wrap_pthread_cond_timedwait(pthread_cond_t *, pthread_mutex_t *, const struct timespec *);
int __wrap_pthread_cond_signal(pthread_cond_t *);
int __wrap_pthread_cond_broadcast(pthread_cond_t *);
int __wrap_pthread_create(pthread_t *, const pthread_attr_t *, void *(*)(void *), void *);
int __wrap_pthread_join(pthread_t, void **);
int __wrap_sched_yield(void);
int __wrap_sem_wait(sem_t *);
int __wrap_sem_post(sem_t *);
int __real_pthread_cond_wait(pthread_cond_t *, pthread_mutex_t *);
int __real_pthread_cond_timedwait(pthread_cond_t *, pthread_mutex_t *, const struct timespec *);
int __real_pthread_cond_signal(pthread_cond_t *);
int __real_pthread_cond_broadcast(pthread_cond_t *);
int __real_pthread_create(pthread_t *, const pthread_attr_t *, void *(*)(void *), void *);
int __real_pthread_join(pthread_t, void **);
int __real_sched_yield(void);
int __real_sem_wait(sem_t *);
int __real_sem_post(sem_t *);

enum { MOST = 256 };
enum { FOR_EVER = 3600 }; /* seconds, for a test */

/* A condition or a semaphore on which threads sleep: so many that nobody has woken, and so many
 * that were woken and have not returned yet. */
struct condition {
    const void *at;
    unsigned asleep, woken;
};

struct thread {
    pthread_t id;
    void *(*start)(void *);
    void *with;
    bool is_made, has_ended, is_awaited;
};

static pthread_mutex_t lock = PTHREAD_MUTEX_INITIALIZER;
static struct condition conditions[MOST];
static struct thread threads[MOST];
/* Threads that run or sleep, those of them that wait for another one, and those that sleep until a
 * time at the latest. */
static unsigned alive = 1, waiting, dozing;
static unsigned refused;
static atomic_ulong yields, wakes;

static void fail(const char *why) {
    fprintf(stderr, "between.c: %s\n", why);
    fflush(NULL);
    _Exit(1);
}

static void wait_begins(void) {
    if (++waiting == alive) fail("every thread sleeps");
}

void between_await_sleepers(unsigned count) {
    for (;;) {
        pthread_mutex_lock(&lock);
        unsigned asleep = waiting + dozing;
        pthread_mutex_unlock(&lock);
        if (asleep >= count) return;
        __real_sched_yield();
    }
}

/* ---- Conditions and semaphores; the functions but the wrapped ones are for who has the lock */

static struct condition *condition_of(const void *at) {
    struct condition *unused = NULL;
    for (size_t i = 0; i < MOST; i++) {
        struct condition *condition = &conditions[i];
        if (condition->asleep + condition->woken == 0) unused = unused ? unused : condition;
        else if (condition->at == at) return condition;
    }
    if (!unused) fail("too many conditions");
    unused->at = at;
    return unused;
}

static void fall_asleep(const void *at) {
    condition_of(at)->asleep++;
    wait_begins();
}

static void wake(const void *at, unsigned most) {
    struct condition *condition = condition_of(at);
    unsigned woken = condition->asleep < most ? condition->asleep : most;
    condition->asleep -= woken;
    condition->woken += woken;
    waiting -= woken;
}

/* One who slept returns, woken or not. */
static void return_from(const void *at) {
    struct condition *condition = condition_of(at);
    if (condition->woken > 0) {
        condition->woken--;
    } else {
        condition->asleep--;
        waiting--;
    }
}

unsigned long between_wakes(void) { return atomic_load(&wakes); }

int __wrap_pthread_cond_wait(pthread_cond_t *at, pthread_mutex_t *mutex) {
    pthread_mutex_lock(&lock);
    fall_asleep(at);
    pthread_mutex_unlock(&lock);
    int failed = __real_pthread_cond_wait(at, mutex);
    pthread_mutex_lock(&lock);
    return_from(at);
    pthread_mutex_unlock(&lock);
    atomic_fetch_add(&wakes, 1);
    return failed;
}

int __wrap_pthread_cond_timedwait(pthread_cond_t *at, pthread_mutex_t *mutex,
                                  const struct timespec *until) {
    struct timespec now;
    clock_gettime(CLOCK_MONOTONIC, &now);
    if (until->tv_sec > now.tv_sec + FOR_EVER) return __wrap_pthread_cond_wait(at, mutex);
    pthread_mutex_lock(&lock);
    dozing++;
    pthread_mutex_unlock(&lock);
    int failed = __real_pthread_cond_timedwait(at, mutex, until);
    pthread_mutex_lock(&lock);
    dozing--;
    pthread_mutex_unlock(&lock);
    atomic_fetch_add(&wakes, 1);
    return failed;
}

int __wrap_pthread_cond_signal(pthread_cond_t *at) {
    pthread_mutex_lock(&lock);
    wake(at, 1);
    pthread_mutex_unlock(&lock);
    return __real_pthread_cond_signal(at);
}

int __wrap_pthread_cond_broadcast(pthread_cond_t *at) {
    pthread_mutex_lock(&lock);
    wake(at, MOST);
    pthread_mutex_unlock(&lock);
    return __real_pthread_cond_broadcast(at);
}

int __wrap_sem_wait(sem_t *at) {
    int posts = 0;
    pthread_mutex_lock(&lock);
    sem_getvalue(at, &posts);
    const bool sleeps = posts <= 0;
    if (sleeps) fall_asleep(at);
    pthread_mutex_unlock(&lock);
    int failed = __real_sem_wait(at);
    pthread_mutex_lock(&lock);
    if (sleeps) return_from(at);
    pthread_mutex_unlock(&lock);
    return failed;
}

int __wrap_sem_post(sem_t *at) {
    pthread_mutex_lock(&lock);
    wake(at, 1);
    int failed = __real_sem_post(at);
    pthread_mutex_unlock(&lock);
    return failed;
}

/* ---- Threads */

/* What follows from a thread's end, by itself or because it was cancelled. */
static void end(void *of) {
    struct thread *thread = of;
    pthread_mutex_lock(&lock);
    thread->has_ended = true;
    if (thread->is_awaited) waiting--;
    alive--;
    if (alive > 0 && waiting == alive) fail("every thread sleeps");
    pthread_mutex_unlock(&lock);
}

static void *run(void *of) {
    struct thread *thread = of;
    void *answer;
    pthread_cleanup_push(end, thread);
    answer = thread->start(thread->with);
    pthread_cleanup_pop(true);
    return answer;
}

static struct thread *new_thread(void) {
    for (size_t i = 0; i < MOST; i++)
        if (!threads[i].is_made) return &threads[i];
    fail("too many threads");
    return NULL;
}

void between_refuse_threads(unsigned count) {
    pthread_mutex_lock(&lock);
    refused = count;
    pthread_mutex_unlock(&lock);
}

int __wrap_pthread_create(pthread_t *id, const pthread_attr_t *how, void *(*start)(void *),
                          void *with) {
    pthread_mutex_lock(&lock);
    struct thread *thread = new_thread();
    *thread = (struct thread){.start = start, .with = with, .is_made = true};
    int failed = EAGAIN;
    if (refused > 0) refused--;
    else failed = __real_pthread_create(&thread->id, how, run, thread);
    *id = thread->id;
    if (failed) thread->is_made = false;
    else alive++;
    pthread_mutex_unlock(&lock);
    return failed;
}

int __wrap_pthread_join(pthread_t id, void **answer) {
    pthread_mutex_lock(&lock);
    struct thread *thread = threads;
    while (!thread->is_made || !pthread_equal(thread->id, id)) thread++;
    if (!thread->has_ended) {
        thread->is_awaited = true;
        wait_begins();
    }
    pthread_mutex_unlock(&lock);
    int failed = __real_pthread_join(id, answer);
    pthread_mutex_lock(&lock);
    thread->is_made = false;
    pthread_mutex_unlock(&lock);
    return failed;
}

/* ---- Yields */

unsigned long between_yields(void) { return atomic_load(&yields); }

int __wrap_sched_yield(void) {
    atomic_fetch_add(&yields, 1);
    return __real_sched_yield();
}
