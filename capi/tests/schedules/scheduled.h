/* Stands before each file of src/ in the build for schedules (-include): what threads share goes
 * through the scheduler, one step at a time, a store has few seats, a long read has few rows in a
 * part, and the last one of an epoch's writes is for batches. As one thread runs at a time, and
 * only changes to another one at a point, an atomic step is its point and plain code. */
#ifndef SCHEDULED_H
#define SCHEDULED_H

#ifndef _GNU_SOURCE
#define _GNU_SOURCE
#endif

#include "../../clsm.h"
#include "../../core/clsm_core.h"
#include "scheduler.h"

/* All that src/ and the tests include: what is defined below is not for these. */
#include <errno.h>
#include <pthread.h>
#include <sched.h>
#include <semaphore.h>
#include <signal.h>
#include <stdatomic.h>
#include <stdio.h>
#include <stdlib.h>
#include <string.h>

#undef CLSM_SEATS
#define CLSM_SEATS          4
#define CLSM_SCAN_ROWS      2
#define CLSM_PART_ROWS      2
#define CLSM_PART_KEYS      2
#define CLSM_COUNT_ROWS     2
#define CLSM_PARTS_OF_EPOCH 4

#define SCHEDULED_TEXT_OF(number) #number
#define SCHEDULED_TEXT(number)    SCHEDULED_TEXT_OF(number)
#define STEP(step)                step " " __FILE__ ":" SCHEDULED_TEXT(__LINE__)
#define AT_POINT(step, call)      (scheduler_point(STEP(step)), call)

/* ---- Atomics: of whichever order they ask for, they are sequentially consistent here. */

#undef atomic_load
#undef atomic_load_explicit
#undef atomic_store
#undef atomic_store_explicit
#undef atomic_exchange
#undef atomic_compare_exchange_strong
#undef atomic_compare_exchange_weak
#undef atomic_fetch_add
#undef atomic_fetch_sub
#undef atomic_fetch_or
#undef atomic_fetch_and

#define TYPE_OF(at) __typeof__((void)0, *(at))

#define atomic_load(at)                          AT_POINT("load " #at, *(at))
#define atomic_load_explicit(at, order)          atomic_load(at)
#define atomic_store_explicit(at, number, order) atomic_store(at, number)
#define atomic_store(at, number)                                                                   \
    __extension__({                                                                                \
        TYPE_OF(at) stored_ = (number);                                                            \
        scheduler_point(STEP("store " #at));                                                       \
        *(at) = stored_;                                                                           \
        (void)0;                                                                                   \
    })

/* What was found there becomes the next one; the answer is what was found. */
#define CHANGED(step, at, number, next)                                                            \
    __extension__({                                                                                \
        TYPE_OF(at) given_ = (number);                                                             \
        scheduler_point(STEP(step " " #at));                                                       \
        TYPE_OF(at) found_ = *(at);                                                                \
        *(at) = next;                                                                              \
        found_;                                                                                    \
    })
#define atomic_exchange(at, number)  CHANGED("exchange", at, number, given_)
#define atomic_fetch_add(at, number) CHANGED("add to", at, number, found_ + given_)
#define atomic_fetch_sub(at, number) CHANGED("subtract from", at, number, found_ - given_)
#define atomic_fetch_or(at, number)  CHANGED("or", at, number, found_ | given_)
#define atomic_fetch_and(at, number) CHANGED("and", at, number, found_ &given_)

/* A weak one does not fail for nothing here. */
#define atomic_compare_exchange_weak(at, expected, number)                                         \
    atomic_compare_exchange_strong(at, expected, number)
#define atomic_compare_exchange_strong(at, expected, number)                                       \
    __extension__({                                                                                \
        TYPE_OF(at) given_ = (number);                                                             \
        scheduler_point(STEP("compare and exchange " #at));                                        \
        TYPE_OF(at) found_ = *(at);                                                                \
        const bool is_same_ = found_ == *(expected);                                               \
        if (is_same_) *(at) = given_;                                                              \
        else *(expected) = found_;                                                                 \
        is_same_;                                                                                  \
    })

/* ---- pthreads and time */

#define pthread_t       unsigned
#define pthread_mutex_t struct scheduled
#define pthread_cond_t  struct scheduled
#define sem_t           struct scheduled

#define pthread_mutex_init(lock, how)            scheduler_open(lock, 0)
#define pthread_mutex_destroy(lock)              scheduler_close(lock)
#define pthread_mutex_lock(lock)                 scheduler_lock(lock, STEP("lock " #lock))
#define pthread_mutex_trylock(lock)              scheduler_try_lock(lock, STEP("try " #lock))
#define pthread_mutex_unlock(lock)               scheduler_unlock(lock, STEP("unlock " #lock))
#define pthread_cond_init(at, how)               scheduler_open(at, 0)
#define pthread_cond_destroy(at)                 scheduler_close(at)
#define pthread_cond_wait(at, lock)              scheduler_wait(at, lock, NULL, STEP("wait " #at))
#define pthread_cond_timedwait(at, lock, until)  scheduler_wait(at, lock, until, STEP("wait " #at))
#define pthread_cond_signal(at)                  scheduler_wake(at, 1, STEP("signal " #at))
#define pthread_cond_broadcast(at)               scheduler_wake(at, -1U, STEP("broadcast " #at))
#define sem_init(at, shared, posts)              scheduler_open(at, posts)
#define sem_destroy(at)                          scheduler_close(at)
#define sem_wait(at)                             scheduler_take(at, STEP("take " #at))
#define sem_post(at)                             scheduler_post(at, STEP("post " #at))
#define pthread_create(thread, how, start, with) scheduler_create(thread, start, with)
#define pthread_setname_np(thread, name)         scheduler_name(thread, name)
#define pthread_join(thread, answer)             scheduler_join(thread, STEP("join " #thread))
#define pthread_setcancelstate(state, before)    scheduler_let_cancel(state, before)
#define sched_yield()                            scheduler_yield(STEP("yield"))
#define nanosleep(time, left)                    scheduler_sleep(time, STEP("sleep"))
#define clock_gettime(clock, at)                 scheduler_clock(at)

/* A pause is an instruction: asm volatile("pause"). */
#define __asm__
#define __volatile__(instruction) scheduler_pause(STEP(instruction))

/* ---- The core, each call of which is one step, on a handle that is not given back */

static inline uint32_t of_a_handle(uint32_t code) {
    if (code == CLSM_CORE_NO_HANDLE) scheduler_fail("this handle of the core is empty");
    return code;
}

#define AT_CORE(step, call)           of_a_handle(AT_POINT("core: " step, call))
#define clsm_core_try_put(...)        AT_CORE("put", clsm_core_try_put(__VA_ARGS__))
#define clsm_core_try_remove(...)     AT_CORE("remove", clsm_core_try_remove(__VA_ARGS__))
#define clsm_core_try_batch(...)      AT_CORE("batch", clsm_core_try_batch(__VA_ARGS__))
#define clsm_core_try_batch_if(...)   AT_CORE("batch if", clsm_core_try_batch_if(__VA_ARGS__))
#define clsm_core_try_add(...)        AT_CORE("add", clsm_core_try_add(__VA_ARGS__))
#define clsm_core_try_replace(...)    AT_CORE("replace", clsm_core_try_replace(__VA_ARGS__))
#define clsm_core_get(...)            AT_CORE("get", clsm_core_get(__VA_ARGS__))
#define clsm_core_get_many(...)       AT_CORE("get many", clsm_core_get_many(__VA_ARGS__))
#define clsm_core_get_many_at(...)    AT_CORE("get many at", clsm_core_get_many_at(__VA_ARGS__))
#define clsm_core_get_at(...)         AT_CORE("get at", clsm_core_get_at(__VA_ARGS__))
#define clsm_core_count(...)          AT_CORE("count", clsm_core_count(__VA_ARGS__))
#define clsm_core_page(...)           AT_CORE("page", clsm_core_page(__VA_ARGS__))
#define clsm_core_page_down(...)      AT_CORE("page down", clsm_core_page_down(__VA_ARGS__))
#define clsm_core_snapshot(...)       AT_CORE("snapshot", clsm_core_snapshot(__VA_ARGS__))
#define clsm_core_close_snapshot(...) AT_CORE("close", clsm_core_close_snapshot(__VA_ARGS__))
#define clsm_core_try_freeze(...)     AT_CORE("freeze", clsm_core_try_freeze(__VA_ARGS__))
#define clsm_core_try_sweep(...)      AT_CORE("sweep", clsm_core_try_sweep(__VA_ARGS__))
#define clsm_core_count_entries(...)  of_a_handle(clsm_core_count_entries(__VA_ARGS__))
#define clsm_core_phase_of(...)       of_a_handle(clsm_core_phase_of(__VA_ARGS__))

#endif
