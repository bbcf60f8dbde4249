/* What only luck would show with the proved core: lost races, a read that is in the way of a merge,
 * the end of times, and reads that run back, which the core is not proved never to do between two
 * seats. The core is mock_core.c, which does each of these when it is told to. */
#define _POSIX_C_SOURCE 200809L
#include "between.h"
#include "check.h"
#include "mock_core.h"

#include <limits.h>
#include <pthread.h>
#include <sched.h>
#include <unistd.h>

/* A call that should go on, and does not, ends the test behind so many. */
enum { MOST_SECONDS = 60 };

static const uint64_t WORD = 5;

static clsm_store *opened(size_t epoch, int merge) {
    const clsm_options options = {.epoch = epoch, .merge = merge};
    clsm_store *store;
    OK(clsm_open(&options, &store));
    return store;
}

static clsm_caller *caller_of(clsm_store *store) {
    clsm_caller *caller;
    OK(clsm_caller_open(store, &caller));
    return caller;
}

static void closed(clsm_store *store, clsm_caller *caller) {
    clsm_caller_close(caller);
    OK(clsm_close(store));
}

/* ---- Writes that lost a race */

static void lose(enum clsm_code code) {
    enum { LOST = 100, PAUSED = 7 };
    clsm_store *store = opened(64, CLSM_MERGE_IN_CALLS);
    clsm_caller *caller = caller_of(store);
    mock_core_refuse(MOCK_WRITE, (uint32_t)code, 2);
    ANSWERS((int)code, clsm_try_put(caller, 1, &WORD, 1));
    ANSWERS((int)code, clsm_try_remove(caller, 1));
    ANSWERS(CLSM_NOT_FOUND, clsm_get(caller, 1, NULL));
    /* Seven times it pauses, and then yields each time. */
    const unsigned made = mock_core_count(MOCK_WRITE);
    const unsigned long yields = between_yields();
    mock_core_refuse(MOCK_WRITE, (uint32_t)code, LOST);
    OK(clsm_put(caller, 1, &WORD, 1));
    CHECK(mock_core_count(MOCK_WRITE) - made == LOST + 1);
    CHECK(between_yields() - yields == LOST - PAUSED);
    mock_core_refuse(MOCK_WRITE, (uint32_t)code, LOST);
    OK(clsm_remove(caller, 1));
    CHECK(between_yields() - yields == 2 * (LOST - PAUSED));
    mock_core_refuse(MOCK_WRITE, (uint32_t)code, LOST);
    OK(clsm_add(caller, 1, 1, NULL));
    CHECK(between_yields() - yields == 3 * (LOST - PAUSED));
    const clsm_row rows[] = {{2, {1, {20}}}, {3, {1, {30}}}};
    mock_core_refuse(MOCK_BATCH, (uint32_t)code, LOST);
    OK(clsm_batch(caller, rows, 2));
    /* A batch that others are to let in sleeps. */
    CHECK(between_yields() - yields == 3 * (LOST - PAUSED));
    CHECK(clsm_seen(caller) == clsm_time(caller) + 2);
    closed(store, caller);
}

/* ---- Batches and freezes that lost too many: writes let them in first */

static void *write_batch(void *of) {
    const clsm_row rows[] = {{2, {1, {20}}}, {3, {1, {30}}}};
    OK(clsm_batch(of, rows, 2));
    return NULL;
}

static void *put_once(void *of) {
    OK(clsm_put(of, 4, &WORD, 1));
    return NULL;
}

static void let_batches_in(void) {
    enum { LOSSES = 4 };
    clsm_store *store = opened(64, CLSM_MERGE_IN_CALLS);
    clsm_caller *callers[] = {caller_of(store), caller_of(store), caller_of(store)};
    pthread_t batch, put;
    const unsigned made = mock_core_count(MOCK_BATCH);
    mock_core_refuse(MOCK_BATCH, CLSM_BUSY, LOSSES - 1);
    OK(clsm_batch(callers[0], &(clsm_row){.key = 1}, 1));
    CHECK(mock_core_count(MOCK_BATCH) == made + LOSSES);
    OK(clsm_try_put(callers[0], 1, &WORD, 1));
    mock_core_refuse(MOCK_BATCH, CLSM_BUSY, UINT_MAX);
    CHECK(pthread_create(&batch, NULL, write_batch, callers[1]) == 0);
    mock_core_await(MOCK_BATCH, made + 3 * LOSSES);
    ANSWERS(CLSM_BUSY, clsm_try_put(callers[0], 1, &WORD, 1));
    ANSWERS(CLSM_BUSY, clsm_try_remove(callers[0], 1));
    OK(clsm_get(callers[0], 1, NULL));
    CHECK(pthread_create(&put, NULL, put_once, callers[2]) == 0);
    mock_core_refuse(MOCK_BATCH, CLSM_OK, 0);
    CHECK(pthread_join(batch, NULL) == 0 && pthread_join(put, NULL) == 0);
    OK(clsm_try_put(callers[0], 1, &WORD, 1));
    OK(clsm_get(callers[0], 4, NULL));
    for (int i = 0; i < 3; i++) clsm_caller_close(callers[i]);
    OK(clsm_close(store));
}

/* Nobody waits for a batch for ever. */
static void go_on_beside_batch(void) {
    clsm_store *store = opened(64, CLSM_MERGE_IN_CALLS);
    clsm_caller *caller = caller_of(store), *other = caller_of(store);
    const unsigned made = mock_core_count(MOCK_BATCH);
    pthread_t batch;
    mock_core_refuse(MOCK_BATCH, CLSM_BUSY, UINT_MAX);
    CHECK(pthread_create(&batch, NULL, write_batch, other) == 0);
    mock_core_await(MOCK_BATCH, made + 100);
    alarm(MOST_SECONDS);
    for (uint64_t key = 0; key < 3; key++) OK(clsm_put(caller, key, &WORD, 1));
    alarm(0);
    mock_core_refuse(MOCK_BATCH, CLSM_OK, 0);
    CHECK(pthread_join(batch, NULL) == 0);
    clsm_caller_close(other);
    closed(store, caller);
}

static void let_freezes_in(void) {
    clsm_store *store = opened(8, 0);
    clsm_caller *caller = caller_of(store);
    const unsigned made = mock_core_count(MOCK_FREEZE);
    mock_core_refuse(MOCK_FREEZE, CLSM_BUSY, UINT_MAX);
    for (uint64_t key = 0; key < 4; key++) OK(clsm_put(caller, key, &WORD, 1));
    mock_core_await(MOCK_FREEZE, made + 100);
    ANSWERS(CLSM_BUSY, clsm_try_put(caller, 1, &WORD, 1));
    mock_core_refuse(MOCK_FREEZE, CLSM_OK, 0);
    for (uint64_t key = 0; key < 100; key++) OK(clsm_put(caller, key, &WORD, 1));
    closed(store, caller);
}

/* ---- The end of an epoch, which is left to batches while the merge before is not done */

enum { BATCHES_EPOCH = 64, OPEN_WRITES = BATCHES_EPOCH - BATCHES_EPOCH / 32 };

/* An epoch of which all is drawn that is not for batches, behind a merge that is not done yet. */
static void fill_open_writes(clsm_store *store, clsm_caller *caller, bool has_batch) {
    const unsigned made = mock_core_count(MOCK_FREEZE);
    mock_core_refuse(MOCK_SWEEP, CLSM_PINNED, UINT_MAX);
    if (has_batch) OK(clsm_batch(caller, &(clsm_row){.key = 1}, 1));
    else OK(clsm_remove(caller, 1));
    for (int i = 1; i < BATCHES_EPOCH / 2; i++) OK(clsm_put(caller, 1, &WORD, 1));
    mock_core_await(MOCK_FREEZE, made + 1);
    while (clsm_sweep(store) != CLSM_PINNED) continue;
    for (int i = 0; i < OPEN_WRITES; i++) OK(clsm_try_put(caller, 1, &WORD, 1));
}

/* A batch finds room there, which a put waits for. */
static void leave_room_to_batches(void) {
    clsm_store *store = opened(BATCHES_EPOCH, 0);
    clsm_caller *caller = caller_of(store), *other = caller_of(store);
    clsm_statistics before, now;
    pthread_t put;
    fill_open_writes(store, caller, true);
    ANSWERS(CLSM_FULL, clsm_try_put(caller, 1, &WORD, 1));
    ANSWERS(CLSM_FULL, clsm_try_remove(caller, 1));
    OK(clsm_stats(store, &before));
    CHECK(pthread_create(&put, NULL, put_once, other) == 0);
    between_await_sleepers(1);
    write_batch(caller);
    OK(clsm_get(caller, 3, NULL));
    ANSWERS(CLSM_NOT_FOUND, clsm_get(caller, 4, NULL));
    mock_core_refuse(MOCK_SWEEP, CLSM_OK, 0);
    CHECK(pthread_join(put, NULL) == 0);
    OK(clsm_get(caller, 4, NULL));
    OK(clsm_stats(store, &now));
    CHECK(now.waits == before.waits + 1 && now.clock == before.clock + 3);
    clsm_caller_close(other);
    closed(store, caller);
}

/* All writes find it where there were no batches of late. */
static void leave_no_room_to_nobody(void) {
    enum { MANY_EPOCHS = 70 };
    clsm_store *store = opened(BATCHES_EPOCH, 0);
    clsm_caller *caller = caller_of(store);
    for (int i = 0; i < 2; i++) {
        fill_open_writes(store, caller, false);
        OK(clsm_try_put(caller, 1, &WORD, 1));
        OK(clsm_try_put(caller, 1, &WORD, 1));
        ANSWERS(CLSM_FULL, clsm_try_put(caller, 1, &WORD, 1));
        mock_core_refuse(MOCK_SWEEP, CLSM_OK, 0);
        while (clsm_sweep(store) != CLSM_IDLE) continue;
        OK(clsm_batch(caller, &(clsm_row){.key = 1}, 1));
        for (int j = 0; j < MANY_EPOCHS * BATCHES_EPOCH; j++) OK(clsm_put(caller, 1, &WORD, 1));
        while (clsm_sweep(store) != CLSM_IDLE) continue;
    }
    closed(store, caller);
}

/* So do they once the merge came to nothing: also one that waits. */
static void leave_no_room_behind_refusal(void) {
    clsm_store *store = opened(BATCHES_EPOCH, 0);
    clsm_caller *caller = caller_of(store), *other = caller_of(store);
    pthread_t put;
    fill_open_writes(store, caller, true);
    CHECK(pthread_create(&put, NULL, put_once, other) == 0);
    between_await_sleepers(1);
    mock_core_refuse(MOCK_SWEEP, CLSM_RUN_FULL, UINT_MAX);
    CHECK(pthread_join(put, NULL) == 0);
    OK(clsm_try_put(caller, 1, &WORD, 1));
    ANSWERS(CLSM_RUN_FULL, clsm_put(caller, 1, &WORD, 1));
    mock_core_refuse(MOCK_SWEEP, CLSM_OK, 0);
    clsm_caller_close(other);
    closed(store, caller);
}

/* ---- Merges that are in somebody's way */

static void sweep_in_the_way(void) {
    enum { TIMES = 50 };
    clsm_store *store = opened(4, CLSM_MERGE_IN_CALLS);
    clsm_caller *caller = caller_of(store);
    OK(clsm_put(caller, 1, &WORD, 1));
    /* What it freezes is merged then, but a read is in the way of the next one. */
    mock_core_refuse(MOCK_SWEEP, CLSM_PINNED, 2);
    OK(clsm_sweep(store));
    OK(clsm_put(caller, 2, &WORD, 1));
    ANSWERS(CLSM_PINNED, clsm_sweep(store));
    /* It waits for writers, also behind a merge of what was frozen before. */
    unsigned made = mock_core_count(MOCK_SWEEP);
    mock_core_refuse(MOCK_FREEZE, CLSM_BUSY, TIMES);
    OK(clsm_sweep(store));
    CHECK(mock_core_count(MOCK_SWEEP) - made == 2);
    OK(clsm_put(caller, 3, &WORD, 1));
    mock_core_refuse(MOCK_FREEZE, CLSM_BUSY, TIMES);
    OK(clsm_sweep(store));
    ANSWERS(CLSM_IDLE, clsm_sweep(store));
    closed(store, caller);
}

/* Writers in whose calls it merges find room, however often the merge is in the way. */
static void merge_in_calls_in_the_way(void) {
    enum { TIMES = 50, WRITES = 400 };
    clsm_store *store = opened(4, CLSM_MERGE_IN_CALLS);
    clsm_caller *caller = caller_of(store);
    uint64_t keys;
    mock_core_refuse(MOCK_FREEZE, CLSM_BUSY, TIMES);
    mock_core_refuse(MOCK_SWEEP, CLSM_PINNED, TIMES);
    for (uint64_t key = 0; key < WRITES; key++) OK(clsm_put(caller, key, &WORD, 1));
    OK(clsm_count(caller, 0, UINT64_MAX, &keys));
    CHECK(keys == WRITES);
    closed(store, caller);
}

/* So does the merger's thread, which yields sixteen times, and then sleeps each time. */
static void merge_beside_in_the_way(void) {
    enum { TIMES = 50, YIELDS = 16, WRITES = 400 };
    clsm_store *store = opened(4, 0);
    clsm_caller *caller = caller_of(store);
    uint64_t keys;
    const unsigned long yields = between_yields();
    mock_core_refuse(MOCK_SWEEP, CLSM_PINNED, TIMES);
    for (uint64_t key = 0; key < WRITES; key++) OK(clsm_put(caller, key, &WORD, 1));
    CHECK(between_yields() - yields == YIELDS);
    mock_core_refuse(MOCK_FREEZE, CLSM_BUSY, TIMES);
    for (uint64_t key = 0; key < WRITES; key++) OK(clsm_put(caller, key, &WORD, 1));
    OK(clsm_count(caller, 0, UINT64_MAX, &keys));
    CHECK(keys == WRITES);
    closed(store, caller);
}

/* Puts nine times, which is once more than two epochs of the store have writes, and ends if it was
 * cancelled meanwhile. */
static void *put_nine_times(void *of) {
    clsm_caller *caller = of;
    for (uint64_t key = 0; key < 9; key++) OK(clsm_put(caller, key, &WORD, 1));
    pthread_testcancel();
    return NULL;
}

/* While a read is in the way of a merge, nobody wakes those who wait for room behind that. */
static void sleep_behind_pinned(void) {
    enum { WRITERS = 8, TIMES = 100 };
    clsm_store *store = opened(4, 0);
    clsm_caller *callers[WRITERS];
    pthread_t threads[WRITERS];
    unsigned made = mock_core_count(MOCK_SWEEP);
    mock_core_refuse(MOCK_SWEEP, CLSM_PINNED, UINT_MAX);
    for (int i = 0; i < WRITERS; i++) {
        callers[i] = caller_of(store);
        CHECK(pthread_create(&threads[i], NULL, put_nine_times, callers[i]) == 0);
    }
    mock_core_await(MOCK_SWEEP, made + 1);
    between_await_sleepers(WRITERS);
    made = mock_core_count(MOCK_SWEEP);
    const unsigned long wakes = between_wakes();
    while (mock_core_count(MOCK_SWEEP) < made + TIMES) sched_yield();
    CHECK(between_wakes() == wakes);
    mock_core_refuse(MOCK_SWEEP, CLSM_OK, 0);
    for (int i = 0; i < WRITERS; i++) {
        CHECK(pthread_join(threads[i], NULL) == 0);
        clsm_caller_close(callers[i]);
    }
    OK(clsm_close(store));
}

/* A thread that is cancelled while its write waits for room makes the write first. */
static void cancel_one_who_waits(void) {
    clsm_store *store = opened(4, 0);
    clsm_caller *caller = caller_of(store), *other = caller_of(store);
    pthread_t thread;
    void *answer;
    mock_core_refuse(MOCK_SWEEP, CLSM_PINNED, UINT_MAX);
    for (uint64_t key = 10; key < 14; key++) OK(clsm_put(other, key, &WORD, 1));
    CHECK(pthread_create(&thread, NULL, put_nine_times, caller) == 0);
    between_await_sleepers(1);
    CHECK(pthread_cancel(thread) == 0);
    mock_core_refuse(MOCK_SWEEP, CLSM_OK, 0);
    CHECK(pthread_join(thread, &answer) == 0 && answer == PTHREAD_CANCELED);
    OK(clsm_get(caller, 8, NULL));
    for (uint64_t key = 0; key < 20; key++) OK(clsm_put(other, key, &WORD, 1));
    clsm_caller_close(caller);
    closed(store, other);
}

static void close_snapshot(void *of) { clsm_snapshot_close(of); }

/* A snapshot that is closed while the merge is refused for it makes the merge be tried again. */
static void close_during_merge(void) {
    const clsm_options options = {.epoch = 4, .wait = -1, .merge = CLSM_MERGE_IN_CALLS};
    clsm_store *store;
    clsm_snapshot *snapshot;
    OK(clsm_open(&options, &store));
    clsm_caller *caller = caller_of(store);
    OK(clsm_store_snapshot(store, &snapshot));
    mock_core_refuse(MOCK_SWEEP, CLSM_PINNED, 1);
    for (uint64_t i = 0; i < 5; i++) OK(clsm_put(caller, i, &WORD, 1));
    mock_core_interrupt(MOCK_SWEEP, close_snapshot, snapshot);
    mock_core_refuse(MOCK_SWEEP, CLSM_RUN_FULL, 1);
    for (uint64_t i = 0; i < 20; i++) OK(clsm_put(caller, i, &WORD, 1));
    closed(store, caller);
}

/* Two who sweep at once do so in turn. */
struct sweeping {
    clsm_store *store;
    pthread_t thread;
};

static void *sweep_once(void *of) {
    clsm_sweep(of);
    return NULL;
}

static void sweep_beside(void *of) {
    struct sweeping *other = of;
    CHECK(pthread_create(&other->thread, NULL, sweep_once, other->store) == 0);
    between_await_sleepers(1);
}

static void sweep_in_turn(void) {
    clsm_store *store = opened(64, CLSM_MERGE_IN_CALLS);
    clsm_caller *caller = caller_of(store);
    struct sweeping other = {.store = store};
    OK(clsm_put(caller, 1, &WORD, 1));
    mock_core_interrupt(MOCK_SWEEP, sweep_beside, &other);
    OK(clsm_sweep(store));
    CHECK(pthread_join(other.thread, NULL) == 0);
    closed(store, caller);
}

/* The merger's thread merges once half of an epoch is drawn, with nobody waiting for it. */
static void merge_at_half(void) {
    enum { EPOCH = 16, HALF = EPOCH / 2 };
    clsm_store *store = opened(EPOCH, 0);
    clsm_caller *one = caller_of(store), *other = caller_of(store);
    for (unsigned round = 1; round <= 20; round++) {
        const unsigned made = mock_core_count(MOCK_SWEEP);
        for (unsigned i = 0; i + 1 < HALF; i++) OK(clsm_put(i % 2 ? one : other, i, &WORD, 1));
        CHECK(mock_core_count(MOCK_SWEEP) == made);
        OK(clsm_put(round % 2 ? one : other, 1, &WORD, 1));
        mock_core_await(MOCK_SWEEP, made + 1);
        /* The merge may still be running. */
        int code;
        while ((code = clsm_sweep(store)) == CLSM_OK) continue;
        CHECK(code == CLSM_IDLE);
    }
    clsm_caller_close(one);
    closed(store, other);
}

/* So does one that a batch draws at once, and one in which a batch found too little room. */
static void merge_for_batches(void) {
    enum { EPOCH = 16 };
    static clsm_row rows[EPOCH];
    clsm_store *store = opened(EPOCH, 0);
    clsm_caller *caller = caller_of(store);
    unsigned made = mock_core_count(MOCK_SWEEP);
    for (uint64_t i = 0; i < EPOCH; i++) rows[i] = (clsm_row){i, {1, {i}}};
    OK(clsm_batch(caller, rows, EPOCH / 2));
    mock_core_await(MOCK_SWEEP, made + 1);
    for (int i = 0; i < 10; i++) {
        OK(clsm_put(caller, 1, &WORD, 1));
        OK(clsm_batch(caller, rows, EPOCH));
    }
    mock_core_refuse(MOCK_SWEEP, CLSM_RUN_FULL, UINT_MAX);
    int code = CLSM_OK;
    for (int i = 0; code == CLSM_OK; i++) {
        code = clsm_batch(caller, rows, EPOCH);
        CHECK(i < 100);
    }
    ANSWERS(CLSM_RUN_FULL, code);
    mock_core_refuse(MOCK_SWEEP, CLSM_OK, 0);
    OK(clsm_batch(caller, rows, EPOCH));
    closed(store, caller);
}

/* Half of an epoch that was drawn while the epoch before was merged is not forgotten. */
static void merge_on(void) {
    enum { EPOCH = 16, HALF = EPOCH / 2 };
    clsm_store *store = opened(EPOCH, 0);
    clsm_caller *caller = caller_of(store);
    const unsigned made = mock_core_count(MOCK_FREEZE);
    mock_core_refuse(MOCK_SWEEP, CLSM_PINNED, UINT_MAX);
    for (uint64_t i = 0; i < HALF; i++) OK(clsm_put(caller, i, &WORD, 1));
    mock_core_await(MOCK_FREEZE, made + 1);
    while (clsm_sweep(store) != CLSM_PINNED) continue;
    for (uint64_t i = 0; i < HALF; i++) OK(clsm_put(caller, i, &WORD, 1));
    CHECK(mock_core_count(MOCK_FREEZE) == made + 1);
    mock_core_refuse(MOCK_SWEEP, CLSM_OK, 0);
    mock_core_await(MOCK_FREEZE, made + 2);
    closed(store, caller);
}

/* A write that tries once and finds the epoch full calls the merger, even if that gave up before,
 * and tells that from a merge that is not done yet. */
static void call_again(void) {
    clsm_store *store = opened(4, 0);
    clsm_caller *caller = caller_of(store);
    clsm_snapshot *snapshot;
    unsigned made = mock_core_count(MOCK_SWEEP);
    mock_core_refuse(MOCK_SWEEP, CLSM_PINNED, UINT_MAX);
    for (uint64_t i = 0; i < 2; i++) OK(clsm_put(caller, i, &WORD, 1));
    mock_core_await(MOCK_SWEEP, made + 1);
    for (uint64_t i = 0; i < 4; i++) OK(clsm_put(caller, i, &WORD, 1));
    ANSWERS(CLSM_FULL, clsm_try_put(caller, 1, &WORD, 1));
    mock_core_refuse(MOCK_SWEEP, CLSM_RUN_FULL, UINT_MAX);
    ANSWERS(CLSM_RUN_FULL, clsm_put(caller, 1, &WORD, 1));
    between_await_sleepers(1);
    made = mock_core_count(MOCK_SWEEP);
    ANSWERS(CLSM_RUN_FULL, clsm_try_put(caller, 1, &WORD, 1));
    mock_core_await(MOCK_SWEEP, made + 1);
    ANSWERS(CLSM_RUN_FULL, clsm_sweep(store));
    /* Once a snapshot is closed that was in its way, a merge may have room. */
    between_await_sleepers(1);
    OK(clsm_snapshot_open(caller, &snapshot));
    ANSWERS(CLSM_VERSIONS_FULL, clsm_sweep(store));
    ANSWERS(CLSM_VERSIONS_FULL, clsm_try_put(caller, 1, &WORD, 1));
    between_await_sleepers(1);
    made = mock_core_count(MOCK_SWEEP);
    clsm_snapshot_close(snapshot);
    mock_core_await(MOCK_SWEEP, made + 1);
    between_await_sleepers(1);
    mock_core_refuse(MOCK_SWEEP, CLSM_OK, 0);
    OK(clsm_put(caller, 1, &WORD, 1));
    closed(store, caller);
}

/* ---- The end of times */

static void wear_out(int merge) {
    clsm_store *store = opened(4, merge);
    clsm_caller *caller = caller_of(store);
    mock_core_refuse(MOCK_FREEZE, CLSM_WORN, UINT_MAX);
    for (uint64_t i = 0; i < 4; i++) OK(clsm_put(caller, i, &WORD, 1));
    ANSWERS(CLSM_WORN, clsm_put(caller, 4, &WORD, 1));
    ANSWERS(CLSM_WORN, clsm_remove(caller, 1));
    ANSWERS(CLSM_WORN, clsm_batch(caller, &(clsm_row){.key = 1}, 1));
    ANSWERS(CLSM_WORN, clsm_try_put(caller, 4, &WORD, 1));
    ANSWERS(CLSM_WORN, clsm_sweep(store));
    OK(clsm_get(caller, 3, NULL));
    mock_core_refuse(MOCK_FREEZE, CLSM_OK, 0);
    closed(store, caller);
}

/* ---- Reads that run back */

static void run_back(void) {
    clsm_store *store = opened(64, CLSM_MERGE_IN_CALLS);
    clsm_caller *caller = caller_of(store);
    clsm_snapshot *snapshot;
    clsm_scan *scan;
    clsm_row row;
    clsm_page_end end;
    uint64_t keys;
    for (uint64_t i = 0; i < 10; i++) OK(clsm_put(caller, i, &WORD, 1));
    mock_core_run_back(MOCK_READ, 1, 3);
    OK(clsm_get(caller, 9, NULL));
    mock_core_run_back(MOCK_READ, 5, 3);
    OK(clsm_count(caller, 0, UINT64_MAX, &keys));
    CHECK(keys == 10);
    mock_core_run_back(MOCK_READ, 5, 3);
    OK(clsm_page(caller, 9, 9, &row, 1, &end));
    CHECK(end.rows == 1);
    unsigned made = mock_core_count(MOCK_READ);
    mock_core_run_back(MOCK_READ, 5, 3);
    ANSWERS(CLSM_KEPT, clsm_put_if_absent(caller, 9, &row.value, NULL));
    CHECK(mock_core_count(MOCK_READ) - made == 4 && clsm_time(caller) == 10);
    made = mock_core_count(MOCK_SNAPSHOT);
    mock_core_run_back(MOCK_SNAPSHOT, 1, 3);
    OK(clsm_snapshot_open(caller, &snapshot));
    CHECK(mock_core_count(MOCK_SNAPSHOT) - made == 4 && clsm_snapshot_time(snapshot) == 10);
    OK(clsm_snapshot_get(snapshot, 9, NULL));
    mock_core_run_back(MOCK_SNAPSHOT, 5, 30);
    OK(clsm_scan_open(caller, 9, 9, &scan));
    OK(clsm_scan_next(scan, &row));
    clsm_scan_close(scan);
    clsm_snapshot_close(snapshot);
    closed(store, caller);
}

/* What one caller saw, the next one to be opened sees, and one that follows it. */
static void follow_back(void) {
    clsm_store *store = opened(64, CLSM_MERGE_IN_CALLS);
    clsm_caller *one = caller_of(store), *other = caller_of(store), *next;
    OK(clsm_put(one, 1, &WORD, 1));
    const uint64_t seen = clsm_seen(one);
    mock_core_run_back(MOCK_READ, 1, 3);
    OK(clsm_follow(other, seen));
    CHECK(clsm_seen(other) == seen && clsm_time(other) == 0);
    mock_core_run_back(MOCK_SNAPSHOT, 1, 1);
    clsm_snapshot *snapshot;
    OK(clsm_snapshot_open(other, &snapshot));
    OK(clsm_snapshot_get(snapshot, 1, NULL));
    clsm_snapshot_close(snapshot);
    ANSWERS(CLSM_BAD_VALUE, clsm_follow(other, seen + 1));
    OK(clsm_put(one, 2, &WORD, 1));
    clsm_caller_close(one);
    mock_core_run_back(MOCK_READ, 1, 3);
    const unsigned made = mock_core_count(MOCK_READ);
    OK(clsm_caller_open(store, &next));
    CHECK(mock_core_count(MOCK_READ) - made == 4 && clsm_seen(next) == seen + 1);
    clsm_caller_close(next);
    /* So does a snapshot of the store, and the next caller sees what that saw. */
    mock_core_run_back(MOCK_SNAPSHOT, 1, 3);
    OK(clsm_store_snapshot(store, &snapshot));
    CHECK(clsm_snapshot_time(snapshot) == seen + 1);
    OK(clsm_put(other, 3, &WORD, 1));
    clsm_snapshot_close(snapshot);
    OK(clsm_store_snapshot(store, &snapshot));
    CHECK(clsm_snapshot_time(snapshot) == seen + 2);
    clsm_snapshot_close(snapshot);
    mock_core_run_back(MOCK_READ, 1, 3);
    OK(clsm_caller_open(store, &next));
    CHECK(clsm_seen(next) == seen + 2);
    clsm_caller_close(other);
    closed(store, next);
}

/* ---- Another build */

static void refuse_build(void) {
    clsm_store *store;
    mock_core_grow_handles(8);
    ANSWERS(CLSM_BAD_BUILD, clsm_open(NULL, &store));
    CHECK(!store);
    mock_core_grow_handles(0);
    OK(clsm_close(opened(0, 0)));
}

int main(void) {
    lose(CLSM_BUSY);
    lose(CLSM_RACED);
    lose(CLSM_OVERTAKEN);
    let_batches_in();
    go_on_beside_batch();
    let_freezes_in();
    sweep_in_the_way();
    merge_in_calls_in_the_way();
    merge_beside_in_the_way();
    sleep_behind_pinned();
    cancel_one_who_waits();
    close_during_merge();
    sweep_in_turn();
    merge_at_half();
    merge_for_batches();
    merge_on();
    call_again();
    leave_room_to_batches();
    leave_no_room_to_nobody();
    /* Often: the merger may be so fast that nothing is to be seen. */
    for (int i = 0; i < 20; i++) leave_no_room_behind_refusal();
    wear_out(0);
    wear_out(CLSM_MERGE_IN_CALLS);
    run_back();
    follow_back();
    refuse_build();
    return passed("mocked");
}
