/* Calls of many rows: ranges that are removed and stores that are copied, each refusal and what it
 * leaves. MEMORY is in memory.c, and what other threads do in between in mocked_many.c. */
#include "between.h"
#include "check.h"

#include <pthread.h>
#include <stdatomic.h>
#include <string.h>

static const uint64_t WORD = 5;

static clsm_store *opened(clsm_options options) {
    clsm_store *store;
    OK(clsm_open(&options, &store));
    return store;
}

static clsm_caller *caller_of(clsm_store *store) {
    clsm_caller *caller;
    OK(clsm_caller_open(store, &caller));
    return caller;
}

static void closed(clsm_store *store, clsm_caller *caller) {
    clsm_caller_close(caller);
    OK(clsm_close(store));
}

static uint64_t count_of(clsm_caller *caller, uint64_t first, uint64_t last) {
    uint64_t keys;
    OK(clsm_count(caller, first, last, &keys));
    return keys;
}

/* Key k has k % 8 + 1 words, the first of which is k. */
static void put(clsm_caller *caller, uint64_t key) {
    const uint64_t words[] = {key, 1, 2, 3, 4, 5, 6, 7};
    OK(clsm_put(caller, key, words, key % 8 + 1));
}

/* Puts so many keys, step by step from this one on. */
static void put_keys(clsm_caller *caller, uint64_t first, uint64_t step, uint64_t count) {
    for (uint64_t i = 0; i < count; i++) put(caller, first + i * step);
}

static void merge_all(clsm_store *store) {
    const int code = clsm_sweep(store);
    CHECK(code == CLSM_OK || code == CLSM_IDLE);
}

/* ---- Removing */

static void remove_range(clsm_caller *caller, uint64_t first, uint64_t last, uint64_t wanted) {
    uint64_t removed = 77;
    OK(clsm_remove_range(caller, first, last, &removed));
    CHECK(removed == wanted && count_of(caller, first, last) == 0);
}

/* Ranges of all lengths about those of a page, with both ends, in stores of long and of short
 * epochs. */
static void remove_ranges(size_t epoch, int merge) {
    enum { MOST = 200, STEP = 3 };
    static const uint64_t counts[] = {0, 1, 2, 63, 64, 65, 127, 128, 129, MOST};
    clsm_store *store = opened((clsm_options){.keys = 1000, .epoch = epoch, .merge = merge});
    clsm_caller *caller = caller_of(store);
    for (size_t i = 0; i < sizeof counts / sizeof *counts; i++) {
        const uint64_t count = counts[i], last = STEP * (1 + count);
        put_keys(caller, STEP, STEP, MOST);
        put(caller, UINT64_MAX);
        put(caller, 0);
        remove_range(caller, STEP, last - 1, count);
        CHECK(count_of(caller, 0, UINT64_MAX) == MOST - count + 2);
        remove_range(caller, STEP, last - 1, 0);
        remove_range(caller, last, last, count < MOST);
        remove_range(caller, 5, 4, 0);
        remove_range(caller, UINT64_MAX, 0, 0);
        remove_range(caller, UINT64_MAX, UINT64_MAX, 1);
        OK(clsm_remove_range(caller, last, UINT64_MAX, NULL));
        CHECK(count_of(caller, 0, UINT64_MAX) == 1);
    }
    closed(store, caller);
}

static void clear(int merge) {
    enum { KEYS = 500, EPOCH = 16 };
    clsm_store *store = opened((clsm_options){.keys = KEYS, .epoch = EPOCH, .merge = merge});
    clsm_caller *caller = caller_of(store);
    uint64_t removed = 77;
    OK(clsm_clear(caller, &removed));
    CHECK(removed == 0 && clsm_time(caller) == clsm_seen(caller));
    for (int round = 0; round < 3; round++) {
        uint64_t key = 0;
        while (clsm_put(caller, key, &WORD, 1) == CLSM_OK) key++;
        CHECK(key >= KEYS);
        OK(clsm_clear(caller, &removed)); /* a store that is full of keys is cleared, too */
        CHECK(removed == key && count_of(caller, 0, UINT64_MAX) == 0);
    }
    put(caller, 3);
    OK(clsm_clear(caller, NULL));
    ANSWERS(CLSM_NOT_FOUND, clsm_get(caller, 3, NULL));
    closed(store, caller);
}

/* A refusal leaves a part removed, and says how much; the same call goes on from there. */
static void refuse_removals(int merge) {
    enum { KEYS = 300, EPOCH = 16 };
    clsm_store *store = opened((clsm_options){.keys = KEYS, .epoch = EPOCH, .wait = -1, .merge = merge});
    clsm_caller *caller = caller_of(store), *other = caller_of(store);
    clsm_snapshot *snapshot;
    uint64_t removed = 77, more = 77;
    ANSWERS(CLSM_BAD_POINTER, clsm_remove_range(NULL, 0, 9, &removed));
    CHECK(removed == 0);
    ANSWERS(CLSM_BAD_POINTER, clsm_clear(NULL, NULL));
    for (int is_own = 0; is_own < 2; is_own++) {
        put_keys(caller, 0, 1, KEYS);
        merge_all(store);
        OK(clsm_snapshot_open(is_own ? caller : other, &snapshot));
        const int wanted = is_own ? CLSM_OWN_SNAPSHOT : CLSM_VERSIONS_FULL;
        int code = CLSM_OK;
        for (uint64_t i = 0; code == CLSM_OK; i++) code = clsm_put(caller, KEYS - 1, &i, 1);
        ANSWERS(wanted, code);
        ANSWERS(wanted, clsm_clear(caller, &removed));
        CHECK(removed < KEYS && count_of(caller, 0, UINT64_MAX) == KEYS - removed);
        CHECK(removed == 0 || clsm_get(caller, removed - 1, NULL) == CLSM_NOT_FOUND);
        OK(clsm_get(caller, removed, NULL));
        clsm_snapshot_close(snapshot);
        OK(clsm_clear(caller, &more));
        CHECK(removed + more == KEYS && count_of(caller, 0, UINT64_MAX) == 0);
    }
    clsm_caller_close(other);
    closed(store, caller);
}

/* One that is refused in the middle: a part of the versions has room. */
static void refuse_midway(void) {
    enum { KEYS = 4000, EPOCH = 64 };
    clsm_store *store = opened((clsm_options){.keys = KEYS, .epoch = EPOCH, .versions = 2000, .wait = -1});
    clsm_caller *caller = caller_of(store);
    clsm_snapshot *snapshot;
    uint64_t removed = 0, more = 0;
    put_keys(caller, 0, 1, KEYS);
    merge_all(store);
    OK(clsm_store_snapshot(store, &snapshot));
    ANSWERS(CLSM_VERSIONS_FULL, clsm_clear(caller, &removed));
    CHECK(removed >= 1000 && removed < KEYS);
    CHECK(count_of(caller, 0, UINT64_MAX) == KEYS - removed);
    CHECK(count_of(caller, 0, removed - 1) == 0);
    clsm_snapshot_close(snapshot);
    OK(clsm_clear(caller, &more));
    CHECK(removed + more == KEYS);
    closed(store, caller);
}

/* ---- Copying */

static bool is_same(const clsm_value *one, const clsm_value *other) {
    return memcmp(one, other, sizeof *one) == 0;
}

/* That both have the same rows. */
static void compare(clsm_store *one, clsm_store *other) {
    clsm_caller *left = caller_of(one), *right = caller_of(other);
    clsm_scan *rows, *others;
    clsm_row row, wanted;
    int code;
    OK(clsm_scan_open(left, 0, UINT64_MAX, &rows));
    OK(clsm_scan_open(right, 0, UINT64_MAX, &others));
    while ((code = clsm_scan_next(rows, &wanted)) == CLSM_OK) {
        OK(clsm_scan_next(others, &row));
        CHECK(row.key == wanted.key && is_same(&row.value, &wanted.value));
    }
    ANSWERS(CLSM_DONE, code);
    ANSWERS(CLSM_DONE, clsm_scan_next(others, &row));
    clsm_scan_close(rows);
    clsm_scan_close(others);
    clsm_caller_close(left);
    clsm_caller_close(right);
}

/* So many keys go into a store for as many, or for more. */
static void copy_keys(uint64_t count, clsm_options into) {
    clsm_store *store = opened((clsm_options){.keys = 1000, .epoch = 16}), *copy;
    clsm_caller *caller = caller_of(store), *other;
    clsm_statistics before, now;
    put_keys(caller, 7, 5, count);
    put_keys(caller, 8, 5, count);
    for (uint64_t i = 0; i < count; i++) OK(clsm_remove(caller, 8 + 5 * i));
    OK(clsm_stats(store, &before));
    OK(clsm_copy(store, &into, &copy));
    compare(store, copy);
    OK(clsm_stats(store, &now));
    CHECK(now.callers == before.callers && now.snapshots == 0 && now.oldest_age == 0);
    OK(clsm_stats(copy, &now));
    CHECK(now.callers == 0 && now.snapshots == 0 && now.run_full == 0);
    /* Each goes on by itself. */
    other = caller_of(copy);
    put(other, 1);
    OK(clsm_remove(caller, 7));
    ANSWERS(CLSM_NOT_FOUND, clsm_get(caller, 1, NULL));
    CHECK(count_of(other, 0, UINT64_MAX) == count + 1);
    closed(store, caller);
    closed(copy, other);
}

static void copy_stores(void) {
    static const uint64_t counts[] = {0, 1, 63, 64, 65, 128, 500};
    for (size_t i = 0; i < sizeof counts / sizeof *counts; i++) {
        const size_t count = counts[i], keys = count > 0 ? count : 1;
        copy_keys(count, (clsm_options){.keys = keys});
        copy_keys(count, (clsm_options){.keys = keys, .epoch = 4});
        copy_keys(count, (clsm_options){.keys = 2000, .epoch = 64, .merge = CLSM_MERGE_IN_CALLS});
    }
    clsm_store *store = opened((clsm_options){.keys = 10}), *copy;
    OK(clsm_copy(store, NULL, &copy)); /* of the default size */
    clsm_statistics now;
    OK(clsm_stats(copy, &now));
    CHECK(now.room_for_keys == 100000);
    OK(clsm_close(copy));
    OK(clsm_close(store));
}

/* A full store goes on in a larger one. */
static void grow(void) {
    clsm_store *store = opened((clsm_options){.keys = 100, .epoch = 4}), *copy;
    clsm_caller *caller = caller_of(store);
    uint64_t key = 0;
    while (clsm_put(caller, key, &WORD, 1) == CLSM_OK) key++;
    OK(clsm_copy(store, &(clsm_options){.keys = 1000}, &copy));
    closed(store, caller);
    caller = caller_of(copy);
    CHECK(count_of(caller, 0, UINT64_MAX) == key);
    while (key < 1000) put(caller, key++);
    closed(copy, caller);
}

/* ---- Refusals of a copy, each of which leaves nothing */

static void refuse_copy(int wanted, clsm_store *from, clsm_options into) {
    clsm_statistics before, after;
    clsm_store *copy = from;
    OK(clsm_stats(from, &before));
    ANSWERS(wanted, clsm_copy(from, &into, &copy));
    CHECK(!copy);
    OK(clsm_stats(from, &after));
    CHECK(before.callers == after.callers && before.snapshots == after.snapshots);
}

static void refuse_copies(void) {
    enum { KEYS = 300 };
    clsm_store *store = opened((clsm_options){.keys = KEYS, .epoch = 16}), *copy = store;
    clsm_caller *caller = caller_of(store), *callers[CLSM_SEATS];
    put_keys(caller, 0, 1, KEYS);
    ANSWERS(CLSM_BAD_POINTER, clsm_copy(NULL, NULL, &copy));
    CHECK(!copy);
    ANSWERS(CLSM_BAD_POINTER, clsm_copy(store, NULL, NULL));
    refuse_copy(CLSM_BAD_KEYS, store, (clsm_options){.keys = SIZE_MAX});
    refuse_copy(CLSM_BAD_EPOCH, store, (clsm_options){.epoch = 3});
    refuse_copy(CLSM_BAD_PATIENCE, store, (clsm_options){.patience = 65});
    refuse_copy(CLSM_BAD_MERGE, store, (clsm_options){.merge = 2});
    refuse_copy(CLSM_BAD_VERSIONS, store, (clsm_options){.versions = 1});
    refuse_copy(CLSM_BAD_WAIT, store, (clsm_options){.wait = -2});
    refuse_copy(CLSM_BAD_BUILD, store, (clsm_options){.zero = {1}});
    between_refuse_threads(1);
    refuse_copy(CLSM_NO_THREAD, store, (clsm_options){.keys = KEYS});
    between_refuse_threads(0);
    for (int merge = 0; merge <= CLSM_MERGE_IN_CALLS; merge++) {
        refuse_copy(CLSM_RUN_FULL, store, (clsm_options){.keys = 1, .merge = merge});
        refuse_copy(CLSM_RUN_FULL, store, (clsm_options){.keys = 64, .epoch = 4, .merge = merge});
        refuse_copy(CLSM_RUN_FULL, store, (clsm_options){.keys = KEYS - 1, .merge = merge});
    }
    for (unsigned i = 1; i < CLSM_SEATS; i++) callers[i] = caller_of(store);
    refuse_copy(CLSM_NO_SEAT, store, (clsm_options){.keys = KEYS});
    clsm_caller_close(callers[1]);
    OK(clsm_copy(store, &(clsm_options){.keys = KEYS}, &copy));
    OK(clsm_close(copy));
    for (unsigned i = 2; i < CLSM_SEATS; i++) clsm_caller_close(callers[i]);
    closed(store, caller);
}

/* ---- A copy is of one moment, whatever other threads write */

struct shared {
    clsm_store *store;
    atomic_bool is_over;
};

/* Keeps the sum of two keys, which lie many pages apart, and moves both ends of the rest. */
static void *move(void *of) {
    enum { SUM = 1000, FAR = 100000 };
    struct shared *shared = of;
    clsm_caller *caller = caller_of(shared->store);
    for (uint64_t i = 0; !atomic_load(&shared->is_over); i++) {
        const uint64_t part = i % SUM;
        const clsm_row rows[] = {{0, {1, {part}}}, {FAR, {1, {SUM - part}}}};
        OK(clsm_batch(caller, rows, 2));
    }
    clsm_caller_close(caller);
    return NULL;
}

static void copy_beside_writes(void) {
    enum { SUM = 1000, FAR = 100000, KEYS = 500, COPIES = 30 };
    struct shared shared = {opened((clsm_options){.keys = 1000, .versions = 100000}), false};
    clsm_caller *caller = caller_of(shared.store);
    const clsm_row rows[] = {{0, {1, {0}}}, {FAR, {1, {SUM}}}};
    clsm_value low, high;
    pthread_t thread;
    OK(clsm_batch(caller, rows, 2));
    put_keys(caller, 1, 1, KEYS);
    CHECK(pthread_create(&thread, NULL, move, &shared) == 0);
    for (int i = 0; i < COPIES; i++) {
        clsm_store *copy;
        OK(clsm_copy(shared.store, &(clsm_options){.keys = KEYS + 2}, &copy));
        clsm_caller *other = caller_of(copy);
        OK(clsm_get(other, 0, &low));
        OK(clsm_get(other, FAR, &high));
        CHECK(low.words[0] + high.words[0] == SUM);
        CHECK(count_of(other, 0, UINT64_MAX) == KEYS + 2);
        closed(copy, other);
    }
    atomic_store(&shared.is_over, true);
    CHECK(pthread_join(thread, NULL) == 0);
    closed(shared.store, caller);
}

int main(void) {
    remove_ranges(4, 0);
    remove_ranges(64, CLSM_MERGE_IN_CALLS);
    remove_ranges(0, 0);
    clear(0);
    clear(CLSM_MERGE_IN_CALLS);
    refuse_removals(0);
    refuse_removals(CLSM_MERGE_IN_CALLS);
    refuse_midway();
    copy_stores();
    grow();
    refuse_copies();
    copy_beside_writes();
    return passed("copying");
}
