/* Stores that are full: of keys, and of versions that open snapshots keep. What is refused, what is
 * not, and that each refusal ends. */
#include "between.h"
#include "check.h"

#include <pthread.h>
#include <time.h>

static const uint64_t WORD = 5;

static clsm_store *opened(clsm_options options) {
    clsm_store *store;
    OK(clsm_open(&options, &store));
    return store;
}

static clsm_caller *caller_of(clsm_store *store) {
    clsm_caller *caller;
    OK(clsm_caller_open(store, &caller));
    return caller;
}

static void closed(clsm_store *store, clsm_caller *caller) {
    clsm_caller_close(caller);
    OK(clsm_close(store));
}

static uint64_t count_of(clsm_caller *caller) {
    uint64_t keys;
    OK(clsm_count(caller, 0, UINT64_MAX, &keys));
    return keys;
}

/* ---- Too many keys */

/* Puts new keys from this one on until that is refused; answers the first key that was not put. */
static uint64_t fill(clsm_caller *caller, uint64_t key) {
    uint64_t time = clsm_time(caller);
    int code;
    for (; (code = clsm_put(caller, key, &WORD, 1)) == CLSM_OK; key++) time = clsm_time(caller);
    ANSWERS(CLSM_RUN_FULL, code);
    CHECK(clsm_time(caller) == time);
    return key;
}

/* In a store that has too many keys, no new one gets a value, by whichever call. */
static void refuse_new_keys(clsm_caller *caller, uint64_t key) {
    const clsm_value value = {1, {1}};
    const clsm_row rows[] = {{1, {1, {1}}}, {key, {1, {1}}}};
    clsm_changed changed;
    const uint64_t keys = count_of(caller);
    ANSWERS(CLSM_RUN_FULL, clsm_put(caller, key, &WORD, 1));
    ANSWERS(CLSM_RUN_FULL, clsm_add(caller, key, 1, NULL));
    ANSWERS(CLSM_RUN_FULL, clsm_put_if_absent(caller, key, &value, NULL));
    ANSWERS(CLSM_RUN_FULL, clsm_replace(caller, key, NULL, &value, NULL));
    ANSWERS(CLSM_RUN_FULL, clsm_batch(caller, rows, 2));
    ANSWERS(CLSM_KEPT, clsm_put_if_absent(caller, 1, &value, &changed));
    ANSWERS(CLSM_KEPT, clsm_replace(caller, key, &value, &value, NULL));
    CHECK(changed.before.length == 1 && count_of(caller) == keys);
}

/* Keys that have a value are written, as often as it may be, and removed. */
static void write_old_keys(clsm_caller *caller, uint64_t count, uint64_t times) {
    const clsm_row rows[] = {{1, {1, {1}}}, {2, {1, {1}}}};
    clsm_changed changed;
    for (uint64_t i = 0; i < times; i++) OK(clsm_put(caller, i % count, &i, 1));
    OK(clsm_batch(caller, rows, 2));
    OK(clsm_add(caller, 1, 1, &changed));
    OK(clsm_replace(caller, 1, &changed.after, &changed.before, NULL));
    for (uint64_t i = 0; i < times; i++) OK(clsm_remove(caller, UINT64_MAX));
    CHECK(count_of(caller) == count);
}

/* Fills a store to the brim, removes one key, and all, and fills it again. */
static void brim(size_t keys, size_t epoch, int merge) {
    clsm_store *store = opened((clsm_options){.keys = keys, .epoch = epoch, .merge = merge});
    clsm_caller *caller = caller_of(store);
    const uint64_t times = 20 * epoch;
    for (int round = 0; round < 3; round++) {
        const uint64_t count = fill(caller, 0);
        CHECK(count >= keys && count <= keys + 6 * epoch + CLSM_SEATS);
        write_old_keys(caller, count, times);
        refuse_new_keys(caller, count);
        for (uint64_t key = keys - 1; key + 1 < count; key++) OK(clsm_remove(caller, key));
        OK(clsm_remove(caller, count - 1));
        CHECK(count_of(caller) == keys - 1);
        OK(clsm_put(caller, keys - 1, &WORD, 1));
        for (uint64_t key = 0; key < keys; key++) OK(clsm_remove(caller, key));
        CHECK(count_of(caller) == 0);
    }
    closed(store, caller);
}

/* A store with as many keys as it was opened for takes every write of them, for ever. */
static void stay_full(size_t keys, size_t epoch) {
    clsm_store *store = opened((clsm_options){.keys = keys, .epoch = epoch});
    clsm_caller *caller = caller_of(store);
    for (uint64_t i = 0; i < 30 * (epoch + keys); i++) OK(clsm_put(caller, i % keys, &i, 1));
    for (uint64_t i = 0; i < 30 * epoch; i++) {
        OK(clsm_remove(caller, i % keys));
        OK(clsm_put(caller, i % keys, &i, 1));
    }
    CHECK(count_of(caller) == keys);
    closed(store, caller);
}

/* Snapshots do not make keys more: old versions are no keys. */
static void count_keys_not_versions(void) {
    enum { KEYS = 50, EPOCH = 8 };
    clsm_store *store = opened((clsm_options){.keys = KEYS, .epoch = EPOCH, .versions = 2000});
    clsm_caller *caller = caller_of(store);
    clsm_snapshot *snapshot;
    for (uint64_t key = 0; key < KEYS / 2; key++) OK(clsm_put(caller, key, &key, 1));
    OK(clsm_store_snapshot(store, &snapshot));
    for (uint64_t i = 0; i < 20 * KEYS; i++) OK(clsm_put(caller, i % (KEYS / 2), &i, 1));
    for (uint64_t key = KEYS / 2; key < KEYS; key++) OK(clsm_put(caller, key, &key, 1));
    CHECK(count_of(caller) == KEYS);
    clsm_snapshot_close(snapshot);
    closed(store, caller);
}

/* ---- Too many versions */

/* Overwrites a key until that is refused with this code. */
static void overwrite(clsm_caller *caller, int wanted) {
    int code = CLSM_OK;
    for (uint64_t i = 0; code == CLSM_OK; i++) {
        CHECK(i < 100000);
        code = clsm_put(caller, 1, &i, 1);
    }
    ANSWERS(wanted, code);
}

/* A write is refused at once if it may not wait, after a while if it may, and at once if its caller
 * itself has the snapshot, or a scan. */
static void refuse_versions(int64_t wait, int merge) {
    clsm_store *store = opened((clsm_options){.keys = 4, .epoch = 4, .wait = wait, .merge = merge});
    clsm_caller *caller = caller_of(store), *other = caller_of(store);
    clsm_snapshot *snapshot;
    clsm_scan *scan;
    OK(clsm_put(caller, 1, &WORD, 1));
    OK(clsm_snapshot_open(other, &snapshot));
    overwrite(caller, CLSM_VERSIONS_FULL);
    ANSWERS(CLSM_VERSIONS_FULL, clsm_remove(caller, 1));
    ANSWERS(CLSM_VERSIONS_FULL, clsm_add(caller, 1, 1, NULL));
    ANSWERS(CLSM_VERSIONS_FULL, clsm_batch(caller, &(clsm_row){.key = 1}, 1));
    ANSWERS(CLSM_OWN_SNAPSHOT, clsm_put(other, 1, &WORD, 1));
    ANSWERS(CLSM_VERSIONS_FULL, clsm_try_put(caller, 1, &WORD, 1));
    clsm_snapshot_close(snapshot);
    for (uint64_t i = 0; i < 100; i++) OK(clsm_put(caller, 1, &i, 1));
    OK(clsm_scan_open(caller, 0, UINT64_MAX, &scan));
    overwrite(caller, CLSM_OWN_SNAPSHOT);
    clsm_scan_close(scan);
    OK(clsm_put(caller, 1, &WORD, 1));
    OK(clsm_store_snapshot(store, &snapshot));
    overwrite(caller, CLSM_VERSIONS_FULL);
    clsm_snapshot_close(snapshot);
    OK(clsm_put(caller, 1, &WORD, 1));
    clsm_caller_close(other);
    closed(store, caller);
}

static void *overwrite_on(void *of) {
    for (uint64_t i = 0; i < 1000; i++) OK(clsm_put(of, 1, &i, 1));
    return NULL;
}

/* A write that waits goes on once the snapshot is closed that was in the way, and not once another
 * one is. */
static void wait_for_close(int merge, int64_t wait) {
    enum { WRITERS = 3 };
    clsm_store *store =
        opened((clsm_options){.keys = 4, .epoch = 4, .wait = wait, .merge = merge});
    clsm_caller *callers[WRITERS];
    clsm_snapshot *older, *younger;
    pthread_t threads[WRITERS];
    for (int i = 0; i < WRITERS; i++) callers[i] = caller_of(store);
    OK(clsm_put(callers[0], 1, &WORD, 1));
    OK(clsm_store_snapshot(store, &older));
    OK(clsm_put(callers[0], 1, &WORD, 1));
    OK(clsm_store_snapshot(store, &younger));
    for (int i = 0; i < WRITERS; i++)
        CHECK(pthread_create(&threads[i], NULL, overwrite_on, callers[i]) == 0);
    const unsigned asleep = merge == CLSM_MERGE_IN_CALLS ? WRITERS : WRITERS + 1;
    between_await_sleepers(asleep);
    clsm_snapshot_close(younger);
    between_await_sleepers(asleep);
    OK(clsm_snapshot_get(older, 1, NULL));
    clsm_snapshot_close(older);
    for (int i = 0; i < WRITERS; i++) {
        CHECK(pthread_join(threads[i], NULL) == 0);
        clsm_caller_close(callers[i]);
    }
    OK(clsm_close(store));
}

/* ---- What a store tells of itself */

static void tell(void) {
    enum { KEYS = 100, EPOCH = 16 };
    clsm_store *store = opened((clsm_options){
        .keys = KEYS, .epoch = EPOCH, .versions = 1000, .wait = -1, .merge = CLSM_MERGE_IN_CALLS});
    clsm_caller *caller = caller_of(store), *other = caller_of(store);
    clsm_snapshot *snapshot;
    clsm_scan *scan;
    clsm_statistics now;
    OK(clsm_stats(store, &now));
    CHECK(now.callers == 2 && now.snapshots == 0 && now.scans == 0 && now.oldest_age == 0);
    CHECK(now.clock == 0 && now.epoch_writes == 0 && now.merges == 0 && now.level_one == 0);
    CHECK(now.room_for_keys == KEYS && now.room_for_versions == KEYS + 1000);
    /* As clsm_options says. */
    const uint64_t told = 176 * (KEYS + 1000) + 544 * EPOCH + 65536;
    CHECK(now.bytes <= told && now.bytes + 16384 > told);
    for (uint64_t i = 0; i < KEYS; i++) OK(clsm_put(caller, i, &i, 1));
    OK(clsm_snapshot_open(caller, &snapshot));
    OK(clsm_scan_open(other, 0, 1, &scan));
    OK(clsm_stats(store, &now));
    CHECK(now.callers == 2 && now.snapshots == 1 && now.scans == 1 && now.oldest_age > 0);
    CHECK(now.oldest_time == clsm_snapshot_time(snapshot) && now.clock == clsm_seen(caller));
    CHECK(now.epoch_writes == now.clock % EPOCH && now.merges > 3 && now.waits > 3);
    CHECK(now.level_zero + now.level_one <= KEYS && now.longest_merge >= now.last_merge);
    overwrite(caller, CLSM_OWN_SNAPSHOT);
    clsm_scan_close(scan);
    overwrite(other, CLSM_VERSIONS_FULL);
    OK(clsm_stats(store, &now));
    CHECK(now.versions_full == 2 && now.run_full == 0 && now.no_seat == 0);
    CHECK(now.level_one > KEYS && now.room_for_keys == 0);
    clsm_snapshot_close(snapshot);
    fill(caller, KEYS);
    OK(clsm_stats(store, &now));
    CHECK(now.run_full == 1 && now.snapshots == 0 && now.oldest_age == 0);
    ANSWERS(CLSM_BAD_POINTER, clsm_stats(NULL, &now));
    ANSWERS(CLSM_BAD_POINTER, clsm_stats(store, NULL));
    clsm_caller_close(other);
    closed(store, caller);
}

/* A full epoch has all its writes, until it is frozen. */
static void tell_of_full_epoch(void) {
    enum { EPOCH = 4 };
    clsm_store *store =
        opened((clsm_options){.keys = 100, .epoch = EPOCH, .merge = CLSM_MERGE_IN_CALLS});
    clsm_caller *caller = caller_of(store);
    clsm_statistics now;
    for (uint64_t writes = 1; writes <= 3 * EPOCH; writes++) {
        OK(clsm_put(caller, writes, &WORD, 1));
        OK(clsm_stats(store, &now));
        CHECK(now.epoch_writes == (writes - 1) % EPOCH + 1 && now.clock == writes);
        CHECK(now.merges == (writes - 1) / EPOCH);
    }
    OK(clsm_sweep(store));
    OK(clsm_stats(store, &now));
    CHECK(now.epoch_writes == 0);
    closed(store, caller);
}

/* Of snapshots of one time the oldest is the one that was opened first, whichever seats they have.
 */
static void tell_of_one_time(void) {
    enum { NANOSECONDS = 1000000 };
    clsm_store *store = opened((clsm_options){.keys = 100, .epoch = 4});
    clsm_caller *caller = caller_of(store);
    clsm_snapshot *first, *second, *third;
    clsm_statistics now;
    OK(clsm_snapshot_open(caller, &first));
    OK(clsm_snapshot_open(caller, &second));
    clsm_snapshot_close(first);
    nanosleep(&(struct timespec){.tv_nsec = NANOSECONDS}, NULL);
    OK(clsm_snapshot_open(caller, &third));
    CHECK(clsm_snapshot_number(third) < clsm_snapshot_number(second));
    OK(clsm_stats(store, &now));
    CHECK(now.oldest_time == clsm_snapshot_time(third) && now.oldest_age >= NANOSECONDS);
    clsm_snapshot_close(second);
    clsm_snapshot_close(third);
    closed(store, caller);
}

int main(void) {
    brim(1, 4, 0);
    brim(10, 4, CLSM_MERGE_IN_CALLS);
    brim(100, 16, 0);
    brim(1000, 64, CLSM_MERGE_IN_CALLS);
    brim(3000, 1024, 0);
    stay_full(1, 4);
    stay_full(100, 16);
    stay_full(5000, 64);
    count_keys_not_versions();
    refuse_versions(-1, 0);
    refuse_versions(-1, CLSM_MERGE_IN_CALLS);
    refuse_versions(1, 0);
    refuse_versions(1, CLSM_MERGE_IN_CALLS);
    /* Times without end: in nanoseconds they pass 2^64, the second one by little. */
    wait_for_close(0, INT64_MAX);
    wait_for_close(CLSM_MERGE_IN_CALLS, INT64_C(18446744073710));
    tell();
    tell_of_full_epoch();
    tell_of_one_time();
    return passed("full");
}
