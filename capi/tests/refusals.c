/* Each code of clsm.h that needs no luck, what it leaves, and that the call works again afterwards.
 * What another thread must cause in the right moment is in mocked.c; MEMORY in memory.c. */
#include "between.h"
#include "check.h"

#include <string.h>

static const clsm_options IN_CALLS = {.merge = CLSM_MERGE_IN_CALLS};
static const uint64_t WORDS[9] = {1, 2, 3, 4, 5, 6, 7, 8, 9};

static clsm_store *opened(const clsm_options *options) {
    clsm_store *store;
    OK(clsm_open(options, &store));
    return store;
}

static clsm_caller *caller_of(clsm_store *store) {
    clsm_caller *caller;
    OK(clsm_caller_open(store, &caller));
    return caller;
}

/* ---- Names */

static void name_codes(void) {
    static const int codes[] = {CLSM_OK,        CLSM_NOT_FOUND,     CLSM_KEPT,
                                CLSM_DONE,      CLSM_IDLE,          CLSM_FULL,
                                CLSM_BUSY,      CLSM_RACED,         CLSM_OVERTAKEN,
                                CLSM_PINNED,    CLSM_MEMORY,        CLSM_NO_SEAT,
                                CLSM_RUN_FULL,  CLSM_WORN,          CLSM_IN_USE,
                                CLSM_NO_THREAD, CLSM_CLOSED,        CLSM_BAD_KEYS,
                                CLSM_BAD_EPOCH, CLSM_BAD_PATIENCE,  CLSM_BAD_VALUE,
                                CLSM_BAD_BATCH, CLSM_BAD_POINTER,   CLSM_BAD_BUILD,
                                CLSM_BAD_MERGE, CLSM_EMPTY_BATCH,   CLSM_BAD_VERSIONS,
                                CLSM_BAD_WAIT,  CLSM_VERSIONS_FULL, CLSM_OWN_SNAPSHOT,
                                CLSM_CONFLICT};
    const size_t count = sizeof codes / sizeof *codes;
    for (size_t i = 0; i < count; i++) {
        CHECK(strcmp(clsm_strerror(codes[i]), "unknown code") != 0);
        /* One word would not say what is wrong. */
        CHECK(codes[i] < CLSM_FULL || strchr(clsm_strerror(codes[i]), ' '));
        for (size_t j = 0; j < i; j++)
            CHECK(strcmp(clsm_strerror(codes[i]), clsm_strerror(codes[j])) != 0);
    }
    CHECK(strcmp(clsm_strerror(-1), "unknown code") == 0
          && strcmp(clsm_strerror(1000), "unknown code") == 0);
    CHECK(strcmp(clsm_version(), CLSM_VERSION) == 0 && CLSM_VERSION_NUMBER == 200);
}

/* ---- Options */

static void refuse_option(int code, clsm_options options) {
    clsm_store *store = (clsm_store *)&options;
    ANSWERS(code, clsm_open(&options, &store));
    CHECK(!store);
}

static void refuse_options(void) {
    refuse_option(CLSM_BAD_KEYS, (clsm_options){.keys = 4194304 - 6 * 4 - 64 + 1});
    refuse_option(CLSM_BAD_KEYS,
                  (clsm_options){.keys = 4194304 - 6 * 4096 - 64 + 1, .epoch = 4096});
    refuse_option(CLSM_BAD_KEYS, (clsm_options){.keys = SIZE_MAX});
    refuse_option(CLSM_BAD_VERSIONS, (clsm_options){.epoch = 4096, .versions = 6 * 4096 + 63});
    refuse_option(CLSM_BAD_VERSIONS,
                  (clsm_options){.keys = 100000, .versions = 4194304 - 100000 + 1});
    refuse_option(CLSM_BAD_VERSIONS, (clsm_options){.versions = SIZE_MAX});
    refuse_option(CLSM_BAD_WAIT, (clsm_options){.wait = -2});
    refuse_option(CLSM_BAD_EPOCH, (clsm_options){.epoch = 3});
    refuse_option(CLSM_BAD_EPOCH, (clsm_options){.epoch = 65537});
    refuse_option(CLSM_BAD_EPOCH, (clsm_options){.epoch = SIZE_MAX});
    refuse_option(CLSM_BAD_PATIENCE, (clsm_options){.patience = -2});
    refuse_option(CLSM_BAD_PATIENCE, (clsm_options){.patience = 65});
    refuse_option(CLSM_BAD_MERGE, (clsm_options){.merge = 2});
    refuse_option(CLSM_BAD_MERGE, (clsm_options){.merge = -1});
    for (int i = 0; i < 2; i++) {
        clsm_options later = {.keys = 1};
        later.zero[i] = 1;
        refuse_option(CLSM_BAD_BUILD, later);
    }
}

static void take_options(void) {
    const clsm_options good[] = {{.keys = 0},
                                 {.keys = 1, .epoch = 4, .patience = 1},
                                 {.keys = 10, .epoch = 65536, .patience = 64},
                                 {.epoch = 5, .patience = -1, .merge = CLSM_MERGE_IN_CALLS},
                                 {.epoch = 4, .versions = 88, .wait = -1},
                                 {.keys = 10, .versions = 50000, .wait = INT64_MAX}};
    for (size_t i = 0; i < sizeof good / sizeof *good; i++) {
        clsm_store *store = opened(&good[i]);
        clsm_caller *caller = caller_of(store);
        OK(clsm_put(caller, 1, WORDS, 1));
        clsm_caller_close(caller);
        OK(clsm_close(store));
    }
    OK(clsm_close(opened(NULL)));
    /* A close wakes a merger that sleeps. */
    clsm_store *store = opened(NULL);
    between_await_sleepers(1);
    OK(clsm_close(store));
}

static void refuse_thread(void) {
    clsm_store *store;
    between_refuse_threads(1);
    ANSWERS(CLSM_NO_THREAD, clsm_open(NULL, &store));
    CHECK(!store);
    between_refuse_threads(1);
    OK(clsm_close(opened(&IN_CALLS)));
    between_refuse_threads(0);
    OK(clsm_close(opened(NULL)));
}

/* ---- Pointers and values */

static void refuse_null_handles(void) {
    clsm_value value;
    clsm_row row;
    clsm_page_end end;
    clsm_caller *caller = (clsm_caller *)&value;
    clsm_snapshot *snapshot = (clsm_snapshot *)&value;
    clsm_scan *scan = (clsm_scan *)&value;
    uint64_t keys;
    ANSWERS(CLSM_BAD_POINTER, clsm_open(NULL, NULL));
    ANSWERS(CLSM_BAD_POINTER, clsm_close(NULL));
    ANSWERS(CLSM_BAD_POINTER, clsm_sweep(NULL));
    ANSWERS(CLSM_BAD_POINTER, clsm_caller_open(NULL, &caller));
    ANSWERS(CLSM_BAD_POINTER, clsm_follow(NULL, 0));
    ANSWERS(CLSM_BAD_POINTER, clsm_put(NULL, 1, WORDS, 1));
    ANSWERS(CLSM_BAD_POINTER, clsm_remove(NULL, 1));
    ANSWERS(CLSM_BAD_POINTER, clsm_try_put(NULL, 1, WORDS, 1));
    ANSWERS(CLSM_BAD_POINTER, clsm_try_remove(NULL, 1));
    ANSWERS(CLSM_BAD_POINTER, clsm_batch(NULL, &row, 1));
    ANSWERS(CLSM_BAD_POINTER, clsm_get(NULL, 1, &value));
    ANSWERS(CLSM_BAD_POINTER, clsm_count(NULL, 0, 1, &keys));
    ANSWERS(CLSM_BAD_POINTER, clsm_page(NULL, 0, 1, &row, 1, &end));
    ANSWERS(CLSM_BAD_POINTER, clsm_snapshot_open(NULL, &snapshot));
    ANSWERS(CLSM_BAD_POINTER, clsm_snapshot_get(NULL, 1, &value));
    ANSWERS(CLSM_BAD_POINTER, clsm_snapshot_count(NULL, 0, 1, &keys));
    ANSWERS(CLSM_BAD_POINTER, clsm_snapshot_page(NULL, 0, 1, &row, 1, &end));
    ANSWERS(CLSM_BAD_POINTER, clsm_scan_open(NULL, 0, 1, &scan));
    ANSWERS(CLSM_BAD_POINTER, clsm_scan_next(NULL, &row));
    CHECK(!caller && !snapshot && !scan);
    ANSWERS(CLSM_BAD_POINTER, clsm_store_snapshot(NULL, &snapshot));
    ANSWERS(CLSM_BAD_POINTER, clsm_close_at(NULL));
    ANSWERS(CLSM_BAD_POINTER, clsm_close_at(&(clsm_store *){NULL}));
    CHECK(clsm_time(NULL) == 0 && clsm_seen(NULL) == 0 && clsm_snapshot_time(NULL) == 0);
    CHECK(clsm_number(NULL) == CLSM_SEATS && clsm_snapshot_number(NULL) == CLSM_SEATS);
    clsm_caller_close(NULL);
    clsm_snapshot_close(NULL);
    clsm_scan_close(NULL);
    clsm_caller_close_at(NULL);
    clsm_snapshot_close_at(NULL);
    clsm_scan_close_at(NULL);
    clsm_caller_close_at(&caller);
    clsm_snapshot_close_at(&snapshot);
    clsm_scan_close_at(&scan);
}

static void refuse_null_answers(clsm_store *store, clsm_caller *caller) {
    clsm_row row;
    clsm_page_end end;
    clsm_snapshot *snapshot;
    clsm_scan *scan;
    ANSWERS(CLSM_BAD_POINTER, clsm_caller_open(store, NULL));
    ANSWERS(CLSM_BAD_POINTER, clsm_snapshot_open(caller, NULL));
    ANSWERS(CLSM_BAD_POINTER, clsm_store_snapshot(store, NULL));
    ANSWERS(CLSM_BAD_POINTER, clsm_scan_open(caller, 0, 1, NULL));
    ANSWERS(CLSM_BAD_POINTER, clsm_put(caller, 1, NULL, 1));
    ANSWERS(CLSM_BAD_POINTER, clsm_try_put(caller, 1, NULL, 1));
    ANSWERS(CLSM_BAD_POINTER, clsm_count(caller, 0, 1, NULL));
    ANSWERS(CLSM_BAD_POINTER, clsm_page(caller, 0, 1, NULL, 1, &end));
    ANSWERS(CLSM_BAD_POINTER, clsm_page(caller, 0, 1, &row, 1, NULL));
    OK(clsm_snapshot_open(caller, &snapshot));
    ANSWERS(CLSM_BAD_POINTER, clsm_snapshot_count(snapshot, 0, 1, NULL));
    ANSWERS(CLSM_BAD_POINTER, clsm_snapshot_page(snapshot, 0, 1, NULL, 1, &end));
    ANSWERS(CLSM_BAD_POINTER, clsm_snapshot_page(snapshot, 0, 1, &row, 1, NULL));
    clsm_snapshot_close(snapshot);
    OK(clsm_scan_open(caller, 0, UINT64_MAX, &scan));
    ANSWERS(CLSM_BAD_POINTER, clsm_scan_next(scan, NULL));
    OK(clsm_scan_next(scan, &row));
    clsm_scan_close(scan);
}

static void refuse_values(clsm_caller *caller) {
    clsm_value value;
    const uint64_t time = clsm_time(caller), seen = clsm_seen(caller);
    ANSWERS(CLSM_BAD_VALUE, clsm_put(caller, 1, WORDS, 0));
    ANSWERS(CLSM_BAD_VALUE, clsm_put(caller, 1, WORDS, 9));
    ANSWERS(CLSM_BAD_VALUE, clsm_put(caller, 1, WORDS, SIZE_MAX));
    ANSWERS(CLSM_BAD_VALUE, clsm_try_put(caller, 1, WORDS, 0));
    ANSWERS(CLSM_BAD_VALUE, clsm_try_put(caller, 1, WORDS, 9));
    ANSWERS(CLSM_BAD_VALUE, clsm_follow(caller, seen + 1000000));
    ANSWERS(CLSM_BAD_VALUE, clsm_follow(caller, UINT64_MAX));
    CHECK(clsm_time(caller) == time && clsm_seen(caller) == seen);
    OK(clsm_follow(caller, seen));
    for (size_t count = 1; count <= 8; count++) {
        OK(clsm_put(caller, 1, WORDS, count));
        OK(clsm_get(caller, 1, &value));
        CHECK(value.length == count && memcmp(value.words, WORDS, count * sizeof *WORDS) == 0);
        for (size_t i = count; i < 8; i++) CHECK(value.words[i] == 0);
    }
}

/* ---- What is not there */

static void find_nothing(clsm_caller *caller) {
    clsm_value value;
    clsm_page_end end;
    clsm_snapshot *snapshot;
    clsm_scan *scan;
    clsm_row row;
    uint64_t keys = 7;
    memset(&value, 1, sizeof value);
    ANSWERS(CLSM_NOT_FOUND, clsm_get(caller, 77, &value));
    CHECK(value.length == 0 && value.words[0] == 0 && value.words[7] == 0);
    ANSWERS(CLSM_NOT_FOUND, clsm_get(caller, 77, NULL));
    OK(clsm_remove(caller, 77));
    OK(clsm_count(caller, 5, 4, &keys));
    CHECK(keys == 0);
    OK(clsm_page(caller, 2, UINT64_MAX, &row, 1, &end));
    CHECK(end.rows == 0 && !end.more);
    OK(clsm_page(caller, 0, UINT64_MAX, NULL, 0, &end));
    CHECK(end.rows == 0 && end.more && end.next == 1);
    OK(clsm_snapshot_open(caller, &snapshot));
    ANSWERS(CLSM_NOT_FOUND, clsm_snapshot_get(snapshot, 77, &value));
    OK(clsm_snapshot_count(snapshot, 0, UINT64_MAX, &keys));
    CHECK(keys == 1);
    clsm_snapshot_close(snapshot);
    OK(clsm_scan_open(caller, 2, UINT64_MAX, &scan));
    ANSWERS(CLSM_DONE, clsm_scan_next(scan, &row));
    ANSWERS(CLSM_DONE, clsm_scan_next(scan, &row));
    clsm_scan_close(scan);
    OK(clsm_scan_open(caller, 5, 4, &scan));
    ANSWERS(CLSM_DONE, clsm_scan_next(scan, &row));
    clsm_scan_close(scan);
}

static void sweep_nothing(void) {
    clsm_store *store = opened(&IN_CALLS);
    clsm_caller *caller = caller_of(store);
    ANSWERS(CLSM_IDLE, clsm_sweep(store));
    OK(clsm_put(caller, 1, WORDS, 1));
    OK(clsm_sweep(store));
    ANSWERS(CLSM_IDLE, clsm_sweep(store));
    OK(clsm_get(caller, 1, NULL));
    clsm_caller_close(caller);
    OK(clsm_close(store));
}

/* ---- Seats */

static void use_all_seats(clsm_store *store) {
    clsm_caller *callers[CLSM_SEATS], *none;
    clsm_snapshot *snapshot;
    clsm_scan *scan;
    uint64_t numbers = 0;
    for (unsigned i = 0; i < CLSM_SEATS; i++) {
        callers[i] = caller_of(store);
        CHECK(!(numbers >> clsm_number(callers[i]) & 1));
        numbers |= (uint64_t)1 << clsm_number(callers[i]);
        CHECK(clsm_time(callers[i]) == 0);
    }
    CHECK(numbers == UINT64_MAX);
    ANSWERS(CLSM_NO_SEAT, clsm_caller_open(store, &none));
    ANSWERS(CLSM_NO_SEAT, clsm_snapshot_open(callers[0], &snapshot));
    ANSWERS(CLSM_NO_SEAT, clsm_scan_open(callers[0], 0, 1, &scan));
    CHECK(!none && !snapshot && !scan);
    clsm_caller_close(callers[63]);
    OK(clsm_snapshot_open(callers[0], &snapshot));
    ANSWERS(CLSM_NO_SEAT, clsm_snapshot_open(callers[1], &(clsm_snapshot *){NULL}));
    clsm_snapshot_close(snapshot);
    OK(clsm_scan_open(callers[1], 0, 1, &scan));
    clsm_scan_close(scan);
    for (unsigned i = 0; i < 63; i++) clsm_caller_close(callers[i]);
}

/* Seats that callers keep to spare are there for others. */
static void use_spare_seats(clsm_store *store) {
    enum { HALF = CLSM_SEATS / 2 };
    clsm_caller *callers[CLSM_SEATS];
    clsm_snapshot *snapshots[HALF];
    for (unsigned i = 0; i < HALF; i++) {
        callers[i] = caller_of(store);
        OK(clsm_snapshot_open(callers[i], &snapshots[i]));
    }
    for (unsigned i = 0; i < HALF; i++) clsm_snapshot_close(snapshots[i]);
    for (unsigned i = HALF; i < CLSM_SEATS; i++) callers[i] = caller_of(store);
    ANSWERS(CLSM_NO_SEAT, clsm_snapshot_open(callers[0], &snapshots[0]));
    for (unsigned i = 0; i < CLSM_SEATS; i++) clsm_caller_close(callers[i]);
}

static void stay_open_while_used(void) {
    clsm_store *store = opened(NULL);
    clsm_caller *caller = caller_of(store);
    clsm_snapshot *snapshot;
    clsm_scan *scan;
    ANSWERS(CLSM_IN_USE, clsm_close(store));
    OK(clsm_put(caller, 1, WORDS, 1));
    OK(clsm_snapshot_open(caller, &snapshot));
    OK(clsm_scan_open(caller, 0, UINT64_MAX, &scan));
    clsm_caller_close(caller);
    ANSWERS(CLSM_IN_USE, clsm_close(store));
    OK(clsm_snapshot_get(snapshot, 1, NULL));
    clsm_snapshot_close(snapshot);
    ANSWERS(CLSM_IN_USE, clsm_close(store));
    OK(clsm_scan_next(scan, &(clsm_row){0}));
    clsm_scan_close(scan);
    OK(clsm_close(store));
}

/* A second close of a handle does nothing, while nobody else has its seat. */
static void close_twice(void) {
    clsm_store *store = opened(&IN_CALLS);
    clsm_caller *caller = caller_of(store), *callers[CLSM_SEATS];
    clsm_snapshot *snapshot;
    clsm_scan *scan;
    OK(clsm_snapshot_open(caller, &snapshot));
    OK(clsm_scan_open(caller, 0, 1, &scan));
    clsm_snapshot_close(snapshot);
    clsm_snapshot_close(snapshot);
    clsm_scan_close(scan);
    clsm_scan_close(scan);
    clsm_caller_close(caller);
    clsm_caller_close(caller);
    clsm_snapshot_close((clsm_snapshot *)caller);
    uint64_t numbers = 0;
    for (unsigned i = 0; i < CLSM_SEATS; i++) {
        callers[i] = caller_of(store);
        numbers |= (uint64_t)1 << clsm_number(callers[i]);
    }
    CHECK(numbers == UINT64_MAX);
    for (unsigned i = 0; i < CLSM_SEATS; i++) clsm_caller_close(callers[i]);
    OK(clsm_close(store));
}

/* Each sets its pointer to null, if it closed what that was to. */
static void close_and_forget(void) {
    clsm_store *store = opened(NULL);
    clsm_caller *caller = caller_of(store);
    clsm_snapshot *snapshot;
    clsm_scan *scan;
    OK(clsm_snapshot_open(caller, &snapshot));
    OK(clsm_scan_open(caller, 0, 1, &scan));
    clsm_scan_close_at(&scan);
    clsm_snapshot_close_at(&snapshot);
    CHECK(!scan && !snapshot);
    ANSWERS(CLSM_IN_USE, clsm_close_at(&store));
    CHECK(store);
    clsm_caller_close_at(&caller);
    CHECK(!caller);
    OK(clsm_close_at(&store));
    CHECK(!store);
}

/* A snapshot of no caller sees what closed callers did, and what it saw the next caller sees. */
static void open_snapshots_of_the_store(void) {
    clsm_store *store = opened(NULL);
    clsm_caller *caller = caller_of(store), *next;
    clsm_snapshot *snapshots[CLSM_SEATS];
    OK(clsm_put(caller, 1, WORDS, 1));
    const uint64_t seen = clsm_seen(caller);
    clsm_caller_close(caller);
    for (unsigned i = 0; i < CLSM_SEATS; i++) {
        OK(clsm_store_snapshot(store, &snapshots[i]));
        CHECK(clsm_snapshot_time(snapshots[i]) >= seen);
        OK(clsm_snapshot_get(snapshots[i], 1, NULL));
    }
    ANSWERS(CLSM_NO_SEAT, clsm_store_snapshot(store, &(clsm_snapshot *){NULL}));
    ANSWERS(CLSM_NO_SEAT, clsm_caller_open(store, &next));
    ANSWERS(CLSM_IN_USE, clsm_close(store));
    for (unsigned i = 0; i < CLSM_SEATS; i++) clsm_snapshot_close(snapshots[i]);
    OK(clsm_caller_open(store, &next));
    CHECK(clsm_seen(next) >= seen);
    clsm_caller_close(next);
    OK(clsm_close(store));
}

/* ---- Room */

static void fill_epoch(void) {
    const clsm_options options = {.epoch = 8, .merge = CLSM_MERGE_IN_CALLS};
    clsm_store *store = opened(&options);
    clsm_caller *caller = caller_of(store);
    uint64_t keys;
    for (uint64_t key = 0; key < 8; key++) OK(clsm_try_put(caller, key, WORDS, 1));
    const uint64_t time = clsm_time(caller);
    ANSWERS(CLSM_FULL, clsm_try_put(caller, 8, WORDS, 1));
    ANSWERS(CLSM_FULL, clsm_try_remove(caller, 7));
    CHECK(clsm_time(caller) == time);
    OK(clsm_sweep(store));
    OK(clsm_try_remove(caller, 7));
    for (uint64_t key = 8; key < 100; key++) OK(clsm_put(caller, key, WORDS, 1));
    OK(clsm_count(caller, 0, UINT64_MAX, &keys));
    CHECK(keys == 99);
    clsm_caller_close(caller);
    OK(clsm_close(store));
}

/* Overwrites one key under a snapshot until the store is full of versions, and again without. */
static void fill_run(int merge) {
    const clsm_options options = {.keys = 1, .epoch = 4, .merge = merge};
    clsm_store *store = opened(&options);
    clsm_caller *caller = caller_of(store);
    clsm_snapshot *snapshot;
    clsm_value value;
    uint64_t written = 0;
    int code = CLSM_OK;
    OK(clsm_put(caller, 1, WORDS, 1));
    OK(clsm_snapshot_open(caller, &snapshot));
    while ((code = clsm_put(caller, 1, &written, 1)) == CLSM_OK) CHECK(++written < 1000);
    CHECK(code == CLSM_OWN_SNAPSHOT);
    ANSWERS(CLSM_OWN_SNAPSHOT, clsm_remove(caller, 1));
    ANSWERS(CLSM_VERSIONS_FULL, clsm_sweep(store));
    ANSWERS(CLSM_VERSIONS_FULL, clsm_try_remove(caller, 1));
    OK(clsm_get(caller, 1, &value));
    CHECK(value.words[0] == written - 1);
    OK(clsm_snapshot_get(snapshot, 1, &value));
    CHECK(value.words[0] == 1);
    clsm_snapshot_close(snapshot);
    for (uint64_t i = 0; i < 100; i++) OK(clsm_put(caller, 1, &i, 1));
    OK(clsm_get(caller, 1, &value));
    CHECK(value.words[0] == 99);
    clsm_caller_close(caller);
    OK(clsm_close(store));
}

int main(void) {
    name_codes();
    refuse_options();
    take_options();
    refuse_thread();
    refuse_null_handles();
    clsm_store *store = opened(NULL);
    clsm_caller *caller = caller_of(store);
    OK(clsm_put(caller, 1, WORDS, 1));
    refuse_null_answers(store, caller);
    refuse_values(caller);
    find_nothing(caller);
    clsm_caller_close(caller);
    use_all_seats(store);
    use_spare_seats(store);
    OK(clsm_close(store));
    sweep_nothing();
    stay_open_while_used();
    if (!NAMES_CLOSED) close_twice();
    close_and_forget();
    open_snapshots_of_the_store();
    fill_epoch();
    fill_run(0);
    fill_run(CLSM_MERGE_IN_CALLS);
    return passed("refusals");
}
