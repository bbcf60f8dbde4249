/* Batches: what one leaves, what refuses one, and that each read beside threads has all of its rows
 * or none. */
#include "check.h"

#include <pthread.h>
#include <stdatomic.h>
#include <string.h>

enum { WRITERS = 2, READERS = 2, ROWS = 8, EPOCH = 64 };
static uint64_t rounds;

static clsm_row row(uint64_t key, uint64_t word) { return (clsm_row){key, {1, {word}}}; }

static clsm_row removal(uint64_t key) { return (clsm_row){.key = key}; }

static uint64_t word_at(clsm_caller *caller, uint64_t key) {
    clsm_value value;
    OK(clsm_get(caller, key, &value));
    CHECK(value.length == 1);
    return value.words[0];
}

/* ---- Alone */

static void write_rows(clsm_caller *caller) {
    const clsm_row rows[] = {row(1, 10), {2, {3, {20, 21, 22}}}, row(3, 30), removal(4)};
    const uint64_t seen = clsm_seen(caller);
    clsm_value value;
    OK(clsm_put(caller, 4, &seen, 1));
    OK(clsm_batch(caller, rows, 4));
    CHECK(clsm_time(caller) > seen && clsm_seen(caller) == clsm_time(caller) + 4);
    CHECK(word_at(caller, 1) == 10 && word_at(caller, 3) == 30);
    OK(clsm_get(caller, 2, &value));
    CHECK(value.length == 3 && value.words[2] == 22 && value.words[3] == 0);
    ANSWERS(CLSM_NOT_FOUND, clsm_get(caller, 4, NULL));
}

/* What stands behind a value's length is not looked at, and the last row of a key wins. */
static void write_one_key(clsm_caller *caller) {
    const clsm_row rows[] = {row(5, 50), removal(5), {5, {1, {51, 99}}}, row(6, 60), removal(6)};
    clsm_value value;
    OK(clsm_batch(caller, rows, 5));
    OK(clsm_get(caller, 5, &value));
    CHECK(value.length == 1 && value.words[0] == 51 && value.words[1] == 0);
    ANSWERS(CLSM_NOT_FOUND, clsm_get(caller, 6, NULL));
}

static void refuse(clsm_caller *caller) {
    static clsm_row rows[EPOCH + 1];
    const uint64_t time = clsm_time(caller), seen = clsm_seen(caller);
    for (uint64_t i = 0; i <= EPOCH; i++) rows[i] = row(100 + i, i);
    ANSWERS(CLSM_BAD_POINTER, clsm_batch(NULL, rows, 1));
    ANSWERS(CLSM_BAD_POINTER, clsm_batch(caller, NULL, 1));
    ANSWERS(CLSM_EMPTY_BATCH, clsm_batch(caller, NULL, 0));
    ANSWERS(CLSM_EMPTY_BATCH, clsm_batch(caller, rows, 0));
    ANSWERS(CLSM_BAD_BATCH, clsm_batch(caller, rows, EPOCH + 1));
    ANSWERS(CLSM_BAD_BATCH, clsm_batch(caller, rows, SIZE_MAX));
    rows[2].value.length = 9;
    ANSWERS(CLSM_BAD_VALUE, clsm_batch(caller, rows, 3));
    rows[2].value.length = UINT64_MAX;
    ANSWERS(CLSM_BAD_VALUE, clsm_batch(caller, rows, 3));
    CHECK(clsm_time(caller) == time && clsm_seen(caller) == seen);
    for (uint64_t key = 100; key <= 100 + EPOCH; key++)
        ANSWERS(CLSM_NOT_FOUND, clsm_get(caller, key, NULL));
    rows[2].value.length = 1;
    OK(clsm_batch(caller, rows, 3));
}

/* Snapshots and scans have what was there when they were opened. */
static void read_beside(clsm_caller *caller) {
    const clsm_row first[] = {row(10, 1), row(11, 1)}, second[] = {removal(10), row(11, 2)};
    clsm_snapshot *before, *between;
    clsm_value value;
    uint64_t keys;
    OK(clsm_snapshot_open(caller, &before));
    OK(clsm_batch(caller, first, 2));
    OK(clsm_snapshot_open(caller, &between));
    OK(clsm_batch(caller, second, 2));
    OK(clsm_snapshot_count(before, 10, 11, &keys));
    CHECK(keys == 0);
    OK(clsm_snapshot_count(between, 10, 11, &keys));
    CHECK(keys == 2);
    OK(clsm_snapshot_get(between, 11, &value));
    CHECK(value.words[0] == 1);
    OK(clsm_count(caller, 10, 11, &keys));
    CHECK(keys == 1 && word_at(caller, 11) == 2);
    clsm_snapshot_close(before);
    clsm_snapshot_close(between);
}

/* ---- Room */

/* Batches of each length, most of which find the epoch with less room than they need. */
static void write_lengths(int merge) {
    const clsm_options options = {.epoch = EPOCH, .merge = merge};
    clsm_row rows[EPOCH];
    clsm_store *store;
    clsm_caller *caller;
    uint64_t keys;
    OK(clsm_open(&options, &store));
    OK(clsm_caller_open(store, &caller));
    for (uint64_t count = 1; count <= EPOCH; count++) {
        for (uint64_t i = 0; i < count; i++) rows[i] = row(i, count);
        OK(clsm_batch(caller, rows, count));
        OK(clsm_put(caller, 1000 + count, &count, 1));
        for (uint64_t i = 0; i < count; i++) CHECK(word_at(caller, i) == count);
    }
    OK(clsm_count(caller, 0, UINT64_MAX, &keys));
    CHECK(keys == 2 * EPOCH);
    clsm_caller_close(caller);
    OK(clsm_close(store));
}

/* Overwrites keys under a snapshot until the store is full of versions, and again without. */
static void fill_run(int merge) {
    const clsm_options options = {.keys = 2, .epoch = 4, .merge = merge};
    clsm_store *store;
    clsm_caller *caller;
    clsm_snapshot *snapshot;
    uint64_t written = 0;
    int code = CLSM_OK;
    OK(clsm_open(&options, &store));
    OK(clsm_caller_open(store, &caller));
    OK(clsm_snapshot_open(caller, &snapshot));
    for (; code == CLSM_OK; written++) {
        const clsm_row rows[] = {row(1, written), row(2, written)};
        CHECK(written < 1000);
        code = clsm_batch(caller, rows, 2);
    }
    CHECK(code == CLSM_OWN_SNAPSHOT);
    CHECK(word_at(caller, 1) == written - 2 && word_at(caller, 2) == written - 2);
    clsm_snapshot_close(snapshot);
    for (uint64_t i = 0; i < 100; i++) {
        const clsm_row rows[] = {row(1, i), removal(2), row(2, i)};
        OK(clsm_batch(caller, rows, 3));
    }
    CHECK(word_at(caller, 1) == 99 && word_at(caller, 2) == 99);
    clsm_caller_close(caller);
    OK(clsm_close(store));
}

/* ---- In threads: writers give all keys one word, or remove them all */

struct worker {
    pthread_t thread;
    clsm_store *store;
    uint64_t number;
};

static atomic_int writing;

/* Rows of all writers: several pass them at once. */
static const clsm_row NONE[ROWS] = {{.key = 0}, {.key = 1}, {.key = 2}, {.key = 3},
                                    {.key = 4}, {.key = 5}, {.key = 6}, {.key = 7}};

static void *write_alike(void *of) {
    const struct worker *self = of;
    clsm_row rows[ROWS];
    clsm_caller *caller;
    OK(clsm_caller_open(self->store, &caller));
    for (uint64_t round = 0; round < rounds; round++) {
        const uint64_t word = round * WRITERS + self->number;
        for (uint64_t i = 0; i < ROWS; i++) rows[i] = row(i, word);
        OK(clsm_batch(caller, word % 7 < 2 ? NONE : rows, ROWS));
        OK(clsm_put(caller, 100 + self->number, &word, 1));
        OK(clsm_add(caller, 200, 1, NULL));
    }
    clsm_caller_close(caller);
    atomic_fetch_sub(&writing, 1);
    return NULL;
}

/* All keys or none, and one word. */
static void check_alike(const clsm_row *rows, uint64_t count) {
    CHECK(count == 0 || count == ROWS);
    for (uint64_t i = 0; i < count; i++)
        CHECK(rows[i].key == i && rows[i].value.words[0] == rows[0].value.words[0]);
}

static void read_page(clsm_caller *caller) {
    clsm_row rows[ROWS + 1];
    clsm_page_end end;
    uint64_t keys;
    OK(clsm_page(caller, 0, ROWS - 1, rows, ROWS + 1, &end));
    check_alike(rows, end.rows);
    OK(clsm_count(caller, 0, ROWS - 1, &keys));
    CHECK(keys == 0 || keys == ROWS);
}

static void read_scan(clsm_caller *caller) {
    clsm_row rows[ROWS + 1];
    clsm_scan *scan;
    uint64_t count = 0;
    OK(clsm_scan_open(caller, 0, ROWS - 1, &scan));
    while (clsm_scan_next(scan, &rows[count]) == CLSM_OK) count++;
    clsm_scan_close(scan);
    check_alike(rows, count);
}

static void read_keys(clsm_caller *caller) {
    clsm_snapshot *snapshot;
    clsm_row rows[ROWS];
    uint64_t count = 0;
    OK(clsm_snapshot_open(caller, &snapshot));
    for (uint64_t key = ROWS; key-- > 0;) {
        rows[key].key = key;
        if (clsm_snapshot_get(snapshot, key, &rows[key].value) == CLSM_OK) count++;
    }
    clsm_snapshot_close(snapshot);
    check_alike(rows, count);
}

static void *read_alike(void *of) {
    const struct worker *self = of;
    clsm_caller *caller;
    OK(clsm_caller_open(self->store, &caller));
    while (atomic_load(&writing) > 0) {
        read_page(caller);
        read_scan(caller);
        read_keys(caller);
    }
    clsm_caller_close(caller);
    return NULL;
}

static void in_threads(const clsm_options *options) {
    struct worker workers[WRITERS + READERS];
    clsm_store *store;
    clsm_caller *caller;
    OK(clsm_open(options, &store));
    atomic_store(&writing, WRITERS);
    for (uint64_t i = 0; i < WRITERS + READERS; i++) {
        workers[i].store = store;
        workers[i].number = i;
        void *(*task)(void *) = i < WRITERS ? write_alike : read_alike;
        CHECK(pthread_create(&workers[i].thread, NULL, task, &workers[i]) == 0);
    }
    for (int i = 0; i < WRITERS + READERS; i++) CHECK(pthread_join(workers[i].thread, NULL) == 0);
    OK(clsm_caller_open(store, &caller));
    read_page(caller);
    CHECK(word_at(caller, 200) == WRITERS * rounds);
    clsm_caller_close(caller);
    OK(clsm_close(store));
}

int main(int argc, char **argv) {
    const clsm_options options = {.epoch = EPOCH};
    clsm_store *store;
    clsm_caller *caller;
    rounds = argument(argc, argv, 1, 1000);
    OK(clsm_open(&options, &store));
    OK(clsm_caller_open(store, &caller));
    write_rows(caller);
    write_one_key(caller);
    refuse(caller);
    read_beside(caller);
    clsm_caller_close(caller);
    OK(clsm_close(store));
    write_lengths(0);
    write_lengths(CLSM_MERGE_IN_CALLS);
    fill_run(0);
    fill_run(CLSM_MERGE_IN_CALLS);
    in_threads(&(clsm_options){.keys = 20000, .epoch = EPOCH});
    in_threads(&(clsm_options){.keys = 20000, .epoch = 1024, .patience = -1});
    in_threads(&(clsm_options){.keys = 20000, .epoch = EPOCH, .merge = CLSM_MERGE_IN_CALLS});
    return passed("batch");
}
