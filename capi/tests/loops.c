/*     loops [POINTS]       so many of each thread
 *
 * Three loops as users write them, each without an error that it did not ask for: threads that add
 * to a leaderboard beside one that holds snapshots of it; one that writes a range as it reads it;
 * and one that fills a store, removes all, and fills it again. */
#include "check.h"

#include <pthread.h>
#include <sched.h>
#include <stdatomic.h>

static clsm_store *opened(clsm_options options) {
    clsm_store *store;
    options.wait = INT64_MAX; /* nothing depends on how fast a snapshot is read */
    OK(clsm_open(&options, &store));
    return store;
}

static clsm_caller *caller_of(clsm_store *store) {
    clsm_caller *caller;
    OK(clsm_caller_open(store, &caller));
    return caller;
}

static void closed(clsm_store *store, clsm_caller *caller) {
    clsm_caller_close(caller);
    OK(clsm_close(store));
}

/* ---- A leaderboard */

enum { PLAYERS = 10, THREADS = 4, TURNS = 200 };

static atomic_int playing;
static uint64_t points_of_each;

static void *play(void *of) {
    clsm_caller *caller = caller_of(of);
    for (uint64_t i = 0; i < points_of_each; i++) OK(clsm_add(caller, i % PLAYERS, 1, NULL));
    clsm_caller_close(caller);
    atomic_fetch_sub(&playing, 1);
    return NULL;
}

static uint64_t points_of(clsm_snapshot *snapshot) {
    clsm_row rows[PLAYERS];
    clsm_page_end end;
    uint64_t points = 0;
    OK(clsm_snapshot_page(snapshot, 0, UINT64_MAX, rows, PLAYERS, &end));
    for (uint64_t i = 0; i < end.rows; i++) points += rows[i].value.words[0];
    return points;
}

/* Reads a snapshot again and again, while others overwrite all that it has. */
static void show(clsm_caller *caller) {
    clsm_snapshot *snapshot;
    OK(clsm_snapshot_open(caller, &snapshot));
    const uint64_t points = points_of(snapshot);
    for (int turn = 0; turn < TURNS; turn++) {
        sched_yield();
        CHECK(points_of(snapshot) == points);
    }
    clsm_snapshot_close(snapshot);
}

static void leaderboard(clsm_options options) {
    clsm_store *store = opened(options);
    clsm_caller *caller = caller_of(store);
    pthread_t threads[THREADS];
    atomic_store(&playing, THREADS);
    for (int i = 0; i < THREADS; i++) CHECK(!pthread_create(&threads[i], NULL, play, store));
    while (atomic_load(&playing) > 0) show(caller);
    for (int i = 0; i < THREADS; i++) CHECK(!pthread_join(threads[i], NULL));
    clsm_snapshot *snapshot;
    OK(clsm_snapshot_open(caller, &snapshot));
    CHECK(points_of(snapshot) == THREADS * points_of_each);
    clsm_snapshot_close(snapshot);
    closed(store, caller);
}

/* ---- A loop that writes as it reads */

static void rewrite(clsm_options options, uint64_t keys) {
    clsm_store *store = opened(options);
    clsm_caller *caller = caller_of(store);
    for (uint64_t key = 0; key < keys; key++) OK(clsm_put(caller, key, &key, 1));
    for (uint64_t round = 1; round <= 3; round++) {
        clsm_walk *walk;
        clsm_row row;
        uint64_t next = 0;
        int code;
        OK(clsm_walk_open(caller, 0, UINT64_MAX, &walk));
        while ((code = clsm_walk_next(walk, &row)) == CLSM_OK) {
            const uint64_t words[] = {row.key, round};
            CHECK(row.key == next++ && row.value.length == (round > 1 ? 2 : 1));
            OK(clsm_put(caller, row.key, words, 2));
        }
        ANSWERS(CLSM_DONE, code);
        CHECK(next == keys);
        clsm_walk_close(walk);
    }
    closed(store, caller);
}

/* ---- To the brim, and again */

/* As many keys as the store was opened for always fit. */
static void refill(clsm_options options) {
    clsm_store *store = opened(options);
    clsm_caller *caller = caller_of(store);
    for (uint64_t round = 0; round < 4; round++) {
        const uint64_t first = round * 1000000;
        uint64_t key = first, count;
        int code;
        while ((code = clsm_put(caller, key, &key, 1)) == CLSM_OK) key++;
        ANSWERS(CLSM_RUN_FULL, code);
        CHECK(key - first >= options.keys);
        OK(clsm_count(caller, 0, UINT64_MAX, &count));
        CHECK(count == key - first);
        while (key-- > first) OK(clsm_remove(caller, key));
        OK(clsm_count(caller, 0, UINT64_MAX, &count));
        CHECK(count == 0);
    }
    closed(store, caller);
}

int main(int count, char **texts) {
    points_of_each = argument(count, texts, 1, 20000);
    const uint64_t keys = points_of_each;
    for (int merge = 0; merge <= CLSM_MERGE_IN_CALLS; merge++) {
        leaderboard((clsm_options){.keys = 1000, .merge = merge});
        leaderboard((clsm_options){.keys = 10, .epoch = 64, .merge = merge});
        rewrite((clsm_options){.keys = keys, .merge = merge}, keys);
        rewrite((clsm_options){.keys = 1000, .epoch = 16, .merge = merge}, 1000);
        refill((clsm_options){.keys = 1000, .merge = merge});
        refill((clsm_options){.keys = 1000, .epoch = 64, .merge = merge});
    }
    return passed("loops");
}
