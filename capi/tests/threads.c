/* Four threads put, remove and read beside the merger; open and close callers; and send messages.
 *
 *     threads [ROUNDS [one]]    with `one`, all on one processor */
#define _GNU_SOURCE
#include "check.h"

#include <pthread.h>
#include <sched.h>
#include <stdatomic.h>
#include <string.h>

enum { THREADS = 4, KEYS = 512, CALLERS = 2500 };
static const uint64_t SHARED = 1000000, LETTER = 2000000;
static uint64_t rounds;

struct worker {
    pthread_t thread;
    clsm_store *store;
    uint64_t number;
};

/* ---- Each with keys of its own, and one key for all */

/* Reads the worker's own keys, all of which were written in this round or before. */
static void read_range(clsm_caller *caller, uint64_t number, uint64_t round) {
    const uint64_t first = number * KEYS, last = first + KEYS - 1;
    const uint64_t written = round + 1 < KEYS ? round + 1 : KEYS;
    clsm_scan *scan;
    clsm_row row;
    uint64_t keys, seen = 0;
    OK(clsm_count(caller, first, last, &keys));
    CHECK(keys == written);
    OK(clsm_scan_open(caller, first, last, &scan));
    int code;
    while ((code = clsm_scan_next(scan, &row)) == CLSM_OK) {
        CHECK(row.key == first + seen && row.value.length == 2 && row.value.words[1] == number);
        seen++;
    }
    CHECK(code == CLSM_DONE && seen == written);
    ANSWERS(CLSM_DONE, clsm_scan_next(scan, &row));
    clsm_scan_close(scan);
}

/* Reads under a snapshot while this worker writes beside it. */
static void read_snapshot(clsm_caller *caller, uint64_t number, uint64_t round) {
    const uint64_t key = number * KEYS + round % KEYS, changed[] = {round + 1, number};
    const uint64_t first = number * KEYS, last = first + KEYS - 1;
    clsm_snapshot *snapshot;
    clsm_value before, after;
    clsm_row rows[KEYS];
    clsm_page_end end;
    OK(clsm_snapshot_open(caller, &snapshot));
    CHECK(clsm_snapshot_number(snapshot) != clsm_number(caller));
    CHECK(clsm_snapshot_time(snapshot) == clsm_time(caller));
    OK(clsm_snapshot_get(snapshot, SHARED, &before));
    OK(clsm_put(caller, key, changed, 2));
    OK(clsm_get(caller, key, &after));
    CHECK(after.words[0] == round + 1);
    OK(clsm_snapshot_get(snapshot, key, &after));
    CHECK(after.words[0] == round);
    OK(clsm_snapshot_page(snapshot, first, last, rows, KEYS, &end));
    CHECK(!end.more && rows[round % KEYS].key == key && rows[round % KEYS].value.words[0] == round);
    OK(clsm_snapshot_get(snapshot, SHARED, &after));
    CHECK(memcmp(&before, &after, sizeof before) == 0);
    clsm_snapshot_close(snapshot);
}

static void work_once(clsm_caller *caller, uint64_t number, uint64_t round) {
    const uint64_t key = number * KEYS + round % KEYS;
    const uint64_t own[] = {round, number}, shared[] = {round, number, round ^ number};
    const uint64_t before = clsm_seen(caller);
    clsm_value value;
    OK(clsm_put(caller, key, own, 2));
    CHECK(clsm_time(caller) >= before && clsm_seen(caller) == clsm_time(caller) + 1);
    OK(clsm_get(caller, key, &value));
    CHECK(value.length == 2 && value.words[0] == round && value.words[1] == number
          && value.words[2] == 0);
    OK(clsm_put(caller, SHARED, shared, 3));
    OK(clsm_get(caller, SHARED, &value));
    CHECK(value.length == 3 && value.words[2] == (value.words[0] ^ value.words[1]));
    if (round % 16 == 0) read_snapshot(caller, number, round);
    if (round % 64 == 0) read_range(caller, number, round);
}

static void *work(void *of) {
    struct worker *self = of;
    clsm_caller *caller;
    OK(clsm_caller_open(self->store, &caller));
    for (uint64_t round = 0; round < rounds; round++) work_once(caller, self->number, round);
    OK(clsm_remove(caller, self->number * KEYS));
    ANSWERS(CLSM_NOT_FOUND, clsm_get(caller, self->number * KEYS, NULL));
    clsm_caller_close(caller);
    return NULL;
}

/* ---- Many callers in turn: no two have a seat at once */

static _Atomic(uint64_t) owners[CLSM_SEATS];

static void *open_and_close(void *of) {
    struct worker *self = of;
    const uint64_t me = self->number + 1;
    clsm_caller *caller;
    clsm_snapshot *snapshot, *other;
    for (int i = 0; i < CALLERS; i++) {
        OK(clsm_caller_open(self->store, &caller));
        CHECK(atomic_exchange(&owners[clsm_number(caller)], me) == 0);
        OK(clsm_snapshot_open(caller, &snapshot));
        CHECK(atomic_exchange(&owners[clsm_snapshot_number(snapshot)], me) == 0);
        OK(clsm_snapshot_open(caller, &other));
        CHECK(atomic_exchange(&owners[clsm_snapshot_number(other)], me) == 0);
        OK(clsm_put(caller, me, &me, 1));
        ANSWERS(i == 0 ? CLSM_NOT_FOUND : CLSM_OK, clsm_snapshot_get(snapshot, me, NULL));
        CHECK(atomic_exchange(&owners[clsm_number(caller)], 0) == me);
        if (i % 2) clsm_caller_close(caller);
        CHECK(atomic_exchange(&owners[clsm_snapshot_number(snapshot)], 0) == me);
        clsm_snapshot_close(snapshot);
        CHECK(atomic_exchange(&owners[clsm_snapshot_number(other)], 0) == me);
        clsm_snapshot_close(other);
        if (i % 2 == 0) clsm_caller_close(caller);
    }
    return NULL;
}

/* Each time a seat is taken, one is left: so many threads may have one beside that of their caller.
 */
enum { LEFT = 2 };
static atomic_int users;

static void wait_for_seat(void) {
    for (int now = 0; !atomic_compare_exchange_weak(&users, &now, now + 1);)
        if (now == LEFT) now = LEFT - 1;
}

/* Takes a seat and gives it back, its caller's spare one or one of the pool. */
static void *share_last_seats(void *of) {
    struct worker *self = of;
    clsm_caller *caller, *other;
    clsm_snapshot *snapshot;
    OK(clsm_caller_open(self->store, &caller));
    for (uint64_t i = 0; i < rounds; i++) {
        wait_for_seat();
        if ((i + self->number) % 3) {
            OK(clsm_snapshot_open(caller, &snapshot));
            clsm_snapshot_close(snapshot);
        } else {
            OK(clsm_caller_open(self->store, &other));
            clsm_caller_close(other);
        }
        atomic_fetch_sub(&users, 1);
    }
    clsm_caller_close(caller);
    return NULL;
}

/* ---- Messages: each thread numbers its letters, and the others follow it */

static _Atomic(uint64_t) seen_by[THREADS], letters_of[THREADS];

static void read_letters(clsm_caller *caller) {
    clsm_value value;
    for (uint64_t from = 0; from < THREADS; from++) {
        /* The time is stored before the number is, and loaded behind it. */
        const uint64_t number = atomic_load(&letters_of[from]);
        const uint64_t seen = atomic_load(&seen_by[from]);
        if (number == 0) continue;
        OK(clsm_follow(caller, seen));
        CHECK(clsm_seen(caller) >= seen);
        OK(clsm_get(caller, LETTER + from, &value));
        CHECK(value.words[0] >= number && clsm_time(caller) >= seen);
    }
}

static void *correspond(void *of) {
    struct worker *self = of;
    clsm_caller *caller;
    OK(clsm_caller_open(self->store, &caller));
    for (uint64_t number = 1; number <= rounds / 4; number++) {
        OK(clsm_put(caller, LETTER + self->number, &number, 1));
        atomic_store(&seen_by[self->number], clsm_seen(caller));
        atomic_store(&letters_of[self->number], number);
        read_letters(caller);
    }
    clsm_caller_close(caller);
    return NULL;
}

/* ---- */

static void in_threads(clsm_store *store, void *(*task)(void *)) {
    struct worker workers[THREADS];
    for (uint64_t i = 0; i < THREADS; i++) {
        workers[i].store = store;
        workers[i].number = i;
        CHECK(pthread_create(&workers[i].thread, NULL, task, &workers[i]) == 0);
    }
    for (int i = 0; i < THREADS; i++) CHECK(pthread_join(workers[i].thread, NULL) == 0);
}

static void crowd(clsm_store *store) {
    enum { TAKEN = CLSM_SEATS - THREADS - LEFT };
    clsm_caller *callers[TAKEN];
    for (int i = 0; i < TAKEN; i++) OK(clsm_caller_open(store, &callers[i]));
    in_threads(store, share_last_seats);
    for (int i = 0; i < TAKEN; i++) clsm_caller_close(callers[i]);
}

/* All keys that the workers left. */
static void read_all(clsm_store *store) {
    clsm_caller *caller;
    clsm_row rows[4];
    clsm_page_end end;
    OK(clsm_caller_open(store, &caller));
    OK(clsm_page(caller, 0, UINT64_MAX, rows, 4, &end));
    CHECK(end.rows == 4 && rows[0].key == 1 && rows[3].key == 4 && end.more && end.next == 5);
    clsm_caller_close(caller);
}

static void try_store(size_t epoch, int merge) {
    /* There is room for all versions that are ever written: a thread may stop for long with a
     * snapshot. */
    const clsm_options options = {.keys = 10 * rounds + 20000, .epoch = epoch, .merge = merge};
    clsm_store *store;
    OK(clsm_open(&options, &store));
    in_threads(store, work);
    read_all(store);
    in_threads(store, correspond);
    for (int i = 0; i < THREADS; i++) atomic_store(&letters_of[i], 0);
    OK(clsm_close(store));
    OK(clsm_open(&options, &store));
    in_threads(store, open_and_close);
    crowd(store);
    OK(clsm_close(store));
}

int main(int count, char **texts) {
    rounds = argument(count, texts, 1, 20000);
    if (count > 2) {
        cpu_set_t one;
        CPU_ZERO(&one);
        CPU_SET(0, &one);
        CHECK(strcmp(texts[2], "one") == 0 && sched_setaffinity(0, sizeof one, &one) == 0);
    }
    try_store(1024, 0);
    try_store(16, 0);
    try_store(1024, CLSM_MERGE_IN_CALLS);
    return passed(count > 2 ? "threads on one processor" : "threads");
}
