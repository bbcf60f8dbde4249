/* What a store tells of itself. */
#include "store.h"

#include <time.h>

uint64_t clsm_now(void) {
    struct timespec now;
    clock_gettime(CLOCK_MONOTONIC, &now);
    return (uint64_t)now.tv_sec * CLSM_NANOSECONDS + (uint64_t)now.tv_nsec;
}

void clsm_count_one(_Atomic(uint64_t) *count) { atomic_fetch_add(count, 1); }

void clsm_raise(_Atomic(uint64_t) *greatest, uint64_t number) {
    uint64_t found = atomic_load(greatest);
    while (found < number && !atomic_compare_exchange_weak(greatest, &found, number)) continue;
}

int clsm_note_refusal(clsm_store *store, int code) {
    struct clsm_counts *counts = &store->counts;
    switch (code) {
    case CLSM_RUN_FULL: clsm_count_one(&counts->run_full); break;
    case CLSM_VERSIONS_FULL:
    case CLSM_OWN_SNAPSHOT: clsm_count_one(&counts->versions_full); break;
    case CLSM_NO_SEAT: clsm_count_one(&counts->no_seat); break;
    default: break;
    }
    return code;
}

/* ---- What is found now */

static void count_handles(clsm_store *store, clsm_statistics *statistics) {
    uint64_t *counts[CLSM_USES] = {
        [CLSM_AS_CALLER] = &statistics->callers,
        [CLSM_AS_SNAPSHOT] = &statistics->snapshots,
        [CLSM_AS_SCAN] = &statistics->scans,
    };
    for (unsigned i = 0; i < CLSM_SEATS; i++) {
        enum clsm_use use = clsm_use_of(&store->handles[i].seat);
        if (use != CLSM_UNUSED) ++*counts[use];
    }
}

/* Whether the oldest one that was found is older than the one of this time and age. */
static bool has_older(const clsm_statistics *statistics, uint64_t time, uint64_t age) {
    if (statistics->oldest_age == 0) return false;
    if (statistics->oldest_time != time) return statistics->oldest_time < time;
    return statistics->oldest_age >= age;
}

/* The oldest snapshot or scan that is open, if there is one. */
static void find_oldest(clsm_store *store, clsm_statistics *statistics) {
    const uint64_t now = clsm_now();
    for (unsigned i = 0; i < CLSM_SEATS; i++) {
        struct clsm_seat *seat = &store->handles[i].seat;
        const uint64_t view = atomic_load(&seat->view), since = atomic_load(&seat->since);
        if (view < CLSM_VIEWS || since > now) continue;
        const uint64_t time = view - CLSM_VIEWS, age = now - since + 1;
        if (has_older(statistics, time, age)) continue;
        statistics->oldest_time = time;
        statistics->oldest_age = age;
    }
}

static uint64_t less(uint64_t number, uint64_t by) { return number > by ? number - by : 0; }

/* How many writes the current epoch has, by the clock: all that it takes, where it is full. It may
 * be found before it is noted that the epoch before was frozen. */
static uint64_t writes_of_epoch(clsm_store *store, uint64_t clock) {
    const uint64_t writes = less(clock, atomic_load(&store->board.frozen) * store->cells);
    return writes > store->cells ? writes - store->cells : writes;
}

int clsm_stats(clsm_store *store, clsm_statistics *statistics) {
    if (!store || !statistics) return CLSM_BAD_POINTER;
    struct clsm_counts *counts = &store->counts;
    *statistics = (clsm_statistics){.bytes = store->bytes};
    count_handles(store, statistics);
    find_oldest(store, statistics);
    clsm_raise(&counts->clock, clsm_read_clock(store));
    statistics->clock = atomic_load(&counts->clock);
    statistics->epoch_writes = writes_of_epoch(store, statistics->clock);
    statistics->level_zero = atomic_load(&counts->level_zero);
    statistics->level_one = atomic_load(&counts->level_one);
    statistics->room_for_keys = less(store->keys, statistics->level_one);
    statistics->room_for_versions = less(store->keys + store->versions, statistics->level_one);
    statistics->merges = atomic_load(&counts->merges);
    statistics->last_merge = atomic_load(&counts->last_merge);
    statistics->longest_merge = atomic_load(&counts->longest_merge);
    statistics->waits = atomic_load(&counts->waits);
    statistics->longest_wait = atomic_load(&counts->longest_wait);
    statistics->run_full = atomic_load(&counts->run_full);
    statistics->versions_full = atomic_load(&counts->versions_full);
    statistics->no_seat = atomic_load(&counts->no_seat);
    return CLSM_OK;
}
