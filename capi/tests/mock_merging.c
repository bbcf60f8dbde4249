/* The merger of the core for tests. */
#define _POSIX_C_SOURCE 200809L
#include "mock_store.h"

static const uint64_t LAST_LIMIT = (uint64_t)1 << 62;

static uint32_t freeze(struct store *store, uint64_t used) {
    const uint64_t cells = store->sizes.cells, drawn = store->clock - store->epoch * cells;
    if (store->phase != CLEAN) return CLSM_CORE_OK;
    if (drawn < (used < cells ? used : cells)) return CLSM_CORE_IDLE;
    uint32_t code = mock_planned(MOCK_FREEZE);
    if (code != CLSM_CORE_OK) return code;
    if ((store->epoch + 2) * cells > LAST_LIMIT) return CLSM_CORE_WORN;
    store->epoch++;
    store->clock = store->epoch * cells;
    store->phase = FROZEN;
    return CLSM_CORE_OK;
}

/* The time from which on a merge keeps all versions. */
static uint64_t floor_of(const struct store *store) {
    uint64_t floor = store->epoch * store->sizes.cells;
    for (size_t i = 0; i < SEATS; i++) {
        uint64_t noted = store->snapshots[i];
        if (noted != NONE && noted - 1 < floor) floor = noted - 1;
    }
    return floor;
}

/* Whether a merge at this floor keeps the version, the newest below the floor or not. */
static bool is_kept(const struct version *version, uint64_t floor, bool is_newest_below) {
    return version->time >= floor || (is_newest_below && version->value.length > 0);
}

/* How many versions of the frozen epoch and before are kept; gives the others up if told to. */
static size_t keep(struct store *store, uint64_t floor, bool gives_up) {
    const uint64_t end = store->epoch * store->sizes.cells;
    size_t kept = 0;
    for (size_t i = 0; i < store->count; i++) {
        bool is_newest_below = true;
        for (struct version **link = &store->entries[i].newest; *link;) {
            struct version *version = *link;
            bool stays = version->time >= end || is_kept(version, floor, is_newest_below);
            if (version->time < floor) is_newest_below = false;
            if (stays && version->time < end) kept++;
            if (stays || !gives_up) {
                link = &version->older;
                continue;
            }
            *link = version->older;
            version->older = store->unused;
            store->unused = version;
        }
    }
    return kept;
}

static void forget_empty(struct store *store) {
    size_t kept = 0;
    for (size_t i = 0; i < store->count; i++)
        if (store->entries[i].newest) store->entries[kept++] = store->entries[i];
    store->count = kept;
}

static uint32_t sweep(struct store *store, uint64_t used, clsm_core_time *answer) {
    uint32_t code = freeze(store, used);
    if (code != CLSM_CORE_OK) return code;
    code = mock_planned(MOCK_SWEEP);
    answer->time = 0;
    if (code != CLSM_CORE_OK) return code;
    uint64_t floor = floor_of(store);
    if (store->phase == FROZEN) {
        if (keep(store, floor, false) > store->sizes.run) return CLSM_CORE_RUN_FULL;
        keep(store, floor, true);
        forget_empty(store);
    }
    store->phase = CLEAN;
    return CLSM_CORE_OK;
}

/* How many versions were merged: all of them count as entries of the last run, and none stand in
 * the others. */
static uint64_t count_merged(const struct store *store) {
    const uint64_t end = (store->epoch - 1) * store->sizes.cells;
    uint64_t merged = 0;
    for (size_t i = 0; i < store->count; i++)
        for (const struct version *at = store->entries[i].newest; at; at = at->older)
            merged += at->time < end;
    return merged;
}

uint32_t clsm_core_count_entries(clsm_core_merger *at, const clsm_core_turn *ask,
                                 clsm_core_entries *answer) {
    enum { MERGES_OF_LEVELS = 4 };
    struct store *store = mock_store_of(at);
    answer->entries = 0;
    if (!store) return CLSM_CORE_NO_HANDLE;
    pthread_mutex_lock(&mock_lock);
    const bool is_frozen = store->phase == FROZEN;
    const uint64_t young = is_frozen ? (store->epoch - 1) % MERGES_OF_LEVELS : 0;
    if (is_frozen && ask->turn == young) answer->entries = count_merged(store);
    pthread_mutex_unlock(&mock_lock);
    return is_frozen ? CLSM_CORE_OK : CLSM_CORE_IDLE;
}

uint32_t clsm_core_phase_of(clsm_core_merger *at, clsm_core_phase *answer) {
    const struct store *store = mock_store_of(at);
    if (!store) return CLSM_CORE_NO_HANDLE;
    *answer = (clsm_core_phase){store->phase == FROZEN, store->phase == RETIRED};
    return CLSM_CORE_OK;
}

uint32_t clsm_core_try_freeze(clsm_core_merger *at, const clsm_core_used *ask) {
    struct store *store = mock_store_of(at);
    if (!store) return CLSM_CORE_NO_HANDLE;
    pthread_mutex_lock(&mock_lock);
    uint32_t code = freeze(store, ask->used);
    pthread_mutex_unlock(&mock_lock);
    return code;
}

uint32_t clsm_core_try_sweep(clsm_core_merger *at, const clsm_core_used *ask,
                             clsm_core_time *answer) {
    struct store *store = mock_store_of(at);
    if (!store) return CLSM_CORE_NO_HANDLE;
    mock_interrupt(MOCK_SWEEP);
    pthread_mutex_lock(&mock_lock);
    uint32_t code = sweep(store, ask->used, answer);
    pthread_mutex_unlock(&mock_lock);
    return code;
}
