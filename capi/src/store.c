/* Stores: opening and closing them. */
#include "store.h"

#include <stdlib.h>

enum {
    DEFAULT_KEYS = 100000,
    DEFAULT_VERSIONS = 100000, /* at most; as many as keys, if they are fewer */
    KEYS_OF_A_WRITE = 16,      /* an epoch has a write for so many keys, if nothing else is asked */
    LEAST_DEFAULT_EPOCH = 4096,
    DEFAULT_PATIENCE = 64,
    DEFAULT_WAIT = 1000, /* milliseconds */
    LEAST_EPOCH = 4,
    GREATEST_EPOCH = 65536,
    GREATEST_PATIENCE = 64,
    GREATEST_RUN = 4194304,
    EPOCHS_OF_GROWTH = 6, /* room.c says why */
    NANOSECONDS_OF_WAIT = 1000000
};

/* ---- Options */

/* The least number of versions for epochs of so many writes. */
static size_t least_versions(size_t epoch) { return EPOCHS_OF_GROWTH * epoch + CLSM_SEATS; }

/* A part of the keys, as docs/C.md says, if there is room for the versions of so many. */
static size_t default_epoch(size_t keys) {
    const size_t room = GREATEST_RUN - keys;
    const size_t most =
        room < least_versions(LEAST_EPOCH) ? LEAST_EPOCH : (room - CLSM_SEATS) / EPOCHS_OF_GROWTH;
    size_t epoch = keys / KEYS_OF_A_WRITE;
    if (epoch < LEAST_DEFAULT_EPOCH) epoch = LEAST_DEFAULT_EPOCH;
    if (epoch > GREATEST_EPOCH) epoch = GREATEST_EPOCH;
    return epoch < most ? epoch : most;
}

static size_t default_versions(size_t keys, size_t epoch) {
    const size_t least = least_versions(epoch), room = GREATEST_RUN - keys;
    const size_t versions = keys < DEFAULT_VERSIONS ? keys : DEFAULT_VERSIONS;
    const size_t wanted = versions > least ? versions : least;
    return wanted < room ? wanted : room;
}

/* How many keys, versions and writes of an epoch these options stand for: OK, BAD_KEYS, BAD_EPOCH,
 * BAD_VERSIONS. */
static int complete(const clsm_options *options, clsm_options *completed) {
    const size_t keys = options->keys ? options->keys : DEFAULT_KEYS;
    if (keys > GREATEST_RUN) return CLSM_BAD_KEYS;
    const size_t epoch = options->epoch ? options->epoch : default_epoch(keys);
    if (epoch < LEAST_EPOCH || epoch > GREATEST_EPOCH) return CLSM_BAD_EPOCH;
    if (keys > GREATEST_RUN - least_versions(epoch)) return CLSM_BAD_KEYS;
    const size_t versions = options->versions ? options->versions : default_versions(keys, epoch);
    if (versions < least_versions(epoch) || versions > GREATEST_RUN - keys)
        return CLSM_BAD_VERSIONS;
    *completed = *options;
    completed->keys = keys;
    completed->epoch = epoch;
    completed->versions = versions;
    return CLSM_OK;
}

/* The core's sizes of these options, with no choice left to make: OK, BAD_... */
static int sizes_of(clsm_options *options, clsm_core_sizes *sizes) {
    static const clsm_options none;
    if (memcmp(options->zero, none.zero, sizeof none.zero) != 0) return CLSM_BAD_BUILD;
    if (options->merge != 0 && options->merge != CLSM_MERGE_IN_CALLS) return CLSM_BAD_MERGE;
    int refused = complete(options, options);
    if (refused) return refused;
    const int patience = options->patience ? options->patience : DEFAULT_PATIENCE;
    if (patience < -1 || patience > GREATEST_PATIENCE) return CLSM_BAD_PATIENCE;
    if (!options->wait) options->wait = DEFAULT_WAIT;
    if (options->wait < -1) return CLSM_BAD_WAIT;
    sizes->cells = options->epoch;
    sizes->seats = CLSM_SEATS;
    sizes->shards = 1;
    sizes->run = options->keys + options->versions;
    sizes->patience = patience < 0 ? 0 : (size_t)patience;
    return CLSM_OK;
}

/* What a store of these sizes takes, which is what docs/BENCHMARKS.md says of the core, and its own
 * part. */
static uint64_t bytes_of(const clsm_core_sizes *sizes) {
    enum { WORD = 8, FIRST = 107, OF_SEAT = 32, OF_CELL = 65, OF_CHAIN = 2, OF_ENTRY = 22 };
    enum { OF_TIMES = 8, OF_NOTES = 224 };
    const uint64_t words = FIRST + OF_SEAT * sizes->seats + OF_CELL * sizes->cells
                           + OF_CHAIN * ((sizes->cells - 1) | 1) + OF_ENTRY * sizes->run;
    return WORD * words + OF_TIMES * sizes->cells + OF_NOTES * sizes->seats + sizeof(clsm_store);
}

/* ---- The core's part */

/* Whether the core is of this interface, without which nothing links, and its handles have room
 * where this build reserves it. */
static bool is_of_this_build(void) {
    clsm_core_rooms rooms;
    if (*(const volatile char *)&CLSM_CORE_INTERFACE != 0) return false;
    clsm_core_room(&rooms);
    return rooms.store <= sizeof(clsm_core_store) && rooms.caller <= sizeof(clsm_core_caller)
           && rooms.merger <= sizeof(clsm_core_merger);
}

/* Opens the core's store, and takes its merger and all its callers: OK, MEMORY, BAD_... */
static int open_core(clsm_store *store, const clsm_core_sizes *sizes) {
    clsm_core_code answer;
    clsm_core_open(sizes, &answer, &store->core);
    if (answer.code != CLSM_OK) {
        clsm_core_close(&store->core);
        return (int)answer.code;
    }
    clsm_core_take_merger(&store->core, &answer, &store->merger);
    clsm_pool_fill(store);
    return CLSM_OK;
}

static void close_core(clsm_store *store) {
    clsm_pool_drain(store);
    clsm_core_drop_merger(&store->merger);
    clsm_core_close(&store->core);
}

/* ---- The store's own part */

/* A condition on which one may wait until a time that nobody sets. */
static int open_room(pthread_cond_t *room) {
    pthread_condattr_t how;
    if (pthread_condattr_init(&how)) return CLSM_MEMORY;
    int failed = pthread_condattr_setclock(&how, CLOCK_MONOTONIC) || pthread_cond_init(room, &how);
    pthread_condattr_destroy(&how);
    return failed ? CLSM_MEMORY : CLSM_OK;
}

static int open_locks(clsm_store *store) {
    if (pthread_mutex_init(&store->pool.lock, NULL)) return CLSM_MEMORY;
    if (pthread_mutex_init(&store->crowd.counting, NULL)) goto no_counting;
    if (pthread_mutex_init(&store->board.lock, NULL)) goto no_board;
    if (open_room(&store->board.room)) goto no_room;
    if (pthread_cond_init(&store->board.turn, NULL)) goto no_turn;
    if (sem_init(&store->board.work, 0, 0)) goto no_work;
    return CLSM_OK;
no_work:
    pthread_cond_destroy(&store->board.turn);
no_turn:
    pthread_cond_destroy(&store->board.room);
no_room:
    pthread_mutex_destroy(&store->board.lock);
no_board:
    pthread_mutex_destroy(&store->crowd.counting);
no_counting:
    pthread_mutex_destroy(&store->pool.lock);
    return CLSM_MEMORY;
}

static void close_locks(clsm_store *store) {
    sem_destroy(&store->board.work);
    pthread_cond_destroy(&store->board.turn);
    pthread_cond_destroy(&store->board.room);
    pthread_mutex_destroy(&store->board.lock);
    pthread_mutex_destroy(&store->crowd.counting);
    pthread_mutex_destroy(&store->pool.lock);
}

/* An empty store in memory of its own, aligned as seats are, or null. */
static clsm_store *allocate(void) {
    void *memory = malloc(sizeof(clsm_store) + CLSM_LINE - 1);
    if (!memory) return NULL;
    const uintptr_t above = (uintptr_t)memory + CLSM_LINE - 1;
    clsm_store *store = (clsm_store *)(above - above % CLSM_LINE);
    memset(store, 0, sizeof *store);
    store->memory = memory;
    return store;
}

/* Opens all parts of the store, or none. */
static int open_parts(clsm_store *store, const clsm_core_sizes *sizes) {
    int refused = open_locks(store);
    if (refused) return refused;
    refused = open_core(store, sizes);
    if (refused) goto no_core;
    refused = clsm_merger_start(store);
    if (refused) goto no_merger;
    return CLSM_OK;
no_merger:
    close_core(store);
no_core:
    close_locks(store);
    return refused;
}

/* A wait of so many milliseconds; one of centuries has no end. */
static uint64_t nanoseconds_of(uint64_t wait) {
    return wait < UINT64_MAX / NANOSECONDS_OF_WAIT ? wait * NANOSECONDS_OF_WAIT : UINT64_MAX;
}

/* Notes what the store is opened for. */
static void note_options(clsm_store *store, const clsm_options *options) {
    store->cells = options->epoch;
    store->keys = options->keys;
    store->versions = options->versions;
    store->merges_in_calls = options->merge == CLSM_MERGE_IN_CALLS;
    if (options->wait > 0) store->patience = nanoseconds_of((uint64_t)options->wait);
    store->forks = clsm_forks();
}

int clsm_open(const clsm_options *options, clsm_store **store) {
    clsm_options chosen = {.keys = 0};
    clsm_core_sizes sizes;
    if (!store) return CLSM_BAD_POINTER;
    *store = NULL;
    if (options) chosen = *options;
    int refused = sizes_of(&chosen, &sizes);
    if (refused) return refused;
    if (!is_of_this_build()) return CLSM_BAD_BUILD;
    clsm_store *opened = allocate();
    if (!opened) return CLSM_MEMORY;
    note_options(opened, &chosen);
    opened->bytes = bytes_of(&sizes);
    refused = open_parts(opened, &sizes);
    if (refused) free(opened->memory);
    else *store = opened;
    return refused;
}

int clsm_close(clsm_store *store) {
    if (!store) return CLSM_BAD_POINTER;
    if (clsm_is_forked(store)) return CLSM_OK;
    if (!clsm_pool_is_whole(store)) return CLSM_IN_USE;
    clsm_merger_stop(store);
    close_core(store);
    close_locks(store);
    free(store->memory);
    return CLSM_OK;
}

int clsm_close_at(clsm_store **store) {
    if (!store) return CLSM_BAD_POINTER;
    int refused = clsm_close(*store);
    if (!refused) *store = NULL;
    return refused;
}
