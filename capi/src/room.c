/* How writes wait: for others, for room in an epoch, for a snapshot to be closed; and how many keys
 * there may be.
 *
 * A merge into level 1 has room for `keys` keys and, beside them, for `versions` more entries. So
 * that it always fits while no snapshot is open, writes that would give one more key a value are
 * refused from the time on at which such a merge left more than `keys` entries, and until fewer
 * keys are counted. Before that, the four epochs between two such merges may have given as many
 * keys a value as they have writes; then the one that was being written, and the next one, of which
 * some writes had begun; and at last one write for each caller that asked before and came late.
 * Hence `versions` is at least six epochs and a write for each seat (store.c). Writes of keys that
 * have a value, and removals, are never refused for this. */
#include "store.h"

#include <sched.h>
#include <time.h>

/* ---- Pauses */

enum {
    MOST_PAUSES = 64,
    EAGER_LOSSES = 4,        /* a batch or a freeze that has lost so often wants in */
    ROUNDS_FOR_EAGER = 16,   /* a write pauses so often for it, 64 times each, */
    SLEEPS_FOR_EAGER = 1024, /* and then sleeps so often; then it goes on all the same */
    NANOSECONDS_OF_SLEEP = 50000
};

/* A thread that is cancelled while it sleeps here, or on the board below, still has to give back
 * what it took: it ends at its next cancellation point. */
static void be_deaf(int *before) { pthread_setcancelstate(PTHREAD_CANCEL_DISABLE, before); }

static void hear_again(int before) { pthread_setcancelstate(before, &before); }

void clsm_sleep(long nanoseconds) {
    int before;
    be_deaf(&before);
    nanosleep(&(struct timespec){.tv_nsec = nanoseconds}, NULL);
    hear_again(before);
}

static void pause_once(void) {
#if defined __x86_64__ || defined __i386__
    __asm__ __volatile__("pause");
#elif defined __aarch64__
    __asm__ __volatile__("yield");
#endif
}

static void pause_for(unsigned pauses) {
    for (unsigned i = 0; i < pauses; i++) pause_once();
}

static void sleep_once(void) { clsm_sleep(NANOSECONDS_OF_SLEEP); }

void clsm_be_patient(struct clsm_patience *patience) {
    if (patience->pauses > MOST_PAUSES) {
        sched_yield();
        return;
    }
    pause_for(patience->pauses);
    patience->pauses *= 2;
}

/* Where the one that wants in yielded, those that stopped within a write would wait with it for a
 * merge that has the processor, while another one is free. */
void clsm_lose(clsm_store *store, bool wants_in, struct clsm_patience *patience) {
    if (wants_in && !patience->is_eager && ++patience->losses == EAGER_LOSSES) {
        patience->is_eager = true;
        atomic_fetch_add(&store->gate, CLSM_EAGER);
    }
    if (patience->is_eager && patience->pauses > MOST_PAUSES) sleep_once();
    else clsm_be_patient(patience);
}

void clsm_end_patience(clsm_store *store, struct clsm_patience *patience) {
    if (patience->is_eager) atomic_fetch_sub(&store->gate, CLSM_EAGER);
    patience->is_eager = false;
    patience->losses = 0;
}

/* Whether somebody who has lost some tries wants in first. */
static bool is_anyone_eager(clsm_store *store) {
    return atomic_load_explicit(&store->gate, memory_order_relaxed) >= CLSM_EAGER;
}

/* Waits until nobody does. It sleeps soon, and does not yield: the one that wants in, and those
 * that stopped within a write, need the processors. */
static void let_in(clsm_store *store) {
    for (int turn = 0; turn < ROUNDS_FOR_EAGER && is_anyone_eager(store); turn++)
        pause_for(MOST_PAUSES);
    for (int turn = 0; turn < SLEEPS_FOR_EAGER && is_anyone_eager(store); turn++) sleep_once();
}

/* ---- Sleeping on the board, for who holds it */

bool clsm_sleep_on(clsm_store *store, pthread_cond_t *condition, const struct timespec *until) {
    pthread_mutex_t *lock = &store->board.lock;
    int before;
    be_deaf(&before);
    int failed =
        until ? pthread_cond_timedwait(condition, lock, until) : pthread_cond_wait(condition, lock);
    hear_again(before);
    return !failed;
}

/* Sleeps until something changes for those who wait for room: whether it did, before the time. */
static bool wait_for_news(clsm_store *store, const struct timespec *until) {
    store->board.waiting++;
    const bool is_early = clsm_sleep_on(store, &store->board.room, until);
    store->board.waiting--;
    return is_early;
}

void clsm_tell_news(clsm_store *store) {
    if (store->board.waiting > 0) pthread_cond_broadcast(&store->board.room);
}

void clsm_let_batches_in(clsm_store *store) {
    struct clsm_board *board = &store->board;
    atomic_fetch_add(&store->gate, (board->batches - board->let_in) * CLSM_EAGER);
    board->let_in = board->batches;
}

/* Whether a batch waits for the next freeze, which lets it in: it found the epoch full that ends
 * there. Another one, which was faster than the news of a freeze, waits for one more. */
static bool begin_wait(clsm_store *store, uint64_t end, const struct clsm_patience *patience) {
    const bool is_next = patience->wants_in && clsm_limit(store) == end;
    store->board.batches += is_next;
    return is_next;
}

/* Ends such a wait: if there is room behind that epoch, the batch was let in. */
static void end_wait(clsm_store *store, uint64_t end, struct clsm_patience *patience) {
    store->board.batches--;
    if (clsm_limit(store) <= end) return;
    store->board.let_in--;
    patience->is_eager = true;
}

/* ---- Snapshots that are in the way of a merge */

void clsm_tell_unheld(clsm_store *store) {
    struct clsm_board *board = &store->board;
    if (atomic_load(&board->held) == 0) return;
    pthread_mutex_lock(&board->lock);
    atomic_store(&board->held, 0);
    if (atomic_load(&board->refusal) == CLSM_VERSIONS_FULL) atomic_store(&board->refusal, CLSM_OK);
    board->closed++;
    clsm_tell_news(store);
    pthread_mutex_unlock(&board->lock);
}

void clsm_tell_closed(clsm_store *store, uint64_t view) {
    const uint64_t held = atomic_load(&store->board.held);
    if (held == 0 || view > held) return;
    clsm_tell_unheld(store);
    clsm_merger_call(store);
}

/* The time at which the patience with snapshots ends. */
static const struct timespec *end_of(const clsm_store *store, struct clsm_patience *patience) {
    struct timespec *end = &patience->end;
    if (patience->has_end) return end;
    clock_gettime(CLOCK_MONOTONIC, end);
    end->tv_sec += (time_t)(store->patience / CLSM_NANOSECONDS);
    end->tv_nsec += (long)(store->patience % CLSM_NANOSECONDS);
    if (end->tv_nsec >= CLSM_NANOSECONDS) {
        end->tv_sec++;
        end->tv_nsec -= CLSM_NANOSECONDS;
    }
    patience->has_end = true;
    return end;
}

/* Waits until a snapshot is closed that was in the way of a merge: OK, VERSIONS_FULL, OWN_SNAPSHOT.
 * Holds the board. */
static int wait_for_close(struct clsm_seat *seat, struct clsm_patience *patience) {
    clsm_store *store = seat->store;
    struct clsm_board *board = &store->board;
    const uint64_t closed = board->closed;
    if (atomic_load(&board->held) == 0) return CLSM_OK;
    if (clsm_has_view(seat)) return CLSM_OWN_SNAPSHOT;
    if (store->patience == 0) return CLSM_VERSIONS_FULL;
    const struct timespec *end = end_of(store, patience);
    while (board->closed == closed)
        if (!wait_for_news(store, end)) return CLSM_VERSIONS_FULL;
    return CLSM_OK;
}

/* ---- Room for a write that found its epoch full */

/* The end of the epoch that a write found full at this time. */
static uint64_t end_of_epoch(const clsm_store *store, uint64_t time) {
    return (time + store->cells - 1) / store->cells * store->cells;
}

/* The write itself merges, unless another one does. Holds the board. */
static int merge_here(clsm_store *store, uint64_t end, struct clsm_patience *patience) {
    if (clsm_limit(store) > end) return CLSM_OK;
    const bool is_next = begin_wait(store, end, patience);
    while (clsm_limit(store) <= end && clsm_is_merging(store)) wait_for_news(store, NULL);
    if (is_next) end_wait(store, end, patience);
    if (clsm_limit(store) > end) return CLSM_OK;
    clsm_merger_take(store);
    pthread_mutex_unlock(&store->board.lock);
    int code = clsm_merge_past(store, end);
    pthread_mutex_lock(&store->board.lock);
    clsm_merger_give(store, code);
    return code;
}

/* Sleeps until the merger's thread has made room, or could not. Holds the board. */
static int wait_for_merge(clsm_store *store, uint64_t end, struct clsm_patience *patience) {
    struct clsm_board *board = &store->board;
    if (clsm_limit(store) > end) return CLSM_OK;
    if (board->full < end) board->full = end;
    const uint64_t mine = ++board->calls;
    clsm_merger_call(store);
    const bool is_next = begin_wait(store, end, patience);
    while (clsm_limit(store) <= end && board->refused < mine) wait_for_news(store, NULL);
    if (is_next) end_wait(store, end, patience);
    return clsm_limit(store) > end ? CLSM_OK : board->refusal_of_calls;
}

/* Notes a wait for room that began then. */
static void note_wait(clsm_store *store, uint64_t began) {
    clsm_count_one(&store->counts.waits);
    clsm_raise(&store->counts.longest_wait, clsm_now() - began);
}

int clsm_make_room(struct clsm_seat *seat, uint64_t time, struct clsm_patience *patience) {
    clsm_store *store = seat->store;
    const uint64_t end = end_of_epoch(store, time), began = clsm_now();
    int code;
    clsm_end_patience(store, patience);
    pthread_mutex_lock(&store->board.lock);
    do {
        code = store->merges_in_calls ? merge_here(store, end, patience)
                                      : wait_for_merge(store, end, patience);
        if (code != CLSM_VERSIONS_FULL) break;
        code = wait_for_close(seat, patience);
    } while (code == CLSM_OK);
    pthread_mutex_unlock(&store->board.lock);
    note_wait(store, began);
    return code;
}

int clsm_find_full(clsm_store *store) {
    int refusal = atomic_load(&store->board.refusal);
    clsm_merger_call(store);
    return refusal ? refusal : CLSM_FULL;
}

/* ---- Room for batches
 *
 * Writes that fill an epoch before the merge of the last one is done wait for that merge, and so
 * would batches. Where there were some of late, other writes leave them the last part of the epoch:
 * then only the others wait. If the merge comes to nothing, all have it. */

enum {
    EPOCHS_OF_BATCHES = 64 /* so many epochs ago is of late */
};

uint64_t clsm_open_writes(const clsm_store *store) {
    return store->cells - store->cells / CLSM_PARTS_OF_EPOCH;
}

void clsm_note_batch(clsm_store *store, uint64_t time) {
    clsm_raise(&store->board.batched, time / store->cells + EPOCHS_OF_BATCHES);
}

static bool is_for_batches(clsm_store *store) {
    return atomic_load_explicit(&store->gate, memory_order_relaxed) & CLSM_RESERVED;
}

void clsm_reserve(clsm_store *store, uint64_t epoch) {
    struct clsm_board *board = &store->board;
    if (atomic_load_explicit(&board->batched, memory_order_relaxed) <= epoch) return;
    if (is_for_batches(store) || atomic_load(&board->refusal) != CLSM_OK) return;
    clsm_raise(&board->reserved, epoch + 1);
    atomic_fetch_or(&store->gate, CLSM_RESERVED);
}

void clsm_end_reserve(clsm_store *store) {
    atomic_store(&store->board.reserved, 0);
    atomic_fetch_and(&store->gate, ~(unsigned)CLSM_RESERVED);
}

bool clsm_check_reserve(clsm_store *store) {
    const bool is_current = atomic_load(&store->board.reserved) > store->board.frozen;
    if (!is_current) clsm_end_reserve(store);
    return is_current;
}

/* Waits for the next epoch, or until this one is open to all: OK. */
static int wait_beside_batches(clsm_store *store, struct clsm_patience *patience) {
    const uint64_t began = clsm_now();
    pthread_mutex_lock(&store->board.lock);
    const bool waits = clsm_check_reserve(store);
    if (waits) wait_for_merge(store, clsm_limit(store), patience);
    pthread_mutex_unlock(&store->board.lock);
    if (waits) note_wait(store, began);
    return CLSM_OK;
}

/* The same of a write that does not wait: OK, FULL, or BUSY if another one has the board. */
static int try_beside_batches(clsm_store *store) {
    if (pthread_mutex_trylock(&store->board.lock)) return CLSM_BUSY;
    const bool is_current = clsm_check_reserve(store);
    pthread_mutex_unlock(&store->board.lock);
    return is_current ? CLSM_FULL : CLSM_OK;
}

/* ---- The pace of writes beside a long merge */

/* Whether the next merge is into level 1, which copies all that is there. */
static bool is_long(const clsm_store *store) {
    return store->board.frozen % CLSM_MERGES_OF_LEVELS == 0;
}

void clsm_begin_merge(clsm_store *store, uint64_t began) {
    if (!is_long(store) || store->merges_in_calls) return;
    atomic_store(&store->pace.takes, store->pace.last);
    atomic_store(&store->pace.began, began);
}

void clsm_end_merge(clsm_store *store, uint64_t took) {
    atomic_store(&store->pace.began, 0);
    if (is_long(store) && took > 0) store->pace.last = took;
}

void clsm_keep_pace(clsm_store *store, uint64_t drawn) {
    enum { MOST_NANOSECONDS = 1000000, LEAST_NANOSECONDS = 20000 };
    const uint64_t began = atomic_load_explicit(&store->pace.began, memory_order_relaxed);
    if (began == 0) return;
    const uint64_t takes = atomic_load_explicit(&store->pace.takes, memory_order_relaxed);
    const uint64_t due = takes / store->cells * drawn, passed = clsm_now() - began;
    if (due < passed + LEAST_NANOSECONDS) return;
    const uint64_t early = due - passed;
    clsm_sleep(early < MOST_NANOSECONDS ? (long)early : MOST_NANOSECONDS);
}

/* ---- How many keys there may be */

void clsm_note_removals(clsm_store *store, size_t removals) {
    if (removals > 0 && !clsm_is_gate_open(store))
        atomic_fetch_add(&store->crowd.removals, removals);
}

/* Notes that so many keys have a value, at most. Holds the board. */
static void note_bound(clsm_store *store, uint64_t bound, bool is_counted) {
    struct clsm_crowd *crowd = &store->crowd;
    atomic_store(&crowd->bound, bound);
    atomic_store(&crowd->is_counted, is_counted);
    if (bound > store->keys) atomic_fetch_or(&store->gate, CLSM_CROWDED);
    else atomic_fetch_and(&store->gate, ~(unsigned)CLSM_CROWDED);
}

void clsm_note_keys(clsm_store *store, uint64_t entries) {
    struct clsm_patience patience = CLSM_PATIENCE;
    pthread_mutex_lock(&store->board.lock);
    atomic_fetch_add(&store->crowd.merges, 1);
    note_bound(store, entries, false);
    pthread_mutex_unlock(&store->board.lock);
    /* Batches that passed the gate before are in this epoch, or in none. */
    while (entries > store->keys && atomic_load(&store->crowd.batches) > 0)
        clsm_be_patient(&patience);
}

static bool is_crowded(clsm_store *store) { return atomic_load(&store->gate) & CLSM_CROWDED; }

/* Whether a count may find fewer keys than are known of. */
static bool is_worth_a_count(clsm_store *store) {
    struct clsm_crowd *crowd = &store->crowd;
    pthread_mutex_lock(&store->board.lock);
    const bool is_worth =
        !atomic_load(&crowd->is_counted)
        || atomic_load(&crowd->bound) <= store->keys + atomic_load(&crowd->removals);
    pthread_mutex_unlock(&store->board.lock);
    return is_worth;
}

/* Counts the keys that have a value, by this seat. That is not noted if a merge came between, as
 * the merge noted more; removals that come meanwhile are not in it. */
static uint64_t count_keys(struct clsm_seat *seat) {
    clsm_store *store = seat->store;
    const uint64_t merges = atomic_load(&store->crowd.merges), time = seat->time;
    atomic_store(&store->crowd.removals, 0);
    const uint64_t keys = clsm_count_keys(seat, 0, UINT64_MAX);
    seat->time = time; /* no call of the user's was answered */
    pthread_mutex_lock(&store->board.lock);
    if (atomic_load(&store->crowd.merges) == merges) note_bound(store, keys, true);
    pthread_mutex_unlock(&store->board.lock);
    return keys;
}

/* Whether there may be one more key: OK, RUN_FULL, or BUSY if another one counts. */
static int admit(struct clsm_seat *seat, bool may_wait) {
    clsm_store *store = seat->store;
    pthread_mutex_t *counting = &store->crowd.counting;
    if (may_wait) pthread_mutex_lock(counting);
    else if (pthread_mutex_trylock(counting)) return CLSM_BUSY;
    bool is_refused = is_crowded(store);
    if (is_refused && is_worth_a_count(store)) is_refused = count_keys(seat) > store->keys;
    pthread_mutex_unlock(counting);
    return is_refused ? CLSM_RUN_FULL : CLSM_OK;
}

static bool has_value(struct clsm_seat *seat, uint64_t key) {
    const clsm_core_key ask = {key};
    clsm_core_got answer;
    return clsm_core_get(&seat->core, &ask, &answer) == CLSM_OK;
}

/* Whether the write would give a key a value that has none. */
static bool grows(struct clsm_seat *seat, const struct clsm_entry *entry) {
    if (entry->growth == CLSM_KEY_GROWS) return !has_value(seat, entry->key);
    if (entry->growth == CLSM_NO_GROWTH) return false;
    for (size_t i = 0; i < entry->count; i++) {
        const clsm_core_row *row = &entry->rows[i];
        if (row->value.length > 0 && !has_value(seat, row->key)) return true;
    }
    return false;
}

/* ---- The gate */

int clsm_pass_gate(struct clsm_seat *seat, const struct clsm_entry *entry,
                   struct clsm_patience *patience, bool may_wait) {
    clsm_store *store = seat->store;
    if (is_anyone_eager(store) && !entry->is_batch && !patience->is_eager) {
        if (!may_wait) return CLSM_BUSY;
        let_in(store);
    }
    if (is_for_batches(store) && !entry->is_batch) {
        int refused = may_wait ? wait_beside_batches(store, patience) : try_beside_batches(store);
        if (refused) return refused;
    }
    if (!is_crowded(store) || !grows(seat, entry)) return CLSM_OK;
    return admit(seat, may_wait);
}
