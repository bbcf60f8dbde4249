/* The merger: its thread, and how writers call it and wait for it. */
#include "store.h"

#include <errno.h>
#include <sched.h>
#include <signal.h>
#include <time.h>

/* ---- Calling the merger's thread, which takes no lock */

static void call_thread(struct clsm_board *board) {
    if (!atomic_exchange(&board->is_called, true)) sem_post(&board->work);
}

/* Sleeps until the thread is called. */
static void await_call(struct clsm_board *board) {
    while (sem_wait(&board->work) && errno == EINTR) continue;
    atomic_store(&board->is_called, false);
}

/* How many writes of an epoch call the merger's thread. */
static uint64_t half_of_epoch(const clsm_store *store) { return store->cells / 2; }

/* Tells that half of this epoch is drawn, unless somebody did. */
static void tell_half(clsm_store *store, uint64_t epoch) {
    struct clsm_board *board = &store->board;
    uint64_t told = atomic_load(&board->told);
    while (told <= epoch && !atomic_compare_exchange_weak(&board->told, &told, epoch + 1)) continue;
    if (told <= epoch) call_thread(board);
}

/* A write tells of itself behind so many times, which are a part of an epoch. */
static uint64_t step_of_telling(const clsm_store *store) {
    enum { STEPS_OF_EPOCH = 1024 };
    return store->cells / STEPS_OF_EPOCH + 1;
}

/* Has the seat tell by this time, if it is after that one. */
static void tell_soon(struct clsm_seat *seat, uint64_t time, uint64_t by) {
    if (time < by && by < seat->tell_at) seat->tell_at = by;
}

void clsm_board_tell(struct clsm_seat *seat, uint64_t time) {
    clsm_store *store = seat->store;
    const uint64_t epoch = time / store->cells, drawn = time % store->cells + 1;
    const uint64_t first = epoch * store->cells;
    seat->tell_at = time + step_of_telling(store);
    tell_soon(seat, time, first + half_of_epoch(store) - 1);
    tell_soon(seat, time, first + clsm_open_writes(store) - 1);
    if (drawn >= half_of_epoch(store)) tell_half(store, epoch);
    if (drawn >= clsm_open_writes(store)) clsm_reserve(store, epoch);
    clsm_keep_pace(store, drawn);
}

void clsm_merger_call(clsm_store *store) {
    if (!store->merges_in_calls) call_thread(&store->board);
}

/* ---- The merger; each function of this part is for who holds the board */

uint64_t clsm_limit(const clsm_store *store) { return (store->board.frozen + 1) * store->cells; }

/* Whether a write waits for room, and the merger has not tried since. */
static bool is_waited_for(const clsm_store *store) {
    return store->board.full >= clsm_limit(store) && store->board.calls > store->board.refused;
}

void clsm_merger_take(clsm_store *store) {
    struct clsm_board *board = &store->board;
    const uint64_t mine = board->taken++;
    while (board->given != mine) clsm_sleep_on(store, &board->turn, NULL);
}

bool clsm_is_merging(const clsm_store *store) { return store->board.taken != store->board.given; }

static bool is_refusal(int code) { return code >= CLSM_MEMORY; }

void clsm_merger_give(clsm_store *store, int code) {
    struct clsm_board *board = &store->board;
    if (code != CLSM_PINNED) atomic_store(&board->refusal, is_refusal(code) ? code : CLSM_OK);
    board->given++;
    if (clsm_is_merging(store)) pthread_cond_broadcast(&board->turn);
    else if (store->merges_in_calls) clsm_tell_news(store);
}

/* ---- Steps of whoever has the merger, which do not hold the board */

/* The merger's phase, which the core keeps: an epoch is frozen, or it is merged and a read is in
 * the way of reclaiming what that replaced, or neither. */
static clsm_core_phase phase_of(clsm_store *store) {
    clsm_core_phase phase;
    clsm_core_phase_of(&store->merger, &phase);
    return phase;
}

static bool is_clean(clsm_store *store) {
    const clsm_core_phase phase = phase_of(store);
    return !phase.frozen && !phase.retired;
}

/* Notes how many entries the runs have, behind so many merges. */
static void note_entries(clsm_store *store, uint64_t merges) {
    const uint64_t young = merges % CLSM_MERGES_OF_LEVELS;
    uint64_t entries[2] = {0, 0};
    for (uint64_t run = 0; run <= young; run++) {
        const clsm_core_turn ask = {run};
        clsm_core_entries answer;
        clsm_core_count_entries(&store->merger, &ask, &answer);
        entries[run == young] += answer.entries;
    }
    atomic_store(&store->counts.level_zero, entries[0]);
    atomic_store(&store->counts.level_one, entries[1]);
    if (young == 0 && merges > 0) clsm_note_keys(store, entries[1]);
}

/* Freezes the epoch if so many of its times are drawn: OK, IDLE, WORN. */
static int freeze(clsm_store *store, uint64_t used) {
    struct clsm_board *board = &store->board;
    struct clsm_patience patience = CLSM_PATIENCE;
    const clsm_core_used ask = {used};
    int code;
    while ((code = (int)clsm_core_try_freeze(&store->merger, &ask)) == CLSM_BUSY)
        clsm_lose(store, true, &patience);
    clsm_end_patience(store, &patience);
    if (code != CLSM_OK) return code;
    note_entries(store, board->frozen);
    pthread_mutex_lock(&board->lock);
    board->frozen++;
    clsm_check_reserve(store);
    clsm_let_batches_in(store);
    clsm_tell_news(store);
    pthread_mutex_unlock(&board->lock);
    return CLSM_OK;
}

/* Tries to merge the frozen epoch. Where an open snapshot keeps more entries than there is room
 * for, its close is told from now on; one that was closed meanwhile makes another try worth while.
 */
static int try_finish(clsm_store *store) {
    const clsm_core_used ask = {1};
    clsm_core_time answer;
    for (;;) {
        const uint64_t oldest = clsm_oldest_view(store);
        int code = (int)clsm_core_try_sweep(&store->merger, &ask, &answer);
        if (code != CLSM_RUN_FULL) return code;
        if (oldest == UINT64_MAX) return CLSM_RUN_FULL;
        atomic_store(&store->board.held, oldest);
        if (clsm_oldest_view(store) == oldest) return CLSM_VERSIONS_FULL;
    }
}

/* Merges the frozen epoch, and reclaims what that replaced: OK, PINNED, VERSIONS_FULL; and
 * RUN_FULL, which is not to be. */
static int finish(clsm_store *store) {
    struct clsm_counts *counts = &store->counts;
    const uint64_t began = clsm_now();
    const bool was_merged = phase_of(store).retired;
    if (!was_merged) clsm_begin_merge(store, began);
    int code = try_finish(store);
    const uint64_t took = clsm_now() - began;
    const bool is_done = code == CLSM_OK || code == CLSM_PINNED;
    if (!was_merged) clsm_end_merge(store, is_done ? took : 0);
    if (code != CLSM_VERSIONS_FULL) clsm_tell_unheld(store);
    if (is_done && !was_merged) {
        clsm_count_one(&counts->merges);
        atomic_store(&counts->last_merge, took);
        clsm_raise(&counts->longest_merge, took);
    }
    return code;
}

/* Merges what is frozen, or else the epoch if so many of its times are drawn. */
static int serve(clsm_store *store, uint64_t used) {
    int code = is_clean(store) ? freeze(store, used) : CLSM_OK;
    return code == CLSM_OK ? finish(store) : code;
}

int clsm_merge_past(clsm_store *store, uint64_t end) {
    struct clsm_patience patience = CLSM_PATIENCE;
    for (;;) {
        int code = serve(store, 1);
        if (clsm_limit(store) > end) return CLSM_OK;
        if (code == CLSM_PINNED) clsm_be_patient(&patience);
        else if (code != CLSM_OK) return code;
    }
}

/* ---- Merging at once */

/* Merges what was just frozen. If a read is in the way of giving up what that replaced, the thread
 * does so later, or the next merge. */
static int finish_or_leave(clsm_store *store) {
    int code = finish(store);
    if (code != CLSM_PINNED) return code;
    clsm_merger_call(store);
    return CLSM_OK;
}

int clsm_sweep(clsm_store *store) {
    if (!store) return CLSM_BAD_POINTER;
    pthread_mutex_t *lock = &store->board.lock;
    pthread_mutex_lock(lock);
    clsm_merger_take(store);
    pthread_mutex_unlock(lock);
    const bool was_clean = is_clean(store);
    int code = was_clean ? CLSM_OK : finish(store);
    if (code == CLSM_OK) code = freeze(store, 1);
    if (code == CLSM_OK) code = finish_or_leave(store);
    else if (code == CLSM_IDLE && !was_clean) code = CLSM_OK;
    pthread_mutex_lock(lock);
    clsm_merger_give(store, code);
    pthread_mutex_unlock(lock);
    return code;
}

/* ---- The merger's thread */

/* What follows from what a merge came to, which may have been one of an epoch before. Holds the
 * board; the first so many calls were served. */
static void note(clsm_store *store, int code, uint64_t calls) {
    struct clsm_board *board = &store->board;
    if (is_refusal(code)) {
        board->refused = calls;
        board->refusal_of_calls = code;
        clsm_end_reserve(store);
        clsm_tell_news(store);
    } else if (code != CLSM_PINNED
               && (is_waited_for(store) || atomic_load(&board->told) > board->frozen)) {
        call_thread(board);
    }
}

/* Merges once, if there is something to merge: what serve answers. */
static int merge_once(clsm_store *store) {
    struct clsm_board *board = &store->board;
    pthread_mutex_lock(&board->lock);
    clsm_merger_take(store);
    const uint64_t calls = board->calls;
    const uint64_t used = is_waited_for(store) ? 1 : half_of_epoch(store);
    pthread_mutex_unlock(&board->lock);
    int code = serve(store, used);
    pthread_mutex_lock(&board->lock);
    note(store, code, calls);
    clsm_merger_give(store, code);
    pthread_mutex_unlock(&board->lock);
    return code;
}

/* Rests behind a merge that a running read was in the way of: that many turns lets other threads
 * run, and then sleeps, at first 50 microseconds, at last 800. */
static void rest(unsigned turns) {
    enum { YIELDS = 16, DOUBLINGS = 4, FIRST_NANOSECONDS = 50000 };
    if (turns < YIELDS) {
        sched_yield();
        return;
    }
    const unsigned doublings = turns - YIELDS < DOUBLINGS ? turns - YIELDS : DOUBLINGS;
    nanosleep(&(struct timespec){.tv_nsec = (long)FIRST_NANOSECONDS << doublings}, NULL);
}

/* Sleeps until it is called, merges, and so on until the store is closed. */
static void *merge_beside(void *of) {
    clsm_store *store = of;
    struct clsm_board *board = &store->board;
    for (;;) {
        await_call(board);
        if (atomic_load(&board->is_over)) return NULL;
        for (unsigned turns = 0; merge_once(store) == CLSM_PINNED; turns++) rest(turns);
    }
}

/* The signals that the thread leaves to others: all but those that a thread causes by itself, and
 * that of profilers. */
static void fill_blocked(sigset_t *blocked) {
    static const int own[] = {SIGSEGV, SIGBUS, SIGFPE, SIGILL, SIGTRAP, SIGABRT, SIGSYS, SIGPROF};
    sigfillset(blocked);
    for (size_t i = 0; i < sizeof own / sizeof *own; i++) sigdelset(blocked, own[i]);
}

int clsm_merger_start(clsm_store *store) {
    if (store->merges_in_calls) return CLSM_OK;
    sigset_t blocked, before;
    fill_blocked(&blocked);
    if (pthread_sigmask(SIG_SETMASK, &blocked, &before)) return CLSM_NO_THREAD;
    int failed = pthread_create(&store->thread, NULL, merge_beside, store);
    pthread_sigmask(SIG_SETMASK, &before, NULL);
    if (failed) return CLSM_NO_THREAD;
    /* Only for those who look at threads: a failure harms nobody. */
    (void)pthread_setname_np(store->thread, "clsm-merger");
    return CLSM_OK;
}

void clsm_merger_stop(clsm_store *store) {
    struct clsm_board *board = &store->board;
    int before;
    if (store->merges_in_calls) return;
    atomic_store(&board->is_over, true);
    call_thread(board);
    pthread_setcancelstate(PTHREAD_CANCEL_DISABLE, &before);
    pthread_join(store->thread, NULL);
    pthread_setcancelstate(before, &before);
}
