/* What the parts of the C layer share. Not for users, who read clsm.h. */
#ifndef CLSM_STORE_H
#define CLSM_STORE_H

#ifndef _GNU_SOURCE
#define _GNU_SOURCE /* the name of a thread */
#endif

#include "../clsm.h"
#include "../core/clsm_core.h"

#include <pthread.h>
#include <semaphore.h>
#include <stdatomic.h>
#include <string.h>
#include <time.h>

/* AddressSanitizer is told which seats are in use. */
#if defined __SANITIZE_ADDRESS__
#define CLSM_POISONS
#elif defined __has_feature
#if __has_feature(address_sanitizer)
#define CLSM_POISONS
#endif
#endif

/* A scan reads so many rows at first, and then this many times as many at a time, up to a part. */
#ifndef CLSM_SCAN_ROWS
#define CLSM_SCAN_ROWS 64
#endif
enum { CLSM_LINE = 64, CLSM_SCAN_GROWS = 4 };
/* So many rows a long read reads, and counts, at a time. */
#ifndef CLSM_PART_ROWS
#define CLSM_PART_ROWS 512
#endif
/* So many keys a read of many keys reads at a time. */
#ifndef CLSM_PART_KEYS
#define CLSM_PART_KEYS 256
#endif
#ifndef CLSM_COUNT_ROWS
#define CLSM_COUNT_ROWS CLSM_SCAN_ROWS /* at most */
#endif
/* Of so many parts of an epoch the last one may be reserved for batches. */
#ifndef CLSM_PARTS_OF_EPOCH
#define CLSM_PARTS_OF_EPOCH 32
#endif
enum { CLSM_NANOSECONDS = 1000000000 }; /* of a second */
enum { CLSM_MERGES_OF_LEVELS = 4 };     /* of so many merges the last one is into level 1 */

/* Users pass these where the core has its own types. */
_Static_assert(sizeof(clsm_value) == sizeof(clsm_core_value), "values");
_Static_assert(offsetof(clsm_value, words) == offsetof(clsm_core_value, words), "words");
_Static_assert(sizeof(clsm_row) == sizeof(clsm_core_row), "rows");
_Static_assert(offsetof(clsm_row, value) == offsetof(clsm_core_row, value), "values of rows");
_Static_assert(sizeof(uint64_t) == sizeof(clsm_core_key), "keys");
_Static_assert(sizeof(clsm_range_count) == sizeof(clsm_core_range_count), "counts");
_Static_assert(offsetof(clsm_range_count, keys) == offsetof(clsm_core_range_count, keys), "keys");

/* What a seat is used as. */
enum clsm_use { CLSM_UNUSED, CLSM_AS_CALLER, CLSM_AS_SNAPSHOT, CLSM_AS_SCAN, CLSM_USES };

/* The place of a scan: the rows that it read last, and the range that is left behind them. */
struct clsm_place {
    clsm_row *rows; /* or null; kept until the store is closed */
    size_t room;    /* so many rows have room there */
    size_t most;    /* so many are read at a time */
    size_t at, count;
    uint64_t next, last;
    bool more;
};

/* A caller of the core, which serves a caller, a snapshot, a scan, or nobody. Whoever has it has it
 * alone, except for the fields below the line. It lies in its store and never moves. */
struct clsm_seat {
    _Alignas(CLSM_LINE) clsm_core_caller core;
    clsm_store *store;
    uint64_t seen;    /* reads are at this time or later */
    uint64_t time;    /* of the last answered call */
    uint64_t tell_at; /* a write at this time or later tells the merger how full the epoch is */
    unsigned number;
    struct clsm_place place;
    /* ---- */
    _Atomic(struct clsm_seat *) spare; /* a seat for the next snapshot of this one as a caller */
    _Atomic(uint64_t) uses; /* how often its use began or ended, times CLSM_USES, plus its use */
    _Atomic(uint64_t)
        view; /* the time of its open snapshot plus CLSM_VIEWS, or CLSM_OPENING, or 0 */
    _Atomic(uint64_t) since;          /* when that was opened, in nanoseconds */
    _Atomic(struct clsm_seat *) home; /* of a snapshot: the seat of its caller, or null */
    _Atomic(uint64_t) home_uses;      /* that seat's uses, as long as that is the same caller */
#ifdef CLSM_CHECKED
    atomic_bool is_in_call;
#endif
};

struct clsm_caller {
    struct clsm_seat seat;
};
struct clsm_snapshot {
    struct clsm_seat seat;
};
struct clsm_scan {
    struct clsm_seat seat;
};

union clsm_handle {
    struct clsm_seat seat;
    clsm_caller caller;
    clsm_snapshot snapshot;
    clsm_scan scan;
};

/* What the view of a seat is, other than 0. */
enum { CLSM_OPENING = 1, CLSM_VIEWS = 2 };

/* The seats that nobody has, except for spares. */
struct clsm_pool {
    pthread_mutex_t lock;
    struct clsm_seat *seats[CLSM_SEATS];
    unsigned count;
    uint64_t seen; /* the greatest of all callers that were closed */
};

/* What writers and whoever merges tell one another. The epochs have numbers from 0 on; the times of
 * epoch e are those from e * cells to (e + 1) * cells. */
struct clsm_board {
    /* Without the lock: a call of the merger's thread never waits. */
    sem_t work;             /* wakes the thread: posted by whoever finds is_called false */
    atomic_bool is_called;  /* the thread may have something to do */
    _Atomic(uint64_t) told; /* the number of the last epoch that was told to be half full, plus 1 */
    _Atomic(uint64_t) reserved; /* of the last one whose end was reserved for batches, plus 1 */
    _Atomic(uint64_t) batched;  /* there were batches of late as long as epochs are below this */
    _Atomic(int) refusal;       /* why the last merge came to nothing, or OK */
    _Atomic(uint64_t) held;     /* the view that was in its way, if that is why, or 0 */
    atomic_bool is_over;        /* the store is being closed */
    /* Under the lock; clsm_stats reads the first without it. */
    _Atomic(uint64_t) frozen; /* so many epochs were frozen: the number of the current one */
    pthread_mutex_t lock;
    pthread_cond_t room;  /* wakes those who wait for room: there is some, or it was refused */
    pthread_cond_t turn;  /* wakes those who wait for the merger */
    unsigned waiting;     /* so many wait for room */
    unsigned batches;     /* so many of them are batches that wait for the next freeze */
    unsigned let_in;      /* and so many of those were let in by one */
    uint64_t full;        /* the greatest end of an epoch that a write found full, or 0 */
    uint64_t calls;       /* how often writes called for room */
    uint64_t refused;     /* so many of these calls were refused or served */
    int refusal_of_calls; /* why */
    uint64_t closed;      /* how often a snapshot ceased to be in the way of a merge */
    uint64_t taken;       /* how often the merger was taken or is waited for, in turn */
    uint64_t given;       /* how often it was given back: nobody has it if that is as often */
};

/* How many keys have a value, at most, while there may be more than the store was opened for. */
struct clsm_crowd {
    pthread_mutex_t counting;   /* one at a time counts */
    _Atomic(uint64_t) merges;   /* merges into level 1 so far */
    _Atomic(uint64_t) bound;    /* so many keys had a value, at most, behind the last of them */
    atomic_bool is_counted;     /* so many had one when they were counted since */
    _Atomic(uint64_t) removals; /* removals since */
    atomic_uint batches;        /* so many tries of batches are being made */
};

/* What is counted for clsm_stats. Whoever has the merger writes what is of merges. */
struct clsm_counts {
    _Atomic(uint64_t) level_zero, level_one;
    _Atomic(uint64_t) merges, last_merge, longest_merge;
    _Atomic(uint64_t) waits, longest_wait;
    _Atomic(uint64_t) run_full, versions_full, no_seat;
    _Atomic(uint64_t) clock; /* as it was found last */
};

/* The pace of writes while a long merge runs, so that they do not fill the epoch long before it
 * ends, and then all wait for it. */
struct clsm_pace {
    _Atomic(uint64_t) began; /* when the running merge began, if it is a long one, or 0 */
    _Atomic(uint64_t) takes; /* how long it takes, as the last one of its kind did */
    uint64_t last;           /* how long that took; for whoever has the merger */
};

/* The gate of writes, a word that hardly ever changes: writes pass where it is 0. */
enum {
    CLSM_CROWDED = 1,  /* there are too many keys */
    CLSM_RESERVED = 2, /* what is left of the epoch is for batches */
    CLSM_EAGER = 4     /* so many batches and freezes want in */
};

struct clsm_store {
    union clsm_handle handles[CLSM_SEATS];
    clsm_core_store core;
    void *memory; /* in which the store lies */
    uint64_t cells, keys, versions;
    uint64_t bytes;    /* that all of it takes */
    uint64_t patience; /* for so many nanoseconds a write waits for a snapshot to be closed */
    bool merges_in_calls;
    unsigned forks; /* how many forks this process descends from, by clsm_forks */
    _Alignas(CLSM_LINE) atomic_uint gate;
    _Alignas(CLSM_LINE) pthread_t thread;
    struct clsm_pool pool;
    struct clsm_board board;
    struct clsm_crowd crowd;
    struct clsm_pace pace;
    struct clsm_counts counts;
    /* For whoever has the merger. */
    clsm_core_merger merger;
};

/* ---- seats.c */

/* How many forks this process descends from, since the first store was opened. */
unsigned clsm_forks(void);
/* Whether this is a child of the process that opened the store: it has not its threads, and its
 * locks may be held for ever. */
bool clsm_is_forked(const clsm_store *store);
/* Takes all callers of the core, and fills the pool with them. */
void clsm_pool_fill(clsm_store *store);
/* Drops them. */
void clsm_pool_drain(clsm_store *store);
/* Whether all seats are back. */
bool clsm_pool_is_whole(clsm_store *store);
/* Takes a seat for a snapshot or a scan of this caller, or null. */
struct clsm_seat *clsm_seat_take_for(struct clsm_seat *caller, enum clsm_use use);
/* Takes a seat for a snapshot of no caller, or null, and answers what closed callers had seen. */
struct clsm_seat *clsm_seat_take(clsm_store *store, enum clsm_use use, uint64_t *seen);
/* Gives such a seat back. */
void clsm_seat_give_home(struct clsm_seat *seat);
/* The time of the next write, as a seat finds that nobody has; 0 if there is none. */
uint64_t clsm_read_clock(clsm_store *store);

/* ---- merging.c */

int clsm_merger_start(clsm_store *store);
void clsm_merger_stop(clsm_store *store);
/* Tells that a seat has written at this time, which is not below its tell_at. Never waits. */
void clsm_board_tell(struct clsm_seat *seat, uint64_t time);
/* Calls the merger's thread, if there is one. Never waits. */
void clsm_merger_call(clsm_store *store);
/* Merges until the epoch that ends there is frozen: OK, VERSIONS_FULL, RUN_FULL, WORN. For whoever
 * has the merger. */
int clsm_merge_past(clsm_store *store, uint64_t end);
/* The end of the current epoch: the times below it may be drawn. */
uint64_t clsm_limit(const clsm_store *store);
/* Whether somebody has the merger, or waits for it; takes it, behind those who wait; gives it back,
 * with what came of it. Each for who holds the board. */
bool clsm_is_merging(const clsm_store *store);
void clsm_merger_take(clsm_store *store);
void clsm_merger_give(clsm_store *store, int code);

/* ---- room.c */

/* How long a write goes on waiting, and for what it has waited so far. */
struct clsm_patience {
    unsigned pauses; /* of the next pause */
    unsigned losses; /* so many tries were lost to other threads */
    bool wants_in;   /* it is a batch */
    bool is_eager;   /* others let this one in first */
    bool has_end;    /* it waits for a snapshot to be closed, until then */
    struct timespec end;
};
static const struct clsm_patience CLSM_PATIENCE = {.pauses = 1};

/* What a write may do to the number of keys that have a value. */
enum clsm_growth { CLSM_NO_GROWTH, CLSM_KEY_GROWS, CLSM_ROWS_GROW };

/* What is asked of a write before it is made: whether it is of several rows, what may grow, and how
 * many of its rows remove their key. */
struct clsm_entry {
    bool is_batch;
    enum clsm_growth growth;
    uint64_t key;
    const clsm_core_row *rows;
    size_t count, removals;
};

/* Sleeps so long, less than a second; a thread that is cancelled meanwhile goes on behind it. */
void clsm_sleep(long nanoseconds);
/* Pauses 1, 2, 4 .. 64 times, then lets other threads run. */
void clsm_be_patient(struct clsm_patience *patience);
/* Sleeps on a condition of the board, until the time if there is one: whether that is not over. */
bool clsm_sleep_on(clsm_store *store, pthread_cond_t *condition, const struct timespec *until);
/* Wakes those who wait for room. For who holds the board. */
void clsm_tell_news(clsm_store *store);
/* Lets batches in first that wait for room, of which there is some now: writes that wake with them
 * would else fill the epoch before them. For who holds the board. */
void clsm_let_batches_in(clsm_store *store);
/* Tells that no view is in the way of a merge any more, if one was. */
void clsm_tell_unheld(clsm_store *store);
/* Tells that a view was closed, if it was in the way of a merge. */
void clsm_tell_closed(clsm_store *store, uint64_t view);
/* Answers FULL to a write that does not wait, or why the last merge came to nothing; and calls the
 * merger's thread, if there is one. */
int clsm_find_full(clsm_store *store);
/* Waits for room behind the epoch that a write found full at this time: OK, VERSIONS_FULL,
 * OWN_SNAPSHOT, RUN_FULL, WORN. */
int clsm_make_room(struct clsm_seat *seat, uint64_t time, struct clsm_patience *patience);
/* Lets those in that have lost some tries, leaves batches what is reserved for them, and asks
 * whether there may be more keys: OK, RUN_FULL. A write that may not wait is answered BUSY, FULL.
 */
int clsm_pass_gate(struct clsm_seat *seat, const struct clsm_entry *entry,
                   struct clsm_patience *patience, bool may_wait);
/* Notes a try that was lost to another thread, and pauses; a batch wants in behind some. */
void clsm_lose(clsm_store *store, bool wants_in, struct clsm_patience *patience);
/* Notes a batch that was written at this time. */
void clsm_note_batch(clsm_store *store, uint64_t time);
/* How many writes of an epoch are open to all; the rest may be reserved for batches. */
uint64_t clsm_open_writes(const clsm_store *store);
/* Reserves that rest, if there were batches of late. Never waits. */
void clsm_reserve(clsm_store *store, uint64_t epoch);
/* Lets all writes have it. For who holds the board. */
void clsm_end_reserve(clsm_store *store);
/* Whether it is of the current epoch; else that is what it does: who reserved it may have been so
 * late that the epoch was frozen. For who holds the board. */
bool clsm_check_reserve(clsm_store *store);
/* Ends a wait, of whatever came of it. */
void clsm_end_patience(clsm_store *store, struct clsm_patience *patience);
/* Notes removals of a write that was made. */
void clsm_note_removals(clsm_store *store, size_t removals);
/* Keeps the pace of a merge, if a long one is running, behind a write that drew so many of the
 * times of an epoch. */
void clsm_keep_pace(clsm_store *store, uint64_t drawn);
/* Notes that a merge begins, and that it ended and took so long, or 0 if it came to nothing. For
 * whoever has the merger. */
void clsm_begin_merge(clsm_store *store, uint64_t began);
void clsm_end_merge(clsm_store *store, uint64_t took);
/* Notes how many entries a merge into level 1 left. For whoever has the merger. */
void clsm_note_keys(clsm_store *store, uint64_t entries);

static inline bool clsm_is_gate_open(clsm_store *store) {
    return atomic_load_explicit(&store->gate, memory_order_relaxed) == 0;
}

/* ---- statistics.c */

/* Now, in nanoseconds. */
uint64_t clsm_now(void);
/* Counts a refusal, and hands its code on. */
int clsm_note_refusal(clsm_store *store, int code);
/* Notes one more, and the greatest. */
void clsm_count_one(_Atomic(uint64_t) *count);
void clsm_raise(_Atomic(uint64_t) *greatest, uint64_t number);

/* ---- calls.c */

/* A range to be read by rising key, or by falling key. */
struct clsm_span {
    uint64_t first, last;
    bool falls;
};

/* What is left of it from this key on. */
static inline struct clsm_span clsm_span_from(struct clsm_span span, uint64_t next) {
    if (span.falls) span.last = next;
    else span.first = next;
    return span;
}

/* Reads a page as a call of the caller's: OK, BAD_POINTER. */
int clsm_page_of(clsm_caller *caller, struct clsm_span span, clsm_row *rows, size_t room,
                 clsm_page_end *end);

/* ---- views.c */

/* Reads a page as a call of the snapshot's: OK, BAD_POINTER. */
int clsm_snapshot_page_of(clsm_snapshot *snapshot, struct clsm_span span, clsm_row *rows,
                          size_t room, clsm_page_end *end);

/* The oldest open view of all seats, or UINT64_MAX. */
uint64_t clsm_oldest_view(clsm_store *store);
/* Whether the caller has a view open. */
bool clsm_has_view(struct clsm_seat *caller);

/* Counts the keys of a range that have a value, at the snapshot of the seat, or else at one of its
 * own: the time of the last call is that of the snapshot then. */
uint64_t clsm_count_keys(struct clsm_seat *seat, uint64_t first, uint64_t last);
/* Reads a page, at the snapshot of the seat if it has one: OK, BAD_POINTER. */
int clsm_read_page(struct clsm_seat *seat, struct clsm_span span, clsm_row *rows, size_t room,
                   clsm_core_paged *answer, clsm_page_end *end);
/* Reads keys at one time, at the snapshot of the seat if it has one: OK, BAD_POINTER. */
int clsm_read_keys(struct clsm_seat *seat, const uint64_t *keys, size_t count, clsm_value *values,
                   clsm_core_time *answer);

/* What is rare, kept out of what is not. */
#if defined __GNUC__
#define CLSM_APART __attribute__((noinline, cold))
#else
#define CLSM_APART
#endif

/* ---- Calls on a handle */

static inline enum clsm_use clsm_use_of(struct clsm_seat *seat) {
    return (enum clsm_use)(atomic_load_explicit(&seat->uses, memory_order_acquire) % CLSM_USES);
}

/* Begins a call on a handle: OK; BAD_POINTER. Where CLSM_CHECKED is set, CLOSED if it is not used
 * so, and IN_USE if another call is running on it. */
static inline int clsm_begin(struct clsm_seat *seat, enum clsm_use use) {
    if (!seat) return CLSM_BAD_POINTER;
#ifdef CLSM_CHECKED
    if (clsm_use_of(seat) != use) return CLSM_CLOSED;
    if (atomic_exchange(&seat->is_in_call, true)) return CLSM_IN_USE;
#elif defined CLSM_POISONS
    (void)*(volatile unsigned *)&seat->number;
#endif
    (void)use;
    return CLSM_OK;
}

/* Begins the close of a handle, as clsm_begin, but CLOSED wherever it is not used so: it was closed
 * before, or the process has forked since. */
static inline int clsm_begin_close(struct clsm_seat *seat, enum clsm_use use) {
    int refused = clsm_begin(seat, use);
    if (refused) return refused;
    return clsm_use_of(seat) == use && !clsm_is_forked(seat->store) ? CLSM_OK : CLSM_CLOSED;
}

/* Ends the call, and hands its code on. */
static inline int clsm_end(struct clsm_seat *seat, int code) {
#ifdef CLSM_CHECKED
    atomic_store(&seat->is_in_call, false);
#else
    (void)seat;
#endif
    return code;
}

/* Hands a value on, if it is wanted. One of several words goes word by word: a wider load would
 * wait for the core's stores, each of which is of a word. */
static inline void clsm_hand_on(const clsm_core_value *found, clsm_value *value_or_null) {
    if (!value_or_null) return;
    if (found->length <= 1) {
        *value_or_null = (clsm_value){found->length, {found->words[0]}};
        return;
    }
    const volatile uint64_t *from = (const volatile uint64_t *)found;
    uint64_t *to = (uint64_t *)value_or_null;
    for (size_t i = 0; i < sizeof *found / sizeof *from; i++) to[i] = from[i];
}

/* Notes a read at this time, unless that runs back: contracts of the core order only what one seat
 * does, and what a caller saw may be another's. */
static inline bool clsm_is_in_order(struct clsm_seat *seat, uint64_t time) {
    if (time < seat->seen) return false;
    seat->seen = time;
    seat->time = time;
    return true;
}

#endif
