/* Cupolanettle: an ordered map in memory for many threads, from 64-bit keys to values of one to
 * eight 64-bit words. No read waits for a write or a merge. A thread of the store merges old
 * versions.
 *
 *     clsm_store *store;
 *     clsm_caller *caller;
 *     clsm_value value;
 *     uint64_t words[] = {70, 71};
 *     if (clsm_open(NULL, &store) || clsm_caller_open(store, &caller)) return 1;
 *     clsm_put(caller, 7, words, 2);
 *     if (clsm_get(caller, 7, &value) == CLSM_OK) printf("%d words\n", (int)value.length);
 *     clsm_caller_close(caller);
 *     clsm_close(store);
 *
 * Each write has a time, a number that no other write has, and a caller's times rise. A read has a
 * time too: it answers by all writes below that time, and by no other.
 *
 * A call that ended before another one began is seen by it, if a lock, a channel, a thread's start
 * or join, or a sequentially consistent atomic orders the two. For the rest there is clsm_seen.
 *
 * What C owes, which nothing checks; a handle is what an open call gave:
 * 1. A handle is used between its open and its close only.
 * 2. It is in one call at a time, except for a store. It goes to another thread by a thread's start
 *    or join, a lock, or a sequentially consistent atomic.
 * 3. Each other pointer is to a whole object that nobody else uses during the call; what is const
 *    others may read. It is not null unless its parameter is named or_null.
 * 4. malloc, realloc, posix_memalign and free are of one allocator, which aligns by 16.
 * 5. No call is made in a signal handler, or in a thread that may be cancelled asynchronously. A
 *    forked child may open stores of its own. What was opened before the fork it may only close,
 *    and such a close does nothing.
 * 6. A call has CLSM_STACK bytes of stack.
 * 7. This header and the library are of one build. */
#ifndef CLSM_H
#define CLSM_H

#include <stdbool.h>
#include <stddef.h>
#include <stdint.h>

#ifdef __cplusplus
extern "C" {
#endif

#define CLSM_VERSION        "0.2.0"
#define CLSM_VERSION_NUMBER 200 /* 10,000 * major + 100 * minor + patch */
#define CLSM_SEATS          64  /* callers, snapshots and scans of a store, open at once */
#define CLSM_STACK          16384

/* What calls answer. Below 8 the call was made. From 8 to 15 it may succeed if it is made again.
 * From 16 on it is refused. A call that answers 8 or more has changed nothing, or says what. */
enum clsm_code {
    CLSM_OK = 0,

    CLSM_NOT_FOUND = 1, /* the key has no value */
    CLSM_KEPT = 2,      /* nothing was written: what is there does not fit the change or batch */
    CLSM_DONE = 3,      /* the scan has no row left */
    CLSM_IDLE = 4,      /* nothing was written since the last merge */

    CLSM_FULL = 8,       /* the epoch has no room for this write: a merge must begin first */
    CLSM_BUSY = 9,       /* another thread entered or held the lock of writers just then */
    CLSM_RACED = 10,     /* another write was faster */
    CLSM_OVERTAKEN = 11, /* a reader found it unfinished for too long, and cancelled it */
    CLSM_PINNED = 12,    /* a read that is running still holds what a merge replaced */
    CLSM_CONFLICT = 13,  /* what the transaction read does not stand any more: run it again */

    CLSM_MEMORY = 16,    /* memory ran out */
    CLSM_NO_SEAT = 17,   /* CLSM_SEATS callers, snapshots and scans are open */
    CLSM_RUN_FULL = 18,  /* more keys have a value than the store was opened for */
    CLSM_WORN = 19,      /* times end at 2^62 */
    CLSM_IN_USE = 20,    /* a caller, a snapshot or a scan is open; or in another call */
    CLSM_NO_THREAD = 21, /* the system started no thread */
    CLSM_CLOSED = 22,    /* the handle is closed: nothing but a library with CLSM_CHECKED says so */
    CLSM_VERSIONS_FULL = 25, /* an open snapshot keeps more versions than there is room for */
    CLSM_OWN_SNAPSHOT = 26,  /* so, and the caller has a snapshot or a scan open itself */

    CLSM_BAD_KEYS = 32,     /* options: keys is out of range */
    CLSM_BAD_EPOCH = 33,    /* options: epoch is out of range */
    CLSM_BAD_PATIENCE = 34, /* options: patience is out of range */
    CLSM_BAD_VALUE = 35,    /* a value of no word or of more than eight; a time not reached yet */
    CLSM_BAD_BATCH = 36,    /* a batch of more rows than an epoch has writes */
    CLSM_BAD_POINTER = 37,  /* a pointer is null that must not be */
    CLSM_BAD_BUILD = 38,    /* an option that the library does not know; parts of several builds */
    CLSM_BAD_MERGE = 41,    /* options: merge is neither 0 nor CLSM_MERGE_IN_CALLS */
    CLSM_EMPTY_BATCH = 42,  /* a batch of no row */
    CLSM_BAD_VERSIONS = 43, /* options: versions is out of range */
    CLSM_BAD_WAIT = 44      /* options: wait is out of range */
};

/* What a code says in a few words, as "not found" or "epoch out of range: 4 to 65536"; of any other
 * number "unknown code". A text that stays. Texts may change with each version: compare codes. */
const char *clsm_strerror(int code);

/* CLSM_VERSION of the library. */
const char *clsm_version(void);

typedef struct clsm_store clsm_store;
typedef struct clsm_caller clsm_caller;
typedef struct clsm_snapshot clsm_snapshot;
typedef struct clsm_scan clsm_scan;
typedef struct clsm_walk clsm_walk;
typedef struct clsm_transaction clsm_transaction;

/* The first length of the words. Length 0 is no value, wherever a value is asked for or answered: a
 * key that has none, one that is to have none, a row of a batch that removes its key. In answers
 * the words behind the length are 0; in questions they do not count. */
typedef struct {
    uint64_t length, words[8];
} clsm_value;

typedef struct {
    uint64_t key;
    clsm_value value;
} clsm_row;

/* What a change of a key found, and what the key has after it. */
typedef struct {
    clsm_value before, after;
} clsm_changed;

/* The end of a page: how many rows it has, and, if there are more, the key of the next one. */
typedef struct {
    uint64_t rows, next;
    bool more;
} clsm_page_end;

/* The keys from first to last, both included, and how many of them are to have a value. */
typedef struct {
    uint64_t first, last, keys;
} clsm_range_count;

#define CLSM_MERGE_IN_CALLS 1

/* How to open a store. 0 is a good choice for each field; all of them 0 make a store of 37 MiB.
 * docs/C.md, "Options and sizes", has the ranges, what they cost, and how to choose. */
typedef struct {
    size_t keys;  /* most keys with a value; 0: 100,000 */
    size_t epoch; /* most writes between two merges; 0: by the number of keys */
    int patience; /* how often a read looks again at an unfinished write before it cancels that; 0:
                     64 times, which is the most; -1: not at all */
    int merge;    /* 0: a thread of the store merges; CLSM_MERGE_IN_CALLS: writes do */
    size_t versions; /* room for old versions that open snapshots keep, beside keys; 0: by the
                        number of keys */
    int64_t wait; /* for how many milliseconds a write waits for a snapshot to be closed that keeps
                     it from finding room; 0: 1,000; -1: not at all */
    uint64_t zero[2]; /* 0: later options */
} clsm_options;

/* What a store tells of itself. */
typedef struct {
    uint64_t bytes;                     /* of memory */
    uint64_t callers, snapshots, scans; /* that are open */
    uint64_t oldest_time, oldest_age; /* of the oldest snapshot or scan: the time at which it reads,
                                         and for how many nanoseconds it is open, or 0 */
    uint64_t clock;                   /* the time of the next write; while all seats are in use, as
                                         it was found last */
    uint64_t epoch_writes;            /* writes of the current epoch, by that clock */
    uint64_t level_zero, level_one;   /* entries of the runs, keys and old versions, before the last
                                         merge */
    uint64_t room_for_keys;           /* how many more keys may have a value than level one has
                                         entries */
    uint64_t room_for_versions;       /* how many more entries fit into level one */
    uint64_t merges;                  /* that were made */
    uint64_t last_merge, longest_merge;        /* how many nanoseconds they took */
    uint64_t waits, longest_wait;              /* how often writes waited for room, and how long at
                                                  most */
    uint64_t run_full, versions_full, no_seat; /* how often writes, and opens of handles, were
                                                  refused so: OWN_SNAPSHOT is VERSIONS_FULL here */
} clsm_statistics;

/* ---- Stores */

/* Opens an empty store. Takes all the memory that the store will need, and as much again while it
 * opens. Starts its thread, named clsm-merger, which leaves all signals to others but those of its
 * own faults and of profilers. With null, all options are 0.
 *
 * OK. MEMORY, NO_THREAD, BAD_KEYS, BAD_EPOCH, BAD_PATIENCE, BAD_MERGE, BAD_VERSIONS, BAD_WAIT,
 * BAD_BUILD, BAD_POINTER: *store is null then. */
int clsm_open(const clsm_options *options_or_null, clsm_store **store);

/* Closes a store: ends its thread, which ends a running merge first, and frees its memory. In a
 * forked child it frees nothing, as the thread is not there.
 *
 * OK. IN_USE, BAD_POINTER: the store is open as before. */
int clsm_close(clsm_store *store);

/* Merges all that was written so far, and gives up old versions. The store does so by itself, but
 * not at once: call it after RUN_FULL, once a snapshot is closed, or before many reads. Waits for a
 * merge that is running, and for writes that are; at worst it copies all that is in the store.
 *
 * OK; IDLE. PINNED: not all was merged, as a read that runs still holds what the merge before
 * replaced: call again. VERSIONS_FULL: not all was merged; writes go on while the epoch has room.
 * WORN. BAD_POINTER. */
int clsm_sweep(clsm_store *store);

/* Opens a store, as clsm_open does, with all rows that the other one has at one moment of the call:
 * into one for more keys, say, as a store keeps the size that it was opened with. What is written
 * to the other one later is not among them, so end its writes first if none is to be missed. Times
 * begin anew.
 *
 * It reads a snapshot of the other store, which is open meanwhile, page by page, and writes batch
 * by batch. Costs a read and a write of each row, and memory for 64 rows beside that of the new
 * store.
 *
 * OK. RUN_FULL: the other store has more keys with a value than the new one is to have. NO_SEAT:
 * the other store has none for the snapshot. MEMORY, NO_THREAD, BAD_KEYS, BAD_EPOCH, BAD_PATIENCE,
 * BAD_MERGE, BAD_VERSIONS, BAD_WAIT, BAD_BUILD, BAD_POINTER. *to is null then, and nothing of it is
 * left; the other store is as before. */
int clsm_copy(clsm_store *from, const clsm_options *options_or_null, clsm_store **to);

/* What the store tells of itself. Costs a read, and takes no lock that a write waits for.
 *
 * OK. BAD_POINTER. */
int clsm_stats(clsm_store *store, clsm_statistics *statistics);

/* ---- Callers
 *
 * All reads and writes are a caller's. A thread has one of its own, or takes one from a pool. */

/* Opens a caller. It sees all that callers wrote and read that were closed before.
 *
 * OK. NO_SEAT, BAD_POINTER: *caller is null then. */
int clsm_caller_open(clsm_store *store, clsm_caller **caller);

/* Closes a caller; its snapshots and scans stay open. Null is allowed. */
void clsm_caller_close(clsm_caller *caller);

/* A number from 0 to 63 that no other open caller, snapshot or scan of the store has. CLSM_SEATS of
 * null. */
unsigned clsm_number(const clsm_caller *caller);

/* The time of the last call that was answered: a write's own; of a read, and of a snapshot or a
 * scan that was opened, the time at which it reads. 0 before any, and of null. */
uint64_t clsm_time(const clsm_caller *caller);

/* From this time on, reads see all that this caller wrote and read. For messages that nothing else
 * orders: a thread sends it along, and the one that receives it follows. 0 of null. */
uint64_t clsm_seen(const clsm_caller *caller);

/* Makes this caller read at the time or later from now on, in its new snapshots and scans too.
 * Costs a read, or nothing if it does so already.
 *
 * OK. BAD_VALUE: the store has not reached that time, so nobody has seen it. BAD_POINTER. */
int clsm_follow(clsm_caller *caller, uint64_t seen);

/* ---- Writes
 *
 * A write that was not fast enough is made again: up to seven times after a short pause, and then
 * with sched_yield in between; a batch sleeps for 50 microseconds each time. A write that finds the
 * epoch full sleeps until the store's thread has begun the next epoch, which that does as soon as
 * the merge before is done. In a store with CLSM_MERGE_IN_CALLS, one of the writes that found it
 * full merges, and the others sleep until it has begun the next epoch.
 *
 * While a long merge runs, writes sleep now and then, a millisecond at most, so that they do not
 * fill the epoch long before it ends. They let a batch in that has lost some tries. Where batches
 * were written lately, other writes take the last thirty-second of an epoch for full while the
 * merge before is running: that is left to batches.
 *
 * A write that is refused has written nothing:
 *
 * RUN_FULL: more keys have a value than the store was opened for, and this write would give one
 * more key a value. Writes of keys that have one, and removals, are not refused; once keys were
 * removed, the same write is taken. It counts all keys then, if that may help.
 *
 * VERSIONS_FULL: the epoch is full, and the one before cannot be merged, since an open snapshot or
 * scan keeps more old versions than there is room for. The write has waited for that to be closed,
 * for as long as the options say. OWN_SNAPSHOT: so, and this caller has a snapshot or a scan open
 * itself: it did not wait. While none is open, a write always finds room. */

/* Writes a value of so many words, 1 to 8, at the key.
 * OK; RUN_FULL, VERSIONS_FULL, OWN_SNAPSHOT, WORN, BAD_VALUE, BAD_POINTER. */
int clsm_put(clsm_caller *caller, uint64_t key, const uint64_t *words, size_t count);

/* Removes the key, whether or not it has a value; in the epoch it takes the room of a put.
 * OK; VERSIONS_FULL, OWN_SNAPSHOT, WORN, BAD_POINTER. */
int clsm_remove(clsm_caller *caller, uint64_t key);

/* As clsm_put and clsm_remove, but they are made once and never wait: also FULL, BUSY, RACED,
 * OVERTAKEN, and VERSIONS_FULL at once. FULL has called the store's thread, if it has one: the
 * epoch before may still be merged. VERSIONS_FULL and WORN have called it too: the last merge came
 * to that. Without a thread, nothing merges until a write that waits does, or clsm_sweep. */
int clsm_try_put(clsm_caller *caller, uint64_t key, const uint64_t *words, size_t count);
int clsm_try_remove(clsm_caller *caller, uint64_t key);

/* Writes all rows at one moment: each read has all of them or none. Of several rows of one key the
 * last one wins. Their times follow one another; clsm_time answers the first one's. It takes memory
 * for the rows while it runs, and the room of a put for each of them: if the epoch has not as much
 * left, it waits for the next epoch. It lets no other write run beside it, but every read.
 *
 * OK; RUN_FULL if one of the keys would be one more, VERSIONS_FULL, OWN_SNAPSHOT, WORN, MEMORY,
 * EMPTY_BATCH, BAD_BATCH, BAD_VALUE if a value has more than eight words, BAD_POINTER. Nothing was
 * written then. */
int clsm_batch(clsm_caller *caller, const clsm_row *rows, size_t count);

/* Writes all rows at one moment, as clsm_batch, if what is expected is there at that moment: each
 * row of expected asks that its key has its value, or none if its length is 0, and each of counts
 * asks that so many keys of its range have one. So a caller reads, decides, and writes if all that
 * it read still stands; a range is the same if its rows and their number are. Values are compared,
 * not when they were written. Conditions of one key count each for itself. With no row, it tests
 * the conditions alone, at clsm_time. Each pointer may be null if its count is 0.
 *
 * It waits as clsm_batch does. No other write runs while it tests: that costs a clsm_get for each
 * row of expected, and a visit of each key of the ranges. It takes memory while it runs.
 *
 * OK. KEPT: nothing was written, since not all conditions hold at clsm_time; the first one that
 * does not is at *unmet_or_null, where counts are numbered behind the rows of expected; that is a
 * read. Refused as clsm_batch is, but for EMPTY_BATCH: BAD_VALUE also if an expected value has more
 * than eight words. *unmet_or_null is as before if the answer is not KEPT. */
int clsm_batch_if(clsm_caller *caller, const clsm_row *expected, size_t expected_count,
                  const clsm_range_count *counts, size_t counts_count, const clsm_row *rows,
                  size_t count, size_t *unmet_or_null);

/* Removes all keys from first to last, both included, or all keys of the store, and leaves at
 * *removed_or_null how many it has removed.
 *
 * It is not one moment: it reads page by page, and removes the keys of each by a batch, of up to 64
 * rows, or a quarter of an epoch if that is less. So others see some of the keys gone, and some not
 * yet. A key that it has read it removes with the value that the key has by then, which another
 * write may have given it meanwhile; one that gets its first value where it has read already stays.
 * It waits as batches do, between which other writes are made. Costs a read and a write of each
 * row, and takes memory for 64 rows; it is no snapshot, and keeps no versions.
 *
 * OK. VERSIONS_FULL, OWN_SNAPSHOT, WORN, MEMORY: the keys that it came to before are removed, and
 * the same call goes on from there. BAD_POINTER. */
int clsm_remove_range(clsm_caller *caller, uint64_t first, uint64_t last,
                      uint64_t *removed_or_null);
int clsm_clear(clsm_caller *caller, uint64_t *removed_or_null);

/* Removes the least key of the range that has a value, or the greatest one, and leaves its row at
 * *row. That is one step: at its moment the row was the first, or the last, of the range. So
 * threads that take rows out of one range get each of them once.
 *
 * It is a clsm_first or a clsm_last, and a clsm_batch_if that no other key is before it; both
 * again, while other writes come between. It waits and takes memory as that does.
 *
 * OK; NOT_FOUND: no key of the range has a value. VERSIONS_FULL, OWN_SNAPSHOT, WORN, MEMORY,
 * BAD_POINTER: nothing was removed. The row is as before if the answer is not OK. */
int clsm_pop_first(clsm_caller *caller, uint64_t first, uint64_t last, clsm_row *row);
int clsm_pop_last(clsm_caller *caller, uint64_t first, uint64_t last, clsm_row *row);

/* ---- Changes
 *
 * A change reads the key and writes it in one step: no other write of the key comes between.
 * Changes wait as clsm_put does, and are refused as it is. KEPT: nothing was written, since the
 * value does not fit the change; that is a read. All of them tell what the key had and has, if
 * changed_or_null is given. */

/* Adds to the word of the key, which counts as 0 if the key has no value. OK; KEPT if the value has
 * several words, or the sum passes 2^64 - 1; BAD_POINTER. */
int clsm_add(clsm_caller *caller, uint64_t key, uint64_t by, clsm_changed *changed_or_null);

/* Writes the value at the key if the key has none. OK; KEPT if it has one; BAD_VALUE if the value
 * has no word or more than eight, BAD_POINTER. */
int clsm_put_if_absent(clsm_caller *caller, uint64_t key, const clsm_value *value,
                       clsm_changed *changed_or_null);

/* Writes the desired value at the key if the key has the expected one. A null pointer stands for no
 * value, as length 0 does: as the expected one the key is to have none, as the desired one it is
 * removed. OK; KEPT if the key has another value than the expected one; BAD_VALUE if one has more
 * than eight words, BAD_POINTER.
 *
 * Any other change is a clsm_get and a clsm_replace of what that answered, until it does not answer
 * KEPT. */
int clsm_replace(clsm_caller *caller, uint64_t key, const clsm_value *expected_or_null,
                 const clsm_value *desired_or_null, clsm_changed *changed_or_null);

/* ---- Reads
 *
 * A read gives the map as it is at one moment. It blocks for no write and no merge: where it finds
 * a write that has begun and not ended, it looks again, as often as the option patience says, and
 * then cancels that write, which is made again. So a get is wait-free, and so is a read of many
 * rows but for two things: malloc may lock, where it takes memory, and clsm_count, a page of
 * more than 512 rows, and a clsm_get_many of more than 256 keys may take a mutex for a moment. A
 * range has all keys from first to last, both included, and none if first > last. */

/* The value of the key. OK; NOT_FOUND, with length 0. BAD_POINTER. */
int clsm_get(clsm_caller *caller, uint64_t key, clsm_value *value_or_null);

/* The values of so many keys at one moment, each at the place of its key: length 0 where the key
 * has none. Costs less than as many calls of clsm_get, and takes no memory. More than 256 keys are
 * read in parts, and that is a snapshot while it runs. The pointers may be null if count is 0.
 *
 * OK. BAD_POINTER: the values are as before. */
int clsm_get_many(clsm_caller *caller, const uint64_t *keys, size_t count, clsm_value *values);

/* How many keys of the range have a value. Visits each of them; while it runs, it is a snapshot.
 * OK; BAD_POINTER. */
int clsm_count(clsm_caller *caller, uint64_t first, uint64_t last, uint64_t *keys);

/* The first rows of the range by rising key, as many as there is room for. If end->more, the next
 * page begins at end->next: it is another read, so take a snapshot or a scan for pages of one map.
 * Takes no memory. If there is room for more than 512 rows, it is a snapshot while it runs. Rows
 * behind those of the page stay as they are. The pointer to the rows may be null if room is 0.
 *
 * OK. BAD_POINTER: end and rows are as before. */
int clsm_page(clsm_caller *caller, uint64_t first, uint64_t last, clsm_row *rows, size_t room,
              clsm_page_end *end);

/* As clsm_page, but by falling key: the last rows of the range, from its end on. If end->more, the
 * last key of the next page is end->next. It is read in windows of up to 32 rows, each upwards, so
 * it costs up to four times what clsm_page does; and further windows, up to 64, before its first
 * row where keys are spread unevenly. */
int clsm_page_down(clsm_caller *caller, uint64_t last, uint64_t first, clsm_row *rows, size_t room,
                   clsm_page_end *end);

/* The row of the least key of the range that has a value, and that of the greatest one. Passes keys
 * that were removed since the last merges, one by one. OK; NOT_FOUND, BAD_POINTER: the row is as
 * before. */
int clsm_first(clsm_caller *caller, uint64_t first, uint64_t last, clsm_row *row);
int clsm_last(clsm_caller *caller, uint64_t first, uint64_t last, clsm_row *row);

/* ---- Snapshots
 *
 * A snapshot reads the map as it was when it was opened. Its caller goes on beside it, and may be
 * closed before it. While it is open, merges keep each version that it may read: if keys are
 * overwritten long enough meanwhile, there is no room for more, and writes wait for it to be
 * closed, or are refused with VERSIONS_FULL. */

/* Opens a snapshot of the present. Costs a read, and takes no memory; it takes a lock only if the
 * caller has no seat to spare, of which it keeps one once it has used it.
 *
 * OK. NO_SEAT, BAD_POINTER: *snapshot is null then. */
int clsm_snapshot_open(clsm_caller *caller, clsm_snapshot **snapshot);

/* Opens a snapshot of the present for any thread, without a caller: it sees all that callers wrote
 * and read that were closed before. Takes a lock.
 *
 * OK. NO_SEAT, BAD_POINTER: *snapshot is null then. */
int clsm_store_snapshot(clsm_store *store, clsm_snapshot **snapshot);

/* Closes a snapshot. Null is allowed. */
void clsm_snapshot_close(clsm_snapshot *snapshot);

/* The time at which it reads. 0 of null. */
uint64_t clsm_snapshot_time(const clsm_snapshot *snapshot);

/* As clsm_number. */
unsigned clsm_snapshot_number(const clsm_snapshot *snapshot);

/* As clsm_get, clsm_get_many, clsm_count, clsm_page, clsm_page_down, clsm_first and clsm_last, of
 * the snapshot's map. */
int clsm_snapshot_get(clsm_snapshot *snapshot, uint64_t key, clsm_value *value_or_null);
int clsm_snapshot_get_many(clsm_snapshot *snapshot, const uint64_t *keys, size_t count,
                           clsm_value *values);
int clsm_snapshot_count(clsm_snapshot *snapshot, uint64_t first, uint64_t last, uint64_t *keys);
int clsm_snapshot_page(clsm_snapshot *snapshot, uint64_t first, uint64_t last, clsm_row *rows,
                       size_t room, clsm_page_end *end);
int clsm_snapshot_page_down(clsm_snapshot *snapshot, uint64_t last, uint64_t first, clsm_row *rows,
                            size_t room, clsm_page_end *end);
int clsm_snapshot_first(clsm_snapshot *snapshot, uint64_t first, uint64_t last, clsm_row *row);
int clsm_snapshot_last(clsm_snapshot *snapshot, uint64_t first, uint64_t last, clsm_row *row);

/* ---- Scans
 *
 * A scan gives the rows of a range one after another, all of the map as it was when it was opened:
 * it is a snapshot, and reads 64 rows at first, and up to 512 at a time as it goes on. Its caller
 * goes on beside it, and may be closed before it. */

/* Opens a scan of the rows from first to last, both included. Takes memory for 64 rows, which the
 * store keeps for later scans; as it goes on it takes some for 512, 40 KiB, or does without.
 *
 * OK. NO_SEAT, MEMORY, BAD_POINTER: *scan is null then. */
int clsm_scan_open(clsm_caller *caller, uint64_t first, uint64_t last, clsm_scan **scan);

/* The next row, by rising key. OK; DONE behind the last one, however often. BAD_POINTER: the row is
 * still the next one. */
int clsm_scan_next(clsm_scan *scan, clsm_row *row);

/* Closes a scan, wherever it is. Null is allowed. */
void clsm_scan_close(clsm_scan *scan);

/* ---- Walks
 *
 * A walk gives the rows of a range one after another, for loops that write as they read: it is no
 * snapshot, keeps no versions and takes no seat. It reads 64 rows at a time, as clsm_page does,
 * each time the map of that moment: a row may have been changed since, and of keys that are written
 * meanwhile behind the walk it tells nothing, as Java's skip lists do. It is its caller's: used in
 * one call at a time with it, and closed before it. */

/* Begins a walk over the rows from first to last, both included. Takes memory for 64 rows.
 *
 * OK. MEMORY, BAD_POINTER: *walk is null then. */
int clsm_walk_open(clsm_caller *caller, uint64_t first, uint64_t last, clsm_walk **walk);

/* The next row, by rising key. OK; DONE behind the last one, however often. BAD_POINTER: the row is
 * still the next one. */
int clsm_walk_next(clsm_walk *walk, clsm_row *row);

/* Ends a walk, wherever it is. Null is allowed. */
void clsm_walk_close(clsm_walk *walk);

/* ---- Transactions
 *
 * A transaction reads the map of one moment, which is that of its first read, with its own writes
 * in it; and its writes are made at one later moment, all of them, if all that it read still has
 * the same values then. So transactions are serializable: they have the effect that they would have
 * one after another, in the order of their times. Nobody waits while one is open. If a conflict
 * answers its end, run it again, from its first read on:
 *
 *     do {
 *         clsm_transaction_get(transaction, 1, &one);
 *         clsm_transaction_put(transaction, 2, one.words, one.length);
 *     } while ((code = clsm_transaction_commit(transaction)) == CLSM_CONFLICT);
 *
 * It is its caller's: used in one call at a time with it, and closed before it. From its first read
 * to its end it is a snapshot, with a seat. It keeps in memory each key that it read or is to
 * write, and each range that it read, with all its rows; of a count no row. Keys may come in any
 * order. A call that is refused has read nothing. */

/* Opens a transaction. Takes 6 KiB of memory.
 *
 * OK. MEMORY, BAD_POINTER: *transaction is null then. */
int clsm_transaction_open(clsm_caller *caller, clsm_transaction **transaction);

/* The value that the key has to it: what it wrote last, or what it reads. OK; NOT_FOUND, with
 * length 0. NO_SEAT, only for its first read; MEMORY, BAD_POINTER: it goes on as it was. */
int clsm_transaction_get(clsm_transaction *transaction, uint64_t key, clsm_value *value_or_null);

/* The same of several keys, as clsm_get_many. OK; NO_SEAT, MEMORY, BAD_POINTER: the values are as
 * before. */
int clsm_transaction_get_many(clsm_transaction *transaction, const uint64_t *keys, size_t count,
                              clsm_value *values);

/* The first rows of the range, as clsm_page, or the last ones, as clsm_page_down, with its own
 * writes among them. It has read the range up to the key of the next row, or all of it if there is
 * none: others' changes there are a conflict, and beyond it they are not. OK. NO_SEAT, MEMORY,
 * BAD_POINTER: end is as before. */
int clsm_transaction_page(clsm_transaction *transaction, uint64_t first, uint64_t last,
                          clsm_row *rows, size_t room, clsm_page_end *end);
int clsm_transaction_page_down(clsm_transaction *transaction, uint64_t last, uint64_t first,
                               clsm_row *rows, size_t room, clsm_page_end *end);

/* The row of the least key of the range that has a value to it, and that of the greatest one. It
 * has read the range up to that key, or all of it if there is none: one row less than a page of one
 * row, which looks for the next one. Passes the keys that it removed itself, too. OK; NOT_FOUND,
 * NO_SEAT, MEMORY, BAD_POINTER: the row is as before. */
int clsm_transaction_first(clsm_transaction *transaction, uint64_t first, uint64_t last,
                           clsm_row *row);
int clsm_transaction_last(clsm_transaction *transaction, uint64_t first, uint64_t last,
                          clsm_row *row);

/* How many keys of the range have a value to it. It has read how many have one without its own
 * writes, and what each key there has that it is to write; other keys may get other values, or come
 * and go in equal number. Visits each key of the range, now and at its end, and keeps none of them
 * but its own in memory. OK. NO_SEAT, MEMORY, BAD_POINTER: the number is as before. */
int clsm_transaction_count(clsm_transaction *transaction, uint64_t first, uint64_t last,
                           uint64_t *keys);

/* Notes a write of so many words, 1 to 8, at the key, or the removal of the key: of several the
 * last one counts. OK. BAD_VALUE, MEMORY, BAD_POINTER: nothing was noted. */
int clsm_transaction_put(clsm_transaction *transaction, uint64_t key, const uint64_t *words,
                         size_t count);
int clsm_transaction_remove(clsm_transaction *transaction, uint64_t key);

/* Adds to the word of the key, as clsm_add: reads it, and notes the sum. OK; KEPT if the value has
 * several words, or the sum passes 2^64 - 1. NO_SEAT, MEMORY, BAD_POINTER: nothing was noted. */
int clsm_transaction_add(clsm_transaction *transaction, uint64_t key, uint64_t by,
                         clsm_changed *changed_or_null);

/* Ends the transaction: makes its writes as clsm_batch_if does, and waits as that. One that has
 * written nothing ends at the moment of its reads, and always with OK. Whatever the answer, it has
 * read and written nothing now, and may be used anew; another read is of a new moment.
 *
 * OK; it writes at clsm_time. CONFLICT: nothing was written, as another one has changed what was
 * read; it has paused, the longer the more conflicts there were in a row, up to a millisecond.
 * RUN_FULL, VERSIONS_FULL, OWN_SNAPSHOT, WORN, MEMORY, BAD_BATCH if it is to write more keys than
 * an epoch has writes, BAD_POINTER: nothing was written. */
int clsm_transaction_commit(clsm_transaction *transaction);

/* Closes a transaction; what it noted is not written. Null is allowed. */
void clsm_transaction_close(clsm_transaction *transaction);

/* ---- For other languages
 *
 * As the closes above, and each sets the pointer to null in the same call, if it closed what that
 * is to: an interrupt that a language lets in between two calls finds the pointer either open or
 * null.
 */
int clsm_close_at(clsm_store **store);
void clsm_caller_close_at(clsm_caller **caller);
void clsm_snapshot_close_at(clsm_snapshot **snapshot);
void clsm_scan_close_at(clsm_scan **scan);

#ifdef __cplusplus
}
#endif

#endif
