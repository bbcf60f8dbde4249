/* Scenarios: small uses of a store by a few threads, whose schedules are played. Most are played in
 * both kinds of stores.
 *
 *     schedules [BOTH]                                all of them, within such a bound at most
 *     schedules NAME                                  one; NAME_in_calls where writes merge
 *     schedules NAME SWITCHES CHOICES BOTH SEEDS      within other bounds
 *     schedules NAME usual | POINT:THREAD.. | seed SEED      a schedule again, as it was told */
#include "parts.h"

#include "../mock_core.h"

enum { NEW_KEY = 50, MERGES_OF_LEVELS = 4 };

static unsigned numbers[PARTS]; /* of the threads of the scenario */
clsm_snapshot *snapshots[2];

/* ---- Writes, and what is in their way */

void put_once(uint64_t who) { put((unsigned)who, who, 0); }

static void put_twice(uint64_t who) {
    put_once(who);
    put_once(who);
}

static void put_thrice(uint64_t who) {
    put_twice(who);
    put_once(who);
}

static void add_twice(uint64_t who) {
    add((unsigned)who, 1, 0);
    add((unsigned)who, 1, 0);
}

static void put_or_not(uint64_t who) {
    for (int i = 0; i < 3; i++) put((unsigned)who, 1, OR(WORN) | OR(RUN_FULL));
}

static void try_put_twice(uint64_t who) {
    try_put((unsigned)who, 5, OR(FULL) | OR(BUSY));
    try_put((unsigned)who, 5, OR(FULL) | OR(BUSY));
}

static void batch_of_one(uint64_t who) { batch((unsigned)who, 4, 1, 0); }
static void batch_of_two(uint64_t who) { batch((unsigned)who, 4, 2, 0); }
static void batch_of_old(uint64_t who) { batch((unsigned)who, 1, 3, 0); }
static void batch_of_all(uint64_t who) { batch((unsigned)who, 4, EPOCH, 0); }
static void remove_range_twice(uint64_t key) {
    remove_range(0, key, 0);
    remove_range(0, key, 0);
}
static void sweep_once(uint64_t codes) { sweep(codes); }

/* Lets others try in vain for some time. */
static void linger(void) {
    enum { TURNS = 6 };
    for (int i = 0; i < TURNS; i++) scheduler_yield("lingers");
}

/* Then the core does again what it was told not to. */
static void relent(uint64_t call) {
    linger();
    mock_core_refuse((enum mock_call)call, CLSM_OK, 0);
}

/* From now on the core lets batches lose so often. */
static void lose_batches(uint64_t times) {
    mock_core_refuse(MOCK_BATCH, CLSM_BUSY, (unsigned)times);
}

static void put_and_relent(uint64_t who) {
    linger();
    put_once(who);
    relent(MOCK_BATCH);
}

/* A thread that is cancelled makes the write first that waits for room. */
static void put_and_end(uint64_t who) {
    put_twice(who);
    scheduler_test_cancel();
}

static void batch_and_end(uint64_t who) {
    batch_of_two(who);
    scheduler_test_cancel();
}

static void write_if_and_end(uint64_t who) {
    write_if_once(who);
    scheduler_test_cancel();
}

static void sweep_and_end(uint64_t codes) {
    sweep(codes);
    scheduler_test_cancel();
}

static void transact_and_end(uint64_t who) {
    transact_once(who);
    scheduler_test_cancel();
}

static void cancel(uint64_t part) { scheduler_cancel(numbers[part]); }

void fill(unsigned count) {
    for (unsigned i = 0; i < count; i++) put(0, i, 0);
}

static void fill_one(void) { fill(1); }
static void fill_half(void) { fill(EPOCH / 2); }
static void fill_epoch(void) { fill(EPOCH); }

/* There was a batch of late, for which the last write of an epoch is kept while a merge runs. */
static void batch_and_merge(void) {
    batch_of_two(0);
    scheduler_settle();
}

static void batch_and_reserve_late(void) {
    batch_and_merge();
    reserve_late();
}

/* The merge of the next epoch is a long one, of which it is known how long it takes. */
static void fill_at_pace(void) {
    enum { MERGES = 2 * MERGES_OF_LEVELS - 1, MILLISECOND = 1000000 };
    scheduler_set_time(MILLISECOND, false);
    for (int i = 0; i < MERGES; i++) {
        fill(EPOCH / 2);
        scheduler_settle();
    }
    fill(1);
}

/* A merge that was refused is tried again once a write calls for it. */
static void try_again(void) { try_put(0, 1, OR(FULL) | OR(WORN) | OR(RUN_FULL)); }

/* So is one that nobody waits for, once a write finds the epoch full. */
static void try_till_full(void) {
    while (try_put(0, 1, OR(FULL) | OR(RUN_FULL)) == CLSM_OK) continue;
}

/* Nothing is left to merge, so there is room for any write. */
static void try_surely(void) { try_put(0, 1, 0); }

/* ---- Snapshots that are in the way of a merge */

/* An epoch is frozen, and is not merged before the first snapshot is closed. */
static void hold(unsigned drawn) {
    batch(0, 0, EPOCH, 0);
    if (!snapshots[0]) snapshots[0] = open_snapshot(NULL, 0);
    while (sweep(OR(VERSIONS_FULL)) == CLSM_OK) batch(0, 0, EPOCH, 0);
    scheduler_settle();
    fill(drawn);
}

static void hold_one(void) { hold(1); }
static void hold_full(void) { hold(EPOCH); }

static void hold_two(void) {
    snapshots[1] = open_snapshot(NULL, 0);
    hold(EPOCH);
}

static void hold_own(void) {
    snapshots[0] = open_snapshot(callers[0], 0);
    hold(EPOCH);
}

/* Its caller is closed; then another one has the seat of that. */
static void hold_left(void) {
    snapshots[0] = open_snapshot(callers[1], 0);
    hold(EPOCH);
    clsm_caller_close(callers[1]);
    callers[1] = NULL;
}

static void hold_by_another(void) {
    hold_left();
    callers[1] = open_caller(0);
}

static void keep_spare(void) { read_and_close(open_snapshot(callers[0], 0)); }

static void hold_by_spare(void) {
    keep_spare();
    hold(EPOCH);
}

static void hold_for_a_while(void) {
    hold(EPOCH);
    scheduler_set_time(1, true);
}

void close_snapshot(uint64_t which) {
    read_and_close(snapshots[which]);
    snapshots[which] = NULL;
}

static void open_and_close(uint64_t which) {
    snapshots[which] = open_snapshot(NULL, 0);
    close_snapshot(which);
}

/* Nobody else closes it, so the write must not wait. */
static void put_and_close_own(uint64_t who) {
    expect(put((unsigned)who, 1, OR(OWN_SNAPSHOT)) == CLSM_OWN_SNAPSHOT, "it is its own");
    close_snapshot(0);
}

static void put_or_give_up(uint64_t who) { put((unsigned)who, 1, OR(VERSIONS_FULL)); }
static void try_put_once(uint64_t who) { try_put((unsigned)who, 1, OR(FULL) | OR(VERSIONS_FULL)); }

/* A try is not refused for a snapshot that was closed before. */
static void try_behind(void) { try_put(0, 1, OR(FULL)); }

static void batch_and_put(uint64_t who) {
    batch_of_one(who);
    put_twice(who);
}

/* As many writes as there is room for versions, beside a snapshot. */
static void put_all(uint64_t who) {
    for (uint64_t i = 0; i < 13 * EPOCH; i++) put((unsigned)who, i % EPOCH, 0);
}

static void put_all_and_batch(uint64_t who) {
    batch_of_one(who);
    put_all(who);
}

/* ---- The end of a store */

static void close_all(uint64_t who) {
    int code;
    clsm_caller_close(callers[who]);
    while ((code = clsm_close(the_store)) == CLSM_IN_USE) scheduler_yield("the store is in use");
    expect_code(code, 0, "close");
    the_store = NULL;
}

static void put_and_close(uint64_t who) {
    put_once(who);
    clsm_caller_close(callers[who]);
}

static void sweep_and_close(uint64_t who) {
    sweep(OR(IDLE));
    close_all(who);
}

/* ---- Too many keys: so many of them are in use, and only a count tells. */

static void crowd(uint64_t keys) {
    uint64_t key = 0;
    while (put(0, key, OR(RUN_FULL)) == CLSM_OK) key++;
    while (count_keys(0) > keys) removed(0, --key, 0);
    removed(0, NEW_KEY - 1, 0);
    scheduler_settle();
}

static void crowd_by_none(void) { crowd(KEYS); }
static void crowd_by_one(void) { crowd(KEYS + 1); }

/* There are not too many keys; but once the next epoch is frozen, old versions are taken for some.
 */
static void crowd_by_versions(void) {
    crowd(KEYS + 1);
    snapshots[0] = open_snapshot(NULL, 0);
    do {
        put(0, 0, 0);
        put(0, 0, 0);
        scheduler_settle();
    } while ((clsm_time(callers[0]) / EPOCH + 1) % MERGES_OF_LEVELS != 0);
    expect(put(0, NEW_KEY, OR(RUN_FULL)) == CLSM_RUN_FULL, "there are too many keys");
    removed(0, 1, 0);
}

static void put_old(uint64_t who) { put((unsigned)who, 0, 0); }
static void put_new(uint64_t who) { put((unsigned)who, NEW_KEY + who, OR(RUN_FULL)); }
static void put_new_surely(uint64_t who) { put((unsigned)who, NEW_KEY, 0); }
static void write_if_new(uint64_t who) { batch_if((unsigned)who, NEW_KEY, true, OR(RUN_FULL)); }
static void transact_new(uint64_t who) { transact((unsigned)who, NEW_KEY, OR(RUN_FULL)); }
static void batch_new(uint64_t who) { batch((unsigned)who, NEW_KEY, 2, OR(RUN_FULL)); }

static void try_put_new(uint64_t who) {
    try_put((unsigned)who, NEW_KEY, OR(RUN_FULL) | OR(BUSY) | OR(FULL));
}

static void put_all_new(uint64_t who) {
    uint64_t key = NEW_KEY - 1 - who;
    while (put((unsigned)who, key, OR(RUN_FULL)) == CLSM_OK) key -= 2;
}

static void remove_two(uint64_t who) {
    removed((unsigned)who, 1, 0);
    removed((unsigned)who, 2, 0);
}

/* Now that nobody else writes, a new key is refused only if there are too many. */
static void check_crowd(void) {
    if (snapshots[0]) close_snapshot(0);
    put(0, NEW_KEY - 1, count_keys(0) > KEYS ? OR(RUN_FULL) : 0);
}

/* ---- All of them */

enum kind { BOTH, BESIDE, IN_CALLS };

enum extent { USUAL, FEWER, FEW };
static const struct bounds extents[] = {{2, 2, 4, 1000}, {2, 2, 3, 1000}, {1, 1, 1, 200}};

struct part {
    const char *name;
    void (*run)(uint64_t with);
    uint64_t with;
};

#define AS_IT_IS                MOCK_WRITE, CLSM_OK, 0
#define TOLD(call, code, times) MOCK_##call, CLSM_##code, times
#define BY(run, with)                                                                              \
    { #run, run, with }
#define SCENARIO(name, kind, extent, callers, begin, plan, end, ...)                               \
    {                                                                                              \
        kind, extent, #name, callers, begin, plan, end, { __VA_ARGS__ }                            \
    }

static const struct scenario {
    enum kind kind;
    enum extent extent;
    const char *name;
    unsigned callers;
    void (*begin)(void);
    enum mock_call call; /* of the core: it answers so, that many times */
    uint32_t code;
    unsigned times;
    void (*end)(void); /* what else is checked, or null */
    struct part parts[PARTS];
} scenarios[] = {
    SCENARIO(full, BOTH, USUAL, 2, fill_epoch, AS_IT_IS, NULL, BY(put_thrice, 0),
             BY(put_thrice, 1)),
    SCENARIO(full_three, BOTH, USUAL, 3, fill_epoch, AS_IT_IS, NULL, BY(put_once, 0),
             BY(put_once, 1), BY(put_once, 2)),
    SCENARIO(adds, BOTH, USUAL, 2, fill_epoch, AS_IT_IS, NULL, BY(add_twice, 0), BY(add_twice, 1)),
    SCENARIO(lost, BOTH, USUAL, 2, fill_epoch, TOLD(WRITE, RACED, 3), NULL, BY(put_twice, 0),
             BY(put_twice, 1)),
    SCENARIO(pinned, BOTH, FEWER, 2, fill_epoch, TOLD(SWEEP, PINNED, -1U), NULL, BY(put_thrice, 0),
             BY(put_twice, 1), BY(relent, MOCK_SWEEP)),
    SCENARIO(pinned_alone, BESIDE, USUAL, 1, fill_half, TOLD(SWEEP, PINNED, -1U), NULL,
             BY(relent, MOCK_SWEEP)),
    SCENARIO(busy_freeze, BOTH, FEWER, 2, fill_epoch, TOLD(FREEZE, BUSY, -1U), NULL,
             BY(put_once, 0), BY(put_twice, 1), BY(relent, MOCK_FREEZE)),
    SCENARIO(worn, BOTH, USUAL, 2, fill_epoch, TOLD(FREEZE, WORN, -1U), try_again,
             BY(put_or_not, 0), BY(put_or_not, 1)),
    SCENARIO(run_full, BOTH, USUAL, 2, fill_epoch, TOLD(SWEEP, RUN_FULL, 2), try_again,
             BY(put_or_not, 0), BY(put_or_not, 1)),
    SCENARIO(tries, BOTH, USUAL, 2, fill_epoch, AS_IT_IS, NULL, BY(try_put_twice, 0),
             BY(put_once, 1)),
    SCENARIO(paced, BESIDE, USUAL, 2, fill_at_pace, AS_IT_IS, NULL, BY(put_twice, 0),
             BY(put_twice, 1)),
    SCENARIO(cancelled, BOTH, USUAL, 2, fill_epoch, TOLD(SWEEP, PINNED, 1), NULL,
             BY(put_and_end, 0), BY(put_thrice, 1), BY(cancel, 0)),
    SCENARIO(busy_batch, BOTH, USUAL, 2, fill_one, TOLD(BATCH, BUSY, 5), NULL, BY(batch_of_two, 0),
             BY(put_thrice, 1)),
    SCENARIO(ranges, BOTH, FEWER, 2, fill_epoch, AS_IT_IS, NULL, BY(remove_range_twice, 1),
             BY(put_twice, 1)),
    SCENARIO(busy_ranges, BOTH, FEWER, 2, fill_epoch, TOLD(BATCH, BUSY, 5), NULL,
             BY(remove_range_twice, 1), BY(put_twice, 1)),
    SCENARIO(busy_batches, BOTH, FEWER, 3, fill_epoch, TOLD(BATCH, BUSY, 9), NULL,
             BY(batch_of_two, 0), BY(batch_of_two, 1), BY(put_once, 2)),
    SCENARIO(batch_in_vain, BOTH, FEW, 2, fill_one, TOLD(BATCH, BUSY, -1U), NULL,
             BY(batch_of_two, 0), BY(put_and_relent, 1)),
    SCENARIO(cancelled_at_gate, BOTH, FEWER, 2, fill_one, TOLD(BATCH, BUSY, 40), NULL,
             BY(batch_of_two, 0), BY(put_and_end, 1), BY(cancel, 1)),
    SCENARIO(cancelled_batch, BOTH, FEWER, 2, fill_one, TOLD(BATCH, BUSY, 40), NULL,
             BY(batch_and_end, 0), BY(put_twice, 1), BY(cancel, 0)),
    SCENARIO(cancelled_conditions, BOTH, FEWER, 2, fill_one, TOLD(BATCH, BUSY, 40), NULL,
             BY(write_if_and_end, 0), BY(put_twice, 1), BY(cancel, 0)),
    SCENARIO(cancelled_freeze, IN_CALLS, FEWER, 2, fill_epoch, TOLD(FREEZE, BUSY, 40), NULL,
             BY(put_and_end, 0), BY(put_thrice, 1), BY(cancel, 0)),
    SCENARIO(cancelled_sweep, BOTH, FEWER, 2, fill_half, TOLD(FREEZE, BUSY, 40), NULL,
             BY(sweep_and_end, OR(IDLE)), BY(put_thrice, 1), BY(cancel, 0)),
    SCENARIO(cancelled_transaction, BOTH, FEWER, 2, fill_one, TOLD(BATCH, BUSY, 40), NULL,
             BY(transact_and_end, 0), BY(put_twice, 1), BY(cancel, 0)),
    SCENARIO(full_batches, BOTH, FEWER, 3, fill_epoch, AS_IT_IS, NULL, BY(batch_of_two, 0),
             BY(batch_of_all, 1), BY(put_twice, 2)),
    SCENARIO(full_and_busy, BOTH, FEWER, 1, fill_epoch, AS_IT_IS, NULL, BY(batch_of_two, 0),
             BY(lose_batches, 6)),
    SCENARIO(reserved, BESIDE, FEWER, 2, batch_and_merge, TOLD(SWEEP, PINNED, -1U), try_surely,
             BY(put_thrice, 0), BY(batch_of_one, 1), BY(relent, MOCK_SWEEP)),
    SCENARIO(reserved_three, BESIDE, FEWER, 3, batch_and_merge, AS_IT_IS, try_surely,
             BY(put_thrice, 0), BY(put_thrice, 1), BY(batch_and_put, 2)),
    SCENARIO(reserved_late, BESIDE, FEWER, 2, batch_and_merge, AS_IT_IS, try_surely,
             BY(put_thrice, 0), BY(put_all, 1)),
    SCENARIO(reserved_too_late, BESIDE, USUAL, 2, batch_and_reserve_late, AS_IT_IS, expect_no_waits,
             BY(put_once, 0), BY(put_once, 1)),
    SCENARIO(reserved_tries, BESIDE, USUAL, 2, batch_and_merge, TOLD(SWEEP, PINNED, 3), try_surely,
             BY(put_thrice, 0), BY(try_put_twice, 1)),
    SCENARIO(reserved_and_refused, BESIDE, USUAL, 2, batch_and_merge, TOLD(SWEEP, RUN_FULL, 2),
             try_till_full, BY(put_or_not, 0), BY(put_or_not, 1)),
    SCENARIO(reserved_and_held, BESIDE, FEW, 1, NULL, AS_IT_IS, NULL, BY(open_and_close, 0),
             BY(put_all_and_batch, 0)),
    SCENARIO(long_batch, BOTH, USUAL, 2, fill_one, AS_IT_IS, NULL, BY(batch_of_all, 0),
             BY(put_once, 1)),
    SCENARIO(sweeps, BOTH, FEWER, 1, fill_half, AS_IT_IS, NULL, BY(sweep_once, OR(IDLE)),
             BY(sweep_once, OR(IDLE)), BY(put_thrice, 0)),
    SCENARIO(sweep_pinned, BOTH, USUAL, 1, fill_one, TOLD(SWEEP, PINNED, 1), NULL,
             BY(sweep_once, OR(IDLE) | OR(PINNED)), BY(put_once, 0)),
    SCENARIO(sweep_and_batch, BOTH, USUAL, 1, fill_one, TOLD(SWEEP, PINNED, 2), NULL,
             BY(sweep_once, OR(IDLE) | OR(PINNED)), BY(batch_of_all, 0)),
    SCENARIO(held, BOTH, USUAL, 1, hold_full, AS_IT_IS, NULL, BY(close_snapshot, 0),
             BY(put_twice, 0)),
    SCENARIO(held_two, BOTH, FEWER, 2, hold_full, AS_IT_IS, NULL, BY(close_snapshot, 0),
             BY(put_once, 0), BY(put_once, 1)),
    SCENARIO(held_batch, BOTH, USUAL, 1, hold_one, AS_IT_IS, NULL, BY(close_snapshot, 0),
             BY(batch_of_all, 0)),
    SCENARIO(held_and_sweep, BOTH, FEWER, 1, hold_full, AS_IT_IS, NULL, BY(close_snapshot, 0),
             BY(put_once, 0), BY(sweep_once, OR(VERSIONS_FULL) | OR(IDLE))),
    SCENARIO(held_and_looks, BOTH, FEWER, 1, hold_full, AS_IT_IS, NULL, BY(close_snapshot, 0),
             BY(put_once, 0), BY(look_once, 0)),
    SCENARIO(held_by_two, BOTH, FEWER, 1, hold_two, AS_IT_IS, NULL, BY(close_snapshot, 0),
             BY(close_snapshot, 1), BY(put_once, 0)),
    SCENARIO(held_and_opened, BOTH, FEWER, 1, hold_full, AS_IT_IS, NULL, BY(close_snapshot, 0),
             BY(open_and_close, 1), BY(put_once, 0)),
    SCENARIO(held_by_own, BOTH, USUAL, 2, hold_own, AS_IT_IS, NULL, BY(put_and_close_own, 0),
             BY(put_once, 1)),
    SCENARIO(held_by_another, BOTH, USUAL, 2, hold_by_another, AS_IT_IS, NULL,
             BY(close_snapshot, 0), BY(put_once, 1)),
    SCENARIO(held_by_spare, BOTH, USUAL, 3, hold_by_spare, AS_IT_IS, NULL, BY(close_snapshot, 0),
             BY(put_once, 0)),
    SCENARIO(held_for_a_while, BOTH, FEWER, 2, hold_for_a_while, AS_IT_IS, NULL,
             BY(close_snapshot, 0), BY(put_or_give_up, 0), BY(put_or_give_up, 1)),
    SCENARIO(held_tries, BOTH, USUAL, 2, hold_full, AS_IT_IS, try_behind, BY(close_snapshot, 0),
             BY(try_put_once, 0), BY(try_put_once, 1)),
    SCENARIO(held_by_new, BOTH, FEW, 1, NULL, AS_IT_IS, NULL, BY(open_and_close, 0),
             BY(put_all, 0)),
    SCENARIO(end, BOTH, USUAL, 2, fill_epoch, AS_IT_IS, NULL, BY(put_and_close, 0),
             BY(close_all, 1)),
    SCENARIO(end_behind_sweep, BOTH, USUAL, 2, fill_epoch, AS_IT_IS, NULL, BY(put_and_close, 0),
             BY(sweep_and_close, 1)),
    SCENARIO(end_of_held, BOTH, USUAL, 2, hold_left, AS_IT_IS, NULL, BY(close_snapshot, 0),
             BY(close_all, 0)),
    SCENARIO(end_of_pinned, BOTH, USUAL, 2, fill_half, TOLD(SWEEP, PINNED, 20), NULL,
             BY(put_and_close, 0), BY(close_all, 1)),
    SCENARIO(seats, IN_CALLS, USUAL, 1, NULL, AS_IT_IS, NULL, BY(use_caller, 0),
             BY(use_snapshots, 1), BY(use_store_snapshot, 2)),
    SCENARIO(too_few_seats, IN_CALLS, USUAL, 2, NULL, AS_IT_IS, NULL, BY(use_caller, 0),
             BY(use_snapshots, 1), BY(use_store_snapshot, 2)),
    SCENARIO(no_seats, IN_CALLS, USUAL, 4, NULL, AS_IT_IS, NULL, BY(use_caller, 0),
             BY(use_snapshots, 1), BY(look_twice, 2)),
    SCENARIO(spare, IN_CALLS, USUAL, 3, keep_spare, AS_IT_IS, NULL, BY(use_store_snapshot, 0),
             BY(use_snapshots, 1), BY(use_caller, 2)),
    SCENARIO(two_spares, IN_CALLS, USUAL, 1, open_two, AS_IT_IS, NULL, BY(close_snapshot, 0),
             BY(close_snapshot, 1), BY(use_caller, 2)),
    SCENARIO(left_spare, IN_CALLS, USUAL, 2, open_of_other, AS_IT_IS, NULL, BY(close_snapshot, 0),
             BY(put_and_leave, 1), BY(use_caller, 2)),
    SCENARIO(transactions_and_seats, IN_CALLS, FEWER, 2, NULL, AS_IT_IS, NULL, BY(use_caller, 0),
             BY(use_transaction, 1), BY(use_store_snapshot, 2)),
    SCENARIO(lent_seat, IN_CALLS, USUAL, 2, NULL, AS_IT_IS, NULL, BY(look_twice, 0),
             BY(use_caller, 1), BY(use_snapshots, 2)),
    SCENARIO(looks, BOTH, FEWER, 2, fill_epoch, AS_IT_IS, NULL, BY(look_twice, 0), BY(scan_once, 0),
             BY(put_once, 1)),
    SCENARIO(counts, BOTH, USUAL, 2, fill_epoch, AS_IT_IS, NULL, BY(count_all, 0),
             BY(batch_of_two, 1)),
    SCENARIO(counts_and_puts, BOTH, FEWER, 3, fill_half, AS_IT_IS, NULL, BY(count_all, 0),
             BY(put_thrice, 1), BY(put_twice, 2)),
    SCENARIO(pages, BOTH, USUAL, 2, fill_epoch, AS_IT_IS, NULL, BY(page_all, 0),
             BY(batch_of_old, 1)),
    SCENARIO(pages_down, BOTH, USUAL, 2, fill_epoch, AS_IT_IS, NULL, BY(page_all_down, 0),
             BY(batch_of_old, 1)),
    SCENARIO(many, BOTH, USUAL, 2, fill_epoch, AS_IT_IS, NULL, BY(get_five, 0),
             BY(batch_of_old, 1)),
    SCENARIO(conditions, BOTH, USUAL, 2, fill_epoch, AS_IT_IS, NULL, BY(write_if_till_it_is, 0),
             BY(write_if_till_it_is, 1)),
    SCENARIO(conditions_and_put, BOTH, FEWER, 3, fill_half, AS_IT_IS, NULL, BY(write_if_once, 0),
             BY(put_twice, 1), BY(write_if_once, 2)),
    SCENARIO(transactions, BOTH, FEWER, 2, fill_epoch, AS_IT_IS, NULL, BY(transact_once, 0),
             BY(transact_once, 1)),
    SCENARIO(transaction_and_put, BOTH, FEWER, 2, fill_half, AS_IT_IS, NULL, BY(transact_once, 0),
             BY(put_twice, 1)),
    SCENARIO(crossed, BOTH, USUAL, 2, fill_half, AS_IT_IS, NULL, BY(cross, 0), BY(cross, 1)),
    SCENARIO(crossed_ranges, BOTH, FEWER, 2, fill_half, AS_IT_IS, NULL, BY(cross_ranges, 0),
             BY(cross_ranges, 1)),
    SCENARIO(crossed_and_sweep, BOTH, FEWER, 2, fill_epoch, AS_IT_IS, NULL, BY(cross, 0),
             BY(cross, 1), BY(sweep_once, OR(IDLE))),
    SCENARIO(reading_transaction, BOTH, FEWER, 2, fill_epoch, AS_IT_IS, NULL,
             BY(read_transaction, 0), BY(put_thrice, 1), BY(sweep_once, OR(IDLE))),
    SCENARIO(reading_snapshot, BOTH, FEWER, 2, fill_epoch, AS_IT_IS, NULL, BY(read_snapshot, 0),
             BY(batch_of_old, 1), BY(sweep_once, OR(IDLE))),
    SCENARIO(reading_scan, BOTH, FEWER, 2, fill_epoch, AS_IT_IS, NULL, BY(scan_once, 0),
             BY(batch_of_old, 1), BY(sweep_once, OR(IDLE))),
    SCENARIO(walking, BOTH, FEWER, 2, fill_epoch, AS_IT_IS, NULL, BY(walk_once, 0),
             BY(put_thrice, 1), BY(sweep_once, OR(IDLE))),
    SCENARIO(busy_conditions, BOTH, USUAL, 2, fill_one, TOLD(BATCH, BUSY, 5), NULL,
             BY(write_if_once, 0), BY(put_thrice, 1)),
    SCENARIO(tested, BOTH, FEWER, 2, fill_half, TOLD(BATCH, BUSY, 5), NULL, BY(test_once, 0),
             BY(put_twice, 1)),
    SCENARIO(held_conditions, BOTH, USUAL, 1, hold_full, AS_IT_IS, NULL, BY(close_snapshot, 0),
             BY(write_if_once, 0)),
    SCENARIO(held_transaction, BOTH, FEWER, 1, hold_full, AS_IT_IS, NULL, BY(close_snapshot, 0),
             BY(transact_once, 0)),
    SCENARIO(held_transaction_and_put, BOTH, FEWER, 2, hold_one, AS_IT_IS, NULL,
             BY(close_snapshot, 0), BY(transact_once, 0), BY(put_thrice, 1)),
    SCENARIO(crowded_transaction, BOTH, FEWER, 2, crowd_by_none, TOLD(BATCH, BUSY, 5), check_crowd,
             BY(transact_new, 0), BY(put_new, 1)),
    SCENARIO(crowded_conditions, BOTH, FEWER, 2, crowd_by_none, TOLD(BATCH, BUSY, 5), check_crowd,
             BY(write_if_new, 0), BY(put_new, 1)),
    SCENARIO(two_look, BOTH, FEWER, 2, fill_epoch, AS_IT_IS, NULL, BY(look_once, 0),
             BY(look_once, 0), BY(put_once, 1)),
    SCENARIO(followed, BOTH, USUAL, 2, run_back, AS_IT_IS, NULL, BY(put_and_send, 0),
             BY(follow, 1)),
    SCENARIO(left, BOTH, USUAL, 1, run_back, AS_IT_IS, NULL, BY(put_and_leave, 0),
             BY(open_behind, 1), BY(snapshot_behind, 0)),
    SCENARIO(crowded, BOTH, USUAL, 3, crowd_by_one, AS_IT_IS, check_crowd, BY(put_new, 0),
             BY(put_new, 1), BY(remove_two, 2)),
    SCENARIO(crowded_tries, BOTH, USUAL, 3, crowd_by_one, AS_IT_IS, check_crowd, BY(try_put_new, 0),
             BY(put_new, 1), BY(remove_two, 2)),
    SCENARIO(crowded_batch, BOTH, USUAL, 2, crowd_by_none, TOLD(BATCH, BUSY, 5), check_crowd,
             BY(batch_new, 0), BY(put_thrice, 1)),
    SCENARIO(crowded_by_versions, BESIDE, USUAL, 2, crowd_by_versions, AS_IT_IS, check_crowd,
             BY(put_new_surely, 0), BY(put_old, 1)),
    SCENARIO(crowded_by_versions_batch, BESIDE, FEWER, 3, crowd_by_versions, TOLD(BATCH, BUSY, 5),
             check_crowd, BY(batch_new, 0), BY(put_new, 1), BY(put_old, 2)),
    SCENARIO(crowding, BOTH, FEW, 2, NULL, AS_IT_IS, check_crowd, BY(put_all_new, 0),
             BY(put_all_new, 1)),
};

static const struct scenario *playing;
static enum kind kind;

static void *run_part(void *of) {
    const struct part *part = of;
    part->run(part->with);
    return NULL;
}

static void begin(void) {
    const clsm_options options = {
        .keys = KEYS, .epoch = EPOCH, .merge = kind == IN_CALLS ? CLSM_MERGE_IN_CALLS : 0};
    memset(snapshots, 0, sizeof snapshots);
    begin_seats(playing->callers);
    open_store(&options, playing->callers);
    if (playing->begin) playing->begin();
    mock_core_refuse(playing->call, playing->code, playing->times);
}

static void play(void) {
    begin();
    for (size_t i = 0; i < PARTS && playing->parts[i].run; i++) {
        const struct part *part = &playing->parts[i];
        numbers[i] = scheduler_start(part->name, run_part, (void *)(uintptr_t)part);
    }
    scheduler_play();
    scheduler_settle();
    if (!the_store) return;
    plan_nothing();
    if (playing->end) playing->end();
    scheduler_settle();
    check_quiet();
    close_store();
}

/* Plays a scenario as these words ask for. */
static uint64_t play_as(const char *name, struct bounds bounds, int count, char **words) {
    enum { BOUNDS = 4 };
    if (count > 0 && count != BOUNDS) {
        search_again(name, play, count, words);
        return 1;
    }
    if (count == BOUNDS) {
        unsigned *numbered[] = {&bounds.switches, &bounds.choices, &bounds.both};
        for (int i = 0; i < BOUNDS - 1; i++) *numbered[i] = (unsigned)atoi(words[i]);
        bounds.seeds = strtoull(words[BOUNDS - 1], NULL, 10);
    }
    return search_all(name, play, bounds);
}

int main(int count, char **words) {
    const unsigned most = count > 1 ? (unsigned)atoi(words[1]) : 0;
    uint64_t all = 0;
    for (size_t i = 0; i < sizeof scenarios / sizeof *scenarios; i++) {
        playing = &scenarios[i];
        struct bounds bounds = extents[playing->extent];
        if (most > 0 && bounds.both > most) bounds.both = most;
        for (kind = BESIDE; kind <= IN_CALLS; kind++) {
            char name[50];
            if (playing->kind != BOTH && playing->kind != kind) continue;
            snprintf(name, sizeof name, "%s%s", playing->name, kind == IN_CALLS ? "_in_calls" : "");
            if (count > 1 && most == 0 && strcmp(words[1], name) != 0) continue;
            const uint64_t played = play_as(name, bounds, count > 2 ? count - 2 : 0, words + 2);
            if (count > 1 && most == 0) printf("%s %llu\n", name, (unsigned long long)played);
            all += played;
        }
    }
    printf("ok schedules %llu\n", (unsigned long long)all);
    return 0;
}
