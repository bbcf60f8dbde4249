/* What only luck would show with the proved core of many keys: batches with conditions that lose a
 * race, that are made again once a condition fell, and reads that run back; ranges that are removed
 * and stores that are copied while others write. The core is mock_core.c. */
#include "between.h"
#include "check.h"
#include "mock_core.h"

#include <limits.h>
#include <pthread.h>

static const uint64_t WORD = 5;
static const clsm_row HAS = {9, {1, {5}}}, NOT = {9, {1, {6}}}, FRESH = {2, {1, {20}}};

static clsm_store *opened(size_t epoch, int merge) {
    const clsm_options options = {.epoch = epoch, .merge = merge};
    clsm_store *store;
    OK(clsm_open(&options, &store));
    return store;
}

static clsm_caller *caller_of(clsm_store *store) {
    clsm_caller *caller;
    OK(clsm_caller_open(store, &caller));
    return caller;
}

static void closed(clsm_store *store, clsm_caller *caller) {
    clsm_caller_close(caller);
    OK(clsm_close(store));
}

static int write_if(clsm_caller *caller, const clsm_row *expected, size_t count) {
    return clsm_batch_if(caller, expected, 1, NULL, 0, &FRESH, count, NULL);
}

/* ---- Lost races: seven times it pauses, and then sleeps, as a batch does */

static void lose(enum clsm_code code) {
    enum { LOST = 100 };
    clsm_store *store = opened(64, CLSM_MERGE_IN_CALLS);
    clsm_caller *caller = caller_of(store);
    OK(clsm_put(caller, 9, &WORD, 1));
    const clsm_row *asked[] = {&HAS, &NOT};
    for (size_t count = 0; count < 2; count++) {
        for (int i = 0; i < 2; i++) {
            const unsigned made = mock_core_count(MOCK_BATCH);
            const unsigned long yields = between_yields();
            mock_core_refuse(MOCK_BATCH, (uint32_t)code, LOST);
            ANSWERS(i ? CLSM_KEPT : CLSM_OK, write_if(caller, asked[i], count));
            CHECK(mock_core_count(MOCK_BATCH) - made == LOST + 1);
            CHECK(between_yields() == yields);
            CHECK(clsm_seen(caller) == clsm_time(caller) + (i ? 0 : count));
        }
    }
    closed(store, caller);
}

/* Others let in one that has lost some tries, also one that writes nothing. */
struct waiting {
    clsm_caller *caller;
    const clsm_row *expected;
    size_t count;
    int code;
};

static void *write_if_beside(void *of) {
    struct waiting *self = of;
    self->code = write_if(self->caller, self->expected, self->count);
    return NULL;
}

static void let_in(size_t count) {
    enum { LOSSES = 4 };
    clsm_store *store = opened(64, CLSM_MERGE_IN_CALLS);
    clsm_caller *caller = caller_of(store), *other = caller_of(store);
    struct waiting waiting = {other, &HAS, count, 0};
    pthread_t thread;
    OK(clsm_put(caller, 9, &WORD, 1));
    const unsigned made = mock_core_count(MOCK_BATCH);
    mock_core_refuse(MOCK_BATCH, CLSM_BUSY, UINT_MAX);
    CHECK(pthread_create(&thread, NULL, write_if_beside, &waiting) == 0);
    mock_core_await(MOCK_BATCH, made + 3 * LOSSES);
    ANSWERS(CLSM_BUSY, clsm_try_put(caller, 1, &WORD, 1));
    mock_core_refuse(MOCK_BATCH, CLSM_OK, 0);
    CHECK(pthread_join(thread, NULL) == 0 && waiting.code == CLSM_OK);
    OK(clsm_try_put(caller, 1, &WORD, 1));
    clsm_caller_close(other);
    closed(store, caller);
}

/* A condition that falls while it waits is looked at again. */
static void fall_meanwhile(void) {
    enum { LOSSES = 4 };
    clsm_store *store = opened(64, CLSM_MERGE_IN_CALLS);
    clsm_caller *caller = caller_of(store), *other = caller_of(store);
    struct waiting waiting = {other, &HAS, 1, 0};
    pthread_t thread;
    OK(clsm_put(caller, 9, &WORD, 1));
    const unsigned made = mock_core_count(MOCK_BATCH);
    mock_core_refuse(MOCK_BATCH, CLSM_BUSY, UINT_MAX);
    CHECK(pthread_create(&thread, NULL, write_if_beside, &waiting) == 0);
    mock_core_await(MOCK_BATCH, made + 1);
    OK(clsm_put(caller, 9, &NOT.value.words[0], 1));
    mock_core_refuse(MOCK_BATCH, CLSM_OK, 0);
    CHECK(pthread_join(thread, NULL) == 0 && waiting.code == CLSM_KEPT);
    CHECK(clsm_time(other) == clsm_seen(caller));
    ANSWERS(CLSM_NOT_FOUND, clsm_get(caller, 2, NULL));
    clsm_caller_close(other);
    closed(store, caller);
}

/* ---- Room for batches is kept behind those that write, and no others */

/* An epoch of which all is drawn that is not for batches, behind a merge that is not done yet. */
static void keep_room(size_t count) {
    enum { EPOCH = 64, HALF = EPOCH / 2, OPEN_WRITES = EPOCH - EPOCH / 32 };
    clsm_store *store = opened(EPOCH, 0);
    clsm_caller *caller = caller_of(store);
    const unsigned made = mock_core_count(MOCK_FREEZE);
    mock_core_refuse(MOCK_SWEEP, CLSM_PINNED, UINT_MAX);
    OK(clsm_put(caller, 9, &WORD, 1));
    OK(write_if(caller, &HAS, count));
    for (size_t drawn = 1 + count; drawn < HALF; drawn++) OK(clsm_put(caller, 1, &WORD, 1));
    mock_core_await(MOCK_FREEZE, made + 1);
    while (clsm_sweep(store) != CLSM_PINNED) continue;
    for (int i = 0; i < OPEN_WRITES; i++) OK(clsm_try_put(caller, 1, &WORD, 1));
    ANSWERS(count ? CLSM_FULL : CLSM_OK, clsm_try_put(caller, 1, &WORD, 1));
    OK(write_if(caller, &HAS, 1));
    mock_core_refuse(MOCK_SWEEP, CLSM_OK, 0);
    OK(clsm_put(caller, 1, &WORD, 1));
    closed(store, caller);
}

static void wear_out(int merge) {
    clsm_store *store = opened(4, merge);
    clsm_caller *caller = caller_of(store);
    mock_core_refuse(MOCK_FREEZE, CLSM_WORN, UINT_MAX);
    for (uint64_t i = 0; i < 4; i++) OK(clsm_put(caller, 9, &WORD, 1));
    ANSWERS(CLSM_WORN, write_if(caller, &HAS, 1));
    ANSWERS(CLSM_KEPT, write_if(caller, &NOT, 1));
    OK(write_if(caller, &HAS, 0));
    mock_core_refuse(MOCK_FREEZE, CLSM_OK, 0);
    closed(store, caller);
}

/* ---- Reads that run back */

static void run_back(void) {
    enum { MANY = 300 };
    static const uint64_t keys[MANY] = {9};
    static clsm_value values[MANY];
    clsm_store *store = opened(64, CLSM_MERGE_IN_CALLS);
    clsm_caller *caller = caller_of(store);
    clsm_page_end end;
    clsm_row row;
    size_t unmet = 7;
    for (uint64_t i = 0; i < 10; i++) OK(clsm_put(caller, i, &WORD, 1));
    mock_core_run_back(MOCK_READ, 5, 3);
    OK(clsm_get_many(caller, keys, 2, values));
    CHECK(values[0].length == 1 && clsm_time(caller) == 10);
    mock_core_run_back(MOCK_SNAPSHOT, 5, 3);
    OK(clsm_get_many(caller, keys, MANY, values));
    CHECK(values[0].length == 1 && clsm_time(caller) == 10);
    mock_core_run_back(MOCK_READ, 5, 3);
    OK(clsm_page_down(caller, UINT64_MAX, 0, &row, 1, &end));
    CHECK(row.key == 9 && end.more && end.next == 8);
    mock_core_run_back(MOCK_READ, 5, 3);
    OK(clsm_last(caller, 0, UINT64_MAX, &row));
    CHECK(row.key == 9 && clsm_time(caller) == 10);
    for (size_t count = 0; count < 2; count++) {
        mock_core_run_back(MOCK_READ, 5, 3);
        ANSWERS(CLSM_KEPT, clsm_batch_if(caller, &NOT, 1, NULL, 0, &row, count, &unmet));
        CHECK(unmet == 0 && clsm_time(caller) == 10 && clsm_seen(caller) == 10);
    }
    const unsigned made = mock_core_count(MOCK_BATCH);
    mock_core_run_back(MOCK_READ, 5, 3);
    OK(clsm_batch_if(caller, &HAS, 1, NULL, 0, NULL, 0, NULL));
    CHECK(mock_core_count(MOCK_BATCH) - made == 4);
    CHECK(clsm_time(caller) == 10 && clsm_seen(caller) == 10);
    closed(store, caller);
}

/* ---- Ranges that are removed, and stores that are copied, beside other writes */

struct writing {
    clsm_caller *caller;
    uint64_t keys[3];
};

/* Puts three keys, once a page was read and before its rows are written. */
static void write_between(void *of) {
    const struct writing *self = of;
    for (int i = 0; i < 3; i++) OK(clsm_put(self->caller, self->keys[i], &WORD, 1));
}

/* A key that was read is removed with whatever value it has by then. One that comes where the call
 * has read already stays, and one that comes behind that is removed. */
static void remove_beside_writes(void) {
    enum { KEYS = 100, STEP = 2 };
    clsm_store *store = opened(64, CLSM_MERGE_IN_CALLS);
    clsm_caller *caller = caller_of(store), *other = caller_of(store);
    struct writing writing = {other, {STEP, 1, STEP * KEYS - 1}};
    uint64_t removed;
    clsm_row row;
    for (uint64_t i = 0; i < KEYS; i++) OK(clsm_put(caller, STEP * i, &WORD, 1));
    mock_core_interrupt(MOCK_BATCH, write_between, &writing);
    OK(clsm_clear(caller, &removed));
    CHECK(removed == KEYS + 1);
    OK(clsm_first(caller, 0, UINT64_MAX, &row));
    CHECK(row.key == 1);
    ANSWERS(CLSM_NOT_FOUND, clsm_first(caller, 2, UINT64_MAX, &row));
    OK(clsm_clear(caller, NULL));
    clsm_caller_close(other);
    closed(store, caller);
}

/* What is written to a store while it is copied is not in the copy. */
static void copy_beside_writes(void) {
    enum { KEYS = 100, STEP = 2 };
    clsm_store *store = opened(64, 0), *copy;
    clsm_caller *caller = caller_of(store), *other;
    struct writing writing = {caller, {1, STEP * KEYS - 1, STEP * KEYS}};
    uint64_t keys;
    for (uint64_t i = 0; i < KEYS; i++) OK(clsm_put(caller, STEP * i, &WORD, 1));
    mock_core_interrupt(MOCK_BATCH, write_between, &writing);
    OK(clsm_copy(store, NULL, &copy));
    other = caller_of(copy);
    OK(clsm_count(other, 0, UINT64_MAX, &keys));
    CHECK(keys == KEYS);
    for (int i = 0; i < 3; i++) {
        ANSWERS(CLSM_NOT_FOUND, clsm_get(other, writing.keys[i], NULL));
        OK(clsm_get(caller, writing.keys[i], NULL));
    }
    closed(copy, other);
    closed(store, caller);
}

/* What refuses a batch in the middle ends both: the one tells how far it came, the other leaves
 * nothing. */
static void refuse_this(void *code) { mock_core_refuse(MOCK_BATCH, *(const uint32_t *)code, 1); }

static void refuse_next(void *code) { mock_core_interrupt(MOCK_BATCH, refuse_this, code); }

static void refuse_second(uint32_t code) {
    enum { KEYS = 100, OF_FIRST_PAGE = 64 };
    clsm_store *store = opened(0, 0), *copy;
    clsm_caller *caller = caller_of(store);
    clsm_statistics now;
    uint64_t removed;
    for (uint64_t key = 0; key < KEYS; key++) OK(clsm_put(caller, key, &WORD, 1));
    mock_core_interrupt(MOCK_BATCH, refuse_next, &code);
    copy = store;
    ANSWERS((int)code, clsm_copy(store, NULL, &copy));
    OK(clsm_stats(store, &now));
    CHECK(!copy && now.callers == 1 && now.snapshots == 0);
    mock_core_interrupt(MOCK_BATCH, refuse_next, &code);
    ANSWERS((int)code, clsm_clear(caller, &removed));
    CHECK(removed == OF_FIRST_PAGE && clsm_get(caller, removed - 1, NULL) == CLSM_NOT_FOUND);
    OK(clsm_get(caller, removed, NULL));
    OK(clsm_clear(caller, &removed));
    CHECK(removed == KEYS - OF_FIRST_PAGE);
    closed(store, caller);
}

/* ---- Rows that are taken out while others write */

struct coming {
    clsm_caller *caller;
    clsm_row row;
};

static void come(void *of) {
    const struct coming *coming = of;
    OK(clsm_batch(coming->caller, &coming->row, 1));
}

/* Of 5 and 9 this row comes, or goes, between the read and the batch; then this one is taken out.
 */
static void pop_beside(int (*pop)(clsm_caller *, uint64_t, uint64_t, clsm_row *), clsm_row row,
                       clsm_row wanted) {
    clsm_store *store = opened(64, CLSM_MERGE_IN_CALLS);
    clsm_caller *caller = caller_of(store), *other = caller_of(store);
    struct coming coming = {other, row};
    clsm_row found;
    OK(clsm_put(caller, 5, &WORD, 1));
    OK(clsm_put(caller, 9, &WORD, 1));
    mock_core_interrupt(MOCK_BATCH, come, &coming);
    OK(pop(caller, 1, 20, &found));
    CHECK(found.key == wanted.key && found.value.words[0] == wanted.value.words[0]);
    ANSWERS(CLSM_NOT_FOUND, clsm_get(caller, wanted.key, NULL));
    clsm_caller_close(other);
    closed(store, caller);
}

static void pop_beside_writes(void) {
    const clsm_value one = {1, {5}}, new = {1, {6}}, none = {.length = 0};
    pop_beside(clsm_pop_first, (clsm_row){3, new}, (clsm_row){3, new});
    pop_beside(clsm_pop_first, (clsm_row){5, new}, (clsm_row){5, new});
    pop_beside(clsm_pop_first, (clsm_row){5, none}, (clsm_row){9, one});
    pop_beside(clsm_pop_first, (clsm_row){7, new}, (clsm_row){5, one});
    pop_beside(clsm_pop_first, (clsm_row){0, new}, (clsm_row){5, one});
    pop_beside(clsm_pop_last, (clsm_row){12, new}, (clsm_row){12, new});
    pop_beside(clsm_pop_last, (clsm_row){9, new}, (clsm_row){9, new});
    pop_beside(clsm_pop_last, (clsm_row){9, none}, (clsm_row){5, one});
    pop_beside(clsm_pop_last, (clsm_row){7, new}, (clsm_row){9, one});
    pop_beside(clsm_pop_last, (clsm_row){21, new}, (clsm_row){9, one});
}

int main(void) {
    lose(CLSM_BUSY);
    let_in(0);
    let_in(1);
    fall_meanwhile();
    keep_room(0);
    keep_room(1);
    wear_out(0);
    wear_out(CLSM_MERGE_IN_CALLS);
    run_back();
    remove_beside_writes();
    copy_beside_writes();
    pop_beside_writes();
    refuse_second(CLSM_MEMORY);
    refuse_second(CLSM_WORN);
    return passed("mocked_many");
}
