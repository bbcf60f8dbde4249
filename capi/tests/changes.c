/* Changes: what each finds and leaves, and that none is lost between four threads beside the
 * merger. */
#include "check.h"

#include <pthread.h>
#include <string.h>

enum { THREADS = 4, KEYS = 8 };
static uint64_t rounds;

static clsm_value word(uint64_t number) { return (clsm_value){1, {number}}; }

static bool is(const clsm_value *value, uint64_t number) {
    const clsm_value wanted = word(number);
    return memcmp(value, &wanted, sizeof wanted) == 0;
}

static bool is_none(const clsm_value *value) {
    static const clsm_value none = {.length = 0};
    return memcmp(value, &none, sizeof none) == 0;
}

/* ---- Alone */

static void add(clsm_caller *caller) {
    const uint64_t two[2] = {1, 2};
    clsm_changed changed;
    OK(clsm_add(caller, 1, 5, &changed));
    CHECK(is_none(&changed.before) && is(&changed.after, 5));
    OK(clsm_add(caller, 1, 7, &changed));
    CHECK(is(&changed.before, 5) && is(&changed.after, 12));
    OK(clsm_add(caller, 1, UINT64_MAX - 12, NULL));
    ANSWERS(CLSM_KEPT, clsm_add(caller, 1, 1, &changed));
    CHECK(is(&changed.before, UINT64_MAX) && is(&changed.after, UINT64_MAX));
    OK(clsm_put(caller, 2, two, 2));
    ANSWERS(CLSM_KEPT, clsm_add(caller, 2, 1, &changed));
    CHECK(changed.before.length == 2 && changed.after.words[1] == 2);
    ANSWERS(CLSM_BAD_POINTER, clsm_add(NULL, 1, 1, &changed));
}

static void claim(clsm_caller *caller) {
    const clsm_value first = word(30), second = word(31), empty = {.length = 0},
                     long_one = {.length = 9};
    clsm_changed changed;
    OK(clsm_put_if_absent(caller, 3, &first, &changed));
    CHECK(is_none(&changed.before) && is(&changed.after, 30));
    ANSWERS(CLSM_KEPT, clsm_put_if_absent(caller, 3, &second, &changed));
    CHECK(is(&changed.before, 30) && is(&changed.after, 30));
    ANSWERS(CLSM_BAD_VALUE, clsm_put_if_absent(caller, 4, &empty, NULL));
    ANSWERS(CLSM_BAD_VALUE, clsm_put_if_absent(caller, 4, &long_one, NULL));
    ANSWERS(CLSM_BAD_POINTER, clsm_put_if_absent(caller, 4, NULL, NULL));
    ANSWERS(CLSM_NOT_FOUND, clsm_get(caller, 4, NULL));
}

static void replace(clsm_caller *caller) {
    const clsm_value old = word(50), new = word(51), other = word(52);
    const clsm_value longer = {2, {50, 0}}, too_long = {.length = 9};
    clsm_changed changed;
    OK(clsm_replace(caller, 5, NULL, &old, NULL));
    ANSWERS(CLSM_KEPT, clsm_replace(caller, 5, NULL, &new, &changed));
    ANSWERS(CLSM_KEPT, clsm_replace(caller, 5, &other, &new, &changed));
    ANSWERS(CLSM_KEPT, clsm_replace(caller, 5, &longer, &new, &changed));
    CHECK(is(&changed.before, 50) && is(&changed.after, 50));
    OK(clsm_replace(caller, 5, &old, &new, &changed));
    CHECK(is(&changed.before, 50) && is(&changed.after, 51));
    ANSWERS(CLSM_KEPT, clsm_replace(caller, 5, &old, NULL, &changed));
    OK(clsm_replace(caller, 5, &new, NULL, &changed));
    CHECK(is(&changed.before, 51) && is_none(&changed.after));
    ANSWERS(CLSM_NOT_FOUND, clsm_get(caller, 5, NULL));
    ANSWERS(CLSM_BAD_VALUE, clsm_replace(caller, 5, &too_long, &new, NULL));
    ANSWERS(CLSM_BAD_VALUE, clsm_replace(caller, 5, NULL, &too_long, NULL));
    ANSWERS(CLSM_BAD_POINTER, clsm_replace(NULL, 5, NULL, &new, NULL));
}

/* A value of length 0 is none, whatever words are behind it. */
static void replace_none(clsm_caller *caller) {
    const clsm_value one = word(70), empty = {0, {7, 7}};
    clsm_changed changed;
    OK(clsm_replace(caller, 7, &empty, &one, &changed));
    CHECK(is_none(&changed.before) && is(&changed.after, 70));
    ANSWERS(CLSM_KEPT, clsm_replace(caller, 7, &empty, &one, NULL));
    OK(clsm_replace(caller, 7, &one, &empty, &changed));
    CHECK(is(&changed.before, 70) && is_none(&changed.after));
    OK(clsm_replace(caller, 7, &empty, &empty, NULL));
    ANSWERS(CLSM_NOT_FOUND, clsm_get(caller, 7, NULL));
}

/* Each change has a time of its own behind all before it, and one that kept the value reads there.
 */
static void rise(clsm_caller *caller) {
    uint64_t before = clsm_time(caller);
    OK(clsm_add(caller, 6, 1, NULL));
    CHECK(clsm_time(caller) >= before && clsm_seen(caller) == clsm_time(caller) + 1);
    before = clsm_seen(caller);
    ANSWERS(CLSM_KEPT, clsm_replace(caller, 6, NULL, NULL, NULL));
    CHECK(clsm_time(caller) >= before && clsm_seen(caller) == clsm_time(caller));
}

/* ---- In threads */

/* Adds one by a get and a replacement, until no other write came between, as clsm.h advises for any
 * change. */
static void add_by_replacing(clsm_caller *caller, uint64_t key) {
    int code = CLSM_KEPT;
    while (code == CLSM_KEPT) {
        clsm_value old, new;
        CHECK(clsm_get(caller, key, &old) <= CLSM_NOT_FOUND);
        new = word(old.length ? old.words[0] + 1 : 1);
        code = clsm_replace(caller, key, &old, &new, NULL);
    }
    ANSWERS(CLSM_OK, code);
}

static void *count(void *store) {
    clsm_caller *caller;
    OK(clsm_caller_open(store, &caller));
    for (uint64_t i = 0; i < rounds; i++) {
        OK(clsm_add(caller, 100 + i % KEYS, 1, NULL));
        add_by_replacing(caller, 200 + i % KEYS);
    }
    clsm_caller_close(caller);
    return NULL;
}

static void sum(clsm_store *store) {
    clsm_caller *caller;
    clsm_row row;
    clsm_scan *scan;
    uint64_t sums[2] = {0, 0};
    OK(clsm_caller_open(store, &caller));
    OK(clsm_scan_open(caller, 100, 300, &scan));
    while (clsm_scan_next(scan, &row) == CLSM_OK) sums[row.key / 100 - 1] += row.value.words[0];
    clsm_scan_close(scan);
    clsm_caller_close(caller);
    CHECK(sums[0] == THREADS * rounds && sums[1] == THREADS * rounds);
}

static void count_in_threads(const clsm_options *options) {
    clsm_store *store;
    pthread_t threads[THREADS];
    OK(clsm_open(options, &store));
    for (int i = 0; i < THREADS; i++) CHECK(pthread_create(&threads[i], NULL, count, store) == 0);
    for (int i = 0; i < THREADS; i++) CHECK(pthread_join(threads[i], NULL) == 0);
    sum(store);
    OK(clsm_close(store));
}

/* ---- Rows that are taken out, from either end */

typedef int pop_call(clsm_caller *caller, uint64_t first, uint64_t last, clsm_row *row);

static void pop(clsm_caller *caller) {
    static const uint64_t keys[] = {0, 3, 5, 8, UINT64_MAX};
    clsm_row row = {.key = 7};
    OK(clsm_clear(caller, NULL));
    ANSWERS(CLSM_NOT_FOUND, clsm_pop_first(caller, 0, UINT64_MAX, &row));
    ANSWERS(CLSM_NOT_FOUND, clsm_pop_last(caller, 0, UINT64_MAX, &row));
    CHECK(row.key == 7);
    for (size_t i = 0; i < sizeof keys / sizeof *keys; i++)
        OK(clsm_put(caller, keys[i], &keys[i], 1));
    OK(clsm_pop_first(caller, 1, 7, &row));
    CHECK(row.key == 3 && is(&row.value, 3) && clsm_get(caller, 3, NULL) == CLSM_NOT_FOUND);
    OK(clsm_pop_last(caller, 1, 7, &row));
    CHECK(row.key == 5 && is(&row.value, 5));
    ANSWERS(CLSM_NOT_FOUND, clsm_pop_first(caller, 1, 7, &row));
    ANSWERS(CLSM_NOT_FOUND, clsm_pop_last(caller, 8, 7, &row));
    OK(clsm_pop_last(caller, 0, UINT64_MAX, &row));
    CHECK(row.key == UINT64_MAX && is(&row.value, UINT64_MAX));
    OK(clsm_pop_first(caller, 0, UINT64_MAX, &row));
    CHECK(row.key == 0 && is(&row.value, 0));
    OK(clsm_pop_last(caller, 8, 8, &row));
    CHECK(row.key == 8);
    ANSWERS(CLSM_NOT_FOUND, clsm_pop_first(caller, 0, UINT64_MAX, &row));
    ANSWERS(CLSM_BAD_POINTER, clsm_pop_first(NULL, 0, 1, &row));
    ANSWERS(CLSM_BAD_POINTER, clsm_pop_last(caller, 0, 1, NULL));
}

/* What each thread takes out goes one way, and nothing is taken out twice: its row counts that. */
struct popper {
    clsm_store *store;
    pop_call *pop;
    uint64_t popped;
};

static void *pop_all(void *argument) {
    struct popper *popper = argument;
    const bool rises = popper->pop == clsm_pop_first;
    clsm_caller *caller;
    clsm_row row;
    uint64_t last = rises ? 0 : UINT64_MAX;
    OK(clsm_caller_open(popper->store, &caller));
    for (int code; (code = popper->pop(caller, 1, 1000, &row)) != CLSM_NOT_FOUND;
         popper->popped++) {
        CHECK(code == CLSM_OK && (rises ? row.key > last : row.key < last));
        last = row.key;
        OK(clsm_add(caller, 10000 + row.key, 1, NULL));
    }
    clsm_caller_close(caller);
    return NULL;
}

static void pop_in_threads(const clsm_options *options, pop_call *one, pop_call *other) {
    enum { ROWS = 400 };
    struct popper poppers[THREADS];
    pthread_t threads[THREADS];
    clsm_store *store;
    clsm_caller *caller;
    clsm_value value;
    uint64_t popped = 0;
    OK(clsm_open(options, &store));
    OK(clsm_caller_open(store, &caller));
    for (uint64_t key = 1; key <= ROWS; key++) OK(clsm_put(caller, key, &key, 1));
    for (int i = 0; i < THREADS; i++) {
        poppers[i] = (struct popper){store, i % 2 ? one : other, 0};
        CHECK(pthread_create(&threads[i], NULL, pop_all, &poppers[i]) == 0);
    }
    for (int i = 0; i < THREADS; i++) {
        CHECK(pthread_join(threads[i], NULL) == 0);
        popped += poppers[i].popped;
    }
    CHECK(popped == ROWS);
    for (uint64_t key = 1; key <= ROWS; key++) {
        OK(clsm_get(caller, 10000 + key, &value));
        CHECK(is(&value, 1));
    }
    clsm_caller_close(caller);
    OK(clsm_close(store));
}

int main(int argc, char **argv) {
    clsm_store *store;
    clsm_caller *caller;
    rounds = argument(argc, argv, 1, 2000);
    OK(clsm_open(NULL, &store));
    OK(clsm_caller_open(store, &caller));
    add(caller);
    claim(caller);
    replace(caller);
    replace_none(caller);
    rise(caller);
    pop(caller);
    clsm_caller_close(caller);
    OK(clsm_close(store));
    count_in_threads(&(clsm_options){.epoch = 64});
    count_in_threads(&(clsm_options){.epoch = 64, .patience = -1, .merge = CLSM_MERGE_IN_CALLS});
    pop_in_threads(&(clsm_options){.keys = 1000, .epoch = 64}, clsm_pop_first, clsm_pop_first);
    pop_in_threads(&(clsm_options){.keys = 1000, .epoch = 64}, clsm_pop_last, clsm_pop_first);
    pop_in_threads(&(clsm_options){.keys = 1000, .merge = CLSM_MERGE_IN_CALLS}, clsm_pop_last,
                   clsm_pop_last);
    return passed("changes");
}
