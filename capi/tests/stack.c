/* Makes each call in a thread on a stack that was filled with a pattern, and measures how deep it
 * went. */
#define _GNU_SOURCE
#include "check.h"

#include <pthread.h>
#include <string.h>

#if defined __SANITIZE_ADDRESS__ || defined __SANITIZE_THREAD__
#define IS_SANITIZED true
#elif defined __has_feature
#if __has_feature(address_sanitizer) || __has_feature(thread_sanitizer)
#define IS_SANITIZED true
#endif
#endif
#ifndef IS_SANITIZED
#define IS_SANITIZED false /* else frames are larger than what clsm.h promises */
#endif

enum { STACK = 1 << 20, PATTERN = 0xA5 };

static _Alignas(4096) unsigned char stack[STACK];

struct job {
    void (*call)(void);
    unsigned char *top;
};

static clsm_store *store;
static clsm_caller *caller;
static clsm_snapshot *snapshot;
static clsm_scan *scan;
static clsm_row rows[64];
static clsm_page_end end;
enum { MANY = 600 };
static uint64_t many[MANY];
static clsm_value values[MANY];
static uint64_t keys;
static const uint64_t WORDS[8] = {1, 2, 3, 4, 5, 6, 7, 8};
static const clsm_options OPTIONS = {.keys = 10000, .epoch = 16, .merge = CLSM_MERGE_IN_CALLS};

static void open_store(void) { OK(clsm_open(&OPTIONS, &store)); }
static void close_store(void) { OK(clsm_close(store)); }
static void open_caller(void) { OK(clsm_caller_open(store, &caller)); }
static void close_caller(void) { clsm_caller_close(caller); }
static void put(void) {
    for (uint64_t key = 0; key < 1000; key++) OK(clsm_put(caller, key * 7919 % 1009, WORDS, 8));
}
static void put_one(void) { OK(clsm_put(caller, 3, WORDS, 8)); }
static void remove_keys(void) {
    for (uint64_t key = 0; key < 100; key++) OK(clsm_remove(caller, key));
}
static void try_put(void) { clsm_try_put(caller, 5, WORDS, 8); }
static void batch(void) {
    for (uint64_t i = 0; i < 16; i++) rows[i] = (clsm_row){i, {1, {i}}};
    OK(clsm_batch(caller, rows, 16));
}
static void batch_if(void) {
    const clsm_range_count range = {0, UINT64_MAX, 0};
    OK(clsm_batch_if(caller, rows, 16, NULL, 0, rows, 16, NULL));
    ANSWERS(CLSM_KEPT, clsm_batch_if(caller, rows, 16, &range, 1, rows, 16, NULL));
}
static void get(void) { OK(clsm_get(caller, 500, NULL)); }
static void count(void) { OK(clsm_count(caller, 0, UINT64_MAX, &keys)); }
static void page(void) { OK(clsm_page(caller, 0, UINT64_MAX, rows, 64, &end)); }
static void get_many(void) { OK(clsm_get_many(caller, many, MANY, values)); }
static void get_some(void) { OK(clsm_get_many(caller, many, 16, values)); }
static void page_down(void) { OK(clsm_page_down(caller, UINT64_MAX, 0, rows, 64, &end)); }
static void last(void) { OK(clsm_last(caller, 0, UINT64_MAX, rows)); }
static void open_snapshot(void) { OK(clsm_snapshot_open(caller, &snapshot)); }
static void close_snapshot(void) { clsm_snapshot_close(snapshot); }
static void get_at(void) { OK(clsm_snapshot_get(snapshot, 500, NULL)); }
static void get_many_at(void) { OK(clsm_snapshot_get_many(snapshot, many, MANY, values)); }
static void down_at(void) { OK(clsm_snapshot_page_down(snapshot, 900, 0, rows, 64, &end)); }
static void page_at(void) { OK(clsm_snapshot_page(snapshot, 0, UINT64_MAX, rows, 64, &end)); }
static void transact(void) {
    clsm_transaction *transaction;
    OK(clsm_transaction_open(caller, &transaction));
    OK(clsm_transaction_get_many(transaction, many, MANY, values));
    OK(clsm_transaction_page(transaction, 0, UINT64_MAX, rows, 64, &end));
    OK(clsm_transaction_page_down(transaction, UINT64_MAX, 0, rows, 64, &end));
    OK(clsm_transaction_last(transaction, 0, UINT64_MAX, rows));
    OK(clsm_transaction_count(transaction, 0, UINT64_MAX, &keys));
    for (uint64_t key = 0; key < 16; key++) OK(clsm_transaction_put(transaction, key, WORDS, 8));
    OK(clsm_transaction_commit(transaction));
    clsm_transaction_close(transaction);
}
static void pop(void) {
    OK(clsm_pop_first(caller, 0, UINT64_MAX, rows));
    OK(clsm_pop_last(caller, 0, UINT64_MAX, rows));
}
static void remove_range(void) { OK(clsm_remove_range(caller, 0, 90, NULL)); }
static void copy(void) {
    clsm_store *other;
    OK(clsm_copy(store, &OPTIONS, &other));
    OK(clsm_close(other));
}
static void open_scan(void) { OK(clsm_scan_open(caller, 0, UINT64_MAX, &scan)); }
static void next(void) { OK(clsm_scan_next(scan, rows)); }
static void close_scan(void) { clsm_scan_close(scan); }
static void follow(void) { OK(clsm_follow(caller, clsm_seen(caller))); }
static void sweep(void) { clsm_sweep(store); }

static void *run(void *of) {
    struct job *job = of;
    unsigned char here;
    unsigned char *volatile top = &here;
    job->top = top;
    job->call();
    return NULL;
}

/* The bytes of stack that a call takes, in a thread of its own. */
static size_t depth(void (*call)(void)) {
    struct job job = {call, NULL};
    pthread_attr_t attributes;
    pthread_t thread;
    size_t untouched = 0;
    memset(stack, PATTERN, sizeof stack);
    CHECK(pthread_attr_init(&attributes) == 0
          && pthread_attr_setstack(&attributes, stack, sizeof stack) == 0);
    CHECK(pthread_create(&thread, &attributes, run, &job) == 0 && pthread_join(thread, NULL) == 0);
    pthread_attr_destroy(&attributes);
    while (untouched < STACK && stack[untouched] == PATTERN) untouched++;
    return (size_t)(job.top - (stack + untouched));
}

int main(int count_of_words, char **words) {
    static const struct {
        const char *name;
        void (*call)(void);
    } calls[] = {{"clsm_open", open_store},
                 {"clsm_caller_open", open_caller},
                 {"clsm_put, merging", put},
                 {"clsm_remove", remove_keys},
                 {"clsm_try_put", try_put},
                 {"clsm_sweep", sweep},
                 {"clsm_put", put_one},
                 {"clsm_batch", batch},
                 {"clsm_batch_if", batch_if},
                 {"clsm_get", get},
                 {"clsm_get_many, in parts", get_many},
                 {"clsm_get_many", get_some},
                 {"clsm_count", count},
                 {"clsm_page", page},
                 {"clsm_page_down", page_down},
                 {"clsm_last", last},
                 {"clsm_follow", follow},
                 {"clsm_snapshot_open", open_snapshot},
                 {"clsm_snapshot_get", get_at},
                 {"clsm_snapshot_get_many", get_many_at},
                 {"clsm_snapshot_page", page_at},
                 {"clsm_snapshot_page_down", down_at},
                 {"clsm_snapshot_close", close_snapshot},
                 {"clsm_transaction_commit", transact},
                 {"clsm_pop_first", pop},
                 {"clsm_remove_range", remove_range},
                 {"clsm_copy", copy},
                 {"clsm_scan_open", open_scan},
                 {"clsm_scan_next", next},
                 {"clsm_scan_close", close_scan},
                 {"clsm_caller_close", close_caller},
                 {"clsm_close", close_store}};
    const bool shows = count_of_words > 1 && strcmp(words[1], "show") == 0;
    for (size_t i = 0; i < sizeof calls / sizeof *calls; i++) {
        size_t bytes = depth(calls[i].call);
        if (shows) printf("%6zu %s\n", bytes, calls[i].name);
        CHECK(bytes <= CLSM_STACK || IS_SANITIZED);
    }
    return passed("stack");
}
