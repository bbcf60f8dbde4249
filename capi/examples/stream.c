/* A stream processor: counts events by window of time and by name, each event once.
 *
 *     cc stream.c $(pkg-config --cflags --libs clsm) -pthread -o stream && ./stream
 *
 * Events come in four logs, each written by a thread. Workers take the next events of a log, add
 * them to their windows, and write how far the log is counted: all of that in one transaction.
 * If a worker dies in between, nothing of its transaction is there, and another one goes on where
 * it began. If two count the same events, one comes to a conflict, and begins behind them.
 *
 *     log        0, 8 bits | number of the log, 8 bits | place in it, 48 bits   -> time, name
 *     progress   1, 8 bits | number of the log, 56 bits   -> next place, latest time, late events
 *     windows    2, 8 bits | window, 40 bits | name, 16 bits   -> count
 *     totals     3, 8 bits | name, 56 bits   -> count
 */
#include <clsm.h>

#include <inttypes.h>
#include <pthread.h>
#include <stdio.h>
#include <stdlib.h>

enum { THREADS = 4, EVENTS = 400, NAMES = 3 }; /* a log for each thread, of so many events */
enum { TOGETHER = 16 };                        /* events of a transaction, at most */
enum { WIDTH = 100, SLACK = 120 }; /* of a window, in time; so much an event may be late */

static const uint64_t PROGRESS = (uint64_t)1 << 56, WINDOWS = (uint64_t)2 << 56,
                      TOTALS = (uint64_t)3 << 56;

static clsm_store *store;

/* Ends the program if a call was refused, as memory may run out. */
static int must(int code) {
    if (code >= CLSM_FULL) {
        fprintf(stderr, "stream: %s\n", clsm_strerror(code));
        exit(1);
    }
    return code;
}

/* Writes a log. Its times rise, but some events are late, and a few too late. */
static void *produce(void *argument) {
    const uint64_t log = *(const uint64_t *)argument;
    clsm_caller *caller;
    must(clsm_caller_open(store, &caller));
    for (uint64_t place = 0; place < EVENTS; place++) {
        const uint64_t time = 10 * place, late = place % 50 == 49 ? 300 : 20 * (place % 3);
        const uint64_t event[] = {time > late ? time - late : 0, (place + log) % NAMES};
        must(clsm_put(caller, log << 48 | place, event, 2));
    }
    clsm_caller_close(caller);
    return NULL;
}

/* The first window that takes events of a log when the log has come to this time. */
static uint64_t first_open(uint64_t latest) {
    return latest < SLACK ? 0 : (latest - SLACK) / WIDTH;
}

/* Counts the next events of a log, in a transaction. It reads them outside of that: a log's rows
 * never change, so it comes to no conflict with the thread that writes them. */
static void count(clsm_caller *caller, clsm_transaction *rows, uint64_t log) {
    clsm_value progress, events[TOGETHER];
    uint64_t next[TOGETHER];
    must(clsm_transaction_get(rows, PROGRESS | log, &progress)); /* words are 0 if it has none */
    uint64_t *place = &progress.words[0], *latest = &progress.words[1], *late = &progress.words[2];
    for (uint64_t i = 0; i < TOGETHER; i++) next[i] = log << 48 | (*place + i);
    must(clsm_get_many(caller, next, TOGETHER, events));
    for (int i = 0; i < TOGETHER && events[i].length > 0; i++, ++*place) {
        const uint64_t time = events[i].words[0], name = events[i].words[1];
        if (time / WIDTH < first_open(*latest)) {
            ++*late;
        } else {
            must(clsm_transaction_add(rows, WINDOWS | time / WIDTH << 16 | name, 1, NULL));
            must(clsm_transaction_add(rows, TOTALS | name, 1, NULL));
        }
        if (*latest < time) *latest = time;
    }
    must(clsm_transaction_put(rows, PROGRESS | log, progress.words, 3));
}

/* The least progress of all logs: 0: in places, 1: in time. */
static uint64_t least(clsm_caller *caller, int word) {
    clsm_value progress;
    uint64_t least = UINT64_MAX;
    for (uint64_t log = 0; log < THREADS; log++) {
        must(clsm_get(caller, PROGRESS | log, &progress));
        if (progress.words[word] < least) least = progress.words[word];
    }
    return least;
}

/* Removes the windows that are closed for all logs. No worker counts there any more: it would have
 * read an older progress, and come to a conflict. */
static void expire(clsm_caller *caller) {
    const uint64_t closed = first_open(least(caller, 1));
    must(clsm_remove_range(caller, WINDOWS, WINDOWS + (closed << 16) - 1, NULL));
}

/* Counts events of one log after another, and dies in the middle of a transaction. */
static void *work(void *argument) {
    const uint64_t own = *(const uint64_t *)argument;
    clsm_caller *caller;
    clsm_transaction *rows;
    must(clsm_caller_open(store, &caller));
    must(clsm_transaction_open(caller, &rows));
    for (uint64_t turn = own; turn < 3 * own + 8; turn++) {
        int code;
        do count(caller, rows, turn % THREADS);
        while ((code = clsm_transaction_commit(rows)) == CLSM_CONFLICT);
        must(code);
        expire(caller);
    }
    count(caller, rows, own);
    clsm_transaction_close(rows); /* nothing of it was written */
    clsm_caller_close(caller);
    return NULL;
}

static void print(clsm_caller *caller, uint64_t first, uint64_t last) {
    clsm_scan *scan;
    clsm_row row;
    must(clsm_scan_open(caller, first, last, &scan));
    while (must(clsm_scan_next(scan, &row)) == CLSM_OK) {
        if (row.key < TOTALS) printf("window %" PRIu64 ", ", (row.key - WINDOWS) >> 16);
        printf("name %" PRIu64 ": %" PRIu64 "\n", row.key & UINT16_MAX, row.value.words[0]);
    }
    clsm_scan_close(scan);
}

static void start(pthread_t threads[THREADS], void *run(void *)) {
    static uint64_t numbers[] = {0, 1, 2, 3};
    for (int i = 0; i < THREADS; i++)
        if (pthread_create(&threads[i], NULL, run, &numbers[i])) exit(1);
}

static void join(const pthread_t threads[THREADS]) {
    for (int i = 0; i < THREADS; i++) pthread_join(threads[i], NULL);
}

int main(void) {
    pthread_t producers[THREADS], workers[THREADS];
    clsm_caller *caller;
    clsm_value progress;
    uint64_t late = 0;
    must(clsm_open(NULL, &store));
    must(clsm_caller_open(store, &caller));
    start(producers, produce);
    while (least(caller, 0) < EVENTS) { /* others go on for those that died */
        start(workers, work);
        join(workers);
    }
    join(producers);
    expire(caller);
    print(caller, TOTALS, UINT64_MAX);
    for (uint64_t log = 0; log < THREADS; log++) {
        must(clsm_get(caller, PROGRESS | log, &progress));
        late += progress.words[2];
    }
    printf("%" PRIu64 " came too late\n", late);
    print(caller, WINDOWS, TOTALS - 1);
    clsm_caller_close(caller);
    return must(clsm_close(store));
}
