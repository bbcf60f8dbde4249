/* A cache that four threads fill while snapshots of it are read: each snapshot shows the cache as
 * it was at one moment, however often it is read.
 *
 *     cc cache.c $(pkg-config --cflags --libs clsm) -pthread -o cache && ./cache */
#include <clsm.h>

#include <inttypes.h>
#include <pthread.h>
#include <stdatomic.h>
#include <stdio.h>
#include <stdlib.h>

enum { NUMBERS = 1000, THREADS = 4, ROWS = 64 };

static atomic_int running;

/* Ends the program if a call was refused, as memory may run out. */
static int must(int code) {
    if (code >= CLSM_FULL) {
        fprintf(stderr, "cache: %s\n", clsm_strerror(code));
        exit(1);
    }
    return code;
}

/* What is costly to compute: in how many steps a number comes to 1, and how high it climbs. */
static clsm_value path_of(uint64_t number) {
    clsm_value path = {2, {0, number}};
    for (; number > 1; path.words[0]++) {
        number = number % 2 ? 3 * number + 1 : number / 2;
        if (path.words[1] < number) path.words[1] = number;
    }
    return path;
}

/* The path of a number: from the cache, or computed and kept. If another thread kept it first,
 * that answers KEPT, and the path is the same. */
static clsm_value cached(clsm_caller *caller, uint64_t number) {
    clsm_value path;
    if (must(clsm_get(caller, number, &path)) == CLSM_NOT_FOUND) {
        path = path_of(number);
        must(clsm_put_if_absent(caller, number, &path, NULL));
    }
    return path;
}

static void *fill(void *store) {
    clsm_caller *caller;
    must(clsm_caller_open(store, &caller));
    for (uint64_t number = 1; number <= NUMBERS; number++) cached(caller, number);
    clsm_caller_close(caller);
    atomic_fetch_sub(&running, 1);
    return NULL;
}

/* Reads a snapshot page by page. It has as many rows as it says, and each of them is right. */
static void look(clsm_caller *caller) {
    clsm_snapshot *snapshot;
    clsm_row rows[ROWS];
    clsm_page_end end = {.next = 0, .more = true};
    uint64_t count, seen = 0;
    must(clsm_snapshot_open(caller, &snapshot));
    must(clsm_snapshot_count(snapshot, 0, UINT64_MAX, &count));
    while (end.more) {
        must(clsm_snapshot_page(snapshot, end.next, UINT64_MAX, rows, ROWS, &end));
        for (uint64_t i = 0; i < end.rows; i++, seen++)
            if (rows[i].value.words[0] != path_of(rows[i].key).words[0]) abort();
    }
    if (seen != count) abort();
    clsm_snapshot_close(snapshot);
}

int main(void) {
    const clsm_options options = {.keys = 10000};
    pthread_t threads[THREADS];
    clsm_store *store;
    clsm_caller *caller;
    uint64_t count;
    must(clsm_open(&options, &store));
    must(clsm_caller_open(store, &caller));
    atomic_store(&running, THREADS);
    for (int i = 0; i < THREADS; i++)
        if (pthread_create(&threads[i], NULL, fill, store)) return 1;
    while (atomic_load(&running) > 0) look(caller);
    for (int i = 0; i < THREADS; i++) pthread_join(threads[i], NULL);
    look(caller);
    must(clsm_count(caller, 0, UINT64_MAX, &count));
    const clsm_value path = cached(caller, 27);
    printf("%" PRIu64 " numbers\n", count);
    printf("27 takes %" PRIu64 " steps and climbs to %" PRIu64 "\n", path.words[0], path.words[1]);
    clsm_caller_close(caller);
    return must(clsm_close(store));
}
