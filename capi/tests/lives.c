/* Handles that live longer than one would think, and processes and threads that end beside them.
 *
 *     lives [NAME]      by which it calls itself */
#define _POSIX_C_SOURCE 200809L
#include "check.h"

#include <dirent.h>
#include <inttypes.h>
#include <pthread.h>
#include <signal.h>
#include <stdatomic.h>
#include <string.h>
#include <sys/wait.h>
#include <time.h>
#include <unistd.h>

static const uint64_t WORD = 5;

static clsm_store *opened(size_t epoch) {
    const clsm_options options = {.epoch = epoch};
    clsm_store *store;
    OK(clsm_open(&options, &store));
    return store;
}

static void put_keys(clsm_store *store, uint64_t first, uint64_t last) {
    clsm_caller *caller;
    OK(clsm_caller_open(store, &caller));
    for (uint64_t key = first; key <= last; key++) OK(clsm_put(caller, key, &key, 1));
    clsm_caller_close(caller);
}

/* ---- A thread that ends with its handles open */

struct left {
    clsm_store *store;
    clsm_caller *caller;
    clsm_snapshot *snapshot;
    clsm_scan *scan;
};

static void *leave_open(void *of) {
    struct left *left = of;
    clsm_row row;
    OK(clsm_caller_open(left->store, &left->caller));
    OK(clsm_put(left->caller, 1, &WORD, 1));
    OK(clsm_snapshot_open(left->caller, &left->snapshot));
    OK(clsm_scan_open(left->caller, 0, UINT64_MAX, &left->scan));
    OK(clsm_scan_next(left->scan, &row));
    OK(clsm_remove(left->caller, 1));
    return NULL;
}

static void outlive_thread(void) {
    struct left left = {.store = opened(16)};
    pthread_t thread;
    clsm_row row;
    put_keys(left.store, 10, 99);
    CHECK(pthread_create(&thread, NULL, leave_open, &left) == 0 && pthread_join(thread, NULL) == 0);
    put_keys(left.store, 100, 199);
    ANSWERS(CLSM_NOT_FOUND, clsm_get(left.caller, 1, NULL));
    clsm_caller_close(left.caller);
    OK(clsm_snapshot_get(left.snapshot, 1, NULL));
    ANSWERS(CLSM_NOT_FOUND, clsm_snapshot_get(left.snapshot, 100, NULL));
    for (uint64_t key = 10; key <= 99; key++) {
        OK(clsm_scan_next(left.scan, &row));
        CHECK(row.key == key);
    }
    ANSWERS(CLSM_DONE, clsm_scan_next(left.scan, &row));
    ANSWERS(CLSM_IN_USE, clsm_close(left.store));
    clsm_scan_close(left.scan);
    clsm_snapshot_close(left.snapshot);
    OK(clsm_close(left.store));
}

/* ---- Snapshots and scans of one caller, in each order */

static void nest(void) {
    enum { COUNT = 5 };
    clsm_store *store = opened(16);
    clsm_caller *caller;
    clsm_snapshot *snapshots[COUNT];
    clsm_scan *scans[COUNT];
    clsm_value value;
    clsm_row row;
    OK(clsm_caller_open(store, &caller));
    for (uint64_t i = 0; i < COUNT; i++) {
        OK(clsm_put(caller, 1, &i, 1));
        OK(clsm_snapshot_open(caller, &snapshots[i]));
        OK(clsm_scan_open(caller, 1, 1, &scans[i]));
        CHECK(clsm_snapshot_time(snapshots[i]) == clsm_time(caller));
    }
    put_keys(store, 1, 100);
    for (uint64_t i = 0; i < COUNT; i++) {
        OK(clsm_snapshot_get(snapshots[i], 1, &value));
        OK(clsm_scan_next(scans[COUNT - 1 - i], &row));
        CHECK(value.words[0] == i && row.value.words[0] == COUNT - 1 - i);
    }
    clsm_snapshot_close(snapshots[0]);
    clsm_scan_close(scans[3]);
    clsm_caller_close(caller);
    clsm_scan_close(scans[0]);
    for (int i = 1; i < COUNT; i++) clsm_snapshot_close(snapshots[i]);
    clsm_scan_close(scans[1]);
    clsm_scan_close(scans[4]);
    OK(clsm_caller_open(store, &caller));
    OK(clsm_snapshot_open(caller, &snapshots[0]));
    clsm_caller_close(caller);
    clsm_snapshot_close(snapshots[0]);
    clsm_scan_close(scans[2]);
    OK(clsm_close(store));
}

/* Scans that are left at each row around the ends of the rows that they read at a time. */
static void leave_scans(void) {
    clsm_store *store = opened(64);
    clsm_caller *caller;
    clsm_scan *scan;
    clsm_row row;
    put_keys(store, 0, 199);
    OK(clsm_caller_open(store, &caller));
    for (uint64_t rows = 0; rows <= 200; rows++) {
        OK(clsm_scan_open(caller, 0, UINT64_MAX, &scan));
        for (uint64_t key = 0; key < rows; key++) {
            OK(clsm_scan_next(scan, &row));
            CHECK(row.key == key && row.value.length == 1 && row.value.words[0] == key);
        }
        if (rows == 200) ANSWERS(CLSM_DONE, clsm_scan_next(scan, &row));
        clsm_scan_close(scan);
    }
    for (uint64_t last = 62; last <= 66; last++) {
        OK(clsm_scan_open(caller, 0, last, &scan));
        for (uint64_t key = 0; key <= last; key++) OK(clsm_scan_next(scan, &row));
        ANSWERS(CLSM_DONE, clsm_scan_next(scan, &row));
        clsm_scan_close(scan);
    }
    clsm_caller_close(caller);
    OK(clsm_close(store));
}

/* ---- A process that forks: the child makes no call, and the parent goes on */

static atomic_bool is_over;

static void *put_on(void *of) {
    clsm_caller *caller;
    OK(clsm_caller_open(of, &caller));
    for (uint64_t i = 0; !atomic_load(&is_over); i++) OK(clsm_put(caller, i % 100, &i, 1));
    clsm_caller_close(caller);
    return NULL;
}

static void fork_beside(void) {
    clsm_store *store = opened(64);
    pthread_t thread;
    fflush(NULL);
    CHECK(pthread_create(&thread, NULL, put_on, store) == 0);
    for (int i = 0; i < 20; i++) {
        int status;
        pid_t child = fork();
        CHECK(child >= 0);
        /* A child that ended by itself would be searched for leaks, amid what other threads did. */
        if (child == 0) _exit(execl("/bin/sh", "sh", "-c", "exit 7", (char *)NULL));
        CHECK(waitpid(child, &status, 0) == child && WIFEXITED(status) && WEXITSTATUS(status) == 7);
        put_keys(store, 1000, 1100);
    }
    atomic_store(&is_over, true);
    CHECK(pthread_join(thread, NULL) == 0);
    OK(clsm_close(store));
}

static clsm_store *left_store;
static clsm_caller *left_caller;
static clsm_snapshot *left_snapshot;
static clsm_scan *left_scan;
static clsm_walk *left_walk;
static clsm_transaction *left_transaction;

/* As the destructors of C++ do at the end of a process. */
static void close_all(void) {
    clsm_walk_close(left_walk);
    clsm_transaction_close(left_transaction);
    clsm_scan_close(left_scan);
    clsm_snapshot_close(left_snapshot);
    clsm_caller_close(left_caller);
    ANSWERS(CLSM_OK, clsm_close(left_store));
}

/* In a child, which may open stores. Sanitizers let it start no thread. */
static void use_own_store(void) {
    const clsm_options options = {.epoch = 16, .merge = CLSM_MERGE_IN_CALLS};
    clsm_store *store, *copy;
    clsm_caller *caller;
    clsm_transaction *transaction;
    uint64_t keys;
    OK(clsm_open(&options, &store));
    OK(clsm_caller_open(store, &caller));
    put_keys(store, 1, 100);
    OK(clsm_count(caller, 0, UINT64_MAX, &keys));
    CHECK(keys == 100);
    OK(clsm_transaction_open(caller, &transaction));
    OK(clsm_transaction_add(transaction, 1, 1, NULL));
    OK(clsm_transaction_commit(transaction));
    clsm_transaction_close(transaction);
    OK(clsm_copy(store, &options, &copy));
    OK(clsm_close(copy));
    OK(clsm_clear(caller, &keys));
    CHECK(keys == 100);
    clsm_caller_close(caller);
    OK(clsm_close(store));
}

/* A child that closes what its parent opened leaves it as it is, and ends. */
static void close_in_child(void) {
    enum { CLOSED = 7 };
    int status;
    left_store = opened(64);
    put_keys(left_store, 1, 100);
    OK(clsm_caller_open(left_store, &left_caller));
    OK(clsm_snapshot_open(left_caller, &left_snapshot));
    OK(clsm_scan_open(left_caller, 1, 100, &left_scan));
    OK(clsm_walk_open(left_caller, 1, 100, &left_walk));
    OK(clsm_transaction_open(left_caller, &left_transaction));
    OK(clsm_transaction_get(left_transaction, 1, NULL));
    OK(clsm_transaction_put(left_transaction, 3, &(uint64_t){3}, 1));
    fflush(NULL);
    pid_t child = fork();
    CHECK(child >= 0);
    if (child == 0) {
        close_all();
        use_own_store();
        _exit(CLOSED);
    }
    CHECK(waitpid(child, &status, 0) == child);
    CHECK(WIFEXITED(status) && WEXITSTATUS(status) == CLOSED);
    OK(clsm_snapshot_get(left_snapshot, 1, NULL));
    OK(clsm_scan_next(left_scan, &(clsm_row){0}));
    OK(clsm_walk_next(left_walk, &(clsm_row){0}));
    OK(clsm_transaction_get(left_transaction, 2, NULL));
    OK(clsm_transaction_commit(left_transaction));
    close_all();
}

/* ---- The merger's thread, as the system shows it */

/* The number behind this name in the status of a thread, in base 16. */
static uint64_t status_of(const char *thread, const char *name) {
    char path[300], line[300];
    uint64_t number = 0;
    snprintf(path, sizeof path, "/proc/self/task/%s/status", thread);
    FILE *file = fopen(path, "r");
    CHECK(file);
    while (fgets(line, sizeof line, file))
        if (strncmp(line, name, strlen(name)) == 0)
            sscanf(line + strlen(name), "%" SCNx64, &number);
    fclose(file);
    return number;
}

static bool is_named(const char *thread, const char *name) {
    char path[300], found[300] = "";
    snprintf(path, sizeof path, "/proc/self/task/%s/comm", thread);
    FILE *file = fopen(path, "r");
    if (!file) return false; /* it has just ended */
    const bool is_there = fgets(found, sizeof found, file);
    fclose(file);
    return is_there && strncmp(found, name, strlen(name)) == 0;
}

/* Its signals: it leaves all to others but those of its own faults and of profilers. */
static void check_signals(const char *thread) {
    static const int own[] = {SIGSEGV, SIGBUS, SIGFPE, SIGILL, SIGTRAP, SIGABRT, SIGPROF};
    static const int others[] = {SIGINT, SIGTERM, SIGHUP, SIGALRM, SIGUSR1, SIGCHLD, SIGPIPE};
    const uint64_t blocked = status_of(thread, "SigBlk:");
    for (size_t i = 0; i < sizeof own / sizeof *own; i++) CHECK(!(blocked >> (own[i] - 1) & 1));
    for (size_t i = 0; i < sizeof others / sizeof *others; i++)
        CHECK(blocked >> (others[i] - 1) & 1);
}

/* How many there are, and one of them. */
static unsigned count_mergers(char one[256]) {
    DIR *threads = opendir("/proc/self/task");
    unsigned count = 0;
    CHECK(threads);
    for (struct dirent *entry; (entry = readdir(threads));) {
        if (entry->d_name[0] == '.' || !is_named(entry->d_name, "clsm-merger")) continue;
        snprintf(one, 256, "%s", entry->d_name);
        count++;
    }
    closedir(threads);
    return count;
}

/* It has a name. One that was joined before is listed for a moment still. */
static void show_thread(void) {
    enum { MOST_LOOKS = 10000, PAUSE = 1000000 };
    char thread[256];
    clsm_store *store = opened(64);
    put_keys(store, 1, 200); /* so it has begun */
    for (int looks = 0; count_mergers(thread) != 1; looks++) {
        CHECK(looks < MOST_LOOKS);
        nanosleep(&(struct timespec){.tv_nsec = PAUSE}, NULL);
    }
    check_signals(thread);
    OK(clsm_close(store));
}

/* ---- Stores beside one another */

static void open_many(void) {
    enum { COUNT = 10 };
    clsm_store *stores[COUNT];
    clsm_caller *callers[COUNT];
    uint64_t keys;
    for (uint64_t i = 0; i < COUNT; i++) {
        stores[i] = opened(16);
        OK(clsm_caller_open(stores[i], &callers[i]));
        for (uint64_t key = 0; key < 50 + i; key++) OK(clsm_put(callers[i], key, &key, 1));
    }
    for (uint64_t i = 0; i < COUNT; i++) {
        OK(clsm_count(callers[i], 0, UINT64_MAX, &keys));
        CHECK(keys == 50 + i);
        clsm_caller_close(callers[i]);
        OK(clsm_close(stores[i]));
    }
}

int main(int count, char **texts) {
    outlive_thread();
    nest();
    leave_scans();
    open_many();
    fork_beside();
    close_in_child();
    show_thread();
    return passed(count > 1 ? texts[1] : "lives");
}
