/* AddressSanitizer names a call on a closed handle: each is made in a process of its own, which
 * must not get behind it. Build the library and this with -fsanitize=address. */
#define _POSIX_C_SOURCE 200809L
#include "check.h"

#include <sys/wait.h>
#include <unistd.h>

enum { SURVIVED = 42 };

static clsm_store *store;
static clsm_caller *caller;
static clsm_snapshot *snapshot;
static clsm_scan *scan;

static void get(void) { clsm_get(caller, 1, NULL); }
static void put(void) { clsm_put(caller, 1, &(uint64_t){1}, 1); }
static void clear(void) { clsm_clear(caller, NULL); }
static void close_again(void) { clsm_caller_close(caller); }
static void get_at(void) { clsm_snapshot_get(snapshot, 1, NULL); }
static void time_of(void) { CHECK(clsm_snapshot_time(snapshot) != UINT64_MAX); }
static void next(void) { clsm_scan_next(scan, &(clsm_row){0}); }

/* Whether the call is the end of its process. */
static bool is_named(void (*call)(void)) {
    int status;
    fflush(NULL);
    pid_t child = fork();
    CHECK(child >= 0);
    if (child == 0) {
        CHECK(freopen("/dev/null", "w", stderr));
        call();
        _exit(SURVIVED);
    }
    CHECK(waitpid(child, &status, 0) == child);
    return !(WIFEXITED(status) && WEXITSTATUS(status) == SURVIVED);
}

int main(void) {
    const clsm_options options = {.merge = CLSM_MERGE_IN_CALLS};
    OK(clsm_open(&options, &store));
    OK(clsm_caller_open(store, &caller));
    OK(clsm_snapshot_open(caller, &snapshot));
    OK(clsm_scan_open(caller, 0, 1, &scan));
    CHECK(!is_named(get) && !is_named(put) && !is_named(clear) && !is_named(get_at) && !is_named(next));
    clsm_snapshot_close(snapshot);
    clsm_scan_close(scan);
    clsm_caller_close(caller);
    CHECK(is_named(get) && is_named(put) && is_named(clear) && is_named(close_again));
    CHECK(is_named(get_at) && is_named(time_of) && is_named(next));
    OK(clsm_close(store));
    return passed("closed");
}
