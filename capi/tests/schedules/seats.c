/* Parts of scenarios: seats that are taken and given back, and what closed callers saw. */
#include "parts.h"

#include "../mock_core.h"

/* ---- Seats. One is refused only if all were wanted at some moment of the call. */

static bool is_numbered[CLSM_SEATS];
static unsigned wanted, most_wanted[PARTS];

void begin_seats(unsigned in_use) {
    memset(is_numbered, 0, sizeof is_numbered);
    wanted = in_use;
}

static void want(uint64_t part) {
    wanted++;
    for (unsigned i = 0; i < PARTS; i++)
        if (most_wanted[i] < wanted || i == part) most_wanted[i] = wanted;
}

static void want_no_more(uint64_t part, const void *handle_or_null) {
    expect(handle_or_null || most_wanted[part] > CLSM_SEATS, "one is refused if all are in use");
    wanted--;
}

static void use(unsigned number) {
    expect(number < CLSM_SEATS && !is_numbered[number], "no two have one number");
    is_numbered[number] = true;
    scheduler_point("is open");
    is_numbered[number] = false;
}

void use_caller(uint64_t part) {
    want(part);
    clsm_caller *caller = open_caller(OR(NO_SEAT));
    if (caller) use(clsm_number(caller));
    clsm_caller_close(caller);
    want_no_more(part, caller);
}

static void use_snapshot(clsm_caller *caller, uint64_t part) {
    want(part);
    clsm_snapshot *snapshot = open_snapshot(caller, OR(NO_SEAT));
    if (snapshot) use(clsm_snapshot_number(snapshot));
    if (snapshot) read_and_close(snapshot);
    want_no_more(part, snapshot);
}

void use_snapshots(uint64_t part) {
    use_snapshot(callers[0], part);
    use_snapshot(callers[0], part);
}

void use_transaction(uint64_t part) {
    want(part);
    const int code = transact(0, 1, OR(NO_SEAT));
    want_no_more(part, code == CLSM_OK ? the_store : NULL);
}

void use_store_snapshot(uint64_t part) { use_snapshot(NULL, part); }

void open_two(void) {
    snapshots[0] = open_snapshot(callers[0], 0);
    snapshots[1] = open_snapshot(callers[0], 0);
    wanted += 2;
}

void open_of_other(void) {
    snapshots[0] = open_snapshot(callers[1], 0);
    wanted++;
}

/* ---- What others saw, where reads of the core may run back between two seats */

static uint64_t seen;

void run_back(void) {
    seen = 0;
    fill(1);
    mock_core_run_back(MOCK_READ, 1, 3);
    mock_core_run_back(MOCK_SNAPSHOT, 1, 3);
}

void put_and_send(uint64_t who) {
    put_once(who);
    seen = clsm_seen(callers[who]);
}

void put_and_leave(uint64_t who) {
    put_once(who);
    const uint64_t last = clsm_seen(callers[who]);
    clsm_caller_close(callers[who]);
    callers[who] = NULL;
    if (seen < last) seen = last;
}

void follow(uint64_t who) {
    const uint64_t sent = seen;
    expect_code(clsm_follow(callers[who], sent), 0, "follow");
    expect(clsm_seen(callers[who]) >= sent, "one who follows sees what was seen");
    get((unsigned)who, 0);
}

void open_behind(uint64_t who) {
    const uint64_t left = seen;
    callers[who] = open_caller(0);
    expect(clsm_seen(callers[who]) >= left, "a caller sees what closed ones saw");
    get((unsigned)who, 0);
}

void snapshot_behind(uint64_t which) {
    const uint64_t left = seen;
    snapshots[which] = open_snapshot(NULL, 0);
    const uint64_t time = clsm_snapshot_time(snapshots[which]);
    expect(time >= left, "a snapshot has what closed ones saw");
    close_snapshot(which);
    if (seen < time) seen = time;
}
