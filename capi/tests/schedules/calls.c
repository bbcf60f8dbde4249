/* Calls that are checked and noted: calls.h. */
#include "calls.h"

#include "../../src/store.h"
#include "../mock_core.h"

enum { TIMES = 512, KEYS = 64, CODES = 64 }; /* of a scenario, at most */

clsm_store *the_store;
clsm_caller *callers[CLSM_SEATS];

static struct write {
    bool is_made;
    uint64_t key, value; /* 0: none */
} writes[TIMES];

static struct read {
    uint64_t time, key, value;
    bool differs;
} reads[TIMES];
static struct count { uint64_t time, keys; } counts[TIMES];

static size_t reads_made, counts_made;
static uint64_t values, clock_seen, refused[CODES];

static char told[100];

void expect(bool holds, const char *what) {
    if (holds) return;
    snprintf(told, sizeof told, "it is not so that %s", what);
    scheduler_fail(told);
}

int expect_code(int code, uint64_t codes, const char *call) {
    if ((codes | OR(OK)) >> code & 1) return code;
    snprintf(told, sizeof told, "%s answers %d, %s", call, code, clsm_strerror(code));
    scheduler_fail(told);
}

/* The same of a call whose refusals the store counts. */
static int expect_counted(int code, uint64_t codes, const char *call) {
    refused[expect_code(code, codes, call)]++;
    return code;
}

/* ---- Notes */

void note_write(uint64_t time, uint64_t key, uint64_t value) {
    expect(time < TIMES && key < KEYS, "there is room for notes");
    expect(!writes[time].is_made, "no two writes have one time");
    writes[time] = (struct write){true, key, value};
}

void note_read(uint64_t time, uint64_t key, uint64_t value) {
    expect(reads_made < TIMES, "there is room for notes");
    reads[reads_made++] = (struct read){time, key, value, false};
}

void note_other(uint64_t time, uint64_t key, uint64_t value) {
    note_read(time, key, value);
    reads[reads_made - 1].differs = true;
}

void note_rows(uint64_t time, const clsm_row *rows, uint64_t count, uint64_t first, uint64_t end) {
    uint64_t at = 0;
    for (uint64_t key = first; key < end; key++) {
        const bool has_value = at < count && rows[at].key == key;
        note_read(time, key, has_value ? rows[at++].value.words[0] : 0);
    }
    expect(at == count, "rows have each key once, in order");
}

void note_count(uint64_t time, uint64_t keys) {
    expect(counts_made < TIMES, "there is room for notes");
    counts[counts_made++] = (struct count){time, keys};
}

static void check_read(const struct read *read) {
    uint64_t time = read->time, value = 0;
    while (time-- > 0) {
        if (!writes[time].is_made || writes[time].key != read->key) continue;
        value = writes[time].value;
        break;
    }
    expect((value == read->value) != read->differs, "a read has what was written below its time");
}

/* What the keys have at this time, and how many have a value. */
static uint64_t map_at(uint64_t end, uint64_t newest[KEYS]) {
    uint64_t keys = 0;
    memset(newest, 0, KEYS * sizeof *newest);
    for (uint64_t time = 0; time < end; time++)
        if (writes[time].is_made) newest[writes[time].key] = writes[time].value;
    for (size_t key = 0; key < KEYS; key++) keys += newest[key] != 0;
    return keys;
}

static void check_count(const struct count *count) {
    uint64_t newest[KEYS];
    expect(map_at(count->time, newest) == count->keys, "a count has the keys of its time");
}

static void check_map(void) {
    uint64_t newest[KEYS];
    const uint64_t keys = map_at(TIMES, newest);
    clsm_row rows[KEYS];
    clsm_page_end end;
    expect_code(clsm_page(callers[0], 0, KEYS, rows, KEYS, &end), 0, "page");
    expect(end.rows == keys, "the map has as many keys as were written");
    for (size_t i = 0; i < keys; i++)
        expect(rows[i].value.words[0] == newest[rows[i].key], "the map has what was written last");
}

/* ---- Calls of a caller */

static uint64_t seen_by(unsigned who) { return clsm_seen(callers[who]); }

void check_time(unsigned who, uint64_t seen, uint64_t took) {
    const uint64_t time = clsm_time(callers[who]);
    expect(time >= seen && seen_by(who) == time + took, "times do not run back");
}

static int wrote(unsigned who, uint64_t seen, int code, uint64_t key, uint64_t value) {
    if (code != CLSM_OK) return code;
    check_time(who, seen, 1);
    note_write(clsm_time(callers[who]), key, value);
    return code;
}

uint64_t new_value(void) { return ++values; }

int put(unsigned who, uint64_t key, uint64_t codes) {
    const uint64_t value = new_value(), seen = seen_by(who);
    int code = expect_counted(clsm_put(callers[who], key, &value, 1), codes, "put");
    return wrote(who, seen, code, key, value);
}

int try_put(unsigned who, uint64_t key, uint64_t codes) {
    const uint64_t value = ++values, seen = seen_by(who);
    int code = expect_counted(clsm_try_put(callers[who], key, &value, 1), codes, "try_put");
    return wrote(who, seen, code, key, value);
}

int removed(unsigned who, uint64_t key, uint64_t codes) {
    const uint64_t seen = seen_by(who);
    int code = expect_counted(clsm_remove(callers[who], key), codes, "remove");
    return wrote(who, seen, code, key, 0);
}

int batch(unsigned who, uint64_t first, size_t count, uint64_t codes) {
    enum { ROWS = 8 };
    clsm_row rows[ROWS] = {{.key = first}};
    const uint64_t seen = seen_by(who), value = values;
    for (size_t i = 0; i < count; i++) rows[i] = (clsm_row){first + i, {1, {++values}}};
    int code = expect_counted(clsm_batch(callers[who], rows, count), codes, "batch");
    if (code != CLSM_OK) return code;
    check_time(who, seen, count);
    for (size_t i = 0; i < count; i++)
        note_write(clsm_time(callers[who]) + i, first + i, value + 1 + i);
    return code;
}

int remove_range(unsigned who, uint64_t key, uint64_t codes) {
    const uint64_t seen = seen_by(who);
    uint64_t keys = 0;
    int code = clsm_remove_range(callers[who], key, key, &keys);
    code = expect_counted(code, codes, "remove_range");
    expect(keys <= 1, "a range of one key has no more");
    if (keys > 0) return wrote(who, seen, code, key, 0);
    if (code == CLSM_OK) note_read(clsm_time(callers[who]), key, 0);
    return code;
}

/* Notes what such a batch found and wrote: two rows from the first key on. */
static int wrote_if(unsigned who, uint64_t seen, int code, const clsm_row *expected,
                    const clsm_row *rows, size_t unmet) {
    const uint64_t time = clsm_time(callers[who]);
    if (code == CLSM_KEPT) {
        check_time(who, seen, 0);
        expect(unmet < 2, "a range is the same where its rows are");
        note_other(time, expected[unmet].key, expected[unmet].value.words[0]);
    }
    if (code != CLSM_OK) return code;
    check_time(who, seen, rows ? 2 : 0);
    for (size_t i = 0; i < 2; i++) {
        note_read(time, expected[i].key, expected[i].value.words[0]);
        if (rows) note_write(time + i, rows[i].key, rows[i].value.words[0]);
    }
    return code;
}

int batch_if(unsigned who, uint64_t first, bool is_write, uint64_t codes) {
    const uint64_t keys[] = {first, first + 1};
    clsm_value found[2];
    expect_code(clsm_get_many(callers[who], keys, 2, found), 0, "get_many");
    for (size_t i = 0; i < 2; i++) note_read(clsm_time(callers[who]), keys[i], found[i].words[0]);
    const clsm_row expected[] = {{first, found[0]}, {first + 1, found[1]}};
    const clsm_range_count both = {first, first + 1, found[0].length + found[1].length};
    const clsm_row rows[] = {{first, {1, {values + 1}}}, {first + 1, {1, {values + 2}}}};
    const uint64_t seen = seen_by(who);
    values += 2;
    size_t unmet = 2;
    int code = clsm_batch_if(callers[who], expected, 2, &both, 1, rows, is_write ? 2 : 0, &unmet);
    expect_counted(code, codes | OR(KEPT), "batch_if");
    return wrote_if(who, seen, code, expected, is_write ? rows : NULL, unmet);
}

/* Reads two keys, and a range that has both, and notes writes of both: OK, or why it cannot. */
static int read_and_write(clsm_transaction *transaction, uint64_t codes, clsm_row *found,
                          clsm_row *rows) {
    const uint64_t first = found->key;
    clsm_row page[2];
    clsm_page_end end;
    for (size_t i = 0; i < 2; i++) {
        found[i].key = first + i;
        const int code = clsm_transaction_get(transaction, first + i, &found[i].value);
        if (expect_code(code, OR(NOT_FOUND) | codes, "transaction_get") >= CLSM_FULL) return code;
    }
    const int code = clsm_transaction_page(transaction, first, first + 1, page, 2, &end);
    expect_code(code, 0, "transaction_page");
    expect(end.rows == found[0].value.length + found[1].value.length && !end.more,
           "a page is of the moment of the first read");
    for (size_t i = 0; i < 2; i++) {
        rows[i] = (clsm_row){first + i, {1, {++values}}};
        clsm_transaction_put(transaction, first + i, rows[i].value.words, 1);
    }
    return CLSM_OK;
}

int transact(unsigned who, uint64_t first, uint64_t codes) {
    clsm_transaction *transaction;
    clsm_row found[2] = {{.key = first}}, rows[2];
    uint64_t seen;
    int code;
    expect_code(clsm_transaction_open(callers[who], &transaction), 0, "transaction_open");
    do {
        code = read_and_write(transaction, codes, found, rows);
        if (code != CLSM_OK) break;
        seen = seen_by(who);
        code = clsm_transaction_commit(transaction);
        expect_code(code, OR(CONFLICT) | codes, "transaction_commit");
    } while (code == CLSM_CONFLICT);
    refused[code]++;
    if (code == CLSM_OK) wrote_if(who, seen, code, found, rows, 0);
    clsm_transaction_close(transaction);
    return code;
}

int add(unsigned who, uint64_t key, uint64_t codes) {
    const uint64_t seen = seen_by(who);
    clsm_changed changed;
    int code = expect_counted(clsm_add(callers[who], key, 1, &changed), codes, "add");
    if (code == CLSM_OK) note_read(clsm_time(callers[who]), key, changed.before.words[0]);
    return wrote(who, seen, code, key, changed.after.words[0]);
}

void get(unsigned who, uint64_t key) {
    const uint64_t seen = seen_by(who);
    clsm_value value;
    expect_code(clsm_get(callers[who], key, &value), OR(NOT_FOUND), "get");
    check_time(who, seen, 0);
    note_read(clsm_time(callers[who]), key, value.words[0]);
}

void get_many(unsigned who) {
    enum { MANY = 5 };
    static const uint64_t keys[MANY] = {0, 1, 2, 3, 4};
    const uint64_t seen = seen_by(who);
    clsm_value found[MANY];
    expect_code(clsm_get_many(callers[who], keys, MANY, found), 0, "get_many");
    check_time(who, seen, 0);
    for (uint64_t key = 0; key < MANY; key++)
        note_read(clsm_time(callers[who]), key, found[key].words[0]);
}

uint64_t count_keys(unsigned who) {
    const uint64_t seen = seen_by(who);
    uint64_t keys;
    expect_code(clsm_count(callers[who], 0, UINT64_MAX, &keys), 0, "count");
    check_time(who, seen, 0);
    note_count(clsm_time(callers[who]), keys);
    return keys;
}

void page(unsigned who) {
    const uint64_t seen = seen_by(who);
    clsm_row rows[KEYS];
    clsm_page_end end;
    expect_code(clsm_page(callers[who], 0, KEYS, rows, KEYS, &end), 0, "page");
    check_time(who, seen, 0);
    expect(!end.more, "a page has room for all keys");
    note_rows(clsm_time(callers[who]), rows, end.rows, 0, KEYS);
}

void page_down(unsigned who) {
    const uint64_t seen = seen_by(who);
    uint64_t at = 0;
    clsm_row rows[KEYS];
    clsm_page_end end;
    expect_code(clsm_page_down(callers[who], KEYS, 0, rows, KEYS, &end), 0, "page_down");
    check_time(who, seen, 0);
    for (uint64_t key = KEYS; key-- > 0;) {
        const bool has_value = at < end.rows && rows[at].key == key;
        note_read(clsm_time(callers[who]), key, has_value ? rows[at++].value.words[0] : 0);
    }
    expect(at == end.rows && !end.more, "a page has each key once, in falling order");
}

/* ---- Others */

clsm_caller *open_caller(uint64_t codes) {
    clsm_caller *caller;
    expect_counted(clsm_caller_open(the_store, &caller), codes, "caller_open");
    return caller;
}

clsm_snapshot *open_snapshot(clsm_caller *caller, uint64_t codes) {
    clsm_snapshot *snapshot;
    int code =
        caller ? clsm_snapshot_open(caller, &snapshot) : clsm_store_snapshot(the_store, &snapshot);
    expect_counted(code, codes, "snapshot_open");
    return snapshot;
}

void read_and_close(clsm_snapshot *snapshot) {
    const uint64_t key = 1;
    clsm_value value;
    expect_code(clsm_snapshot_get(snapshot, key, &value), OR(NOT_FOUND), "snapshot_get");
    note_read(clsm_snapshot_time(snapshot), key, value.words[0]);
    clsm_snapshot_close(snapshot);
}

int sweep(uint64_t codes) { return expect_code(clsm_sweep(the_store), codes, "sweep"); }

static clsm_statistics statistics(void) {
    clsm_statistics now;
    expect_code(clsm_stats(the_store, &now), 0, "stats");
    return now;
}

void look(void) {
    const uint64_t before = clock_seen;
    const clsm_statistics now = statistics();
    expect(now.callers + now.snapshots + now.scans <= CLSM_SEATS, "no more are open than seats");
    expect(now.clock >= before, "the clock does not run back");
    expect(now.epoch_writes <= the_store->cells, "an epoch has no more writes than it takes");
    if (clock_seen < now.clock) clock_seen = now.clock;
}

void expect_no_waits(void) { expect(statistics().waits == 0, "there was room for all"); }

void reserve_late(void) { clsm_reserve(the_store, the_store->board.frozen - 1); }

/* ---- The store */

void plan_nothing(void) {
    for (int call = 0; call < MOCK_CALLS; call++) {
        mock_core_refuse((enum mock_call)call, CLSM_OK, 0);
        mock_core_run_back((enum mock_call)call, 0, 0);
    }
}

void open_store(const clsm_options *options, unsigned count) {
    plan_nothing();
    memset(writes, 0, sizeof writes);
    memset(refused, 0, sizeof refused);
    memset(callers, 0, sizeof callers);
    reads_made = 0;
    counts_made = 0;
    values = 0;
    clock_seen = 0;
    expect_code(clsm_open(options, &the_store), 0, "open");
    for (unsigned i = 0; i < count; i++) callers[i] = open_caller(0);
    scheduler_settle();
}

void check_quiet(void) {
    const struct clsm_board *board = &the_store->board;
    const uint64_t cells = the_store->cells, clock = clsm_read_clock(the_store);
    expect(board->waiting == 0 && board->taken == board->given, "nobody waits");
    expect(board->batches == 0 && board->let_in == 0, "no batch waits");
    expect(the_store->gate < CLSM_EAGER && the_store->crowd.batches == 0, "nobody is at the gate");
    expect(the_store->pace.began == 0, "no merge is running");
    expect(the_store->counts.clock >= clock_seen, "the clock does not run back");
    if (the_store->merges_in_calls) return;
    clsm_core_phase phase;
    clsm_core_phase_of(&the_store->merger, &phase);
    expect(!phase.frozen && !phase.retired && clock / cells == board->frozen
               && clock % cells < cells / 2,
           "an epoch is merged from half full on");
}

static void check_refusals(void) {
    const clsm_statistics now = statistics();
    expect(now.run_full == refused[CLSM_RUN_FULL] && now.no_seat == refused[CLSM_NO_SEAT]
               && now.versions_full == refused[CLSM_VERSIONS_FULL] + refused[CLSM_OWN_SNAPSHOT],
           "refusals are counted");
}

void close_store(void) {
    if (!callers[0]) callers[0] = open_caller(0);
    check_map();
    for (size_t i = 0; i < reads_made; i++) check_read(&reads[i]);
    for (size_t i = 0; i < counts_made; i++) check_count(&counts[i]);
    check_refusals();
    for (unsigned i = 0; i < CLSM_SEATS; i++) clsm_caller_close(callers[i]);
    expect_code(clsm_close(the_store), 0, "close");
}
