/* Parts of scenarios: reads beside writes and merges. Those of a snapshot, a scan or a transaction
 * are all of one moment, however long they take; and what a transaction writes is written only if
 * all that it read still stands. */
#include "parts.h"

enum { ROOM = 2 }; /* of a page */

/* Reads in parts. */
void count_all(uint64_t who) { count_keys((unsigned)who); }
void page_all(uint64_t who) { page((unsigned)who); }
void page_all_down(uint64_t who) { page_down((unsigned)who); }
void get_five(uint64_t who) { get_many((unsigned)who); }

void look_once(uint64_t with) {
    (void)with;
    look();
}

void look_twice(uint64_t with) {
    look_once(with);
    look_once(with);
}

/* ---- Conditions */

void write_if_once(uint64_t who) { batch_if((unsigned)who, 1, true, 0); }
void test_once(uint64_t who) { batch_if((unsigned)who, 1, false, 0); }

/* Nobody else keeps it from being written, if it is tried as often. */
void write_if_till_it_is(uint64_t who) {
    while (batch_if((unsigned)who, 1, true, 0) != CLSM_OK) continue;
}

void transact_once(uint64_t who) { transact((unsigned)who, 1, 0); }

/* ---- One moment */

enum { KEYS_READ = 3 };

void walk_once(uint64_t who) {
    clsm_walk *walk;
    clsm_row row;
    expect_code(clsm_walk_open(callers[who], 0, KEYS, &walk), 0, "walk_open");
    while (expect_code(clsm_walk_next(walk, &row), OR(DONE), "walk_next") == CLSM_OK)
        note_read(clsm_time(callers[who]), row.key, row.value.words[0]);
    clsm_walk_close(walk);
}

void scan_once(uint64_t who) {
    clsm_row rows[KEYS + 1];
    clsm_scan *scan;
    uint64_t count = 0;
    expect_code(clsm_scan_open(callers[who], 0, KEYS - 1, &scan), 0, "scan_open");
    const uint64_t time = clsm_time(callers[who]);
    while (expect_code(clsm_scan_next(scan, &rows[count]), OR(DONE), "scan_next") == CLSM_OK)
        expect(++count <= KEYS, "a scan has each key once");
    note_rows(time, rows, count, 0, KEYS);
    clsm_scan_close(scan);
    get((unsigned)who, 1);
}

/* Its caller writes meanwhile, which it does not see. */
void read_snapshot(uint64_t who) {
    static const uint64_t keys[KEYS_READ] = {3, 1, 2};
    clsm_snapshot *snapshot = open_snapshot(callers[who], 0);
    const uint64_t time = clsm_snapshot_time(snapshot);
    clsm_value values[KEYS_READ];
    clsm_row rows[KEYS];
    clsm_page_end end;
    uint64_t count;
    expect_code(clsm_snapshot_page(snapshot, 0, KEYS - 1, rows, KEYS, &end), 0, "snapshot_page");
    note_rows(time, rows, end.rows, 0, KEYS);
    put_once(who);
    expect_code(clsm_snapshot_get_many(snapshot, keys, KEYS_READ, values), 0, "snapshot_get_many");
    for (size_t i = 0; i < KEYS_READ; i++) note_read(time, keys[i], values[i].words[0]);
    expect_code(clsm_snapshot_count(snapshot, 0, UINT64_MAX, &count), 0, "snapshot_count");
    note_count(time, count);
    clsm_snapshot_close(snapshot);
}

/* ---- Transactions */

static clsm_transaction *begun(uint64_t who) {
    clsm_transaction *transaction;
    expect_code(clsm_transaction_open(callers[who], &transaction), 0, "transaction_open");
    return transaction;
}

static uint64_t word_of(clsm_transaction *transaction, uint64_t key) {
    clsm_value value;
    const int code = clsm_transaction_get(transaction, key, &value);
    expect_code(code, OR(NOT_FOUND), "transaction_get");
    return value.words[0];
}

static uint64_t write_at(clsm_transaction *transaction, uint64_t key) {
    const uint64_t value = new_value();
    expect_code(clsm_transaction_put(transaction, key, &value, 1), 0, "transaction_put");
    return value;
}

/* Reads all rows, page by page, and answers how many there are. */
static uint64_t rows_of(clsm_transaction *transaction, clsm_row rows[KEYS + ROOM]) {
    clsm_page_end end = {.more = true};
    uint64_t count = 0;
    while (end.more) {
        const int code =
            clsm_transaction_page(transaction, end.next, KEYS, rows + count, ROOM, &end);
        expect_code(code, 0, "transaction_page");
        count += end.rows;
        expect(count <= KEYS + 1, "pages have each key once");
    }
    return count;
}

/* What it reads downwards, counts and finds at both ends is what it read upwards. */
static void read_again(clsm_transaction *transaction, const clsm_row *rows, uint64_t count) {
    clsm_row again[KEYS + 1], ends[ROOM];
    clsm_page_end end;
    uint64_t keys;
    int code = clsm_transaction_page_down(transaction, KEYS, 0, again, KEYS + 1, &end);
    expect_code(code, 0, "transaction_page_down");
    for (uint64_t i = 0; i < end.rows && end.rows == count; i++)
        expect(memcmp(&again[i], &rows[count - 1 - i], sizeof *again) == 0, "rows are the same");
    code = clsm_transaction_count(transaction, 0, KEYS, &keys);
    expect_code(code, 0, "transaction_count");
    expect(end.rows == count && !end.more && keys == count, "it has as many rows");
    code = clsm_transaction_first(transaction, 0, KEYS, &ends[0]);
    expect_code(code, OR(NOT_FOUND), "transaction_first");
    expect((code == CLSM_OK) == (count > 0), "it has a first row, if it has one");
    if (count == 0) return;
    code = clsm_transaction_last(transaction, 0, KEYS, &ends[1]);
    expect_code(code, 0, "transaction_last");
    expect(ends[0].key == rows[0].key && ends[1].key == rows[count - 1].key, "ends are the same");
}

/* Reads a key, several, and all of them: the first one of these is its moment. */
static void read_by(clsm_transaction *transaction, uint64_t who, uint64_t own) {
    static const uint64_t keys[KEYS_READ] = {2, 1, 0};
    clsm_value values[KEYS_READ];
    clsm_row rows[KEYS + ROOM];
    const uint64_t one = word_of(transaction, 1), time = clsm_time(callers[who]);
    note_read(time, 1, one);
    const int code = clsm_transaction_get_many(transaction, keys, KEYS_READ, values);
    expect_code(code, 0, "transaction_get_many");
    for (size_t i = 0; i < KEYS_READ; i++) note_read(time, keys[i], values[i].words[0]);
    const uint64_t count = rows_of(transaction, rows), others = own ? count - 1 : count;
    expect(!own || (count > 0 && rows[others].key == KEYS && rows[others].value.words[0] == own),
           "it reads its own write");
    note_rows(time, rows, others, 0, KEYS);
    read_again(transaction, rows, count);
}

/* Twice: first to its end, where it has written nothing, and so has no conflict; then with a write
 * of its own, which is never made. */
void read_transaction(uint64_t who) {
    clsm_transaction *transaction = begun(who);
    read_by(transaction, who, 0);
    expect_code(clsm_transaction_commit(transaction), 0, "transaction_commit");
    read_by(transaction, who, write_at(transaction, KEYS));
    clsm_transaction_close(transaction);
}

/* Ends it: whether it has written, at a time behind all that was seen. */
static bool commits(clsm_transaction *transaction, uint64_t who) {
    const uint64_t seen = clsm_seen(callers[who]);
    const int code = clsm_transaction_commit(transaction);
    expect_code(code, OR(CONFLICT), "transaction_commit");
    check_time((unsigned)who, seen, code == CLSM_OK);
    return code == CLSM_OK;
}

/* A conflict is told only where the key has another value than the one that was read. */
void cross(uint64_t who) {
    const uint64_t from = 1 + who, to = 2 - who;
    clsm_transaction *transaction = begun(who);
    bool is_made;
    do {
        const uint64_t found = word_of(transaction, from), value = write_at(transaction, to);
        is_made = commits(transaction, who);
        const uint64_t time = clsm_time(callers[who]);
        if (is_made) note_read(time, from, found);
        else note_other(time, from, found);
        if (is_made) note_write(time, to, value);
    } while (!is_made);
    clsm_transaction_close(transaction);
}

/* Each writes twice, so there are no more conflicts than that. */
void cross_ranges(uint64_t who) {
    enum { ROWS = 3, WRITES = 2, CALLERS = 2 };
    static const uint64_t firsts[CALLERS] = {20, 30};
    const uint64_t first = firsts[who], last = first + ROWS - 1, other = firsts[1 - who];
    clsm_transaction *transaction = begun(who);
    for (uint64_t made = 0, tries = 0; made < WRITES; tries++) {
        clsm_row rows[ROOM];
        clsm_page_end end;
        const int code = clsm_transaction_page(transaction, first, last, rows, ROOM, &end);
        expect_code(code, 0, "transaction_page");
        const uint64_t value = write_at(transaction, other + made);
        expect(tries < 2 * WRITES, "there are no more conflicts than writes");
        if (!commits(transaction, who)) continue;
        const uint64_t time = clsm_time(callers[who]);
        note_rows(time, rows, end.rows, first, end.more ? end.next : last + 1);
        note_write(time, other + made++, value);
    }
    clsm_transaction_close(transaction);
}
