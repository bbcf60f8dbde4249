/* Many keys at one time: reads of several keys, batches with conditions, reads by falling key; and
 * that what is read and what is written for it stand at one moment, whatever other threads do. */
#include "check.h"

#include <pthread.h>
#include <string.h>

enum { EPOCH = 64, THREADS = 4, ACCOUNTS = 8, EACH = 100, SNAPSHOTS = 20 };
static uint64_t rounds;

static clsm_row row(uint64_t key, uint64_t word) { return (clsm_row){key, {1, {word}}}; }

static clsm_row none(uint64_t key) { return (clsm_row){.key = key}; }

static void put(clsm_caller *caller, uint64_t key, uint64_t word) {
    OK(clsm_put(caller, key, &word, 1));
}

static uint64_t word_at(clsm_caller *caller, uint64_t key) {
    clsm_value value;
    int code = clsm_get(caller, key, &value);
    CHECK(code == CLSM_OK || code == CLSM_NOT_FOUND);
    return value.words[0];
}

/* ---- Reads of several keys */

static void get_some(clsm_caller *caller) {
    const uint64_t words[] = {20, 21, 22}, keys[] = {3, 1, 2, 9, 1};
    clsm_value values[5];
    memset(values, 1, sizeof values);
    put(caller, 1, 10);
    OK(clsm_put(caller, 2, words, 3));
    OK(clsm_get_many(caller, keys, 5, values));
    CHECK(values[0].length == 0 && values[0].words[0] == 0 && values[0].words[7] == 0);
    CHECK(values[1].length == 1 && values[1].words[0] == 10 && values[1].words[1] == 0);
    CHECK(values[2].length == 3 && values[2].words[2] == 22 && values[3].length == 0);
    CHECK(memcmp(&values[1], &values[4], sizeof *values) == 0);
    CHECK(clsm_time(caller) == clsm_seen(caller));
    OK(clsm_get_many(caller, NULL, 0, NULL));
    CHECK(clsm_time(caller) == clsm_seen(caller));
    ANSWERS(CLSM_BAD_POINTER, clsm_get_many(caller, NULL, 1, values));
    ANSWERS(CLSM_BAD_POINTER, clsm_get_many(caller, keys, 1, NULL));
    ANSWERS(CLSM_BAD_POINTER, clsm_get_many(NULL, keys, 1, values));
    CHECK(values[1].words[0] == 10);
}

/* More keys than are read at a time, and a snapshot of them. */
static void get_parts(clsm_caller *caller) {
    enum { MANY = 1000, FIRST = 10000 };
    static uint64_t keys[MANY];
    static clsm_value values[MANY], before[MANY];
    clsm_snapshot *snapshot;
    for (uint64_t i = 0; i < MANY; i++) {
        keys[i] = FIRST + (i * 7) % MANY;
        if (i % 3 > 0) put(caller, FIRST + i, i);
    }
    OK(clsm_snapshot_open(caller, &snapshot));
    for (uint64_t i = 0; i < MANY; i += 2) OK(clsm_remove(caller, FIRST + i));
    OK(clsm_get_many(caller, keys, MANY, values));
    CHECK(clsm_time(caller) == clsm_seen(caller));
    OK(clsm_snapshot_get_many(snapshot, keys, MANY, before));
    for (uint64_t i = 0; i < MANY; i++) {
        const uint64_t at = keys[i] - FIRST;
        CHECK(before[i].length == (at % 3 > 0) && before[i].words[0] == (at % 3 ? at : 0));
        CHECK(values[i].length == (at % 3 && at % 2)
              && values[i].words[0] == (at % 3 && at % 2 ? at : 0));
    }
    OK(clsm_snapshot_get_many(snapshot, keys, 3, values));
    CHECK(memcmp(values, before, 3 * sizeof *values) == 0);
    OK(clsm_snapshot_get_many(snapshot, NULL, 0, NULL));
    ANSWERS(CLSM_BAD_POINTER, clsm_snapshot_get_many(snapshot, NULL, 3, values));
    ANSWERS(CLSM_BAD_POINTER, clsm_snapshot_get_many(snapshot, keys, 3, NULL));
    ANSWERS(CLSM_BAD_POINTER, clsm_snapshot_get_many(NULL, keys, 3, values));
    clsm_snapshot_close(snapshot);
    for (uint64_t i = 0; i < MANY; i++) OK(clsm_remove(caller, FIRST + i));
}

/* ---- Batches with conditions */

static int try_if(clsm_caller *caller, const clsm_row *expected, size_t count, size_t *unmet) {
    const clsm_row rows[] = {row(50, clsm_seen(caller)), none(51)};
    return clsm_batch_if(caller, expected, count, NULL, 0, rows, 2, unmet);
}

static void write_if_it_fits(clsm_caller *caller) {
    const clsm_row good[] = {row(60, 6), none(61), {62, {2, {7, 8, 99}}}, row(60, 6)};
    const uint64_t words[] = {7, 8};
    size_t unmet = 77;
    put(caller, 51, 1);
    put(caller, 60, 6);
    OK(clsm_put(caller, 62, words, 2));
    const uint64_t seen = clsm_seen(caller);
    OK(try_if(caller, good, 4, &unmet));
    CHECK(clsm_time(caller) >= seen && clsm_seen(caller) == clsm_time(caller) + 2 && unmet == 77);
    CHECK(word_at(caller, 50) == seen);
    ANSWERS(CLSM_NOT_FOUND, clsm_get(caller, 51, NULL));
}

/* Each condition by itself, and of several the first. Nothing is written then, and that is a read.
 */
static void keep_if_it_does_not(clsm_caller *caller) {
    const clsm_row bad[] = {row(60, 7), none(60), row(61, 0), {62, {1, {7}}}, {62, {3, {7, 8}}}};
    const uint64_t old = word_at(caller, 50);
    put(caller, 70, 1);
    for (size_t i = 0; i < 5; i++) {
        const clsm_row expected[] = {row(60, 6), none(61), bad[i], bad[0]};
        size_t unmet = 77;
        ANSWERS(CLSM_KEPT, try_if(caller, expected, 4, &unmet));
        CHECK(unmet == 2 && clsm_time(caller) == clsm_seen(caller));
        ANSWERS(CLSM_KEPT, try_if(caller, expected + 2, 1, NULL));
        ANSWERS(CLSM_KEPT, try_if(caller, expected + 1, 2, &unmet));
        CHECK(unmet == 1);
    }
    CHECK(word_at(caller, 50) == old);
}

/* How many keys of a range have a value: ranges are numbered behind rows. */
static void count_ranges(clsm_caller *caller) {
    const clsm_row expected[] = {row(60, 6)}, rows[] = {row(80, 1)};
    const clsm_range_count good[] = {{60, 62, 2}, {63, 69, 0}, {5, 4, 0}, {0, UINT64_MAX, 0}};
    const clsm_range_count bad[] = {{60, 62, 2}, {60, 62, 3}, {60, 62, 1}};
    size_t unmet = 77;
    OK(clsm_batch_if(caller, expected, 1, good, 3, rows, 1, &unmet));
    CHECK(unmet == 77);
    ANSWERS(CLSM_KEPT, clsm_batch_if(caller, expected, 1, good, 4, rows, 1, &unmet));
    CHECK(unmet == 4);
    ANSWERS(CLSM_KEPT, clsm_batch_if(caller, NULL, 0, bad, 3, rows, 1, &unmet));
    CHECK(unmet == 1);
    ANSWERS(CLSM_KEPT, clsm_batch_if(caller, NULL, 0, bad + 2, 1, rows, 1, &unmet));
    CHECK(unmet == 0);
}

/* With no row it is a read; with no condition, a batch. */
static void write_or_test_alone(clsm_caller *caller) {
    const clsm_row good = row(60, 6), bad = row(60, 5), rows[] = {row(81, 1), row(82, 2)};
    OK(clsm_batch_if(caller, &good, 1, NULL, 0, NULL, 0, NULL));
    CHECK(clsm_time(caller) == clsm_seen(caller));
    ANSWERS(CLSM_KEPT, clsm_batch_if(caller, &bad, 1, NULL, 0, NULL, 0, NULL));
    CHECK(clsm_time(caller) == clsm_seen(caller));
    OK(clsm_batch_if(caller, NULL, 0, NULL, 0, rows, 2, NULL));
    CHECK(clsm_seen(caller) == clsm_time(caller) + 2 && word_at(caller, 82) == 2);
    OK(clsm_batch_if(caller, NULL, 0, NULL, 0, NULL, 0, NULL));
    CHECK(clsm_time(caller) == clsm_seen(caller));
}

static void refuse_batches(clsm_caller *caller) {
    static clsm_row rows[EPOCH + 1];
    clsm_row expected = row(60, 6);
    const clsm_range_count range = {0, 1, 0};
    size_t unmet = 77;
    for (uint64_t i = 0; i <= EPOCH; i++) rows[i] = row(200 + i, i);
    const uint64_t time = clsm_time(caller), seen = clsm_seen(caller);
    ANSWERS(CLSM_BAD_POINTER, clsm_batch_if(NULL, NULL, 0, NULL, 0, rows, 1, &unmet));
    ANSWERS(CLSM_BAD_POINTER, clsm_batch_if(caller, NULL, 1, NULL, 0, rows, 1, &unmet));
    ANSWERS(CLSM_BAD_POINTER, clsm_batch_if(caller, NULL, 0, NULL, 1, rows, 1, &unmet));
    ANSWERS(CLSM_BAD_POINTER, clsm_batch_if(caller, &expected, 1, &range, 1, NULL, 1, &unmet));
    ANSWERS(CLSM_BAD_BATCH, clsm_batch_if(caller, NULL, 0, NULL, 0, rows, EPOCH + 1, &unmet));
    ANSWERS(CLSM_BAD_BATCH, clsm_batch_if(caller, NULL, 0, NULL, 0, rows, SIZE_MAX, &unmet));
    rows[2].value.length = 9;
    ANSWERS(CLSM_BAD_VALUE, clsm_batch_if(caller, &expected, 1, NULL, 0, rows, 3, &unmet));
    expected.value.length = UINT64_MAX;
    ANSWERS(CLSM_BAD_VALUE, clsm_batch_if(caller, &expected, 1, NULL, 0, rows, 2, &unmet));
    ANSWERS(CLSM_BAD_VALUE, clsm_batch_if(caller, &expected, 1, NULL, 0, NULL, 0, &unmet));
    CHECK(unmet == 77 && clsm_time(caller) == time && clsm_seen(caller) == seen);
    for (uint64_t key = 200; key <= 200 + EPOCH; key++)
        ANSWERS(CLSM_NOT_FOUND, clsm_get(caller, key, NULL));
}

/* Batches of each length, most of which find the epoch with less room than they need. */
static void write_lengths(int merge) {
    const clsm_options options = {.epoch = EPOCH, .merge = merge};
    clsm_row rows[EPOCH], expected[EPOCH];
    clsm_store *store;
    clsm_caller *caller;
    OK(clsm_open(&options, &store));
    OK(clsm_caller_open(store, &caller));
    for (uint64_t i = 0; i < EPOCH; i++) expected[i] = none(i);
    for (uint64_t count = 1; count <= EPOCH; count++) {
        const clsm_range_count all = {0, EPOCH, count - 1};
        for (uint64_t i = 0; i < count; i++) rows[i] = row(i, count);
        OK(clsm_batch_if(caller, expected, EPOCH, &all, 1, rows, count, NULL));
        ANSWERS(CLSM_KEPT, clsm_batch_if(caller, expected, EPOCH, &all, 1, rows, count, NULL));
        memcpy(expected, rows, count * sizeof *rows);
    }
    clsm_caller_close(caller);
    OK(clsm_close(store));
}

/* A store that is full refuses one that gives one more key a value, and takes others. */
static void fill_run(int merge) {
    const clsm_options options = {.keys = 2, .epoch = 4, .merge = merge, .wait = -1};
    clsm_store *store;
    clsm_caller *caller;
    clsm_snapshot *snapshot;
    uint64_t key = 0;
    int code = CLSM_OK;
    size_t unmet = 77;
    OK(clsm_open(&options, &store));
    OK(clsm_caller_open(store, &caller));
    for (; code == CLSM_OK; key++) {
        const clsm_row fresh = row(key, 1), absent = none(key);
        code = clsm_batch_if(caller, &absent, 1, NULL, 0, &fresh, 1, &unmet);
        CHECK(key < 1000);
    }
    CHECK(code == CLSM_RUN_FULL && unmet == 77);
    const clsm_row first = row(0, 1), second = row(0, 2);
    OK(clsm_batch_if(caller, &first, 1, NULL, 0, &second, 1, NULL));
    ANSWERS(CLSM_KEPT, clsm_batch_if(caller, &first, 1, NULL, 0, &second, 1, &unmet));
    OK(clsm_snapshot_open(caller, &snapshot));
    for (key = 0; code != CLSM_OWN_SNAPSHOT; key++) {
        code = clsm_batch_if(caller, &second, 1, NULL, 0, &second, 1, NULL);
        CHECK(key < 1000 && (code == CLSM_OK || code == CLSM_OWN_SNAPSHOT));
    }
    clsm_snapshot_close(snapshot);
    clsm_caller_close(caller);
    OK(clsm_close(store));
}

/* ---- Downwards */

enum { ROWS = 1400, STEP = 3 };
static clsm_row up[ROWS + 1], down[ROWS + 1];

/* All rows of the range, by one page or by pages of so many rows. */
static uint64_t read_down(clsm_caller *caller, uint64_t last, uint64_t first, size_t room) {
    clsm_page_end end = {0, last, true};
    uint64_t count = 0;
    while (end.more) {
        OK(clsm_page_down(caller, end.next, first, down + count, room, &end));
        CHECK(end.rows == room || !end.more);
        count += end.rows;
    }
    return count;
}

static void compare(clsm_caller *caller, uint64_t first, uint64_t last, size_t room) {
    clsm_page_end end;
    OK(clsm_page(caller, first, last, up, ROWS + 1, &end));
    const uint64_t count = read_down(caller, last, first, room);
    CHECK(count == end.rows);
    for (uint64_t i = 0; i < count; i++)
        CHECK(memcmp(&down[i], &up[count - 1 - i], sizeof *up) == 0);
}

static void read_snapshot_down(clsm_caller *caller) {
    clsm_snapshot *snapshot;
    clsm_page_end end;
    clsm_row end_row;
    OK(clsm_snapshot_open(caller, &snapshot));
    OK(clsm_remove(caller, 0));
    OK(clsm_remove(caller, (ROWS - 1) * STEP));
    OK(clsm_snapshot_page_down(snapshot, UINT64_MAX, 0, down, ROWS + 1, &end));
    CHECK(end.rows == ROWS - ROWS / 7 + 1 && !end.more && down[0].key == (ROWS - 1) * STEP);
    OK(clsm_snapshot_page_down(snapshot, 9 * STEP, 0, down, 2, &end));
    CHECK(end.rows == 2 && end.more && end.next == 6 * STEP && down[1].key == 8 * STEP);
    ANSWERS(CLSM_BAD_POINTER, clsm_snapshot_page_down(snapshot, 1, 0, NULL, 1, &end));
    ANSWERS(CLSM_BAD_POINTER, clsm_snapshot_page_down(snapshot, 1, 0, down, 1, NULL));
    ANSWERS(CLSM_BAD_POINTER, clsm_snapshot_page_down(NULL, 1, 0, down, 1, &end));
    OK(clsm_snapshot_first(snapshot, 0, UINT64_MAX, &end_row));
    CHECK(end_row.key == 0);
    OK(clsm_snapshot_last(snapshot, 0, UINT64_MAX, &end_row));
    CHECK(end_row.key == (ROWS - 1) * STEP && end_row.value.words[0] == ROWS - 1);
    OK(clsm_first(caller, 0, UINT64_MAX, &end_row));
    CHECK(end_row.key == STEP);
    OK(clsm_last(caller, 0, UINT64_MAX, &end_row));
    CHECK(end_row.key == (ROWS - 2) * STEP);
    clsm_snapshot_close(snapshot);
}

static void find_ends(clsm_caller *caller) {
    clsm_row found = row(77, 7);
    OK(clsm_first(caller, STEP + 1, 9 * STEP, &found));
    CHECK(found.key == 2 * STEP && found.value.length == 1 && found.value.words[0] == 2);
    OK(clsm_last(caller, 0, 9 * STEP + 1, &found));
    CHECK(found.key == 9 * STEP && clsm_time(caller) == clsm_seen(caller));
    found = row(77, 7);
    ANSWERS(CLSM_NOT_FOUND, clsm_first(caller, STEP + 1, STEP + 2, &found));
    ANSWERS(CLSM_NOT_FOUND, clsm_last(caller, STEP + 1, STEP + 2, &found));
    ANSWERS(CLSM_NOT_FOUND, clsm_last(caller, 9, 8, &found));
    CHECK(found.key == 77 && found.value.words[0] == 7);
    ANSWERS(CLSM_BAD_POINTER, clsm_first(caller, 0, 1, NULL));
    ANSWERS(CLSM_BAD_POINTER, clsm_last(caller, 0, 1, NULL));
    ANSWERS(CLSM_BAD_POINTER, clsm_first(NULL, 0, 1, &found));
    ANSWERS(CLSM_BAD_POINTER, clsm_last(NULL, 0, 1, &found));
    ANSWERS(CLSM_BAD_POINTER, clsm_snapshot_first(NULL, 0, 1, &found));
    ANSWERS(CLSM_BAD_POINTER, clsm_snapshot_last(NULL, 0, 1, &found));
}

static void refuse_pages(clsm_caller *caller) {
    clsm_page_end end = {5, 6, true};
    ANSWERS(CLSM_BAD_POINTER, clsm_page_down(NULL, 1, 0, down, 1, &end));
    ANSWERS(CLSM_BAD_POINTER, clsm_page_down(caller, 1, 0, NULL, 1, &end));
    ANSWERS(CLSM_BAD_POINTER, clsm_page_down(caller, 1, 0, down, 1, NULL));
    CHECK(end.rows == 5 && end.next == 6 && end.more);
    OK(clsm_page_down(caller, UINT64_MAX, 0, NULL, 0, &end));
    CHECK(end.rows == 0 && end.more && end.next == (ROWS - 1) * STEP);
    OK(clsm_page_down(caller, 4, 5, down, 1, &end));
    CHECK(end.rows == 0 && !end.more);
}

static void read_all_down(int merge) {
    const clsm_options options = {.epoch = EPOCH, .merge = merge};
    clsm_store *store;
    clsm_caller *caller;
    OK(clsm_open(&options, &store));
    OK(clsm_caller_open(store, &caller));
    for (uint64_t i = 0; i < ROWS; i++) put(caller, i * 3 % ROWS * STEP, i * 3 % ROWS);
    for (uint64_t i = 0; i < ROWS; i += 2) put(caller, i * STEP, i);
    for (uint64_t i = 0; i < ROWS; i++)
        if (i % 7 == 6 || i == ROWS - 1) OK(clsm_remove(caller, i * STEP));
    put(caller, (ROWS - 1) * STEP, ROWS - 1);
    OK(clsm_remove(caller, 7 * STEP));
    for (size_t room = 1; room < 2000; room = room * 3 + 1) {
        compare(caller, 0, UINT64_MAX, room < ROWS ? room : ROWS + 1);
        compare(caller, 300, 2000, room < ROWS ? room : ROWS + 1);
    }
    put(caller, 7 * STEP, 7);
    refuse_pages(caller);
    find_ends(caller);
    put(caller, 6 * STEP, 6);
    clsm_caller_close(caller);
    OK(clsm_caller_open(store, &caller));
    OK(clsm_remove(caller, 7 * STEP));
    read_snapshot_down(caller);
    clsm_caller_close(caller);
    OK(clsm_close(store));
}

/* ---- Threads: what is read still stands when it is written for */

struct worker {
    pthread_t thread;
    clsm_store *store;
    clsm_caller *caller;
    uint64_t state, made;
};

static uint64_t draw(struct worker *self, uint64_t below) {
    self->state = self->state * 6364136223846793005 + 1442695040888963407;
    return (self->state >> 33) % below;
}

/* Moves some of one account to another one, if that leaves it enough. */
static void move(struct worker *self) {
    const uint64_t from = draw(self, ACCOUNTS),
                   to = (from + 1 + draw(self, ACCOUNTS - 1)) % ACCOUNTS;
    const uint64_t keys[] = {from, to}, amount = draw(self, EACH);
    clsm_value values[2];
    OK(clsm_get_many(self->caller, keys, 2, values));
    if (values[0].words[0] < amount) return;
    const clsm_row expected[] = {{from, values[0]}, {to, values[1]}};
    const clsm_row rows[] = {row(from, values[0].words[0] - amount),
                             row(to, values[1].words[0] + amount)};
    int code = clsm_batch_if(self->caller, expected, 2, NULL, 0, rows, 2, NULL);
    CHECK(code == CLSM_OK || code == CLSM_KEPT);
    self->made += code == CLSM_OK;
}

/* Two keys of which each may be given away, but not both: each looks at both and takes one. */
static void take_one_of_two(struct worker *self) {
    const uint64_t pair = 1000 + 2 * draw(self, ACCOUNTS), mine = pair + draw(self, 2);
    const uint64_t keys[] = {pair, pair + 1};
    clsm_value values[2];
    OK(clsm_get_many(self->caller, keys, 2, values));
    const bool both = values[0].length && values[1].length;
    const clsm_row expected[] = {{pair, values[0]}, {pair + 1, values[1]}};
    const clsm_row gone = none(mine), back[] = {row(pair, 1), row(pair + 1, 1)};
    CHECK(values[0].length || values[1].length);
    int code =
        clsm_batch_if(self->caller, expected, 2, NULL, 0, both ? &gone : back, both ? 1 : 2, NULL);
    CHECK(code == CLSM_OK || code == CLSM_KEPT);
}

/* A range that never has more than so many keys: each counts, and writes one if there is room. */
static void fill_seats(struct worker *self) {
    enum { FIRST = 2000, LAST = 2999, MOST = 5 };
    const uint64_t key = FIRST + draw(self, LAST - FIRST);
    uint64_t keys;
    OK(clsm_count(self->caller, FIRST, LAST, &keys));
    CHECK(keys <= MOST);
    const clsm_range_count range = {FIRST, LAST, keys};
    const clsm_row absent = none(key), fresh = row(key, 1);
    if (keys < MOST) {
        int code = clsm_batch_if(self->caller, &absent, 1, &range, 1, &fresh, 1, NULL);
        CHECK(code == CLSM_OK || code == CLSM_KEPT);
        return;
    }
    clsm_row last;
    if (clsm_last(self->caller, FIRST, LAST, &last) == CLSM_OK)
        OK(clsm_remove(self->caller, last.key));
}

static uint64_t sum_of(const clsm_value *values) {
    uint64_t sum = 0;
    for (int i = 0; i < ACCOUNTS; i++) sum += values[i].words[0];
    return sum;
}

static void look(struct worker *self) {
    static const uint64_t keys[ACCOUNTS] = {0, 1, 2, 3, 4, 5, 6, 7};
    clsm_value values[ACCOUNTS];
    clsm_row rows[ACCOUNTS];
    clsm_page_end end;
    clsm_snapshot *snapshot;
    OK(clsm_get_many(self->caller, keys, ACCOUNTS, values));
    CHECK(sum_of(values) == ACCOUNTS * EACH);
    OK(clsm_page_down(self->caller, ACCOUNTS - 1, 0, rows, ACCOUNTS, &end));
    for (int i = 0; i < ACCOUNTS; i++) values[i] = rows[i].value;
    CHECK(end.rows == ACCOUNTS && sum_of(values) == ACCOUNTS * EACH);
    OK(clsm_snapshot_open(self->caller, &snapshot));
    OK(clsm_snapshot_get_many(snapshot, keys, ACCOUNTS, values));
    CHECK(sum_of(values) == ACCOUNTS * EACH);
    clsm_snapshot_close(snapshot);
}

static void *work(void *of) {
    struct worker *self = of;
    for (uint64_t i = 0; i < rounds; i++) {
        move(self);
        take_one_of_two(self);
        fill_seats(self);
        if (i % SNAPSHOTS == 0) look(self);
    }
    return NULL;
}

static void begin(clsm_caller *caller) {
    for (uint64_t key = 0; key < ACCOUNTS; key++) put(caller, key, EACH);
    for (uint64_t key = 0; key < 2 * ACCOUNTS; key++) put(caller, 1000 + key, 1);
}

static void in_threads(const clsm_options *options) {
    struct worker workers[THREADS];
    clsm_store *store;
    uint64_t made = 0;
    OK(clsm_open(options, &store));
    for (uint64_t i = 0; i < THREADS; i++) {
        workers[i] = (struct worker){.store = store, .state = i};
        OK(clsm_caller_open(store, &workers[i].caller));
    }
    begin(workers[0].caller);
    for (int i = 1; i < THREADS; i++)
        OK(clsm_follow(workers[i].caller, clsm_seen(workers[0].caller)));
    for (int i = 0; i < THREADS; i++)
        CHECK(pthread_create(&workers[i].thread, NULL, work, &workers[i]) == 0);
    for (int i = 0; i < THREADS; i++) CHECK(pthread_join(workers[i].thread, NULL) == 0);
    for (int i = 0; i < THREADS; i++) made += workers[i].made;
    look(&workers[0]);
    CHECK(made > 0);
    for (int i = 0; i < THREADS; i++) clsm_caller_close(workers[i].caller);
    OK(clsm_close(store));
}

int main(int argc, char **argv) {
    const clsm_options options = {.epoch = EPOCH};
    clsm_store *store;
    clsm_caller *caller;
    rounds = argument(argc, argv, 1, 1000);
    OK(clsm_open(&options, &store));
    OK(clsm_caller_open(store, &caller));
    get_some(caller);
    get_parts(caller);
    write_if_it_fits(caller);
    keep_if_it_does_not(caller);
    count_ranges(caller);
    write_or_test_alone(caller);
    refuse_batches(caller);
    clsm_caller_close(caller);
    OK(clsm_close(store));
    write_lengths(0);
    write_lengths(CLSM_MERGE_IN_CALLS);
    fill_run(0);
    fill_run(CLSM_MERGE_IN_CALLS);
    read_all_down(0);
    read_all_down(CLSM_MERGE_IN_CALLS);
    in_threads(&(clsm_options){.keys = 20000, .epoch = EPOCH});
    in_threads(&(clsm_options){.keys = 20000, .epoch = 1024, .patience = -1});
    in_threads(&(clsm_options){.keys = 20000, .epoch = EPOCH, .merge = CLSM_MERGE_IN_CALLS});
    return passed("many");
}
