/* Makes a round of random calls in four threads, on a store whose sizes are the round's, and
 * records them: what thread T did in FOLDER/T. The lines, one thread's behind another's, are for
 * `clsm audit --seats 64`. There are ten rounds, and two mixes of calls: `usual` has some of all,
 * and most of `many` are reads of several keys, batches with conditions, and transactions.
 *
 *     audited FOLDER CALLS ROUND MIX SEED */
#include "check.h"
#include "record.h"

#include <pthread.h>
#include <string.h>

/* FEW: rows that a condition or a transaction looks at. MANY: keys that are read in parts. */
enum { ROUNDS = 10, THREADS = 4, ROWS = 16, FEW = 4, MANY = 300 };

struct round {
    clsm_options options;
    uint64_t range; /* of the keys */
};

static const struct round rounds[ROUNDS] = {
    {{.keys = 5000, .epoch = 4}, 20},
    {{.keys = 50000, .epoch = 64}, 100},
    {{.keys = 50000, .epoch = 1024}, 1000},
    {{.epoch = 4096}, 20000},
    {{.epoch = 512, .patience = -1}, 50},
    {{.epoch = 256, .patience = 1}, 500},
    {{.epoch = 1000, .patience = 64}, 5000},
    {{.keys = 50000, .epoch = 7, .merge = CLSM_MERGE_IN_CALLS}, 100},
    {{.epoch = 1024, .merge = CLSM_MERGE_IN_CALLS}, 1000},
    {{.epoch = 4096, .patience = -1, .merge = CLSM_MERGE_IN_CALLS}, 10000}};

struct worker {
    pthread_t thread;
    FILE *file;
    clsm_caller *caller;
    bool has_many; /* its mix */
    uint64_t calls, epoch, range, state;
};

/* ---- Draws */

/* splitmix64 */
static uint64_t draw(struct worker *self, uint64_t below) {
    uint64_t z = self->state += 0x9e3779b97f4a7c15u;
    z = (z ^ (z >> 30)) * 0xbf58476d1ce4e5b9u;
    z = (z ^ (z >> 27)) * 0x94d049bb133111ebu;
    return (z ^ (z >> 31)) % below;
}

/* A key: most of them are a few. */
static uint64_t draw_key(struct worker *self) {
    return draw(self, 2) ? draw(self, self->range) : draw(self, self->range / 10 + 1);
}

static size_t draw_words(struct worker *self, uint64_t words[8]) {
    size_t count = draw(self, 4) ? 1 : 1 + draw(self, 8);
    for (size_t i = 0; i < count; i++) words[i] = draw(self, UINT64_MAX);
    return count;
}

/* ---- Calls, each with its record */

static bool was_written(int code) {
    CHECK(code == CLSM_OK || code == CLSM_RUN_FULL
          || (code >= CLSM_FULL && code <= CLSM_OVERTAKEN));
    return code == CLSM_OK;
}

static void put(struct worker *self) {
    uint64_t words[8];
    const size_t count = draw_words(self, words);
    const uint64_t key = draw_key(self);
    int code = draw(self, 8) ? clsm_put(self->caller, key, words, count)
                             : clsm_try_put(self->caller, key, words, count);
    if (was_written(code))
        record_put(self->file, clsm_number(self->caller), clsm_time(self->caller), key, words,
                   count);
}

static void remove_key(struct worker *self) {
    const uint64_t key = draw_key(self);
    int code = draw(self, 8) ? clsm_remove(self->caller, key) : clsm_try_remove(self->caller, key);
    if (was_written(code))
        record_remove(self->file, clsm_number(self->caller), clsm_time(self->caller), key);
}

static void batch(struct worker *self) {
    clsm_row rows[ROWS];
    const size_t most = self->epoch < ROWS ? self->epoch : ROWS, count = 1 + draw(self, most);
    for (size_t i = 0; i < count; i++) {
        rows[i] = (clsm_row){.key = draw_key(self)};
        if (draw(self, 4)) rows[i].value.length = draw_words(self, rows[i].value.words);
    }
    if (was_written(clsm_batch(self->caller, rows, count)))
        record_batch(self->file, clsm_number(self->caller), clsm_time(self->caller), rows, count);
}

/* ---- Several keys at one time, which are recorded as so many gets */

static void record_gets(struct worker *self, uint64_t time, const clsm_row *found, size_t count) {
    for (size_t i = 0; i < count; i++)
        record_read(self->file, clsm_number(self->caller), time, "get", found[i].key,
                    &found[i].value);
}

static void get_many(struct worker *self, clsm_row *found, size_t count) {
    uint64_t keys[MANY] = {0};
    clsm_value values[MANY];
    for (size_t i = 0; i < count; i++) keys[i] = draw_key(self);
    OK(clsm_get_many(self->caller, keys, count, values));
    for (size_t i = 0; i < count; i++) found[i] = (clsm_row){keys[i], values[i]};
    record_gets(self, clsm_time(self->caller), found, count);
}

/* Few keys mostly, and now and then more than are read at once. */
static void get_some(struct worker *self) {
    clsm_row found[MANY];
    const size_t most = draw(self, 4) ? FEW : ROWS;
    get_many(self, found, draw(self, 1000) ? 1 + draw(self, most) : MANY);
}

/* ---- Batches with conditions */

/* What one expects: the rows of some keys and then those of a range, and how many that has. */
struct expected {
    size_t gets, count, ranges;
    clsm_row rows[2 * FEW];
    clsm_range_count range;
};

static void record_range(struct worker *self, uint64_t time, const clsm_range_count *range,
                         const clsm_row *rows) {
    const clsm_page_end all = {.rows = range->keys};
    record_page(self->file, clsm_number(self->caller), time, range->first, range->last, ROWS, rows,
                &all);
}

static void expect_range(struct worker *self, struct expected *expected) {
    clsm_row *rows = expected->rows + expected->count;
    clsm_page_end end;
    const uint64_t first = draw_key(self), last = first + draw(self, 20);
    OK(clsm_page(self->caller, first, last, rows, FEW, &end));
    expected->range = (clsm_range_count){first, end.more ? end.next - 1 : last, end.rows};
    expected->ranges = 1;
    expected->count += end.rows;
    record_range(self, clsm_time(self->caller), &expected->range, rows);
}

static void expect_some(struct worker *self, struct expected *expected) {
    expected->gets = expected->count = draw(self, FEW + 1);
    expected->ranges = 0;
    get_many(self, expected->rows, expected->gets);
    if (draw(self, 2)) expect_range(self, expected);
}

/* So many conditions of rows hold at this time, and the one of the range if all do. */
static void record_expected(struct worker *self, uint64_t time, const struct expected *expected,
                            size_t holding) {
    record_gets(self, time, expected->rows, holding < expected->count ? holding : expected->count);
    if (holding > expected->count && expected->ranges > 0)
        record_range(self, time, &expected->range, expected->rows + expected->gets);
}

/* Rows to be written, half of them of keys that are expected to have something. */
static size_t draw_rows(struct worker *self, const struct expected *expected, clsm_row rows[2]) {
    const size_t count = draw(self, 3);
    for (size_t i = 0; i < count; i++) {
        const bool is_old = expected->count > 0 && draw(self, 2);
        rows[i] = (clsm_row){.key = draw_key(self)};
        if (is_old) rows[i].key = expected->rows[draw(self, expected->count)].key;
        if (draw(self, 4)) rows[i].value.length = draw_words(self, rows[i].value.words);
    }
    return count;
}

static void batch_if(struct worker *self) {
    struct expected expected;
    clsm_row rows[2];
    size_t unmet = SIZE_MAX;
    expect_some(self, &expected);
    const size_t count = draw_rows(self, &expected, rows), wrong = draw(self, 8 * FEW);
    const bool is_wrong = wrong < expected.count;
    if (is_wrong) expected.rows[wrong].value = (clsm_value){1, {draw(self, UINT64_MAX)}};
    int code = clsm_batch_if(self->caller, expected.rows, expected.count, &expected.range,
                             expected.ranges, rows, count, &unmet);
    if (code == CLSM_KEPT) {
        CHECK(unmet < expected.count + expected.ranges && (!is_wrong || unmet <= wrong));
        record_expected(self, clsm_time(self->caller), &expected, unmet);
    } else if (was_written(code)) {
        CHECK(!is_wrong);
        record_expected(self, clsm_time(self->caller), &expected, SIZE_MAX);
        if (count > 0)
            record_batch(self->file, clsm_number(self->caller), clsm_time(self->caller), rows,
                         count);
    }
}

/* ---- Transactions */

/* What one has read: the page of a range, and some keys. */
struct looked {
    uint64_t first, last;
    size_t room, count;
    clsm_page_end end;
    clsm_row page[FEW], found[2 * FEW];
};

static void record_looked(struct worker *self, uint64_t time, const struct looked *looked) {
    record_page(self->file, clsm_number(self->caller), time, looked->first, looked->last,
                looked->room, looked->page, &looked->end);
    record_gets(self, time, looked->found, looked->count);
}

static void look_up(struct worker *self, clsm_transaction *transaction, struct looked *looked) {
    uint64_t keys[FEW] = {0};
    clsm_value values[FEW];
    const size_t count = draw(self, FEW - 1);
    for (size_t i = 0; i < count; i++) keys[i] = draw_key(self);
    OK(clsm_transaction_get_many(transaction, keys, count, values));
    for (size_t i = 0; i < count; i++)
        looked->found[looked->count++] = (clsm_row){keys[i], values[i]};
}

/* All of it is of the moment of the first read, whatever its caller writes meanwhile. */
static void look(struct worker *self, clsm_transaction *transaction, struct looked *looked) {
    looked->first = draw_key(self);
    looked->last = looked->first + draw(self, 20);
    looked->room = draw(self, FEW + 1);
    looked->count = 0;
    OK(clsm_transaction_page(transaction, looked->first, looked->last, looked->page, looked->room,
                             &looked->end));
    look_up(self, transaction, looked);
    record_looked(self, clsm_time(self->caller), looked);
    if (draw(self, 8) == 0) put(self);
    look_up(self, transaction, looked);
}

/* Writes the key in one of three ways, of which an add has read it: how many rows it is to write.
 */
static size_t write_by(struct worker *self, clsm_transaction *transaction, struct looked *looked,
                       clsm_row *row) {
    clsm_changed changed;
    const uint64_t way = draw(self, 4);
    if (way == 0) {
        OK(clsm_transaction_remove(transaction, row->key));
    } else if (way == 1) {
        int code = clsm_transaction_add(transaction, row->key, draw(self, 1000), &changed);
        looked->found[looked->count++] = (clsm_row){row->key, changed.before};
        row->value = changed.after;
        if (code == CLSM_KEPT) return 0;
        OK(code);
    } else {
        row->value.length = draw_words(self, row->value.words);
        OK(clsm_transaction_put(transaction, row->key, row->value.words, row->value.length));
    }
    return 1;
}

/* If it writes, all that it has read has the time of its end, too. */
static void transact(struct worker *self) {
    clsm_transaction *transaction;
    struct looked looked;
    clsm_row rows[2];
    size_t count = 0;
    OK(clsm_transaction_open(self->caller, &transaction));
    look(self, transaction, &looked);
    for (uint64_t i = 0, writes = draw(self, 3); i < writes; i++) {
        rows[count] = (clsm_row){.key = looked.first + i};
        count += write_by(self, transaction, &looked, &rows[count]);
    }
    if (draw(self, 16) == 0) {
        clsm_transaction_close(transaction);
        return;
    }
    int code = clsm_transaction_commit(transaction);
    clsm_transaction_close(transaction);
    CHECK(count > 0 || code == CLSM_OK);
    if (count == 0 || code == CLSM_CONFLICT || !was_written(code)) return;
    const uint64_t time = clsm_time(self->caller);
    record_looked(self, time, &looked);
    record_batch(self->file, clsm_number(self->caller), time, rows, count);
}

/* ---- Other calls */

static void change(struct worker *self) {
    const uint64_t key = draw_key(self), kind = draw(self, 4);
    clsm_value value = {.length = 0}, old;
    clsm_changed changed;
    int code;
    value.length = draw_words(self, value.words);
    clsm_get(self->caller, key, &old);
    if (kind == 0) code = clsm_put_if_absent(self->caller, key, &value, &changed);
    else if (kind == 1) code = clsm_add(self->caller, key, draw(self, UINT64_MAX), &changed);
    else if (kind == 2)
        code = clsm_replace(self->caller, key, old.length ? &old : NULL, &value, &changed);
    else code = clsm_replace(self->caller, key, old.length ? &old : NULL, NULL, &changed);
    if (code != CLSM_KEPT && !was_written(code)) return;
    record_change(self->file, clsm_number(self->caller), clsm_time(self->caller), key, code,
                  &changed);
}

static void get(struct worker *self) {
    const uint64_t key = draw_key(self);
    clsm_value value;
    int code = clsm_get(self->caller, key, &value);
    CHECK(code == (value.length ? CLSM_OK : CLSM_NOT_FOUND));
    record_read(self->file, clsm_number(self->caller), clsm_time(self->caller), "get", key, &value);
}

static void page(struct worker *self) {
    const uint64_t first = draw_key(self), last = first + draw(self, 100);
    const size_t room = draw(self, ROWS + 1);
    clsm_row rows[ROWS];
    clsm_page_end end;
    OK(clsm_page(self->caller, first, last, rows, room, &end));
    record_page(self->file, clsm_number(self->caller), clsm_time(self->caller), first, last, room,
                rows, &end);
}

/* What was read by falling key is the page of all that it passed, and the next key another one. */
static void record_down(FILE *to, unsigned seat, uint64_t time, const clsm_range_count *range,
                        const clsm_row *rows, const clsm_page_end *end) {
    clsm_row rising[ROWS];
    const clsm_page_end all = {.rows = end->rows}, next = {.next = end->next, .more = true};
    for (size_t i = 0; i < end->rows; i++) rising[end->rows - 1 - i] = rows[i];
    if (end->rows > 0 || !end->more)
        record_page(to, seat, time, end->more ? end->next + 1 : range->first, range->last, ROWS,
                    rising, &all);
    if (end->more) record_page(to, seat, time, end->next, range->last, 0, NULL, &next);
}

static clsm_range_count draw_falling(struct worker *self) {
    const uint64_t last = draw_key(self), size = draw(self, 100);
    return (clsm_range_count){.first = last > size ? last - size : 0, .last = last};
}

static void page_down(struct worker *self) {
    const clsm_range_count range = draw_falling(self);
    clsm_row rows[ROWS];
    clsm_page_end end;
    OK(clsm_page_down(self->caller, range.last, range.first, rows, draw(self, ROWS + 1), &end));
    record_down(self->file, clsm_number(self->caller), clsm_time(self->caller), &range, rows, &end);
}

/* The first or the last row of a range is all there is up to it. */
static void find_end(struct worker *self) {
    const bool is_last = draw(self, 2);
    clsm_range_count range = draw_falling(self);
    clsm_row row;
    int code = is_last ? clsm_last(self->caller, range.first, range.last, &row)
                       : clsm_first(self->caller, range.first, range.last, &row);
    CHECK(code == CLSM_OK || code == CLSM_NOT_FOUND);
    range.keys = code == CLSM_OK;
    if (range.keys > 0 && is_last) range.first = row.key;
    if (range.keys > 0 && !is_last) range.last = row.key;
    record_range(self, clsm_time(self->caller), &range, &row);
}

/* A scan that is read up to some row. */
static void scan(struct worker *self) {
    const uint64_t first = draw_key(self);
    const uint64_t most = 1 + draw(self, 200);
    clsm_row rows[200];
    clsm_scan *scan;
    uint64_t count = 0, last = UINT64_MAX;
    OK(clsm_scan_open(self->caller, first, last, &scan));
    const uint64_t time = clsm_time(self->caller);
    while (count < most && clsm_scan_next(scan, &rows[count]) == CLSM_OK) count++;
    if (count == most) last = rows[count - 1].key;
    record_scan(self->file, clsm_number(self->caller), time, first, last, rows, count);
    clsm_scan_close(scan);
}

/* Several keys, and a range from both ends, under a snapshot. */
static void look_at_many(struct worker *self, clsm_snapshot *snapshot, unsigned seat,
                         uint64_t time) {
    const clsm_range_count range = draw_falling(self);
    uint64_t keys[FEW], count;
    clsm_value values[FEW];
    clsm_row rows[ROWS];
    clsm_page_end end;
    for (size_t i = 0; i < FEW; i++) keys[i] = draw_key(self);
    OK(clsm_snapshot_get_many(snapshot, keys, FEW, values));
    for (size_t i = 0; i < FEW; i++)
        record_read(self->file, seat, time, "getat", keys[i], &values[i]);
    OK(clsm_snapshot_page_down(snapshot, range.last, range.first, rows, ROWS, &end));
    record_down(self->file, seat, time, &range, rows, &end);
    OK(clsm_snapshot_count(snapshot, range.first, range.last, &count));
    CHECK(end.more ? count > end.rows : count == end.rows);
}

/* Reads under a snapshot, with writes in between. */
static void look_back(struct worker *self) {
    clsm_snapshot *snapshot;
    clsm_value value;
    clsm_row rows[ROWS];
    clsm_page_end end;
    OK(clsm_snapshot_open(self->caller, &snapshot));
    const unsigned seat = clsm_snapshot_number(snapshot);
    const uint64_t time = clsm_snapshot_time(snapshot);
    record_snapshot(self->file, seat, time, "snap");
    for (uint64_t i = draw(self, self->has_many ? 3 : 10); i > 0; i--) {
        const uint64_t key = draw_key(self);
        if (draw(self, 2)) put(self);
        clsm_snapshot_get(snapshot, key, &value);
        record_read(self->file, seat, time, "getat", key, &value);
        OK(clsm_snapshot_page(snapshot, key, key + 50, rows, ROWS, &end));
        record_page(self->file, seat, time, key, key + 50, ROWS, rows, &end);
        if (self->has_many) look_at_many(self, snapshot, seat, time);
    }
    record_snapshot(self->file, seat, time, "close");
    clsm_snapshot_close(snapshot);
}

/* Of a thousand calls so many, in the usual mix and in the one of many keys. */
static const struct share {
    void (*make)(struct worker *);
    unsigned usual, many;
} shares[] = {{put, 350, 150},     {remove_key, 100, 60}, {change, 80, 40},    {batch, 20, 20},
              {get, 340, 60},      {page, 30, 20},        {scan, 5, 0},        {look_back, 15, 10},
              {get_some, 20, 250}, {batch_if, 15, 200},   {transact, 15, 150}, {page_down, 5, 20},
              {find_end, 5, 20}};

static void *work(void *of) {
    struct worker *self = of;
    for (uint64_t i = 0; i < self->calls; i++) {
        uint64_t kind = draw(self, 1000);
        const struct share *share = shares;
        for (;; share++) {
            const unsigned part = self->has_many ? share->many : share->usual;
            if (kind < part) break;
            kind -= part;
        }
        share->make(self);
    }
    return NULL;
}

/* ---- */

static void begin(struct worker *worker, const char *folder, int thread, clsm_store *store) {
    char name[4096];
    CHECK((size_t)snprintf(name, sizeof name, "%s/%d", folder, thread) < sizeof name);
    worker->file = fopen(name, "w");
    CHECK(worker->file);
    OK(clsm_caller_open(store, &worker->caller));
}

static void play(const char *folder, const struct round *round, const struct worker *like) {
    struct worker workers[THREADS];
    clsm_store *store;
    OK(clsm_open(&round->options, &store));
    for (int i = 0; i < THREADS; i++) {
        workers[i] = *like;
        workers[i].state = like->state * THREADS + (uint64_t)i;
        begin(&workers[i], folder, i, store);
        CHECK(pthread_create(&workers[i].thread, NULL, work, &workers[i]) == 0);
    }
    for (int i = 0; i < THREADS; i++) {
        CHECK(pthread_join(workers[i].thread, NULL) == 0);
        clsm_caller_close(workers[i].caller);
        CHECK(fclose(workers[i].file) == 0);
    }
    OK(clsm_close(store));
}

int main(int count, char **texts) {
    enum { FOLDER = 1, CALLS, ROUND, MIX, SEED, WORDS };
    CHECK(count == WORDS);
    const uint64_t number = argument(count, texts, ROUND, 0);
    CHECK(number < ROUNDS);
    const struct round *round = &rounds[number];
    const bool has_many = strcmp(texts[MIX], "many") == 0;
    CHECK(has_many || strcmp(texts[MIX], "usual") == 0);
    const struct worker like = {.has_many = has_many,
                                .calls = argument(count, texts, CALLS, 0) / THREADS,
                                .epoch = round->options.epoch,
                                .range = round->range,
                                .state = argument(count, texts, SEED, 0) * ROUNDS + number};
    play(texts[FOLDER], round, &like);
    return 0;
}
