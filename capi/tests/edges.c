/* Random calls at both ends of all keys, against a plain map of a few of them: ranges, several keys
 * at one time, conditions, and transactions, each of which must end as the map says. */
#include "check.h"

#include <string.h>

enum { KEYS = 12, ROWS = 16, EPOCH = 12, STEPS = 12, OTHER = 77 };

struct map {
    uint64_t words[KEYS]; /* 0: no value */
};

static uint64_t state, words;

/* splitmix64 */
static uint64_t draw(uint64_t below) {
    uint64_t z = state += 0x9e3779b97f4a7c15u;
    z = (z ^ (z >> 30)) * 0xbf58476d1ce4e5b9u;
    z = (z ^ (z >> 27)) * 0x94d049bb133111ebu;
    return (z ^ (z >> 31)) % below;
}

/* The first half of the places are the least keys, the others the greatest. */
static uint64_t key_at(uint64_t place) {
    return place < KEYS / 2 ? place : UINT64_MAX - (KEYS - 1 - place);
}

static clsm_range_count draw_range(void) {
    clsm_range_count range = {key_at(draw(KEYS)), key_at(draw(KEYS)), 0};
    if (draw(8) == 0) range.first = 1000;
    if (draw(8) == 0) range.last = 1001;
    return range;
}

static bool is_within(uint64_t place, const clsm_range_count *range) {
    return key_at(place) >= range->first && key_at(place) <= range->last;
}

/* The value that a place is to have, or none. */
static clsm_value value_at(const struct map *map, uint64_t place) {
    return (clsm_value){map->words[place] > 0, {map->words[place]}};
}

static uint64_t count_within(const struct map *map, const clsm_range_count *range) {
    uint64_t count = 0;
    for (uint64_t i = 0; i < KEYS; i++) count += map->words[i] > 0 && is_within(i, range);
    return count;
}

/* ---- Reads, by a caller or a snapshot */

/* The rows that a page is to have, and its end. */
static clsm_page_end page_of(const struct map *map, const clsm_range_count *range, bool falls,
                             size_t room, clsm_row *rows) {
    clsm_page_end end = {0};
    for (uint64_t i = 0; i < KEYS; i++) {
        const uint64_t place = falls ? KEYS - 1 - i : i;
        if (map->words[place] == 0 || !is_within(place, range)) continue;
        if (end.rows == room) return (clsm_page_end){room, key_at(place), true};
        rows[end.rows++] = (clsm_row){key_at(place), value_at(map, place)};
    }
    return end;
}

static void check_page(const struct map *map, const clsm_range_count *range, bool falls,
                       const clsm_row *rows, const clsm_page_end *end, size_t room) {
    clsm_row wanted[KEYS];
    const clsm_page_end at = page_of(map, range, falls, room, wanted);
    CHECK(end->rows == at.rows && end->more == at.more && end->next == at.next);
    CHECK(memcmp(rows, wanted, at.rows * sizeof *rows) == 0);
}

static void check_end(const struct map *map, const clsm_range_count *range, bool falls, int code,
                      const clsm_row *row) {
    clsm_row wanted[1] = {{.key = OTHER}};
    const clsm_page_end at = page_of(map, range, falls, 1, wanted);
    ANSWERS(at.rows > 0 ? CLSM_OK : CLSM_NOT_FOUND, code);
    CHECK(row->key == wanted->key && row->value.words[0] == wanted->value.words[0]);
}

static void read_ranges(clsm_caller *caller, clsm_snapshot *snapshot, const struct map *map) {
    const clsm_range_count range = draw_range();
    const uint64_t first = range.first, last = range.last;
    const size_t room = draw(ROWS);
    clsm_row rows[ROWS], row = {.key = OTHER};
    clsm_page_end end;
    uint64_t keys;
    OK(snapshot ? clsm_snapshot_page(snapshot, first, last, rows, room, &end)
                : clsm_page(caller, first, last, rows, room, &end));
    check_page(map, &range, false, rows, &end, room);
    OK(snapshot ? clsm_snapshot_page_down(snapshot, last, first, rows, room, &end)
                : clsm_page_down(caller, last, first, rows, room, &end));
    check_page(map, &range, true, rows, &end, room);
    OK(snapshot ? clsm_snapshot_count(snapshot, first, last, &keys)
                : clsm_count(caller, first, last, &keys));
    CHECK(keys == count_within(map, &range));
    int code = snapshot ? clsm_snapshot_first(snapshot, first, last, &row)
                        : clsm_first(caller, first, last, &row);
    check_end(map, &range, false, code, &row);
    row = (clsm_row){.key = OTHER};
    code = snapshot ? clsm_snapshot_last(snapshot, first, last, &row)
                    : clsm_last(caller, first, last, &row);
    check_end(map, &range, true, code, &row);
}

static void read_keys(clsm_caller *caller, clsm_snapshot *snapshot, const struct map *map) {
    uint64_t places[ROWS], keys[ROWS] = {0};
    clsm_value values[ROWS];
    const size_t count = draw(ROWS);
    for (size_t i = 0; i < count; i++) keys[i] = key_at(places[i] = draw(KEYS));
    OK(snapshot ? clsm_snapshot_get_many(snapshot, keys, count, values)
                : clsm_get_many(caller, keys, count, values));
    for (size_t i = 0; i < count; i++) {
        const clsm_value wanted = value_at(map, places[i]);
        CHECK(memcmp(&values[i], &wanted, sizeof wanted) == 0);
    }
}

/* ---- Writes */

static void write_one(clsm_caller *caller, struct map *map) {
    const uint64_t place = draw(KEYS);
    map->words[place] = draw(2) ? ++words : 0;
    if (map->words[place] > 0) OK(clsm_put(caller, key_at(place), &words, 1));
    else OK(clsm_remove(caller, key_at(place)));
}

/* Conditions, of which some do not hold: the place of the first of these, or SIZE_MAX. */
static size_t draw_conditions(const struct map *map, clsm_row *rows, size_t rows_count,
                              clsm_range_count *ranges, size_t ranges_count) {
    size_t wrong = SIZE_MAX;
    for (size_t i = ranges_count; i-- > 0;) {
        ranges[i] = draw_range();
        ranges[i].keys = count_within(map, &ranges[i]);
        if (draw(16) > 0) continue;
        ranges[i].keys += draw(2) ? 1 : UINT64_MAX;
        wrong = rows_count + i;
    }
    for (size_t i = rows_count; i-- > 0;) {
        const uint64_t place = draw(KEYS);
        rows[i] = (clsm_row){key_at(place), value_at(map, place)};
        if (draw(16) > 0) continue;
        rows[i].value.words[0]++;
        rows[i].value.length = draw(2) ? 1 : 2;
        wrong = i;
    }
    return wrong;
}

static void write_if(clsm_caller *caller, struct map *map) {
    enum { MOST = 4 };
    clsm_row expected[2 * MOST], rows[MOST];
    clsm_range_count ranges[MOST];
    uint64_t places[MOST];
    const size_t asked = draw(2 * MOST), counted = draw(MOST), count = draw(MOST);
    const size_t wrong = draw_conditions(map, expected, asked, ranges, counted);
    size_t unmet = SIZE_MAX;
    for (size_t i = 0; i < count; i++) {
        places[i] = draw(KEYS);
        rows[i] = (clsm_row){key_at(places[i]), {draw(2), {++words}}};
    }
    int code = clsm_batch_if(caller, asked ? expected : NULL, asked, counted ? ranges : NULL,
                             counted, count ? rows : NULL, count, &unmet);
    ANSWERS(wrong == SIZE_MAX ? CLSM_OK : CLSM_KEPT, code);
    CHECK(unmet == wrong);
    for (size_t i = 0; i < count && code == CLSM_OK; i++)
        map->words[places[i]] = rows[i].value.length ? rows[i].value.words[0] : 0;
}

/* ---- Transactions, beside another caller that writes */

struct played {
    clsm_transaction *transaction;
    struct map theirs; /* the store */
    struct map then;   /* the same at the first read */
    struct map mine;   /* what the transaction is to read, from its first read on */
    bool has_read, has_written;
    bool is_read[KEYS], is_written[KEYS];
    clsm_range_count counts[STEPS]; /* that it read, of the store */
    size_t counts_made;
};

/* It is to read the store as it is now, if this is its first read. */
static void begin_reading(struct played *self) {
    if (self->has_read) return;
    self->has_read = true;
    self->then = self->theirs;
    for (uint64_t i = 0; i < KEYS; i++)
        if (!self->is_written[i]) self->mine.words[i] = self->theirs.words[i];
}

/* The place of a key that is read: one that it wrote is no read. */
static uint64_t draw_read(struct played *self) {
    const uint64_t place = draw(KEYS);
    if (self->is_written[place]) return place;
    begin_reading(self);
    self->is_read[place] = true;
    return place;
}

static void note_write(struct played *self, uint64_t place, uint64_t word) {
    self->mine.words[place] = word;
    self->is_written[place] = true;
    self->has_written = true;
}

static void get(struct played *self) {
    const uint64_t place = draw_read(self);
    const clsm_value wanted = value_at(&self->mine, place);
    clsm_value value;
    int code = clsm_transaction_get(self->transaction, key_at(place), &value);
    ANSWERS(wanted.length > 0 ? CLSM_OK : CLSM_NOT_FOUND, code);
    CHECK(memcmp(&value, &wanted, sizeof value) == 0);
}

static void write(struct played *self) {
    const uint64_t place = draw(KEYS), word = draw(2) ? ++words : 0;
    note_write(self, place, word);
    if (word > 0) OK(clsm_transaction_put(self->transaction, key_at(place), &word, 1));
    else OK(clsm_transaction_remove(self->transaction, key_at(place)));
}

static void add(struct played *self) {
    const uint64_t place = draw_read(self), by = draw(3) ? 1 + draw(9) : UINT64_MAX - draw(3);
    const uint64_t old = self->mine.words[place], sum = old + by;
    clsm_changed changed;
    int code = clsm_transaction_add(self->transaction, key_at(place), by, &changed);
    ANSWERS(sum < by ? CLSM_KEPT : CLSM_OK, code);
    CHECK(changed.before.words[0] == old && changed.after.words[0] == (sum < by ? old : sum));
    if (sum >= by) note_write(self, place, sum);
}

/* It has read all of the range, or, if there is one, up to this key. */
static void note_range(struct played *self, clsm_range_count range, bool falls,
                       const uint64_t *key_or_null) {
    if (key_or_null && falls) range.first = *key_or_null;
    if (key_or_null && !falls) range.last = *key_or_null;
    for (uint64_t i = 0; i < KEYS; i++)
        if (is_within(i, &range)) self->is_read[i] = true;
}

/* It reads the keys of the page, and those before the next one. */
static void page(struct played *self) {
    const clsm_range_count range = draw_range();
    const size_t room = draw(ROWS);
    const bool falls = draw(2);
    clsm_row rows[ROWS];
    clsm_page_end end;
    begin_reading(self);
    OK(falls ? clsm_transaction_page_down(self->transaction, range.last, range.first, rows, room,
                                          &end)
             : clsm_transaction_page(self->transaction, range.first, range.last, rows, room, &end));
    check_page(&self->mine, &range, falls, rows, &end, room);
    note_range(self, range, falls, end.more ? &end.next : NULL);
}

static void look_at_end(struct played *self) {
    const clsm_range_count range = draw_range();
    const bool falls = draw(2);
    clsm_row row = {.key = OTHER};
    begin_reading(self);
    int code = falls ? clsm_transaction_last(self->transaction, range.first, range.last, &row)
                     : clsm_transaction_first(self->transaction, range.first, range.last, &row);
    check_end(&self->mine, &range, falls, code, &row);
    note_range(self, range, falls, code == CLSM_OK ? &row.key : NULL);
}

/* It reads how many keys the store has there, and those that it has written. */
static void count(struct played *self) {
    clsm_range_count range = draw_range();
    begin_reading(self);
    OK(clsm_transaction_count(self->transaction, range.first, range.last, &range.keys));
    CHECK(range.keys == count_within(&self->mine, &range));
    range.keys = count_within(&self->then, &range);
    self->counts[self->counts_made++] = range;
    for (uint64_t i = 0; i < KEYS; i++)
        if (self->is_written[i] && is_within(i, &range)) self->is_read[i] = true;
}

/* Whether the store has not what it read any more. */
static bool is_conflict(const struct played *self) {
    for (uint64_t i = 0; i < KEYS && self->has_written; i++)
        if (self->is_read[i] && self->then.words[i] != self->theirs.words[i]) return true;
    for (size_t i = 0; i < self->counts_made && self->has_written; i++)
        if (count_within(&self->theirs, &self->counts[i]) != self->counts[i].keys) return true;
    return false;
}

static void transact(clsm_caller *caller, clsm_caller *other, struct map *map) {
    static void (*const steps[])(struct played *) = {get, write, add, page, look_at_end, count};
    enum { KINDS = sizeof steps / sizeof *steps };
    struct played self = {.theirs = *map, .mine = *map};
    OK(clsm_transaction_open(caller, &self.transaction));
    for (uint64_t left = 1 + draw(STEPS); left > 0; left--) {
        if (draw(8) == 0) write_one(other, &self.theirs);
        OK(clsm_follow(caller, clsm_seen(other)));
        steps[draw(KINDS)](&self);
    }
    int code = clsm_transaction_commit(self.transaction);
    const bool is_lost = is_conflict(&self);
    ANSWERS(is_lost ? CLSM_CONFLICT : CLSM_OK, code);
    for (uint64_t i = 0; i < KEYS; i++)
        map->words[i] = self.is_written[i] && !is_lost ? self.mine.words[i] : self.theirs.words[i];
    clsm_transaction_close(self.transaction);
}

/* ---- */

static void play(const clsm_options *options, uint64_t rounds) {
    clsm_store *store;
    clsm_caller *caller, *other;
    struct map map = {0};
    OK(clsm_open(options, &store));
    OK(clsm_caller_open(store, &caller));
    OK(clsm_caller_open(store, &other));
    for (uint64_t i = 0; i < rounds; i++) {
        clsm_snapshot *snapshot = NULL;
        write_one(caller, &map);
        if (draw(2)) write_if(caller, &map);
        OK(clsm_follow(other, clsm_seen(caller)));
        if (draw(2)) transact(caller, other, &map);
        OK(clsm_follow(other, clsm_seen(caller)));
        if (draw(2)) OK(clsm_snapshot_open(caller, &snapshot));
        read_ranges(caller, snapshot, &map);
        read_keys(caller, snapshot, &map);
        clsm_snapshot_close(snapshot);
        if (draw(50) == 0) clsm_sweep(store);
    }
    clsm_caller_close(caller);
    clsm_caller_close(other);
    OK(clsm_close(store));
}

int main(int count, char **texts) {
    const uint64_t rounds = argument(count, texts, 1, 3000);
    state = argument(count, texts, 2, 1);
    play(&(clsm_options){.keys = 100, .epoch = EPOCH}, rounds);
    play(&(clsm_options){.keys = 100, .epoch = EPOCH, .merge = CLSM_MERGE_IN_CALLS}, rounds);
    play(&(clsm_options){.epoch = 4096, .patience = -1}, rounds);
    return passed("edges");
}
