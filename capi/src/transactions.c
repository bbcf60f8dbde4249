/* Transactions: what one has read and is to write, until it is written by one batch with
 * conditions. They share nothing: others see of one only what its calls do. */
#include "store.h"
#include "tree.h"

#include <stdlib.h>

enum { FEW_KEYS = 16, PART_ROWS = CLSM_SCAN_ROWS };

struct clsm_transaction {
    clsm_caller *caller;
    clsm_snapshot *snapshot; /* from its first read on, or null */
    struct clsm_tree reads, writes;
    clsm_range_count *ranges; /* that it read */
    size_t ranges_count, ranges_room;
    unsigned conflicts; /* in a row */
    clsm_row part[PART_ROWS];
};

/* ---- Opening and closing */

int clsm_transaction_open(clsm_caller *caller, clsm_transaction **transaction) {
    if (transaction) *transaction = NULL;
    if (!caller || !transaction) return CLSM_BAD_POINTER;
    clsm_transaction *opened = malloc(sizeof *opened);
    if (!opened) return CLSM_MEMORY;
    memset(opened, 0, sizeof *opened);
    opened->caller = caller;
    *transaction = opened;
    return CLSM_OK;
}

/* Its next read is of the present. */
static void end_reading(clsm_transaction *transaction) {
    clsm_snapshot_close(transaction->snapshot);
    transaction->snapshot = NULL;
}

static void forget(clsm_transaction *transaction) {
    end_reading(transaction);
    clsm_tree_cut(&transaction->reads, 0);
    clsm_tree_cut(&transaction->writes, 0);
    transaction->ranges_count = 0;
}

void clsm_transaction_close(clsm_transaction *transaction) {
    if (!transaction) return;
    forget(transaction);
    clsm_tree_free(&transaction->reads);
    clsm_tree_free(&transaction->writes);
    free(transaction->ranges);
    free(transaction);
}

/* ---- Reads by key */

/* What it had read before a call. */
struct mark {
    bool is_reading;
    size_t keys;
};

static struct mark mark_of(const clsm_transaction *self) {
    return (struct mark){self->snapshot != NULL, self->reads.count};
}

/* Ends a call, which has read nothing if it is refused, and hands its code on. */
static int end_call(clsm_transaction *self, struct mark before, int code) {
    if (code < CLSM_FULL) return code;
    clsm_tree_cut(&self->reads, before.keys);
    if (!before.is_reading) end_reading(self);
    return code;
}

/* Opens its snapshot, if it has none: OK, NO_SEAT. */
static int begin_reading(clsm_transaction *self) {
    return self->snapshot ? CLSM_OK : clsm_snapshot_open(self->caller, &self->snapshot);
}

/* What it has written at the key, or read. */
static const clsm_row *known(const clsm_transaction *self, uint64_t key) {
    const clsm_row *own = clsm_tree_find(&self->writes, key);
    return own ? own : clsm_tree_find(&self->reads, key);
}

/* Reads so many keys that it does not know, and notes them: OK, MEMORY, NO_SEAT. */
static int read_keys(clsm_transaction *self, const uint64_t *keys, size_t count) {
    clsm_value values[FEW_KEYS];
    int code = begin_reading(self);
    if (code == CLSM_OK) code = clsm_snapshot_get_many(self->snapshot, keys, count, values);
    for (size_t i = 0; i < count && code == CLSM_OK; i++)
        code = clsm_tree_set(&self->reads, keys[i], &values[i]);
    return code;
}

/* The value that the key has in the snapshot: OK, MEMORY, NO_SEAT. */
static int look_there(clsm_transaction *self, uint64_t key, clsm_value *value) {
    const bool is_read = clsm_tree_find(&self->reads, key);
    const int code = is_read ? CLSM_OK : read_keys(self, &key, 1);
    if (code == CLSM_OK) *value = clsm_tree_find(&self->reads, key)->value;
    return code;
}

/* The value that the key has to it: OK, MEMORY, NO_SEAT. */
static int look_up(clsm_transaction *self, uint64_t key, clsm_value *value) {
    const clsm_row *own = clsm_tree_find(&self->writes, key);
    if (!own) return look_there(self, key, value);
    *value = own->value;
    return CLSM_OK;
}

int clsm_transaction_get(clsm_transaction *self, uint64_t key, clsm_value *value_or_null) {
    clsm_value value;
    if (!self) return CLSM_BAD_POINTER;
    const struct mark before = mark_of(self);
    const int code = end_call(self, before, look_up(self, key, &value));
    if (code != CLSM_OK) return code;
    if (value_or_null) *value_or_null = value;
    return value.length > 0 ? CLSM_OK : CLSM_NOT_FOUND;
}

/* Reads those of a few keys that it does not know. */
static int read_unknown(clsm_transaction *self, const uint64_t *keys, size_t count) {
    uint64_t unknown[FEW_KEYS];
    size_t found = 0;
    for (size_t i = 0; i < count; i++)
        if (!known(self, keys[i])) unknown[found++] = keys[i];
    return found > 0 ? read_keys(self, unknown, found) : CLSM_OK;
}

/* The same of any number of keys. */
static int read_all(clsm_transaction *self, const uint64_t *keys, size_t count) {
    int code = CLSM_OK;
    for (size_t read = 0; read < count && code == CLSM_OK; read += FEW_KEYS) {
        const size_t left = count - read, part = left < FEW_KEYS ? left : FEW_KEYS;
        code = read_unknown(self, keys + read, part);
    }
    return code;
}

int clsm_transaction_get_many(clsm_transaction *self, const uint64_t *keys, size_t count,
                              clsm_value *values) {
    if (!self || (count > 0 && (!keys || !values))) return CLSM_BAD_POINTER;
    const struct mark before = mark_of(self);
    const int code = end_call(self, before, read_all(self, keys, count));
    if (code != CLSM_OK) return code;
    for (size_t i = 0; i < count; i++) values[i] = known(self, keys[i])->value;
    return CLSM_OK;
}

/* ---- Reads of ranges: the rows of its snapshot, with its own writes in their place */

/* Where a read of a range is: among the rows of the snapshot, and among its own writes. */
struct place {
    struct clsm_span left; /* of the snapshot, from the rows on that were read last */
    size_t room;           /* so many are read next */
    clsm_page_end end;     /* of those that were read last */
    uint64_t at;           /* the next of these */
    struct clsm_tree_place own;
    uint64_t keys; /* rows of the snapshot that were passed */
};

/* So many rows, but no more than a part. */
static size_t in_part(size_t rows) { return rows < PART_ROWS ? rows : PART_ROWS; }

/* The place before all rows of the range, of which so many are wanted. */
static struct place place_before(const clsm_transaction *self, struct clsm_span span,
                                 size_t wanted) {
    const uint64_t from = span.falls ? span.last : span.first;
    return (struct place){.left = span,
                          .room = in_part(wanted),
                          .end = {.next = from, .more = span.first <= span.last},
                          .own = clsm_tree_from(&self->writes, from, span.falls)};
}

/* The next row of the snapshot, or null. A library with CLSM_CHECKED may refuse to read it. */
static const clsm_row *next_there(clsm_transaction *self, struct place *place, int *code) {
    if (place->at == place->end.rows && place->end.more) {
        place->left = clsm_span_from(place->left, place->end.next);
        *code = clsm_snapshot_page_of(self->snapshot, place->left, self->part, place->room,
                                      &place->end);
        if (*code != CLSM_OK) return NULL;
        place->at = 0;
        place->room = in_part(place->room * CLSM_SCAN_GROWS);
    }
    return place->at < place->end.rows ? &self->part[place->at] : NULL;
}

/* The next row of its own, which may remove its key, or null. */
static const clsm_row *next_own(const struct place *place) {
    const struct clsm_span *left = &place->left;
    const clsm_row *row = clsm_tree_next(&place->own);
    if (!row) return NULL;
    return (left->falls ? row->key >= left->first : row->key <= left->last) ? row : NULL;
}

/* Whether a row is there, and the other one is not before it. */
static bool is_next(const clsm_row *row, const clsm_row *other, bool falls) {
    if (!row || !other) return row;
    return falls ? row->key >= other->key : row->key <= other->key;
}

/* Passes the next row of both, and answers it: its own one, where both have the key. What it passes
 * of the snapshot it has read. Null at the end, and where that is refused. */
static const clsm_row *pass(clsm_transaction *self, struct place *place, int *code) {
    const clsm_row *own = next_own(place), *there = next_there(self, place, code);
    const bool is_own = is_next(own, there, place->left.falls);
    const bool is_there = is_next(there, own, place->left.falls);
    if (is_there) *code = clsm_tree_set(&self->reads, there->key, &there->value);
    if (*code != CLSM_OK) return NULL;
    if (is_own) clsm_tree_pass(&place->own);
    place->at += is_there;
    place->keys += is_there;
    return is_own ? own : there;
}

/* Passes rows up to the next one that has a value to it. */
static const clsm_row *next_row(clsm_transaction *self, struct place *place, int *code) {
    const clsm_row *row = NULL;
    do row = pass(self, place, code);
    while (row && row->value.length == 0);
    return row;
}

/* Has room for one more range, if there is memory. */
static bool has_room(clsm_transaction *self) {
    enum { FIRST_ROOM = 8 };
    if (self->ranges_count < self->ranges_room) return true;
    const size_t room = self->ranges_room > 0 ? 2 * self->ranges_room : FIRST_ROOM;
    clsm_range_count *ranges = realloc(self->ranges, room * sizeof *ranges);
    if (!ranges) return false;
    self->ranges = ranges;
    self->ranges_room = room;
    return true;
}

/* Notes that it has read a range, and so many keys of the snapshot in it: up to the row that it
 * passed last, or all of it if that is null. OK, MEMORY. */
static int note_range(clsm_transaction *self, struct clsm_span span, const clsm_row *last,
                      uint64_t keys) {
    if (span.first > span.last) return CLSM_OK;
    if (!has_room(self)) return CLSM_MEMORY;
    if (last && span.falls) span.first = last->key;
    if (last && !span.falls) span.last = last->key;
    self->ranges[self->ranges_count++] = (clsm_range_count){span.first, span.last, keys};
    return CLSM_OK;
}

static int page_of(clsm_transaction *self, struct clsm_span span, clsm_row *rows, size_t room,
                   clsm_page_end *end) {
    if (!self || !end || (!rows && room > 0)) return CLSM_BAD_POINTER;
    struct place place = place_before(self, span, in_part(room) + 1);
    clsm_page_end page = {.rows = 0};
    const clsm_row *row = NULL;
    const struct mark before = mark_of(self);
    int code = begin_reading(self);
    while (code == CLSM_OK && (row = next_row(self, &place, &code))) {
        page.more = page.rows == room;
        page.next = page.more ? row->key : 0;
        if (page.more) break;
        rows[page.rows++] = *row;
    }
    if (code == CLSM_OK) code = note_range(self, span, row, place.keys);
    if (code == CLSM_OK) *end = page;
    return end_call(self, before, code);
}

int clsm_transaction_page(clsm_transaction *self, uint64_t first, uint64_t last, clsm_row *rows,
                          size_t room, clsm_page_end *end) {
    return page_of(self, (struct clsm_span){first, last, false}, rows, room, end);
}

int clsm_transaction_page_down(clsm_transaction *self, uint64_t last, uint64_t first,
                               clsm_row *rows, size_t room, clsm_page_end *end) {
    return page_of(self, (struct clsm_span){first, last, true}, rows, room, end);
}

/* Looks no further than the row that it finds. */
static int end_of(clsm_transaction *self, struct clsm_span span, clsm_row *row) {
    if (!self || !row) return CLSM_BAD_POINTER;
    struct place place = place_before(self, span, 1);
    const struct mark before = mark_of(self);
    int code = begin_reading(self);
    const clsm_row *found = code == CLSM_OK ? next_row(self, &place, &code) : NULL;
    if (code == CLSM_OK) code = note_range(self, span, found, place.keys);
    if (code == CLSM_OK && !found) code = CLSM_NOT_FOUND;
    if (code == CLSM_OK) *row = *found;
    return end_call(self, before, code);
}

int clsm_transaction_first(clsm_transaction *self, uint64_t first, uint64_t last, clsm_row *row) {
    return end_of(self, (struct clsm_span){first, last, false}, row);
}

int clsm_transaction_last(clsm_transaction *self, uint64_t first, uint64_t last, clsm_row *row) {
    return end_of(self, (struct clsm_span){first, last, true}, row);
}

/* Counts its own writes of a range in place of what their keys have in the snapshot, which it
 * reads: OK, MEMORY. */
static int count_own(clsm_transaction *self, uint64_t first, uint64_t last, uint64_t *keys) {
    struct clsm_tree_place place = clsm_tree_from(&self->writes, first, false);
    const clsm_row *own = NULL;
    clsm_value there;
    while ((own = clsm_tree_next(&place)) && own->key <= last) {
        const int code = look_there(self, own->key, &there);
        if (code != CLSM_OK) return code;
        *keys += own->value.length > 0;
        *keys -= there.length > 0;
        clsm_tree_pass(&place);
    }
    return CLSM_OK;
}

int clsm_transaction_count(clsm_transaction *self, uint64_t first, uint64_t last, uint64_t *keys) {
    if (!self || !keys) return CLSM_BAD_POINTER;
    const struct clsm_span all = {first, last, false};
    const struct mark before = mark_of(self);
    uint64_t there = 0;
    int code = begin_reading(self);
    if (code == CLSM_OK) code = clsm_snapshot_count(self->snapshot, first, last, &there);
    uint64_t count = there;
    if (code == CLSM_OK) code = count_own(self, first, last, &count);
    if (code == CLSM_OK) code = note_range(self, all, NULL, there);
    if (code == CLSM_OK) *keys = count;
    return end_call(self, before, code);
}

/* ---- Writes, which nobody sees before it commits */

int clsm_transaction_put(clsm_transaction *self, uint64_t key, const uint64_t *words,
                         size_t count) {
    if (!self || (!words && count > 0)) return CLSM_BAD_POINTER;
    clsm_value value = {.length = count};
    if (count < 1 || count > 8) return CLSM_BAD_VALUE;
    for (size_t i = 0; i < count; i++) value.words[i] = words[i];
    return clsm_tree_set(&self->writes, key, &value);
}

int clsm_transaction_remove(clsm_transaction *self, uint64_t key) {
    const clsm_value none = {.length = 0};
    return self ? clsm_tree_set(&self->writes, key, &none) : CLSM_BAD_POINTER;
}

/* Notes the sum of what was read there and this: OK, KEPT, MEMORY. */
static int note_sum(clsm_transaction *self, uint64_t key, uint64_t by, clsm_changed *changed) {
    const uint64_t old = changed->before.words[0];
    changed->after = changed->before;
    if (changed->before.length > 1 || old > UINT64_MAX - by) return CLSM_KEPT;
    changed->after = (clsm_value){.length = 1, .words = {old + by}};
    return clsm_tree_set(&self->writes, key, &changed->after);
}

int clsm_transaction_add(clsm_transaction *self, uint64_t key, uint64_t by,
                         clsm_changed *changed_or_null) {
    clsm_changed changed;
    if (!self) return CLSM_BAD_POINTER;
    const struct mark before = mark_of(self);
    int code = look_up(self, key, &changed.before);
    if (code == CLSM_OK) code = note_sum(self, key, by, &changed);
    if (changed_or_null && code < CLSM_FULL) *changed_or_null = changed;
    return end_call(self, before, code);
}

/* ---- The end */

/* Pauses behind so many conflicts in a row: some instructions at first, a millisecond at last. */
static void pause_behind(unsigned conflicts) {
    enum { PAUSES = 7, DOUBLINGS = 6, FIRST_NANOSECONDS = 16000 };
    struct clsm_patience patience = {.pauses = 1};
    if (conflicts <= PAUSES) {
        patience.pauses <<= conflicts - 1;
        clsm_be_patient(&patience);
        return;
    }
    const unsigned over = conflicts - PAUSES, doublings = over < DOUBLINGS ? over : DOUBLINGS;
    clsm_sleep((long)FIRST_NANOSECONDS << doublings);
}

int clsm_transaction_commit(clsm_transaction *self) {
    int code = CLSM_OK;
    if (!self) return CLSM_BAD_POINTER;
    /* A write that waits for room must not wait for this one. */
    clsm_snapshot_close(self->snapshot);
    self->snapshot = NULL;
    if (self->writes.count > 0)
        code = clsm_batch_if(self->caller, self->reads.rows, self->reads.count, self->ranges,
                             self->ranges_count, self->writes.rows, self->writes.count, NULL);
    if (code == CLSM_KEPT) code = CLSM_CONFLICT;
    self->conflicts = code == CLSM_CONFLICT ? self->conflicts + 1 : 0;
    forget(self);
    if (code == CLSM_CONFLICT) pause_behind(self->conflicts);
    return code;
}
