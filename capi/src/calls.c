/* The calls of a caller that write and read. */
#include "store.h"

/* ---- Writes
 *
 * A write is an attempt of the core, made until it is answered. Its question and its answer are the
 * core's; an answer begins with the time. */

typedef uint32_t clsm_attempt(clsm_core_caller *core, const void *ask, void *answer);

static uint32_t attempt_put(clsm_core_caller *core, const void *ask, void *answer) {
    return clsm_core_try_put(core, ask, answer);
}

static uint32_t attempt_remove(clsm_core_caller *core, const void *ask, void *answer) {
    return clsm_core_try_remove(core, ask, answer);
}

static uint32_t attempt_add(clsm_core_caller *core, const void *ask, void *answer) {
    return clsm_core_try_add(core, ask, answer);
}

static uint32_t attempt_replace(clsm_core_caller *core, const void *ask, void *answer) {
    return clsm_core_try_replace(core, ask, answer);
}

struct write {
    clsm_attempt *attempt;
    const void *ask;
    void *answer;
    uint64_t members; /* the times that it takes */
    struct clsm_entry entry;
};

/* Notes a write that was made. */
static inline int wrote(struct clsm_seat *seat, const struct write *write) {
    const uint64_t *time = write->answer;
    const uint64_t end = *time + write->members;
    seat->time = *time;
    if (seat->seen < end) seat->seen = end;
    if (write->members == 0) return CLSM_OK; /* conditions alone were tested */
    if (write->entry.is_batch) clsm_note_batch(seat->store, *time);
    if (end > seat->tell_at) clsm_board_tell(seat, end - 1);
    return CLSM_OK;
}

/* Tries to write, if the gate lets it through: what the core answers, or why it does not. */
static int try_write(struct clsm_seat *seat, const struct write *write,
                     struct clsm_patience *patience, bool may_wait) {
    clsm_store *store = seat->store;
    int code = CLSM_OK;
    if (write->entry.is_batch) atomic_fetch_add(&store->crowd.batches, 1);
    if (!clsm_is_gate_open(store)) code = clsm_pass_gate(seat, &write->entry, patience, may_wait);
    if (code == CLSM_OK) code = (int)write->attempt(&seat->core, write->ask, write->answer);
    if (write->entry.is_batch) atomic_fetch_sub(&store->crowd.batches, 1);
    if (code == CLSM_OK) clsm_note_removals(store, write->entry.removals);
    return code;
}

/* Goes on with a write whose first try came to this code, until it is answered. */
static int go_on_writing(struct clsm_seat *seat, const struct write *write, int code) {
    const uint64_t *time = write->answer;
    clsm_store *store = seat->store;
    struct clsm_patience patience = CLSM_PATIENCE;
    patience.wants_in = write->entry.is_batch;
    for (;;) {
        int refused = CLSM_OK;
        switch (code) {
        case CLSM_FULL: refused = clsm_make_room(seat, *time, &patience); break;
        case CLSM_BUSY:
        case CLSM_RACED:
        case CLSM_OVERTAKEN: clsm_lose(store, patience.wants_in, &patience); break;
        case CLSM_KEPT:
            if (!clsm_is_in_order(seat, *time)) {
                clsm_be_patient(&patience);
                break;
            }
            clsm_end_patience(store, &patience);
            return CLSM_KEPT;
        default: refused = code;
        }
        if (refused) {
            clsm_end_patience(store, &patience);
            return clsm_note_refusal(store, refused);
        }
        code = try_write(seat, write, &patience, true);
        if (code != CLSM_OK) continue;
        clsm_end_patience(store, &patience);
        return wrote(seat, write);
    }
}

static inline int write_or_wait(struct clsm_seat *seat, const struct write *write) {
    struct clsm_patience patience = CLSM_PATIENCE;
    int code = try_write(seat, write, &patience, true);
    return code == CLSM_OK ? wrote(seat, write) : go_on_writing(seat, write, code);
}

static inline int write_once(struct clsm_seat *seat, const struct write *write) {
    struct clsm_patience patience = CLSM_PATIENCE;
    int code = try_write(seat, write, &patience, false);
    if (code == CLSM_OK) return wrote(seat, write);
    if (code == CLSM_FULL) code = clsm_find_full(seat->store);
    return clsm_note_refusal(seat->store, code);
}

/* A row for the core, with room for a value of so many words: OK, BAD_VALUE, BAD_POINTER. */
static inline int row_of(uint64_t key, const uint64_t *words, size_t count, clsm_core_row *row) {
    if (count < 1 || count > 8) return CLSM_BAD_VALUE;
    if (!words) return CLSM_BAD_POINTER;
    *row = (clsm_core_row){.key = key, .value = {.length = count}};
    for (size_t i = 0; i < count; i++) row->value.words[i] = words[i];
    return CLSM_OK;
}

typedef int clsm_way(struct clsm_seat *seat, const struct write *write);

static inline int put(clsm_caller *caller, uint64_t key, const uint64_t *words, size_t count,
                      clsm_way *way) {
    struct clsm_seat *seat = (struct clsm_seat *)caller;
    clsm_core_row ask;
    clsm_core_time answer;
    int refused = clsm_begin(seat, CLSM_AS_CALLER);
    if (refused) return refused;
    refused = row_of(key, words, count, &ask);
    if (refused) return clsm_end(seat, refused);
    const struct write write = {
        attempt_put, &ask, &answer, 1, {.growth = CLSM_KEY_GROWS, .key = key}};
    return clsm_end(seat, way(seat, &write));
}

static inline int erase(clsm_caller *caller, uint64_t key, clsm_way *way) {
    struct clsm_seat *seat = (struct clsm_seat *)caller;
    const clsm_core_key ask = {key};
    clsm_core_time answer;
    int refused = clsm_begin(seat, CLSM_AS_CALLER);
    if (refused) return refused;
    const struct write write = {attempt_remove, &ask, &answer, 1, {.removals = 1}};
    return clsm_end(seat, way(seat, &write));
}

int clsm_put(clsm_caller *caller, uint64_t key, const uint64_t *words, size_t count) {
    return put(caller, key, words, count, write_or_wait);
}

int clsm_remove(clsm_caller *caller, uint64_t key) { return erase(caller, key, write_or_wait); }

int clsm_try_put(clsm_caller *caller, uint64_t key, const uint64_t *words, size_t count) {
    return put(caller, key, words, count, write_once);
}

int clsm_try_remove(clsm_caller *caller, uint64_t key) { return erase(caller, key, write_once); }

/* ---- Batches */

static uint32_t attempt_batch(clsm_core_caller *core, const void *ask, void *answer) {
    const struct clsm_entry *entry = ask;
    return clsm_core_try_batch(core, entry->rows, entry->count, answer);
}

static size_t count_removals(const clsm_row *rows, size_t count) {
    size_t removals = 0;
    for (size_t i = 0; i < count; i++) removals += rows[i].value.length == 0;
    return removals;
}

int clsm_batch(clsm_caller *caller, const clsm_row *rows, size_t count) {
    struct clsm_seat *seat = (struct clsm_seat *)caller;
    clsm_core_time answer;
    int refused = clsm_begin(seat, CLSM_AS_CALLER);
    if (refused) return refused;
    if (!rows && count > 0) return clsm_end(seat, CLSM_BAD_POINTER);
    if (count < 1) return clsm_end(seat, CLSM_EMPTY_BATCH);
    if (count > seat->store->cells) return clsm_end(seat, CLSM_BAD_BATCH);
    struct write write = {.attempt = attempt_batch, .answer = &answer, .members = count};
    write.entry = (struct clsm_entry){.is_batch = true, .growth = CLSM_ROWS_GROW};
    write.entry.rows = (const clsm_core_row *)(const void *)rows;
    write.entry.count = count;
    write.entry.removals = count_removals(rows, count);
    write.ask = &write.entry;
    return clsm_end(seat, write_or_wait(seat, &write));
}

/* ---- Batches with conditions */

struct conditions {
    const struct clsm_seat *seat;
    const clsm_core_row *expected;
    size_t expected_count;
    const clsm_core_range_count *counts;
    size_t counts_count;
    const struct clsm_entry *entry;
};

/* Conditions that are tested alone are a read: one that runs back is made again. */
static uint32_t attempt_batch_if(clsm_core_caller *core, const void *ask, void *answer) {
    const struct conditions *of = ask;
    const struct clsm_entry *entry = of->entry;
    const clsm_core_unmet *found = answer;
    uint32_t code = clsm_core_try_batch_if(core, of->expected, of->expected_count, of->counts,
                                           of->counts_count, entry->rows, entry->count, answer);
    if (code != CLSM_CORE_OK || entry->count > 0) return code;
    return found->time < of->seat->seen ? CLSM_CORE_RACED : CLSM_CORE_OK;
}

/* Whether one of the pointers is null that has something behind it. */
static bool lacks_rows(const clsm_row *rows, size_t count, const struct conditions *of) {
    return (!rows && count > 0) || (!of->expected && of->expected_count > 0)
           || (!of->counts && of->counts_count > 0);
}

/* Writes the rows if the conditions hold, and answers where one is that does not. */
static int write_if(struct clsm_seat *seat, struct conditions *of, const clsm_row *rows,
                    size_t count, size_t *unmet_or_null) {
    static const clsm_core_row none;
    static const clsm_core_range_count nowhere;
    clsm_core_unmet answer;
    if (lacks_rows(rows, count, of)) return CLSM_BAD_POINTER;
    if (count > seat->store->cells) return CLSM_BAD_BATCH;
    if (!of->expected) of->expected = &none;
    if (!of->counts) of->counts = &nowhere;
    struct write write = {attempt_batch_if, of, &answer, count, {.is_batch = true}};
    write.entry.growth = CLSM_ROWS_GROW;
    write.entry.rows = rows ? (const clsm_core_row *)(const void *)rows : &none;
    write.entry.count = count;
    write.entry.removals = count_removals(rows, count);
    of->entry = &write.entry;
    int code = write_or_wait(seat, &write);
    if (code == CLSM_KEPT && unmet_or_null) *unmet_or_null = (size_t)answer.index;
    return code;
}

int clsm_batch_if(clsm_caller *caller, const clsm_row *expected, size_t expected_count,
                  const clsm_range_count *counts, size_t counts_count, const clsm_row *rows,
                  size_t count, size_t *unmet_or_null) {
    struct clsm_seat *seat = (struct clsm_seat *)caller;
    int refused = clsm_begin(seat, CLSM_AS_CALLER);
    if (refused) return refused;
    struct conditions of = {.seat = seat, .expected_count = expected_count};
    of.expected = (const clsm_core_row *)(const void *)expected;
    of.counts = (const clsm_core_range_count *)(const void *)counts;
    of.counts_count = counts_count;
    return clsm_end(seat, write_if(seat, &of, rows, count, unmet_or_null));
}

/* ---- Changes */

/* Makes a change, whose answer has what the key had and has. */
static int change(struct clsm_seat *seat, clsm_attempt *attempt, const void *ask,
                  struct clsm_entry entry, clsm_changed *changed) {
    clsm_core_changed answer;
    const struct write write = {attempt, ask, &answer, 1, entry};
    int code = write_or_wait(seat, &write);
    if (changed && (code == CLSM_OK || code == CLSM_KEPT)) {
        clsm_hand_on(&answer.before, &changed->before);
        clsm_hand_on(&answer.after, &changed->after);
    }
    return clsm_end(seat, code);
}

int clsm_add(clsm_caller *caller, uint64_t key, uint64_t by, clsm_changed *changed) {
    struct clsm_seat *seat = (struct clsm_seat *)caller;
    const clsm_core_adding ask = {key, by};
    int refused = clsm_begin(seat, CLSM_AS_CALLER);
    if (refused) return refused;
    const struct clsm_entry entry = {.growth = CLSM_KEY_GROWS, .key = key};
    return change(seat, attempt_add, &ask, entry, changed);
}

/* A value for the core: none for a null pointer. OK; BAD_VALUE if it has too many words. */
static int value_of(const clsm_value *value_or_null, clsm_core_value *value) {
    *value = (clsm_core_value){.length = 0};
    if (!value_or_null) return CLSM_OK;
    if (value_or_null->length > 8) return CLSM_BAD_VALUE;
    memcpy(value, value_or_null, sizeof *value);
    return CLSM_OK;
}

int clsm_replace(clsm_caller *caller, uint64_t key, const clsm_value *expected,
                 const clsm_value *desired, clsm_changed *changed) {
    struct clsm_seat *seat = (struct clsm_seat *)caller;
    clsm_core_replacing ask = {.key = key};
    int refused = clsm_begin(seat, CLSM_AS_CALLER);
    if (refused) return refused;
    refused = value_of(expected, &ask.expected);
    if (!refused) refused = value_of(desired, &ask.desired);
    if (refused) return clsm_end(seat, refused);
    const bool removes = ask.desired.length == 0;
    const struct clsm_entry entry = {.growth = ask.expected.length > 0 || removes ? CLSM_NO_GROWTH
                                                                                  : CLSM_KEY_GROWS,
                                     .key = key,
                                     .removals = removes};
    return change(seat, attempt_replace, &ask, entry, changed);
}

int clsm_put_if_absent(clsm_caller *caller, uint64_t key, const clsm_value *value,
                       clsm_changed *changed) {
    if (!value) return CLSM_BAD_POINTER;
    if (value->length < 1) return CLSM_BAD_VALUE;
    return clsm_replace(caller, key, NULL, value, changed);
}

/* ---- Reads */

/* Gets again until the time is in order. Never inlined: so a get that need not has less to keep. */
CLSM_APART static int get_again(struct clsm_seat *seat, uint64_t key, clsm_value *value) {
    struct clsm_patience patience = CLSM_PATIENCE;
    const clsm_core_key ask = {key};
    clsm_core_got answer;
    int code;
    do {
        clsm_be_patient(&patience);
        code = (int)clsm_core_get(&seat->core, &ask, &answer);
    } while (!clsm_is_in_order(seat, answer.time));
    clsm_hand_on(&answer.value, value);
    return code;
}

int clsm_get(clsm_caller *caller, uint64_t key, clsm_value *value) {
    struct clsm_seat *seat = (struct clsm_seat *)caller;
    const clsm_core_key ask = {key};
    clsm_core_got answer;
    int code = clsm_begin(seat, CLSM_AS_CALLER);
    if (code) return code;
    code = (int)clsm_core_get(&seat->core, &ask, &answer);
    if (!clsm_is_in_order(seat, answer.time)) return clsm_end(seat, get_again(seat, key, value));
    clsm_hand_on(&answer.value, value);
    return clsm_end(seat, code);
}

int clsm_count(clsm_caller *caller, uint64_t first, uint64_t last, uint64_t *keys) {
    struct clsm_seat *seat = (struct clsm_seat *)caller;
    int code = clsm_begin(seat, CLSM_AS_CALLER);
    if (code) return code;
    if (!keys) return clsm_end(seat, CLSM_BAD_POINTER);
    *keys = clsm_count_keys(seat, first, last);
    return clsm_end(seat, CLSM_OK);
}

int clsm_page_of(clsm_caller *caller, struct clsm_span span, clsm_row *rows, size_t room,
                 clsm_page_end *end) {
    struct clsm_seat *seat = (struct clsm_seat *)caller;
    clsm_core_paged answer;
    int code = clsm_begin(seat, CLSM_AS_CALLER);
    if (code) return code;
    struct clsm_patience patience = CLSM_PATIENCE;
    for (;; clsm_be_patient(&patience)) {
        code = clsm_read_page(seat, span, rows, room, &answer, end);
        if (code != CLSM_OK || clsm_is_in_order(seat, answer.time)) break;
    }
    return clsm_end(seat, code);
}

int clsm_page(clsm_caller *caller, uint64_t first, uint64_t last, clsm_row *rows, size_t room,
              clsm_page_end *end) {
    return clsm_page_of(caller, (struct clsm_span){first, last, false}, rows, room, end);
}
