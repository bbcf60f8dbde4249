/* Ranges that transactions read, by rising and by falling key, by a count, and at one of their
 * ends: their rows are those of a plain map; and what others write is a conflict where that was
 * read, and nowhere else. */
#include "check.h"

#include <string.h>

enum { EPOCH = 64 };

static void write_to(clsm_transaction *transaction, uint64_t key, uint64_t word) {
    if (word > 0) OK(clsm_transaction_put(transaction, key, &word, 1));
    else OK(clsm_transaction_remove(transaction, key));
}

static clsm_transaction *begun(clsm_caller *caller) {
    clsm_transaction *transaction;
    OK(clsm_transaction_open(caller, &transaction));
    return transaction;
}

/* ---- Random ranges, beside a plain map */

enum { FIRST = 1000, ROWS = 300, PLACES = 2 * ROWS, LAST = FIRST + PLACES - 1, OTHER = 77 };

/* What the transaction is to read from the first key on: a value for each key, or 0. */
static uint64_t wanted[PLACES];

static uint64_t state = 7;

static uint64_t draw(uint64_t below) {
    state = state * 6364136223846793005 + 1442695040888963407;
    return (state >> 33) % below;
}

/* The key of so many keys of the range, from its first one or its last one on. */
static uint64_t key_at(uint64_t first, uint64_t last, bool falls, uint64_t place) {
    return falls ? last - place : first + place;
}

static uint64_t word_at(uint64_t key) {
    return key < FIRST || key > LAST ? 0 : wanted[key - FIRST];
}

static void check_page(clsm_transaction *transaction, uint64_t first, uint64_t last, bool falls,
                       size_t room) {
    static clsm_row rows[PLACES + 1];
    clsm_page_end end;
    const uint64_t keys = first <= last ? last - first + 1 : 0;
    uint64_t count = 0, at = 0;
    OK(falls ? clsm_transaction_page_down(transaction, last, first, rows, room, &end)
             : clsm_transaction_page(transaction, first, last, rows, room, &end));
    for (; at < keys; at++) {
        const uint64_t key = key_at(first, last, falls, at);
        if (word_at(key) == 0) continue;
        if (count == room) break;
        CHECK(rows[count].key == key && rows[count].value.words[0] == word_at(key));
        count++;
    }
    CHECK(end.rows == count && end.more == (at < keys));
    CHECK(end.next == (end.more ? key_at(first, last, falls, at) : 0));
}

static void check_end(clsm_transaction *transaction, uint64_t first, uint64_t last, bool falls) {
    clsm_row row = {.key = OTHER};
    const uint64_t keys = first <= last ? last - first + 1 : 0;
    uint64_t at = 0;
    while (at < keys && word_at(key_at(first, last, falls, at)) == 0) at++;
    const uint64_t key = at < keys ? key_at(first, last, falls, at) : OTHER;
    ANSWERS(at < keys ? CLSM_OK : CLSM_NOT_FOUND,
            falls ? clsm_transaction_last(transaction, first, last, &row)
                  : clsm_transaction_first(transaction, first, last, &row));
    CHECK(row.key == key && row.value.words[0] == word_at(key));
}

static void check_count(clsm_transaction *transaction, uint64_t first, uint64_t last) {
    uint64_t count = 0, keys = OTHER;
    for (uint64_t key = first; key <= last; key++) count += word_at(key) > 0;
    OK(clsm_transaction_count(transaction, first, last, &keys));
    CHECK(keys == count);
}

static void check_all(clsm_transaction *transaction, uint64_t first, uint64_t last, size_t room) {
    check_page(transaction, first, last, false, room);
    check_page(transaction, first, last, true, room);
    check_end(transaction, first, last, false);
    check_end(transaction, first, last, true);
    check_count(transaction, first, last);
}

static void read_ranges(clsm_caller *caller) {
    clsm_transaction *transaction = begun(caller);
    for (uint64_t i = 0; i < ROWS; i++) {
        wanted[2 * i] = i + 1;
        OK(clsm_put(caller, FIRST + 2 * i, &wanted[2 * i], 1));
    }
    for (uint64_t i = 0; i < 400; i++) {
        const uint64_t place = draw(PLACES), to = FIRST + place + draw(200);
        wanted[place] = i % 3 ? i : 0;
        write_to(transaction, FIRST + place, wanted[place]);
        check_all(transaction, FIRST + place, to, draw(70));
        check_all(transaction, FIRST + draw(PLACES), LAST, draw(PLACES + 1));
        check_page(transaction, FIRST, LAST, i % 2, PLACES + 1);
    }
    check_all(transaction, FIRST + 5, FIRST + 4, 3);
    check_all(transaction, FIRST, LAST, 0);
    /* All that is left are own removals, beside keys that go on behind them. */
    for (uint64_t place = 0; place < PLACES; place++) {
        wanted[place] = 0;
        write_to(transaction, FIRST + place, 0);
    }
    check_all(transaction, FIRST, LAST, 3);
    clsm_transaction_close(transaction);
    for (uint64_t i = 0; i < ROWS; i++) OK(clsm_remove(caller, FIRST + 2 * i));
}

/* ---- Conflicts */

enum { LEAST = 2000, GREATEST = 2020, KEYS = GREATEST - LEAST + 1, OLD = 1, NEW = 2, OWN = 3 };

/* Every fourth key has a value, from 2002 on. */
static bool has_value(uint64_t key) { return key % 4 == 2; }

static void write_all(clsm_caller *other) {
    clsm_row rows[KEYS];
    for (uint64_t i = 0; i < KEYS; i++)
        rows[i] = (clsm_row){LEAST + i, {has_value(LEAST + i), {OLD * has_value(LEAST + i)}}};
    OK(clsm_batch(other, rows, KEYS));
}

/* A read of the keys from 2001 to 2017, and that of its keys whose changes are conflicts; of those
 * of a count only such as come or go. It is made behind writes of its own. */
struct looking {
    enum kind { PAGE, DOWN, END, END_DOWN, COUNT } kind;
    size_t room;
    uint64_t own[2]; /* its writes: a removal, if the key has a value */
    uint64_t keys;   /* of rows that it finds, or that it counts */
    uint64_t from, to;
};

static const struct looking lookings[] = {
    {PAGE, 2, {0}, 2, 2001, 2010},
    {PAGE, 9, {0}, 4, 2001, 2017},
    {PAGE, 0, {0}, 0, 2001, 2002},
    {PAGE, 1, {2002, 2006}, 1, 2001, 2014},
    {PAGE, 1, {2001, 2004}, 1, 2001, 2002},
    {DOWN, 2, {0}, 2, 2006, 2017},
    {DOWN, 9, {0}, 4, 2001, 2017},
    {DOWN, 0, {0}, 0, 2014, 2017},
    {DOWN, 1, {2014, 2010}, 1, 2002, 2017},
    {DOWN, 1, {2017, 2012}, 1, 2014, 2017},
    {END, 0, {0}, 1, 2001, 2002},
    {END, 0, {2002, 2006}, 1, 2001, 2010},
    {END, 0, {2001, 2010}, 1, 2001, 2001},
    {END_DOWN, 0, {0}, 1, 2014, 2017},
    {END_DOWN, 0, {2014, 2010}, 1, 2006, 2017},
    {END_DOWN, 0, {2016, 2002}, 1, 2016, 2017},
    {COUNT, 0, {0}, 4, 2001, 2017},
    {COUNT, 0, {2002, 2006}, 2, 2001, 2017},
    {COUNT, 0, {2003, 2017}, 6, 2001, 2017},
    {COUNT, 0, {2018, 2000}, 4, 2001, 2017},
};

static uint64_t look_by(clsm_transaction *transaction, const struct looking *of, uint64_t first,
                        uint64_t last) {
    clsm_row rows[KEYS];
    clsm_page_end end = {.rows = 1};
    int code = CLSM_OK;
    for (size_t i = 0; i < 2 && of->own[i] > 0; i++)
        write_to(transaction, of->own[i], has_value(of->own[i]) ? 0 : OWN);
    switch (of->kind) {
    case PAGE: OK(clsm_transaction_page(transaction, first, last, rows, of->room, &end)); break;
    case DOWN:
        OK(clsm_transaction_page_down(transaction, last, first, rows, of->room, &end));
        break;
    case END: code = clsm_transaction_first(transaction, first, last, rows); break;
    case END_DOWN: code = clsm_transaction_last(transaction, first, last, rows); break;
    case COUNT: OK(clsm_transaction_count(transaction, first, last, &end.rows)); break;
    }
    CHECK(code == CLSM_OK || code == CLSM_NOT_FOUND);
    return code == CLSM_OK ? end.rows : 0;
}

static bool is_own(const struct looking *of, uint64_t key) {
    return key == of->own[0] || key == of->own[1];
}

/* Whether a write of another value, or a removal, is a conflict. */
static bool is_conflict(const struct looking *of, uint64_t key, bool removes) {
    if (key < of->from || key > of->to || (removes && !has_value(key))) return false;
    return of->kind != COUNT || removes || !has_value(key) || is_own(of, key);
}

static void conflict_with(clsm_caller *caller, clsm_caller *other, const struct looking *of,
                          uint64_t key, bool removes) {
    clsm_transaction *transaction = begun(caller);
    const uint64_t word = NEW;
    write_all(other);
    OK(clsm_follow(caller, clsm_seen(other)));
    CHECK(look_by(transaction, of, 2001, 2017) == of->keys);
    write_to(transaction, 3000, key);
    OK(removes ? clsm_remove(other, key) : clsm_put(other, key, &word, 1));
    ANSWERS(is_conflict(of, key, removes) ? CLSM_CONFLICT : CLSM_OK,
            clsm_transaction_commit(transaction));
    clsm_transaction_close(transaction);
}

static void conflict(clsm_caller *caller, clsm_caller *other) {
    for (size_t i = 0; i < sizeof lookings / sizeof *lookings; i++)
        for (uint64_t key = LEAST; key <= GREATEST; key++)
            for (int removes = 0; removes < 2; removes++)
                conflict_with(caller, other, &lookings[i], key, removes);
}

/* What finds nothing has read all of its range. */
static void conflict_where_none_is(clsm_caller *caller, clsm_caller *other) {
    const uint64_t word = NEW;
    for (int kind = PAGE; kind <= COUNT; kind++) {
        const struct looking of = {.kind = (enum kind)kind, .room = 1};
        for (uint64_t key = 2006; key <= 2010; key++) {
            clsm_transaction *transaction = begun(caller);
            write_all(other);
            OK(clsm_follow(caller, clsm_seen(other)));
            CHECK(look_by(transaction, &of, 2007, 2009) == 0);
            CHECK(look_by(transaction, &of, 2009, 2007) == 0);
            write_to(transaction, 3000, key);
            OK(clsm_put(other, key, &word, 1));
            ANSWERS(key > 2006 && key < 2010 ? CLSM_CONFLICT : CLSM_OK,
                    clsm_transaction_commit(transaction));
            clsm_transaction_close(transaction);
        }
    }
}

/* A count is the same where keys come and go in equal number, unless one of them is its own. */
static void exchange(clsm_caller *caller, clsm_caller *other) {
    static const uint64_t owns[] = {2002, 2003, 2006, 2018};
    for (size_t i = 0; i < sizeof owns / sizeof *owns; i++) {
        clsm_transaction *transaction = begun(caller);
        clsm_row rows[2] = {{.key = 2002}, {2003, {1, {OLD}}}};
        uint64_t keys = 0;
        write_all(other);
        OK(clsm_follow(caller, clsm_seen(other)));
        write_to(transaction, owns[i], OWN);
        OK(clsm_transaction_count(transaction, 2000, 2017, &keys));
        CHECK(keys == (owns[i] == 2003 ? 5 : 4));
        OK(clsm_batch(other, rows, 2));
        ANSWERS(owns[i] < 2006 ? CLSM_CONFLICT : CLSM_OK, clsm_transaction_commit(transaction));
        clsm_transaction_close(transaction);
    }
}

/* ---- Both ends of all keys, moments, and refusals */

static void stand_at_ends(clsm_caller *caller) {
    const uint64_t ends[] = {0, 1, UINT64_MAX - 1, UINT64_MAX};
    clsm_transaction *transaction = begun(caller);
    clsm_row rows[4];
    clsm_page_end end;
    uint64_t keys;
    OK(clsm_clear(caller, NULL));
    for (size_t i = 0; i < 4; i++) write_to(transaction, ends[i], i + 1);
    OK(clsm_transaction_page_down(transaction, UINT64_MAX, 0, rows, 3, &end));
    CHECK(end.rows == 3 && end.more && end.next == 0 && rows[0].key == UINT64_MAX);
    OK(clsm_transaction_page_down(transaction, end.next, 0, rows, 3, &end));
    CHECK(end.rows == 1 && !end.more && end.next == 0 && rows[0].key == 0);
    OK(clsm_transaction_first(transaction, 0, UINT64_MAX, rows));
    OK(clsm_transaction_last(transaction, 0, UINT64_MAX, rows + 1));
    CHECK(rows[0].key == 0 && rows[1].key == UINT64_MAX);
    OK(clsm_transaction_last(transaction, 0, 0, rows));
    OK(clsm_transaction_first(transaction, UINT64_MAX, UINT64_MAX, rows + 1));
    CHECK(rows[0].key == 0 && rows[1].key == UINT64_MAX);
    OK(clsm_transaction_count(transaction, 0, UINT64_MAX, &keys));
    CHECK(keys == 4);
    OK(clsm_transaction_commit(transaction));
    write_to(transaction, UINT64_MAX, 0);
    write_to(transaction, 0, 0);
    OK(clsm_transaction_first(transaction, 0, UINT64_MAX, rows));
    OK(clsm_transaction_last(transaction, 0, UINT64_MAX, rows + 1));
    CHECK(rows[0].key == 1 && rows[1].key == UINT64_MAX - 1);
    ANSWERS(CLSM_NOT_FOUND, clsm_transaction_last(transaction, 0, 0, rows));
    OK(clsm_transaction_count(transaction, 0, UINT64_MAX, &keys));
    CHECK(keys == 2);
    OK(clsm_transaction_commit(transaction));
    clsm_transaction_close(transaction);
    OK(clsm_clear(caller, NULL));
}

/* Each of them may be the first read, of whose moment the others are. */
static void read_one_moment(clsm_caller *caller, clsm_caller *other) {
    const uint64_t word = NEW;
    for (int first = PAGE; first <= COUNT; first++) {
        clsm_transaction *transaction = begun(caller);
        write_all(other);
        OK(clsm_follow(caller, clsm_seen(other)));
        for (int more = 0; more <= COUNT; more++) {
            const struct looking of = {.kind = (enum kind)((first + more) % (COUNT + 1)),
                                       .room = KEYS};
            const bool is_end = of.kind == END || of.kind == END_DOWN;
            CHECK(look_by(transaction, &of, LEAST, GREATEST) == (is_end ? 1 : 5));
            for (uint64_t key = LEAST; key <= GREATEST; key++) OK(clsm_put(other, key, &word, 1));
            OK(clsm_follow(caller, clsm_seen(other)));
        }
        OK(clsm_transaction_commit(transaction));
        clsm_transaction_close(transaction);
    }
}

static void refuse(clsm_caller *caller) {
    clsm_transaction *transaction = begun(caller);
    clsm_row row = {.key = OTHER};
    clsm_page_end end = {.rows = OTHER};
    uint64_t keys = OTHER;
    ANSWERS(CLSM_BAD_POINTER, clsm_transaction_page_down(NULL, 1, 0, &row, 1, &end));
    ANSWERS(CLSM_BAD_POINTER, clsm_transaction_page_down(transaction, 1, 0, NULL, 1, &end));
    ANSWERS(CLSM_BAD_POINTER, clsm_transaction_page_down(transaction, 1, 0, &row, 1, NULL));
    ANSWERS(CLSM_BAD_POINTER, clsm_transaction_first(NULL, 0, 1, &row));
    ANSWERS(CLSM_BAD_POINTER, clsm_transaction_first(transaction, 0, 1, NULL));
    ANSWERS(CLSM_BAD_POINTER, clsm_transaction_last(NULL, 0, 1, &row));
    ANSWERS(CLSM_BAD_POINTER, clsm_transaction_last(transaction, 0, 1, NULL));
    ANSWERS(CLSM_BAD_POINTER, clsm_transaction_count(NULL, 0, 1, &keys));
    ANSWERS(CLSM_BAD_POINTER, clsm_transaction_count(transaction, 0, 1, NULL));
    CHECK(row.key == OTHER && end.rows == OTHER && keys == OTHER);
    OK(clsm_transaction_page_down(transaction, 1, 0, NULL, 0, &end));
    clsm_transaction_close(transaction);
}

/* Where all seats are taken, each of them is refused as a first read. */
static void want_seats(clsm_caller *caller) {
    clsm_snapshot *snapshots[CLSM_SEATS];
    clsm_transaction *transaction = begun(caller);
    clsm_row row = {.key = OTHER};
    clsm_page_end end = {.rows = OTHER};
    uint64_t keys = OTHER;
    size_t open = 0;
    while (clsm_snapshot_open(caller, &snapshots[open]) == CLSM_OK) open++;
    write_to(transaction, 1, 1);
    ANSWERS(CLSM_NO_SEAT, clsm_transaction_page_down(transaction, 1, 0, &row, 1, &end));
    ANSWERS(CLSM_NO_SEAT, clsm_transaction_first(transaction, 0, 1, &row));
    ANSWERS(CLSM_NO_SEAT, clsm_transaction_last(transaction, 0, 1, &row));
    ANSWERS(CLSM_NO_SEAT, clsm_transaction_count(transaction, 0, 1, &keys));
    CHECK(row.key == OTHER && end.rows == OTHER && keys == OTHER);
    while (open > 0) clsm_snapshot_close(snapshots[--open]);
    OK(clsm_transaction_count(transaction, 0, 1, &keys));
    CHECK(keys == 1);
    clsm_transaction_close(transaction);
}

int main(void) {
    const clsm_options options = {.epoch = EPOCH};
    clsm_store *store;
    clsm_caller *caller, *other;
    OK(clsm_open(&options, &store));
    OK(clsm_caller_open(store, &caller));
    OK(clsm_caller_open(store, &other));
    read_ranges(caller);
    conflict(caller, other);
    conflict_where_none_is(caller, other);
    exchange(caller, other);
    read_one_moment(caller, other);
    stand_at_ends(caller);
    refuse(caller);
    want_seats(caller);
    clsm_caller_close(caller);
    clsm_caller_close(other);
    OK(clsm_close(store));
    return passed("ranges");
}
