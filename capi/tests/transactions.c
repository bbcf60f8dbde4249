/* Transactions: what one reads of its own and of others, what ends it; that keys may come in any
 * order; and that those of several threads have the effect that they have one after another, in the
 * order of their times. Ranges have a test of their own, ranges.c. */
#include "check.h"

#include <pthread.h>
#include <string.h>

enum { EPOCH = 64, THREADS = 4 };
static uint64_t rounds;

static const uint64_t WORDS[9] = {1, 2, 3, 4, 5, 6, 7, 8, 9};

static void put(clsm_caller *caller, uint64_t key, uint64_t word) {
    OK(clsm_put(caller, key, &word, 1));
}

static void write_to(clsm_transaction *transaction, uint64_t key, uint64_t word) {
    OK(clsm_transaction_put(transaction, key, &word, 1));
}

static uint64_t word_at(clsm_caller *caller, uint64_t key) {
    clsm_value value;
    clsm_get(caller, key, &value);
    return value.words[0];
}

static uint64_t read_by(clsm_transaction *transaction, uint64_t key) {
    clsm_value value;
    int code = clsm_transaction_get(transaction, key, &value);
    CHECK(code == (value.length ? CLSM_OK : CLSM_NOT_FOUND));
    return value.words[0];
}

static clsm_transaction *begun(clsm_caller *caller) {
    clsm_transaction *transaction;
    OK(clsm_transaction_open(caller, &transaction));
    return transaction;
}

/* ---- Alone */

static void read_own_writes(clsm_caller *caller) {
    clsm_transaction *transaction = begun(caller);
    const uint64_t keys[] = {1, 2, 3, 1};
    clsm_value values[4];
    clsm_changed changed;
    put(caller, 1, 10);
    put(caller, 2, 20);
    CHECK(read_by(transaction, 1) == 10);
    write_to(transaction, 1, 11);
    OK(clsm_transaction_remove(transaction, 2));
    OK(clsm_transaction_put(transaction, 3, WORDS, 8));
    OK(clsm_transaction_get_many(transaction, keys, 4, values));
    CHECK(values[0].words[0] == 11 && values[1].length == 0 && values[2].words[7] == 8);
    CHECK(memcmp(&values[0], &values[3], sizeof *values) == 0);
    OK(clsm_transaction_add(transaction, 1, 5, &changed));
    CHECK(changed.before.words[0] == 11 && changed.after.words[0] == 16);
    OK(clsm_transaction_add(transaction, 2, 7, NULL));
    ANSWERS(CLSM_KEPT, clsm_transaction_add(transaction, 3, 1, &changed));
    CHECK(changed.after.length == 8 && changed.before.words[1] == 2);
    ANSWERS(CLSM_KEPT, clsm_transaction_add(transaction, 1, UINT64_MAX, NULL));
    /* Nobody else sees any of that before its end. */
    CHECK(word_at(caller, 1) == 10 && word_at(caller, 2) == 20 && word_at(caller, 3) == 0);
    OK(clsm_transaction_commit(transaction));
    CHECK(clsm_seen(caller) == clsm_time(caller) + 3);
    CHECK(word_at(caller, 1) == 16 && word_at(caller, 2) == 7 && word_at(caller, 3) == 1);
    /* It goes on anew. */
    CHECK(read_by(transaction, 1) == 16);
    OK(clsm_transaction_commit(transaction));
    clsm_transaction_close(transaction);
}

/* It reads at one moment; what others write meanwhile is a conflict, if it has read it and writes.
 */
static void conflict(clsm_caller *caller, clsm_caller *other) {
    clsm_transaction *transaction = begun(caller);
    put(caller, 1, 10);
    OK(clsm_follow(other, clsm_seen(caller)));
    CHECK(read_by(transaction, 1) == 10);
    put(other, 1, 11);
    put(other, 2, 22);
    OK(clsm_follow(caller, clsm_seen(other)));
    CHECK(read_by(transaction, 2) == 7);
    write_to(transaction, 4, 40);
    ANSWERS(CLSM_CONFLICT, clsm_transaction_commit(transaction));
    CHECK(word_at(caller, 4) == 0);
    /* Run again, it reads the present. */
    CHECK(read_by(transaction, 1) == 11 && read_by(transaction, 2) == 22);
    write_to(transaction, 4, 40);
    OK(clsm_transaction_commit(transaction));
    CHECK(word_at(caller, 4) == 40);
    /* Without a write there is none; without a read neither. */
    CHECK(read_by(transaction, 1) == 11);
    put(other, 1, 12);
    OK(clsm_transaction_commit(transaction));
    write_to(transaction, 1, 13);
    put(other, 1, 14);
    OK(clsm_transaction_commit(transaction));
    CHECK(word_at(caller, 1) == 13);
    /* A value that went and came back is the same. */
    CHECK(read_by(transaction, 1) == 13);
    put(other, 1, 0);
    put(other, 1, 13);
    write_to(transaction, 5, 50);
    OK(clsm_transaction_commit(transaction));
    clsm_transaction_close(transaction);
}

static void refuse(clsm_caller *caller) {
    clsm_transaction *transaction = begun(caller), *none = transaction;
    const uint64_t key = 1;
    clsm_value value;
    clsm_row row;
    clsm_page_end end;
    ANSWERS(CLSM_BAD_POINTER, clsm_transaction_open(NULL, &none));
    CHECK(!none);
    ANSWERS(CLSM_BAD_POINTER, clsm_transaction_open(caller, NULL));
    ANSWERS(CLSM_BAD_POINTER, clsm_transaction_get(NULL, 1, &value));
    ANSWERS(CLSM_BAD_POINTER, clsm_transaction_get_many(NULL, &key, 1, &value));
    ANSWERS(CLSM_BAD_POINTER, clsm_transaction_get_many(transaction, NULL, 1, &value));
    ANSWERS(CLSM_BAD_POINTER, clsm_transaction_get_many(transaction, &key, 1, NULL));
    OK(clsm_transaction_get_many(transaction, NULL, 0, NULL));
    ANSWERS(CLSM_BAD_POINTER, clsm_transaction_page(NULL, 0, 1, &row, 1, &end));
    ANSWERS(CLSM_BAD_POINTER, clsm_transaction_page(transaction, 0, 1, NULL, 1, &end));
    ANSWERS(CLSM_BAD_POINTER, clsm_transaction_page(transaction, 0, 1, &row, 1, NULL));
    ANSWERS(CLSM_BAD_POINTER, clsm_transaction_put(NULL, 1, WORDS, 1));
    ANSWERS(CLSM_BAD_POINTER, clsm_transaction_put(transaction, 1, NULL, 1));
    ANSWERS(CLSM_BAD_VALUE, clsm_transaction_put(transaction, 1, WORDS, 0));
    ANSWERS(CLSM_BAD_VALUE, clsm_transaction_put(transaction, 1, WORDS, 9));
    ANSWERS(CLSM_BAD_POINTER, clsm_transaction_remove(NULL, 1));
    ANSWERS(CLSM_BAD_POINTER, clsm_transaction_add(NULL, 1, 1, NULL));
    ANSWERS(CLSM_BAD_POINTER, clsm_transaction_commit(NULL));
    clsm_transaction_close(NULL);
    for (uint64_t i = 0; i <= EPOCH; i++) write_to(transaction, 100 + i, i);
    ANSWERS(CLSM_BAD_BATCH, clsm_transaction_commit(transaction));
    OK(clsm_transaction_commit(transaction));
    ANSWERS(CLSM_NOT_FOUND, clsm_get(caller, 100, NULL));
    write_to(transaction, 100, 1);
    clsm_transaction_close(transaction);
    ANSWERS(CLSM_NOT_FOUND, clsm_get(caller, 100, NULL));
}

/* Its first read takes a seat, which its end gives back. */
static void use_seats(clsm_store *store, clsm_caller *caller) {
    clsm_transaction *transactions[CLSM_SEATS];
    clsm_statistics now;
    uint64_t open = 0;
    int code = CLSM_OK;
    for (int i = 0; i < CLSM_SEATS; i++) transactions[i] = begun(caller);
    while ((code = clsm_transaction_get(transactions[open], 1, NULL)) == CLSM_OK) open++;
    ANSWERS(CLSM_NO_SEAT, code);
    write_to(transactions[open], 1, 13);
    OK(clsm_transaction_commit(transactions[open]));
    OK(clsm_stats(store, &now));
    CHECK(now.snapshots == open && open > CLSM_SEATS - 4);
    OK(clsm_transaction_commit(transactions[0]));
    OK(clsm_transaction_get(transactions[open], 1, NULL));
    for (int i = 0; i < CLSM_SEATS; i++) clsm_transaction_close(transactions[i]);
    OK(clsm_stats(store, &now));
    CHECK(now.snapshots == 0);
}

/* A commit that waits for room does not wait for its own snapshot. */
static void find_room(int merge) {
    const clsm_options options = {.keys = 2, .epoch = 4, .wait = -1, .merge = merge};
    clsm_store *store;
    clsm_caller *caller, *other;
    int code = CLSM_OK;
    OK(clsm_open(&options, &store));
    OK(clsm_caller_open(store, &caller));
    OK(clsm_caller_open(store, &other));
    clsm_transaction *transaction = begun(caller);
    CHECK(read_by(transaction, 1) == 0);
    for (uint64_t i = 0; code == CLSM_OK; i++) {
        CHECK(i < 1000);
        code = clsm_put(other, 2, &i, 1);
    }
    CHECK(code == CLSM_VERSIONS_FULL);
    write_to(transaction, 1, 10);
    OK(clsm_transaction_commit(transaction));
    CHECK(word_at(caller, 1) == 10);
    clsm_transaction_close(transaction);
    clsm_caller_close(caller);
    clsm_caller_close(other);
    OK(clsm_close(store));
}

/* ---- Many keys, in whichever order they come */

static uint64_t falling(uint64_t i) { return UINT64_MAX - i; }
static uint64_t scattered(uint64_t i) { return (i + 1) * 0x9e3779b97f4a7c15; }

/* All that it is to write, page by page, one way or the other. */
static uint64_t count_rows(clsm_transaction *transaction, uint64_t first, bool falls) {
    enum { ROOM = 100 };
    clsm_row rows[ROOM];
    clsm_page_end end = {.next = falls ? UINT64_MAX : first, .more = true};
    uint64_t count = 0, before = 0;
    while (end.more) {
        OK(falls ? clsm_transaction_page_down(transaction, end.next, first, rows, ROOM, &end)
                 : clsm_transaction_page(transaction, end.next, UINT64_MAX, rows, ROOM, &end));
        for (uint64_t i = 0; i < end.rows; before = rows[i++].key)
            CHECK(count + i == 0 || (falls ? before > rows[i].key : before < rows[i].key));
        count += end.rows;
    }
    return count;
}

static void note_many(clsm_caller *caller, uint64_t (*key)(uint64_t)) {
    const uint64_t many = 100 * rounds, above = 10000;
    uint64_t count;
    clsm_transaction *transaction = begun(caller);
    for (uint64_t i = 0; i < many; i++) CHECK(read_by(transaction, key(i)) == 0);
    write_to(transaction, key(0), 1);
    OK(clsm_transaction_commit(transaction));
    for (uint64_t i = 0; i < many; i++) write_to(transaction, key(i), i + 1);
    for (uint64_t i = 0; i < many; i++) CHECK(read_by(transaction, key(i)) == i + 1);
    CHECK(count_rows(transaction, above, false) == many);
    CHECK(count_rows(transaction, above, true) == many);
    OK(clsm_transaction_count(transaction, above, UINT64_MAX, &count));
    CHECK(count == many);
    ANSWERS(CLSM_BAD_BATCH, clsm_transaction_commit(transaction));
    OK(clsm_transaction_remove(transaction, key(0)));
    OK(clsm_transaction_commit(transaction));
    clsm_transaction_close(transaction);
}

/* ---- Threads: random transactions, and the plain map that explains them */

enum { KEYS = 12, MOST_STEPS = 6, PAGE = 4, NO_VALUE = 0 };

/* A step of one that was made: what it read, or wrote, of a key or of all keys of a range. */
struct step {
    enum kind { READ, WRITE, READ_PAGE, READ_END, COUNT } kind;
    uint64_t key, value; /* NO_VALUE: none */
    uint64_t last, next, count;
    bool falls;
    clsm_row rows[PAGE];
};

struct made {
    uint64_t time;
    bool writes;
    size_t count;
    struct step steps[MOST_STEPS];
};

struct worker {
    pthread_t thread;
    clsm_caller *caller;
    struct made *made;
    uint64_t count, conflicts, state, words;
};

static uint64_t draw(struct worker *self, uint64_t below) {
    self->state = self->state * 6364136223846793005 + 1442695040888963407;
    return (self->state >> 33) % below;
}

/* Reads the range of the step: a page, the row at one of its ends, or a count. */
static void read_range(clsm_transaction *transaction, struct step *step) {
    const uint64_t first = step->key, last = step->last;
    clsm_page_end end = {.rows = 0};
    int code = CLSM_OK;
    if (step->kind == COUNT) OK(clsm_transaction_count(transaction, first, last, &end.rows));
    if (step->kind == READ_PAGE)
        OK(step->falls
               ? clsm_transaction_page_down(transaction, last, first, step->rows, PAGE, &end)
               : clsm_transaction_page(transaction, first, last, step->rows, PAGE, &end));
    if (step->kind == READ_END) {
        code = step->falls ? clsm_transaction_last(transaction, first, last, step->rows)
                           : clsm_transaction_first(transaction, first, last, step->rows);
        CHECK(code == CLSM_OK || code == CLSM_NOT_FOUND);
        end.rows = code == CLSM_OK;
    }
    step->count = end.rows;
    step->next = end.more ? end.next : UINT64_MAX;
}

static void make_step(struct worker *self, clsm_transaction *transaction, struct step *step) {
    step->kind = (enum kind)(draw(self, 3) ? draw(self, 2) : READ_PAGE + draw(self, 3));
    step->key = draw(self, KEYS);
    step->last = step->key + draw(self, KEYS);
    step->falls = draw(self, 2);
    if (step->kind == READ) step->value = read_by(transaction, step->key);
    if (step->kind == WRITE) {
        step->value = draw(self, 3) ? self->words += THREADS : NO_VALUE;
        if (step->value) write_to(transaction, step->key, step->value);
        else OK(clsm_transaction_remove(transaction, step->key));
    }
    if (step->kind >= READ_PAGE) read_range(transaction, step);
}

static void *transact(void *of) {
    struct worker *self = of;
    clsm_transaction *transaction = begun(self->caller);
    while (self->count < rounds) {
        struct made *made = &self->made[self->count];
        made->count = 1 + draw(self, MOST_STEPS);
        made->writes = false;
        for (size_t i = 0; i < made->count; i++) {
            make_step(self, transaction, &made->steps[i]);
            made->writes |= made->steps[i].kind == WRITE;
        }
        int code = clsm_transaction_commit(transaction);
        CHECK(code == CLSM_OK || (code == CLSM_CONFLICT && made->writes));
        made->time = clsm_time(self->caller);
        self->count += code == CLSM_OK;
        self->conflicts += code == CLSM_CONFLICT;
    }
    clsm_transaction_close(transaction);
    return NULL;
}

/* One that writes at a time comes behind those that read at it: they see what is below. */
static int by_time(const void *one, const void *other) {
    const struct made *first = *(struct made *const *)one, *second = *(struct made *const *)other;
    if (first->time != second->time) return first->time < second->time ? -1 : 1;
    return (int)first->writes - (int)second->writes;
}

static void replay_range(const struct step *step, const uint64_t *map) {
    const uint64_t last = step->last < KEYS ? step->last : KEYS - 1;
    const uint64_t room = step->kind == READ_PAGE ? PAGE : step->kind == READ_END ? 1 : KEYS;
    uint64_t count = 0, next = UINT64_MAX;
    for (uint64_t place = step->key; place <= last; place++) {
        const uint64_t key = step->falls ? last - (place - step->key) : place;
        if (map[key] == NO_VALUE) continue;
        if (count == room && step->kind == READ_PAGE) next = key;
        if (count == room) break;
        if (step->kind != COUNT)
            CHECK(step->rows[count].key == key && step->rows[count].value.words[0] == map[key]);
        count++;
    }
    CHECK(count == step->count && next == step->next);
}

static void replay(const struct made *made, uint64_t *map) {
    for (size_t i = 0; i < made->count; i++) {
        const struct step *step = &made->steps[i];
        if (step->kind == READ) CHECK(step->value == map[step->key]);
        if (step->kind == WRITE) map[step->key] = step->value;
        if (step->kind >= READ_PAGE) replay_range(step, map);
    }
}

static void replay_all(const struct worker *workers, clsm_caller *caller) {
    uint64_t map[KEYS] = {0};
    const size_t all = (size_t)rounds * THREADS;
    const struct made **order = malloc(all * sizeof *order);
    CHECK(order);
    for (size_t i = 0; i < all; i++) order[i] = &workers[i / rounds].made[i % rounds];
    qsort(order, all, sizeof *order, by_time);
    for (size_t i = 0; i < all; i++) replay(order[i], map);
    for (uint64_t key = 0; key < KEYS; key++) CHECK(word_at(caller, key) == map[key]);
    free(order);
}

static void in_threads(const clsm_options *options) {
    struct worker workers[THREADS];
    clsm_store *store;
    uint64_t conflicts = 0;
    OK(clsm_open(options, &store));
    for (uint64_t i = 0; i < THREADS; i++) {
        workers[i] = (struct worker){.state = i, .words = i + 1};
        workers[i].made = calloc(rounds + 1, sizeof *workers[i].made);
        OK(clsm_caller_open(store, &workers[i].caller));
        CHECK(workers[i].made);
    }
    for (int i = 0; i < THREADS; i++)
        CHECK(pthread_create(&workers[i].thread, NULL, transact, &workers[i]) == 0);
    for (int i = 0; i < THREADS; i++) CHECK(pthread_join(workers[i].thread, NULL) == 0);
    replay_all(workers, workers[0].caller);
    for (int i = 0; i < THREADS; i++) {
        conflicts += workers[i].conflicts;
        free(workers[i].made);
        clsm_caller_close(workers[i].caller);
    }
    OK(clsm_close(store));
    (void)conflicts;
}

/* ---- Threads: lost updates, and two keys of which one must stay */

static uint64_t counted; /* by each thread */

static void count_up(clsm_transaction *transaction) {
    do write_to(transaction, 1, read_by(transaction, 1) + 1);
    while (clsm_transaction_commit(transaction) == CLSM_CONFLICT);
}

/* Gives one of two away, if both are there; else takes both again. */
static void give_one(clsm_transaction *transaction, uint64_t mine) {
    int code;
    do {
        const bool one = read_by(transaction, 10), other = read_by(transaction, 11);
        CHECK(one || other || clsm_transaction_commit(transaction) == CLSM_OK);
        if (one && other) OK(clsm_transaction_remove(transaction, mine));
        if (!one) write_to(transaction, 10, 1);
        if (!other) write_to(transaction, 11, 1);
        code = clsm_transaction_commit(transaction);
    } while (code == CLSM_CONFLICT);
    OK(code);
}

static void *count_and_give(void *of) {
    struct worker *self = of;
    clsm_transaction *transaction = begun(self->caller);
    for (uint64_t i = 0; i < counted; i++) {
        count_up(transaction);
        give_one(transaction, 10 + i % 2);
    }
    clsm_transaction_close(transaction);
    return NULL;
}

static void keep_bounds(int merge) {
    const clsm_options options = {.epoch = EPOCH, .merge = merge};
    struct worker workers[THREADS];
    clsm_store *store;
    counted = rounds / 4;
    OK(clsm_open(&options, &store));
    for (int i = 0; i < THREADS; i++) OK(clsm_caller_open(store, &workers[i].caller));
    put(workers[0].caller, 10, 1);
    put(workers[0].caller, 11, 1);
    for (int i = 1; i < THREADS; i++)
        OK(clsm_follow(workers[i].caller, clsm_seen(workers[0].caller)));
    for (int i = 0; i < THREADS; i++)
        CHECK(pthread_create(&workers[i].thread, NULL, count_and_give, &workers[i]) == 0);
    for (int i = 0; i < THREADS; i++) CHECK(pthread_join(workers[i].thread, NULL) == 0);
    CHECK(word_at(workers[0].caller, 1) == THREADS * counted);
    CHECK(word_at(workers[0].caller, 10) || word_at(workers[0].caller, 11));
    for (int i = 0; i < THREADS; i++) clsm_caller_close(workers[i].caller);
    OK(clsm_close(store));
}

int main(int argc, char **argv) {
    const clsm_options options = {.epoch = EPOCH};
    clsm_store *store;
    clsm_caller *caller, *other;
    rounds = argument(argc, argv, 1, 2000);
    OK(clsm_open(&options, &store));
    OK(clsm_caller_open(store, &caller));
    OK(clsm_caller_open(store, &other));
    read_own_writes(caller);
    conflict(caller, other);
    refuse(caller);
    use_seats(store, caller);
    note_many(caller, falling);
    note_many(caller, scattered);
    clsm_caller_close(caller);
    clsm_caller_close(other);
    OK(clsm_close(store));
    find_room(0);
    find_room(CLSM_MERGE_IN_CALLS);
    in_threads(&options);
    in_threads(&(clsm_options){.epoch = 1024, .patience = -1});
    in_threads(&(clsm_options){.epoch = EPOCH, .merge = CLSM_MERGE_IN_CALLS});
    keep_bounds(0);
    keep_bounds(CLSM_MERGE_IN_CALLS);
    return passed("transactions");
}
