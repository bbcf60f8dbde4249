/* An index: goods by their number, and beside them their numbers by price.
 *
 *     cc index.c $(pkg-config --cflags --libs clsm) -pthread -o index && ./index
 *
 * A good and its entry in the index are changed in one transaction. So each snapshot has one entry
 * for each good, at the good's price, and what a query finds in the index is among the goods.
 *
 *     goods   0, 1 bit | number, 63 bits                     -> price, name
 *     index   1, 1 bit | price, 31 bits | number, 32 bits    -> 0
 */
#include <clsm.h>
#include <clsm_codec.h>

#include <inttypes.h>
#include <pthread.h>
#include <stdatomic.h>
#include <stdio.h>
#include <stdlib.h>

enum { GOODS = 100, THREADS = 4, ROUNDS = 100, PAGE = 4 };

static const uint64_t INDEX = (uint64_t)1 << 63, NUMBER = UINT32_MAX;

static atomic_int running;

/* Ends the program if a call was refused, as memory may run out. */
static int must(int code) {
    if (code >= CLSM_FULL) {
        fprintf(stderr, "index: %s\n", clsm_strerror(code));
        exit(1);
    }
    return code;
}

/* The key of a good's entry: entries are by price, and those of one price by number. */
static uint64_t place_of(uint64_t price, uint64_t number) { return INDEX | price << 32 | number; }

/* Notes that a good, which was read, has a new price. */
static void move(clsm_transaction *rows, uint64_t number, const clsm_value *good, uint64_t price) {
    const uint64_t words[] = {price, good->words[1]}, none = 0;
    must(clsm_transaction_remove(rows, place_of(good->words[0], number)));
    must(clsm_transaction_put(rows, place_of(price, number), &none, 1));
    must(clsm_transaction_put(rows, number, words, 2));
}

static bool conflicts(clsm_transaction *rows) {
    const int code = clsm_transaction_commit(rows);
    return code == CLSM_CONFLICT || must(code);
}

/* The first places of the index between the two, by rising or falling price, and their goods. */
static uint64_t query(clsm_caller *caller, uint64_t first, uint64_t last, bool falls,
                      clsm_row places[PAGE], clsm_value goods[PAGE]) {
    clsm_snapshot *now;
    clsm_page_end end;
    uint64_t numbers[PAGE];
    must(clsm_snapshot_open(caller, &now));
    if (falls) must(clsm_snapshot_page_down(now, last, first, places, PAGE, &end));
    else must(clsm_snapshot_page(now, first, last, places, PAGE, &end));
    for (uint64_t i = 0; i < end.rows; i++) numbers[i] = places[i].key & NUMBER;
    must(clsm_snapshot_get_many(now, numbers, (size_t)end.rows, goods));
    clsm_snapshot_close(now);
    return end.rows;
}

/* Prints the goods with prices from low on and below high: a page begins behind the last place of
 * the one before. */
static void print_pages(clsm_caller *caller, uint64_t low, uint64_t high, bool falls) {
    uint64_t first = place_of(low, 0), last = place_of(high, 0) - 1, count;
    clsm_row places[PAGE];
    clsm_value goods[PAGE];
    while ((count = query(caller, first, last, falls, places, goods)) > 0) {
        for (uint64_t i = 0; i < count; i++) {
            char name[CLSM_KEY_BYTES];
            const int length = (int)clsm_text_of_key(goods[i].words[1], name);
            printf("%s%.*s %" PRIu64, i > 0 ? "; " : "", length, name, goods[i].words[0]);
        }
        putchar('\n');
        if (falls) last = places[count - 1].key - 1;
        else first = places[count - 1].key + 1;
    }
}

static clsm_store *open_filled(clsm_caller **caller) {
    clsm_store *store;
    must(clsm_open(NULL, &store));
    must(clsm_caller_open(store, caller));
    for (uint64_t number = 0; number < GOODS; number++) {
        char name[16];
        uint64_t word, price = 10 + number * 37 % 90;
        const int length = snprintf(name, sizeof name, "good %d", (int)number);
        if (!clsm_key_of_text(name, (size_t)length, &word)) abort();
        const clsm_row rows[] = {{number, {2, {price, word}}}, {place_of(price, number), {1, {0}}}};
        must(clsm_batch(*caller, rows, 2));
    }
    return store;
}

struct job {
    clsm_store *store;
    uint64_t own;
};

/* Raises prices, of which others raise some at the same time. */
static void *work(void *argument) {
    const struct job *job = argument;
    clsm_caller *caller;
    clsm_transaction *rows;
    clsm_value good;
    must(clsm_caller_open(job->store, &caller));
    must(clsm_transaction_open(caller, &rows));
    for (uint64_t turn = 0; turn < ROUNDS; turn++) {
        const uint64_t number = (31 * job->own + 17 * turn) % 40, by = (job->own + turn) % 7;
        do {
            must(clsm_transaction_get(rows, number, &good));
            move(rows, number, &good, good.words[0] + by);
        } while (conflicts(rows));
    }
    clsm_transaction_close(rows);
    clsm_caller_close(caller);
    atomic_fetch_sub(&running, 1);
    return NULL;
}

/* Counts the goods, the entries, and those of these that are at another price than their goods. */
static void look(clsm_caller *caller, uint64_t counts[3]) {
    clsm_snapshot *now;
    clsm_row places[2 * GOODS];
    clsm_page_end end;
    clsm_value good;
    must(clsm_snapshot_open(caller, &now));
    must(clsm_snapshot_count(now, 0, INDEX - 1, &counts[0]));
    must(clsm_snapshot_page(now, INDEX, UINT64_MAX, places, 2 * GOODS, &end));
    counts[1] = end.rows;
    counts[2] = 0;
    for (uint64_t i = 0; i < end.rows; i++) {
        const uint64_t number = places[i].key & NUMBER;
        must(clsm_snapshot_get(now, number, &good));
        counts[2] += place_of(good.words[0], number) != places[i].key;
    }
    clsm_snapshot_close(now);
}

static void print_counts(const char *of, clsm_caller *caller) {
    uint64_t counts[3];
    look(caller, counts);
    printf("%s%" PRIu64 " goods, %" PRIu64 " entries, %" PRIu64 " of them wrong\n", of, counts[0],
           counts[1], counts[2]);
}

/* Two threads change one good: both read it before either writes. Here one plays both. */
static void change_by_batches(void) {
    clsm_caller *caller;
    clsm_store *store = open_filled(&caller);
    clsm_value good; /* both read this */
    must(clsm_get(caller, 7, &good));
    for (uint64_t price = 500; price <= 600; price += 100) {
        const clsm_row rows[] = {{.key = place_of(good.words[0], 7)},
                                 {place_of(price, 7), {1, {0}}},
                                 {7, {2, {price, good.words[1]}}}};
        must(clsm_batch(caller, rows, 3));
    }
    print_counts("batches: ", caller);
    clsm_caller_close(caller);
    must(clsm_close(store));
}

/* Notes the price in a transaction that reads the good first. */
static void set_price(clsm_transaction *rows, uint64_t number, uint64_t price) {
    clsm_value good;
    must(clsm_transaction_get(rows, number, &good));
    move(rows, number, &good, price);
}

static void change_by_transactions(void) {
    clsm_caller *caller;
    clsm_transaction *slow, *fast;
    clsm_store *store = open_filled(&caller);
    must(clsm_transaction_open(caller, &slow));
    must(clsm_transaction_open(caller, &fast));
    set_price(slow, 7, 600);
    set_price(fast, 7, 500);
    if (conflicts(fast) || !conflicts(slow)) abort();
    set_price(slow, 7, 600);
    if (conflicts(slow)) abort();
    clsm_transaction_close(slow);
    clsm_transaction_close(fast);
    print_counts("transactions: ", caller);
    clsm_caller_close(caller);
    must(clsm_close(store));
}

int main(void) {
    struct job jobs[THREADS];
    pthread_t threads[THREADS];
    clsm_caller *caller;
    uint64_t counts[3];
    clsm_store *store = open_filled(&caller);
    atomic_store(&running, THREADS);
    for (int i = 0; i < THREADS; i++) {
        jobs[i] = (struct job){store, (uint64_t)i};
        if (pthread_create(&threads[i], NULL, work, &jobs[i])) return 1;
    }
    while (atomic_load(&running) > 0) {
        look(caller, counts);
        if (counts[0] != GOODS || counts[1] != GOODS || counts[2] != 0) abort();
    }
    for (int i = 0; i < THREADS; i++) pthread_join(threads[i], NULL);
    print_counts("", caller);
    print_pages(caller, 100, 120, false);
    print_pages(caller, 100, 120, true);
    clsm_caller_close(caller);
    must(clsm_close(store));
    change_by_batches();
    change_by_transactions();
}
