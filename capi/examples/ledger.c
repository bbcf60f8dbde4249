/* A ledger: four threads take transfers from one stream, and each is made once, whoever takes it.
 *
 *     cc ledger.c $(pkg-config --cflags --libs clsm) -pthread -o ledger && ./ledger
 *
 * A transaction reads how far the stream has come, makes the next transfer, and notes that it is
 * made: place and results change in one step. In the same step it moves both accounts in an index
 * by balance, whose keys have the balance above the account. */
#include <clsm.h>

#include <inttypes.h>
#include <pthread.h>
#include <stdbool.h>
#include <stdio.h>
#include <stdlib.h>

enum { ACCOUNTS = 8, EACH = 100, TRANSFERS = 1000, THREADS = 4 };

static const uint64_t PLACE = ACCOUNTS; /* at this key stands how many transfers were made */
static const uint64_t INDEX = (uint64_t)1 << 63;

static clsm_store *store;

/* Ends the program if a call was refused, as memory may run out. */
static int must(int code) {
    if (code >= CLSM_MEMORY) {
        fprintf(stderr, "ledger: %s\n", clsm_strerror(code));
        exit(1);
    }
    return code;
}

static uint64_t index_of(uint64_t balance, uint64_t account) {
    return INDEX | balance << 8 | account;
}

static uint64_t read_word(clsm_transaction *t, uint64_t key) {
    clsm_value value;
    must(clsm_transaction_get(t, key, &value));
    return value.words[0];
}

static void write_word(clsm_transaction *t, uint64_t key, uint64_t word) {
    must(clsm_transaction_put(t, key, &word, 1));
}

/* Gives an account another balance, and its row of the index another place. */
static void set_balance(clsm_transaction *t, uint64_t account, uint64_t from, uint64_t to) {
    must(clsm_transaction_remove(t, index_of(from, account)));
    write_word(t, index_of(to, account), account);
    write_word(t, account, to);
}

static void transfer(clsm_transaction *t, uint64_t from, uint64_t to, uint64_t wanted) {
    const uint64_t old = read_word(t, from), amount = wanted < old ? wanted : old;
    if (from == to) return;
    const uint64_t other = read_word(t, to);
    set_balance(t, from, old, old - amount);
    set_balance(t, to, other, other + amount);
}

/* Makes the next transfer of the stream: false if there is none. */
static bool make_next(clsm_transaction *t) {
    bool is_left;
    do {
        const uint64_t next = read_word(t, PLACE);
        is_left = next < TRANSFERS;
        if (!is_left) continue;
        const uint64_t from = next * 5 % ACCOUNTS, to = (next * 7 + next / 8 * 5 + 1) % ACCOUNTS;
        transfer(t, from, to, next * 7 % 23);
        write_word(t, PLACE, next + 1);
    } while (must(clsm_transaction_commit(t)) == CLSM_CONFLICT);
    return is_left;
}

static void *work(void *unused) {
    clsm_caller *caller;
    clsm_transaction *t;
    (void)unused;
    must(clsm_caller_open(store, &caller));
    must(clsm_transaction_open(caller, &t));
    while (make_next(t)) continue;
    clsm_transaction_close(t);
    clsm_caller_close(caller);
    return NULL;
}

static void report(clsm_caller *caller) {
    uint64_t keys[ACCOUNTS + 1], sum = 0;
    clsm_value values[ACCOUNTS + 1];
    clsm_row poorest, richest;
    for (uint64_t key = 0; key <= ACCOUNTS; key++) keys[key] = key;
    must(clsm_get_many(caller, keys, ACCOUNTS + 1, values));
    for (int i = 0; i < ACCOUNTS; i++) sum += values[i].words[0];
    must(clsm_first(caller, INDEX, UINT64_MAX, &poorest));
    must(clsm_last(caller, INDEX, UINT64_MAX, &richest));
    printf("%" PRIu64 " transfers, each once\n", values[ACCOUNTS].words[0]);
    printf("%d accounts have %" PRIu64 "\n", ACCOUNTS, sum);
    printf("poorest: %" PRIu64 " with %" PRIu64 "\n", poorest.value.words[0],
           (poorest.key & ~INDEX) >> 8);
    printf("richest: %" PRIu64 " with %" PRIu64 "\n", richest.value.words[0],
           (richest.key & ~INDEX) >> 8);
}

int main(void) {
    pthread_t threads[THREADS];
    clsm_caller *caller;
    must(clsm_open(NULL, &store));
    must(clsm_caller_open(store, &caller));
    for (uint64_t account = 0; account < ACCOUNTS; account++) {
        const uint64_t balance = EACH;
        const clsm_row rows[] = {{account, {1, {balance}}},
                                 {index_of(balance, account), {1, {account}}}};
        must(clsm_batch(caller, rows, 2));
    }
    for (int i = 0; i < THREADS; i++)
        if (pthread_create(&threads[i], NULL, work, NULL)) return 1;
    for (int i = 0; i < THREADS; i++) pthread_join(threads[i], NULL);
    report(caller);
    clsm_caller_close(caller);
    return clsm_close(store);
}
