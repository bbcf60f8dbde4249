/* A library that was built with CLSM_CHECKED names calls that C must not make. The core is
 * mock_core.c. */
#include "check.h"
#include "mock_core.h"

static const uint64_t WORD = 5;
static clsm_caller *caller;

/* Called while the caller reads. */
static void call_again(void *with) {
    clsm_snapshot *snapshot;
    clsm_row row;
    uint64_t keys;
    int *calls = with;
    ANSWERS(CLSM_IN_USE, clsm_get(caller, 1, NULL));
    ANSWERS(CLSM_IN_USE, clsm_put(caller, 1, &WORD, 1));
    ANSWERS(CLSM_IN_USE, clsm_count(caller, 0, 1, &keys));
    ANSWERS(CLSM_IN_USE, clsm_get_many(caller, NULL, 0, NULL));
    ANSWERS(CLSM_IN_USE, clsm_batch_if(caller, NULL, 0, NULL, 0, NULL, 0, NULL));
    ANSWERS(CLSM_IN_USE, clsm_page_down(caller, 1, 0, NULL, 0, NULL));
    ANSWERS(CLSM_IN_USE, clsm_last(caller, 0, 1, NULL));
    ANSWERS(CLSM_IN_USE, clsm_remove_range(caller, 0, 1, &keys));
    ANSWERS(CLSM_IN_USE, clsm_clear(caller, NULL));
    ANSWERS(CLSM_IN_USE, clsm_pop_first(caller, 0, 1, &row));
    ANSWERS(CLSM_IN_USE, clsm_pop_last(caller, 0, 1, &row));
    ANSWERS(CLSM_IN_USE, clsm_snapshot_open(caller, &snapshot));
    ANSWERS(CLSM_IN_USE, clsm_follow(caller, 0));
    clsm_caller_close(caller);
    clsm_caller *same = caller;
    clsm_caller_close_at(&same);
    CHECK(same == caller);
    ++*calls;
}

/* Called while the transaction reads: its snapshot is in that call. */
static void read_again(void *with) {
    clsm_transaction *transaction = with;
    const uint64_t key = 3;
    clsm_value value;
    clsm_row rows[2] = {{.key = 7}};
    clsm_page_end end = {.rows = 7};
    uint64_t keys = 7;
    ANSWERS(CLSM_IN_USE, clsm_transaction_get(transaction, key, &value));
    ANSWERS(CLSM_IN_USE, clsm_transaction_get_many(transaction, &key, 1, &value));
    ANSWERS(CLSM_IN_USE, clsm_transaction_add(transaction, key, 1, NULL));
    ANSWERS(CLSM_IN_USE, clsm_transaction_page(transaction, 0, 9, rows, 2, &end));
    ANSWERS(CLSM_IN_USE, clsm_transaction_page_down(transaction, 9, 0, rows, 2, &end));
    ANSWERS(CLSM_IN_USE, clsm_transaction_first(transaction, 0, 9, rows));
    ANSWERS(CLSM_IN_USE, clsm_transaction_last(transaction, 0, 9, rows));
    ANSWERS(CLSM_IN_USE, clsm_transaction_count(transaction, 0, 9, &keys));
    CHECK(end.rows == 7 && rows[0].key == 7 && keys == 7);
}

/* Its first read opens a snapshot of its caller, which is closed. */
static void read_by_closed(clsm_transaction *transaction) {
    clsm_row row = {.key = 7};
    clsm_page_end end = {.rows = 7};
    uint64_t keys = 7;
    ANSWERS(CLSM_CLOSED, clsm_transaction_get(transaction, 1, NULL));
    ANSWERS(CLSM_CLOSED, clsm_transaction_page(transaction, 0, 9, &row, 1, &end));
    ANSWERS(CLSM_CLOSED, clsm_transaction_page_down(transaction, 9, 0, &row, 1, &end));
    ANSWERS(CLSM_CLOSED, clsm_transaction_first(transaction, 0, 9, &row));
    ANSWERS(CLSM_CLOSED, clsm_transaction_last(transaction, 0, 9, &row));
    ANSWERS(CLSM_CLOSED, clsm_transaction_count(transaction, 0, 9, &keys));
    CHECK(end.rows == 7 && row.key == 7 && keys == 7);
    clsm_transaction_close(transaction);
}

static void transact(void) {
    clsm_transaction *transaction;
    OK(clsm_transaction_open(caller, &transaction));
    OK(clsm_transaction_get(transaction, 1, NULL));
    mock_core_interrupt(MOCK_READ, read_again, transaction);
    ANSWERS(CLSM_NOT_FOUND, clsm_transaction_get(transaction, 2, NULL));
    OK(clsm_transaction_commit(transaction));
    clsm_transaction_close(transaction);
}

int main(void) {
    clsm_store *store;
    clsm_snapshot *snapshot;
    clsm_scan *scan;
    clsm_transaction *transaction;
    clsm_row row;
    int calls = 0;
    OK(clsm_open(NULL, &store));
    OK(clsm_caller_open(store, &caller));
    OK(clsm_put(caller, 1, &WORD, 1));
    mock_core_interrupt(MOCK_READ, call_again, &calls);
    OK(clsm_get(caller, 1, NULL));
    CHECK(calls == 1);
    OK(clsm_get(caller, 1, NULL));
    transact();
    OK(clsm_snapshot_open(caller, &snapshot));
    OK(clsm_scan_open(caller, 0, 1, &scan));
    OK(clsm_scan_next(scan, &row));
    ANSWERS(CLSM_CLOSED, clsm_get((clsm_caller *)snapshot, 1, NULL));
    ANSWERS(CLSM_CLOSED, clsm_scan_next((clsm_scan *)snapshot, &row));
    clsm_snapshot_close((clsm_snapshot *)scan);
    clsm_snapshot_close(snapshot);
    ANSWERS(CLSM_CLOSED, clsm_snapshot_get(snapshot, 1, NULL));
    ANSWERS(CLSM_CLOSED, clsm_snapshot_get_many(snapshot, NULL, 0, NULL));
    ANSWERS(CLSM_CLOSED, clsm_snapshot_first(snapshot, 0, 1, &row));
    ANSWERS(CLSM_CLOSED, clsm_snapshot_page_down(snapshot, 1, 0, &row, 1, NULL));
    clsm_snapshot_close(snapshot);
    OK(clsm_clear(caller, NULL));
    ANSWERS(CLSM_NOT_FOUND, clsm_get(caller, 1, NULL));
    OK(clsm_transaction_open(caller, &transaction));
    clsm_caller_close(caller);
    read_by_closed(transaction);
    ANSWERS(CLSM_CLOSED, clsm_get(caller, 1, NULL));
    ANSWERS(CLSM_CLOSED, clsm_put(caller, 1, &WORD, 1));
    ANSWERS(CLSM_CLOSED, clsm_clear(caller, NULL));
    ANSWERS(CLSM_BAD_POINTER, clsm_get(NULL, 1, NULL));
    ANSWERS(CLSM_IN_USE, clsm_close(store));
    clsm_scan_close(scan);
    ANSWERS(CLSM_CLOSED, clsm_scan_next(scan, &row));
    OK(clsm_close(store));
    return passed("checked");
}
