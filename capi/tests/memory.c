/* Refuses each allocation of the library in turn. The call that needs it answers MEMORY and leaves
 * all as it was, and works when it is made again; nothing is lost. Link it with -Wl,--wrap= for
 * malloc, calloc, realloc, posix_memalign and free. */
#include "check.h"

#include <errno.h>
#include <stdatomic.h>

void *__wrap_malloc(size_t);
void *__wrap_calloc(size_t, size_t);
void *__wrap_realloc(void *, size_t);
int __wrap_posix_memalign(void **, size_t, size_t);
void __wrap_free(void *);
void *__real_malloc(size_t);
void *__real_calloc(size_t, size_t);
void *__real_realloc(void *, size_t);
int __real_posix_memalign(void **, size_t, size_t);
void __real_free(void *);

/* Requests so far, the one that is refused, and what is not freed. */
static atomic_long requests, refused_one, kept;

static bool is_refused(void) {
    return atomic_fetch_add(&requests, 1) + 1 == atomic_load(&refused_one);
}

static void *kept_too(void *memory) {
    if (memory) atomic_fetch_add(&kept, 1);
    return memory;
}

void *__wrap_malloc(size_t size) { return is_refused() ? NULL : kept_too(__real_malloc(size)); }

void *__wrap_calloc(size_t count, size_t size) {
    return is_refused() ? NULL : kept_too(__real_calloc(count, size));
}

void *__wrap_realloc(void *old, size_t size) {
    if (is_refused()) return NULL;
    void *memory = __real_realloc(old, size);
    return old ? memory : kept_too(memory);
}

int __wrap_posix_memalign(void **memory, size_t alignment, size_t size) {
    if (is_refused()) return ENOMEM;
    const int refused = __real_posix_memalign(memory, alignment, size);
    if (!refused) atomic_fetch_add(&kept, 1);
    return refused;
}

void __wrap_free(void *memory) {
    if (memory) atomic_fetch_sub(&kept, 1);
    __real_free(memory);
}

/* ---- */

static int memories;

/* Counts an answer of MEMORY, after which the call is made again. */
static bool is_again(int code) {
    if (code != CLSM_MEMORY) return false;
    memories++;
    return true;
}

#define AGAIN(code, call)                                                                          \
    do {                                                                                           \
        int answered_ = (call);                                                                    \
        if (is_again(answered_)) answered_ = (call);                                               \
        ANSWERS(code, answered_);                                                                  \
    } while (0)

static clsm_store *opened(const clsm_options *options) {
    clsm_store *store = NULL;
    const long before = atomic_load(&kept);
    int code = clsm_open(options, &store);
    if (is_again(code)) {
        CHECK(!store && atomic_load(&kept) == before);
        code = clsm_open(options, &store);
    }
    ANSWERS(CLSM_OK, code);
    return store;
}

/* A count that is refused memory does without. */
static uint64_t counted(clsm_caller *caller, uint64_t first) {
    const long before = atomic_load(&requests), refused = atomic_load(&refused_one);
    uint64_t count;
    OK(clsm_count(caller, first, UINT64_MAX, &count));
    if (before < refused && refused <= atomic_load(&requests)) memories++;
    return count;
}

static void read_pages(clsm_caller *caller, uint64_t keys) {
    clsm_row rows[100];
    clsm_page_end end;
    clsm_snapshot *snapshot;
    const long before = atomic_load(&requests);
    OK(clsm_page(caller, 0, UINT64_MAX, rows, 100, &end));
    CHECK(atomic_load(&requests) == before);
    CHECK(end.rows == 100 && end.more && end.next == 100);
    CHECK(counted(caller, 0) == keys);
    OK(clsm_snapshot_open(caller, &snapshot));
    OK(clsm_snapshot_page(snapshot, 50, UINT64_MAX, rows, 100, &end));
    CHECK(end.rows == 100 && end.more && end.next == 150);
    clsm_snapshot_close(snapshot);
}

/* Pages that are read in parts. */
static void read_long_pages(clsm_caller *caller, uint64_t keys) {
    static clsm_row rows[1000];
    clsm_page_end end;
    const uint64_t none = 0;
    OK(clsm_put(caller, none, &none, 1));
    const long before = atomic_load(&requests);
    OK(clsm_page(caller, 0, UINT64_MAX, rows, 1000, &end));
    CHECK(atomic_load(&requests) == before);
    CHECK(end.rows == keys && !end.more);
    for (uint64_t key = 0; key < keys; key++)
        CHECK(rows[key].key == key && rows[key].value.words[0] == key);
}

/* Writes some keys that it has read, and goes on where memory runs out; what its end refuses it has
 * forgotten. */
static void transact(clsm_caller *caller, uint64_t first) {
    enum { ROWS = 12 };
    static clsm_row rows[ROWS];
    clsm_transaction *transaction = NULL;
    clsm_page_end end;
    int code;
    AGAIN(CLSM_OK, clsm_transaction_open(caller, &transaction));
    do {
        for (uint64_t i = 0; i < ROWS; i++)
            AGAIN(CLSM_NOT_FOUND, clsm_transaction_get(transaction, first + i, NULL));
        for (uint64_t i = 0; i < ROWS; i++)
            AGAIN(CLSM_OK, clsm_transaction_put(transaction, first + i, &i, 1));
        for (uint64_t i = 0; i < ROWS; i++)
            AGAIN(CLSM_OK, clsm_transaction_page(transaction, first, first + i, rows, ROWS, &end));
        CHECK(end.rows == ROWS && rows[ROWS - 1].value.words[0] == ROWS - 1);
        AGAIN(CLSM_OK, clsm_transaction_page(transaction, 0, 99, rows, ROWS, &end));
        CHECK(end.rows == ROWS && end.more && rows[5].key == 5);
        code = clsm_transaction_commit(transaction);
    } while (is_again(code));
    ANSWERS(CLSM_OK, code);
    for (uint64_t i = 0; i < ROWS; i++)
        AGAIN(CLSM_OK, clsm_transaction_remove(transaction, first + i));
    if (is_again(code = clsm_transaction_commit(transaction))) code = CLSM_OK;
    ANSWERS(CLSM_OK, code);
    for (uint64_t i = 0; i < ROWS; i++) OK(clsm_remove(caller, first + i));
    clsm_transaction_close(transaction);
}

enum { NOTED = 100 }; /* so many keys that a transaction notes, all of which have values */

/* Gives these keys other values, or their own again. */
static void put_all(clsm_caller *caller, uint64_t more) {
    for (uint64_t key = 0; key < NOTED; key++) {
        const uint64_t word = key + more;
        OK(clsm_put(caller, key, &word, 1));
    }
}

/* A call that was refused has read and noted nothing: the transaction is no snapshot yet, and
 * whatever another one writes is no conflict. */
static void check_unread(clsm_store *store, clsm_caller *caller, clsm_transaction *transaction) {
    clsm_statistics now;
    const uint64_t none = 2 * NOTED;
    OK(clsm_stats(store, &now));
    CHECK(now.snapshots == 0);
    put_all(caller, 1);
    OK(clsm_transaction_put(transaction, none, &none, 1));
    OK(clsm_transaction_commit(transaction));
    put_all(caller, 0);
}

static int read_one(clsm_transaction *transaction) {
    return clsm_transaction_get(transaction, 0, NULL);
}

static int add_to_one(clsm_transaction *transaction) {
    return clsm_transaction_add(transaction, 0, 1, NULL);
}

static int read_some(clsm_transaction *transaction) {
    static clsm_value values[NOTED];
    uint64_t keys[NOTED];
    for (uint64_t i = 0; i < NOTED; i++) keys[i] = NOTED - 1 - i;
    return clsm_transaction_get_many(transaction, keys, NOTED, values);
}

static int read_range(clsm_transaction *transaction) {
    static clsm_row rows[NOTED];
    clsm_page_end end;
    return clsm_transaction_page(transaction, 0, NOTED - 1, rows, NOTED, &end);
}

static int read_down(clsm_transaction *transaction) {
    static clsm_row rows[NOTED];
    clsm_page_end end;
    return clsm_transaction_page_down(transaction, NOTED - 1, 0, rows, NOTED, &end);
}

enum { OWN = 12 }; /* so many keys it is to write */

/* It passes the keys that it removed itself. */
static int read_first(clsm_transaction *transaction) {
    clsm_row row = {.key = NOTED};
    for (uint64_t i = 0; i < OWN; i++) AGAIN(CLSM_OK, clsm_transaction_remove(transaction, i));
    const int code = clsm_transaction_first(transaction, 0, NOTED - 1, &row);
    CHECK(row.key == (code == CLSM_OK ? OWN : NOTED));
    return code;
}

static int read_last(clsm_transaction *transaction) {
    clsm_row row = {.key = NOTED};
    for (uint64_t i = 0; i < OWN; i++)
        AGAIN(CLSM_OK, clsm_transaction_remove(transaction, NOTED - 1 - i));
    const int code = clsm_transaction_last(transaction, 0, NOTED - 1, &row);
    CHECK(row.key == (code == CLSM_OK ? NOTED - 1 - OWN : NOTED));
    return code;
}

/* It reads its own keys, and does without memory for those of others. */
static int count_range(clsm_transaction *transaction) {
    uint64_t keys = 2 * NOTED;
    for (uint64_t i = 0; i < OWN; i++) AGAIN(CLSM_OK, clsm_transaction_remove(transaction, 5 * i));
    const long before = atomic_load(&requests), refused = atomic_load(&refused_one);
    const int code = clsm_transaction_count(transaction, 0, NOTED - 1, &keys);
    CHECK(keys == (code == CLSM_OK ? NOTED - OWN : 2 * NOTED));
    if (code == CLSM_OK && before < refused && refused <= atomic_load(&requests)) memories++;
    return code;
}

static void read_or_not(clsm_store *store, clsm_caller *caller) {
    static int (*const calls[])(clsm_transaction *) = {
        read_one, add_to_one, read_some, read_range, read_down, read_first, read_last, count_range};
    for (size_t i = 0; i < sizeof calls / sizeof *calls; i++) {
        clsm_transaction *transaction = NULL;
        AGAIN(CLSM_OK, clsm_transaction_open(caller, &transaction));
        const int code = calls[i](transaction);
        if (is_again(code)) check_unread(store, caller, transaction);
        else OK(code);
        clsm_transaction_close(transaction);
    }
}

/* Notes writes by falling key, each of them or none of it; a page has those that were noted. */
static void write_or_not(clsm_caller *caller, uint64_t first) {
    static clsm_row rows[NOTED];
    clsm_transaction *transaction = NULL;
    clsm_page_end end;
    AGAIN(CLSM_OK, clsm_transaction_open(caller, &transaction));
    for (uint64_t i = 1; i <= NOTED; i++) {
        const int code = clsm_transaction_put(transaction, first + NOTED - i, &i, 1);
        if (code == CLSM_OK) continue;
        CHECK(is_again(code));
        OK(clsm_transaction_page(transaction, first, UINT64_MAX, rows, NOTED, &end));
        CHECK(end.rows == i - 1);
        OK(clsm_transaction_put(transaction, first + NOTED - i, &i, 1));
    }
    AGAIN(CLSM_OK, clsm_transaction_page(transaction, first, UINT64_MAX, rows, NOTED, &end));
    CHECK(end.rows == NOTED && !end.more);
    for (uint64_t i = 0; i < NOTED; i++)
        CHECK(rows[i].key == first + i && rows[i].value.words[0] == NOTED - i);
    clsm_transaction_close(transaction);
}

/* Reads of many keys, and downwards, take none. */
static void read_many(clsm_caller *caller, uint64_t count) {
    static uint64_t keys[600];
    static clsm_value values[600];
    static clsm_row rows[600];
    clsm_page_end end;
    clsm_snapshot *snapshot;
    for (uint64_t i = 0; i < count; i++) keys[i] = i;
    const long before = atomic_load(&requests);
    OK(clsm_get_many(caller, keys, count, values));
    for (uint64_t i = 0; i < count; i++) CHECK(values[i].words[0] == i);
    OK(clsm_page_down(caller, UINT64_MAX, 0, rows, count, &end));
    CHECK(end.rows == count && !end.more && rows[0].key == count - 1);
    OK(clsm_snapshot_open(caller, &snapshot));
    OK(clsm_snapshot_get_many(snapshot, keys, count, values));
    OK(clsm_snapshot_last(snapshot, 0, UINT64_MAX, rows));
    CHECK(rows[0].key == count - 1);
    clsm_snapshot_close(snapshot);
    CHECK(atomic_load(&requests) == before);
}

/* A scan that is refused memory for more rows at a time does without. */
static void read_scan(clsm_caller *caller, uint64_t keys) {
    const long refused = atomic_load(&refused_one);
    clsm_scan *scan;
    clsm_row row;
    int code = clsm_scan_open(caller, 0, UINT64_MAX, &scan);
    if (is_again(code)) {
        CHECK(!scan);
        code = clsm_scan_open(caller, 0, UINT64_MAX, &scan);
    }
    ANSWERS(CLSM_OK, code);
    const long before = atomic_load(&requests);
    for (uint64_t key = 0; key < keys; key++) {
        OK(clsm_scan_next(scan, &row));
        CHECK(row.key == key && row.value.words[0] == key);
    }
    ANSWERS(CLSM_DONE, clsm_scan_next(scan, &row));
    if (before < refused && refused <= atomic_load(&requests)) memories++;
    clsm_scan_close(scan);
}

/* Writes as many keys as there are from the first one on, all of them again, and removes them. */
static void write_batches(clsm_caller *caller, uint64_t first) {
    enum { ROWS = 12 };
    clsm_row rows[ROWS];
    for (uint64_t i = 0; i < ROWS; i++) rows[i] = (clsm_row){first + i, {1, {i}}};
    int code = clsm_batch(caller, rows, ROWS);
    if (is_again(code)) {
        CHECK(counted(caller, first) == 0);
        code = clsm_batch(caller, rows, ROWS);
    }
    ANSWERS(CLSM_OK, code);
    CHECK(counted(caller, first) == ROWS);
    AGAIN(CLSM_OK, clsm_batch(caller, rows, ROWS));
    for (uint64_t i = 0; i < ROWS; i++) rows[i].value.length = 0;
    AGAIN(CLSM_OK, clsm_batch(caller, rows, ROWS));
}

/* The same with conditions, which are that none has a value, and that all have. */
static void write_batches_if(clsm_caller *caller, uint64_t first) {
    enum { ROWS = 12 };
    const clsm_range_count none = {first, first + ROWS, 0}, all = {first, first + ROWS, ROWS};
    clsm_row rows[ROWS], absent[ROWS];
    size_t unmet = 77;
    for (uint64_t i = 0; i < ROWS; i++) absent[i] = (clsm_row){.key = first + i};
    for (uint64_t i = 0; i < ROWS; i++) rows[i] = (clsm_row){first + i, {1, {i}}};
    int code = clsm_batch_if(caller, absent, ROWS, &none, 1, rows, ROWS, &unmet);
    if (is_again(code)) {
        CHECK(counted(caller, first) == 0);
        code = clsm_batch_if(caller, absent, ROWS, &none, 1, rows, ROWS, &unmet);
    }
    ANSWERS(CLSM_OK, code);
    CHECK(counted(caller, first) == ROWS && unmet == 77);
    AGAIN(CLSM_OK, clsm_batch_if(caller, rows, ROWS, &all, 1, NULL, 0, NULL));
    AGAIN(CLSM_KEPT, clsm_batch_if(caller, absent, ROWS, &all, 1, rows, ROWS, NULL));
    AGAIN(CLSM_OK, clsm_batch_if(caller, rows, ROWS, &all, 1, absent, ROWS, NULL));
}

/* A range whose removal is refused in the middle is removed by the next call from there on. */
static void remove_range(clsm_caller *caller, uint64_t first) {
    enum { ROWS = 12 };
    uint64_t removed, more = 0;
    for (uint64_t i = 0; i < ROWS; i++) OK(clsm_put(caller, first + i, &i, 1));
    int code = clsm_remove_range(caller, first, first + ROWS, &removed);
    if (is_again(code)) {
        CHECK(counted(caller, first) == ROWS - removed);
        code = clsm_remove_range(caller, first, first + ROWS, &more);
    }
    ANSWERS(CLSM_OK, code);
    CHECK(removed + more == ROWS && counted(caller, first) == 0);
}

/* A row is taken out, or still there. */
static void pop(clsm_caller *caller, uint64_t first) {
    clsm_row row = {.key = first + 5};
    for (uint64_t i = 0; i < 2; i++) OK(clsm_put(caller, first + i, &i, 1));
    int code = clsm_pop_first(caller, first, first + 1, &row);
    if (is_again(code)) {
        CHECK(counted(caller, first) == 2 && row.key == first + 5);
        code = clsm_pop_first(caller, first, first + 1, &row);
    }
    ANSWERS(CLSM_OK, code);
    CHECK(counted(caller, first) == 1 && row.key == first);
    AGAIN(CLSM_OK, clsm_pop_last(caller, first, first + 1, &row));
    CHECK(counted(caller, first) == 0 && row.key == first + 1);
}

/* A copy that is refused leaves nothing. */
static void copy(clsm_store *store, uint64_t keys, int merge) {
    const clsm_options options = {.keys = keys, .epoch = 256, .merge = merge};
    const long before = atomic_load(&kept);
    clsm_store *other = store;
    clsm_caller *caller;
    int code = clsm_copy(store, &options, &other);
    if (is_again(code)) {
        CHECK(!other && atomic_load(&kept) == before);
        code = clsm_copy(store, &options, &other);
    }
    ANSWERS(CLSM_OK, code);
    OK(clsm_caller_open(other, &caller));
    CHECK(counted(caller, 0) == keys);
    clsm_caller_close(caller);
    OK(clsm_close(other));
}

enum { KEYS = 600 };

/* A store with these keys, and its caller. */
static clsm_store *filled(int merge, clsm_caller **caller) {
    clsm_store *store = opened(&(clsm_options){.keys = 640, .epoch = 16, .merge = merge});
    OK(clsm_caller_open(store, caller));
    for (uint64_t key = 0; key < KEYS; key++) OK(clsm_put(*caller, key, &key, 1));
    return store;
}

/* No seat has had rows of its own before. */
static void use_scans(int merge) {
    clsm_caller *caller;
    clsm_store *store = filled(merge, &caller);
    read_scan(caller, KEYS);
    read_scan(caller, KEYS);
    clsm_caller_close(caller);
    OK(clsm_close(store));
}

static void use_all_calls(int merge) {
    clsm_caller *caller;
    clsm_store *store = filled(merge, &caller);
    OK(clsm_get(caller, 5, NULL));
    write_batches(caller, KEYS);
    write_batches_if(caller, KEYS);
    transact(caller, KEYS);
    read_or_not(store, caller);
    write_or_not(caller, KEYS);
    remove_range(caller, KEYS);
    pop(caller, KEYS);
    copy(store, KEYS, merge);
    int code = clsm_sweep(store);
    CHECK(code == CLSM_OK || code == CLSM_IDLE);
    read_pages(caller, KEYS);
    read_long_pages(caller, KEYS);
    read_many(caller, KEYS);
    clsm_caller_close(caller);
    OK(clsm_close(store));
}

/* A store whose tables are large enough for large pages. */
static void use_large_tables(int merge) {
    clsm_store *store = opened(&(clsm_options){.merge = merge});
    clsm_caller *caller;
    const uint64_t key = 7;
    OK(clsm_caller_open(store, &caller));
    OK(clsm_put(caller, key, &key, 1));
    OK(clsm_get(caller, key, NULL));
    clsm_caller_close(caller);
    OK(clsm_close(store));
}

/* Uses a store once for each of its allocations. */
static void refuse_each(void (*use)(int), int merge) {
    const long before = atomic_load(&kept);
    for (long number = 1;; number++) {
        memories = 0;
        atomic_store(&requests, 0);
        atomic_store(&refused_one, number);
        use(merge);
        CHECK(atomic_load(&kept) == before);
        CHECK(memories == (atomic_load(&requests) >= number));
        if (atomic_load(&requests) < number) break;
        CHECK(number < 10000);
    }
    atomic_store(&refused_one, 0);
}

int main(void) {
    refuse_each(use_scans, 0);
    refuse_each(use_all_calls, 0);
    refuse_each(use_all_calls, CLSM_MERGE_IN_CALLS);
    refuse_each(use_large_tables, 0);
    return passed("memory");
}
