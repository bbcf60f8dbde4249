/* A core for tests, under one mutex: it answers as the proved core does, allocates when that does,
 * and refuses what a test wants to be refused (mock_core.h). */
#define _POSIX_C_SOURCE 200809L
#include "mock_store.h"

#include <stdlib.h>
#include <string.h>

const char CLSM_CORE_INTERFACE = 0;

/* A compiler may leave out an allocation that nothing uses, unless it cannot know the function. */
static void *(*volatile allocate)(size_t) = malloc;

/* The handle of a caller in its words; a store's and a merger's begin with the store. */
struct seat {
    struct store *store;
    uint64_t number;
};

pthread_mutex_t mock_lock = PTHREAD_MUTEX_INITIALIZER;
static pthread_cond_t called = PTHREAD_COND_INITIALIZER;

/* ---- What a test made of it */

struct plan {
    unsigned refusals, backward, made;
    uint32_t code;
    uint64_t by;
};

static struct plan plans[MOCK_CALLS];
static void (*interruptions[MOCK_CALLS])(void *);
static void *interrupted_with[MOCK_CALLS];
static unsigned bytes_more;

void mock_core_refuse(enum mock_call call, uint32_t code, unsigned times) {
    pthread_mutex_lock(&mock_lock);
    plans[call].code = code;
    plans[call].refusals = times;
    pthread_mutex_unlock(&mock_lock);
}

void mock_core_run_back(enum mock_call call, uint64_t by, unsigned times) {
    pthread_mutex_lock(&mock_lock);
    plans[call].by = by;
    plans[call].backward = times;
    pthread_mutex_unlock(&mock_lock);
}

unsigned mock_core_count(enum mock_call call) {
    pthread_mutex_lock(&mock_lock);
    unsigned made = plans[call].made;
    pthread_mutex_unlock(&mock_lock);
    return made;
}

void mock_core_await(enum mock_call call, unsigned made) {
    pthread_mutex_lock(&mock_lock);
    while (plans[call].made < made) pthread_cond_wait(&called, &mock_lock);
    pthread_mutex_unlock(&mock_lock);
}

void mock_core_interrupt(enum mock_call call, void (*function)(void *), void *with) {
    pthread_mutex_lock(&mock_lock);
    interruptions[call] = function;
    interrupted_with[call] = with;
    pthread_mutex_unlock(&mock_lock);
}

void mock_interrupt(enum mock_call call) {
    pthread_mutex_lock(&mock_lock);
    void (*function)(void *) = interruptions[call];
    interruptions[call] = NULL;
    pthread_mutex_unlock(&mock_lock);
    if (function) function(interrupted_with[call]);
}

void mock_core_grow_handles(unsigned bytes) { bytes_more = bytes; }

static void note(struct plan *plan) {
    plan->made++;
    pthread_cond_broadcast(&called);
}

uint32_t mock_planned(enum mock_call call) {
    struct plan *plan = &plans[call];
    note(plan);
    if (plan->refusals == 0) return CLSM_CORE_OK;
    plan->refusals--;
    return plan->code;
}

/* The time at which this call is to read. */
static uint64_t read_time(const struct store *store, enum mock_call call) {
    struct plan *plan = &plans[call];
    note(plan);
    if (plan->backward == 0) return store->clock;
    plan->backward--;
    return store->clock > plan->by ? store->clock - plan->by : 0;
}

/* ---- Opening and closing */

static struct seat seat_of(void *handle) {
    struct seat seat;
    memcpy(&seat, handle, sizeof seat);
    return seat;
}

struct store *mock_store_of(void *handle) {
    return seat_of(handle).store;
}

static void make(void *handle, struct store *store, uint64_t number) {
    struct seat seat = {store, number};
    memcpy(handle, &seat, sizeof seat);
    if (store) store->handles++;
}

static void destroy(struct store *store) {
    free(store->entries);
    free(store->versions);
    free(store);
}

static void drop(void *handle) {
    struct store *store = mock_store_of(handle);
    pthread_mutex_lock(&mock_lock);
    if (store && --store->handles == 0) destroy(store);
    memset(handle, 0, sizeof(struct seat));
    pthread_mutex_unlock(&mock_lock);
}

static uint32_t refusal_of(const clsm_core_sizes *sizes) {
    if (sizes->cells < 4 || sizes->cells > 65536) return CLSM_CORE_BAD_EPOCH;
    if (sizes->seats < 1 || sizes->seats > SEATS) return CLSM_CORE_BAD_SEATS;
    if (sizes->shards < 1 || sizes->shards > 1024) return CLSM_CORE_BAD_SHARDS;
    if (sizes->run < 4 || sizes->run > 4194304) return CLSM_CORE_BAD_KEYS;
    return sizes->patience > 64 ? CLSM_CORE_BAD_PATIENCE : CLSM_CORE_OK;
}

static struct store *create(const clsm_core_sizes *sizes) {
    const size_t room = sizes->run + 2 * sizes->cells;
    struct store *store = calloc(1, sizeof *store);
    if (!store) return NULL;
    store->entries = malloc(room * sizeof *store->entries);
    store->versions = calloc(room, sizeof *store->versions);
    if (!store->entries || !store->versions) {
        destroy(store);
        return NULL;
    }
    for (size_t i = 0; i + 1 < room; i++) store->versions[i].older = &store->versions[i + 1];
    store->unused = store->versions;
    store->sizes = *sizes;
    store->callers_left = sizes->seats;
    store->merger_left = true;
    return store;
}

void clsm_core_room(clsm_core_rooms *answer) {
    answer->store = sizeof(clsm_core_store) + bytes_more;
    answer->caller = sizeof(clsm_core_caller);
    answer->merger = sizeof(clsm_core_merger);
}

void clsm_core_open(const clsm_core_sizes *ask, clsm_core_code *answer, clsm_core_store *at) {
    answer->code = refusal_of(ask);
    struct store *store = answer->code == CLSM_CORE_OK ? create(ask) : NULL;
    if (answer->code == CLSM_CORE_OK && !store) answer->code = CLSM_CORE_MEMORY;
    make(at, store, 0);
}

void clsm_core_close(clsm_core_store *at) { drop(at); }

void clsm_core_take_caller(clsm_core_store *at, clsm_core_code *answer, clsm_core_caller *caller) {
    struct store *store = mock_store_of(at);
    bool is_left = store && store->callers_left > 0;
    answer->code = is_left ? CLSM_CORE_OK : CLSM_CORE_NO_HANDLE;
    make(caller, is_left ? store : NULL, is_left ? --store->callers_left : 0);
}

void clsm_core_drop_caller(clsm_core_caller *at) { drop(at); }

void clsm_core_take_merger(clsm_core_store *at, clsm_core_code *answer, clsm_core_merger *merger) {
    struct store *store = mock_store_of(at);
    bool is_left = store && store->merger_left;
    answer->code = is_left ? CLSM_CORE_OK : CLSM_CORE_NO_HANDLE;
    if (is_left) store->merger_left = false;
    make(merger, is_left ? store : NULL, 0);
}

void clsm_core_drop_merger(clsm_core_merger *at) { drop(at); }

/* ---- Versions */

/* The place of the first key that is not below this one. */
static size_t place_of(const struct store *store, uint64_t key) {
    size_t low = 0, high = store->count;
    while (low < high) {
        size_t middle = low + (high - low) / 2;
        if (store->entries[middle].key < key) low = middle + 1;
        else high = middle;
    }
    return low;
}

static const struct version *version_below(const struct entry *entry, uint64_t time) {
    const struct version *version = entry->newest;
    while (version && version->time >= time) version = version->older;
    return version;
}

/* The value of the entry below the time, or null. */
static const clsm_core_value *value_below(const struct entry *entry, uint64_t time) {
    const struct version *version = version_below(entry, time);
    return version && version->value.length > 0 ? &version->value : NULL;
}

static struct entry *entry_for(struct store *store, uint64_t key) {
    size_t at = place_of(store, key);
    struct entry *entry = &store->entries[at];
    if (at < store->count && entry->key == key) return entry;
    memmove(entry + 1, entry, (store->count - at) * sizeof *entry);
    store->count++;
    *entry = (struct entry){key, NULL};
    return entry;
}

static uint64_t limit(const struct store *store) { return (store->epoch + 1) * store->sizes.cells; }

static void add_version(struct store *store, uint64_t key, const clsm_core_value *value) {
    struct entry *entry = entry_for(store, key);
    struct version *version = store->unused;
    store->unused = version->older;
    *version = (struct version){store->clock++, *value, entry->newest};
    entry->newest = version;
}

static uint32_t write_at(struct store *store, uint64_t key, const clsm_core_value *value,
                         clsm_core_time *answer) {
    uint32_t code = mock_planned(MOCK_WRITE);
    if (code != CLSM_CORE_OK) return code;
    answer->time = store->clock;
    if (store->clock == limit(store)) return CLSM_CORE_FULL;
    add_version(store, key, value);
    return CLSM_CORE_OK;
}

static uint32_t write(clsm_core_caller *at, uint64_t key, const clsm_core_value *value,
                      clsm_core_time *answer) {
    struct store *store = mock_store_of(at);
    if (!store) return CLSM_CORE_NO_HANDLE;
    pthread_mutex_lock(&mock_lock);
    uint32_t code = write_at(store, key, value, answer);
    pthread_mutex_unlock(&mock_lock);
    return code;
}

uint32_t clsm_core_try_put(clsm_core_caller *at, const clsm_core_row *ask, clsm_core_time *answer) {
    clsm_core_value value = {.length = ask->value.length};
    if (value.length < 1 || value.length > 8) return CLSM_CORE_BAD_VALUE;
    memcpy(value.words, ask->value.words, value.length * sizeof value.words[0]);
    return write(at, ask->key, &value, answer);
}

uint32_t clsm_core_try_remove(clsm_core_caller *at, const clsm_core_key *ask,
                              clsm_core_time *answer) {
    return write(at, ask->key, &(clsm_core_value){.length = 0}, answer);
}

/* ---- Batches */

static uint32_t refusal_of_rows(size_t cells, const clsm_core_row *rows, size_t count) {
    for (size_t i = 0; i < count; i++)
        if (rows[i].value.length > 8) return CLSM_CORE_BAD_VALUE;
    if (count < 1 || count > cells) return CLSM_CORE_BAD_BATCH;
    return CLSM_CORE_OK;
}

/* Writes all rows, if the epoch has room for them: OK, FULL. */
static uint32_t write_all(struct store *store, const clsm_core_row *rows, size_t count,
                          uint64_t *time) {
    *time = store->clock;
    if (count > limit(store) - store->clock) return CLSM_CORE_FULL;
    for (size_t i = 0; i < count; i++) {
        clsm_core_value value = {.length = rows[i].value.length};
        memcpy(value.words, rows[i].value.words, value.length * sizeof value.words[0]);
        add_version(store, rows[i].key, &value);
    }
    return CLSM_CORE_OK;
}

static uint32_t write_batch(struct store *store, const clsm_core_row *rows, size_t count,
                            clsm_core_time *answer) {
    uint32_t code = refusal_of_rows(store->sizes.cells, rows, count);
    if (code == CLSM_CORE_OK) code = mock_planned(MOCK_BATCH);
    return code == CLSM_CORE_OK ? write_all(store, rows, count, &answer->time) : code;
}

uint32_t clsm_core_try_batch(clsm_core_caller *at, const clsm_core_row *rows, size_t count,
                             clsm_core_time *answer) {
    struct store *store = mock_store_of(at);
    if (!store) return CLSM_CORE_NO_HANDLE;
    void *members = allocate(count * sizeof *rows);
    if (!members && count > 0) return CLSM_CORE_MEMORY;
    mock_interrupt(MOCK_BATCH);
    pthread_mutex_lock(&mock_lock);
    uint32_t code = write_batch(store, rows, count, answer);
    pthread_mutex_unlock(&mock_lock);
    free(members);
    return code;
}

/* ---- Batches with conditions */

static bool is_same(const clsm_core_value *one, const clsm_core_value *other) {
    return one->length == other->length
           && memcmp(one->words, other->words, one->length * sizeof one->words[0]) == 0;
}

static clsm_core_value value_at(const struct store *store, uint64_t key, uint64_t time) {
    size_t at = place_of(store, key);
    const clsm_core_value *value = NULL;
    if (at < store->count && store->entries[at].key == key)
        value = value_below(&store->entries[at], time);
    return value ? *value : (clsm_core_value){.length = 0};
}

static uint64_t count_below(const struct store *store, uint64_t first, uint64_t last,
                            uint64_t time) {
    uint64_t keys = 0;
    for (size_t i = place_of(store, first); i < store->count && store->entries[i].key <= last; i++)
        if (value_below(&store->entries[i], time)) keys++;
    return keys;
}

struct conditions {
    const clsm_core_row *expected;
    size_t expected_count;
    const clsm_core_range_count *counts;
    size_t counts_count;
};

/* The place of the first condition that does not hold, or how many there are. */
static size_t first_unmet(const struct store *store, const struct conditions *of) {
    for (size_t i = 0; i < of->expected_count; i++) {
        const clsm_core_value value = value_at(store, of->expected[i].key, store->clock);
        if (!is_same(&value, &of->expected[i].value)) return i;
    }
    for (size_t i = 0; i < of->counts_count; i++) {
        const clsm_core_range_count *range = &of->counts[i];
        if (count_below(store, range->first, range->last, store->clock) != range->keys)
            return of->expected_count + i;
    }
    return of->expected_count + of->counts_count;
}

static uint32_t refusal_of_conditions(const struct conditions *of) {
    for (size_t i = 0; i < of->expected_count; i++)
        if (of->expected[i].value.length > 8) return CLSM_CORE_BAD_VALUE;
    return CLSM_CORE_OK;
}

static uint32_t write_if(struct store *store, const struct conditions *conditions,
                         const clsm_core_row *rows, size_t count, clsm_core_unmet *answer) {
    const size_t all = conditions->expected_count + conditions->counts_count;
    uint32_t code = refusal_of_conditions(conditions);
    if (code == CLSM_CORE_OK && count > 0) code = refusal_of_rows(store->sizes.cells, rows, count);
    if (code == CLSM_CORE_OK) code = mock_planned(MOCK_BATCH);
    if (code != CLSM_CORE_OK) return code;
    answer->index = first_unmet(store, conditions);
    if (answer->index == all && count > 0) return write_all(store, rows, count, &answer->time);
    answer->time = read_time(store, MOCK_READ);
    return answer->index < all ? CLSM_CORE_KEPT : CLSM_CORE_OK;
}

uint32_t clsm_core_try_batch_if(clsm_core_caller *at, const clsm_core_row *expected,
                                size_t expected_count, const clsm_core_range_count *counts,
                                size_t counts_count, const clsm_core_row *rows, size_t count,
                                clsm_core_unmet *answer) {
    const struct conditions conditions = {expected, expected_count, counts, counts_count};
    struct store *store = mock_store_of(at);
    if (!store) return CLSM_CORE_NO_HANDLE;
    void *members = allocate((expected_count + count) * sizeof *rows);
    if (!members && expected_count + count > 0) return CLSM_CORE_MEMORY;
    mock_interrupt(MOCK_BATCH);
    pthread_mutex_lock(&mock_lock);
    uint32_t code = write_if(store, &conditions, rows, count, answer);
    pthread_mutex_unlock(&mock_lock);
    free(members);
    return code;
}

/* ---- Changes */

/* Writes the desired value if it is told to; else that is a read. */
static uint32_t change_at(struct store *store, uint64_t key, bool writes,
                          const clsm_core_value *desired, clsm_core_changed *answer) {
    clsm_core_time time = {0};
    if (!writes) {
        answer->after = answer->before;
        answer->time = read_time(store, MOCK_READ);
        return CLSM_CORE_KEPT;
    }
    uint32_t code = write_at(store, key, desired, &time);
    answer->after = *desired;
    answer->time = time.time;
    return code;
}

uint32_t clsm_core_try_add(clsm_core_caller *at, const clsm_core_adding *ask,
                           clsm_core_changed *answer) {
    struct store *store = mock_store_of(at);
    if (!store) return CLSM_CORE_NO_HANDLE;
    pthread_mutex_lock(&mock_lock);
    answer->before = value_at(store, ask->key, store->clock);
    const uint64_t old = answer->before.words[0];
    const bool fits =
        answer->before.length == 0 || (answer->before.length == 1 && old <= UINT64_MAX - ask->by);
    const clsm_core_value sum = {1, {(answer->before.length ? old : 0) + ask->by}};
    uint32_t code = change_at(store, ask->key, fits, &sum, answer);
    pthread_mutex_unlock(&mock_lock);
    return code;
}

uint32_t clsm_core_try_replace(clsm_core_caller *at, const clsm_core_replacing *ask,
                               clsm_core_changed *answer) {
    struct store *store = mock_store_of(at);
    if (!store) return CLSM_CORE_NO_HANDLE;
    if (ask->expected.length > 8 || ask->desired.length > 8) return CLSM_CORE_BAD_VALUE;
    pthread_mutex_lock(&mock_lock);
    answer->before = value_at(store, ask->key, store->clock);
    clsm_core_value desired = {.length = ask->desired.length};
    memcpy(desired.words, ask->desired.words, desired.length * sizeof desired.words[0]);
    uint32_t code =
        change_at(store, ask->key, is_same(&answer->before, &ask->expected), &desired, answer);
    pthread_mutex_unlock(&mock_lock);
    return code;
}

/* ---- Reads */

static uint32_t read_below(const struct store *store, uint64_t key, uint64_t time,
                           clsm_core_got *answer) {
    memset(answer, 0, sizeof *answer);
    answer->time = time;
    answer->value = value_at(store, key, time);
    return answer->value.length > 0 ? CLSM_CORE_OK : CLSM_CORE_NOT_FOUND;
}

uint32_t clsm_core_get(clsm_core_caller *at, const clsm_core_key *ask, clsm_core_got *answer) {
    struct store *store = mock_store_of(at);
    if (!store) return CLSM_CORE_NO_HANDLE;
    mock_interrupt(MOCK_READ);
    pthread_mutex_lock(&mock_lock);
    uint32_t code = read_below(store, ask->key, read_time(store, MOCK_READ), answer);
    pthread_mutex_unlock(&mock_lock);
    return code;
}

uint32_t clsm_core_get_at(clsm_core_caller *at, const clsm_core_key *ask, clsm_core_got *answer) {
    struct seat seat = seat_of(at);
    if (!seat.store) return CLSM_CORE_NO_HANDLE;
    pthread_mutex_lock(&mock_lock);
    uint64_t noted = seat.store->snapshots[seat.number];
    uint32_t code = CLSM_CORE_NO_SNAPSHOT;
    if (noted != NONE) code = read_below(seat.store, ask->key, noted - 1, answer);
    pthread_mutex_unlock(&mock_lock);
    return code;
}

static void read_all(const struct store *store, const clsm_core_key *keys, size_t count,
                     clsm_core_value *values, uint64_t time) {
    for (size_t i = 0; i < count; i++) values[i] = value_at(store, keys[i].key, time);
}

uint32_t clsm_core_get_many(clsm_core_caller *at, const clsm_core_key *keys, size_t count,
                            clsm_core_value *values, size_t room, clsm_core_time *answer) {
    struct store *store = mock_store_of(at);
    if (!store) return CLSM_CORE_NO_HANDLE;
    mock_interrupt(MOCK_READ);
    pthread_mutex_lock(&mock_lock);
    answer->time = read_time(store, MOCK_READ);
    read_all(store, keys, count < room ? count : room, values, answer->time);
    pthread_mutex_unlock(&mock_lock);
    return CLSM_CORE_OK;
}

uint32_t clsm_core_get_many_at(clsm_core_caller *at, const clsm_core_key *keys, size_t count,
                               clsm_core_value *values, size_t room, clsm_core_time *answer) {
    struct seat seat = seat_of(at);
    if (!seat.store) return CLSM_CORE_NO_HANDLE;
    mock_interrupt(MOCK_READ);
    pthread_mutex_lock(&mock_lock);
    const uint64_t noted = seat.store->snapshots[seat.number];
    if (noted != NONE) {
        answer->time = noted - 1;
        read_all(seat.store, keys, count < room ? count : room, values, answer->time);
    }
    pthread_mutex_unlock(&mock_lock);
    return noted != NONE ? CLSM_CORE_OK : CLSM_CORE_NO_SNAPSHOT;
}

uint32_t clsm_core_snapshot(clsm_core_caller *at, clsm_core_time *answer) {
    struct seat seat = seat_of(at);
    if (!seat.store) return CLSM_CORE_NO_HANDLE;
    pthread_mutex_lock(&mock_lock);
    uint64_t *noted = &seat.store->snapshots[seat.number];
    uint32_t code = *noted == NONE ? CLSM_CORE_OK : CLSM_CORE_OPEN;
    if (*noted == NONE) *noted = read_time(seat.store, MOCK_SNAPSHOT) + 1;
    answer->time = *noted - 1;
    pthread_mutex_unlock(&mock_lock);
    return code;
}

uint32_t clsm_core_close_snapshot(clsm_core_caller *at, clsm_core_time *answer) {
    struct seat seat = seat_of(at);
    if (!seat.store) return CLSM_CORE_NO_HANDLE;
    pthread_mutex_lock(&mock_lock);
    uint64_t *noted = &seat.store->snapshots[seat.number];
    uint32_t code = *noted == NONE ? CLSM_CORE_NO_SNAPSHOT : CLSM_CORE_OK;
    if (*noted != NONE) answer->time = *noted - 1;
    *noted = NONE;
    pthread_mutex_unlock(&mock_lock);
    return code;
}

/* The time at which a range is read: of the seat's snapshot, or the present. */
static uint64_t range_time(struct seat seat) {
    uint64_t noted = seat.store->snapshots[seat.number];
    return noted != NONE ? noted - 1 : read_time(seat.store, MOCK_READ);
}

uint32_t clsm_core_count(clsm_core_caller *at, const clsm_core_range *ask,
                         clsm_core_counted *answer) {
    struct seat seat = seat_of(at);
    struct store *store = seat.store;
    if (!store) return CLSM_CORE_NO_HANDLE;
    pthread_mutex_lock(&mock_lock);
    answer->time = range_time(seat);
    answer->keys = count_below(store, ask->first, ask->last, answer->time);
    pthread_mutex_unlock(&mock_lock);
    return CLSM_CORE_OK;
}

static void fill(struct seat seat, const clsm_core_range *ask, clsm_core_row *rows, size_t count,
                 clsm_core_paged *answer) {
    struct store *store = seat.store;
    *answer = (clsm_core_paged){.time = range_time(seat)};
    for (size_t i = place_of(store, ask->first);
         i < store->count && store->entries[i].key <= ask->last; i++) {
        const clsm_core_value *value = value_below(&store->entries[i], answer->time);
        if (!value) continue;
        answer->more = answer->rows == count;
        answer->next = answer->more ? store->entries[i].key : 0;
        if (answer->more) return;
        rows[answer->rows++] = (clsm_core_row){store->entries[i].key, *value};
    }
}

uint32_t clsm_core_page(clsm_core_caller *at, const clsm_core_range *ask, clsm_core_row *rows,
                        size_t count, clsm_core_paged *answer) {
    struct seat seat = seat_of(at);
    if (!seat.store) return CLSM_CORE_NO_HANDLE;
    pthread_mutex_lock(&mock_lock);
    fill(seat, ask, rows, count, answer);
    pthread_mutex_unlock(&mock_lock);
    return CLSM_CORE_OK;
}

/* The same from the end of the range on. */
static void fill_down(struct seat seat, const clsm_core_range *ask, clsm_core_row *rows,
                      size_t count, clsm_core_paged *answer) {
    struct store *store = seat.store;
    size_t at = place_of(store, ask->last);
    *answer = (clsm_core_paged){.time = range_time(seat)};
    if (at < store->count && store->entries[at].key == ask->last) at++;
    while (at-- > 0 && store->entries[at].key >= ask->first) {
        const clsm_core_value *value = value_below(&store->entries[at], answer->time);
        if (!value) continue;
        answer->more = answer->rows == count;
        answer->next = answer->more ? store->entries[at].key : 0;
        if (answer->more) return;
        rows[answer->rows++] = (clsm_core_row){store->entries[at].key, *value};
    }
}

uint32_t clsm_core_page_down(clsm_core_caller *at, const clsm_core_range *ask, clsm_core_row *rows,
                             size_t count, clsm_core_paged *answer) {
    struct seat seat = seat_of(at);
    if (!seat.store) return CLSM_CORE_NO_HANDLE;
    pthread_mutex_lock(&mock_lock);
    fill_down(seat, ask, rows, count, answer);
    pthread_mutex_unlock(&mock_lock);
    return CLSM_CORE_OK;
}
