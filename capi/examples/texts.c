/* A store of texts: keys and values of any bytes over the map of numbers.
 *
 *     cc texts.c $(pkg-config --cflags --libs clsm) -pthread -o texts && ./texts
 *
 * Texts whose keys have one hash are a chain: they stand one behind another, cut into rows of 64
 * bytes, at the numbers that begin with the hash. Whoever sets a text reads its chain and writes
 * those rows of it that change, in one transaction.
 *
 *     number of a row   hash of the key, 48 bits | place of the row, 16 bits
 *     chain, in bytes   its size, 8 | sizes of key and value, 16 | key | value | next text | ..
 */
#include <clsm.h>

#include <inttypes.h>
#include <pthread.h>
#include <stdatomic.h>
#include <stdio.h>
#include <stdlib.h>
#include <string.h>

enum { WORD = 8, ROW = 8 * WORD, PLACE_BITS = 16 };
enum { HASH_BITS = 4 };     /* so few that chains are long; 48 for use */
enum { MOST = 1024 * ROW }; /* of a chain, up to ROW << PLACE_BITS */

struct bytes {
    const void *at; /* null: no such text */
    size_t size;
};

struct chain {
    uint64_t size;
    unsigned char bytes[MOST];
};

/* The texts of a transaction. */
struct texts {
    clsm_transaction *rows;
    struct chain old, new;
};

static clsm_store *store;
static atomic_int running;

/* Ends the program if a call was refused, as memory may run out. */
static int must(int code) {
    if (code >= CLSM_FULL) {
        fprintf(stderr, "texts: %s\n", clsm_strerror(code));
        exit(1);
    }
    return code;
}

static bool conflicts(clsm_transaction *rows) {
    const int code = clsm_transaction_commit(rows);
    return code == CLSM_CONFLICT || must(code);
}

/* The number of the first row of the key's chain: its hash is FNV-1a. */
static uint64_t place_of(struct bytes key) {
    uint64_t hash = 0xcbf29ce484222325;
    for (size_t i = 0; i < key.size; i++)
        hash = (hash ^ ((const unsigned char *)key.at)[i]) * 0x100000001b3;
    return hash % ((uint64_t)1 << HASH_BITS) << PLACE_BITS;
}

static void read_chain(struct texts *texts, uint64_t place) {
    struct chain *chain = &texts->old;
    clsm_value row;
    chain->size = 0;
    for (size_t at = 0; at == 0 || at < chain->size; at += ROW) {
        if (must(clsm_transaction_get(texts->rows, place + at / ROW, &row))) return;
        if (at == 0) chain->size = row.words[0];
        memcpy(chain->bytes + at, row.words, ROW);
    }
}

/* Writes the rows of the new chain that are not those of the old one. */
static void write_chain(struct texts *texts, uint64_t place) {
    const struct chain *old = &texts->old, *new = &texts->new;
    for (size_t at = 0; at < old->size || at < new->size; at += ROW) {
        clsm_value row = {0};
        const size_t size = new->size < at ? 0 : new->size - at < ROW ? new->size - at : ROW;
        memcpy(row.words, new->bytes + at, size);
        if (size == 0) must(clsm_transaction_remove(texts->rows, place + at / ROW));
        else if (at >= old->size || memcmp(row.words, old->bytes + at, ROW) != 0)
            must(clsm_transaction_put(texts->rows, place + at / ROW, row.words, 8));
    }
}

/* Finds the key in the old chain: where its text begins, with its sizes, or the chain's end. */
static size_t find(const struct texts *texts, struct bytes key, uint64_t sizes[2]) {
    const struct chain *chain = &texts->old;
    size_t at = WORD;
    for (; at < chain->size; at += 2 * WORD + sizes[0] + sizes[1]) {
        memcpy(sizes, chain->bytes + at, 2 * WORD);
        if (sizes[0] == key.size && !memcmp(chain->bytes + at + 2 * WORD, key.at, key.size)) break;
    }
    return at;
}

/* The text of the key, until the next call. */
static struct bytes get(struct texts *texts, struct bytes key) {
    uint64_t sizes[2];
    read_chain(texts, place_of(key));
    const size_t at = find(texts, key, sizes);
    if (at >= texts->old.size) return (struct bytes){NULL, 0};
    return (struct bytes){texts->old.bytes + at + 2 * WORD + sizes[0], sizes[1]};
}

static void append(struct chain *chain, const void *bytes, size_t size) {
    if (size > MOST - chain->size) must(CLSM_BAD_VALUE);
    memcpy(chain->bytes + chain->size, bytes, size);
    chain->size += size;
}

/* Sets the text; none removes it. Whether there was one. */
static bool set(struct texts *texts, struct bytes key, struct bytes text) {
    struct chain *old = &texts->old, *new = &texts->new;
    uint64_t sizes[2] = {0};
    read_chain(texts, place_of(key));
    const size_t at = find(texts, key, sizes), behind = at + 2 * WORD + sizes[0] + sizes[1];
    const bool is_there = at < old->size;
    new->size = 0;
    append(new, old->bytes, at); /* its first word is the size, which is put right below */
    if (is_there) append(new, old->bytes + behind, old->size - behind);
    if (text.at) {
        append(new, (const uint64_t[]){key.size, text.size}, 2 * WORD);
        append(new, key.at, key.size);
        append(new, text.at, text.size);
    }
    if (new->size == WORD) new->size = 0;
    memcpy(new->bytes, &new->size, WORD);
    write_chain(texts, place_of(key));
    return is_there;
}

/* ---- Four threads set texts and count them, while they are read */

enum { THREADS = 4, TEXTS = 100, NAME = 16 };

static const struct bytes COUNT = {"texts", 5}, NONE = {NULL, 0};

static struct bytes name_of(int number, char name[NAME]) {
    return (struct bytes){name, (size_t)snprintf(name, NAME, "text %d", number)};
}

static int count_of(struct bytes text) {
    int count = 0;
    for (size_t i = 0; i < text.size; i++) count = 10 * count + ((const char *)text.at)[i] - '0';
    return count;
}

static struct texts *open_texts(clsm_caller **caller) {
    struct texts *texts = malloc(sizeof *texts);
    if (!texts) must(CLSM_MEMORY);
    must(clsm_caller_open(store, caller));
    must(clsm_transaction_open(*caller, &texts->rows));
    return texts;
}

static void close_texts(struct texts *texts, clsm_caller *caller) {
    clsm_transaction_close(texts->rows);
    clsm_caller_close(caller);
    free(texts);
}

/* Sets every fourth text, and counts it, in one transaction. */
static void *fill(void *own) {
    clsm_caller *caller;
    struct texts *texts = open_texts(&caller);
    char name[NAME], text[4 * TEXTS];
    for (int number = *(int *)own; number < TEXTS; number += THREADS) {
        int size = 0;
        for (int i = 0; i < number; i++)
            size += sprintf(text + size, i == 0 ? "%d" : " %d", number);
        do {
            set(texts, name_of(number, name), (struct bytes){text, (size_t)size});
            char count[NAME];
            const int length = sprintf(count, "%d", count_of(get(texts, COUNT)) + 1);
            set(texts, COUNT, (struct bytes){count, (size_t)length});
        } while (conflicts(texts->rows));
    }
    close_texts(texts, caller);
    atomic_fetch_sub(&running, 1);
    return NULL;
}

/* Reads all texts at one moment, and answers their bytes. There are as many as were counted. */
static size_t look(struct texts *texts, int *count) {
    char name[NAME];
    size_t bytes = 0;
    *count = 0;
    for (int number = 0; number < TEXTS; number++) {
        const struct bytes text = get(texts, name_of(number, name));
        *count += text.at != NULL;
        bytes += text.size;
    }
    if (*count != count_of(get(texts, COUNT))) abort();
    conflicts(texts->rows); /* never, as it has written nothing */
    return bytes;
}

/* Removes all texts at one moment, and one that is not there. How many there were. */
static int clear(struct texts *texts) {
    char name[NAME];
    int removed;
    do {
        removed = set(texts, COUNT, NONE);
        for (int number = 0; number <= TEXTS; number++)
            removed += set(texts, name_of(number, name), NONE);
    } while (conflicts(texts->rows));
    return removed;
}

int main(void) {
    int owns[THREADS] = {0, 1, 2, 3}, count;
    pthread_t threads[THREADS];
    clsm_caller *caller;
    uint64_t left;
    char name[NAME];
    must(clsm_open(NULL, &store));
    struct texts *texts = open_texts(&caller);
    atomic_store(&running, THREADS);
    for (int i = 0; i < THREADS; i++)
        if (pthread_create(&threads[i], NULL, fill, &owns[i])) return 1;
    while (atomic_load(&running) > 0) look(texts, &count);
    for (int i = 0; i < THREADS; i++) pthread_join(threads[i], NULL);
    const size_t bytes = look(texts, &count);
    printf("%d texts of %zu bytes\n", count, bytes);
    const struct bytes seven = get(texts, name_of(7, name));
    printf("%.*s\n", (int)seven.size, (const char *)seven.at);
    const int removed = clear(texts);
    must(clsm_count(caller, 0, UINT64_MAX, &left));
    printf("%d removed, %" PRIu64 " rows left\n", removed, left);
    close_texts(texts, caller);
    return must(clsm_close(store));
}
