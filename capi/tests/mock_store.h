/* A store of mock_core.c, and what its merger (mock_merging.c) shares with it. */
#ifndef MOCK_STORE_H
#define MOCK_STORE_H

#include "../core/clsm_core.h"
#include "mock_core.h"

#include <pthread.h>

enum { SEATS = 64, NONE = 0 };

struct version {
    uint64_t time;
    clsm_core_value value;
    struct version *older; /* of the same key; in the free list the next one */
};

struct entry {
    uint64_t key;
    struct version *newest;
};

enum phase { CLEAN, FROZEN, RETIRED };

struct store {
    clsm_core_sizes sizes;
    struct entry *entries; /* by rising key */
    struct version *versions, *unused;
    size_t count;
    uint64_t clock, epoch;     /* the number of the current epoch */
    uint64_t snapshots[SEATS]; /* the time of the seat's snapshot plus 1, or NONE */
    enum phase phase;
    size_t callers_left;
    bool merger_left;
    unsigned handles;
};

/* Held by each call of the core. */
extern pthread_mutex_t mock_lock;

/* The store of a handle, or null. */
struct store *mock_store_of(void *handle);
/* The code that this call is to answer, or OK. */
uint32_t mock_planned(enum mock_call call);
/* Calls the function that the test wants to be called in this one, once. */
void mock_interrupt(enum mock_call call);

#endif
