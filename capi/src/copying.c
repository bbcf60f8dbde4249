/* Calls that read and then write. Those of many rows read page by page and write batch by batch,
 * and so what they write is of many moments. */
#include "store.h"

#include <stdlib.h>

/* The rows of a page, which are those of a batch. */
struct part {
    size_t room;
    clsm_page_end end;
    clsm_row rows[CLSM_SCAN_ROWS];
};

/* Room for the batches of a store, before this key; or null. */
static struct part *open_part(const clsm_store *store, uint64_t first) {
    enum { BATCHES_OF_EPOCH = 4 }; /* so that other writes find room, too */
    const size_t most = (size_t)store->cells / BATCHES_OF_EPOCH;
    struct part *part = malloc(sizeof *part);
    if (!part) return NULL;
    part->room = most < CLSM_SCAN_ROWS ? most : CLSM_SCAN_ROWS;
    part->end = (clsm_page_end){.next = first, .more = true};
    return part;
}

/* Writes the rows that were read: OK; or what refuses a batch. */
static int write_part(clsm_caller *caller, const struct part *part) {
    if (part->end.rows == 0) return CLSM_OK;
    return clsm_batch(caller, part->rows, (size_t)part->end.rows);
}

/* ---- Removing */

/* Room for the batches of the caller's store, before this key: OK, MEMORY, or what refuses a call. */
static int open_part_of(clsm_caller *caller, uint64_t first, struct part **part) {
    struct clsm_seat *seat = (struct clsm_seat *)caller;
    const int refused = clsm_begin(seat, CLSM_AS_CALLER);
    if (refused) return refused;
    *part = open_part(seat->store, first);
    return clsm_end(seat, *part ? CLSM_OK : CLSM_MEMORY);
}

static int remove_parts(clsm_caller *caller, uint64_t last, struct part *part, uint64_t *removed) {
    int code = CLSM_OK;
    while (part->end.more && code == CLSM_OK) {
        code = clsm_page(caller, part->end.next, last, part->rows, part->room, &part->end);
        if (code != CLSM_OK) break;
        for (uint64_t i = 0; i < part->end.rows; i++) part->rows[i].value.length = 0;
        code = write_part(caller, part);
        if (code == CLSM_OK) *removed += part->end.rows;
    }
    return code;
}

int clsm_remove_range(clsm_caller *caller, uint64_t first, uint64_t last,
                      uint64_t *removed_or_null) {
    uint64_t none, *removed = removed_or_null ? removed_or_null : &none;
    struct part *part = NULL;
    *removed = 0;
    int code = open_part_of(caller, first, &part);
    if (code == CLSM_OK) code = remove_parts(caller, last, part, removed);
    free(part);
    return code;
}

int clsm_clear(clsm_caller *caller, uint64_t *removed_or_null) {
    return clsm_remove_range(caller, 0, UINT64_MAX, removed_or_null);
}

/* ---- Taking out the row at an end of a range */

static const clsm_range_count no_key = {.first = 1, .last = 0};

/* Removes the row, if it is as it was found, and no key that stands before it has a value: OK,
 * KEPT, or what refuses a batch. */
static int take_out(clsm_caller *caller, const clsm_row *found, clsm_range_count before) {
    const clsm_row removal = {.key = found->key};
    return clsm_batch_if(caller, found, 1, &before, 1, &removal, 1, NULL);
}

int clsm_pop_first(clsm_caller *caller, uint64_t first, uint64_t last, clsm_row *row) {
    clsm_row found;
    int code = row ? CLSM_KEPT : CLSM_BAD_POINTER;
    while (code == CLSM_KEPT) {
        code = clsm_first(caller, first, last, &found);
        if (code != CLSM_OK) return code;
        const clsm_range_count below = {.first = first, .last = found.key - 1};
        code = take_out(caller, &found, found.key > first ? below : no_key);
    }
    if (code == CLSM_OK) *row = found;
    return code;
}

int clsm_pop_last(clsm_caller *caller, uint64_t first, uint64_t last, clsm_row *row) {
    clsm_row found;
    int code = row ? CLSM_KEPT : CLSM_BAD_POINTER;
    while (code == CLSM_KEPT) {
        code = clsm_last(caller, first, last, &found);
        if (code != CLSM_OK) return code;
        const clsm_range_count above = {.first = found.key + 1, .last = last};
        code = take_out(caller, &found, found.key < last ? above : no_key);
    }
    if (code == CLSM_OK) *row = found;
    return code;
}

/* ---- Copying */

/* Copies what the snapshot has into a store that nobody else uses: OK; RUN_FULL if that is opened
 * for fewer keys; MEMORY. */
static int copy_parts(clsm_snapshot *from, clsm_caller *to, struct part *part) {
    uint64_t copied = 0;
    int code = CLSM_OK;
    while (part->end.more && code == CLSM_OK) {
        code = clsm_snapshot_page(from, part->end.next, UINT64_MAX, part->rows, part->room,
                                  &part->end);
        copied += part->end.rows;
        if (code == CLSM_OK && copied > to->seat.store->keys) code = CLSM_RUN_FULL;
        if (code == CLSM_OK) code = write_part(to, part);
    }
    return code;
}

static int copy_rows(clsm_store *from, clsm_store *to) {
    clsm_snapshot *snapshot = NULL;
    clsm_caller *caller = NULL;
    struct part *part = open_part(to, 0);
    int code = part ? clsm_store_snapshot(from, &snapshot) : CLSM_MEMORY;
    if (code == CLSM_OK) code = clsm_caller_open(to, &caller);
    if (code == CLSM_OK) code = copy_parts(snapshot, caller, part);
    clsm_caller_close(caller);
    clsm_snapshot_close(snapshot);
    free(part);
    return code;
}

int clsm_copy(clsm_store *from, const clsm_options *options_or_null, clsm_store **to) {
    clsm_store *opened;
    if (to) *to = NULL;
    if (!from || !to) return CLSM_BAD_POINTER;
    int code = clsm_open(options_or_null, &opened);
    if (code != CLSM_OK) return code;
    code = copy_rows(from, opened);
    if (code == CLSM_OK) *to = opened;
    else clsm_close(opened);
    return code;
}
