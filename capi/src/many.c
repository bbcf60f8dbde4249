/* Reads of many keys at one time, by falling key, and of the ends of a range. */
#include "store.h"

/* ---- Many keys */

int clsm_get_many(clsm_caller *caller, const uint64_t *keys, size_t count, clsm_value *values) {
    struct clsm_seat *seat = (struct clsm_seat *)caller;
    clsm_core_time answer;
    int code = clsm_begin(seat, CLSM_AS_CALLER);
    if (code) return code;
    struct clsm_patience patience = CLSM_PATIENCE;
    for (;; clsm_be_patient(&patience)) {
        code = clsm_read_keys(seat, keys, count, values, &answer);
        if (code != CLSM_OK || clsm_is_in_order(seat, answer.time)) break;
    }
    return clsm_end(seat, code);
}

int clsm_snapshot_get_many(clsm_snapshot *snapshot, const uint64_t *keys, size_t count,
                           clsm_value *values) {
    struct clsm_seat *seat = (struct clsm_seat *)snapshot;
    clsm_core_time answer;
    int code = clsm_begin(seat, CLSM_AS_SNAPSHOT);
    if (code) return code;
    return clsm_end(seat, clsm_read_keys(seat, keys, count, values, &answer));
}

/* ---- By falling key */

int clsm_page_down(clsm_caller *caller, uint64_t last, uint64_t first, clsm_row *rows, size_t room,
                   clsm_page_end *end) {
    return clsm_page_of(caller, (struct clsm_span){first, last, true}, rows, room, end);
}

int clsm_snapshot_page_down(clsm_snapshot *snapshot, uint64_t last, uint64_t first, clsm_row *rows,
                            size_t room, clsm_page_end *end) {
    return clsm_snapshot_page_of(snapshot, (struct clsm_span){first, last, true}, rows, room, end);
}

/* ---- The ends of a range */

/* What a page of one row found. */
static int found(int code, const clsm_page_end *end) {
    return code == CLSM_OK && end->rows == 0 ? CLSM_NOT_FOUND : code;
}

static int end_of(clsm_caller *caller, struct clsm_span span, clsm_row *row) {
    clsm_page_end end;
    return found(clsm_page_of(caller, span, row, 1, &end), &end);
}

static int end_at(clsm_snapshot *snapshot, struct clsm_span span, clsm_row *row) {
    clsm_page_end end;
    return found(clsm_snapshot_page_of(snapshot, span, row, 1, &end), &end);
}

int clsm_first(clsm_caller *caller, uint64_t first, uint64_t last, clsm_row *row) {
    return end_of(caller, (struct clsm_span){first, last, false}, row);
}

int clsm_last(clsm_caller *caller, uint64_t first, uint64_t last, clsm_row *row) {
    return end_of(caller, (struct clsm_span){first, last, true}, row);
}

int clsm_snapshot_first(clsm_snapshot *snapshot, uint64_t first, uint64_t last, clsm_row *row) {
    return end_at(snapshot, (struct clsm_span){first, last, false}, row);
}

int clsm_snapshot_last(clsm_snapshot *snapshot, uint64_t first, uint64_t last, clsm_row *row) {
    return end_at(snapshot, (struct clsm_span){first, last, true}, row);
}
