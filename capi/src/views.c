/* Snapshots, and scans, which are snapshots with a place. */
#include "store.h"

#include <stdlib.h>

/* ---- What callers, snapshots and scans have in common */

/* Opens the snapshot of a seat, at a time that is not below what was seen: contracts of the core
 * order only what one seat does, so that is tested. */
static void open_view(struct clsm_seat *seat, uint64_t seen) {
    clsm_core_time answer;
    struct clsm_patience patience = CLSM_PATIENCE;
    atomic_store_explicit(&seat->view, CLSM_OPENING, memory_order_relaxed);
    for (;;) {
        clsm_core_snapshot(&seat->core, &answer);
        if (answer.time >= seen) break;
        clsm_core_close_snapshot(&seat->core, &answer);
        clsm_be_patient(&patience);
    }
    seat->seen = answer.time;
    seat->time = answer.time;
    atomic_store_explicit(&seat->since, clsm_now(), memory_order_relaxed);
    atomic_store_explicit(&seat->view, answer.time + CLSM_VIEWS, memory_order_release);
}

/* Opens the snapshot of a seat that was taken for this caller, for which that is a read. */
static void open_view_of(struct clsm_seat *seat, struct clsm_seat *caller) {
    open_view(seat, caller->seen);
    caller->seen = seat->time;
    caller->time = seat->time;
}

static void close_view(struct clsm_seat *seat) {
    clsm_core_time answer;
    clsm_core_close_snapshot(&seat->core, &answer);
    const uint64_t view = atomic_exchange(&seat->view, 0);
    clsm_tell_closed(seat->store, view);
}

/* Closes a snapshot or a scan: OK; what refuses that. */
static int close_handle(struct clsm_seat *seat, enum clsm_use use) {
    const int refused = clsm_begin_close(seat, use);
    if (refused) return refused;
    close_view(seat);
    clsm_seat_give_home(seat);
    return CLSM_OK;
}

/* ---- Long reads, in parts
 *
 * A read of the core holds its pin throughout, and a merge that is done waits for that. So a long
 * one is made of short ones, all below one snapshot. */

static void read_part(struct clsm_seat *seat, const struct clsm_span *span, clsm_row *rows,
                      size_t room, clsm_core_paged *answer) {
    const clsm_core_range ask = {span->first, span->last};
    clsm_core_row *to = (clsm_core_row *)(void *)rows;
    if (span->falls) clsm_core_page_down(&seat->core, &ask, to, room, answer);
    else clsm_core_page(&seat->core, &ask, to, room, answer);
}

/* Reads a page at the snapshot of the seat. */
static void read_parts(struct clsm_seat *seat, struct clsm_span span, clsm_row *rows, size_t room,
                       clsm_core_paged *answer) {
    uint64_t count = 0;
    do {
        const size_t left = room - (size_t)count;
        const size_t part = left < CLSM_PART_ROWS ? left : CLSM_PART_ROWS;
        read_part(seat, &span, rows + count, part, answer);
        count += answer->rows;
        span = clsm_span_from(span, answer->next);
    } while (answer->more && count < room);
    answer->rows = count;
}

/* Reads a page at the snapshot of the seat, or, if it has none, at one of its own. */
static void read_long(struct clsm_seat *seat, struct clsm_span span, clsm_row *rows, size_t room,
                      clsm_core_paged *answer) {
    const bool has_view = atomic_load(&seat->view) > 0;
    if (!has_view) open_view(seat, seat->seen);
    read_parts(seat, span, rows, room, answer);
    if (!has_view) close_view(seat);
}

int clsm_read_page(struct clsm_seat *seat, struct clsm_span span, clsm_row *rows, size_t room,
                   clsm_core_paged *answer, clsm_page_end *end) {
    clsm_row none = {.key = 0};
    if (!end || (!rows && room > 0)) return CLSM_BAD_POINTER;
    if (room > CLSM_PART_ROWS) read_long(seat, span, rows, room, answer);
    else read_part(seat, &span, rows ? rows : &none, room, answer);
    *end = (clsm_page_end){answer->rows, answer->next, answer->more};
    return CLSM_OK;
}

/* Reads keys at the snapshot of the seat, in parts. */
static void read_keys_in_parts(struct clsm_seat *seat, const clsm_core_key *keys, size_t count,
                               clsm_core_value *values, clsm_core_time *answer) {
    size_t read = 0;
    do {
        const size_t left = count - read;
        const size_t part = left < CLSM_PART_KEYS ? left : CLSM_PART_KEYS;
        clsm_core_get_many_at(&seat->core, keys + read, part, values + read, part, answer);
        read += part;
    } while (read < count);
}

int clsm_read_keys(struct clsm_seat *seat, const uint64_t *keys, size_t count, clsm_value *values,
                   clsm_core_time *answer) {
    clsm_value none;
    if (count > 0 && (!keys || !values)) return CLSM_BAD_POINTER;
    const void *from = count > 0 ? (const void *)keys : &none;
    void *to = count > 0 ? values : &none;
    const bool has_view = atomic_load(&seat->view) > 0;
    if (!has_view && count <= CLSM_PART_KEYS) {
        clsm_core_get_many(&seat->core, from, count, to, count, answer);
        return CLSM_OK;
    }
    if (!has_view) open_view(seat, seat->seen);
    read_keys_in_parts(seat, from, count, to, answer);
    if (!has_view) close_view(seat);
    return CLSM_OK;
}

/* Room for so many rows of a scan, which keeps none, or of a part of a count; if there is no memory
 * for them, the room that was there before, or null. The seat keeps it. */
static clsm_row *room_for(struct clsm_place *place, size_t count) {
    if (place->room >= count) return place->rows;
    clsm_row *rows = malloc(count * sizeof *rows);
    if (!rows) return place->rows;
    free(place->rows);
    place->room = count;
    return place->rows = rows;
}

/* Counts at the snapshot of the seat, in parts; what there is no memory for, in one. */
static uint64_t count_parts(struct clsm_seat *seat, uint64_t first, uint64_t last) {
    clsm_row *rows = room_for(&seat->place, CLSM_COUNT_ROWS);
    clsm_core_paged part = {.more = true, .next = first};
    uint64_t keys = 0;
    while (rows && part.more) {
        const struct clsm_span left = {.first = part.next, .last = last};
        read_part(seat, &left, rows, CLSM_COUNT_ROWS, &part);
        keys += part.rows;
    }
    if (!part.more) return keys;
    const clsm_core_range rest = {part.next, last};
    clsm_core_counted counted;
    clsm_core_count(&seat->core, &rest, &counted);
    return keys + counted.keys;
}

uint64_t clsm_count_keys(struct clsm_seat *seat, uint64_t first, uint64_t last) {
    const bool has_view = atomic_load(&seat->view) > 0;
    if (!has_view) open_view(seat, seat->seen);
    const uint64_t keys = count_parts(seat, first, last);
    if (!has_view) close_view(seat);
    return keys;
}

/* ---- Which snapshots are open */

/* The view of a seat, once it is not just opening. */
static uint64_t view_of(struct clsm_seat *seat) {
    struct clsm_patience patience = CLSM_PATIENCE;
    for (;; clsm_be_patient(&patience)) {
        const uint64_t view = atomic_load(&seat->view);
        if (view != CLSM_OPENING) return view;
    }
}

uint64_t clsm_oldest_view(clsm_store *store) {
    uint64_t oldest = UINT64_MAX;
    for (unsigned i = 0; i < CLSM_SEATS; i++) {
        const uint64_t view = view_of(&store->handles[i].seat);
        if (view > 0 && view < oldest) oldest = view;
    }
    return oldest;
}

bool clsm_has_view(struct clsm_seat *caller) {
    const uint64_t uses = atomic_load(&caller->uses);
    for (unsigned i = 0; i < CLSM_SEATS; i++) {
        struct clsm_seat *seat = &caller->store->handles[i].seat;
        if (atomic_load(&seat->view) > 0 && atomic_load(&seat->home) == caller
            && atomic_load(&seat->home_uses) == uses)
            return true;
    }
    return false;
}

/* ---- Snapshots */

int clsm_snapshot_open(clsm_caller *caller, clsm_snapshot **snapshot) {
    struct clsm_seat *seat, *home = (struct clsm_seat *)caller;
    if (snapshot) *snapshot = NULL;
    int refused = clsm_begin(home, CLSM_AS_CALLER);
    if (refused) return refused;
    if (!snapshot) return clsm_end(home, CLSM_BAD_POINTER);
    seat = clsm_seat_take_for(home, CLSM_AS_SNAPSHOT);
    if (!seat) return clsm_end(home, clsm_note_refusal(home->store, CLSM_NO_SEAT));
    open_view_of(seat, home);
    *snapshot = (clsm_snapshot *)seat;
    return clsm_end(home, CLSM_OK);
}

int clsm_store_snapshot(clsm_store *store, clsm_snapshot **snapshot) {
    uint64_t seen;
    if (snapshot) *snapshot = NULL;
    if (!store || !snapshot) return CLSM_BAD_POINTER;
    struct clsm_seat *seat = clsm_seat_take(store, CLSM_AS_SNAPSHOT, &seen);
    if (!seat) return clsm_note_refusal(store, CLSM_NO_SEAT);
    open_view(seat, seen);
    *snapshot = (clsm_snapshot *)seat;
    return CLSM_OK;
}

void clsm_snapshot_close(clsm_snapshot *snapshot) {
    close_handle((struct clsm_seat *)snapshot, CLSM_AS_SNAPSHOT);
}

void clsm_snapshot_close_at(clsm_snapshot **snapshot) {
    if (!snapshot) return;
    const int code = close_handle((struct clsm_seat *)*snapshot, CLSM_AS_SNAPSHOT);
    if (code != CLSM_IN_USE) *snapshot = NULL;
}

uint64_t clsm_snapshot_time(const clsm_snapshot *snapshot) {
    return snapshot ? snapshot->seat.time : 0;
}

unsigned clsm_snapshot_number(const clsm_snapshot *snapshot) {
    return snapshot ? snapshot->seat.number : CLSM_SEATS;
}

int clsm_snapshot_get(clsm_snapshot *snapshot, uint64_t key, clsm_value *value) {
    struct clsm_seat *seat = (struct clsm_seat *)snapshot;
    const clsm_core_key ask = {key};
    clsm_core_got answer;
    int code = clsm_begin(seat, CLSM_AS_SNAPSHOT);
    if (code) return code;
    code = (int)clsm_core_get_at(&seat->core, &ask, &answer);
    clsm_hand_on(&answer.value, value);
    return clsm_end(seat, code);
}

int clsm_snapshot_count(clsm_snapshot *snapshot, uint64_t first, uint64_t last, uint64_t *keys) {
    struct clsm_seat *seat = (struct clsm_seat *)snapshot;
    int code = clsm_begin(seat, CLSM_AS_SNAPSHOT);
    if (code) return code;
    if (!keys) return clsm_end(seat, CLSM_BAD_POINTER);
    *keys = clsm_count_keys(seat, first, last);
    return clsm_end(seat, CLSM_OK);
}

int clsm_snapshot_page_of(clsm_snapshot *snapshot, struct clsm_span span, clsm_row *rows,
                          size_t room, clsm_page_end *end) {
    struct clsm_seat *seat = (struct clsm_seat *)snapshot;
    clsm_core_paged answer;
    int code = clsm_begin(seat, CLSM_AS_SNAPSHOT);
    if (code) return code;
    return clsm_end(seat, clsm_read_page(seat, span, rows, room, &answer, end));
}

int clsm_snapshot_page(clsm_snapshot *snapshot, uint64_t first, uint64_t last, clsm_row *rows,
                       size_t room, clsm_page_end *end) {
    return clsm_snapshot_page_of(snapshot, (struct clsm_span){first, last, false}, rows, room, end);
}

/* ---- Scans */

/* Puts the seat's place before this range. */
static int begin_place(struct clsm_place *place, uint64_t first, uint64_t last) {
    if (!room_for(place, CLSM_SCAN_ROWS)) return CLSM_MEMORY;
    place->most = CLSM_SCAN_ROWS;
    place->at = 0;
    place->count = 0;
    place->next = first;
    place->last = last;
    place->more = true;
    return CLSM_OK;
}

int clsm_scan_open(clsm_caller *caller, uint64_t first, uint64_t last, clsm_scan **scan) {
    struct clsm_seat *seat, *home = (struct clsm_seat *)caller;
    if (scan) *scan = NULL;
    int refused = clsm_begin(home, CLSM_AS_CALLER);
    if (refused) return refused;
    if (!scan) return clsm_end(home, CLSM_BAD_POINTER);
    seat = clsm_seat_take_for(home, CLSM_AS_SCAN);
    if (!seat) return clsm_end(home, clsm_note_refusal(home->store, CLSM_NO_SEAT));
    refused = begin_place(&seat->place, first, last);
    if (refused) {
        clsm_seat_give_home(seat);
        return clsm_end(home, refused);
    }
    open_view_of(seat, home);
    *scan = (clsm_scan *)seat;
    return clsm_end(home, CLSM_OK);
}

void clsm_scan_close(clsm_scan *scan) { close_handle((struct clsm_seat *)scan, CLSM_AS_SCAN); }

void clsm_scan_close_at(clsm_scan **scan) {
    if (!scan) return;
    const int code = close_handle((struct clsm_seat *)*scan, CLSM_AS_SCAN);
    if (code != CLSM_IN_USE) *scan = NULL;
}

/* Has the next rows of a scan be more, up to a part: each read begins with a search. Where there is
 * no memory for more, they stay as many. */
static void read_more(struct clsm_place *place) {
    const size_t most = place->most * CLSM_SCAN_GROWS;
    const size_t wanted = most < CLSM_PART_ROWS ? most : CLSM_PART_ROWS;
    room_for(place, wanted);
    place->most = wanted < place->room ? wanted : place->room;
}

/* Reads the next rows of the scan: OK; DONE if there is none. */
static int read_on(struct clsm_seat *seat, struct clsm_place *place) {
    clsm_core_paged answer;
    if (!place->more) return CLSM_DONE;
    if (place->count > 0) read_more(place);
    const struct clsm_span left = {.first = place->next, .last = place->last};
    read_part(seat, &left, place->rows, place->most, &answer);
    place->at = 0;
    place->count = (size_t)answer.rows;
    place->next = answer.next;
    place->more = answer.more;
    return place->count > 0 ? CLSM_OK : CLSM_DONE;
}

int clsm_scan_next(clsm_scan *scan, clsm_row *row) {
    struct clsm_seat *seat = (struct clsm_seat *)scan;
    int code = clsm_begin(seat, CLSM_AS_SCAN);
    if (code) return code;
    struct clsm_place *place = &seat->place;
    if (!row) return clsm_end(seat, CLSM_BAD_POINTER);
    if (place->at == place->count) code = read_on(seat, place);
    if (code == CLSM_OK) *row = place->rows[place->at++];
    return clsm_end(seat, code);
}
