/* Prints answered calls as `clsm audit` reads them (docs/AUDIT.md): SEAT TIME and what was done.
 * Lines of one seat must stand in the order of its calls. */
#ifndef RECORD_H
#define RECORD_H

#include "../clsm.h"

#include <inttypes.h>
#include <stdio.h>

static inline void record_words(FILE *to, const uint64_t *words, uint64_t count) {
    for (uint64_t i = 0; i < count; i++) fprintf(to, "%s%" PRIu64, i ? "," : "", words[i]);
    if (count == 0) fputs("none", to);
}

static inline void record_begin(FILE *to, unsigned seat, uint64_t time, const char *deed) {
    fprintf(to, "%u %" PRIu64 " %s", seat, time, deed);
}

static inline void record_number(FILE *to, uint64_t number) { fprintf(to, " %" PRIu64, number); }

static inline void record_put(FILE *to, unsigned seat, uint64_t time, uint64_t key,
                              const uint64_t *words, size_t count) {
    record_begin(to, seat, time, "put");
    record_number(to, key);
    fputc(' ', to);
    record_words(to, words, count);
    fputc('\n', to);
}

static inline void record_remove(FILE *to, unsigned seat, uint64_t time, uint64_t key) {
    record_begin(to, seat, time, "remove");
    record_number(to, key);
    fputc('\n', to);
}

/* A batch, whose first row was written at this time; a row without a value removed its key. */
static inline void record_batch(FILE *to, unsigned seat, uint64_t time, const clsm_row *rows,
                                size_t count) {
    record_begin(to, seat, time, "batch");
    for (size_t i = 0; i < count; i++) {
        record_number(to, rows[i].key);
        fputc('=', to);
        record_words(to, rows[i].value.words, rows[i].value.length);
    }
    fputc('\n', to);
}

/* A read, `get` of a caller or `getat` of a snapshot, that found this value. */
static inline void record_read(FILE *to, unsigned seat, uint64_t time, const char *deed,
                               uint64_t key, const clsm_value *value) {
    record_begin(to, seat, time, deed);
    record_number(to, key);
    fputc(' ', to);
    record_words(to, value->words, value->length);
    fputc('\n', to);
}

/* An add, a put if absent or a replacement, which answered this code. */
static inline void record_change(FILE *to, unsigned seat, uint64_t time, uint64_t key, int code,
                                 const clsm_changed *changed) {
    record_begin(to, seat, time, "rmw");
    record_number(to, key);
    fputc(' ', to);
    record_words(to, changed->before.words, changed->before.length);
    fputc(' ', to);
    if (code == CLSM_KEPT) fputs("keep", to);
    else record_words(to, changed->after.words, changed->after.length);
    fputc('\n', to);
}

static inline void record_rows(FILE *to, const clsm_row *rows, uint64_t count) {
    for (uint64_t i = 0; i < count; i++) {
        record_number(to, rows[i].key);
        fputc('=', to);
        record_words(to, rows[i].value.words, rows[i].value.length);
    }
}

/* A page of a caller, or of a snapshot while that is open. */
static inline void record_page(FILE *to, unsigned seat, uint64_t time, uint64_t first,
                               uint64_t last, size_t room, const clsm_row *rows,
                               const clsm_page_end *end) {
    record_begin(to, seat, time, "page");
    record_number(to, first);
    record_number(to, last);
    record_number(to, room);
    record_rows(to, rows, end->rows);
    if (end->more) {
        fputs(" more", to);
        record_number(to, end->next);
    }
    fputc('\n', to);
}

/* All rows of a scan, which was opened by the caller of this seat at this time. */
static inline void record_scan(FILE *to, unsigned seat, uint64_t time, uint64_t first,
                               uint64_t last, const clsm_row *rows, uint64_t count) {
    record_begin(to, seat, time, "scan");
    record_number(to, first);
    record_number(to, last);
    record_rows(to, rows, count);
    fputc('\n', to);
}

/* `snap` or `close` of a snapshot. */
static inline void record_snapshot(FILE *to, unsigned seat, uint64_t time, const char *deed) {
    record_begin(to, seat, time, deed);
    fputc('\n', to);
}

#endif
