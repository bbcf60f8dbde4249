/* Walks: rows of a range, page by page, each page of its own moment. */
#include "store.h"

#include <stdlib.h>

struct clsm_walk {
    clsm_caller *caller;
    uint64_t last;
    clsm_page_end end; /* of the page that was read last */
    uint64_t at;       /* the next of its rows */
    clsm_row rows[CLSM_SCAN_ROWS];
};

int clsm_walk_open(clsm_caller *caller, uint64_t first, uint64_t last, clsm_walk **walk) {
    if (walk) *walk = NULL;
    if (!caller || !walk) return CLSM_BAD_POINTER;
    clsm_walk *opened = malloc(sizeof *opened);
    if (!opened) return CLSM_MEMORY;
    opened->caller = caller;
    opened->last = last;
    opened->end = (clsm_page_end){.next = first, .more = true};
    opened->at = 0;
    *walk = opened;
    return CLSM_OK;
}

int clsm_walk_next(clsm_walk *walk, clsm_row *row) {
    if (!walk || !row) return CLSM_BAD_POINTER;
    while (walk->at == walk->end.rows) {
        if (!walk->end.more) return CLSM_DONE;
        int code = clsm_page(walk->caller, walk->end.next, walk->last, walk->rows, CLSM_SCAN_ROWS,
                             &walk->end);
        if (code != CLSM_OK) return code;
        walk->at = 0;
    }
    *row = walk->rows[walk->at++];
    return CLSM_OK;
}

void clsm_walk_close(clsm_walk *walk) { free(walk); }
