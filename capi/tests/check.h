/* What all tests share. A test ends with 0 and prints one line, or names the first check that
 * failed. */
#ifndef CHECK_H
#define CHECK_H

#include "../clsm.h"

#include <stdio.h>
#include <stdlib.h>

#define CHECK(holds)                                                                               \
    do {                                                                                           \
        if (!(holds)) {                                                                            \
            fprintf(stderr, "%s:%d: %s\n", __FILE__, __LINE__, #holds);                            \
            exit(1);                                                                               \
        }                                                                                          \
    } while (0)

/* That a call answers this code. */
#define ANSWERS(code, call) check_code(__FILE__, __LINE__, #call, code, call)
#define OK(call)            ANSWERS(CLSM_OK, call)

/* Whether AddressSanitizer is there, which names each call on a closed handle. */
#if defined __SANITIZE_ADDRESS__
#define NAMES_CLOSED true
#elif defined __has_feature
#if __has_feature(address_sanitizer)
#define NAMES_CLOSED true
#endif
#endif
#ifndef NAMES_CLOSED
#define NAMES_CLOSED false
#endif

static inline void check_code(const char *file, int line, const char *call, int wanted, int code) {
    if (code == wanted) return;
    fprintf(stderr, "%s:%d: %s answered %d (%s), not %d\n", file, line, call, code,
            clsm_strerror(code), wanted);
    exit(1);
}

/* A number that the command line gives at this place, or another. */
static inline uint64_t argument(int count, char **texts, int at, uint64_t otherwise) {
    return at < count ? strtoull(texts[at], NULL, 10) : otherwise;
}

static inline int passed(const char *name) {
    printf("ok %s\n", name);
    return 0;
}

#endif
