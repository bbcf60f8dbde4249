/* What a test can make of mock_core.c: each function is for the stores of the whole process. */
#ifndef MOCK_CORE_H
#define MOCK_CORE_H

#include <stdint.h>

enum mock_call { MOCK_WRITE, MOCK_BATCH, MOCK_READ, MOCK_SNAPSHOT, MOCK_FREEZE, MOCK_SWEEP, MOCK_CALLS };

/* The next so many of these calls answer the code, and do nothing; a freeze or a sweep counts only
 * if it has something to do. */
void mock_core_refuse(enum mock_call call, uint32_t code, unsigned times);

/* The next so many of these calls read at a time that is so much lower. */
void mock_core_run_back(enum mock_call call, uint64_t by, unsigned times);

/* How many of these calls were made. */
unsigned mock_core_count(enum mock_call call);

/* Sleeps until so many of these calls were made. */
void mock_core_await(enum mock_call call, unsigned made);

/* The next get, batch or sweep first calls this, once. */
void mock_core_interrupt(enum mock_call call, void (*function)(void *), void *with);

/* Handles take so many bytes more than the header reserves. */
void mock_core_grow_handles(unsigned bytes);

#endif
