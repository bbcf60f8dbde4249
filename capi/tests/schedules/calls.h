/* The calls of scenarios, on one store. Each is checked to answer OK or one of some codes, a set,
 * at a time that does not run back, and is noted: in the end one map explains all. */
#ifndef CALLS_H
#define CALLS_H

#include "scheduled.h"

/* A set of codes. */
#define OR(code) (1ULL << CLSM_##code)

extern clsm_store *the_store;
extern clsm_caller *callers[CLSM_SEATS];

/* The core does what it is asked to. */
void plan_nothing(void);
/* Opens the store, with so many callers. */
void open_store(const clsm_options *options, unsigned count);
/* Closes all that is left, where all answered writes are found and all notes are explained. */
void close_store(void);
/* Nobody runs now: nobody waits, and a store with a thread has merged all but less than half of an
 * epoch. */
void check_quiet(void);

void expect(bool holds, const char *what);
/* Checks the answer of a call that is named, and hands it on. */
int expect_code(int code, uint64_t codes, const char *call);

/* ---- Notes, of which the end finds whether one map explains them all */

/* What was written at a time; and what was read there, or is known to have been something else. */
void note_write(uint64_t time, uint64_t key, uint64_t value);
void note_read(uint64_t time, uint64_t key, uint64_t value);
void note_other(uint64_t time, uint64_t key, uint64_t value);
/* These rows are all that the keys from first on and below the end had at a time. */
void note_rows(uint64_t time, const clsm_row *rows, uint64_t count, uint64_t first, uint64_t end);
/* So many keys had a value. */
void note_count(uint64_t time, uint64_t keys);
/* A call that was answered took so many times, none if it is a read, behind what was seen. */
void check_time(unsigned who, uint64_t seen, uint64_t took);
/* One that nobody has written. */
uint64_t new_value(void);

/* ---- Calls, by the caller of this number. A put writes a value that no other one does. */

int put(unsigned who, uint64_t key, uint64_t codes);
int try_put(unsigned who, uint64_t key, uint64_t codes);
int removed(unsigned who, uint64_t key, uint64_t codes);
int batch(unsigned who, uint64_t first, size_t count, uint64_t codes);
/* A range of one key: a page, and a batch if that found the key. */
int remove_range(unsigned who, uint64_t key, uint64_t codes);
/* Reads two keys at one time, and writes both if they still have what was read, or only tests it.
 */
int batch_if(unsigned who, uint64_t first, bool is_write, uint64_t codes);
/* The same by a transaction, until it is written or refused. */
int transact(unsigned who, uint64_t first, uint64_t codes);
int add(unsigned who, uint64_t key, uint64_t codes);
void get(unsigned who, uint64_t key);
/* Reads five keys at one time. */
void get_many(unsigned who);
uint64_t count_keys(unsigned who);
/* Reads all rows at once. */
void page(unsigned who);
void page_down(unsigned who);

/* Null where that is refused. */
clsm_caller *open_caller(uint64_t codes);
clsm_snapshot *open_snapshot(clsm_caller *caller_or_null, uint64_t codes);
/* Reads a key of it, and closes it. */
void read_and_close(clsm_snapshot *snapshot);

int sweep(uint64_t codes);
/* Reads the statistics, which cannot be everything. */
void look(void);
/* No write has waited for room. */
void expect_no_waits(void);
/* What was left of the last epoch is reserved for batches only now that it is frozen. */
void reserve_late(void);

#endif
