/* Parts of scenarios: what one thread does. A part is given the number of its caller, unless it is
 * told otherwise. */
#ifndef PARTS_H
#define PARTS_H

#include "calls.h"

enum { EPOCH = 4, KEYS = 12, PARTS = 3 };

/* ---- scenarios.c */

extern clsm_snapshot *snapshots[2];

/* Writes so many keys, from 0 on. */
void fill(unsigned count);
void put_once(uint64_t who);
/* Reads a key of a snapshot, and closes it. */
void close_snapshot(uint64_t which);

/* ---- reading.c */

/* Reads of the present; those of many rows in parts. */
void count_all(uint64_t who);
void page_all(uint64_t who);
void page_all_down(uint64_t who);
void get_five(uint64_t who);
void look_once(uint64_t with);
void look_twice(uint64_t with);
void walk_once(uint64_t who);

/* Reads of one moment, each twice as long as it takes to read all keys. */
void scan_once(uint64_t who);
void read_snapshot(uint64_t who);
void read_transaction(uint64_t who);

/* What was read is a condition of what is written. */
void write_if_once(uint64_t who);
void write_if_till_it_is(uint64_t who);
void test_once(uint64_t who);
void transact_once(uint64_t who);
/* Transactions of callers 0 and 1, each of which reads what the other one writes: a key, or the
 * keys of a range. */
void cross(uint64_t who);
void cross_ranges(uint64_t who);

/* ---- seats.c */

/* So many seats are in use. */
void begin_seats(unsigned in_use);
void open_two(void);
void open_of_other(void);
/* These are given their part's number. */
void use_caller(uint64_t part);
void use_snapshots(uint64_t part);
void use_transaction(uint64_t part);
void use_store_snapshot(uint64_t part);

/* Reads of the core may run back between two seats. */
void run_back(void);
void put_and_send(uint64_t who);
void put_and_leave(uint64_t who);
void follow(uint64_t who);
void open_behind(uint64_t who);
void snapshot_behind(uint64_t which);

#endif
