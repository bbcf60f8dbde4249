/* A scheduler for tests: the threads of a library and of a scenario take turns. scheduler.c says
 * how they do, search.c which schedules are played. */
#ifndef SCHEDULER_H
#define SCHEDULER_H

#include <stdbool.h>
#include <stdint.h>
#include <time.h>

/* ---- What scheduled.h puts in place of pthreads and of the clock. Each call is a step, whose name
 * it is given. */

/* A lock, a condition, or a semaphore. */
struct scheduled {
    unsigned count; /* of a lock: the number of the thread that has it plus 1, or 0; posts */
    bool is_open;
};

int scheduler_open(struct scheduled *at, unsigned count);
int scheduler_close(struct scheduled *at);

/* The running thread is about to make a step that others may see. */
void scheduler_point(const char *step);

int scheduler_lock(struct scheduled *lock, const char *step);
int scheduler_try_lock(struct scheduled *lock, const char *step);
int scheduler_unlock(struct scheduled *lock, const char *step);
int scheduler_wait(struct scheduled *condition, struct scheduled *lock,
                   const struct timespec *until_or_null, const char *step);
int scheduler_wake(struct scheduled *condition, unsigned most, const char *step);
int scheduler_take(struct scheduled *semaphore, const char *step);
int scheduler_post(struct scheduled *semaphore, const char *step);

int scheduler_create(unsigned *number, void *(*start)(void *), void *with);
int scheduler_name(unsigned number, const char *name);
int scheduler_join(unsigned number, const char *step);
int scheduler_let_cancel(int state, int *before);

/* Others run first. */
int scheduler_yield(const char *step);
int scheduler_sleep(const struct timespec *time, const char *step);
void scheduler_pause(const char *step);
int scheduler_clock(struct timespec *at);

/* ---- For scenarios */

/* How many nanoseconds pass from one look at the clock to the next one, and whether a wait with an
 * end may come to it. */
void scheduler_set_time(uint64_t nanoseconds, bool ends_waits);
/* Starts a thread, which runs once the caller waits. */
unsigned scheduler_start(const char *name, void *(*start)(void *), void *with);
/* Lets all other threads run until none of them can go on. */
void scheduler_settle(void);
/* Lets the threads that were started so run to their ends, as the schedule tells. */
void scheduler_play(void);
/* A thread that is cancelled ends where it waits, if it lets that be; or where it tests that. */
void scheduler_cancel(unsigned number);
void scheduler_test_cancel(void);
/* Ends the program: something is wrong. */
_Noreturn void scheduler_fail(const char *what);

/* Runs a scenario from a clean start to an end that leaves nothing. */
void scheduler_run(void (*scenario)(void));

/* ---- The search */

/* How far schedules differ from the usual one: by so many switches away from a thread that could go
 * on, by so many other choices where it could not, by so many of both; and how many are random. */
struct bounds {
    unsigned switches, choices, both;
    uint64_t seeds;
};

/* Plays all schedules of a scenario within these bounds; answers how many that were. */
uint64_t search_all(const char *name, void (*scenario)(void), struct bounds bounds);
/* Plays one again, in the words with which search_tell told of it. */
void search_again(const char *name, void (*scenario)(void), int count, char **words);

/* What the scheduler asks. At each point: whether the next thread may be another than the usual
 * one; then, which one, of that and a set of others, in bits. A point is free if the running thread
 * cannot go on, or wants others to. */
bool search_asks(bool is_free);
unsigned search_choice(unsigned usual, unsigned others, bool is_free);
/* Whether a thread that waits on a condition may wake by itself now, as pthreads allow. */
bool search_wakes(void);
/* Prints what is wrong, and how to play this schedule again. */
void search_tell(const char *what);

#endif
