/* What stands between a test and pthreads (between.c). Each function is for the whole process. */
#ifndef BETWEEN_H
#define BETWEEN_H

/* The next so many threads are not started. */
void between_refuse_threads(unsigned count);

/* Returns once so many threads sleep on conditions or wait for the end of another one. */
void between_await_sleepers(unsigned count);

/* How often threads called sched_yield, and how often one came back from a sleep on a condition. */
unsigned long between_yields(void);
unsigned long between_wakes(void);

#endif
