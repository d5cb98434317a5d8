/* How the threads of truth.c say what they do and know. */
#ifndef SPEAKING_H
#define SPEAKING_H

#include "said.h"

/* Maps the memory that the other process reads. Ends the program where there is none. */
struct said *open_said(void);

/* A thread that OpenMP didn't make begins, with the initial task of a region of its own, and ends. */
void begin_initial(void);
void end_initial(void);

/* The number of a region that the current task is to fork, and what that task's thread calls behind the region. */
uint64_t new_region(void);
void end_region(void);

/* A thread begins as a member of a region, and goes to the region's end: its last call there. */
void begin_member(uint64_t region);
void end_member(uint64_t region);

/* The number of an explicit task that the current task is to make. A thread begins the task, and ends it. */
uint64_t new_task(bool final);
void begin_task(uint64_t number);
void end_task(void);

/* The first call in a taskgroup, and the first one behind it. */
void begin_group(void);
void end_group(void);

/* Runs code of its own for so many microseconds, and says so; inside of a critical section or a lock; or until another thread runs a task. */
void work(unsigned microseconds);
void work_in(enum held holds, unsigned microseconds);
void work_until_begun(uint64_t task);

/* Says that the thread is to wait, and that it doesn't any more; the latter of a barrier. */
void begin_wait(enum doing doing, uint64_t object);
void end_wait(void);
void end_barrier(void);

/* A random number below a bound, by a sequence of this thread's own. */
unsigned below(unsigned bound);

#endif
