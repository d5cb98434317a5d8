/* What the threads of truth.c say of themselves, in memory that stops.c reads while they are stopped. */
#ifndef SAID_H
#define SAID_H

#include <stdatomic.h>
#include <stdbool.h>
#include <stdint.h>

enum { MOST_SPEAKERS = 64, MOST_DEPTH = 64, MOST_MEMBERS = 8, MOST_TASKS = 1 << 18, MOST_REGIONS = 1 << 16 };

/* What a thread does. Its `object` says at what it waits: at a barrier or the end of a region the region, at a taskwait or the end of a
 * taskgroup the task that has to end, and else which critical section or lock. */
enum doing { WORKS, AT_BARRIER, AT_REGION_END, AT_TASKWAIT, AT_TASKGROUP_END, AT_CRITICAL, AT_LOCK, DOINGS };

/* What a thread may be in, one at a time. */
enum held { NOTHING, FIRST_CRITICAL, SECOND_CRITICAL, LOCK };

/* Tasks and regions have numbers from 1 on; 0 stands for none. A program ends before it comes to a number that has no entry. */
struct task_said {
  uint64_t number, generating, region;
  uint64_t group_owner, group_index; /* the innermost group that it was made in */
  bool implicit, final;
  _Atomic bool begun;
  _Atomic int open_groups;
};

struct region_said {
  uint64_t number, enclosing, encountering;
  _Atomic int size, levels, active_levels; /* which each member says alike */
  _Atomic uint64_t member[MOST_MEMBERS];   /* the implicit tasks of those that have begun */
  _Atomic int native[MOST_MEMBERS];
};

/* What one thread says, while it speaks: the thread makes no call that changes it then. */
struct speaker {
  _Atomic bool taken, speaks;
  int native;
  enum doing doing;
  uint64_t object;
  enum held holds;
  int barriers;          /* that it has passed in its innermost region */
  uint64_t processor_ns; /* how long it had run when it said this */
  int depth;             /* the tasks that lie on the thread, the current one last */
  uint64_t task[MOST_DEPTH];
  int number, size, levels, active_levels;
  int threads, dynamic, kind, chunk, device, final, max_active_levels;
};

struct said {
  _Atomic bool over; /* the program is to end */
  _Atomic uint64_t tasks, regions;
  _Atomic long unstarted; /* explicit tasks that were made and don't run yet */
  uint64_t lock;          /* the address of LOCK */
  int processors;
  struct speaker speaker[MOST_SPEAKERS];
  struct task_said task[MOST_TASKS];
  struct region_said region[MOST_REGIONS];
};

/* The environment variable with the number of the file that holds it. */
#define SAID_FILE "TRUTH_FILE"

#endif
