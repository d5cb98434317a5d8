/* The library in a session over a stopped process, and the identities of what its handles stand for. */
#ifndef PROCESS_H
#define PROCESS_H

#include "../../tests/library.h"

#include <sys/types.h>

/* Opens a session over a process that is stopped. Ends the program where it publishes no records. */
ompd_address_space_handle_t *open_process(pid_t process);
void close_process(ompd_address_space_handle_t *space);

/* The address of a record and its life word. */
struct identity {
  uint64_t address, life;
};

/* Each inquiry about a handle reads the life word of its record first. The identity is zero where that is refused. */
struct identity identity_of_task(ompd_task_handle_t *task);
struct identity identity_of_region(ompd_parallel_handle_t *region);

/* A control variable, by its number in the library's enumeration. Where its value is a list, it is the first of them; where it is refused, the
 * return code below 0. */
enum icv {
  DYN = 1, NTHREADS, RUN_SCHED, DEFAULT_DEVICE, FINAL_TASK, IMPLICIT_TASK, MAX_ACTIVE_LEVELS, DEBUG,
  NUM_PROCS, LEVELS, ACTIVE_LEVELS, TEAM_SIZE, THREAD_NUM
};
ompd_word_t icv_of(void *handle, ompd_scope_t scope, enum icv icv);

/* run-sched-var, which is no one number, by its text: the kind and the chunk. Kind 0 where it is refused or has another form. */
struct schedule {
  unsigned kind, chunk;
};
struct schedule schedule_of(ompd_task_handle_t *task);

/* What no inquiry reads is read as docs/MEMORY_LAYOUT.md places it: the task that encountered a region, which has no address where none did;
 * the owner of the group that a task is in, with the group's number among the owner's; and how many groups the task has open. */
struct identity encountering_of(struct identity region);

struct group_words {
  struct identity owner;
  uint64_t index, open;
};
struct group_words groups_of(struct identity task);

#endif
