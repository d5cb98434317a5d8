/* What the files of the adapter share. No name of it leaves the library but those of omp-tools.h and
 * omi_reason.h. */
#ifndef ADAPTER_H
#define ADAPTER_H

#include "omi_c.h"

#pragma GCC visibility push(default)
#include "omi_reason.h"
#include "omp-tools.h"
#pragma GCC visibility pop

/* More words than any inquiry needs: the longest search reads two of each of 64 threads. */
enum { MOST_WORDS = 192 };

/* More bytes than any text of the proved library has. */
enum { TEXT_ROOM = 256 };

enum { WORD_BYTES = sizeof(uint64_t) };

/* The numbers by which the proved library knows control variables that the adapter names. */
enum {
  DYN_VAR = 1,
  NTHREADS_VAR = 2,
  RUN_SCHED_VAR = 3,
  DEFAULT_DEVICE_VAR = 4,
  FINAL_TASK_VAR = 5,
  IMPLICIT_TASK_VAR = 6,
  MAX_ACTIVE_LEVELS_VAR = 7,
  DEBUG_VAR = 8,
  NUM_PROCS_VAR = 9,
  TEAM_SIZE_VAR = 12,
  THREAD_NUM_VAR = 13
};

/* An address space, with its layout table as the proved library judged it. Each of its words lies in the segment of the table. */
struct space {
  ompd_address_space_context_t *context;
  ompd_seg_t segment;
  omi_judged table;
};

/* What a handle stands for: an address space, or an object in it by its record in the target. */
struct handle {
  const struct space *space;
  const void *space_handle;
  omi_object object;
};

/* What is asked about, the words of the target that are known, in the order in which they were asked for, and
 * what the asking came to. They are known for one call alone: behind it the target may run on. */
struct words {
  struct handle of;
  ompd_rc_t rc;
  bool answered; /* the code is the inquiry's own, and not that of a callback */
  size_t count;
  omi_known known[MOST_WORDS];
};

/* session.c: the debugger's callbacks, or NULL while the library isn't initialized; and how often it was. */
extern const ompd_callbacks_t *debugger;
extern uint64_t sessions;

/* lock.c: each call begins with ENTER. So one is done at a time, and a callback that calls the library is
 * answered ompd_rc_error. */
bool enter_library(void);
void leave_library(const bool *entered);

#define ENTER \
  __attribute__((cleanup(leave_library))) const bool entered = enter_library(); \
  if (!entered) \
    return ompd_rc_error

/* heap.c: all memory is the debugger's. */

/* A block that the debugger frees by its own callback. NULL where there is none, for memory_failure. */
void *take_memory(size_t size);

/* A block of the library's, aligned for all that it keeps. NULL where there is none, for memory_failure. */
void *keep_memory(size_t size);

/* Gives such a block back, or all of them. Another block is bad input. */
ompd_rc_t give_back(const void *block);
ompd_rc_t give_all_back(void);

/* A text with a zero byte behind it, which the debugger frees. */
ompd_rc_t hand_out(const uint8_t *text, uint64_t length, const char **to);

/* The code of the first callback for memory that has failed since this was last asked. */
ompd_rc_t memory_failure(void);

/* words.c */

/* Reads the word at an address. Where nothing is mapped it is 0. */
ompd_rc_t read_word(const struct space *space, uint64_t address, omi_known *known);

/* The return code for a code of the proved library, or that of a callback for memory which has failed. */
ompd_rc_t code_of(uint32_t code);

/* Whether to ask again: the code was that of a needed word, which is known now. Else `rc` is the call's. */
bool needs_word(struct words *words, uint32_t code, uint64_t place);

#define TABLE(space) &(space)->table
#define WORDS(words) TABLE((words).of.space), (words).known, (words).count

/* Sets `answer` by an inquiry over WORDS(words), which is asked until it needs no further word. */
#define ASK(words, answer, inquiry) \
  do { \
    (answer) = (inquiry); \
  } while (needs_word(&(words), (answer).code, (answer).place))

/* A number as the proved library takes it. The greatest is no state or variable, and stands for all that have
 * more bits. */
static inline uint32_t narrowed(uint64_t number)
{
  return number < UINT32_MAX ? (uint32_t)number : UINT32_MAX;
}

/* handles.c */

/* What a handle of a kind stands for; the kind is a scope. Stale where it stands for nothing of the kind, and
 * else bad input where the call's other arguments are none. */
ompd_rc_t resolve(const void *handle, ompd_scope_t kind, bool others, struct handle *of);

/* The code for a handle that stands for nothing. */
ompd_rc_t no_handle(void);

/* Makes a handle of an object that was found from another one in its address space. `to` points to a pointer
 * to such a handle. */
ompd_rc_t make_handle(const struct handle *from, ompd_scope_t kind, omi_object object, void *to);

/* Makes a handle of an address space, which is given back where there is none. */
ompd_rc_t make_space_handle(const struct space *space, ompd_address_space_handle_t **to);

#endif
