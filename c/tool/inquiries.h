/* What the runtime is asked in a callback: control variables and frames of the task that runs there.
 *
 * OMPT has no callback for a control variable. OpenMP forbids its calls in callbacks; libomp answers these from
 * the record of the current task, without a lock. But omp_get_max_threads makes libomp's team first, where that
 * isn't done yet: so nothing is asked before the first fork. */
#ifndef INQUIRIES_H
#define INQUIRIES_H

#include <omp-tools.h>

#include "records.h"

/* Finds the calls in the object that `lookup` is in, the runtime, and the settings in the environment. */
void find_inquiries(ompt_function_lookup_t lookup);

/* The environment's max-active-levels-var. */
uint64_t initial_active_levels(void);

/* From now on the runtime may be asked. */
void allow_inquiries(void);

/* Nor in a process that was just forked, until its first fork of a team. */
void forbid_inquiries(void);

/* Stores the control variables of the task that runs, as the runtime tells them; the second only where the
 * calls that set them are not all seen, the third there or where the runtime wasn't asked for this task. */
void store_variables(word_t *task);
void renew_variables(word_t *task);
void learn_variables(word_t *task);

/* Those with which an initial task starts. */
void store_initial_variables(word_t *task);

/* Those of the task that made this one. */
void copy_variables(word_t *task, word_t *maker);

/* Those of a member's task, which has a copy of its maker's. The runtime may have changed them at the fork. */
void store_member_variables(word_t *task, word_t *region);

/* Those of a task that starts: its maker had them when it made the task. Where the calls that set variables are
 * seen and there was none since, the maker still has them. Else, or where `asks`, the runtime is asked. */
enum { CHANGE_BITS = 23 };
void inherit_variables(word_t *task, word_t *maker, bool asks, unsigned changes);

/* A call of the program has set a variable of the task that runs. Before the runtime may be asked, `threads` is
 * what omp_set_num_threads set, or 0. */
void change_variables(word_t *task, int threads);

/* max-active-levels-var is one of the address space in the words, and one of each task in libomp. */
void store_active_levels(void);

/* OMPT's word of the task that runs, or NULL where the runtime doesn't tell. */
const ompt_data_t *data_of_running(void);

/* Whether OMI_FRAMES is set, and the runtime is asked for the exit frame of each task as it starts. Else that is 0
 * until the task comes into the runtime. */
extern HIDDEN bool frames_wanted;

/* Stores the frames of the task that runs: where it comes out of the runtime, and where it comes into it. */
static inline void store_exit(word_t *task, const ompt_frame_t *frame)
{
  store(task + TK_EXIT, (uint64_t)(uintptr_t)frame->exit_frame.ptr);
}

static inline void store_enter(word_t *task, const ompt_frame_t *frame)
{
  store(task + TK_ENTER, (uint64_t)(uintptr_t)frame->enter_frame.ptr);
}

/* Where the runtime keeps the frames of the task that runs, or NULL where it doesn't tell. */
const ompt_frame_t *find_frame(struct task_notes *notes);

/* Stores both. The runtime doesn't move them while the task runs. */
static inline void store_frames(word_t *task)
{
  struct task_notes *notes = notes_of_task(task);
  const ompt_frame_t *frame = notes->frame ? notes->frame : find_frame(notes);
  if (frame) {
    store_exit(task, frame);
    store_enter(task, frame);
  }
}

/* The code of the task that runs has ended. */
void clear_frames(word_t *task);

/* The task that runs is back in its own code. */
static inline void leave_runtime(word_t *task)
{
  if (load(task + TK_ENTER))
    store(task + TK_ENTER, 0);
}

#endif
