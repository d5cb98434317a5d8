/* The callbacks of OMPT, by what they tell of. */
#ifndef CALLBACKS_H
#define CALLBACKS_H

#include <omp-tools.h>

#include "codes.h"
#include "inquiries.h"
#include "records.h"

/* OMPT's word of a task or region. Of an implicit task it is left 0. */
enum holds {
  A_RECORD, /* its address, or 0 */
  A_TICKET, /* all that the record needs, of a task that has not started */
  A_STATE, /* that of the thread below a task, or nothing: no record was free */
  NOTHING /* of a task that waits to be started or resumed without a record, or has ended */
};

union data_word {
  uint64_t value;
  struct {
    uint64_t holds : 2, is_final : 1, function : 16, maker : 18; /* `function_number`, `place_of_task` */
    uint64_t group : 3; /* how many groups the maker had open */
    uint64_t asks : 1, changes : CHANGE_BITS; /* see `inherit_variables` */
  } ticket;
  struct {
    uint64_t holds : 2, state : 16;
    uint64_t thread : 8; /* the index plus 1 of the one that runs it, or 0 where that has no record */
  } passed;
};

static inline union data_word word_of(const ompt_data_t *data)
{
  return (union data_word){.value = data ? data->value : 0};
}

static inline enum holds holds(union data_word word)
{
  return (enum holds)word.ticket.holds;
}

/* The record that a data word has the address of, else NULL. */
static inline word_t *record_of(union data_word word)
{
  return holds(word) == A_RECORD ? record_at(word.value) : NULL;
}

/* threads.c */
void on_thread_begin(ompt_thread_t type, ompt_data_t *data);
void on_thread_end(ompt_data_t *data);

/* Gives the calling thread a record, where there is one, and shows it. */
void begin_thread(void);

/* regions.c */
void on_parallel_begin(ompt_data_t *task_data, const ompt_frame_t *frame, ompt_data_t *region_data,
                       unsigned requested, int flags, const void *code);
void on_parallel_end(ompt_data_t *region_data, ompt_data_t *task_data, int flags, const void *code);
void on_implicit_task(ompt_scope_endpoint_t endpoint, ompt_data_t *region_data, ompt_data_t *task_data,
                      unsigned size, unsigned number, int flags);

/* Begins the initial task of a thread, in a region of its own. */
void begin_initial_task(struct thread *me);

/* tasks.c */
void on_task_create(ompt_data_t *maker_data, const ompt_frame_t *frame, ompt_data_t *data, int flags,
                    int has_dependences, const void *code);
void on_task_schedule(ompt_data_t *prior_data, ompt_task_status_t status, ompt_data_t *next_data);

/* untied.c: takes off the thread what it has left without a callback. `before` and `after` are the tasks that it ran
 * when it made this callback, and runs behind it. */
void take_off_left(struct thread *me, union data_word before, union data_word after);

/* Whether the last part of a task, of which this thread tells the end, ran on another thread. */
bool ran_elsewhere(struct thread *me, union data_word word);

/* The end of such a task's code; and that of the task, which is NULL for one without a record. */
void take_off_another(struct thread *me, word_t *task);
void end_elsewhere(struct thread *me, word_t *task);

/* The calling thread where it is shown, or NULL: in a callback that tells the task which runs there, and in one that
 * doesn't. */
static inline struct thread *thread_of(const ompt_data_t *running)
{
  struct thread *me = shown_thread();
  if (me && me->resumes)
    take_off_left(me, word_of(running), word_of(running));
  return me;
}

static inline struct thread *thread_of_call(void)
{
  struct thread *me = shown_thread();
  return me && me->resumes ? thread_of(data_of_running()) : me;
}

/* waits.c */
void on_sync_region(ompt_sync_region_t kind, ompt_scope_endpoint_t endpoint, ompt_data_t *region_data,
                    ompt_data_t *task_data, const void *code);
void on_sync_region_wait(ompt_sync_region_t kind, ompt_scope_endpoint_t endpoint, ompt_data_t *region_data,
                         ompt_data_t *task_data, const void *code);
void on_mutex_acquire(ompt_mutex_t kind, unsigned hint, unsigned implementation, ompt_wait_id_t wait_id,
                      const void *code);
void on_mutex_acquired(ompt_mutex_t kind, ompt_wait_id_t wait_id, const void *code);
void on_nest_lock(ompt_scope_endpoint_t endpoint, ompt_wait_id_t wait_id, const void *code);

/* The current task waits, and goes on. */
void begin_wait(struct thread *me, uint64_t state);
void end_wait(struct thread *me);

static inline void enter_state(struct thread *me, uint64_t state, uint64_t wait_id)
{
  store(me->record + TH_STATE, state_code(state, wait_id));
}

/* The state in which the current task's own code runs, and whether a state is one of these. */
void enter_work(struct thread *me);
static inline bool is_work(uint64_t state)
{
  return state == state_code(ompt_state_work_parallel, 0) || state == state_code(ompt_state_work_serial, 0);
}

#endif
