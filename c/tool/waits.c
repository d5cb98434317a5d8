/* States of threads: what they wait for, and open task groups. */
#include "callbacks.h"

void enter_work(struct thread *me)
{
  word_t *task = current_task(me);
  uint64_t alone = me->passed_tasks ? ompt_state_work_parallel : ompt_state_idle;
  enter_state(me, task ? notes_of_task(task)->state_of_work : alone, 0);
}

void begin_wait(struct thread *me, uint64_t state)
{
  word_t *task = running_task(me);
  if (task) {
    renew_variables(task);
    store_frames(task);
  }
  enter_state(me, state, 0);
}

void end_wait(struct thread *me)
{
  word_t *task = running_task(me);
  if (task)
    leave_runtime(task);
  enter_work(me);
}

static uint64_t state_of_wait(ompt_sync_region_t kind)
{
  switch (kind) {
  case ompt_sync_region_barrier_explicit:
    return ompt_state_wait_barrier_explicit;
  case ompt_sync_region_barrier_implicit:
    return ompt_state_wait_barrier_implicit;
  case ompt_sync_region_barrier_implicit_workshare:
    return ompt_state_wait_barrier_implicit_workshare;
  case ompt_sync_region_barrier_implicit_parallel:
    return ompt_state_wait_barrier_implicit_parallel;
  case ompt_sync_region_barrier_implementation:
    return ompt_state_wait_barrier_implementation;
  case ompt_sync_region_barrier_teams:
    return ompt_state_wait_barrier_teams;
  case ompt_sync_region_taskwait:
    return ompt_state_wait_taskwait;
  case ompt_sync_region_taskgroup:
    return ompt_state_wait_taskgroup;
  default:
    return ompt_state_wait_barrier;
  }
}

/* The barrier behind which a region is over. The code of the member's task has ended before it; a worker may leave it
 * when its task is gone. */
static bool ends_region(ompt_sync_region_t kind)
{
  return kind == ompt_sync_region_barrier_implicit_parallel || kind == ompt_sync_region_barrier_teams;
}

static void wait_for_the_end(struct thread *me, ompt_sync_region_t kind, ompt_scope_endpoint_t endpoint)
{
  bool begins = endpoint == ompt_scope_begin;
  word_t *task = begins ? running_task(me) : NULL;
  if (task)
    clear_frames(task);
  enter_state(me, begins ? state_of_wait(kind) : ompt_state_overhead, 0);
}

void on_sync_region_wait(ompt_sync_region_t kind, ompt_scope_endpoint_t endpoint, ompt_data_t *region_data,
                         ompt_data_t *task_data, const void *code)
{
  (void)region_data, (void)code;
  struct thread *me = thread_of(task_data);
  if (!me || kind == ompt_sync_region_reduction)
    return;
  if (ends_region(kind))
    wait_for_the_end(me, kind, endpoint);
  else if (endpoint == ompt_scope_begin)
    begin_wait(me, state_of_wait(kind));
  else
    end_wait(me);
}

/* Of a task's open groups the words have room for four. Further ones are only counted. */
void on_sync_region(ompt_sync_region_t kind, ompt_scope_endpoint_t endpoint, ompt_data_t *region_data,
                    ompt_data_t *task_data, const void *code)
{
  (void)region_data, (void)code;
  struct thread *me = kind == ompt_sync_region_taskgroup ? thread_of(task_data) : NULL;
  word_t *task = me ? running_task(me) : NULL;
  if (!task)
    return;
  struct task_notes *notes = notes_of_task(task);
  uint64_t open = load(task + TK_OPEN);
  if (endpoint == ompt_scope_begin) {
    if (open < MOST_GROUPS)
      store(task + TK_OPEN, open + 1);
    else
      notes->deeper_groups++;
  } else if (notes->deeper_groups)
    notes->deeper_groups--;
  else if (open)
    store(task + TK_OPEN, open - 1);
}

static bool waits(ompt_mutex_t kind)
{
  return kind != ompt_mutex_test_lock && kind != ompt_mutex_test_nest_lock;
}

void on_mutex_acquire(ompt_mutex_t kind, unsigned hint, unsigned implementation, ompt_wait_id_t wait_id,
                      const void *code)
{
  (void)hint, (void)implementation, (void)code;
  struct thread *me = thread_of_call();
  if (!me || !waits(kind))
    return;
  enter_state(me,
              kind == ompt_mutex_critical  ? ompt_state_wait_critical
              : kind == ompt_mutex_atomic  ? ompt_state_wait_atomic
              : kind == ompt_mutex_ordered ? ompt_state_wait_ordered
                                           : ompt_state_wait_lock,
              wait_id);
}

void on_mutex_acquired(ompt_mutex_t kind, ompt_wait_id_t wait_id, const void *code)
{
  (void)wait_id, (void)code;
  struct thread *me = thread_of_call();
  if (me && waits(kind))
    enter_work(me);
}

/* The thread has the lock already, and sets it once more. */
void on_nest_lock(ompt_scope_endpoint_t endpoint, ompt_wait_id_t wait_id, const void *code)
{
  (void)wait_id, (void)code;
  struct thread *me = thread_of_call();
  if (me && endpoint == ompt_scope_begin)
    enter_work(me);
}
