/* Untied tasks with which another thread goes on.
 *
 * libomp tells the end of one by the last thread that comes back from one of its parts. Where the thread that ran the
 * last part comes back earlier, it leaves the task without a callback, and goes on with others. So the task is taken
 * off that thread by whichever comes first: the thread at its next callback, or the one that tells the end. Both do it
 * by one exchange of the thread's current task and state, and the record is given back behind both. */
#include "callbacks.h"
#include "debugger.h"

static bool is_resumed(const word_t *task)
{
  return atomic_load_explicit(&notes_of_task(task)->resumed, memory_order_relaxed);
}

/* The runtime, or the thread that ran the task, is done with it. */
static void drop_task(struct thread *me, word_t *task)
{
  if (atomic_fetch_sub_explicit(&notes_of_task(task)->users, 1, memory_order_acq_rel) == 1)
    release_task(me, task);
}

/* Shows a thread on the task below this one, where it is shown on this one. Of two threads that do this one succeeds.
 * To the other one the notes may be those of the record's next life already, and it makes no use of them. */
static bool swap_off(word_t *thread, word_t *task)
{
  struct task_notes *notes = notes_of_task(task);
  union pair left = {{atomic_load_explicit(&notes->below, memory_order_relaxed),
                      atomic_load_explicit(&notes->state_below, memory_order_relaxed)}};
  union pair shown = shown_by(thread);
  while (shown.words[0] == address_of(task)) {
    if (swap_pair(thread + TH_CUR, shown, left))
      return true;
    shown = shown_by(thread);
  }
  return false;
}

void take_off_another(struct thread *me, word_t *task)
{
  store(task + TK_SCHEDULING, 0); /* before: the task below may end as soon as it is shown */
  if (swap_off(record_at(load(task + TK_THREAD)), task))
    drop_task(me, task);
}

void end_elsewhere(struct thread *me, word_t *task)
{
  if (!task)
    return;
  ompd_bp_task_end();
  take_off_another(me, task);
  drop_task(me, task);
}

/* Whether the word is that of the task that lies on this thread above all others: its current one, or one without a
 * record on that. */
static bool lies_on_top(struct thread *me, union data_word word)
{
  if (holds(word) == A_STATE)
    return word.passed.thread == me->index + 1;
  return !word.value || record_of(word) == current_task(me);
}

/* Whether the current task is the one that runs, so that none without a record stands on it. */
static bool is_the_current(struct thread *me, word_t *task, union data_word running)
{
  return load(task + TK_IMPLICIT) ? !running.value && !*regions_passed(me) : record_of(running) == task;
}

void take_off_left(struct thread *me, union data_word before, union data_word after)
{
  word_t *task = running_task(me);
  while (task && is_resumed(task) && task != record_of(before) && task != record_of(after)) {
    if (swap_off(me->record, task)) {
      store(task + TK_SCHEDULING, 0);
      drop_task(me, task);
    }
    task = running_task(me);
  }
  task = current_task(me);
  if (task && is_the_current(me, task, lies_on_top(me, before) ? before : after))
    notes_of_task(task)->passed = 0;
}

bool ran_elsewhere(struct thread *me, union data_word word)
{
  word_t *task = record_of(word);
  if (holds(word) == A_STATE)
    return word.passed.thread != (me ? me->index + 1 : 0);
  return task && is_resumed(task) && !(me && running_task(me) == task);
}
