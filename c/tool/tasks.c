/* Explicit tasks: made, started, suspended, resumed and ended. */
#include "callbacks.h"
#include "debugger.h"

static void hold_nothing(ompt_data_t *data)
{
  data->value = (union data_word){.ticket = {.holds = NOTHING}}.value;
}

void on_task_create(ompt_data_t *maker_data, const ompt_frame_t *frame, ompt_data_t *data, int flags,
                    int has_dependences, const void *code)
{
  (void)has_dependences;
  struct thread *me = thread_of(maker_data);
  if (flags & ompt_task_taskwait) {
    if (me)
      begin_wait(me, ompt_state_wait_taskwait); /* a taskwait with dependences */
    return;
  }
  if (flags & (ompt_task_initial | ompt_task_implicit))
    return;
  word_t *maker = me ? current_task(me) : NULL;
  if (!maker) {
    hold_nothing(data);
    return;
  }
  struct task_notes *notes = notes_of_task(maker);
  bool asks = notes->passed; /* a task without a record makes it */
  if (!asks && frame) {
    notes->frame = frame;
    store_exit(maker, frame);
    if (flags & ompt_task_undeferred)
      store_enter(maker, frame);
  }
  hold_task(notes);
  data->value = (union data_word){.ticket = {
    .holds = A_TICKET, .is_final = (flags & ompt_task_final) != 0, .group = (unsigned)load(maker + TK_OPEN),
    .function = function_number(code), .maker = place_of_task(maker), .asks = asks,
    .changes = atomic_load_explicit(&notes->changes, memory_order_relaxed)}}.value;
}

/* Puts a task on the thread's current one. */
static void put_on(struct thread *me, word_t *task)
{
  struct task_notes *notes = notes_of_task(task);
  word_t *below = current_task(me);
  store(task + TK_NUMBER, below ? load(below + TK_NUMBER) : 0);
  store(task + TK_THREAD, address_of(me->record));
  store(task + TK_SCHEDULING, address_of(below));
  atomic_store_explicit(&notes->below, address_of(below), memory_order_relaxed);
  atomic_store_explicit(&notes->state_below, (uint16_t)load(me->record + TH_STATE), memory_order_relaxed);
  store(me->record + TH_CUR, address_of(task));
  enter_state(me, notes->state_of_work, 0);
  ompd_bp_task_begin();
}

/* A task is resumed by a thread, which has a record or not. */
static void resume(struct thread *me, word_t *task)
{
  struct task_notes *notes = notes_of_task(task);
  notes->suspended = false;
  atomic_store_explicit(&notes->resumed, true, memory_order_relaxed);
  atomic_store_explicit(&notes->users, me ? 2 : 1, memory_order_relaxed);
  if (me)
    put_on(me, task);
}

/* A task without a record stands on the thread's current one, which is shown instead; but the state is true. */
static void pass_over(struct thread *me, ompt_data_t *data)
{
  uint64_t state = load(me->record + TH_STATE);
  data->value = (union data_word){.passed = {.holds = A_STATE, .state = (uint16_t)state,
                                             .thread = (uint8_t)(me->index + 1)}}.value;
  ++*tasks_passed(me);
  enter_work(me);
}

/* Fills the record of a task that starts. Nothing leads to it before `put_on`. Its group is the maker's innermost that
 * was open, of which the fourth stands for further ones, or else that of the maker itself. */
static void fill_task(word_t *task, word_t *maker, union data_word word)
{
  uint64_t group = word.ticket.group;
  *notes_of_task(task) = (struct task_notes){.state_of_work = notes_of_task(maker)->state_of_work};
  store(task + TK_IMPLICIT, 0);
  store(task + TK_REGION, load(maker + TK_REGION));
  store(task + TK_GENERATING, address_of(maker));
  store(task + TK_FUNC, numbered_function(word.ticket.function));
  store(task + TK_FINAL, word.ticket.is_final);
  store(task + TK_TOOL, 0);
  store(task + TK_EXIT, 0);
  store(task + TK_ENTER, 0);
  store(task + TK_GROUP, group ? address_of(maker) + group - 1 : load(maker + TK_GROUP));
  store(task + TK_OPEN, 0);
  inherit_variables(task, maker, word.ticket.asks, word.ticket.changes);
  if (frames_wanted) {
    store_frames(task);
    leave_runtime(task);
  }
}

static void start_task(struct thread *me, ompt_data_t *data, union data_word word)
{
  word_t *maker = task_at(word.ticket.maker), *task = take_task(me);
  if (!task) {
    release_maker(me, maker);
    pass_over(me, data);
    return;
  }
  fill_task(task, maker, word);
  data->ptr = task;
  put_on(me, task);
}

/* A thread without a record runs the task: it is not shown where it runs. */
static void start_unshown(ompt_data_t *data, union data_word word)
{
  if (holds(word) == A_TICKET)
    release_maker(NULL, task_at(word.ticket.maker));
  if (record_of(word))
    resume(NULL, record_of(word));
  else
    data->value = (union data_word){.passed = {.holds = A_STATE}}.value;
}

static void start_or_resume(struct thread *me, ompt_data_t *data, union data_word word)
{
  if (!me) {
    start_unshown(data, word);
    return;
  }
  if (holds(word) == A_TICKET) {
    start_task(me, data, word);
    return;
  }
  me->resumes = true;
  if (record_of(word))
    resume(me, record_of(word));
  else
    pass_over(me, data);
}

/* The thread goes back to the task below. */
static void take_off(struct thread *me, word_t *task)
{
  struct task_notes *notes = notes_of_task(task);
  word_t *below = record_at(atomic_load_explicit(&notes->below, memory_order_relaxed));
  uint64_t state = atomic_load_explicit(&notes->state_below, memory_order_relaxed);
  store(me->record + TH_CUR, address_of(below));
  store(me->record + TH_STATE, state);
  store(task + TK_SCHEDULING, 0); /* at once: the task below may end before this one */
  if (below && is_work(state))
    leave_runtime(below);
}

/* The task without a record that stands on the current one is left. */
static void go_back(struct thread *me, union data_word word)
{
  --*tasks_passed(me);
  if (holds(word) == A_STATE)
    store(me->record + TH_STATE, word.passed.state);
  else
    enter_work(me);
}

/* The explicit task that runs on this thread: by the thread's own words, for where serialized regions are nested libomp
 * mixes up OMPT's words of the tasks on a thread's stack. NULL where it is one without a record, or none. */
static word_t *running_explicit(struct thread *me, union data_word word)
{
  word_t *task = me ? running_task(me) : record_of(word);
  return task && !load(task + TK_IMPLICIT) ? task : NULL;
}

/* The task that runs is suspended, or its code has ended but not the task (ompt_task_detach). */
static void leave_task(struct thread *me, ompt_data_t *data, union data_word word, ompt_task_status_t status)
{
  word_t *task = running_explicit(me, word);
  if (status == ompt_task_detach && record_of(word) && ran_elsewhere(me, word)) {
    take_off_another(me, record_of(word));
    notes_of_task(record_of(word))->detached = true;
  } else if (task) {
    struct task_notes *notes = notes_of_task(task);
    if (me)
      take_off(me, task);
    atomic_store_explicit(&notes->users, 1, memory_order_relaxed);
    notes->detached = status == ompt_task_detach;
    notes->suspended = status != ompt_task_detach;
    data->ptr = task;
  } else if (holds(word) == A_STATE) {
    if (me)
      go_back(me, word);
    hold_nothing(data);
  }
}

/* An explicit task that runs has ended, on this thread or on one without a record. */
static void end_running_task(struct thread *me, word_t *task)
{
  if (me) {
    ompd_bp_task_end();
    take_off(me, task);
  }
  release_task(me, task);
}

/* The task that runs has ended, where the word is not that of a record that runs here. */
static void end_unknown_task(struct thread *me, ompt_data_t *data, union data_word word)
{
  word_t *task = running_explicit(me, word);
  if (!task && me && *tasks_passed(me))
    go_back(me, word);
  if (record_of(word) == task || holds(word) == A_STATE)
    hold_nothing(data);
  if (task)
    end_running_task(me, task);
}

/* A task has ended: the one that runs, one that was cancelled before it started or while it was suspended, or one of
 * which another thread ran the last part. */
static void end_task(struct thread *me, ompt_data_t *data, union data_word word)
{
  word_t *task = record_of(word);
  if (me && task && task == running_task(me))
    end_running_task(me, task);
  else if (holds(word) == A_TICKET)
    release_maker(me, task_at(word.ticket.maker));
  else if (task && notes_of_task(task)->suspended)
    release_task(me, task);
  else if (ran_elsewhere(me, word))
    end_elsewhere(me, task);
  else if (holds(word) != NOTHING) {
    end_unknown_task(me, data, word);
    return;
  }
  hold_nothing(data);
}

/* An event was fulfilled, which ends the task where its code has ended before. */
static void end_detached(struct thread *me, ompt_data_t *data, word_t *task)
{
  if (!task || !notes_of_task(task)->detached)
    return;
  end_elsewhere(me, task);
  hold_nothing(data);
}

/* Whether a task is one that waits to be started or resumed. Else it is under way, and gone back to. */
static bool waits_for_a_thread(union data_word word)
{
  word_t *task = record_of(word);
  return task ? notes_of_task(task)->suspended : holds(word) == A_TICKET || holds(word) == NOTHING;
}

/* libomp says ompt_task_cancel of all that it tells of a cancelled group's tasks. */
void on_task_schedule(ompt_data_t *prior_data, ompt_task_status_t status, ompt_data_t *next_data)
{
  if (!is_published())
    return;
  struct thread *me = self;
  union data_word prior = word_of(prior_data), next = word_of(next_data);
  if (status == ompt_taskwait_complete) {
    me = thread_of_call();
    if (me)
      end_wait(me);
    return;
  }
  if (me && me->resumes && next_data)
    take_off_left(me, prior, next);
  if (!next_data)
    end_detached(me, prior_data, record_of(prior));
  else if (status == ompt_task_complete || status == ompt_task_cancel)
    end_task(me, prior_data, prior);
  else if (status != ompt_task_detach && waits_for_a_thread(next))
    start_or_resume(me, next_data, next);
  else
    leave_task(me, prior_data, prior, status);
}
