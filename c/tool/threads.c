/* Threads that begin and end. */
#include "callbacks.h"
#include "debugger.h"

void begin_thread(void)
{
  if (!take_thread())
    return;
  word_t *record = self->record;
  store(record + TH_CUR, 0);
  store(record + TH_STATE, state_code(ompt_state_idle, 0));
  store(record + TH_NATIVE, native_of_this(self->index));
  if (!load(record + TH_LIFE))
    store(record + TH_LIFE, 1);
  ompd_bp_thread_begin();
}

/* A thread that has a record is that of a process which was forked: fork.c has begun it. */
void on_thread_begin(ompt_thread_t type, ompt_data_t *data)
{
  (void)type, (void)data;
  if (is_published() && !self)
    begin_thread();
}

/* The record stays begun, for a task may still name it, but nobody finds it by an id. Another thread may have it. */
void on_thread_end(ompt_data_t *data)
{
  (void)data;
  struct thread *me = shown_thread();
  if (!me)
    return;
  ompd_bp_thread_end();
  store(me->record + TH_CUR, 0);
  store(me->record + TH_STATE, state_code(ompt_state_idle, 0));
  store(me->record + TH_NATIVE, native_of_unused(me->index));
  give_back_thread();
}
