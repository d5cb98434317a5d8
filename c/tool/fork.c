/* A process that is forked. Its records are its own or none, and never those of the process that forked it.
 *
 * Outside of all regions libomp starts anew in the child, when it is next used, with the thread that forked as
 * its initial thread: that is shown from the fork on. In a region nothing is shown of the child, in which the
 * region can't end. A child that is made without these handlers finds zeros in all records, and so does the tool
 * in it: `is_published`. */
#include <pthread.h>

#include "callbacks.h"
#include "inquiries.h"

static _Thread_local bool outside __attribute__((tls_model("initial-exec")));

/* Whether the calling thread is outside of all regions. */
static bool is_outside(void)
{
  struct thread *me = shown_thread();
  word_t *task = me ? current_task(me) : NULL;
  if (!me)
    return true;
  return task && load(task + TK_IMPLICIT) && !*tasks_passed(me)
    && notes_of_region(record_at(load(task + TK_REGION)))->is_initial;
}

static void before_fork(void)
{
  outside = is_outside();
}

static void in_child(void)
{
  if (!published_table())
    return;
  forget_arenas();
  forget_records();
  forbid_inquiries();
  if (!outside)
    return;
  publish_again();
  begin_thread();
  if (self)
    begin_initial_task(self);
}

__attribute__((constructor)) static void watch_forks(void)
{
  pthread_atfork(before_fork, NULL, in_child);
}
