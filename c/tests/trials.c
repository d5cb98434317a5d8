#include "trials.h"

#include <string.h>

#define SPACE at->space, ompd_scope_address_space
#define THREAD at->thread, ompd_scope_thread
#define REGION at->region, ompd_scope_parallel
#define TASK at->task, ompd_scope_task
#define NATIVE 0, sizeof at->native

#define TRIALS(TRIAL) \
  TRIAL(open, process_initialize(at->context, &got->space)) \
  TRIAL(version, get_omp_version(at->space, &got->word)) \
  TRIAL(version_string, get_omp_version_string(at->space, &got->text)) \
  TRIAL(thread, get_thread_handle(at->space, NATIVE, &at->native, &got->thread)) \
  TRIAL(thread_in_parallel, get_thread_in_parallel(at->region, at->member, &got->thread)) \
  TRIAL(thread_id, get_thread_id(at->thread, NATIVE, &got->native)) \
  TRIAL(thread_compare, thread_handle_compare(at->thread, at->thread, &got->number)) \
  TRIAL(curr_parallel, get_curr_parallel_handle(at->thread, &got->region)) \
  TRIAL(enclosing_parallel, get_enclosing_parallel_handle(at->region, &got->region)) \
  TRIAL(task_parallel, get_task_parallel_handle(at->task, &got->region)) \
  TRIAL(parallel_compare, parallel_handle_compare(at->region, at->region, &got->number)) \
  TRIAL(curr_task, get_curr_task_handle(at->thread, &got->task)) \
  TRIAL(generating_task, get_generating_task_handle(at->task, &got->task)) \
  TRIAL(scheduling_task, get_scheduling_task_handle(at->task, &got->task)) \
  TRIAL(task_in_parallel, get_task_in_parallel(at->region, at->member, &got->task)) \
  TRIAL(task_compare, task_handle_compare(at->task, at->task, &got->number)) \
  TRIAL(task_function, get_task_function(at->task, &got->address)) \
  TRIAL(task_frame, get_task_frame(at->task, &got->exits, &got->enters)) \
  TRIAL(next_state, enumerate_states(at->space, at->state, &got->word, &got->text, &got->more)) \
  TRIAL(state, get_state(at->thread, &got->word, &got->wait)) \
  TRIAL(display, get_display_control_vars(at->space, &got->list)) \
  TRIAL(next_icv, enumerate_icvs(at->space, at->icv, &got->icv, &got->text, &got->scope, &got->number)) \
  TRIAL(space_icv, get_icv_from_scope(SPACE, at->icv, &got->word)) \
  TRIAL(thread_icv, get_icv_from_scope(THREAD, at->icv, &got->word)) \
  TRIAL(region_icv, get_icv_from_scope(REGION, at->icv, &got->word)) \
  TRIAL(task_icv, get_icv_from_scope(TASK, at->icv, &got->word)) \
  TRIAL(space_icv_text, get_icv_string_from_scope(SPACE, at->icv, &got->text)) \
  TRIAL(thread_icv_text, get_icv_string_from_scope(THREAD, at->icv, &got->text)) \
  TRIAL(region_icv_text, get_icv_string_from_scope(REGION, at->icv, &got->text)) \
  TRIAL(task_icv_text, get_icv_string_from_scope(TASK, at->icv, &got->text)) \
  TRIAL(space_tool, get_tool_data(SPACE, &got->word, &got->address)) \
  TRIAL(thread_tool, get_tool_data(THREAD, &got->word, &got->address)) \
  TRIAL(region_tool, get_tool_data(REGION, &got->word, &got->address)) \
  TRIAL(task_tool, get_tool_data(TASK, &got->word, &got->address))

#define TRIAL(name, call) \
  static ompd_rc_t name(const struct place *at, struct answer *got) { return ompd.call; }
TRIALS(TRIAL)
#undef TRIAL

const struct trial trials[] = {
#define TRIAL(name, call) {#name, name},
  TRIALS(TRIAL)
#undef TRIAL
};
const size_t trial_count = sizeof trials / sizeof *trials;

const char *const cores[] = {"nested.core", "later.core", "tasks.core", "untracked.core", "sixty_four.core",
                             "reuse.core", "groups.core"};
const size_t core_count = sizeof cores / sizeof *cores;

void clear_answer(struct answer *got)
{
  memset(got, 0xa5, sizeof *got);
}

bool is_clear(const struct answer *got)
{
  struct answer clear;
  clear_answer(&clear);
  return memcmp(got, &clear, sizeof clear) == 0;
}

void undo(struct answer *got)
{
  struct answer clear;
  clear_answer(&clear);
  if (got->space != clear.space)
    EXPECT(ompd.rel_address_space_handle(got->space) == ompd_rc_ok);
  if (got->thread != clear.thread)
    EXPECT(ompd.rel_thread_handle(got->thread) == ompd_rc_ok);
  if (got->region != clear.region)
    EXPECT(ompd.rel_parallel_handle(got->region) == ompd_rc_ok);
  if (got->task != clear.task)
    EXPECT(ompd.rel_task_handle(got->task) == ompd_rc_ok);
  if (got->text != clear.text)
    EXPECT(callbacks.free_memory((void *)got->text) == ompd_rc_ok);
  if (got->list != clear.list)
    EXPECT(ompd.rel_display_control_vars(&got->list) == ompd_rc_ok);
  clear_answer(got);
}

ompd_rc_t answer_to(enum callback failed, ompd_rc_t with)
{
  if (failed == SYMBOL_ADDR_LOOKUP && (with == ompd_rc_unavailable || with == ompd_rc_error))
    return ompd_rc_incompatible; /* there is no such symbol */
  if (failed == READ_MEMORY && (with == ompd_rc_unavailable || with == ompd_rc_error))
    return ompd_rc_error; /* nothing is mapped there */
  return with;
}

bool enter(struct place *at, struct target *target, ompd_address_space_handle_t *space, uint64_t native)
{
  *at = (struct place){.context = (ompd_address_space_context_t *)target, .space = space, .native = native};
  at->state = 0x102;
  if (ompd.get_thread_handle(space, NATIVE, &native, &at->thread) == ompd_rc_ok
      && ompd.get_curr_task_handle(at->thread, &at->task) == ompd_rc_ok
      && ompd.get_task_parallel_handle(at->task, &at->region) == ompd_rc_ok)
    return true;
  leave(at);
  return false;
}

void leave(struct place *at)
{
  if (at->thread)
    EXPECT(ompd.rel_thread_handle(at->thread) == ompd_rc_ok);
  if (at->task)
    EXPECT(ompd.rel_task_handle(at->task) == ompd_rc_ok);
  if (at->region)
    EXPECT(ompd.rel_parallel_handle(at->region) == ompd_rc_ok);
  *at = (struct place){0};
}
