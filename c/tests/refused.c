/* Gives each call what is no input: NULL for each pointer, and handles of each other kind, that were released
 * or that were never given. */
#include "trials.h"

#include <stdio.h>

static struct target target;
static struct answer got;
static unsigned long refused;

/* A call that is refused for its input asks the debugger for nothing, and answers nothing. */
#define REFUSED(code, call) \
  do { \
    watch_calls(0, ompd_rc_ok); \
    EXPECT(ompd.call == (code)); \
    EXPECT(watch.calls == 0 && is_clear(&got)); \
    refused++; \
  } while (0)
#define BAD(call) REFUSED(ompd_rc_bad_input, call)
#define STALE(call) REFUSED(ompd_rc_stale_handle, call)

static void null_pointers(const struct place *at)
{
  void *space = at->space, *thread = at->thread, *region = at->region, *task = at->task;
  uint64_t native = at->native;
  const char *const *none = NULL;
  BAD(process_initialize(NULL, &got.space));
  BAD(process_initialize(at->context, NULL));
  BAD(device_initialize(space, NULL, 1, 8, &native, &got.space));
  BAD(device_initialize(space, at->context, 1, 8, &native, NULL));
  BAD(get_omp_version(space, NULL));
  BAD(get_omp_version_string(space, NULL));
  BAD(get_thread_handle(space, 0, 8, NULL, &got.thread));
  BAD(get_thread_handle(space, 0, 8, &native, NULL));
  BAD(get_thread_id(thread, 0, 8, NULL));
  BAD(get_thread_in_parallel(region, 0, NULL));
  BAD(get_curr_parallel_handle(thread, NULL));
  BAD(get_enclosing_parallel_handle(region, NULL));
  BAD(get_task_parallel_handle(task, NULL));
  BAD(get_curr_task_handle(thread, NULL));
  BAD(get_generating_task_handle(task, NULL));
  BAD(get_scheduling_task_handle(task, NULL));
  BAD(get_task_in_parallel(region, 0, NULL));
  BAD(get_task_function(task, NULL));
  BAD(get_task_frame(task, NULL, &got.enters));
  BAD(get_task_frame(task, &got.exits, NULL));
  BAD(get_state(thread, NULL, &got.wait));
  BAD(get_state(thread, &got.word, NULL));
  BAD(enumerate_states(space, 0x102, NULL, &got.text, &got.more));
  BAD(enumerate_states(space, 0x102, &got.word, NULL, &got.more));
  BAD(enumerate_states(space, 0x102, &got.word, &got.text, NULL));
  BAD(enumerate_icvs(space, 0, NULL, &got.text, &got.scope, &got.number));
  BAD(enumerate_icvs(space, 0, &got.icv, NULL, &got.scope, &got.number));
  BAD(enumerate_icvs(space, 0, &got.icv, &got.text, NULL, &got.number));
  BAD(enumerate_icvs(space, 0, &got.icv, &got.text, &got.scope, NULL));
  BAD(get_display_control_vars(space, NULL));
  BAD(rel_display_control_vars(NULL));
  BAD(rel_display_control_vars(&none));
  BAD(get_icv_from_scope(task, ompd_scope_task, 1, NULL));
  BAD(get_icv_string_from_scope(task, ompd_scope_task, 1, NULL));
  BAD(get_tool_data(task, ompd_scope_task, NULL, &got.address));
  BAD(get_tool_data(task, ompd_scope_task, &got.word, NULL));
  BAD(thread_handle_compare(thread, thread, NULL));
  BAD(parallel_handle_compare(region, region, NULL));
  BAD(task_handle_compare(task, task, NULL));
}

/* Native ids have four or eight bytes, and two kinds. */
static void native_ids(const struct place *at)
{
  uint64_t native[2] = {at->native, 0};
  for (ompd_size_t size = 0; size <= sizeof native; size++)
    if (size != 4 && size != 8)
      for (ompd_thread_id_t kind = 0; kind < 2; kind++) {
        BAD(get_thread_handle(at->space, kind, size, native, &got.thread));
        BAD(get_thread_id(at->thread, kind, size, &got.native));
      }
  for (ompd_thread_id_t kind = 2; kind; kind = kind < 8 ? kind + 1 : kind << 1)
    for (ompd_size_t size = 3; size <= 8; size++) {
      REFUSED(ompd_rc_unsupported, get_thread_handle(at->space, kind, size, native, &got.thread));
      REFUSED(ompd_rc_unsupported, get_thread_id(at->thread, kind, size, &got.native));
    }
}

/* No scope is greater than a task's or 0, whatever the handle is. */
static void scopes(const struct place *at)
{
  void *const handles[] = {NULL, at->space, at->task};
  const ompd_scope_t none[] = {0, ompd_scope_task + 1, 8, UINT32_MAX};
  for (size_t place = 0; place < sizeof handles / sizeof *handles; place++)
    for (size_t scope = 0; scope < sizeof none / sizeof *none; scope++) {
      BAD(get_icv_from_scope(handles[place], none[scope], 1, &got.word));
      BAD(get_icv_string_from_scope(handles[place], none[scope], 1, &got.text));
      BAD(get_tool_data(handles[place], none[scope], &got.word, &got.address));
    }
  for (ompd_scope_t scope = ompd_scope_global; scope <= ompd_scope_task; scope++) {
    STALE(get_icv_from_scope(NULL, scope, 1, &got.word));
    STALE(get_icv_string_from_scope(NULL, scope, 1, &got.text));
    STALE(get_tool_data(NULL, scope, &got.word, &got.address));
  }
}

/* Handles of two address spaces have no order. */
static void two_spaces(const struct place *at)
{
  struct place other;
  ompd_address_space_handle_t *second;
  EXPECT(ompd.process_initialize(at->context, &second) == ompd_rc_ok);
  EXPECT(enter(&other, &target, second, at->native));
  STALE(thread_handle_compare(at->thread, other.thread, &got.number));
  STALE(parallel_handle_compare(at->region, other.region, &got.number));
  STALE(task_handle_compare(at->task, other.task, &got.number));
  leave(&other);
  EXPECT(ompd.rel_address_space_handle(second) == ompd_rc_ok);
}

static void no_space(const struct place *at, void *handle)
{
  STALE(rel_address_space_handle(handle));
  STALE(device_initialize(handle, at->context, 1, 0, NULL, &got.space));
  STALE(get_omp_version(handle, &got.word));
  STALE(get_omp_version_string(handle, &got.text));
  STALE(get_thread_handle(handle, 0, 8, &at->native, &got.thread));
  STALE(enumerate_states(handle, 0x102, &got.word, &got.text, &got.more));
  STALE(enumerate_icvs(handle, 0, &got.icv, &got.text, &got.scope, &got.number));
  STALE(get_display_control_vars(handle, &got.list));
  STALE(get_icv_from_scope(handle, ompd_scope_address_space, 7, &got.word));
  STALE(get_icv_from_scope(handle, ompd_scope_global, 7, &got.word));
  STALE(get_icv_string_from_scope(handle, ompd_scope_address_space, 7, &got.text));
  STALE(get_tool_data(handle, ompd_scope_address_space, &got.word, &got.address));
}

static void no_thread(const struct place *at, void *handle)
{
  STALE(rel_thread_handle(handle));
  STALE(thread_handle_compare(handle, at->thread, &got.number));
  STALE(thread_handle_compare(at->thread, handle, &got.number));
  STALE(get_thread_id(handle, 0, 8, &got.native));
  STALE(get_curr_parallel_handle(handle, &got.region));
  STALE(get_curr_task_handle(handle, &got.task));
  STALE(get_state(handle, &got.word, &got.wait));
  STALE(get_icv_from_scope(handle, ompd_scope_thread, 13, &got.word));
  STALE(get_icv_string_from_scope(handle, ompd_scope_thread, 13, &got.text));
  STALE(get_tool_data(handle, ompd_scope_thread, &got.word, &got.address));
}

static void no_region(const struct place *at, void *handle)
{
  STALE(rel_parallel_handle(handle));
  STALE(parallel_handle_compare(handle, at->region, &got.number));
  STALE(parallel_handle_compare(at->region, handle, &got.number));
  STALE(get_enclosing_parallel_handle(handle, &got.region));
  STALE(get_thread_in_parallel(handle, 0, &got.thread));
  STALE(get_task_in_parallel(handle, 0, &got.task));
  STALE(get_icv_from_scope(handle, ompd_scope_parallel, 10, &got.word));
  STALE(get_icv_string_from_scope(handle, ompd_scope_parallel, 10, &got.text));
  STALE(get_tool_data(handle, ompd_scope_parallel, &got.word, &got.address));
}

static void no_task(const struct place *at, void *handle)
{
  STALE(rel_task_handle(handle));
  STALE(task_handle_compare(handle, at->task, &got.number));
  STALE(task_handle_compare(at->task, handle, &got.number));
  STALE(get_task_parallel_handle(handle, &got.region));
  STALE(get_generating_task_handle(handle, &got.task));
  STALE(get_scheduling_task_handle(handle, &got.task));
  STALE(get_task_function(handle, &got.address));
  STALE(get_task_frame(handle, &got.exits, &got.enters));
  STALE(get_icv_from_scope(handle, ompd_scope_task, 1, &got.word));
  STALE(get_icv_from_scope(handle, ompd_scope_implicit_task, 1, &got.word));
  STALE(get_icv_string_from_scope(handle, ompd_scope_task, 1, &got.text));
  STALE(get_tool_data(handle, ompd_scope_task, &got.word, &got.address));
  STALE(get_tool_data(handle, ompd_scope_implicit_task, &got.word, &got.address));
}

/* All calls with a handle that stands for nothing of any kind. */
static void nothing(const struct place *at, void *handle)
{
  no_space(at, handle);
  no_thread(at, handle);
  no_region(at, handle);
  no_task(at, handle);
}

static void other_kinds(const struct place *at)
{
  void *const handles[] = {at->space, at->thread, at->region, at->task};
  for (size_t kind = 0; kind < sizeof handles / sizeof *handles; kind++) {
    if (handles[kind] != at->space)
      no_space(at, handles[kind]);
    if (handles[kind] != at->thread)
      no_thread(at, handles[kind]);
    if (handles[kind] != at->region)
      no_region(at, handles[kind]);
    if (handles[kind] != at->task)
      no_task(at, handles[kind]);
  }
}

/* Addresses, a handle with each of its bits changed, and handles that were released. */
static void no_handles(const struct place *at)
{
  struct place other;
  ompd_address_space_handle_t *second;
  nothing(at, NULL);
  nothing(at, &other);
  nothing(at, &target);
  for (int bit = 0; bit < 64; bit++)
    no_task(at, (void *)((uintptr_t)at->task ^ (uintptr_t)1 << bit));
  EXPECT(ompd.process_initialize(at->context, &second) == ompd_rc_ok);
  EXPECT(enter(&other, &target, second, at->native));
  struct place released = other;
  leave(&other);
  EXPECT(ompd.rel_address_space_handle(second) == ompd_rc_ok);
  nothing(at, released.space);
  nothing(at, released.thread);
  nothing(at, released.region);
  nothing(at, released.task);
}

int main(int count, char **words)
{
  struct place at;
  EXPECT(count == 3);
  load(words[1]);
  clear_answer(&got);
  BAD(get_version_string(NULL));
  BAD(get_api_version(NULL));
  ompd_address_space_handle_t *space = begin_session(&target, words[2], "nested.core");
  EXPECT(enter(&at, &target, space, 1000));
  null_pointers(&at);
  native_ids(&at);
  scopes(&at);
  two_spaces(&at);
  other_kinds(&at);
  no_handles(&at);
  leave(&at);
  end_session(&target, space);
  printf("refused input: %lu calls\n", refused);
  return 0;
}
