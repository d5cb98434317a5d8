/* A tool that sets the callbacks of libomi_tool.so and does nothing in them: what OMPT alone costs. */
#include <omp-tools.h>

static void do_nothing(void)
{
}

static int start(ompt_function_lookup_t lookup, int device, ompt_data_t *data)
{
  (void)device, (void)data;
  static const ompt_callbacks_t events[] = {
    ompt_callback_thread_begin, ompt_callback_thread_end, ompt_callback_parallel_begin, ompt_callback_parallel_end,
    ompt_callback_implicit_task, ompt_callback_task_create, ompt_callback_task_schedule, ompt_callback_sync_region,
    ompt_callback_sync_region_wait, ompt_callback_mutex_acquire, ompt_callback_mutex_acquired, ompt_callback_nest_lock};
  ompt_set_callback_t set = (ompt_set_callback_t)lookup("ompt_set_callback");
  for (unsigned k = 0; k < sizeof events / sizeof *events; k++)
    set(events[k], (ompt_callback_t)do_nothing);
  return 1;
}

static void finish(ompt_data_t *data)
{
  (void)data;
}

ompt_start_tool_result_t *ompt_start_tool(unsigned version, const char *runtime)
{
  static ompt_start_tool_result_t result = {start, finish, {0}};
  (void)version, (void)runtime;
  return &result;
}
