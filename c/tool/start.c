/* Where the runtime finds the tool, what the environment sets, and which callbacks there are. */
#define _GNU_SOURCE
#include <dlfcn.h>
#include <sched.h>
#include <stdlib.h>
#include <unistd.h>

#include "callbacks.h"
#include "debugger.h"
#include "inquiries.h"
#include "say.h"
#include "setters.h"

static bool counts_wanted;

/* A number from 1 to `most` of the environment, and 0 where none is set. */
static unsigned setting(const char *name, unsigned most)
{
  const char *text = getenv(name);
  if (!text)
    return 0;
  char *end;
  unsigned long number = strtoul(text, &end, 10);
  if (end != text && !*end && number >= 1 && number <= most)
    return (unsigned)number;
  say("%s=%s is no number from 1 to %u, and is not used", name, text, most);
  return 0;
}

static uint64_t count_processors(void)
{
  cpu_set_t processors;
  if (sched_getaffinity(0, sizeof processors, &processors) == 0)
    return (uint64_t)CPU_COUNT(&processors);
  long online = sysconf(_SC_NPROCESSORS_ONLN); /* there are more than a set has room for */
  return online > 0 ? (uint64_t)online : 1;
}

/* Whether the runtime makes a callback, always or where it can. */
static bool is_set(ompt_set_callback_t set, ompt_callbacks_t event, ompt_callback_t callback)
{
  ompt_set_result_t result = set(event, callback);
  return result != ompt_set_error && result != ompt_set_never && result != ompt_set_impossible;
}

static bool set_callbacks(ompt_set_callback_t set)
{
#define ON(event, callback) is_set(set, ompt_callback_##event, (ompt_callback_t)(callback))
  bool all = ON(thread_begin, on_thread_begin);
  all &= ON(thread_end, on_thread_end);
  all &= ON(parallel_begin, on_parallel_begin);
  all &= ON(parallel_end, on_parallel_end);
  all &= ON(implicit_task, on_implicit_task);
  all &= ON(task_create, on_task_create);
  all &= ON(task_schedule, on_task_schedule);
  bool optional = ON(sync_region, on_sync_region);
  optional &= ON(sync_region_wait, on_sync_region_wait);
  optional &= ON(mutex_acquire, on_mutex_acquire);
  optional &= ON(mutex_acquired, on_mutex_acquired);
  optional &= ON(nest_lock, on_nest_lock);
  if (!all)
    say("this runtime doesn't tell of threads, regions and tasks: nothing is shown");
  else if (!optional)
    say("this runtime doesn't tell of all waits: some states and groups are not shown");
  return all;
}

static int start(ompt_function_lookup_t lookup, int device, ompt_data_t *tool_data)
{
  (void)device, (void)tool_data;
  unsigned threads = setting("OMI_THREADS", MOST_THREADS), tasks = setting("OMI_TASKS", MOST_TASKS_EACH);
  counts_wanted = getenv("OMI_STATS") != NULL;
  ompt_set_callback_t set = (ompt_set_callback_t)lookup("ompt_set_callback");
  if (!set)
    say("this runtime has no ompt_set_callback: nothing is shown");
  if (!set || !map_arenas(threads ? threads : MOST_THREADS, tasks) || !set_callbacks(set))
    return 0;
  find_inquiries(lookup);
  publish(count_processors(), initial_active_levels());
  locate_library(); /* a debugger that waits for this opens a session at once */
  return 1;
}

static void finish(ompt_data_t *tool_data)
{
  (void)tool_data;
  if (counts_wanted && is_published())
    say_counts();
}

/* gcc's own runtime never asks for a tool. */
__attribute__((constructor)) static void look_for_runtime(void)
{
  if (is_preloaded() && dlsym(RTLD_DEFAULT, "GOMP_parallel") && !dlsym(RTLD_DEFAULT, "__kmpc_fork_call"))
    say("this program's OpenMP runtime has no OMPT: nothing is shown");
}

EXPORTED ompt_start_tool_result_t *ompt_start_tool(unsigned version, const char *runtime)
{
  static ompt_start_tool_result_t result = {start, finish, {0}};
  (void)version, (void)runtime;
  return &result;
}
