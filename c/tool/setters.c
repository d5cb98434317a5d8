/* The calls that set control variables. OMPT tells of none of them; where this library is loaded by LD_PRELOAD
 * the program's calls come here, and otherwise a new value is shown at its task's next callback. */
#define _GNU_SOURCE
#include <dlfcn.h>

#include "callbacks.h"
#include "debugger.h"
#include "setters.h"

/* The call of this name that the caller would have come to without this library. */
static void *next_call(const char *name, const void *caller)
{
  void *found = dlsym(RTLD_NEXT, name);
  Dl_info object;
  if (!found && dladdr(caller, &object)) {
    void *handle = dlopen(object.dli_fname, RTLD_LAZY | RTLD_NOLOAD);
    if (handle) {
      found = dlsym(handle, name);
      dlclose(handle);
    }
  }
  return found;
}

/* The words of the task that has set a variable. */
static void show_variables(int threads)
{
  struct thread *me = thread_of_call();
  word_t *task = me ? running_task(me) : NULL;
  if (task)
    change_variables(task, threads);
}

/* A call of C, and that of Fortran, whose arguments are addresses. */
#define SETTER(name, parameters, arguments, threads) \
  EXPORTED void name parameters; \
  void name parameters \
  { \
    void(*next) parameters; \
    *(void **)&next = next_call(#name, __builtin_return_address(0)); \
    if (next) \
      next arguments; \
    show_variables(threads); \
  }
#define SETTERS(name) \
  SETTER(name, (int value), (value), 0) \
  SETTER(name##_, (int *value), (value), 0)

SETTER(omp_set_num_threads, (int threads), (threads), threads)
extern void own_set_num_threads(int threads)
  __attribute__((alias("omp_set_num_threads"), visibility("hidden")));
SETTER(omp_set_num_threads_, (int *threads), (threads), *threads)
SETTERS(omp_set_dynamic)
SETTERS(omp_set_nested)
SETTERS(omp_set_max_active_levels)
SETTERS(omp_set_default_device)
SETTER(omp_set_schedule, (int kind, int chunk), (kind, chunk), 0)
SETTER(omp_set_schedule_, (int *kind, int *chunk), (kind, chunk), 0)

bool is_preloaded(void)
{
  void *program = dlopen(NULL, RTLD_LAZY);
  bool first = program && dlsym(program, "omp_set_num_threads") == (void *)own_set_num_threads;
  if (program)
    dlclose(program);
  return first;
}
