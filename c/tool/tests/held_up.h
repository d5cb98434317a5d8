/* Clang cuts an untied task into parts, each of which ends with a call of `__kmpc_omp_task` that lets any thread go on
 * with the task. Here that call holds its thread up behind that, now and then, so that others run the rest of the task
 * before the thread comes back to the runtime. */
#ifndef HELD_UP_H
#define HELD_UP_H

#include <dlfcn.h>
#include <stdatomic.h>
#include <unistd.h>

enum { HELD_UP_EACH = 4, HELD_UP_US = 200 };

int __kmpc_omp_task(void *place, int thread, void *task);
int __kmpc_omp_task(void *place, int thread, void *task)
{
  static atomic_uint calls;
  int (*runtimes)(void *, int, void *);
  *(void **)&runtimes = dlsym(RTLD_NEXT, "__kmpc_omp_task");
  int result = runtimes(place, thread, task);
  unsigned call = atomic_fetch_add(&calls, 1);
  if (call % HELD_UP_EACH == 0)
    usleep(call / HELD_UP_EACH % HELD_UP_EACH * HELD_UP_US);
  return result;
}

#endif
