/* Two threads call the library at once: threads LIBRARY FOLDER. Each has an address space of its own and asks
 * as if it were alone; a third one opens and closes address spaces. No callback is called while another one
 * is: the debugger's are not made for that. */
#define _POSIX_C_SOURCE 200809L

#include "trials.h"

#include <pthread.h>
#include <stdio.h>
#include <string.h>

enum { THREADS = 3, ROUNDS = 60 };

static struct target target;
static int inside;

/* Callbacks that tell whether one is called while another one is. */
static ompd_rc_t alone(ompd_rc_t rc, int before)
{
  EXPECT(before == 0);
  __atomic_sub_fetch(&inside, 1, __ATOMIC_SEQ_CST);
  return rc;
}

#define ALONE(call) \
  int before = __atomic_fetch_add(&inside, 1, __ATOMIC_SEQ_CST); \
  return alone(callbacks.call, before)

static ompd_rc_t alloc_memory(ompd_size_t size, void **memory)
{
  ALONE(alloc_memory(size, memory));
}

static ompd_rc_t free_memory(void *memory)
{
  ALONE(free_memory(memory));
}

static ompd_rc_t read_memory(
  ompd_address_space_context_t *context, ompd_thread_context_t *thread, const ompd_address_t *address,
  ompd_size_t size, void *to)
{
  ALONE(read_memory(context, thread, address, size, to));
}

static void *ask(void *number)
{
  for (int round = 0; round < ROUNDS; round++) {
    struct place at;
    ompd_address_space_handle_t *space;
    ompd_address_space_context_t *context = (ompd_address_space_context_t *)&target;
    EXPECT(ompd.process_initialize(context, &space) == ompd_rc_ok && !*ompd.reason());
    EXPECT(ompd.process_initialize(NULL, &space) == ompd_rc_bad_input && *ompd.reason());
    EXPECT(enter(&at, &target, space, 1000 + (uint64_t)(uintptr_t)number % 2));
    for (int again = 0; again < 10; again++) {
      ompd_parallel_handle_t *region;
      ompd_task_handle_t *task;
      const char *const *list;
      int order = 1;
      uint64_t native = 0;
      EXPECT(ompd.get_curr_parallel_handle(at.thread, &region) == ompd_rc_ok);
      EXPECT(ompd.parallel_handle_compare(region, at.region, &order) == ompd_rc_ok && order == 0);
      EXPECT(ompd.get_task_in_parallel(region, 0, &task) == ompd_rc_ok);
      EXPECT(ompd.get_thread_id(at.thread, 0, 8, &native) == ompd_rc_ok && native == at.native);
      EXPECT(ompd.get_display_control_vars(at.space, &list) == ompd_rc_ok && list[5] && !list[6]);
      EXPECT(ompd.rel_display_control_vars(&list) == ompd_rc_ok);
      EXPECT(ompd.rel_task_handle(task) == ompd_rc_ok && ompd.rel_parallel_handle(region) == ompd_rc_ok);
    }
    leave(&at);
    EXPECT(ompd.rel_address_space_handle(space) == ompd_rc_ok);
  }
  return NULL;
}

/* A callback that calls the library is told so, and the call that it serves goes on. */
static unsigned long calls_within;

static ompd_rc_t call_within(
  ompd_address_space_context_t *context, const void *from, ompd_size_t size, ompd_size_t count, void *to)
{
  ompd_address_space_handle_t *space;
  ompd_word_t version;
  EXPECT(ompd.get_api_version(&version) == ompd_rc_error && ompd.finalize() == ompd_rc_error);
  EXPECT(ompd.process_initialize(context, &space) == ompd_rc_error && strstr(ompd.reason(), "callback"));
  calls_within++;
  return callbacks.device_to_host(context, from, size, count, to);
}

static void callbacks_that_call(void)
{
  ompd_callbacks_t calling = callbacks;
  ompd_address_space_handle_t *space;
  calling.device_to_host = call_within;
  EXPECT(ompd.initialize(201811, &calling) == ompd_rc_ok);
  EXPECT(ompd.process_initialize((ompd_address_space_context_t *)&target, &space) == ompd_rc_ok);
  EXPECT(!*ompd.reason());
  EXPECT(ompd.rel_address_space_handle(space) == ompd_rc_ok);
  EXPECT(ompd.finalize() == ompd_rc_ok && watch.blocks == 0 && calls_within == 56);
}

int main(int count, char **words)
{
  pthread_t threads[THREADS];
  ompd_callbacks_t watched = callbacks;
  EXPECT(count == 3);
  load(words[1]);
  open_target(&target, words[2], "nested.core");
  watched.alloc_memory = alloc_memory;
  watched.free_memory = free_memory;
  watched.read_memory = read_memory;
  EXPECT(ompd.initialize(201811, &watched) == ompd_rc_ok);
  for (uintptr_t number = 0; number < THREADS; number++)
    EXPECT(pthread_create(threads + number, NULL, ask, (void *)number) == 0);
  for (size_t number = 0; number < THREADS; number++)
    EXPECT(pthread_join(threads[number], NULL) == 0);
  EXPECT(ompd.finalize() == ompd_rc_ok && watch.blocks == 0);
  callbacks_that_call();
  close_target(&target);
  printf("threads: %d at once, each as if it were alone\n", THREADS);
  return 0;
}
