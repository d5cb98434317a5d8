/* A live program that is in the state of a core: mapped FOLDER CORE [LIBRARY].
 *
 * It maps the core's words at their own addresses, and has a thread for each one of the core that has begun,
 * whose id is put into the word `native`. A thread runs the functions of the tasks on its chain, each inside
 * of the one that was left for it, and the frames of the tasks are those of these calls. So a debugger finds
 * a runtime with the symbols of OMPD and omi's layout table, whose threads, tasks and stacks are there. At
 * last it calls `stopped`, and ends. */
#define _GNU_SOURCE

#include "target.h"

#include <pthread.h>
#include <stdio.h>
#include <stdlib.h>
#include <sys/mman.h>
#include <sys/syscall.h>
#include <unistd.h>

/* The numbers of fields, by docs/MEMORY_LAYOUT.md. */
enum {
  THREAD_LIFE = 7, THREAD_NATIVE = 8, THREAD_CURRENT = 9, REGION_LIFE = 13, REGION_FUNCTION = 14,
  TASK_LIFE = 25, TASK_SCHEDULING = 31, TASK_FUNCTION = 32, TASK_EXIT = 33, TASK_ENTER = 34
};
enum { TABLE_WORDS = 56, THREADS = 3, REGIONS = 6, TASKS = 9, PAGE = 4096, MOST_TASKS = 64, FUNCTIONS = 8 };

#define FIRST_FUNCTION 0x400000
#define FUNCTION_BYTES 16

/* What OMPD asks of a runtime. Debuggers stop at these functions, so none is folded into another or left out.
 * */
#define BREAKPOINT(name) \
  __attribute__((noinline)) void name(void) { __asm__ volatile("" ::"r"(name)); }
BREAKPOINT(ompd_dll_locations_valid)
BREAKPOINT(ompd_bp_parallel_begin)
BREAKPOINT(ompd_bp_parallel_end)
BREAKPOINT(ompd_bp_task_begin)
BREAKPOINT(ompd_bp_task_end)
BREAKPOINT(ompd_bp_thread_begin)
BREAKPOINT(ompd_bp_thread_end)
BREAKPOINT(stopped)
const char **ompd_dll_locations;

/* The layout table, whose first word is 0 until it is published. */
uint64_t omi_layout[TABLE_WORDS];

static uint64_t *word_at(uint64_t address)
{
  return (uint64_t *)(uintptr_t)address;
}

static uint64_t *field(uint64_t record, int number)
{
  return word_at(record + WORD * omi_layout[11 + number]);
}

/* A thread of the core: its record, and its tasks from the current one on. */
struct thread {
  uint64_t record;
  uint64_t tasks[MOST_TASKS];
  size_t count;
};
static struct thread threads[MOST_CONTEXTS];
static size_t thread_count;
static pthread_barrier_t all_begun, all_there;

/* The runtime's part of a task: it waits for all threads, or runs the next task of the chain. */
__attribute__((noinline)) void runtime_wait(const struct thread *thread)
{
  pthread_barrier_wait(&all_there);
  if (thread == threads)
    stopped();
  else
    for (;;)
      pause();
}

static void runtime_run(const struct thread *thread, size_t place);

/* The program's part. A task whose word `enter` is 0 is in its own code, and any other one in the runtime. */
#define PROGRAM_FUNCTION(name) \
  void name(const struct thread *thread, size_t place) \
  { \
    uint64_t *enter = field(thread->tasks[place], TASK_ENTER); \
    if (*enter) \
      *enter = (uintptr_t)__builtin_frame_address(0); \
    if (place) \
      runtime_run(thread, place - 1); \
    else \
      runtime_wait(thread); \
  }

PROGRAM_FUNCTION(program_a)
PROGRAM_FUNCTION(program_b)
PROGRAM_FUNCTION(program_c)
PROGRAM_FUNCTION(program_d)
PROGRAM_FUNCTION(program_e)
PROGRAM_FUNCTION(program_f)
PROGRAM_FUNCTION(program_g)
PROGRAM_FUNCTION(program_h)

typedef void program_function(const struct thread *thread, size_t place);
static program_function *const functions[FUNCTIONS] = {program_a, program_b, program_c, program_d,
                                                       program_e, program_f, program_g, program_h};

__attribute__((noinline)) static void runtime_run(const struct thread *thread, size_t place)
{
  uint64_t task = thread->tasks[place];
  *field(task, TASK_EXIT) = (uintptr_t)__builtin_frame_address(0);
  ompd_bp_task_begin();
  ((program_function *)(uintptr_t)*field(task, TASK_FUNCTION))(thread, place);
  ompd_bp_task_end();
}

static void *runtime_begin(void *argument)
{
  const struct thread *thread = argument;
  *field(thread->record, THREAD_NATIVE) = (uint64_t)syscall(SYS_gettid);
  ompd_bp_thread_begin();
  pthread_barrier_wait(&all_begun);
  if (thread->count)
    runtime_run(thread, thread->count - 1);
  else
    runtime_wait(thread);
  return NULL;
}

/* Maps all words of a core, at the addresses at which its target had them. */
static void map_words(const struct target *target)
{
  const struct segment *last = target->segment + target->segments - 1;
  uint64_t from = target->segment->start / PAGE * PAGE, to = last->start + WORD * last->words;
  void *mapped = mmap(word_at(from), to - from, PROT_READ | PROT_WRITE,
                      MAP_PRIVATE | MAP_ANONYMOUS | MAP_FIXED_NOREPLACE, -1, 0);
  if (mapped != word_at(from)) {
    perror("mapped: the addresses of the core are taken");
    exit(2);
  }
  for (size_t number = 0; number < target->segments; number++) {
    const struct segment *segment = target->segment + number;
    for (size_t place = 0; place < segment->words; place++)
      word_at(segment->start)[place] = word_of(target, segment->bytes + WORD * place);
  }
}

/* Calls for each record of a kind with its address. What a core leaves out has no life. */
static void each_record(const struct target *target, int kind, uint64_t count, void act(uint64_t record))
{
  for (uint64_t number = 0; number < omi_layout[5] * count; number++) {
    uint64_t record = omi_layout[kind] + WORD * omi_layout[kind + 1] * number;
    if (bytes_at(target, record))
      act(record);
  }
}

static void name_function(uint64_t *word)
{
  uint64_t number = (*word - FIRST_FUNCTION) / FUNCTION_BYTES;
  if (number < FUNCTIONS)
    *word = (uintptr_t)functions[number];
}

static void name_region(uint64_t region)
{
  if (*field(region, REGION_LIFE) % 2)
    name_function(field(region, REGION_FUNCTION));
}

static void name_task(uint64_t task)
{
  if (*field(task, TASK_LIFE) % 2)
    name_function(field(task, TASK_FUNCTION));
}

static void add_thread(uint64_t record)
{
  struct thread *thread = threads + thread_count;
  if (*field(record, THREAD_LIFE) != 1)
    return;
  thread->record = record;
  for (uint64_t task = *field(record, THREAD_CURRENT); task && thread->count < MOST_TASKS;
       task = *field(task, TASK_SCHEDULING))
    thread->tasks[thread->count++] = task;
  thread_count++;
}

int main(int count, char **words)
{
  static struct target target;
  static const char *locations[2];
  if (count < 3)
    return 2;
  open_target(&target, words[1], words[2]);
  map_words(&target);
  uint64_t table = symbol_at(&target, "omi_layout");
  for (size_t place = 1; place < TABLE_WORDS; place++)
    omi_layout[place] = word_at(table)[place];
  each_record(&target, REGIONS, omi_layout[8], name_region);
  each_record(&target, TASKS, omi_layout[11], name_task);
  each_record(&target, THREADS, 1, add_thread);
  omi_layout[0] = *word_at(table);
  locations[0] = count > 3 ? words[3] : NULL;
  ompd_dll_locations = locations;
  ompd_dll_locations_valid();
  pthread_barrier_init(&all_begun, NULL, (unsigned)thread_count);
  pthread_barrier_init(&all_there, NULL, (unsigned)thread_count);
  for (size_t number = 1; number < thread_count; number++) {
    pthread_t thread;
    pthread_create(&thread, NULL, runtime_begin, threads + number);
  }
  runtime_begin(threads);
  return 0;
}
