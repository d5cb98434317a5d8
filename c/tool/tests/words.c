/* The words that the tool publishes in this process, read as a debugger reads them. */
#define _GNU_SOURCE
#include "words.h"

#include <omp.h>
#include <stdio.h>
#include <string.h>
#include <sys/syscall.h>
#include <unistd.h>

enum { FRONT = 0x10000, SYMBOL_WORDS = 5, TABLE_HEAD = 11 };

/* A program that is stopped in the middle of a store shows the word before or behind it. */
static uint64_t word_at(uint64_t address)
{
  return __atomic_load_n((const uint64_t *)(uintptr_t)address, __ATOMIC_ACQUIRE);
}

/* Memory that may not be mapped is read by the kernel, which says so. */
static bool is_mapped(uint64_t address)
{
  int pipes[2];
  if (pipe(pipes))
    return false;
  bool mapped = write(pipes[1], (const void *)(uintptr_t)address, 8) == 8;
  close(pipes[0]);
  close(pipes[1]);
  return mapped;
}

bool is_shown(void)
{
  return is_mapped(FRONT) && word_at(FRONT) > 0;
}

static uint64_t table(void)
{
  for (uint64_t place = 0; place < word_at(FRONT); place++) {
    uint64_t symbol = FRONT + 8 * (1 + SYMBOL_WORDS * place);
    if (!strcmp((const char *)(uintptr_t)symbol, "omi_layout"))
      return word_at(symbol + 8 * (SYMBOL_WORDS - 1));
  }
  fail_test(__FILE__, __LINE__, "omi_layout is in the symbol table");
}

static uint64_t layout(unsigned place)
{
  return word_at(table() + 8 * place);
}

uint64_t word_of(uint64_t record, enum field field, unsigned place)
{
  return word_at(record + 8 * (layout(TABLE_HEAD + (unsigned)field) + place));
}

uint64_t runtime_record(void)
{
  return layout(1);
}

uint64_t thread_of(uint64_t native)
{
  for (uint64_t index = 0; index < layout(5); index++) {
    uint64_t record = layout(3) + 8 * layout(4) * index;
    if (get(record, TH_LIFE) == 1 && get(record, TH_NATIVE) == native)
      return record;
  }
  return 0;
}

uint64_t this_thread(void)
{
  return thread_of((uint64_t)syscall(SYS_gettid));
}

uint64_t this_task(void)
{
  uint64_t thread = this_thread();
  EXPECT(thread);
  return get(thread, TH_CUR);
}

uint64_t region_of(uint64_t task)
{
  return get(task, TK_REGION);
}

static unsigned live(unsigned arena, enum field life)
{
  unsigned found = 0;
  for (uint64_t place = 0; place < layout(5) * layout(arena + 2); place++)
    found += get(layout(arena) + 8 * layout(arena + 1) * place, life) % 2;
  return found;
}

unsigned live_regions(void)
{
  return live(6, RG_LIFE);
}

unsigned live_tasks(void)
{
  return live(9, TK_LIFE);
}

unsigned shown_threads(void)
{
  unsigned found = 0;
  for (uint64_t index = 0; index < layout(5); index++) {
    uint64_t record = layout(3) + 8 * layout(4) * index;
    found += get(record, TH_LIFE) == 1 && get(record, TH_NATIVE);
  }
  return found;
}

_Noreturn void fail_test(const char *file, int line, const char *condition)
{
  fprintf(stderr, "%s:%d: not so: %s\n", file, line, condition);
  _exit(1);
}

#define SAME(said, shown) expect_same(#said, said, #shown, shown, file, line)
static void expect_same(const char *call, int64_t said, const char *field, uint64_t shown, const char *file, int line)
{
  if ((uint64_t)said == shown)
    return;
  fprintf(stderr, "%s:%d: %s is %ld, %s is %ld\n", file, line, call, (long)said, field, (long)shown);
  _exit(1);
}

/* From the task outwards each record has to be live. */
static void follow(uint64_t task, const char *file, int line)
{
  for (uint64_t at = task; at; at = get(at, TK_SCHEDULING)) {
    SAME(1, get(at, TK_LIFE) % 2);
    SAME(1, get(region_of(at), RG_LIFE) % 2);
    SAME((int64_t)get(task, TK_THREAD), get(at, TK_THREAD));
  }
  for (uint64_t at = task; at; at = get(at, TK_GENERATING))
    SAME(1, get(at, TK_LIFE) % 2);
  for (uint64_t at = region_of(task); at; at = get(at, RG_ENCLOSING))
    SAME(1, get(at, RG_LIFE) % 2);
}

void expect_truth(const char *file, int line)
{
  uint64_t thread = this_thread(), task = thread ? get(thread, TH_CUR) : 0;
  if (!task)
    fail_test(file, line, "this thread has a task");
  uint64_t region = region_of(task);
  omp_sched_t kind;
  int chunk;
  omp_get_schedule(&kind, &chunk);
  SAME(omp_get_level(), get(region, RG_LEVELS));
  SAME(omp_get_active_level(), get(region, RG_ACTIVE));
  SAME(omp_get_num_threads(), get(region, RG_SIZE));
  SAME(omp_get_thread_num(), get(task, TK_NUMBER));
  SAME(omp_in_final(), get(task, TK_FINAL));
  SAME(omp_get_dynamic(), get(task, TK_DYN));
  SAME(omp_get_max_threads(), get(task, TK_NTH));
  SAME((chunk > 0 ? chunk : 0) * 8 + (int)(kind & 7), get(task, TK_SCHED));
  SAME(omp_get_default_device(), get(task, TK_DEVICE));
  SAME((int64_t)thread, get(task, TK_THREAD));
  SAME(omp_get_active_level() > 0, get(thread, TH_STATE));
  SAME(omp_get_num_procs(), get(runtime_record(), RT_PROCS));
  uint64_t implicit = word_of(region, RG_TEAM, (unsigned)omp_get_thread_num());
  SAME((int64_t)thread, get(implicit, TK_THREAD));
  follow(task, file, line);
}
