/* The memory that is shown: the symbol table at 0x10000, the layout table and the records. */
#define _GNU_SOURCE
#include "arenas.h"

#include <errno.h>
#include <string.h>
#include <sys/mman.h>

#include "codes.h"
#include "debugger.h"
#include "say.h"

enum { OPENMP_VERSION = 201811, MOST_PROCS = 65535 };

/* What stands at 0x10000. The table is where this project's own layouts have it. */
enum { FRONT_TABLE = 1 + SYMBOLS * SYMBOL_WORDS + 2, FRONT_WORDS = FRONT_TABLE + TABLE_WORDS };

struct arenas arenas;

static word_t *front;
static _Atomic bool published;

/* The fields in the order of their numbers. */
static const uint8_t offsets[FIELDS] = {
  RT_VERSION, RT_THREADS, RT_PROCS, RT_DEBUG, RT_MAXACT, RT_LOCKS,
  TH_LIFE, TH_NATIVE, TH_CUR, TH_STATE, TH_CLAIM, TH_ASSIGN,
  RG_LIFE, RG_FUNC, RG_ENCLOSING, RG_ENCOUNTER, RG_SIZE, RG_LEVELS, RG_ACTIVE, RG_RELEASED, RG_ARRIVED,
  RG_PENDING, RG_LEFT, RG_TEAM,
  TK_LIFE, TK_IMPLICIT, TK_REGION, TK_THREAD, TK_NUMBER, TK_GENERATING, TK_SCHEDULING, TK_FUNC, TK_EXIT,
  TK_ENTER, TK_DYN, TK_NTHN, TK_SCHED, TK_DEVICE, TK_FINAL, TK_TOOL, TK_CHILDREN, TK_REFS, TK_NTH, TK_SLOTS};

/* A child that is forked finds zeros. A system that can't do this is left to what `fork.c` does. */
static void *map(void *at, size_t bytes, int flags)
{
  void *found = mmap(at, bytes, PROT_READ | PROT_WRITE, MAP_PRIVATE | MAP_ANONYMOUS | MAP_NORESERVE | flags, -1, 0);
  if (found == MAP_FAILED)
    return NULL;
  if (at && found != at) { /* a system before MAP_FIXED_NOREPLACE takes the address for a wish */
    munmap(found, bytes);
    errno = EEXIST;
    return NULL;
  }
  madvise(found, bytes, MADV_WIPEONFORK);
  return found;
}

bool map_arenas(unsigned thread_count, unsigned tasks_each)
{
  size_t fixed = RUNTIME_WORDS + thread_count * (THREAD_WORDS + (size_t)REGIONS_EACH * REGION_WORDS);
  size_t room = (CORE_WORDS - FRONT_WORDS - fixed) / ((size_t)thread_count * TASK_WORDS);
  size_t most = room < MOST_TASKS_EACH ? room : MOST_TASKS_EACH;
  arenas.thread_count = thread_count;
  arenas.tasks_each = tasks_each && tasks_each < most ? tasks_each : (unsigned)most;
  arenas.words = fixed + (size_t)thread_count * arenas.tasks_each * TASK_WORDS;
  word_t *first = map(NULL, arenas.words * WORD_BYTES, 0);
  if (!first) {
    say("no memory for records (%s): nothing is shown", strerror(errno));
    return false;
  }
  front = map((void *)FRONT, FRONT_WORDS * WORD_BYTES, MAP_FIXED_NOREPLACE);
  if (!front)
    say("no memory at %#x (%s): only a debugger that finds omi_layout by its name sees the records", FRONT,
        strerror(errno));
  arenas.threads = first + RUNTIME_WORDS;
  arenas.regions = arenas.threads + thread_count * THREAD_WORDS;
  arenas.tasks = arenas.regions + (size_t)thread_count * REGIONS_EACH * REGION_WORDS;
  arenas.runtime = first;
  return true;
}

static void fill_table(uint64_t *table)
{
  const uint64_t head[TABLE_HEAD] = {
    LAYOUT_VERSION, address_of(arenas.runtime), RUNTIME_WORDS,
    address_of(arenas.threads), THREAD_WORDS, arenas.thread_count,
    address_of(arenas.regions), REGION_WORDS, REGIONS_EACH,
    address_of(arenas.tasks), TASK_WORDS, arenas.tasks_each};
  memcpy(table, head, sizeof head);
  for (unsigned field = 0; field < FIELDS; field++)
    table[TABLE_HEAD + field] = offsets[field];
}

static struct {
  uint64_t procs, active_levels;
} opening;

void publish_again(void)
{
  for (unsigned index = 0; index < arenas.thread_count; index++)
    store(thread_record(index) + TH_NATIVE, native_of_unused(index));
  store(arenas.runtime + RT_THREADS, arenas.thread_count);
  store(arenas.runtime + RT_PROCS, opening.procs);
  store(arenas.runtime + RT_MAXACT, opening.active_levels);
  store(arenas.runtime + RT_DEBUG, 1);
  store(arenas.runtime + RT_VERSION, OPENMP_VERSION);
  fill_table(omi_layout);
  if (front) {
    for (unsigned place = 0; place < TABLE_WORDS; place++)
      store(front + FRONT_TABLE + place, omi_layout[place]);
    store_symbols(front, address_of(front + FRONT_TABLE));
  }
  atomic_store(&published, true);
}

void publish(uint64_t procs, uint64_t active_levels)
{
  opening.procs = in_range(procs, 1, MOST_PROCS);
  opening.active_levels = in_range(active_levels, 0, MOST_LEVELS);
  publish_again();
}

void forget_arenas(void)
{
  atomic_store(&published, false);
  madvise(arenas.runtime, arenas.words * WORD_BYTES, MADV_DONTNEED);
  if (front)
    madvise(front, FRONT_WORDS * WORD_BYTES, MADV_DONTNEED);
}

const uint64_t *published_table(void)
{
  return atomic_load(&published) ? omi_layout : NULL;
}
