/* What the runtime is asked in a callback: control variables and frames of the task that runs there. */
#define _GNU_SOURCE
#include "inquiries.h"

#include <dlfcn.h>
#include <stdlib.h>

#include "codes.h"
#include "setters.h"

enum { STATIC_SCHEDULE = 1, KIND_BITS = 3, MOST_CHUNK = 65535, MOST_DEVICE = 255 };

/* A call that the runtime lacks is NULL, and isn't asked. */
static struct {
  ompt_get_task_info_t task_info;
  int (*dynamic)(void), (*max_threads)(void), (*device)(void), (*active_levels)(void);
  void (*schedule)(unsigned *kind, int *chunk);
} runtime;

/* OMP_NUM_THREADS: of nthreads-var the first elements, the one of level k at place k. */
enum { MOST_SIZES_READ = 32 };
static uint64_t sizes[MOST_SIZES_READ];
static unsigned size_count;

bool frames_wanted;

static _Atomic bool allowed;

/* Whether all calls that set variables are seen. */
static bool all_seen;

static void read_sizes(void)
{
  const char *text = getenv("OMP_NUM_THREADS");
  while (text && size_count < MOST_SIZES_READ) {
    char *end;
    unsigned long size = strtoul(text, &end, 10);
    if (end == text || !size)
      break;
    sizes[size_count++] = size;
    text = *end == ',' ? end + 1 : NULL;
  }
}

/* The program may have another runtime too, whose calls of the same names must not be taken. */
static void *runtime_of(ompt_function_lookup_t lookup)
{
  Dl_info found;
  void *address;
  _Static_assert(sizeof address == sizeof lookup, "a function's address is one");
  __builtin_memcpy(&address, &lookup, sizeof address);
  void *object = dladdr(address, &found) ? dlopen(found.dli_fname, RTLD_LAZY | RTLD_NOLOAD) : NULL;
  return object ? object : RTLD_DEFAULT;
}

void find_inquiries(ompt_function_lookup_t lookup)
{
  void *object = runtime_of(lookup);
  runtime.task_info = (ompt_get_task_info_t)lookup("ompt_get_task_info");
#define FIND(call, name) *(void **)&runtime.call = dlsym(object, name)
  FIND(dynamic, "omp_get_dynamic");
  FIND(max_threads, "omp_get_max_threads");
  FIND(device, "omp_get_default_device");
  FIND(active_levels, "omp_get_max_active_levels");
  FIND(schedule, "omp_get_schedule");
  all_seen = is_preloaded();
  frames_wanted = getenv("OMI_FRAMES") != NULL;
  read_sizes();
}

uint64_t initial_active_levels(void)
{
  const char *text = getenv("OMP_MAX_ACTIVE_LEVELS");
  return text ? strtoul(text, NULL, 10) : size_count > 1 ? size_count : 1;
}

void allow_inquiries(void)
{
  if (!atomic_load_explicit(&allowed, memory_order_relaxed))
    atomic_store(&allowed, true);
}

void forbid_inquiries(void)
{
  atomic_store(&allowed, false);
}

static bool may_ask(void)
{
  return atomic_load_explicit(&allowed, memory_order_relaxed);
}

/* The elements of nthreads-var behind the first are those of the environment: no call tells them. */
static void store_sizes(word_t *task, uint64_t first)
{
  unsigned count = 1;
  store(task + TK_NTH, in_range(first, 1, MOST_THREADS));
  uint64_t level = load(record_at(load(task + TK_REGION)) + RG_LEVELS);
  for (uint64_t place = level + 1; place < size_count && count < MOST_SIZES; place++)
    store(task + TK_NTH + count++, in_range(sizes[place], 1, MOST_THREADS));
  store(task + TK_NTHN, count);
}

static void store_schedule(word_t *task)
{
  unsigned kind = STATIC_SCHEDULE;
  int chunk = 0;
  if (runtime.schedule)
    runtime.schedule(&kind, &chunk);
  uint64_t size = chunk > 0 ? (uint64_t)chunk : 0;
  store(task + TK_SCHED, in_range(size, 0, MOST_CHUNK) << KIND_BITS | (kind & ((1 << KIND_BITS) - 1)));
}

void store_variables(word_t *task)
{
  if (!may_ask())
    return;
  notes_of_task(task)->asked = true;
  if (runtime.dynamic)
    store(task + TK_DYN, runtime.dynamic() != 0);
  store_schedule(task);
  if (runtime.device)
    store(task + TK_DEVICE, in_range((uint64_t)runtime.device(), 0, MOST_DEVICE));
  if (runtime.max_threads)
    store_sizes(task, (uint64_t)runtime.max_threads());
}

void renew_variables(word_t *task)
{
  if (!all_seen)
    store_variables(task);
}

void learn_variables(word_t *task)
{
  if (!all_seen || !notes_of_task(task)->asked)
    store_variables(task);
}

void store_initial_variables(word_t *task)
{
  store(task + TK_DYN, 0);
  store(task + TK_SCHED, STATIC_SCHEDULE);
  store(task + TK_DEVICE, 0);
  store_sizes(task, size_count ? sizes[0] : load(arenas.runtime + RT_PROCS));
}

void copy_variables(word_t *task, word_t *maker)
{
  uint64_t sizes_shown = load(maker + TK_NTHN);
  store(task + TK_DYN, load(maker + TK_DYN));
  store(task + TK_NTHN, sizes_shown);
  store(task + TK_SCHED, load(maker + TK_SCHED));
  store(task + TK_DEVICE, load(maker + TK_DEVICE));
  for (unsigned place = 0; place < sizes_shown; place++)
    store(task + TK_NTH + place, load(maker + TK_NTH + place));
}

/* Of each level libomp may have a size of its own, and a league has another one for its teams. */
void store_member_variables(word_t *task, word_t *region)
{
  word_t *outer = record_at(load(region + RG_ENCLOSING));
  bool in_league = notes_of_region(region)->is_league || (outer && notes_of_region(outer)->is_league);
  if (!all_seen || size_count > 1 || in_league)
    store_variables(task);
}

void inherit_variables(word_t *task, word_t *maker, bool asks, unsigned changes)
{
  _Atomic unsigned *now = &notes_of_task(maker)->changes;
  copy_variables(task, maker);
  bool same = all_seen && !asks && atomic_load(now) % (1 << CHANGE_BITS) == changes;
  if (!same)
    store_variables(task);
}

/* The count rises before the first word is stored: so who has read a new word finds that it has risen. */
void change_variables(word_t *task, int threads)
{
  atomic_fetch_add(&notes_of_task(task)->changes, 1);
  if (threads > 0 && !may_ask())
    store(task + TK_NTH, in_range((uint64_t)threads, 1, MOST_THREADS));
  store_variables(task);
  store_active_levels();
}

void store_active_levels(void)
{
  if (!runtime.active_levels)
    return;
  uint64_t levels = in_range((uint64_t)runtime.active_levels(), 0, MOST_LEVELS);
  if (load(arenas.runtime + RT_MAXACT) != levels)
    store(arenas.runtime + RT_MAXACT, levels);
}

/* What the runtime tells of the task that runs. */
struct running {
  ompt_data_t *data;
  ompt_frame_t *frame;
};

static struct running ask_task_info(void)
{
  int flags, number;
  ompt_data_t *region_data;
  struct running told = {NULL, NULL};
  bool answers =
    runtime.task_info && runtime.task_info(0, &flags, &told.data, &told.frame, &region_data, &number) == 2;
  return answers ? told : (struct running){NULL, NULL};
}

const ompt_data_t *data_of_running(void)
{
  return ask_task_info().data;
}

const ompt_frame_t *find_frame(struct task_notes *notes)
{
  notes->frame = ask_task_info().frame;
  return notes->frame;
}

void clear_frames(word_t *task)
{
  store(task + TK_EXIT, 0);
  store(task + TK_ENTER, 0);
}
