/* Records: which are free, what the tool keeps of each beside its words, and how long an explicit task's lives. */
#include "records.h"

#include <string.h>

#include "codes.h"
#include "say.h"

/* A link is the place in the arena plus 1. */
enum { NONE = 0 };

/* A life word is odd while its record is live, and below this. */
#define LIFE_END (UINT64_C(1) << 33)

static struct thread threads[MOST_THREADS];
struct task_notes task_notes[MOST_TASKS];
struct region_notes region_notes[MOST_THREADS * REGIONS_EACH];
static _Atomic unsigned long unshown[KINDS];

_Thread_local struct thread *self;

bool take_thread(void)
{
  for (unsigned index = 0; index < arenas.thread_count; index++) {
    struct thread *thread = &threads[index];
    if (atomic_load(&thread->taken) || atomic_exchange(&thread->taken, true))
      continue;
    thread->record = thread_record(index);
    thread->index = index;
    thread->forked = NULL;
    thread->passed_regions = thread->passed_tasks = 0;
    thread->resumes = false;
    self = thread;
    return true;
  }
  count_unshown(THREADS);
  return false;
}

void give_back_thread(void)
{
  atomic_store(&self->taken, false);
  self = NULL;
}

/* A record becomes live by the store of its life word, before any other of its words is stored. */
static word_t *raise(word_t *record)
{
  store(record, load(record) + 1);
  return record;
}

/* Ends the life of a record. Whether it may have another one. */
static bool lower(word_t *record)
{
  uint64_t life = load(record) + 1;
  store(record, life);
  return life + 1 < LIFE_END;
}

word_t *take_task(struct thread *me)
{
  struct pool *pool = &me->tasks;
  if (pool->own == NONE && atomic_load_explicit(&pool->returned, memory_order_relaxed) != NONE)
    pool->own = atomic_exchange_explicit(&pool->returned, NONE, memory_order_acquire);
  unsigned link = pool->own;
  if (link != NONE)
    pool->own = task_notes[link - 1].next_free;
  else if (pool->unused < arenas.tasks_each)
    link = me->index * arenas.tasks_each + ++pool->unused;
  else {
    count_unshown(TASKS);
    return NULL;
  }
  return raise(task_at(link - 1));
}

/* The thread that the record at this place belongs to. */
static struct thread *owner_of(struct thread *me, unsigned place)
{
  bool mine = me && place - me->index * arenas.tasks_each < arenas.tasks_each;
  return mine ? me : &threads[place / arenas.tasks_each];
}

void give_back_task(struct thread *me, word_t *task)
{
  if (!lower(task))
    return;
  unsigned place = (unsigned)place_of_task(task), link = place + 1;
  struct task_notes *notes = &task_notes[place];
  struct thread *owner = owner_of(me, place);
  struct pool *pool = &owner->tasks;
  if (me == owner) {
    notes->next_free = pool->own;
    pool->own = link;
    return;
  }
  unsigned first = atomic_load_explicit(&pool->returned, memory_order_relaxed);
  do
    notes->next_free = first;
  while (!atomic_compare_exchange_weak_explicit(&pool->returned, &first, link, memory_order_release,
                                                memory_order_relaxed));
}

/* A thread gives its regions back itself. */
word_t *take_region(struct thread *me)
{
  struct pool *pool = &me->regions;
  unsigned link = pool->own;
  if (link != NONE)
    pool->own = region_notes[link - 1].next_free;
  else if (pool->unused < REGIONS_EACH)
    link = me->index * REGIONS_EACH + ++pool->unused;
  else
    return NULL;
  return raise(arenas.regions + (size_t)(link - 1) * REGION_WORDS);
}

void give_back_region(struct thread *me, word_t *region)
{
  struct region_notes *notes = notes_of_region(region);
  for (unsigned member = 0; member < notes->made; member++)
    give_back_task(me, record_at(load(region + RG_TEAM + member)));
  if (!lower(region))
    return;
  notes->next_free = me->regions.own;
  me->regions.own = place_of_region(region) + 1;
}

void release_maker(struct thread *me, word_t *maker)
{
  while (maker && !load(maker + TK_IMPLICIT)
         && atomic_fetch_sub_explicit(&notes_of_task(maker)->owed, 1, memory_order_acq_rel) == 1) {
    word_t *ended = maker;
    maker = record_at(load(ended + TK_GENERATING));
    give_back_task(me, ended);
  }
}

void release_task(struct thread *me, word_t *task)
{
  struct task_notes *notes = notes_of_task(task);
  long made = notes->made;
  if (atomic_load_explicit(&notes->owed, memory_order_acquire) + made
      && atomic_fetch_add_explicit(&notes->owed, made, memory_order_acq_rel) + made)
    return;
  word_t *maker = record_at(load(task + TK_GENERATING));
  give_back_task(me, task);
  release_maker(me, maker);
}

void count_unshown(enum kind kind)
{
  static const char *const advice[KINDS] = {
    [THREADS] = "a thread (OMI_THREADS sets how many have a record, 64 at most)",
    [REGIONS] = "a region (a thread has records for 16, and a team for as many members as there are threads)",
    [TASKS] = "a task (OMI_TASKS sets how many a thread has records for)"};
  static atomic_flag said = ATOMIC_FLAG_INIT;
  atomic_fetch_add_explicit(&unshown[kind], 1, memory_order_relaxed);
  if (!atomic_flag_test_and_set(&said))
    say("no free record for %s: it is not shown, and further ones may not be", advice[kind]);
}

static unsigned long count_live(word_t *arena, size_t words, size_t count)
{
  unsigned long live = 0;
  for (size_t place = 0; place < count; place++)
    live += load(arena + place * words) % 2;
  return live;
}

void say_counts(void)
{
  size_t threads_shown = arenas.thread_count;
  say("not shown: threads %lu regions %lu tasks %lu; live: regions %lu tasks %lu", unshown[THREADS],
      unshown[REGIONS], unshown[TASKS], count_live(arenas.regions, REGION_WORDS, threads_shown * REGIONS_EACH),
      count_live(arenas.tasks, TASK_WORDS, threads_shown * arenas.tasks_each));
}

void forget_records(void)
{
  memset(threads, 0, sizeof threads);
  memset(unshown, 0, sizeof unshown);
  self = NULL;
}
