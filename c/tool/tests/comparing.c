#include "comparing.h"

#include <inttypes.h>
#include <stdio.h>
#include <string.h>

enum fact {
  THREAD, STATE, WAIT_ID, NUMBER, ON_THREAD, GENERATING, REGION, ENCLOSING, ENCOUNTERING, MEMBER, GROUP, OPEN_GROUPS, LEVELS_VAR, ACTIVE_LEVELS_VAR, TEAM_SIZE_VAR,
  DYN_VAR, NTHREADS_VAR, RUN_SCHED_VAR, DEVICE_VAR, FINAL_VAR, IMPLICIT_VAR, MAX_ACTIVE_LEVELS_VAR, NUM_PROCS_VAR, FACTS
};
static const char *const fact_names[FACTS] = {
  "thread by its native id", "state", "wait id", "thread-num-var", "task on the thread", "generating task", "region of a task",
  "enclosing region", "encountering task", "member of a region", "group of a task", "open groups", "levels-var", "active-levels-var", "team-size-var", "dyn-var", "nthreads-var",
  "run-sched-var", "default-device-var", "final-task-var", "implicit-task-var", "max-active-levels-var", "num-procs-var",
};
static const char *const doing_names[DOINGS] = {
  "works", "is at a barrier", "is at a region's end", "is at a taskwait", "is at a taskgroup's end", "is at a critical section",
  "is at a lock",
};

/* How often each was compared and differed, and what was met: threads by what they do, the regions and tasks that they are in. */
static struct { unsigned long same, differ; } counts[FACTS];
static struct { unsigned long doing[DOINGS], waiting, undecided, nested, serialized, explicit, final, deepest; } met;

/* The thread that is compared. */
static const struct said *all;
static const struct speaker *who;

static void same(enum fact fact, uint64_t said, uint64_t shown)
{
  if (said == shown) {
    counts[fact].same++;
    return;
  }
  counts[fact].differ++;
  printf("thread %d %s: %s: %" PRIu64 " (%#" PRIx64 ") is said, %" PRIu64 " (%#" PRIx64 ") is shown\n", who->native,
         doing_names[who->doing], fact_names[fact], said, said, shown, shown);
}

static const struct task_said *task_of(uint64_t number)
{
  return all->task + number % MOST_TASKS;
}
static const struct region_said *region_of(uint64_t number)
{
  return all->region + number % MOST_REGIONS;
}
static uint64_t current_task(const struct speaker *speaker)
{
  return speaker->task[speaker->depth - 1];
}

/* ---- Which object a number stands for ----
 *
 * The first meeting says it. From then on the number stands for this object alone, and the object for this number alone. */

enum { MOST_OBJECTS = 2 * MOST_TASKS };

struct numbering {
  struct identity of[MOST_TASKS]; /* by number */
  struct { struct identity object; uint64_t number; } back[MOST_OBJECTS];
};
static struct numbering tasks, regions;

void forget_numbers(void)
{
  memset(&tasks, 0, sizeof tasks);
  memset(&regions, 0, sizeof regions);
}

static bool equal(struct identity a, struct identity b)
{
  return a.address == b.address && a.life == b.life;
}

/* The number of an object, which is to be this one where neither was met before. 0 of none. */
static uint64_t number_of(struct numbering *numbering, struct identity object, uint64_t said)
{
  if (!object.address)
    return 0;
  size_t place = (object.address / WORD * 31 + object.life * 7919) % MOST_OBJECTS;
  while (numbering->back[place].number && !equal(numbering->back[place].object, object))
    place = (place + 1) % MOST_OBJECTS;
  if (!numbering->back[place].number && numbering->of[said].address == 0) {
    numbering->of[said] = object;
    numbering->back[place].object = object;
    numbering->back[place].number = said;
  }
  return numbering->back[place].number;
}

static void same_task(enum fact fact, uint64_t said, ompd_task_handle_t *shown)
{
  same(fact, said, number_of(&tasks, identity_of_task(shown), said));
}
static void same_region(enum fact fact, uint64_t said, ompd_parallel_handle_t *shown)
{
  same(fact, said, number_of(&regions, identity_of_region(shown), said));
}

/* ---- What is compared ---- */

/* Whether a call gave a handle. */
static bool is_given(enum fact fact, ompd_rc_t rc)
{
  same(fact, ompd_rc_ok, rc);
  return rc == ompd_rc_ok;
}

/* The region of a task. */
static void compare_region_of(ompd_task_handle_t *task, uint64_t said)
{
  ompd_parallel_handle_t *region;
  if (!is_given(REGION, ompd.get_task_parallel_handle(task, &region)))
    return;
  same_region(REGION, task_of(said)->region, region);
  EXPECT(ompd.rel_parallel_handle(region) == ompd_rc_ok);
}

/* The group of a task, by its owner and its number among the owner's, and the groups that the task has open. */
static void compare_groups(ompd_task_handle_t *task, const struct task_said *said)
{
  struct group_words shown = groups_of(identity_of_task(task));
  same(GROUP, said->group_owner, number_of(&tasks, shown.owner, said->group_owner));
  same(GROUP, said->group_index, shown.index);
  same(OPEN_GROUPS, (uint64_t)said->open_groups, shown.open);
}

/* The tasks on the thread, from its current one on. */
static void compare_scheduling(ompd_task_handle_t *task)
{
  for (int depth = who->depth; depth-- > 0;) {
    uint64_t said = who->task[depth];
    same_task(ON_THREAD, said, task);
    compare_region_of(task, said);
    compare_groups(task, task_of(said));
    same(FINAL_VAR, task_of(said)->final, (uint64_t)icv_of(task, ompd_scope_task, FINAL_TASK));
    same(IMPLICIT_VAR, task_of(said)->implicit, (uint64_t)icv_of(task, ompd_scope_task, IMPLICIT_TASK));
    ompd_task_handle_t *next = NULL;
    ompd_rc_t rc = ompd.get_scheduling_task_handle(task, &next);
    EXPECT(ompd.rel_task_handle(task) == ompd_rc_ok);
    same(ON_THREAD, depth == 0 ? ompd_rc_unavailable : ompd_rc_ok, rc);
    if (rc != ompd_rc_ok)
      return;
    task = next;
  }
  EXPECT(ompd.rel_task_handle(task) == ompd_rc_ok);
}

/* The tasks that made one another, from the current one on. */
static void compare_generating(ompd_task_handle_t *task)
{
  for (uint64_t said = current_task(who); said;) {
    same_task(GENERATING, said, task);
    ompd_task_handle_t *next = NULL;
    ompd_rc_t rc = ompd.get_generating_task_handle(task, &next);
    EXPECT(ompd.rel_task_handle(task) == ompd_rc_ok);
    said = task_of(said)->generating;
    same(GENERATING, said == 0 ? ompd_rc_unavailable : ompd_rc_ok, rc);
    if (rc != ompd_rc_ok)
      return;
    task = next;
  }
  EXPECT(ompd.rel_task_handle(task) == ompd_rc_ok);
}

/* A member of a region that has begun. */
static void compare_member(ompd_parallel_handle_t *region, const struct region_said *said, int number)
{
  ompd_task_handle_t *task;
  ompd_thread_handle_t *thread;
  if (is_given(MEMBER, ompd.get_task_in_parallel(region, number, &task))) {
    same_task(MEMBER, said->member[number], task);
    EXPECT(ompd.rel_task_handle(task) == ompd_rc_ok);
  }
  if (is_given(MEMBER, ompd.get_thread_in_parallel(region, number, &thread))) {
    ompd_thread_id_t native = 0;
    ompd.get_thread_id(thread, 0, sizeof native, &native);
    same(MEMBER, (uint64_t)said->native[number], native);
    EXPECT(ompd.rel_thread_handle(thread) == ompd_rc_ok);
  }
}

/* The regions around the thread, from its innermost one on. */
static void compare_regions(ompd_parallel_handle_t *region)
{
  for (uint64_t number = task_of(current_task(who))->region; number;) {
    const struct region_said *said = region_of(number);
    same_region(ENCLOSING, number, region);
    same(ENCOUNTERING, said->encountering, number_of(&tasks, encountering_of(identity_of_region(region)), said->encountering));
    same(LEVELS_VAR, (uint64_t)said->levels, (uint64_t)icv_of(region, ompd_scope_parallel, LEVELS));
    same(ACTIVE_LEVELS_VAR, (uint64_t)said->active_levels, (uint64_t)icv_of(region, ompd_scope_parallel, ACTIVE_LEVELS));
    same(TEAM_SIZE_VAR, (uint64_t)said->size, (uint64_t)icv_of(region, ompd_scope_parallel, TEAM_SIZE));
    for (int member = 0; member < said->size; member++)
      if (said->member[member])
        compare_member(region, said, member);
    ompd_parallel_handle_t *next = NULL;
    ompd_rc_t rc = ompd.get_enclosing_parallel_handle(region, &next);
    EXPECT(ompd.rel_parallel_handle(region) == ompd_rc_ok);
    number = said->enclosing;
    same(ENCLOSING, number == 0 ? ompd_rc_unavailable : ompd_rc_ok, rc);
    if (rc != ompd_rc_ok)
      return;
    region = next;
  }
  EXPECT(ompd.rel_parallel_handle(region) == ompd_rc_ok);
}

static void compare_variables(ompd_task_handle_t *task)
{
  same(DYN_VAR, (uint64_t)who->dynamic, (uint64_t)icv_of(task, ompd_scope_task, DYN));
  same(NTHREADS_VAR, (uint64_t)who->threads, (uint64_t)icv_of(task, ompd_scope_task, NTHREADS));
  struct schedule shown = schedule_of(task);
  same(RUN_SCHED_VAR, (uint64_t)(who->chunk * 8 + who->kind), (uint64_t)shown.chunk * 8 + shown.kind);
  same(DEVICE_VAR, (uint64_t)who->device, (uint64_t)icv_of(task, ompd_scope_task, DEFAULT_DEVICE));
  same(FINAL_VAR, (uint64_t)who->final, (uint64_t)icv_of(task, ompd_scope_task, FINAL_TASK));
}

/* ---- States ---- */

/* Of OpenMP's table of states. */
enum {
  WORK_SERIAL = 0x000, WORK_PARALLEL = 0x001, WAIT_BARRIER_IMPLICIT_PARALLEL = 0x011, WAIT_BARRIER_EXPLICIT = 0x014,
  WAIT_BARRIER_IMPLEMENTATION = 0x015, WAIT_TASKWAIT = 0x020, WAIT_TASKGROUP = 0x021, WAIT_LOCK = 0x041, WAIT_CRITICAL = 0x042,
  OVERHEAD = 0x101
};

static uint64_t state_of(enum doing doing)
{
  switch (doing) {
  case AT_BARRIER:
    return WAIT_BARRIER_EXPLICIT;
  case AT_REGION_END:
    return WAIT_BARRIER_IMPLICIT_PARALLEL;
  case AT_TASKWAIT:
    return WAIT_TASKWAIT;
  case AT_TASKGROUP_END:
    return WAIT_TASKGROUP;
  case AT_CRITICAL:
    return WAIT_CRITICAL;
  case AT_LOCK:
    return WAIT_LOCK;
  default:
    return who->active_levels > 0 ? WORK_PARALLEL : WORK_SERIAL;
  }
}

/* Nanoseconds that a thread has run. */
static uint64_t run_ns(pid_t process, int native)
{
  char path[64];
  uint64_t ran = 0;
  snprintf(path, sizeof path, "/proc/%d/task/%d/schedstat", process, native);
  FILE *file = fopen(path, "r");
  if (!file || fscanf(file, "%" SCNu64, &ran) != 1)
    ran = 0;
  if (file)
    fclose(file);
  return ran;
}

/* A thread that says it is to wait is sure to do so once it has run for this long since, where it can't go on yet. */
enum { SURE_NS = 2000000 };

static void compare_state(ompd_thread_handle_t *thread, pid_t process)
{
  ompd_word_t state;
  ompd_wait_id_t wait;
  if (!is_given(STATE, ompd.get_state(thread, &state, &wait)))
    return;
  uint64_t said = state_of(who->doing);
  bool sure = who->doing == WORKS || run_ns(process, who->native) >= who->processor_ns + SURE_NS;
  if (!sure && (state == WORK_PARALLEL || state == WORK_SERIAL || state == OVERHEAD))
    return;
  met.waiting += who->doing != WORKS;
  /* The callback of a program of gcc says of an explicit barrier that it is one of the implementation's. */
  if (said == WAIT_BARRIER_EXPLICIT && state == WAIT_BARRIER_IMPLEMENTATION)
    said = WAIT_BARRIER_IMPLEMENTATION;
  same(STATE, said, (uint64_t)state);
  if (who->doing == AT_LOCK)
    same(WAIT_ID, all->lock & 0xffffffffffff, wait);
  else if (who->doing != AT_CRITICAL)
    same(WAIT_ID, 0, wait);
}

/* ---- Threads ---- */

static bool speaks(const struct speaker *speaker)
{
  return speaker->taken && speaker->speaks;
}

/* Another thread works, and so the wait can't be over yet. */
static bool is_held_up_by(const struct speaker *other)
{
  if (other == who || !speaks(other) || other->doing != WORKS)
    return false;
  switch (who->doing) {
  case AT_BARRIER:
  case AT_REGION_END:
    return task_of(current_task(other))->region == who->object && other->barriers == who->barriers;
  case AT_TASKWAIT:
  case AT_TASKGROUP_END:
    return current_task(other) == who->object;
  default:
    return other->holds == who->object;
  }
}

/* What a thread says holds: it works, or its wait can't be over and no task can have been begun there. */
static bool is_decided(void)
{
  if (who->doing == WORKS)
    return true;
  if (all->unstarted > 0)
    return false;
  for (int place = 0; place < MOST_SPEAKERS; place++)
    if (is_held_up_by(all->speaker + place))
      return true;
  return false;
}

static void count_what_is_met(void)
{
  const struct region_said *region = region_of(task_of(current_task(who))->region);
  const struct task_said *task = task_of(current_task(who));
  met.doing[who->doing]++;
  met.nested += who->active_levels > 1;
  met.serialized += region->levels > region_of(region->enclosing)->levels && region->size == 1 && region->levels > 0;
  met.explicit += !task->implicit;
  met.final += task->final;
  if ((unsigned long)who->depth > met.deepest)
    met.deepest = (unsigned long)who->depth;
}

static void compare_thread(ompd_address_space_handle_t *space, pid_t process)
{
  ompd_thread_handle_t *thread;
  ompd_task_handle_t *task;
  ompd_parallel_handle_t *region;
  ompd_thread_id_t native = (ompd_thread_id_t)who->native;
  if (!is_given(THREAD, ompd.get_thread_handle(space, 0, sizeof native, &native, &thread)))
    return;
  count_what_is_met();
  compare_state(thread, process);
  same(NUMBER, (uint64_t)who->number, (uint64_t)icv_of(thread, ompd_scope_thread, THREAD_NUM));
  if (is_given(ON_THREAD, ompd.get_curr_task_handle(thread, &task))) {
    compare_variables(task);
    compare_scheduling(task);
  }
  if (is_given(GENERATING, ompd.get_curr_task_handle(thread, &task)))
    compare_generating(task);
  if (is_given(ENCLOSING, ompd.get_curr_parallel_handle(thread, &region)))
    compare_regions(region);
  EXPECT(ompd.rel_thread_handle(thread) == ompd_rc_ok);
  same(MAX_ACTIVE_LEVELS_VAR, (uint64_t)who->max_active_levels,
       (uint64_t)icv_of(space, ompd_scope_address_space, MAX_ACTIVE_LEVELS));
  same(NUM_PROCS_VAR, (uint64_t)all->processors, (uint64_t)icv_of(space, ompd_scope_address_space, NUM_PROCS));
}

void compare(ompd_address_space_handle_t *space, const struct said *said, pid_t process)
{
  all = said;
  for (int place = 0; place < MOST_SPEAKERS; place++) {
    who = said->speaker + place;
    if (!speaks(who))
      continue;
    if (is_decided())
      compare_thread(space, process);
    else
      met.undecided++;
  }
}

unsigned long print_compared(void)
{
  unsigned long differ = 0, compared = 0;
  for (int fact = 0; fact < FACTS; fact++) {
    printf("  %-26s %8lu same %6lu differ\n", fact_names[fact], counts[fact].same, counts[fact].differ);
    differ += counts[fact].differ;
    compared += counts[fact].same + counts[fact].differ;
  }
  printf("threads:");
  for (int doing = 0; doing < DOINGS; doing++)
    printf(" %lu %s%s", met.doing[doing], doing_names[doing], doing + 1 < DOINGS ? "," : "\n");
  printf("of these %lu wait for sure, %lu in nested teams, %lu in serialized regions, %lu in explicit tasks, %lu in final ones, "
         "at most %lu tasks on one; %lu more are undecided\n",
         met.waiting, met.nested, met.serialized, met.explicit, met.final, met.deepest, met.undecided);
  printf("%lu facts compared, %lu differ\n", compared, differ);
  return differ;
}
