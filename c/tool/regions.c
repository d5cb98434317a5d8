/* Regions that are forked and ended, and the implicit tasks of their members. */
#include <sys/auxv.h>

#include "callbacks.h"
#include "debugger.h"

/* Fills a member's task. None can be reached before a member's `cur` is stored. */
static bool make_member(struct thread *me, word_t *region, unsigned member, word_t *maker)
{
  word_t *task = take_task(me);
  if (!task)
    return false;
  store(task + TK_IMPLICIT, 1);
  store(task + TK_REGION, address_of(region));
  store(task + TK_NUMBER, notes_of_region(region)->is_league ? 0 : member);
  store(task + TK_GENERATING, address_of(maker));
  store(task + TK_FUNC, load(region + RG_FUNC));
  store(task + TK_FINAL, 0);
  store(task + TK_TOOL, 0);
  store(task + TK_THREAD, address_of(me->record));
  store(task + TK_SCHEDULING, 0);
  store(task + TK_EXIT, 0);
  store(task + TK_ENTER, 0);
  store(task + TK_GROUP, 0);
  store(task + TK_OPEN, 0);
  if (maker)
    copy_variables(task, maker);
  store(region + RG_TEAM + member, address_of(task));
  return true;
}

/* A region with the tasks of its members, of which no more than `requested` begin. */
static word_t *make_region(struct thread *me, word_t *maker, unsigned requested, bool is_league, uint64_t function)
{
  word_t *region = requested <= arenas.thread_count ? take_region(me) : NULL;
  if (!region) {
    count_unshown(REGIONS);
    return NULL;
  }
  struct region_notes *notes = notes_of_region(region);
  *notes = (struct region_notes){.is_initial = !maker, .is_league = is_league};
  store(region + RG_FUNC, function);
  store(region + RG_ENCLOSING, maker ? load(maker + TK_REGION) : 0);
  store(region + RG_ENCOUNTER, address_of(maker));
  store(region + RG_SIZE, requested);
  store(region + RG_LEVELS, 0);
  store(region + RG_ACTIVE, 0);
  while (notes->made < requested && make_member(me, region, notes->made, maker))
    notes->made++;
  if (notes->made == requested)
    return region;
  give_back_region(me, region);
  return NULL;
}

/* The program's region has a return address; a region without one is the runtime's own, and isn't shown. */
static word_t *fork_region(struct thread *me, word_t *maker, unsigned requested, int flags, const void *code)
{
  if (!maker || !code)
    return NULL;
  word_t *region =
    make_region(me, maker, requested ? requested : 1, flags & ompt_parallel_league, function_code(code));
  if (region) {
    notes_of_region(region)->before = me->forked;
    me->forked = region;
  }
  return region;
}

void on_parallel_begin(ompt_data_t *task_data, const ompt_frame_t *frame, ompt_data_t *region_data,
                       unsigned requested, int flags, const void *code)
{
  union data_word passed = {.passed = {.holds = A_STATE}};
  struct thread *me = thread_of(task_data);
  region_data->value = passed.value;
  if (!me)
    return;
  allow_inquiries();
  store_active_levels();
  word_t *maker = current_task(me);
  if (running_task(me)) {
    learn_variables(maker);
    notes_of_task(maker)->frame = frame;
    store_frames(maker);
  }
  enter_state(me, ompt_state_overhead, 0);
  word_t *region = fork_region(me, maker, requested, flags, code);
  if (region)
    region_data->ptr = region;
  else
    ++*regions_passed(me);
}

static bool waits_for_the_end(uint64_t state)
{
  return state == state_code(ompt_state_wait_barrier_implicit_parallel, 0)
    || state == state_code(ompt_state_wait_barrier_teams, 0);
}

/* Ends the tasks of the workers, who wait for their next region: libomp calls back for the end of a worker's
 * task only when it wakes the worker, and until then the worker would be shown in a region that is over. Each
 * worker has arrived at the barrier; where it ends its task itself at this moment, one of the two does it. */
static void end_workers(word_t *region)
{
  for (uint64_t member = 1; member < load(region + RG_SIZE); member++) {
    word_t *task = record_at(load(region + RG_TEAM + member));
    word_t *thread = record_at(load(task + TK_THREAD));
    union pair shown, left;
    do {
      shown = shown_by(thread);
      left = (union pair){{0, waits_for_the_end(shown.words[1]) ? state_code(ompt_state_idle, 0) : shown.words[1]}};
    } while (shown.words[0] == address_of(task) && !swap_pair(thread + TH_CUR, shown, left));
  }
}

/* The region is not known by `region_data`: libomp 19 gives a nested team back before this call, and another
 * thread that forks may have put its own region there. */
void on_parallel_end(ompt_data_t *region_data, ompt_data_t *task_data, int flags, const void *code)
{
  (void)region_data, (void)task_data, (void)flags, (void)code;
  struct thread *me = shown_thread();
  if (!me)
    return;
  unsigned *passed = regions_passed(me);
  if (*passed)
    --*passed;
  else if (me->forked) {
    word_t *region = me->forked;
    end_workers(region);
    me->forked = notes_of_region(region)->before;
    give_back_region(me, region);
  }
  word_t *task = running_task(me);
  if (task)
    leave_runtime(task); /* its variables aren't asked for: libomp still has those of a region of one thread */
  enter_work(me);
}

static void store_once(word_t *at, uint64_t value)
{
  if (load(at) != value)
    store(at, value);
}

/* The size is known only now. Each member stores the same words, before the store that makes the region
 * visible through it. */
static void store_team(word_t *region, unsigned size)
{
  word_t *outer = record_at(load(region + RG_ENCLOSING));
  bool nested = outer && !notes_of_region(region)->is_league;
  store_once(region + RG_SIZE, size);
  store_once(region + RG_LEVELS, nested ? in_range(load(outer + RG_LEVELS) + 1, 0, MOST_LEVELS) : 0);
  store_once(region + RG_ACTIVE, nested ? in_range(load(outer + RG_ACTIVE) + (size > 1), 0, MOST_LEVELS) : 0);
}

static void begin_member(struct thread *me, word_t *region, unsigned size, unsigned number)
{
  word_t *task = record_at(load(region + RG_TEAM + number));
  struct task_notes *notes = notes_of_task(task);
  store_team(region, size);
  bool active = load(region + RG_ACTIVE) > 0, initial = notes_of_region(region)->is_initial;
  *notes = (struct task_notes){.state_of_work = active ? ompt_state_work_parallel : ompt_state_work_serial};
  store(task + TK_THREAD, address_of(me->record));
  store(task + TK_SCHEDULING, load(me->record + TH_CUR));
  if (initial)
    store_initial_variables(task);
  else
    store_member_variables(task, region);
  store(me->record + TH_CUR, address_of(task));
  enter_work(me);
  if (number == 0 && !initial)
    ompd_bp_parallel_begin();
}

void begin_initial_task(struct thread *me)
{
  if (current_task(me))
    return; /* fork.c has begun it */
  const void *entry = (const void *)getauxval(AT_ENTRY);
  word_t *region = make_region(me, NULL, 1, false, function_code(entry));
  if (region)
    begin_member(me, region, 1, 0);
  else
    me->passed_tasks++;
}

static void begin_implicit_task(struct thread *me, const ompt_data_t *region_data, unsigned size, unsigned number)
{
  word_t *region = region_data ? region_data->ptr : NULL;
  union data_word word = {.value = address_of(region)};
  bool shown = region && word.ticket.holds == A_RECORD;
  if (shown && number < size && size <= notes_of_region(region)->made)
    begin_member(me, region, size, number);
  else
    ++*tasks_passed(me);
}

static void end_implicit_task(struct thread *me)
{
  word_t *task = current_task(me);
  if (!task)
    enter_state(me, ompt_state_idle, 0); /* the thread that forked the region has ended the task */
  if (!task || !load(task + TK_IMPLICIT))
    return;
  word_t *region = record_at(load(task + TK_REGION));
  uint64_t below = load(task + TK_SCHEDULING);
  if (region == me->forked) {
    ompd_bp_parallel_end();
    end_workers(region);
  }
  swap(me->record + TH_CUR, address_of(task), below);
  enter_state(me, below ? ompt_state_overhead : ompt_state_idle, 0);
  if (notes_of_region(region)->is_initial)
    give_back_region(me, region);
}

void on_implicit_task(ompt_scope_endpoint_t endpoint, ompt_data_t *region_data, ompt_data_t *task_data,
                      unsigned size, unsigned number, int flags)
{
  struct thread *me = endpoint == ompt_scope_end ? thread_of(task_data) : shown_thread();
  if (!me)
    return;
  bool is_initial = flags & ompt_task_initial && number >= size;
  unsigned *passed = tasks_passed(me);
  if (endpoint == ompt_scope_begin && is_initial)
    begin_initial_task(me);
  else if (endpoint == ompt_scope_begin)
    begin_implicit_task(me, region_data, size, number);
  else if (*passed)
    --*passed;
  else
    end_implicit_task(me);
}
