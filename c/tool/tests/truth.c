/* A program whose threads say what they do and know of themselves, for the process that started it: stops.c. */
#define _GNU_SOURCE
#include "speaking.h"

#include <omp.h>
#include <pthread.h>
#include <stdlib.h>

static struct said *said;
static omp_lock_t lock;

/* What each member of a team does. */
typedef void part(uint64_t region);

static void fork_team(int size, part *each)
{
  uint64_t region = new_region();
#pragma omp parallel num_threads(size)
  {
    begin_member(region);
    each(region);
    end_member(region);
  }
  end_region();
}

static void serialize(part *each)
{
  uint64_t region = new_region();
#pragma omp parallel if (0)
  {
    begin_member(region);
    each(region);
    end_member(region);
  }
  end_region();
}

static void barrier(uint64_t region)
{
  begin_wait(AT_BARRIER, region);
#pragma omp barrier
  end_barrier();
}

/* ---- Parts ---- */

/* One member comes later than the others do. */
static void work_till_late(uint64_t turn)
{
  bool late = turn % (uint64_t)omp_get_num_threads() == (uint64_t)omp_get_thread_num();
  work(late ? 4000 + below(4000) : below(200));
}

static void works(uint64_t region)
{
  work_till_late(region);
}

static void barriers(uint64_t region)
{
  for (uint64_t round = 0; round < 3; round++) {
    work_till_late(region + round);
    barrier(region);
  }
}

static void sections(uint64_t region)
{
  begin_wait(AT_CRITICAL, FIRST_CRITICAL);
#pragma omp critical(first)
  {
    end_wait();
    work_in(FIRST_CRITICAL, 1000 + below(3000));
  }
  begin_wait(AT_CRITICAL, SECOND_CRITICAL);
#pragma omp critical(second)
  {
    end_wait();
    work_in(SECOND_CRITICAL, 1000 + below(3000));
  }
  begin_wait(AT_LOCK, LOCK);
  omp_set_lock(&lock);
  end_wait();
  work_in(LOCK, 1000 + below(3000));
  omp_unset_lock(&lock);
  barrier(region);
}

static void set_variables(uint64_t region)
{
  static const omp_sched_t kinds[] = {omp_sched_static, omp_sched_dynamic, omp_sched_guided, omp_sched_auto};
  for (int round = 0; round < 3; round++) {
    work(below(300));
    omp_set_num_threads(1 + (int)below(6));
    work(below(300));
    omp_set_schedule(kinds[below(4)], (int)below(9));
    work(below(300));
    omp_set_dynamic((int)below(2));
    work(below(300));
    omp_set_default_device((int)below(3));
    work(below(1000));
  }
  barrier(region);
}

static void branch(int depth)
{
  work(below(300));
  for (int child = 0; child < 2 && depth > 0; child++) {
    uint64_t number = new_task(false);
#pragma omp task firstprivate(number, depth)
    {
      begin_task(number);
      branch(depth - 1);
      end_task();
    }
  }
#pragma omp taskwait
  work(below(300));
}

static void tree(uint64_t region)
{
  if (omp_get_thread_num() == 0)
    branch(4);
  barrier(region);
}

/* A task that ends before the one that it makes, which is in the same group. */
static void parent_in_group(void)
{
  uint64_t number = new_task(false);
#pragma omp task firstprivate(number)
  {
    begin_task(number);
    uint64_t child = new_task(false);
#pragma omp task firstprivate(child)
    {
      begin_task(child);
      work(below(500));
      end_task();
    }
    work(below(500));
    end_task();
  }
}

static void groups(uint64_t region)
{
#pragma omp taskgroup
  {
    begin_group();
    parent_in_group();
#pragma omp taskgroup
    {
      begin_group();
      parent_in_group();
      work(below(500));
      parent_in_group();
    }
    end_group();
    work(below(500));
    parent_in_group();
  }
  end_group();
  work(below(500));
  barrier(region);
}

/* Final tasks, those that are included in them, and undeferred ones. One forks a region. */
static void undeferred(uint64_t region)
{
  uint64_t number = new_task(true);
#pragma omp task final(1) firstprivate(number)
  {
    begin_task(number);
    work(below(500));
    uint64_t included = new_task(false);
#pragma omp task firstprivate(included)
    {
      begin_task(included);
      work(below(500));
      end_task();
    }
    end_task();
  }
  number = new_task(false);
#pragma omp task if (0) firstprivate(number)
  {
    begin_task(number);
    serialize(works);
    work(below(500));
    end_task();
  }
  barrier(region);
}

/* Member 0 waits for a task that another one runs. */
static void waits_for_task(uint64_t region)
{
  if (omp_get_thread_num() == 0 && omp_get_num_threads() > 1) {
    uint64_t number = new_task(false);
#pragma omp task firstprivate(number)
    {
      begin_task(number);
      work(4000 + below(4000));
      end_task();
    }
    work_until_begun(number);
    begin_wait(AT_TASKWAIT, number);
#pragma omp taskwait
    end_wait();
  }
  barrier(region);
}

static void waits_for_group(uint64_t region)
{
  if (omp_get_thread_num() == 0 && omp_get_num_threads() > 1) {
#pragma omp taskgroup
    {
      begin_group();
      uint64_t number = new_task(false);
#pragma omp task firstprivate(number)
      {
        begin_task(number);
        work(4000 + below(4000));
        end_task();
      }
      work_until_begun(number);
      begin_wait(AT_TASKGROUP_END, number);
    }
    end_group();
  }
  barrier(region);
}

/* ---- Teams ---- */

static part *const parts[] = {works, barriers, sections, set_variables, tree, groups, undeferred, waits_for_task, waits_for_group};
enum { PARTS = sizeof parts / sizeof *parts };

/* Each member forks a team, or a region of its own thread alone. */
static void nested(uint64_t region)
{
  part *each = parts[region % PARTS];
  work(below(500));
  if (region % 3 == 0)
    serialize(each);
  else
    fork_team(2, each);
  work(below(500));
}

static void round_of(uint64_t number)
{
  work(below(1000));
  switch (number % 4) {
  case 0:
    fork_team(2, nested);
    break;
  case 1:
    serialize(nested);
    break;
  default:
    fork_team(1 + (int)below(4), parts[below(PARTS)]);
  }
}

static void run_rounds(void)
{
  begin_initial();
  for (uint64_t round = 0; !said->over; round++)
    round_of(round);
  end_initial();
}

/* A second initial thread. It goes on as long as the program does: libomp 19 may crash where one ends whose tasks another thread has freed. */
static void *other_initial(void *nothing)
{
  run_rounds();
  return nothing;
}

int main(void)
{
  pthread_t other;
  said = open_said();
  omp_init_lock(&lock);
  said->lock = (uint64_t)(uintptr_t)&lock;
  said->processors = omp_get_num_procs();
  if (pthread_create(&other, NULL, other_initial, NULL))
    abort();
  run_rounds();
  pthread_join(other, NULL);
}
