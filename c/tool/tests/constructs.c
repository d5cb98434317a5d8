/* In each construct the words say of a thread what OpenMP's calls answer it there. */
#include "words.h"

#include <omp.h>
#include <stdio.h>

static void truth(void)
{
  EXPECT_TRUTH();
}

static void regions(void)
{
#pragma omp parallel num_threads(4)
  {
    truth();
#pragma omp barrier
    truth();
#pragma omp for schedule(dynamic, 3) ordered
    for (int k = 0; k < 20; k++) {
      truth();
#pragma omp ordered
      truth();
    }
#pragma omp sections
    {
#pragma omp section
      truth();
#pragma omp section
      truth();
    }
#pragma omp single
    truth();
#pragma omp critical
    truth();
#pragma omp parallel num_threads(2)
    {
      truth();
#pragma omp parallel num_threads(2)
      truth();
      truth();
    }
    truth();
  }
  truth();
}

/* Regions of one thread: by their size, a false condition, and because no more levels may be active. */
static void serialized(void)
{
#pragma omp parallel num_threads(1)
  {
    truth();
#pragma omp parallel num_threads(1)
    truth();
#pragma omp parallel num_threads(3)
    truth();
  }
#pragma omp parallel num_threads(3) if (omp_get_max_threads() < 0)
  truth();
  omp_set_max_active_levels(1);
#pragma omp parallel num_threads(2)
#pragma omp parallel num_threads(2)
#pragma omp parallel num_threads(2)
  {
    EXPECT(get(region_of(this_task()), RG_SIZE) == 1);
    truth();
  }
  omp_set_max_active_levels(3);
}

/* Where gcc's programs nest these, libomp 19 mixes up OMPT's words of their tasks. */
static void serialized_in_tasks(int depth)
{
  if (!depth)
    return;
#pragma omp parallel num_threads(1)
  {
    truth();
#pragma omp task if (0)
    {
      truth();
#pragma omp parallel num_threads(1)
      truth();
      truth();
#pragma omp task final(1)
      {
#pragma omp parallel if (0)
        EXPECT(!get(this_task(), TK_FINAL)); /* of which libomp's omp_in_final says that it is */
        truth();
      }
      serialized_in_tasks(depth - 1);
      truth();
    }
    truth();
    serialized_in_tasks(depth - 1);
    truth();
  }
}

static void tasks(void)
{
#pragma omp parallel num_threads(4)
#pragma omp single
  {
    for (int k = 0; k < 100; k++) {
#pragma omp task
      {
        truth();
#pragma omp task if (0)
        truth();
#pragma omp task final(1)
        {
          truth();
#pragma omp task
          truth();
#pragma omp taskwait
          truth();
        }
#pragma omp task mergeable if (0)
        truth();
#pragma omp taskgroup
        {
#pragma omp task
          truth();
          truth();
        }
        truth();
#pragma omp taskyield
        truth();
#pragma omp taskwait
        truth();
      }
    }
#pragma omp taskloop grainsize(3)
    for (int k = 0; k < 50; k++)
      truth();
    truth();
  }
  truth();
}

static void dependences(void)
{
  int x = 0;
#pragma omp parallel num_threads(3)
#pragma omp single
  {
    for (int k = 0; k < 20; k++) {
#pragma omp task depend(inout : x)
      {
        x++;
        truth();
      }
    }
#pragma omp taskwait depend(in : x)
    truth();
#pragma omp task if (0) depend(inout : x)
    truth();
  }
  EXPECT(x == 20);
}

/* The initial tasks of a league have level 0, as behind no fork. */
static void leagues(void)
{
#pragma omp teams num_teams(2) thread_limit(2)
  {
#pragma omp parallel num_threads(2)
    {
      truth();
      uint64_t team = get(region_of(this_task()), RG_ENCLOSING);
      EXPECT(get(team, RG_LEVELS) == 0 && get(team, RG_ACTIVE) == 0);
#pragma omp task
      truth();
    }
  }
  truth();
}

int main(void)
{
  omp_set_max_active_levels(3);
  omp_set_schedule(omp_sched_guided, 5);
  for (int round = 0; round < 5; round++) {
    regions();
    serialized();
    serialized_in_tasks(4);
#pragma omp parallel num_threads(3)
    serialized_in_tasks(3);
    tasks();
    dependences();
    leagues();
    EXPECT(live_regions() == 1 && live_tasks() == 1);
  }
  puts("constructs done");
}
