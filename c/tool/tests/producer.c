/* One producer makes 10,000 tasks before any of them starts, and makes them with 256 records of each thread.
 * Each task that runs is shown, with the producer as the task that made it. */
#include "words.h"

#include <omp.h>
#include <stdatomic.h>
#include <stdio.h>

enum { TASKS = 10000 };
static atomic_int ready, run;

static void be_run(uint64_t producer)
{
  uint64_t task = this_task();
  EXPECT(task != producer && !get(task, TK_IMPLICIT));
  EXPECT(get(task, TK_GENERATING) == producer);
  EXPECT_TRUTH();
  run++;
}

/* Tasks that end before those that they made: the records of the former are kept until the latter have ended. */
static void orphans(int depth)
{
#pragma omp task
  {
    uint64_t maker = this_task();
    EXPECT_TRUTH();
    if (depth) {
      orphans(depth - 1);
      orphans(depth - 1);
    }
#pragma omp task
    {
      EXPECT(get(this_task(), TK_GENERATING) == maker && get(maker, TK_LIFE) % 2 == 1);
      EXPECT_TRUTH();
    }
  }
}

int main(void)
{
#pragma omp parallel num_threads(4)
  {
#pragma omp single
    {
      uint64_t producer = this_task();
      for (int k = 0; k < TASKS; k++) {
#pragma omp task firstprivate(producer)
        be_run(producer);
      }
      printf("made %d, run %s\n", TASKS, run ? "some" : "none");
      ready = 1;
    }
    EXPECT(run == TASKS);
#pragma omp single
    orphans(5);
  }
  EXPECT(live_regions() == 1 && live_tasks() == 1);
  puts("producer done");
}
