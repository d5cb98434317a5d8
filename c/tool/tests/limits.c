/* More threads, regions and tasks than there are records: what finds none is passed over, the program runs on, and
 * what has a record behind that is shown truly again. */
#include "words.h"

#include <omp.h>
#include <stdatomic.h>
#include <stdio.h>

static atomic_int run;

/* Tasks that all stand on one another in one thread. */
static void stack_tasks(int depth)
{
#pragma omp task if (0)
  {
    run++;
    EXPECT(get(this_task(), TK_LIFE) % 2);
    if (depth > 1)
      stack_tasks(depth - 1);
  }
}

/* Regions of one thread in one another. */
static void stack_regions(int depth)
{
#pragma omp parallel num_threads(1)
  {
    run++;
    EXPECT(get(region_of(this_task()), RG_LIFE) % 2);
#pragma omp task
    run++;
    if (depth > 1)
      stack_regions(depth - 1);
  }
}

int main(void)
{
  for (int round = 0; round < 5; round++) {
#pragma omp parallel num_threads(2)
    {
      stack_tasks(100);
      EXPECT_TRUTH();
    }
    EXPECT(run == 200);
    stack_regions(50);
    EXPECT(run == 300);
    EXPECT_TRUTH();
#pragma omp parallel num_threads(12)
    {
      run++;
#pragma omp task
      run++;
#pragma omp barrier
#pragma omp parallel num_threads(2)
      run++;
    }
    EXPECT(run == 300 + 12 * 4);
#pragma omp parallel num_threads(2)
    {
      EXPECT_TRUTH();
#pragma omp task
      EXPECT_TRUTH();
    }
    EXPECT_TRUTH();
    EXPECT(live_regions() == 1 && live_tasks() == 1);
    run = 0;
  }
  puts("limits done");
}
