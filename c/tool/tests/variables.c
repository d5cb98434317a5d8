/* Calls that set control variables are shown at once, where the tool is preloaded: C's and Fortran's, before the first
 * region, in a task and in a member. A task keeps what its maker had when it made the task. */
#include "words.h"

#include <omp.h>
#include <stdio.h>

void omp_set_num_threads_(int *threads);
void omp_set_dynamic_(int *dynamic);
void omp_set_schedule_(omp_sched_t *kind, int *chunk);
void omp_set_max_active_levels_(int *levels);
void omp_set_default_device_(int *device);

/* The word is one for all threads, and libomp has a value for each task: of threads that set variables at once it is that of any. */
static void expect_levels(void)
{
  uint64_t shown = get(runtime_record(), RT_MAXACT);
  EXPECT(omp_in_parallel() ? shown >= 2 && shown <= 21 : shown == (uint64_t)omp_get_max_active_levels());
}

static void set_all(int number)
{
  omp_set_num_threads(number);
  EXPECT_TRUTH();
  omp_set_dynamic(number % 2);
  EXPECT_TRUTH();
  omp_set_schedule(number % 2 ? omp_sched_dynamic : omp_sched_guided, number);
  EXPECT_TRUTH();
  omp_set_max_active_levels(number);
  expect_levels();
  omp_set_default_device(number);
  EXPECT_TRUTH();
}

static void set_all_of_fortran(int number)
{
  omp_sched_t kind = omp_sched_auto;
  int dynamic = 1;
  omp_set_num_threads_(&number);
  EXPECT_TRUTH();
  omp_set_dynamic_(&dynamic);
  EXPECT_TRUTH();
  omp_set_schedule_(&kind, &number);
  EXPECT_TRUTH();
  omp_set_max_active_levels_(&number);
  expect_levels();
  omp_set_default_device_(&number);
  EXPECT_TRUTH();
}

int main(void)
{
  omp_set_num_threads(3);
  EXPECT(get(this_task(), TK_NTH) == 3);
  omp_set_max_active_levels(2);
  expect_levels();
#pragma omp parallel num_threads(3)
  {
    set_all(5 + omp_get_thread_num());
    set_all_of_fortran(2);
#pragma omp barrier
#pragma omp single
    for (int k = 1; k <= 20; k++) {
      omp_set_num_threads(k);
#pragma omp task firstprivate(k)
      {
        EXPECT(omp_get_max_threads() == k);
        EXPECT_TRUTH();
        set_all(k + 1);
      }
    }
#pragma omp parallel num_threads(2)
    {
      EXPECT_TRUTH();
      set_all(7);
    }
    EXPECT_TRUTH();
#pragma omp parallel if (0)
    {
      EXPECT_TRUTH();
      set_all(9);
    }
    EXPECT_TRUTH();
  }
  set_all(4);
  puts("variables done");
}
