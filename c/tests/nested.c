/* A real program, for debuggers: a team of three in a member of a team of two, built by a compiler with
 * OpenMP. */
#include <omp.h>

static volatile int sum;

void at_stop(void)
{
  sum++;
}

static void inner(void)
{
#pragma omp parallel num_threads(3)
  {
#pragma omp barrier
#pragma omp master
    at_stop();
#pragma omp barrier
  }
}

int main(void)
{
  omp_set_max_active_levels(2);
#pragma omp parallel num_threads(2)
  if (omp_get_thread_num() == 0)
    inner();
  return 0;
}
