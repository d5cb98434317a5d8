/* A team of two, of which each member forks a team of two. Member 1 of team 1 stops. */
#include <omp.h>
#include <stdio.h>
#include <unistd.h>

__attribute__((noinline)) void stop_here(void)
{
  __asm__ volatile("" ::: "memory");
}

int main(void)
{
  omp_set_max_active_levels(2);
  omp_set_schedule(omp_sched_dynamic, 7);
#pragma omp parallel num_threads(2)
  {
    int outer = omp_get_thread_num();
#pragma omp parallel num_threads(2)
    if (outer == 1 && omp_get_thread_num() == 1) {
      usleep(100000);
      stop_here();
    }
  }
  puts("nested done");
}
