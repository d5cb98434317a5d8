/* One member makes a task that makes a task and waits for it; the inner one stops (1). Then a task in a group stops (2),
 * and a member in a critical section for which the others wait (3). */
#include <omp.h>
#include <stdio.h>
#include <unistd.h>

__attribute__((noinline)) void stop_here(int place)
{
  __asm__ volatile("" ::"r"(place) : "memory");
}

static void stop_later(int place)
{
  usleep(50000);
  stop_here(place);
}

int main(void)
{
#pragma omp parallel num_threads(3)
  {
#pragma omp single
    {
#pragma omp task
      {
#pragma omp task
        stop_later(1);
#pragma omp taskwait
      }
#pragma omp taskwait
#pragma omp taskgroup
      {
#pragma omp task final(1)
        stop_later(2);
#pragma omp task
        usleep(100);
      }
    }
#pragma omp critical(one)
    if (omp_get_thread_num() == 0)
      stop_later(3);
    else
      usleep(50000);
  }
  puts("tasks done");
}
