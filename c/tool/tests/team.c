/* A team of four, of which three wait at a barrier, and member 2 stops before it. */
#include <omp.h>
#include <stdio.h>
#include <unistd.h>

__attribute__((noinline)) void stop_here(void)
{
  __asm__ volatile("" ::: "memory");
}

int main(void)
{
#pragma omp parallel num_threads(4)
  {
    if (omp_get_thread_num() == 2) {
      usleep(100000);
      stop_here();
    }
#pragma omp barrier
  }
  puts("team done");
}
