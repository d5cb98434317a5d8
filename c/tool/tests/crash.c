/* Member 1 of a team of three aborts in a task, for a core of the kernel's. */
#include <omp.h>
#include <stdlib.h>
#include <unistd.h>

int main(void)
{
#pragma omp parallel num_threads(3)
  {
#pragma omp barrier
    if (omp_get_thread_num() == 1) {
#pragma omp task if (0)
      {
        usleep(50000);
        abort();
      }
    }
  }
}
