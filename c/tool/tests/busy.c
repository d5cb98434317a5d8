/* busy [SECONDS]: a mix of loops, recursive tasks, task groups, critical sections, locks, nested teams, and undeferred,
 * final and untied tasks. */
#include <omp.h>
#include <stdio.h>
#include <stdlib.h>

static long shared;
static omp_lock_t lock;

static long fib(int n)
{
  if (n < 2)
    return n;
  long a, b;
#pragma omp task shared(a) if (n > 4)
  a = fib(n - 1);
#pragma omp task shared(b) final(n < 6)
  b = fib(n - 2);
#pragma omp taskwait
  return a + b;
}

static void tree(int depth)
{
  if (!depth) {
#pragma omp critical(one)
    shared++;
    return;
  }
#pragma omp taskgroup
  {
#pragma omp task
    tree(depth - 1);
#pragma omp task
    tree(depth - 1);
#pragma omp task untied
    {
#pragma omp atomic
      shared++;
#pragma omp taskyield
#pragma omp atomic
      shared++;
    }
  }
}

/* Tasks that end before those that they made. */
static void orphans(int depth)
{
#pragma omp task
  {
    if (depth) {
      orphans(depth - 1);
      orphans(depth - 1);
    }
  }
}

static void mix(void)
{
#pragma omp for schedule(dynamic, 3)
  for (int k = 0; k < 50; k++) {
#pragma omp atomic
    shared += k;
  }
#pragma omp single
  fib(12);
#pragma omp single nowait
  tree(5);
  orphans(4);
#pragma omp barrier
  omp_set_lock(&lock);
  shared++;
  omp_unset_lock(&lock);
#pragma omp parallel num_threads(2) if (omp_get_thread_num() % 2)
  {
#pragma omp single
    fib(6);
#pragma omp parallel num_threads(2)
    orphans(2);
  }
#pragma omp taskloop grainsize(4)
  for (int k = 0; k < 40; k++) {
#pragma omp atomic
    shared += k;
  }
}

int main(int argc, char **argv)
{
  double until = omp_get_wtime() + (argc > 1 ? atof(argv[1]) : 1);
  omp_init_lock(&lock);
  omp_set_max_active_levels(3);
  while (omp_get_wtime() < until) {
#pragma omp parallel num_threads(4)
    mix();
#pragma omp parallel num_threads(3)
    {
#pragma omp critical(one)
      shared++;
    }
  }
  puts("busy done");
}
