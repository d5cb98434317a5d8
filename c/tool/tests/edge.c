/* edge [ROUNDS]: constructs that this project's workloads lack: dependences, detached tasks, cancellation, ordered,
 * sections, reductions, leagues, other initial threads, and more open groups than a record has room for. */
#include <omp.h>
#include <pthread.h>
#include <stdio.h>
#include <stdlib.h>

enum { ROOTS = 3 };
static long shared;

/* libomp 19 mixes up the memory of its tasks where a thread of the program has made some and ended: so these make none. */
static void *other_root(void *nothing)
{
#pragma omp parallel num_threads(2)
#pragma omp atomic
  shared++;
  return nothing;
}

/* libomp 19 has no omp_fulfill_event for gcc's programs. */
static void detach(void)
{
#ifdef __clang__
  omp_event_handle_t event = 0;
#pragma omp task detach(event)
  shared++;
#pragma omp task firstprivate(event)
  omp_fulfill_event(event);
#endif
}

static void depend(void)
{
  int x = 0, y = 0;
  for (int k = 0; k < 20; k++) {
#pragma omp task depend(inout : x)
    x++;
#pragma omp task depend(in : x) depend(out : y)
    y = x;
  }
#pragma omp taskwait depend(in : y)
}

static void open_groups(void)
{
#pragma omp taskgroup
#pragma omp taskgroup
#pragma omp taskgroup
#pragma omp taskgroup
#pragma omp taskgroup
#pragma omp taskgroup
  {
#pragma omp task
#pragma omp atomic
    shared++;
  }
}

static void share_work(void)
{
  static long sum;
#pragma omp for ordered reduction(+ : sum)
  for (int k = 0; k < 10; k++) {
#pragma omp ordered
    sum++;
  }
#pragma omp sections
  {
#pragma omp section
    shared++;
#pragma omp section
    shared++;
  }
#pragma omp for
  for (int k = 0; k < 100; k++) {
#pragma omp cancel for if (k == 50)
  }
}

static void member(void)
{
#pragma omp single
  {
    depend();
    detach();
    for (int k = 0; k < 600; k++) {
#pragma omp task
#pragma omp atomic
      shared++;
    }
    open_groups();
  }
  share_work();
}

int main(int argc, char **argv)
{
  int rounds = argc > 1 ? atoi(argv[1]) : 20;
  for (int round = 0; round < rounds; round++) {
#pragma omp parallel num_threads(3)
    member();
#pragma omp teams num_teams(2) thread_limit(2)
    {
#pragma omp parallel num_threads(2)
#pragma omp atomic
      shared++;
    }
    pthread_t roots[ROOTS];
    for (int k = 0; k < ROOTS; k++)
      pthread_create(&roots[k], NULL, other_root, NULL);
    for (int k = 0; k < ROOTS; k++)
      pthread_join(roots[k], NULL);
  }
#pragma omp task
  shared++;
#pragma omp parallel num_threads(12)
#pragma omp atomic
  shared++;
  puts("edge done");
}
