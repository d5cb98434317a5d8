/* speed KIND COUNT THREADS: prints the processor time of one event in nanoseconds, of COUNT events of a kind in teams of
 * THREADS: regions, barriers, tasks, fib (tasks in a tree, whose depth COUNT is), criticals, groups, or loops of 0.1 ms. */
#include <omp.h>
#include <stdio.h>
#include <stdlib.h>
#include <string.h>
#include <time.h>

static long shared;

static double processor_time(void)
{
  struct timespec time;
  clock_gettime(CLOCK_PROCESS_CPUTIME_ID, &time);
  return time.tv_sec * 1e9 + time.tv_nsec;
}

static void regions(long count, int threads)
{
  for (long k = 0; k < count; k++) {
#pragma omp parallel num_threads(threads)
    __asm__ volatile("" ::: "memory");
  }
}

static void barriers(long count, int threads)
{
#pragma omp parallel num_threads(threads)
  for (long k = 0; k < count; k++) {
#pragma omp barrier
  }
}

static void tasks(long count, int threads)
{
#pragma omp parallel num_threads(threads)
#pragma omp single
  for (long k = 0; k < count; k++) {
#pragma omp task
    __asm__ volatile("" ::: "memory");
  }
}

static long fib(long n)
{
  if (n < 2)
    return n;
  long a, b;
#pragma omp task shared(a)
  a = fib(n - 1);
#pragma omp task shared(b)
  b = fib(n - 2);
#pragma omp taskwait
  return a + b;
}

static void tree(long depth, int threads)
{
#pragma omp parallel num_threads(threads)
#pragma omp single
  fib(depth);
}

/* How many tasks a tree has. */
static double tasks_of_tree(long depth)
{
  return depth < 2 ? 0 : 2 + tasks_of_tree(depth - 1) + tasks_of_tree(depth - 2);
}

static void criticals(long count, int threads)
{
#pragma omp parallel num_threads(threads)
  for (long k = 0; k < count; k++) {
#pragma omp critical
    shared++;
  }
}

static void groups(long count, int threads)
{
#pragma omp parallel num_threads(threads)
#pragma omp single
  for (long k = 0; k < count; k++) {
#pragma omp taskgroup
    {
#pragma omp task
      __asm__ volatile("" ::: "memory");
    }
  }
}

static void loops(long count, int threads)
{
  static double table[2048];
  for (long k = 0; k < count; k++) {
#pragma omp parallel for num_threads(threads)
    for (int place = 0; place < 2048; place++)
      for (int m = 0; m < 40; m++)
        table[place] = table[place] * 0.999 + m;
  }
}

static const struct {
  const char *name;
  void (*run)(long count, int threads);
} kinds[] = {{"regions", regions}, {"barriers", barriers}, {"tasks", tasks}, {"fib", tree},
             {"criticals", criticals}, {"groups", groups}, {"loops", loops}};

int main(int argc, char **argv)
{
  if (argc != 4)
    return 1;
  long count = atol(argv[2]);
  int threads = atoi(argv[3]);
  for (size_t k = 0; k < sizeof kinds / sizeof *kinds; k++) {
    if (strcmp(argv[1], kinds[k].name))
      continue;
    kinds[k].run(1, threads);
    double before = processor_time();
    kinds[k].run(count, threads);
    double events = kinds[k].run == tree ? tasks_of_tree(count) : (double)count;
    printf("%.1f\n", (processor_time() - before) / events);
    return 0;
  }
  return 1;
}
