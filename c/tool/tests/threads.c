/* Several initial threads beside one another, threads that end, and records of threads that are used again. */
#include "words.h"

#include <omp.h>
#include <pthread.h>
#include <stdatomic.h>
#include <stdio.h>
#include <sys/syscall.h>
#include <unistd.h>

enum { BESIDE = 4, ONE_BY_ONE = 40 };
static pthread_barrier_t all;

static uint64_t initial_region(void)
{
  uint64_t region = region_of(this_task());
  while (get(region, RG_ENCLOSING))
    region = get(region, RG_ENCLOSING);
  EXPECT(get(region, RG_SIZE) == 1 && get(region, RG_LEVELS) == 0 && !get(region, RG_ENCOUNTER));
  return region;
}

static void *beside(void *place)
{
  uint64_t *region = place;
  omp_set_num_threads(2);
#pragma omp parallel num_threads(2)
  {
    EXPECT_TRUTH();
#pragma omp single
    *region = initial_region();
#pragma omp parallel num_threads(2)
    EXPECT_TRUTH();
  }
  EXPECT_TRUTH();
  pthread_barrier_wait(&all);
  pthread_barrier_wait(&all);
  return NULL;
}

/* All have a region of their own at one moment. */
static void run_beside(void)
{
  pthread_t threads[BESIDE];
  uint64_t regions[BESIDE];
  pthread_barrier_init(&all, NULL, BESIDE + 1);
  for (int k = 0; k < BESIDE; k++)
    pthread_create(&threads[k], NULL, beside, &regions[k]);
  pthread_barrier_wait(&all);
  for (int k = 0; k < BESIDE; k++)
    for (int other = 0; other < k; other++)
      EXPECT(regions[k] != regions[other]);
  pthread_barrier_wait(&all);
  for (int k = 0; k < BESIDE; k++)
    pthread_join(threads[k], NULL);
}

static void *alone(void *native)
{
#pragma omp parallel num_threads(2)
  EXPECT_TRUTH();
  *(uint64_t *)native = (uint64_t)syscall(SYS_gettid);
  EXPECT(this_thread());
  return NULL;
}

/* More threads than there are records, one behind the other: each has one, and none is found once it has ended. */
static void run_one_by_one(void)
{
  for (int k = 0; k < ONE_BY_ONE; k++) {
    pthread_t thread;
    uint64_t native;
    pthread_create(&thread, NULL, alone, &native);
    pthread_join(thread, NULL);
    EXPECT(!thread_of(native));
  }
}

int main(void)
{
  omp_set_max_active_levels(2);
#pragma omp parallel num_threads(2)
  EXPECT_TRUTH();
  for (int round = 0; round < 3; round++) {
    run_beside();
    run_one_by_one();
    EXPECT_TRUTH();
    EXPECT(live_regions() == 1 && live_tasks() == 1);
  }
  puts("threads done");
}
