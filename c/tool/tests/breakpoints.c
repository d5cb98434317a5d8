/* The calls at which a debugger sets breakpoints come to this program's own functions. At a begin the words show the new
 * object, and at an end still the old one. */
#include "words.h"

#include <omp.h>
#include <pthread.h>
#include <stdatomic.h>
#include <stdio.h>

enum { MEMBERS = 3, TASKS = 20, ROUNDS = 10 };

static atomic_int threads_begun, threads_ended, regions_begun, regions_ended, tasks_begun, tasks_ended;

void ompd_bp_thread_begin(void);
void ompd_bp_thread_end(void);
void ompd_bp_parallel_begin(void);
void ompd_bp_parallel_end(void);
void ompd_bp_task_begin(void);
void ompd_bp_task_end(void);

void ompd_bp_thread_begin(void)
{
  threads_begun++;
  EXPECT(this_thread());
}

void ompd_bp_thread_end(void)
{
  threads_ended++;
  EXPECT(this_thread());
}

/* The region of an initial task, which nobody forks, isn't among them. */
static void expect_region(void)
{
  uint64_t task = this_task(), region = region_of(task);
  EXPECT(get(task, TK_IMPLICIT) && get(region, RG_LIFE) % 2);
  EXPECT(word_of(region, RG_TEAM, 0) == task && get(region, RG_ENCLOSING));
}

void ompd_bp_parallel_begin(void)
{
  regions_begun++;
  expect_region();
}

void ompd_bp_parallel_end(void)
{
  regions_ended++;
  expect_region();
}

static void expect_task(void)
{
  EXPECT(!get(this_task(), TK_IMPLICIT) && get(this_task(), TK_LIFE) % 2);
}

void ompd_bp_task_begin(void)
{
  tasks_begun++;
  expect_task();
}

void ompd_bp_task_end(void)
{
  tasks_ended++;
  expect_task();
}

static void *other_root(void *nothing)
{
#pragma omp parallel num_threads(1)
  EXPECT_TRUTH();
  return nothing;
}

int main(void)
{
  for (int round = 0; round < ROUNDS; round++) {
#pragma omp parallel num_threads(MEMBERS)
#pragma omp single
    for (int k = 0; k < TASKS; k++) {
#pragma omp task
      EXPECT_TRUTH();
    }
  }
  EXPECT(threads_begun == MEMBERS && threads_ended == 0);
  EXPECT(regions_begun == ROUNDS && regions_ended == ROUNDS);
  EXPECT(tasks_begun == ROUNDS * TASKS && tasks_ended == ROUNDS * TASKS);
  pthread_t root;
  pthread_create(&root, NULL, other_root, NULL);
  pthread_join(root, NULL);
  EXPECT(threads_begun == MEMBERS + 1 && threads_ended == 1);
  EXPECT(regions_begun == ROUNDS + 1 && regions_ended == ROUNDS + 1);
  puts("breakpoints done");
}
