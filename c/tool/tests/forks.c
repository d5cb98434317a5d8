/* Processes that are forked: their words are their own, or none, and never their parent's. */
#define _GNU_SOURCE
#include "words.h"

#include <omp.h>
#include <sched.h>
#include <stdio.h>
#include <stdlib.h>
#include <sys/syscall.h>
#include <sys/wait.h>
#include <unistd.h>

static void expect_end(pid_t child)
{
  int status;
  EXPECT(child > 0 && waitpid(child, &status, 0) == child);
  EXPECT(WIFEXITED(status) && WEXITSTATUS(status) == 0);
}

/* Outside of all regions: the child shows its one thread, and then what it does itself. */
static void fork_outside(void)
{
  uint64_t parent = (uint64_t)syscall(SYS_gettid);
  pid_t child = fork();
  if (!child) {
    EXPECT(!thread_of(parent) && shown_threads() == 1);
    uint64_t task = this_task(), region = region_of(task);
    EXPECT(get(task, TK_IMPLICIT) && get(region, RG_SIZE) == 1 && get(region, RG_LEVELS) == 0);
    EXPECT(live_regions() == 1 && live_tasks() == 1);
#pragma omp parallel num_threads(3)
    {
      EXPECT_TRUTH();
#pragma omp single
      for (int k = 0; k < 100; k++) {
#pragma omp task
        EXPECT_TRUTH();
      }
    }
    EXPECT_TRUTH();
    EXPECT(live_regions() == 1 && live_tasks() == 1);
    _exit(0);
  }
  expect_end(child);
}

/* In a region: nothing is shown of the child, whose region has no end. */
static void fork_inside(void)
{
#pragma omp parallel num_threads(3)
  {
#pragma omp critical
    {
      pid_t child = fork();
      if (!child) {
        EXPECT(!is_shown());
        _exit(0);
      }
      expect_end(child);
    }
    EXPECT_TRUTH();
  }
}

/* By the system alone, where no handler is called: nothing is shown, and the tool does nothing. */
static void fork_by_the_system(void)
{
  pid_t child = (pid_t)syscall(SYS_clone, SIGCHLD, NULL, NULL, NULL, NULL);
  if (!child) {
    EXPECT(!is_shown());
    omp_set_num_threads(2);
#pragma omp parallel num_threads(1)
    EXPECT(!is_shown());
    _exit(0);
  }
  expect_end(child);
}

/* Before the runtime has begun: parent and child each begin it. */
static void fork_before(void)
{
  pid_t child = fork();
  if (!child) {
#pragma omp parallel num_threads(2)
    EXPECT_TRUTH();
    EXPECT(live_regions() == 1 && live_tasks() == 1);
    _exit(0);
  }
  expect_end(child);
}

int main(void)
{
  fork_before();
#pragma omp parallel num_threads(3)
  EXPECT_TRUTH();
  for (int round = 0; round < 5; round++) {
    fork_outside();
    fork_inside();
    fork_by_the_system();
    EXPECT(system("true") == 0);
    EXPECT_TRUTH();
  }
#pragma omp parallel num_threads(3)
  EXPECT_TRUTH();
  EXPECT(live_regions() == 1 && live_tasks() == 1);
  puts("forks done");
}
