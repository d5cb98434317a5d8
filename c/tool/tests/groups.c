/* Task groups: the group of each task, more open groups than a record has room for, and groups that are cancelled. */
#include "words.h"

#include <omp.h>
#include <stdatomic.h>
#include <stdio.h>

enum { MOST = 4 };

static uint64_t open_groups(void)
{
  return word_of(this_task(), TK_SLOTS, OPEN_PLACE);
}

/* The group of this task is that of the owner with the index, or none. */
static void expect_group(uint64_t owner, unsigned index)
{
  EXPECT(word_of(this_task(), TK_SLOTS, GROUP_PLACE) == (owner ? owner + index : 0));
  EXPECT_TRUTH();
}

/* Opens `depth` groups in one task, with a task in each. */
static void nest(uint64_t owner, unsigned depth)
{
  uint64_t before = open_groups();
#pragma omp taskgroup
  {
    unsigned index = before < MOST ? (unsigned)before : MOST - 1;
    EXPECT(open_groups() == index + 1u);
#pragma omp task firstprivate(owner, index)
    {
      expect_group(owner, index);
#pragma omp task
      expect_group(owner, index); /* a task that is made in no group of its maker is in that of its maker */
    }
    if (depth > 1)
      nest(owner, depth - 1);
    EXPECT(open_groups() == index + 1u);
  }
  EXPECT(open_groups() == before);
}

static void open_many(void)
{
#pragma omp parallel num_threads(3)
#pragma omp single
  {
    expect_group(0, 0);
    nest(this_task(), 6);
#pragma omp task
    {
      expect_group(0, 0);
      nest(this_task(), 6);
    }
#pragma omp task
    expect_group(0, 0);
  }
}

/* Of the tasks of a cancelled group some have run, some are cut short, and others never start, but where the thread
 * that cancels it is held up so long that the others start all. Whether one didn't start. */
static bool cancel_group(void)
{
  atomic_int started = 0;
#pragma omp parallel num_threads(4)
#pragma omp single
#pragma omp taskgroup
  for (int k = 0; k < 200; k++) {
#pragma omp task
    {
      started++;
      EXPECT_TRUTH();
#pragma omp task
      EXPECT_TRUTH();
      if (k == 20) {
#pragma omp cancel taskgroup
      }
#pragma omp cancellation point taskgroup
      EXPECT_TRUTH();
    }
  }
  return started < 200;
}

static void cancel_region(void)
{
#pragma omp parallel num_threads(4)
  {
    for (int k = 0; k < 50; k++) {
#pragma omp task
      EXPECT_TRUTH();
    }
    if (omp_get_thread_num() == 1) {
#pragma omp cancel parallel
    }
#pragma omp cancellation point parallel
#pragma omp barrier
  }
  EXPECT_TRUTH();
#pragma omp parallel num_threads(4)
  {
#pragma omp for
    for (int k = 0; k < 100; k++) {
#pragma omp cancel for if (k == 50)
    }
    EXPECT_TRUTH();
  }
}

int main(void)
{
  int discarded = 0;
  for (int round = 0; round < 20; round++) {
    open_many();
    EXPECT(live_regions() == 1 && live_tasks() == 1);
    discarded += cancel_group();
    EXPECT(live_regions() == 1 && live_tasks() == 1);
    cancel_region();
    EXPECT(live_regions() == 1 && live_tasks() == 1);
  }
  EXPECT(!omp_get_cancellation() || discarded);
  puts("groups done");
}
