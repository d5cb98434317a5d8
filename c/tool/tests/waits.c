/* What a thread waits for, as another thread sees it; and behind each wait the state of work again. */
#include "words.h"

#include <omp-tools.h>
#include <omp.h>
#include <stdatomic.h>
#include <stdio.h>
#include <sys/syscall.h>
#include <unistd.h>

enum { STATE_BITS = 16, PATIENCE = 200000 }; /* 20 seconds and more */
static atomic_uint waiter;
static omp_lock_t lock;
static omp_nest_lock_t nested;

/* The calling thread is the one that is looked at. */
static void be_watched(void)
{
  EXPECT_TRUTH();
  waiter = (unsigned)syscall(SYS_gettid);
}

/* Waits until the thread that is watched is in one of two states, and answers the word. */
static uint64_t expect_state(uint64_t state, uint64_t or_state)
{
  for (int patience = 0; patience < PATIENCE; patience++) {
    uint64_t thread = waiter ? thread_of(waiter) : 0;
    uint64_t word = thread ? get(thread, TH_STATE) : 0;
    uint64_t found = word & ((1 << STATE_BITS) - 1);
    if (thread && (found == state || found == or_state)) {
      waiter = 0;
      return word >> STATE_BITS;
    }
    usleep(100);
  }
  fail_test(__FILE__, __LINE__, "the thread waits");
}

static void locks(void)
{
#pragma omp parallel num_threads(2)
  {
    if (omp_get_thread_num() == 0) {
      omp_set_lock(&lock);
      omp_set_nest_lock(&nested);
      omp_set_nest_lock(&nested);
      EXPECT_TRUTH();
      EXPECT(expect_state(ompt_state_wait_lock, ompt_state_wait_lock) == (uintptr_t)&lock);
      omp_unset_lock(&lock);
      EXPECT(expect_state(ompt_state_wait_lock, ompt_state_wait_lock) == (uintptr_t)&nested);
      omp_unset_nest_lock(&nested);
      omp_unset_nest_lock(&nested);
    } else {
      while (omp_test_lock(&lock))
        omp_unset_lock(&lock);
      EXPECT_TRUTH(); /* a lock that is tested is not waited for */
      be_watched();
      omp_set_lock(&lock);
      be_watched();
      omp_set_nest_lock(&nested);
      EXPECT_TRUTH();
      omp_unset_nest_lock(&nested);
      omp_unset_lock(&lock);
    }
  }
}

static void criticals(void)
{
  atomic_int inside = 0;
#pragma omp parallel num_threads(2)
  {
    if (omp_get_thread_num() == 0) {
#pragma omp critical(one)
      {
        inside = 1;
        EXPECT(expect_state(ompt_state_wait_critical, ompt_state_wait_critical));
      }
    } else {
      while (!inside)
        usleep(100);
      be_watched();
#pragma omp critical(one)
      EXPECT_TRUTH();
    }
  }
}

/* libomp says of gcc's explicit barriers that they are the implementation's. */
static void barriers(void)
{
#pragma omp parallel num_threads(2)
  {
    if (omp_get_thread_num() == 0)
      expect_state(ompt_state_wait_barrier_explicit, ompt_state_wait_barrier_implementation);
    else
      be_watched();
#pragma omp barrier
    EXPECT_TRUTH();
#pragma omp for ordered schedule(static, 1)
    for (int k = 0; k < 2; k++) {
      if (k == 1)
        be_watched();
#pragma omp ordered
      {
        if (k == 0)
          expect_state(ompt_state_wait_ordered, ompt_state_wait_ordered);
        EXPECT_TRUTH();
      }
    }
  }
  EXPECT_TRUTH();
}

/* The task that is waited for is the other thread's, so that the one which waits has nothing to run. */
static void waits_for_tasks(void)
{
  atomic_int started = 0;
  int x = 0;
#pragma omp parallel num_threads(2)
#pragma omp single
  {
#pragma omp task
    {
      started = 1;
      expect_state(ompt_state_wait_taskwait, ompt_state_wait_taskwait);
    }
    while (!started)
      usleep(100);
    be_watched();
#pragma omp taskwait
    EXPECT_TRUTH();
    started = 0;
#pragma omp task depend(out : x)
    {
      x = 1;
      started = 1;
      expect_state(ompt_state_wait_taskwait, ompt_state_wait_taskwait);
    }
    while (!started)
      usleep(100);
    be_watched();
#pragma omp taskwait depend(in : x)
    EXPECT(x == 1);
    EXPECT_TRUTH();
    started = 0;
#pragma omp taskgroup
    {
#pragma omp task
      {
        started = 1;
        expect_state(ompt_state_wait_taskgroup, ompt_state_wait_taskgroup);
      }
      while (!started)
        usleep(100);
      be_watched();
    }
    EXPECT_TRUTH();
  }
}

/* A worker has no task from the end of its region on, and is idle as soon as it has left the barrier. */
static void workers(void)
{
  uint64_t worker = 0;
#pragma omp parallel num_threads(2)
  if (omp_get_thread_num() == 1)
    worker = this_thread();
  EXPECT(get(worker, TH_CUR) == 0);
  for (int patience = 0; get(worker, TH_STATE) != ompt_state_idle; patience++) {
    EXPECT(patience < PATIENCE);
    usleep(100);
  }
  usleep(20000);
  EXPECT(get(worker, TH_CUR) == 0 && get(worker, TH_STATE) == ompt_state_idle);
}

int main(void)
{
  omp_init_lock(&lock);
  omp_init_nest_lock(&nested);
  for (int round = 0; round < 5; round++) {
    locks();
    criticals();
    barriers();
    waits_for_tasks();
    workers();
  }
  puts("waits done");
}
