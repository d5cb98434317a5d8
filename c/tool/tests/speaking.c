#define _GNU_SOURCE
#include "speaking.h"

#include <omp.h>
#include <stdio.h>
#include <stdlib.h>
#include <string.h>
#include <sys/mman.h>
#include <time.h>
#include <unistd.h>

static struct said *said;

/* This thread's place among the speakers, and its sequence of random numbers. */
static _Thread_local struct speaker *self;
static _Thread_local unsigned seed;

struct said *open_said(void)
{
  const char *file = getenv(SAID_FILE);
  void *memory = file ? mmap(NULL, sizeof *said, PROT_READ | PROT_WRITE, MAP_SHARED, atoi(file), 0) : MAP_FAILED;
  if (memory == MAP_FAILED) {
    fprintf(stderr, "truth: no memory to speak in: it is started by stops\n");
    exit(2);
  }
  return said = memory;
}

unsigned below(unsigned bound)
{
  return (unsigned)rand_r(&seed) % bound;
}

/* The speaker of this thread, which is silent when it is taken. */
static struct speaker *speaker(void)
{
  for (int place = 0; !self && place < MOST_SPEAKERS; place++) {
    struct speaker *free = said->speaker + place;
    if (atomic_exchange(&free->taken, true))
      continue;
    self = free;
    self->native = gettid();
    self->depth = self->barriers = 0;
    seed = (unsigned)self->native;
  }
  if (!self)
    abort();
  return self;
}

static uint64_t nanoseconds(clockid_t clock)
{
  struct timespec time;
  clock_gettime(clock, &time);
  return (uint64_t)time.tv_sec * 1000000000 + (uint64_t)time.tv_nsec;
}

/* ---- Tasks and regions ---- */

static uint64_t current_task(void)
{
  return speaker()->depth ? self->task[self->depth - 1] : 0;
}

static struct task_said *task_of(uint64_t number)
{
  return said->task + number % MOST_TASKS;
}

static struct region_said *region_of(uint64_t number)
{
  return said->region + number % MOST_REGIONS;
}

static void push(uint64_t task)
{
  if (speaker()->depth == MOST_DEPTH)
    abort();
  self->task[self->depth++] = task;
}

static uint64_t record_task(uint64_t generating, uint64_t region, bool implicit, bool final)
{
  uint64_t number = atomic_fetch_add(&said->tasks, 1) + 1;
  struct task_said *made = task_of(number);
  memset(made, 0, sizeof *made);
  made->number = number;
  made->generating = generating;
  made->region = region;
  made->implicit = implicit;
  made->final = final;
  return number;
}

uint64_t new_region(void)
{
  uint64_t number = atomic_fetch_add(&said->regions, 1) + 1, task = current_task();
  struct region_said *made = region_of(number);
  memset(made, 0, sizeof *made);
  made->number = number;
  made->enclosing = task ? task_of(task)->region : 0;
  made->encountering = task;
  return number;
}

static void fall_silent(void)
{
  atomic_store(&speaker()->speaks, false);
}

/* The task that encountered the region made the implicit tasks of its members, and is left for that of member 0. */
static void begin_implicit(uint64_t region)
{
  struct region_said *entered = region_of(region);
  int number = omp_get_thread_num();
  if (number >= MOST_MEMBERS)
    abort();
  if (number != 0)
    self->depth = 0;
  entered->size = omp_get_num_threads();
  entered->levels = omp_get_level();
  entered->active_levels = omp_get_active_level();
  push(record_task(entered->encountering, region, true, false));
  entered->native[number] = self->native;
  entered->member[number] = current_task();
}

void begin_initial(void)
{
  begin_implicit(new_region());
}

void end_initial(void)
{
  struct speaker *mine = speaker();
  fall_silent();
  self = NULL;
  atomic_store(&mine->taken, false);
}

/* By the depth of a member's task, the barriers that were passed in the region around. */
static _Thread_local int passed_around[MOST_DEPTH];

void begin_member(uint64_t region)
{
  fall_silent();
  begin_implicit(region);
  passed_around[self->depth - 1] = self->barriers;
  self->barriers = 0;
}

void end_member(uint64_t region)
{
  begin_wait(AT_REGION_END, region);
}

void end_region(void)
{
  fall_silent();
  self->depth--;
  self->barriers = passed_around[self->depth];
}

uint64_t new_task(bool final)
{
  uint64_t maker = current_task();
  const struct task_said *by = task_of(maker);
  atomic_fetch_add(&said->unstarted, 1);
  uint64_t number = record_task(maker, by->region, false, final || by->final);
  task_of(number)->group_owner = by->open_groups ? maker : by->group_owner;
  task_of(number)->group_index = by->open_groups ? (uint64_t)by->open_groups - 1 : by->group_index;
  return number;
}

void begin_task(uint64_t number)
{
  fall_silent();
  push(number);
  atomic_fetch_sub(&said->unstarted, 1);
  task_of(number)->begun = true;
}

void end_task(void)
{
  self->depth--;
}

void begin_group(void)
{
  task_of(current_task())->open_groups++;
}

void end_group(void)
{
  fall_silent();
  task_of(current_task())->open_groups--;
}

/* ---- Speaking ---- */

static void say(enum doing doing, uint64_t object, enum held holds)
{
  struct speaker *s = speaker();
  omp_sched_t kind;
  omp_get_schedule(&kind, &s->chunk);
  s->kind = (int)(kind & 0xff);
  s->number = omp_get_thread_num();
  s->size = omp_get_num_threads();
  s->levels = omp_get_level();
  s->active_levels = omp_get_active_level();
  s->threads = omp_get_max_threads();
  s->dynamic = omp_get_dynamic();
  s->device = omp_get_default_device();
  s->final = omp_in_final();
  s->max_active_levels = omp_get_max_active_levels();
  s->doing = doing;
  s->object = object;
  s->holds = holds;
  s->processor_ns = nanoseconds(CLOCK_THREAD_CPUTIME_ID);
  atomic_store(&s->speaks, true);
}

/* Spins, or, now and then, sleeps. */
static void pass_time(unsigned microseconds)
{
  uint64_t until = nanoseconds(CLOCK_MONOTONIC) + 1000 * (uint64_t)microseconds;
  if (below(4) == 0)
    usleep(microseconds);
  while (nanoseconds(CLOCK_MONOTONIC) < until)
    ;
}

void work_in(enum held holds, unsigned microseconds)
{
  say(WORKS, 0, holds);
  pass_time(microseconds);
  fall_silent();
}

void work(unsigned microseconds)
{
  work_in(NOTHING, microseconds);
}

void work_until_begun(uint64_t task)
{
  say(WORKS, 0, NOTHING);
  while (!task_of(task)->begun)
    pass_time(10);
  fall_silent();
}

void begin_wait(enum doing doing, uint64_t object)
{
  say(doing, object, NOTHING);
}

void end_wait(void)
{
  fall_silent();
}

void end_barrier(void)
{
  fall_silent();
  self->barriers++;
}
