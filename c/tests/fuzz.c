/* Asks about hostile memory: fuzz LIBRARY FOLDER RUNS SEED.
 *
 * Each run changes words of a core, of its layout table and its symbols too, opens it, and walks from
 * object to object by calls that are drawn, while words change and callbacks fail. No call may read without
 * end, keep memory, answer a value where a callback failed or nothing was mapped, or touch what it doesn't
 * answer. */
#define _POSIX_C_SOURCE 200809L

#include "trials.h"

#include <stdio.h>
#include <stdlib.h>
#include <string.h>
#include <unistd.h>

enum { MOST_READS = 192, STEPS = 60, SECONDS_OF_A_RUN = 20, OPENING_WORDS = 99, CONTEXTS = 3 };

static uint64_t drawn;
static unsigned long answers[ompd_rc_callback_error + 1], calls, swallowed, forgeries, most_reads;

/* A number below a bound, and one in so many times. */
static uint64_t draw(uint64_t bound)
{
  uint64_t mixed = drawn += 0x9e3779b97f4a7c15;
  mixed = (mixed ^ mixed >> 30) * 0xbf58476d1ce4e5b9;
  mixed = (mixed ^ mixed >> 27) * 0x94d049bb133111eb;
  mixed ^= mixed >> 31;
  return bound ? mixed % bound : mixed;
}

static bool once_in(uint64_t times)
{
  return draw(times) == 0;
}

static uint64_t drawn_address(const struct target *target)
{
  const struct segment *segment = target->segment + draw(target->segments);
  return segment->start + WORD * draw(segment->words);
}

static uint64_t drawn_word(const struct target *target)
{
  switch (draw(9)) {
  case 0:
    return 0;
  case 1:
    return draw(70);
  case 2:
    return drawn_address(target);
  case 3:
    return drawn_address(target) + draw(WORD);
  case 4:
    return drawn_address(target) + WORD * draw(100);
  case 5:
    return UINT64_MAX - draw(100);
  case 6:
    return (uint64_t)1 << draw(64);
  case 7:
    return word_of(target, bytes_at(target, drawn_address(target)));
  default:
    return draw(0);
  }
}

/* Changes a word, seldom one of the symbols and the layout table, which are the first ones. */
static void change(const struct target *target)
{
  uint64_t address = SYMBOLS + WORD * draw(OPENING_WORDS);
  if (!once_in(20))
    do
      address = drawn_address(target);
    while (address < SYMBOLS + WORD * OPENING_WORDS);
  unsigned char *bytes = bytes_at(target, address);
  set_word(target, bytes, once_in(4) ? word_of(target, bytes) + draw(3) - 1 : drawn_word(target));
}

/* Asks, seldom with a callback that fails, and judges the answer by what the callbacks saw. */
static ompd_rc_t ask(const struct trial *trial, const struct place *at, struct answer *got)
{
  watch_calls(once_in(16) ? 1 + draw(1 + draw(24)) : 0, 1 + draw(ompd_rc_callback_error));
  ompd_rc_t rc = trial->ask(at, got);
  ompd_rc_t due = watch.unmapped ? ompd_rc_error : rc;
  if (watch.failed)
    due = answer_to(watch.failed, watch.fail_with);
  EXPECT(rc <= ompd_rc_callback_error && watch.reads <= MOST_READS);
  EXPECT(rc == ompd_rc_ok || rc == ompd_rc_incomplete || is_clear(got));
  EXPECT(rc != ompd_rc_ok || !is_clear(got));
  swallowed += rc != due;
  most_reads = watch.reads > most_reads ? watch.reads : most_reads;
  answers[rc]++;
  calls++;
  watch_calls(0, ompd_rc_ok);
  return rc;
}

/* Goes over to an object that was found. */
static void go_to(struct place *at, struct answer *got)
{
  struct answer left;
  clear_answer(&left);
#define GO_TO(handle) \
  if (got->handle != left.handle) { \
    void *old = at->handle; \
    at->handle = got->handle; \
    got->handle = old; \
  }
  GO_TO(thread)
  GO_TO(region)
  GO_TO(task)
#undef GO_TO
}

/* What is no handle of a kind that is asked for: one of another kind, one that was released, another number,
 * an address. */
static void *forged(const struct place *at, const void *handle, void *released)
{
  switch (draw(5)) {
  case 0:
    return released;
  case 1:
    return at->space;
  case 2:
    return (void *)((uintptr_t)handle ^ (uintptr_t)1 << draw(64));
  case 3:
    return (void *)(uintptr_t)draw(0);
  default:
    return &forgeries;
  }
}

/* Each call by a forged handle is refused, asks for nothing and answers nothing. */
static void forge(const struct place *at, void *released)
{
  struct place asked = *at;
  struct answer got;
  clear_answer(&got);
  asked.thread = forged(at, at->thread, released);
  asked.region = forged(at, at->region, released);
  asked.task = forged(at, at->task, released);
  static const char *const by_handle[] = {
    "thread_in_parallel", "thread_id", "thread_compare", "curr_parallel", "enclosing_parallel",
    "task_parallel", "parallel_compare", "curr_task", "generating_task", "scheduling_task",
    "task_in_parallel", "task_compare", "task_function", "task_frame", "state", "thread_icv", "region_icv",
    "task_icv", "thread_icv_text", "region_icv_text", "task_icv_text", "thread_tool", "region_tool",
    "task_tool"};
  const struct trial *trial = trials;
  const char *name = by_handle[draw(sizeof by_handle / sizeof *by_handle)];
  while (strcmp(trial->name, name))
    trial++;
  watch_calls(0, ompd_rc_ok);
  EXPECT(trial->ask(&asked, &got) == ompd_rc_stale_handle && is_clear(&got) && watch.calls == 0);
  forgeries++;
}

static void walk(struct place *at, const struct target *target)
{
  struct answer got;
  ompd_thread_handle_t *released;
  clear_answer(&got);
  watch_calls(0, ompd_rc_ok);
  if (ompd.get_thread_in_parallel(at->region, 0, &released) == ompd_rc_ok)
    EXPECT(ompd.rel_thread_handle(released) == ompd_rc_ok);
  else
    released = NULL;
  for (int step = 0; step < STEPS; step++) {
    at->native = once_in(4) ? draw(0) : target->ids[draw(target->contexts)];
    at->member = (int)draw(6) - 1;
    at->state = once_in(2) ? 0x102 : (ompd_word_t)draw(0x110);
    at->icv = once_in(10) ? draw(0) : draw(LAST_ICV + 3);
    if (once_in(20))
      forge(at, released);
    if (ask(trials + draw(trial_count), at, &got) == ompd_rc_ok && once_in(2))
      go_to(at, &got);
    undo(&got);
    if (once_in(8))
      change(target);
  }
}

/* Follows the chain of a call from the object of a place on, which damaged words may close to a ring. */
static void follow(struct place *at, const char *name)
{
  const struct trial *trial = trials;
  while (strcmp(trial->name, name))
    trial++;
  struct answer got;
  clear_answer(&got);
  for (int step = 0; step < STEPS && ask(trial, at, &got) == ompd_rc_ok; step++) {
    go_to(at, &got);
    undo(&got);
  }
}

static void run(struct target *target, const char *folder)
{
  struct place at = {.context = (ompd_address_space_context_t *)target};
  struct answer got;
  open_target(target, folder, cores[draw(core_count)]);
  for (uint64_t count = draw(12); count; count--)
    change(target);
  EXPECT(ompd.initialize(201811, &callbacks) == ompd_rc_ok);
  clear_answer(&got);
  if (ask(trials, &at, &got) == ompd_rc_ok) {
    for (size_t count = 0; count < CONTEXTS; count++)
      if (enter(&at, target, got.space, target->ids[draw(target->contexts)])) {
        follow(&at, "scheduling_task");
        follow(&at, "enclosing_parallel");
        walk(&at, target);
        follow(&at, "generating_task");
        leave(&at);
      }
    undo(&got);
  }
  EXPECT(ompd.finalize() == ompd_rc_ok);
  EXPECT(watch.blocks == 0);
  close_target(target);
}

int main(int count, char **words)
{
  EXPECT(count == 5);
  load(words[1]);
  unsigned long runs = strtoul(words[3], NULL, 10);
  drawn = strtoul(words[4], NULL, 10);
  for (unsigned long number = 0; number < runs; number++) {
    struct target target;
    alarm(SECONDS_OF_A_RUN);
    run(&target, words[2]);
  }
  printf("hostile memory: %lu runs, %lu calls, %lu by forged handles, at most %lu reads in one, "
         "%lu failed reads swallowed\n", runs, calls, forgeries, most_reads, swallowed);
  for (ompd_rc_t rc = ompd_rc_ok; rc <= ompd_rc_callback_error; rc++)
    if (answers[rc])
      printf("  %s %lu\n", name_of_code(rc), answers[rc]);
  return swallowed ? 1 : 0;
}
