/* What each call costs over a core in memory: measure LIBRARY FOLDER CORE. It is asked about the first thread that has
 * a current task, and a thread is looked for by the last id. For each call that has a value: its name, the words that
 * it reads, the blocks of memory that it takes, and its time in microseconds, the shortest of many. The proved
 * library is asked once for each word that an inquiry reads, and then for the value. */
#define _POSIX_C_SOURCE 200809L

#include "trials.h"

#include <stdio.h>
#include <time.h>

enum { TIMES = 2000 };

static double now(void)
{
  struct timespec time;
  clock_gettime(CLOCK_MONOTONIC, &time);
  return (double)time.tv_sec * 1e6 + (double)time.tv_nsec / 1e3;
}

/* Asks once and gives back what was made. The time of the asking alone. */
static double time_of(const struct trial *trial, const struct place *at, ompd_rc_t *rc, struct watch *asked)
{
  struct answer got;
  clear_answer(&got);
  watch_calls(0, ompd_rc_ok);
  double begin = now();
  *rc = trial->ask(at, &got);
  double time = now() - begin;
  *asked = watch;
  undo(&got);
  return time;
}

static void measure(const struct trial *trial, const struct place *at)
{
  ompd_rc_t rc;
  struct watch asked;
  double least = time_of(trial, at, &rc, &asked);
  for (int times = 1; times < TIMES; times++) {
    double time = time_of(trial, at, &rc, &asked);
    if (time < least)
      least = time;
  }
  if (rc == ompd_rc_ok || rc == ompd_rc_incomplete)
    printf("%-20s %5lu %5lu %8.2f\n", trial->name, asked.reads, asked.taken, least);
}

int main(int count, char **words)
{
  EXPECT(count == 4);
  load(words[1]);
  struct target target;
  struct place at;
  ompd_address_space_handle_t *space = begin_session(&target, words[2], words[3]);
  size_t context = 0;
  while (!enter(&at, &target, space, target.ids[context]))
    EXPECT(++context < target.contexts);
  at.native = target.ids[target.contexts - 1];
  at.icv = 2;
  for (size_t trial = 0; trial < trial_count; trial++)
    measure(trials + trial, &at);
  leave(&at);
  end_session(&target, space);
  return 0;
}
