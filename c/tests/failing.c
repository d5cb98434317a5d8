/* Lets each callback of each call fail once, by each code: the call answers no value, and keeps no memory. */
#include "trials.h"

#include <stdio.h>
#include <string.h>

static unsigned long failures;

static void fail_each(const struct trial *trial, const struct place *at)
{
  struct answer got;
  clear_answer(&got);
  long blocks = watch.blocks;
  watch_calls(0, ompd_rc_ok);
  ompd_rc_t usual = trial->ask(at, &got);
  unsigned long calls = watch.calls;
  EXPECT(usual == ompd_rc_ok || usual == ompd_rc_incomplete || is_clear(&got));
  undo(&got);
  for (unsigned long number = 1; number <= calls; number++)
    for (ompd_rc_t with = ompd_rc_unavailable; with <= ompd_rc_callback_error; with++) {
      watch_calls(number, with);
      ompd_rc_t rc = trial->ask(at, &got);
      if (rc != answer_to(watch.failed, with) || !is_clear(&got) || watch.blocks != blocks) {
        fprintf(stderr, "%s, icv %lu: callback %d, number %lu of the call, fails with %s: %s, blocks %+ld\n",
                trial->name, at->icv, watch.failed, number, name_of_code(with), name_of_code(rc),
                watch.blocks - blocks);
        fail_test(__FILE__, __LINE__, "a call with a failed callback answers this code and keeps no memory");
      }
      failures++;
    }
  watch_calls(0, ompd_rc_ok);
  EXPECT(trial->ask(at, &got) == usual);
  undo(&got);
}

/* What is released is gone even where the debugger refuses its memory. */
static void fail_release(const struct place *at)
{
  long blocks = watch.blocks;
  for (ompd_rc_t with = ompd_rc_unavailable; with <= ompd_rc_callback_error; with++) {
    ompd_address_space_handle_t *space;
    const char *const *list;
    watch_calls(0, ompd_rc_ok);
    EXPECT(ompd.process_initialize(at->context, &space) == ompd_rc_ok);
    EXPECT(ompd.get_display_control_vars(at->space, &list) == ompd_rc_ok);
    EXPECT(watch.blocks == blocks + 2);
    watch_calls(1, with);
    EXPECT(ompd.rel_address_space_handle(space) == with);
    EXPECT(ompd.rel_address_space_handle(space) == ompd_rc_stale_handle);
    watch_calls(1, with);
    EXPECT(ompd.rel_display_control_vars(&list) == with);
    EXPECT(ompd.rel_display_control_vars(&list) == ompd_rc_bad_input);
    EXPECT(watch.blocks == blocks);
    failures += 2;
  }
}

/* So is the library where it is finalized. */
static void fail_finalize(const struct target *target)
{
  ompd_address_space_handle_t *space;
  const char *const *list;
  ompd_address_space_context_t *context = (ompd_address_space_context_t *)target;
  watch_calls(0, ompd_rc_ok);
  EXPECT(ompd.initialize(201811, &callbacks) == ompd_rc_ok);
  EXPECT(ompd.process_initialize(context, &space) == ompd_rc_ok);
  EXPECT(ompd.get_display_control_vars(space, &list) == ompd_rc_ok);
  watch_calls(1, ompd_rc_device_write_error);
  EXPECT(ompd.finalize() == ompd_rc_device_write_error);
  EXPECT(watch.calls == 2 && watch.blocks == 0);
  EXPECT(ompd.finalize() == ompd_rc_unsupported);
  failures++;
}

int main(int count, char **words)
{
  EXPECT(count == 3);
  load(words[1]);
  for (size_t core = 0; core < core_count; core++) {
    struct target target;
    struct place at;
    ompd_address_space_handle_t *space = begin_session(&target, words[2], cores[core]);
    for (size_t context = 0; context < target.contexts; context++)
      if (enter(&at, &target, space, target.ids[context])) {
        for (size_t trial = 0; trial < trial_count; trial++)
          for (at.icv = 0; at.icv <= (strstr(trials[trial].name, "icv") ? LAST_ICV + 1 : 0); at.icv++)
            fail_each(trials + trial, &at);
        fail_release(&at);
        watch_calls(0, ompd_rc_ok);
        leave(&at);
      }
    EXPECT(ompd.rel_address_space_handle(space) == ompd_rc_ok);
    EXPECT(ompd.finalize() == ompd_rc_ok && watch.blocks == 0);
    fail_finalize(&target);
    close_target(&target);
  }
  printf("failing callbacks: %lu, each answered by its code, no value and no memory kept\n", failures);
  return 0;
}
