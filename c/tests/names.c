#include "names.h"

#include <stdio.h>

/* Where the layout table has the place of a kind's records, behind which their size and count stand, and the
 * offset of their life words. */
struct arena {
  char letter;
  size_t place, life;
};
static const struct arena threads = {'t', 3, 11 + 7}, regions = {'r', 6, 11 + 13}, tasks = {'k', 9, 11 + 25};

/* The number of the record whose life word was read first, among all of its kind. */
static uint64_t record_read(const struct target *target, const struct arena *arena)
{
  uint64_t record = watch.first_read - WORD * layout_word(target, arena->life);
  uint64_t from = record - layout_word(target, arena->place);
  uint64_t size = WORD * layout_word(target, arena->place + 1);
  EXPECT(from % size == 0);
  return from / size;
}

static void name_read(const struct target *target, const struct arena *arena, char name[NAME])
{
  uint64_t each = layout_word(target, arena->place + 2), record = record_read(target, arena);
  uint64_t life = word_of(target, bytes_at(target, watch.first_read));
  snprintf(name, NAME, "%c%lu.%lu.%lu", arena->letter, record / each, record % each, life / 2);
}

void name_of_task(const struct target *target, ompd_task_handle_t *task, char name[NAME])
{
  ompd_address_t entry;
  watch_calls(0, ompd_rc_ok);
  EXPECT(ompd.get_task_function(task, &entry) == ompd_rc_ok);
  name_read(target, &tasks, name);
}

void name_of_region(const struct target *target, ompd_parallel_handle_t *region, char name[NAME])
{
  ompd_word_t levels;
  watch_calls(0, ompd_rc_ok);
  EXPECT(ompd.get_icv_from_scope(region, ompd_scope_parallel, 10, &levels) == ompd_rc_ok);
  name_read(target, &regions, name);
}

uint64_t number_of_thread(const struct target *target, ompd_thread_handle_t *thread)
{
  uint64_t native;
  watch_calls(0, ompd_rc_ok);
  EXPECT(ompd.get_thread_id(thread, 0, sizeof native, &native) == ompd_rc_ok);
  return record_read(target, &threads);
}
