#define _GNU_SOURCE
#include "process.h"

#include "../stopped.h"

#include <stdio.h>
#include <stdlib.h>
#include <string.h>

/* The process of the session, and the first word that the last inquiry read. */
static pid_t opened;
static struct identity first_read;
static bool has_read;

static ompd_rc_t alloc_memory(ompd_size_t size, void **memory)
{
  *memory = malloc(size);
  return *memory ? ompd_rc_ok : ompd_rc_nomem;
}

static ompd_rc_t free_memory(void *memory)
{
  free(memory);
  return ompd_rc_ok;
}

static ompd_rc_t sizeof_type(ompd_address_space_context_t *context, ompd_device_type_sizes_t *sizes)
{
  (void)context;
  *sizes = (ompd_device_type_sizes_t){sizeof(char), sizeof(short), sizeof(int), sizeof(long), sizeof(long long), sizeof(void *)};
  return ompd_rc_ok;
}

static ompd_rc_t symbol_addr_lookup(
  ompd_address_space_context_t *context, ompd_thread_context_t *thread, const char *name,
  ompd_address_t *address, const char *file)
{
  (void)context, (void)thread, (void)file;
  *address = (ompd_address_t){SEGMENT, published_symbol(opened, name)};
  return address->address ? ompd_rc_ok : ompd_rc_unavailable;
}

static ompd_rc_t read_memory(
  ompd_address_space_context_t *context, ompd_thread_context_t *thread, const ompd_address_t *address,
  ompd_size_t size, void *to)
{
  (void)context, (void)thread;
  EXPECT(size == WORD);
  uint64_t word;
  if (!read_words(opened, address->address, &word, 1))
    return ompd_rc_unavailable;
  if (!has_read)
    first_read = (struct identity){address->address, word};
  has_read = true;
  memcpy(to, &word, WORD);
  return ompd_rc_ok;
}

static ompd_rc_t device_to_host(
  ompd_address_space_context_t *context, const void *from, ompd_size_t size, ompd_size_t count, void *to)
{
  (void)context;
  memcpy(to, from, size * count);
  return ompd_rc_ok;
}

static const ompd_callbacks_t of_process = {
  .alloc_memory = alloc_memory,
  .free_memory = free_memory,
  .sizeof_type = sizeof_type,
  .symbol_addr_lookup = symbol_addr_lookup,
  .read_memory = read_memory,
  .device_to_host = device_to_host,
};

ompd_address_space_handle_t *open_process(pid_t process)
{
  ompd_address_space_handle_t *space;
  opened = process;
  EXPECT(ompd.initialize(201811, &of_process) == ompd_rc_ok);
  EXPECT(ompd.process_initialize((ompd_address_space_context_t *)&opened, &space) == ompd_rc_ok);
  return space;
}

void close_process(ompd_address_space_handle_t *space)
{
  EXPECT(ompd.rel_address_space_handle(space) == ompd_rc_ok);
  EXPECT(ompd.finalize() == ompd_rc_ok);
}

struct identity identity_of_task(ompd_task_handle_t *task)
{
  ompd_address_t entry;
  has_read = false;
  return ompd.get_task_function(task, &entry) == ompd_rc_ok && has_read ? first_read : (struct identity){0};
}

struct identity identity_of_region(ompd_parallel_handle_t *region)
{
  has_read = false;
  return icv_of(region, ompd_scope_parallel, LEVELS) >= 0 && has_read ? first_read : (struct identity){0};
}

ompd_word_t icv_of(void *handle, ompd_scope_t scope, enum icv icv)
{
  ompd_word_t value;
  ompd_rc_t rc = ompd.get_icv_from_scope(handle, scope, icv, &value);
  return rc == ompd_rc_ok || rc == ompd_rc_incomplete ? value : -(ompd_word_t)rc;
}

struct schedule schedule_of(ompd_task_handle_t *task)
{
  static const char *const kinds[] = {"static", "dynamic", "guided", "auto"};
  struct schedule found = {0, 0};
  const char *text = NULL;
  char kind[16] = "", rest;
  if (ompd.get_icv_string_from_scope(task, ompd_scope_task, RUN_SCHED, &text) != ompd_rc_ok)
    return found;
  if (sscanf(text, "%15[a-z],%u%c", kind, &found.chunk, &rest) == 2)
    for (unsigned place = 0; place < sizeof kinds / sizeof *kinds; place++)
      if (!strcmp(kind, kinds[place]))
        found.kind = place + 1;
  free_memory((void *)text);
  return found;
}

/* The layout table has the offset of each field; fields by number; places of `slots`. */
enum {
  OFFSETS = 11, TABLE_WORDS = 56, REGION_LIFE = 13, REGION_ENCOUNTER = 16, TASK_LIFE = 25, TASK_SLOTS = 44,
  GROUP_PLACE = 4, OPEN_PLACE = 5, MOST_GROUPS = 4
};

/* A word, and 0 where it isn't mapped. */
static uint64_t word_at(uint64_t address)
{
  uint64_t word;
  return read_words(opened, address, &word, 1) ? word : 0;
}

static uint64_t offset_of(int field)
{
  return WORD * word_at(published_symbol(opened, "omi_layout") + WORD * (uint64_t)(OFFSETS + field));
}

/* The task at an address, which is 0 for none. */
static struct identity task_at(uint64_t address)
{
  uint64_t life = address + offset_of(TASK_LIFE);
  return address ? (struct identity){life, word_at(life)} : (struct identity){0};
}

struct identity encountering_of(struct identity region)
{
  return task_at(word_at(region.address - offset_of(REGION_LIFE) + offset_of(REGION_ENCOUNTER)));
}

struct group_words groups_of(struct identity task)
{
  uint64_t slots = task.address - offset_of(TASK_LIFE) + offset_of(TASK_SLOTS);
  uint64_t group = word_at(slots + WORD * GROUP_PLACE), index = group % MOST_GROUPS;
  return (struct group_words){task_at(group - index), index, word_at(slots + WORD * OPEN_PLACE)};
}
