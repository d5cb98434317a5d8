/* The memory that is shown: the symbol table at 0x10000, the layout table and the records. */
#ifndef ARENAS_H
#define ARENAS_H

#include <stddef.h>

#include "layout.h"
#include "stores.h"

struct arenas {
  word_t *runtime, *threads, *regions, *tasks;
  unsigned thread_count, tasks_each;
  size_t words; /* from `runtime` on */
};
extern HIDDEN struct arenas arenas;

/* Maps the arenas for so many threads and tasks of each, of which 0 is as many as a core has room for. They are
 * zero, and a child that is forked finds zeros there. Whether there was memory for them. */
bool map_arenas(unsigned thread_count, unsigned tasks_each);

/* Stores the words that open the arenas and the layout table, and then lets them be found. */
void publish(uint64_t procs, uint64_t active_levels);

/* In a process that was just forked: zeros all words, so that nothing is found, and publishes them again. */
void forget_arenas(void);
void publish_again(void);

/* Whether the records are those of this process, and not of the one that forked it. */
static inline bool is_published(void)
{
  return arenas.runtime && load(arenas.runtime + RT_VERSION);
}

/* The layout table once it is published, else NULL. */
const uint64_t *published_table(void);

static inline uint64_t address_of(const word_t *record)
{
  return (uint64_t)(uintptr_t)record;
}

/* The record at an address, which is NULL for none. */
static inline word_t *record_at(uint64_t address)
{
  return (word_t *)(uintptr_t)address;
}

static inline word_t *thread_record(unsigned index)
{
  return arenas.threads + (size_t)index * THREAD_WORDS;
}

#endif
