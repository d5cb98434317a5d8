/* The stores of the check build. Each is made alone, and behind it the proved audit judges all records: each moment of one order of all
 * stores. The first No ends the program. */
#define _GNU_SOURCE
#include "check.h"

#include <dlfcn.h>
#include <inttypes.h>
#include <pthread.h>
#include <stdlib.h>

#include "../omi_c.h"
#include "arenas.h"
#include "say.h"

/* Held over a store and its verdict. A signal's handler may store while its thread is here. */
static pthread_mutex_t alone = PTHREAD_RECURSIVE_MUTEX_INITIALIZER_NP;

static unsigned long judged;

/* Ends the program. The place of the store is told as addr2line takes it. */
static _Noreturn void refuse(omi_audited audited, const char *made_at)
{
  char field[32];
  Dl_info object = {0};
  omi_text name = omi_field_text(audited.field, (uint8_t *)field, sizeof field);
  dladdr(made_at, &object);
  uintptr_t offset = (uintptr_t)made_at - (uintptr_t)object.dli_fbase - 1;
  if (audited.code != OMI_OK)
    say("store %lu has no verdict: code %" PRIu32 ", place %#" PRIx64, judged, audited.code, audited.place);
  else
    say("store %lu is refused: clause %d at %#" PRIx64 ", %.*s; made at %s %#" PRIxPTR, judged, audited.clause, audited.addr,
        (int)name.length, field, object.dli_fname ? object.dli_fname : "?", offset);
  abort();
}

/* Nothing is judged before the records are published, and in a child that was forked before its own are. */
static void judge(const char *made_at)
{
  const uint64_t *words = published_table();
  if (!words || !is_published())
    return;
  judged++;
  omi_judged table = omi_judge_table(words, TABLE_WORDS);
  omi_audited audited =
    omi_audit(&table, address_of(arenas.runtime), (const uint64_t *)arenas.runtime, arenas.words);
  if (!audited.yes)
    refuse(audited, made_at);
}

void checked_store(word_t *at, uint64_t value)
{
  pthread_mutex_lock(&alone);
  atomic_store(at, value);
  judge(__builtin_return_address(0));
  pthread_mutex_unlock(&alone);
}

bool checked_swap(word_t *at, uint64_t expected, uint64_t value)
{
  pthread_mutex_lock(&alone);
  bool stored = atomic_compare_exchange_strong(at, &expected, value);
  if (stored)
    judge(__builtin_return_address(0));
  pthread_mutex_unlock(&alone);
  return stored;
}

bool checked_swap_pair(word_t *at, const uint64_t expected[2], const uint64_t value[2])
{
  pthread_mutex_lock(&alone);
  bool stored = atomic_load(at) == expected[0] && atomic_load(at + 1) == expected[1];
  if (stored) {
    atomic_store(at, value[0]);
    atomic_store(at + 1, value[1]);
    judge(__builtin_return_address(0));
  }
  pthread_mutex_unlock(&alone);
  return stored;
}

static void take_lock(void)
{
  pthread_mutex_lock(&alone);
}

static void give_lock(void)
{
  pthread_mutex_unlock(&alone);
}

static void give_lock_of_child(void)
{
  judged = 0;
  give_lock();
}

/* A program that forks does so between two stores. */
__attribute__((constructor)) static void begin(void)
{
  pthread_atfork(take_lock, give_lock, give_lock_of_child);
}

__attribute__((destructor)) static void end(void)
{
  say("%lu stores judged, none refused", judged);
}
