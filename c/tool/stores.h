/* How a word of the arenas is read and stored. Once the layout table is published nothing else writes there.
 *
 * A store is a release and a load an acquire. A debugger stops threads and reads what each of them has stored
 * by then, in the order of its stores: a release keeps compiler and processor from moving it in front of an
 * earlier one. Where one thread follows an address that another one stored, the acquire brings all that stood
 * before that store. No reader needs one order of all stores, so none is stronger. */
#ifndef STORES_H
#define STORES_H

#include <stdatomic.h>
#include <stdbool.h>

#include "word.h"

#ifdef OMI_CHECK
#include "check.h"
#endif

static inline uint64_t load(word_t *at)
{
  return atomic_load_explicit(at, memory_order_acquire);
}

static inline void store(word_t *at, uint64_t value)
{
#ifdef OMI_CHECK
  checked_store(at, value);
#else
  atomic_store_explicit(at, value, memory_order_release);
#endif
}

/* Two words side by side, of which the first stands at an even place. */
union pair {
  uint64_t words[2];
  unsigned __int128 both;
};

/* Stores `value` where `expected` stands. Whether it did. */
static inline bool swap(word_t *at, uint64_t expected, uint64_t value)
{
#ifdef OMI_CHECK
  return checked_swap(at, expected, value);
#else
  return atomic_compare_exchange_strong_explicit(
    at, &expected, value, memory_order_acq_rel, memory_order_acquire);
#endif
}

/* The same of two words, by one store of 128 bits. */
static inline bool swap_pair(word_t *at, union pair expected, union pair value)
{
#ifdef OMI_CHECK
  return checked_swap_pair(at, expected.words, value.words);
#else
  typedef unsigned __int128 words_t __attribute__((may_alias));
  return __sync_bool_compare_and_swap((words_t *)at, expected.both, value.both);
#endif
}

#endif
