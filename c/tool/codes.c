/* The codes of ids, functions, states and numbers in the words. */
#define _GNU_SOURCE
#include "codes.h"

#include <omp-tools.h>
#include <stdatomic.h>
#include <stdbool.h>
#include <unistd.h>

/* The return addresses that have a number: its place in this table, which is filled from a hash on and never
 * emptied. Place 0 is not used. */
enum { NUMBER_BITS = 16, NUMBERS = 1 << NUMBER_BITS, MOST_TRIES = 64 };
static _Atomic uint64_t numbered[NUMBERS];

/* Whether this place is that of the address, or has just become it. */
static bool is_place_of(_Atomic uint64_t *place, uint64_t address)
{
  uint64_t found = atomic_load_explicit(place, memory_order_relaxed);
  return found == address || (!found && atomic_compare_exchange_strong(place, &found, address)) || found == address;
}

unsigned function_number(const void *code)
{
  uint64_t address = (uint64_t)(uintptr_t)code;
  unsigned hash = (unsigned)((address * UINT64_C(0x9e3779b97f4a7c15)) >> (64 - NUMBER_BITS));
  for (unsigned tries = 0; address && tries < MOST_TRIES; tries++) {
    unsigned place = (hash + tries) % NUMBERS;
    if (place && is_place_of(&numbered[place], address))
      return place;
  }
  return 0;
}

#ifndef OMI_CHECK

uint64_t in_range(uint64_t number, uint64_t least, uint64_t most)
{
  (void)least, (void)most;
  return number;
}

uint64_t native_of_this(unsigned index)
{
  (void)index;
  return (uint64_t)gettid();
}

uint64_t native_of_unused(unsigned index)
{
  (void)index;
  return 0;
}

uint64_t function_code(const void *code)
{
  return (uint64_t)(uintptr_t)code;
}

uint64_t numbered_function(unsigned number)
{
  return number ? atomic_load_explicit(&numbered[number], memory_order_relaxed) : 0;
}

#else

enum { FIRST_NATIVE = 1000, FIRST_FUNCTION = 0x400000, FUNCTION_BYTES = 16, FUNCTIONS = 64, WAIT_IDS = 8 };

uint64_t in_range(uint64_t number, uint64_t least, uint64_t most)
{
  return number < least ? least : number > most ? most : number;
}

uint64_t native_of_this(unsigned index)
{
  return FIRST_NATIVE + index;
}

uint64_t native_of_unused(unsigned index)
{
  return FIRST_NATIVE + index;
}

uint64_t numbered_function(unsigned number)
{
  return FIRST_FUNCTION + FUNCTION_BYTES * (number % FUNCTIONS);
}

uint64_t function_code(const void *code)
{
  return numbered_function(function_number(code));
}

/* The nearest state that this project's runtime has. */
static uint64_t known_state(uint64_t state)
{
  switch (state) {
  case ompt_state_wait_barrier_implicit:
    return ompt_state_wait_barrier_implicit_parallel;
  case ompt_state_wait_barrier:
  case ompt_state_wait_barrier_implicit_workshare:
  case ompt_state_wait_barrier_implementation:
  case ompt_state_wait_barrier_teams:
    return ompt_state_wait_barrier_explicit;
  case ompt_state_wait_mutex:
  case ompt_state_wait_lock:
  case ompt_state_wait_atomic:
  case ompt_state_wait_ordered:
    return ompt_state_wait_critical;
  default:
    return state;
  }
}

uint64_t state_code(uint64_t state, uint64_t wait_id)
{
  uint64_t known = wait_id ? 1 + wait_id / sizeof(void *) % WAIT_IDS : 0;
  return known_state(state) | known << STATE_BITS;
}

#endif
