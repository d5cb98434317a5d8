/* The codes of ids, functions, states and numbers in the words.
 *
 * They are what the system and OMPT call them. The check build codes them as this project's own runtime does,
 * for that is what the audit judges (docs/AUDIT.md): it changes no store but the value of these words. */
#ifndef CODES_H
#define CODES_H

#include <stdint.h>

/* A number, moved into the range that the audit asks for in the check build. */
uint64_t in_range(uint64_t number, uint64_t least, uint64_t most);

/* The native id of the calling thread, whose record this is, and that of a record which has no thread. */
uint64_t native_of_this(unsigned index);
uint64_t native_of_unused(unsigned index);

uint64_t function_code(const void *code);

/* A thread's state and what it waits for. */
enum { STATE_BITS = 16 };
#ifdef OMI_CHECK
uint64_t state_code(uint64_t state, uint64_t wait_id);
#else
static inline uint64_t state_code(uint64_t state, uint64_t wait_id)
{
  return state | wait_id << STATE_BITS;
}
#endif

/* A number of 16 bits for a return address, and the code of that function: of 0 it is 0, which stands for a
 * function beyond the first 60,000 or so. */
unsigned function_number(const void *code);
uint64_t numbered_function(unsigned number);

#endif
