/* A word of the memory that is shown. */
#ifndef WORD_H
#define WORD_H

#include <stdint.h>

typedef _Atomic uint64_t word_t;

/* Data of this library, which is reached without a look into a table of addresses. */
#define HIDDEN __attribute__((visibility("hidden")))

#endif
