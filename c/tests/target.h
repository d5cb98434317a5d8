/* A target for the tests: the words of a core, with a debugger's callbacks, which count and can fail. */
#ifndef TARGET_H
#define TARGET_H

#include "omp-tools.h"

#include <stdbool.h>
#include <stddef.h>

enum { MOST_SEGMENTS = 64, MOST_CONTEXTS = 64, WORD = 8 };

/* Where the symbol table stands, and the segment that all addresses are in. */
#define SYMBOLS 0x10000
#define SEGMENT 7

struct segment {
  uint64_t start;
  size_t words;
  unsigned char *bytes;
};

struct target {
  unsigned char *core;
  size_t size;
  bool highest_first;
  size_t contexts, segments;
  uint64_t ids[MOST_CONTEXTS];
  struct segment segment[MOST_SEGMENTS];
};

/* Reads the core FOLDER/NAME. Ends the program where it is none. */
void open_target(struct target *target, const char *folder, const char *name);
void close_target(struct target *target);

/* The eight bytes from an address on, and NULL where they are not all mapped. */
unsigned char *bytes_at(const struct target *target, uint64_t address);

/* The word of these bytes, and its change. */
uint64_t word_of(const struct target *target, const unsigned char *bytes);
void set_word(const struct target *target, unsigned char *bytes, uint64_t word);

/* The address of a symbol, and 0 where there is none. */
uint64_t symbol_at(const struct target *target, const char *name);

/* A word of the target's layout table. The core has one. */
uint64_t layout_word(const struct target *target, size_t place);

enum callback {
  NO_CALLBACK, ALLOC_MEMORY, FREE_MEMORY, SIZEOF_TYPE, SYMBOL_ADDR_LOOKUP, READ_MEMORY, DEVICE_TO_HOST
};

/* What the callbacks were asked since the last watch_calls, how many blocks of memory they gave, and how many are out. */
struct watch {
  unsigned long calls, reads, unmapped, taken;
  uint64_t first_read;
  unsigned long fail_at;   /* the number of the call that fails, and 0 for none */
  ompd_rc_t fail_with;
  enum callback failed;    /* what has failed */
  long blocks;
};
extern struct watch watch;
void watch_calls(unsigned long fail_at, ompd_rc_t fail_with);

extern const ompd_callbacks_t callbacks;

/* The sizes that they tell. */
extern ompd_device_type_sizes_t sizes_told;

#endif
