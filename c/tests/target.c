#include "target.h"

#include <stdio.h>
#include <stdlib.h>
#include <string.h>

static uint64_t number_of(const unsigned char *bytes, int count, bool highest_first)
{
  uint64_t number = 0;
  for (int place = 0; place < count; place++)
    number |= (uint64_t)bytes[place] << 8 * (highest_first ? count - 1 - place : place);
  return number;
}

static void read_file(struct target *target, const char *path)
{
  FILE *file = fopen(path, "rb");
  if (!file || fseek(file, 0, SEEK_END) || (target->size = (size_t)ftell(file)) < 16) {
    fprintf(stderr, "no core: %s\n", path);
    exit(2);
  }
  rewind(file);
  target->core = malloc(target->size);
  if (!target->core || fread(target->core, 1, target->size, file) != target->size)
    exit(2);
  fclose(file);
}

void open_target(struct target *target, const char *folder, const char *name)
{
  char path[4096];
  snprintf(path, sizeof path, "%s/%s", folder, name);
  read_file(target, path);
  unsigned char *at = target->core;
  target->highest_first = at[9];
  target->contexts = number_of(at + 10, 2, false);
  target->segments = number_of(at + 12, 4, false);
  if (memcmp(at, "OMPDCOR1\1", 9) || target->contexts > MOST_CONTEXTS || target->segments > MOST_SEGMENTS)
    exit(2);
  at += 16;
  for (size_t context = 0; context < target->contexts; context++, at += WORD)
    target->ids[context] = number_of(at, WORD, false);
  for (size_t number = 0; number < target->segments; number++) {
    struct segment *segment = target->segment + number;
    segment->start = number_of(at, WORD, false);
    segment->words = number_of(at + WORD, WORD, false);
    segment->bytes = at + 2 * WORD;
    at = segment->bytes + segment->words * WORD;
    if (at > target->core + target->size)
      exit(2);
  }
}

void close_target(struct target *target)
{
  free(target->core);
}

unsigned char *bytes_at(const struct target *target, uint64_t address)
{
  for (size_t number = 0; number < target->segments; number++) {
    const struct segment *segment = target->segment + number;
    uint64_t from = address - segment->start;
    if (address >= segment->start && from <= WORD * (segment->words - 1))
      return segment->bytes + from;
  }
  return NULL;
}

uint64_t word_of(const struct target *target, const unsigned char *bytes)
{
  return number_of(bytes, WORD, target->highest_first);
}

void set_word(const struct target *target, unsigned char *bytes, uint64_t word)
{
  for (int place = 0; place < WORD; place++)
    bytes[place] = (unsigned char)(word >> 8 * (target->highest_first ? WORD - 1 - place : place));
}

static uint64_t word_at(const struct target *target, uint64_t address)
{
  const unsigned char *bytes = bytes_at(target, address);
  return bytes ? word_of(target, bytes) : 0;
}

uint64_t symbol_at(const struct target *target, const char *name)
{
  uint64_t count = word_at(target, SYMBOLS);
  for (uint64_t symbol = 0; symbol < count && count <= 16; symbol++) {
    uint64_t entry = SYMBOLS + WORD * (1 + 5 * symbol);
    char found[4 * WORD + 1] = "";
    for (int place = 0; place < 4 * WORD; place++)
      found[place] = (char)(word_at(target, entry + place / WORD * WORD) >> 8 * (place % WORD));
    if (strcmp(found, name) == 0)
      return word_at(target, entry + 4 * WORD);
  }
  return 0;
}

uint64_t layout_word(const struct target *target, size_t place)
{
  return word_at(target, symbol_at(target, "omi_layout") + WORD * place);
}

struct watch watch;
ompd_device_type_sizes_t sizes_told = {1, 2, 4, 8, 8, 8};

void watch_calls(unsigned long fail_at, ompd_rc_t fail_with)
{
  watch = (struct watch){.fail_at = fail_at, .fail_with = fail_with, .blocks = watch.blocks};
}

/* Counts a call of a callback. Whether it is the one to fail. */
static bool fails(enum callback callback)
{
  if (++watch.calls != watch.fail_at)
    return false;
  watch.failed = callback;
  return true;
}

/* A block begins at each place in turn between two multiples of 16. The byte in front of it tells how far it
 * is from the memory that it lies in. A call that fails leaves what is no block. */
static ompd_rc_t alloc_memory(ompd_size_t size, void **memory)
{
  static unsigned char turn;
  *memory = &turn;
  if (fails(ALLOC_MEMORY))
    return watch.fail_with;
  unsigned char front = 1 + turn++ % 16;
  unsigned char *block = malloc(front + size);
  if (!block)
    return ompd_rc_nomem;
  block[front - 1] = front;
  *memory = block + front;
  watch.taken++;
  watch.blocks++;
  return ompd_rc_ok;
}

/* A block is free even where the call fails, so that the count is of those that nobody gave back. */
static ompd_rc_t free_memory(void *memory)
{
  bool failing = fails(FREE_MEMORY);
  unsigned char *block = memory;
  free(block - block[-1]);
  watch.blocks--;
  return failing ? watch.fail_with : ompd_rc_ok;
}

static ompd_rc_t sizeof_type(ompd_address_space_context_t *context, ompd_device_type_sizes_t *sizes)
{
  (void)context;
  if (fails(SIZEOF_TYPE))
    return watch.fail_with;
  *sizes = sizes_told;
  return ompd_rc_ok;
}

static ompd_rc_t symbol_addr_lookup(
  ompd_address_space_context_t *context, ompd_thread_context_t *thread, const char *name,
  ompd_address_t *address, const char *file)
{
  if (fails(SYMBOL_ADDR_LOOKUP))
    return watch.fail_with;
  if (thread || file)
    abort();
  *address = (ompd_address_t){SEGMENT, symbol_at((struct target *)context, name)};
  return address->address ? ompd_rc_ok : ompd_rc_unavailable;
}

static ompd_rc_t read_memory(
  ompd_address_space_context_t *context, ompd_thread_context_t *thread, const ompd_address_t *address,
  ompd_size_t size, void *to)
{
  if (watch.reads++ == 0)
    watch.first_read = address->address;
  if (fails(READ_MEMORY))
    return watch.fail_with;
  if (thread || size != WORD || address->segment != SEGMENT)
    abort();
  const unsigned char *bytes = bytes_at((struct target *)context, address->address);
  if (!bytes) {
    watch.unmapped++;
    return ompd_rc_unavailable;
  }
  memcpy(to, bytes, WORD);
  return ompd_rc_ok;
}

static ompd_rc_t device_to_host(
  ompd_address_space_context_t *context, const void *from, ompd_size_t size, ompd_size_t count, void *to)
{
  if (fails(DEVICE_TO_HOST))
    return watch.fail_with;
  if (size != WORD || count != 1)
    abort();
  uint64_t word = word_of((struct target *)context, from);
  memcpy(to, &word, sizeof word);
  return ompd_rc_ok;
}

const ompd_callbacks_t callbacks = {
  .alloc_memory = alloc_memory,
  .free_memory = free_memory,
  .sizeof_type = sizeof_type,
  .symbol_addr_lookup = symbol_addr_lookup,
  .read_memory = read_memory,
  .device_to_host = device_to_host,
};
