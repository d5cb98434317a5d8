/* Memory, all of which is the debugger's. The linker turns the proved library's calls of malloc, realloc and
 * free into calls of the three functions at the end. */
#include "adapter.h"

#include <string.h>

static ompd_rc_t failure;

static void note_failure(ompd_rc_t rc)
{
  if (failure == ompd_rc_ok)
    failure = rc;
}

ompd_rc_t memory_failure(void)
{
  ompd_rc_t was = failure;
  failure = ompd_rc_ok;
  return was;
}

void *take_memory(size_t size)
{
  void *memory = NULL;
  ompd_rc_t rc = debugger ? debugger->alloc_memory(size, &memory) : ompd_rc_nomem;
  if (rc == ompd_rc_ok && memory)
    return memory;
  note_failure(rc == ompd_rc_ok ? ompd_rc_nomem : rc);
  return NULL;
}

ompd_rc_t hand_out(const uint8_t *text, uint64_t length, const char **to)
{
  if (length > TEXT_ROOM)
    return ompd_rc_error;
  char *copy = take_memory(length + 1);
  if (!copy)
    return memory_failure();
  memcpy(copy, text, length);
  copy[length] = 0;
  *to = copy;
  return ompd_rc_ok;
}

/* What stands in front of a block of the library's: the debugger's memory that it lies in, its size, and the
 * next one of those that are kept. The debugger's memory may be aligned to nothing. */
struct front {
  _Alignas(16) void *memory;
  size_t size;
  struct front *next;
};
enum { ALIGNMENT = _Alignof(struct front) };

static struct front *kept;

static void *take_block(size_t size)
{
  size_t more = sizeof(struct front) + ALIGNMENT;
  char *memory = size <= SIZE_MAX - more ? take_memory(size + more) : NULL;
  if (!memory)
    return NULL;
  struct front *front = (struct front *)(memory + (ALIGNMENT - (uintptr_t)memory % ALIGNMENT) % ALIGNMENT);
  *front = (struct front){memory, size, NULL};
  return front + 1;
}

static ompd_rc_t free_front(struct front *front)
{
  return debugger ? debugger->free_memory(front->memory) : ompd_rc_bad_input;
}

void *keep_memory(size_t size)
{
  void *block = take_block(size);
  if (block) {
    struct front *front = (struct front *)block - 1;
    front->next = kept;
    kept = front;
  }
  return block;
}

ompd_rc_t give_back(const void *block)
{
  for (struct front **link = &kept; *link; link = &(*link)->next)
    if (*link + 1 == block) {
      struct front *front = *link;
      *link = front->next;
      return free_front(front);
    }
  return ompd_rc_bad_input;
}

ompd_rc_t give_all_back(void)
{
  ompd_rc_t first = ompd_rc_ok;
  while (kept) {
    ompd_rc_t rc = give_back(kept + 1);
    if (first == ompd_rc_ok)
      first = rc;
  }
  return first;
}

void *__wrap_malloc(size_t size);
void *__wrap_realloc(void *block, size_t size);
void __wrap_free(void *block);

void *__wrap_malloc(size_t size)
{
  return take_block(size);
}

void __wrap_free(void *block)
{
  if (block)
    note_failure(free_front((struct front *)block - 1));
}

void *__wrap_realloc(void *block, size_t size)
{
  void *grown = take_block(size);
  if (grown && block) {
    size_t before = ((struct front *)block - 1)->size;
    memcpy(grown, block, before < size ? before : size);
    __wrap_free(block);
  }
  return grown;
}
