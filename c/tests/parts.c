/* Tests parts of the adapter by themselves: how the known words grow by which an inquiry is asked again, the
 * heap that the proved library gets, the blocks that the adapter keeps, and the places of handles. */
#include "adapter.h"
#include "target.h"

#include <stdio.h>
#include <stdlib.h>
#include <string.h>

#define EXPECT(condition) \
  ((condition) ? (void)0 : (fprintf(stderr, "%s:%d: not so: %s\n", __FILE__, __LINE__, #condition), exit(1)))

const ompd_callbacks_t *debugger = &callbacks;
uint64_t sessions = 1;

/* In the place of the proved library's. */
int32_t omi_compare(omi_object a, omi_object b)
{
  return a.addr < b.addr ? -1 : a.addr > b.addr;
}

void *__wrap_malloc(size_t size);
void *__wrap_realloc(void *block, size_t size);
void __wrap_free(void *block);

/* Whether the known words rise, and each is what the target has. */
static bool are_known(const struct words *words, const struct target *target)
{
  for (size_t place = 0; place < words->count; place++) {
    const omi_known *known = words->known + place;
    const unsigned char *bytes = bytes_at(target, known->addr);
    if (known->mapped != (bytes != NULL) || known->word != (bytes ? word_of(target, bytes) : 0))
      return false;
    for (size_t before = 0; before < place; before++)
      if (words->known[before].addr == known->addr)
        return false;
  }
  return true;
}

static void asking(struct target *target)
{
  struct space space = {.context = (ompd_address_space_context_t *)target, .segment = SEGMENT};
  struct words words = {.of = {.space = &space}};
  for (uint64_t number = 0; number < MOST_WORDS; number++) {
    uint64_t address = SYMBOLS + WORD * (number * 101 % MOST_WORDS);
    EXPECT(needs_word(&words, OMI_NEEDS_WORD, address));
    EXPECT(words.count == number + 1 && are_known(&words, target));
  }
  EXPECT(!needs_word(&words, OMI_NEEDS_WORD, SYMBOLS + WORD * MOST_WORDS));
  EXPECT(words.rc == ompd_rc_error && words.count == MOST_WORDS);
  words = (struct words){.of = {.space = &space}};
  EXPECT(needs_word(&words, OMI_NEEDS_WORD, SYMBOLS) && needs_word(&words, OMI_NEEDS_WORD, 0));
  EXPECT(!needs_word(&words, OMI_NEEDS_WORD, SYMBOLS) && words.rc == ompd_rc_error);
  EXPECT(!needs_word(&words, OMI_NEEDS_WORD, 0) && words.rc == ompd_rc_error);
  EXPECT(!needs_word(&words, OMI_NEEDS_WORD, SYMBOLS + 4) && words.rc == ompd_rc_error);
  for (ompd_rc_t with = ompd_rc_stale_handle; with <= ompd_rc_callback_error; with++)
    for (unsigned long failing = with == ompd_rc_error ? 2 : 1; failing <= 2; failing++) {
      watch_calls(failing, with);
      EXPECT(!needs_word(&words, OMI_NEEDS_WORD, SYMBOLS + WORD) && words.rc == with && !words.answered);
      EXPECT(words.count == 2 && are_known(&words, target));
    }
  watch_calls(0, ompd_rc_ok);
  for (uint32_t code = 0; code < OMI_NEEDS_WORD; code++) {
    EXPECT(!needs_word(&words, code, SYMBOLS));
    EXPECT(words.rc == (code <= ompd_rc_incomplete ? code : ompd_rc_error) && words.answered);
    EXPECT(code_of(code) == words.rc && watch.calls == 0);
  }
  watch_calls(1, ompd_rc_device_read_error);
  EXPECT(!__wrap_malloc(8));
  EXPECT(!needs_word(&words, OMI_OK, 0) && words.rc == ompd_rc_device_read_error && !words.answered);
  watch_calls(1, ompd_rc_incomplete);
  EXPECT(!__wrap_malloc(8));
  EXPECT(!needs_word(&words, OMI_NEEDS_WORD, SYMBOLS + WORD) && words.rc == ompd_rc_incomplete);
  EXPECT(!words.answered && words.count == 2 && code_of(ompd_rc_nomem) == ompd_rc_nomem);
  watch_calls(1, ompd_rc_unavailable);
  EXPECT(!__wrap_malloc(8) && code_of(OMI_OK) == ompd_rc_unavailable && code_of(OMI_OK) == ompd_rc_ok);
}

static bool is_filled(const unsigned char *block, size_t size, int byte)
{
  for (size_t place = 0; place < size; place++)
    if (block[place] != byte)
      return false;
  return (uintptr_t)block % 16 == 0;
}

static void heap(void)
{
  for (size_t size = 0; size < 100; size++)
    for (size_t later = 0; later < 100; later++) {
      unsigned char *block = memset(__wrap_malloc(size), 1, size);
      unsigned char *moved = __wrap_realloc(block, later);
      EXPECT(is_filled(moved, size < later ? size : later, 1));
      memset(moved, 2, later);
      EXPECT(memory_failure() == ompd_rc_ok);
      watch_calls(1, ompd_rc_device_read_error);
      EXPECT(!__wrap_realloc(moved, 1000) && is_filled(moved, later, 2));
      watch_calls(1, ompd_rc_device_write_error);
      EXPECT(!__wrap_malloc(8) && memory_failure() == ompd_rc_device_read_error);
      EXPECT(memory_failure() == ompd_rc_ok && watch.calls == 1);
      EXPECT(!__wrap_realloc(moved, SIZE_MAX) && !__wrap_malloc(SIZE_MAX - 47) && watch.calls == 1);
      EXPECT(memory_failure() == ompd_rc_ok);
      watch_calls(1, ompd_rc_error);
      __wrap_free(moved);
      EXPECT(memory_failure() == ompd_rc_error && memory_failure() == ompd_rc_ok);
      __wrap_free(NULL);
      EXPECT(watch.blocks == 0);
    }
  unsigned char *fresh = __wrap_realloc(NULL, 8);
  EXPECT(fresh);
  __wrap_free(fresh);
}

/* What is kept is given back once, in any order, and nothing else is. */
static void kept_blocks(void)
{
  for (int order = 0; order < 27; order++) {
    unsigned char *blocks[3];
    bool kept[] = {true, true, true};
    for (int number = 0; number < 3; number++)
      EXPECT((uintptr_t)(blocks[number] = memset(keep_memory(100), number, 100)) % 16 == 0);
    for (int turn = 0, rest = order; turn < 3; turn++, rest /= 3) {
      EXPECT(give_back(blocks[rest % 3]) == (kept[rest % 3] ? ompd_rc_ok : ompd_rc_bad_input));
      kept[rest % 3] = false;
    }
    EXPECT(watch.blocks == kept[0] + kept[1] + kept[2]);
    for (int number = 0; number < 3; number++)
      EXPECT(!kept[number] || is_filled(blocks[number], 100, number));
    EXPECT(give_back(NULL) == ompd_rc_bad_input && give_back(&order) == ompd_rc_bad_input);
    EXPECT(give_all_back() == ompd_rc_ok && watch.blocks == 0 && give_all_back() == ompd_rc_ok);
  }
  watch_calls(1, ompd_rc_device_read_error);
  EXPECT(!keep_memory(8) && memory_failure() == ompd_rc_device_read_error);
  EXPECT(keep_memory(8) && keep_memory(8));
  watch_calls(1, ompd_rc_incomplete);
  EXPECT(give_all_back() == ompd_rc_incomplete && watch.blocks == 0);
}

enum { PLACES = 1 << 16, TIMES = (1 << 22) - 1 };

static void *made(const struct handle *from, uint64_t address)
{
  void *handle = NULL;
  ompd_rc_t rc = make_handle(from, ompd_scope_task, (omi_object){address, 1}, &handle);
  EXPECT(rc == (handle ? ompd_rc_ok : ompd_rc_nomem));
  return handle;
}

static bool is_made(const void *handle, uint64_t address)
{
  struct handle of;
  return resolve(handle, ompd_scope_task, true, &of) == ompd_rc_ok && of.object.addr == address;
}

/* There are so many places; where all are given, one is that of a handle whose space is gone. */
static void all_places(const struct handle *from, ompd_address_space_handle_t *other)
{
  static void *handles[PLACES];
  struct handle of;
  EXPECT(resolve(other, ompd_scope_address_space, true, &of) == ompd_rc_ok);
  handles[2] = made(&of, 2);
  for (size_t place = 3; place < PLACES; place++)
    EXPECT((handles[place] = made(from, place)));
  for (size_t place = 2; place < PLACES; place++)
    EXPECT(is_made(handles[place], place));
  EXPECT(!made(from, 0) && is_made(handles[2], 2));
  EXPECT(ompd_rel_address_space_handle(other) == ompd_rc_ok && !is_made(handles[2], 2));
  void *first = made(from, 10), *second = made(from, 11);
  EXPECT(is_made(first, 10) && is_made(second, 11) && !made(from, 0));
  EXPECT(ompd_rel_task_handle(handles[2]) == ompd_rc_stale_handle);
  for (size_t place = 3; place < PLACES; place++)
    EXPECT(ompd_rel_task_handle(handles[place]) == ompd_rc_ok && !is_made(handles[place], place));
  EXPECT(ompd_rel_task_handle(first) == ompd_rc_ok && ompd_rel_task_handle(second) == ompd_rc_ok);
}

/* A place is given so often, and then another one is. No handle is given twice: those of a place rise. */
static void serial_numbers(const struct handle *from)
{
  uintptr_t before = 0, first = 0;
  for (long times = 0; times < 2l * TIMES; times++) {
    void *handle = made(from, 1);
    EXPECT(handle && (uintptr_t)handle != before && (uintptr_t)handle != first);
    first = first ? first : (uintptr_t)handle;
    EXPECT(ompd_rel_task_handle(handle) == ompd_rc_ok);
    EXPECT(!before || !is_made((void *)before, 1));
    before = (uintptr_t)handle;
  }
}

static void places_of_handles(void)
{
  ompd_address_space_handle_t *space, *other;
  struct handle from;
  EXPECT(make_space_handle(keep_memory(sizeof(struct space)), &space) == ompd_rc_ok);
  EXPECT(make_space_handle(keep_memory(sizeof(struct space)), &other) == ompd_rc_ok);
  EXPECT(resolve(space, ompd_scope_address_space, true, &from) == ompd_rc_ok);
  all_places(&from, other);
  serial_numbers(&from);
  EXPECT(ompd_rel_address_space_handle(space) == ompd_rc_ok && watch.blocks == 0);
}

int main(int count, char **words)
{
  struct target target;
  EXPECT(count == 2);
  open_target(&target, words[1], "nested.core");
  asking(&target);
  watch_calls(0, ompd_rc_ok);
  heap();
  kept_blocks();
  watch_calls(0, ompd_rc_ok);
  places_of_handles();
  debugger = NULL;
  EXPECT(!__wrap_malloc(8) && memory_failure() == ompd_rc_nomem && watch.blocks == 0);
  close_target(&target);
  printf("parts: asking again, the heap, and the places of handles\n");
  return 0;
}
