/* Until when handles and lists stand for something: lifetimes LIBRARY OTHER FOLDER.
 *
 * OTHER is a copy of the library. Every order of three releases, two address spaces, two sessions, two
 * libraries that are loaded at once, and records whose life words change between two calls. Where this is
 * built with checks of memory, no freed memory is read. */
#include "trials.h"

#include <stdio.h>
#include <string.h>

enum { SPACE, THREAD, REGION, TASK, HANDLES };

/* An address space and three objects in it, and which of the handles were released. */
struct held {
  struct place at;
  bool released[HANDLES];
};

static struct target target;
static unsigned long judged;

static ompd_rc_t release(const struct held *held, int kind)
{
  switch (kind) {
  case SPACE:
    return ompd.rel_address_space_handle(held->at.space);
  case THREAD:
    return ompd.rel_thread_handle(held->at.thread);
  case REGION:
    return ompd.rel_parallel_handle(held->at.region);
  default:
    return ompd.rel_task_handle(held->at.task);
  }
}

/* What a call says that reads a word by a handle. */
static ompd_rc_t ask(const struct held *held, int kind)
{
  ompd_word_t word;
  ompd_address_t entry;
  uint64_t native;
  judged++;
  switch (kind) {
  case SPACE:
    return ompd.get_omp_version(held->at.space, &word);
  case THREAD:
    return ompd.get_thread_id(held->at.thread, 0, sizeof native, &native);
  case REGION:
    return ompd.get_icv_from_scope(held->at.region, ompd_scope_parallel, 10, &word);
  default:
    return ompd.get_task_function(held->at.task, &entry);
  }
}

/* Each handle stands for its object unless it or its space was released, or the session ended. */
static void judge(const struct held *held, bool ended)
{
  for (int kind = 0; kind < HANDLES; kind++) {
    bool stale = ended || held->released[kind] || held->released[SPACE];
    watch_calls(0, ompd_rc_ok);
    EXPECT(ask(held, kind) == (stale ? ompd_rc_stale_handle : ompd_rc_ok));
    EXPECT(!stale || watch.calls == 0);
    if (held->released[kind])
      EXPECT(release(held, kind) == ompd_rc_stale_handle);
  }
}

static void let_go(struct held *held, int kind)
{
  EXPECT(release(held, kind) == ompd_rc_ok);
  held->released[kind] = true;
}

static struct held opened(void)
{
  struct held held = {0};
  ompd_address_space_handle_t *space;
  EXPECT(ompd.process_initialize((ompd_address_space_context_t *)&target, &space) == ompd_rc_ok);
  EXPECT(enter(&held.at, &target, space, 1000));
  return held;
}

/* The kinds of handles in an order: of each number below 256 whose digits differ. */
static bool orders(unsigned number, int order[HANDLES])
{
  unsigned met = 0;
  for (int place = 0; place < HANDLES; place++, number /= HANDLES)
    met |= 1u << (order[place] = number % HANDLES);
  return met == (1u << HANDLES) - 1;
}

static void begin(void)
{
  EXPECT(ompd.initialize(201811, &callbacks) == ompd_rc_ok);
}

static void end(void)
{
  EXPECT(ompd.finalize() == ompd_rc_ok && watch.blocks == 0);
}

/* Releases in every order, beside another space that stays as it is. */
static void every_order(void)
{
  int order[HANDLES];
  for (unsigned number = 0; number < 256; number++)
    if (orders(number, order)) {
      begin();
      struct held one = opened(), other = opened();
      for (int place = 0; place < HANDLES; place++) {
        let_go(&one, order[place]);
        judge(&one, false);
        judge(&other, false);
      }
      let_go(&other, SPACE);
      judge(&other, false);
      end();
      judge(&one, true);
      judge(&other, true);
    }
}

/* The handles of a session that ended are stale in the next one and between the two, and so many are released
 * before its end, between the two and in the next. */
static void two_sessions(void)
{
  int order[HANDLES];
  for (unsigned number = 0; number < 256; number++)
    for (int before = 0; before < HANDLES && orders(number, order); before++) {
      begin();
      struct held one = opened(), other;
      for (int place = 0; place < before; place++)
        let_go(&one, order[place]);
      end();
      judge(&one, true);
      let_go(&one, order[before]);
      judge(&one, true);
      begin();
      other = opened();
      for (int place = before + 1; place < HANDLES; place++) {
        let_go(&one, order[place]);
        judge(&one, true);
        judge(&other, false);
      }
      end();
    }
}

/* Of two libraries that are loaded each knows its own handles alone. */
static void two_libraries(const struct library *first, const struct library *second)
{
  ompd = *first;
  begin();
  struct held one = opened();
  ompd = *second;
  EXPECT(ask(&one, SPACE) == ompd_rc_bad_input && release(&one, TASK) == ompd_rc_bad_input);
  begin();
  struct held other = opened();
  for (int kind = 0; kind < HANDLES; kind++) {
    EXPECT(ask(&one, kind) == ompd_rc_stale_handle && release(&one, kind) == ompd_rc_stale_handle);
    let_go(&other, kind);
  }
  EXPECT(ompd.finalize() == ompd_rc_ok);
  ompd = *first;
  judge(&one, false);
  for (int kind = 0; kind < HANDLES; kind++)
    EXPECT(ask(&other, kind) == ompd_rc_stale_handle && release(&other, kind) == ompd_rc_stale_handle);
  end();
  judge(&one, true);
}

/* Writes over the stack that calls before this one had. */
static int write_over_stack(void)
{
  volatile char room[16384];
  for (size_t place = 0; place < sizeof room; place++)
    room[place] = '=';
  return room[sizeof room / 2];
}

static bool are_texts(const char *const *list)
{
  static const char *const texts[] = {
    "OMP_DEBUG=enabled", "OMP_MAX_ACTIVE_LEVELS=8", "OMP_DYNAMIC=false", "OMP_NUM_THREADS=2,2",
    "OMP_SCHEDULE=static", "OMP_DEFAULT_DEVICE=0"};
  size_t count = sizeof texts / sizeof *texts;
  for (size_t place = 0; place < count; place++)
    if (!list[place] || strcmp(list[place], texts[place]))
      return false;
  return !list[count];
}

/* Before the initial task is made, and behind its end, the variables that it would have are left out. */
static void without_initial_task(const struct held *held)
{
  unsigned char *life = bytes_at(&target, layout_word(&target, 9) + WORD * layout_word(&target, 11 + 25));
  uint64_t kept = word_of(&target, life);
  const uint64_t others[] = {0, kept + 1, UINT64_MAX};
  for (size_t place = 0; place < sizeof others / sizeof *others; place++) {
    const char *const *list;
    set_word(&target, life, others[place]);
    EXPECT(ompd.get_display_control_vars(held->at.space, &list) == ompd_rc_ok);
    EXPECT(strcmp(list[0], "OMP_DEBUG=enabled") == 0 && strcmp(list[1], "OMP_MAX_ACTIVE_LEVELS=8") == 0);
    EXPECT(!list[2] && ompd.rel_display_control_vars(&list) == ompd_rc_ok);
  }
  set_word(&target, life, kept);
}

/* A list lives until it is released, whatever becomes of its space, and is released once. */
static void lists(void)
{
  begin();
  struct held held = opened();
  const char *const *list, *const *other, *const *copy, *const none[] = {NULL};
  EXPECT(ompd.get_display_control_vars(held.at.space, &list) == ompd_rc_ok);
  EXPECT(ompd.get_display_control_vars(held.at.space, &other) == ompd_rc_ok && list != other);
  copy = list;
  EXPECT(write_over_stack() == '=' && are_texts(list) && are_texts(other));
  EXPECT(ompd.rel_display_control_vars(&list) == ompd_rc_ok);
  EXPECT(ompd.rel_display_control_vars(&copy) == ompd_rc_bad_input && are_texts(other));
  without_initial_task(&held);
  let_go(&held, SPACE);
  copy = none;
  EXPECT(ompd.rel_display_control_vars(&copy) == ompd_rc_bad_input && are_texts(other));
  copy = other + 1;
  EXPECT(ompd.rel_display_control_vars(&copy) == ompd_rc_bad_input && are_texts(other));
  copy = other;
  end();
  EXPECT(ompd.rel_display_control_vars(&copy) == ompd_rc_bad_input);
  begin();
  EXPECT(ompd.rel_display_control_vars(&copy) == ompd_rc_bad_input);
  end();
}

/* Adds to the life word of each live record of a kind, as if its record had been used before. `place` is that
 * of the kind in the layout table, and `life` the number of the field. */
static void use_again(size_t place, size_t life, uint64_t more)
{
  uint64_t first = layout_word(&target, place), size = WORD * layout_word(&target, place + 1);
  for (uint64_t number = 0; number < layout_word(&target, 5) * layout_word(&target, place + 2); number++) {
    unsigned char *bytes = bytes_at(&target, first + size * number + WORD * layout_word(&target, 11 + life));
    if (bytes && word_of(&target, bytes) % 2)
      set_word(&target, bytes, word_of(&target, bytes) + more);
  }
}

/* Changes the life word of an object's record to others, and back. */
static void change_life(const struct held *held, int kind)
{
  watch_calls(0, ompd_rc_ok);
  EXPECT(ask(held, kind) == ompd_rc_ok);
  unsigned char *life = bytes_at(&target, watch.first_read);
  uint64_t kept = word_of(&target, life);
  const uint64_t others[] = {
    kept + 1, kept - 1, kept + 2, kept - 2, kept ^ 4, 0, 1, 3, kept + (1l << 32), UINT64_MAX};
  for (size_t place = 0; place < sizeof others / sizeof *others; place++)
    if (others[place] != kept) {
      set_word(&target, life, others[place]);
      EXPECT(ask(held, kind) == ompd_rc_stale_handle);
      set_word(&target, life, kept);
      EXPECT(ask(held, kind) == ompd_rc_ok);
    }
}

/* An object is gone where the life word of its record is another one, and back where it is the same again. */
static void life_words(const char *folder)
{
  for (size_t core = 0; core < core_count; core++)
    for (uint64_t more = 0; more < 8; more += 2) {
      open_target(&target, folder, cores[core]);
      use_again(6, 13, more);
      use_again(9, 25, more);
      begin();
      struct held held = opened();
      for (int kind = THREAD; kind < HANDLES; kind++)
        change_life(&held, kind);
      end();
      close_target(&target);
    }
}

int main(int count, char **words)
{
  EXPECT(count == 4);
  load(words[2]);
  struct library other = ompd;
  load(words[1]);
  struct library library = ompd;
  open_target(&target, words[3], "nested.core");
  two_libraries(&library, &other);
  every_order();
  two_sessions();
  lists();
  close_target(&target);
  life_words(words[3]);
  printf("lifetimes: %lu handles judged\n", judged);
  return 0;
}
