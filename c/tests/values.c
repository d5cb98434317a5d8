/* Prints what the calls answer, from before a session to a later stop of the target. The lines that are
 * expected, data/values.expected, follow from the documents and from the reports of the cores. */
#include "trials.h"

#include <stdio.h>
#include <string.h>

static struct target target;
static struct answer got;

/* Prints what is asked for and the code of the answer, and ends the line where there is no value. */
static bool say(const char *what, ompd_rc_t rc)
{
  bool value = rc == ompd_rc_ok || rc == ompd_rc_incomplete;
  EXPECT(value || is_clear(&got));
  printf("%s: %s%s", what, name_of_code(rc), value ? "" : "\n");
  return value;
}

/* Prints a number that a call answers, or its text, and clears the answer. */
#define NUMBER(what, field, call) \
  do { \
    if (say(what, ompd.call)) \
      printf(" %ld\n", (long)got.field); \
    undo(&got); \
  } while (0)
#define TEXT(what, call) \
  do { \
    if (say(what, ompd.call)) \
      printf(" %s\n", got.text); \
    undo(&got); \
  } while (0)

/* Prints the code alone. */
#define CODE(what, call) \
  do { \
    if (say(what, ompd.call)) \
      printf("\n"); \
    undo(&got); \
  } while (0)

#define LACKS(callback) \
  do { \
    ompd_callbacks_t lacking = callbacks; \
    lacking.callback = NULL; \
    CODE("initialize without " #callback, initialize(201811, &lacking)); \
    CODE("and of another version", initialize(201810, &lacking)); \
  } while (0)

/* Before the library is initialized for the first time all but its versions is bad input. */
static void before_a_session(void)
{
  const char *version;
  struct place none = {.context = (ompd_address_space_context_t *)&target};
  EXPECT(ompd.get_version_string(&version) == ompd_rc_ok);
  printf("version: %s\n", version);
  NUMBER("api version", word, get_api_version(&got.word));
  for (size_t trial = 0; trial < trial_count; trial++)
    EXPECT(trials[trial].ask(&none, &got) == ompd_rc_bad_input && is_clear(&got));
  EXPECT(ompd.rel_address_space_handle(NULL) == ompd_rc_bad_input);
  EXPECT(ompd.rel_thread_handle(NULL) == ompd_rc_bad_input);
  EXPECT(ompd.rel_parallel_handle(NULL) == ompd_rc_bad_input);
  EXPECT(ompd.rel_task_handle(NULL) == ompd_rc_bad_input);
  EXPECT(ompd.device_initialize(NULL, none.context, 1, 0, NULL, &got.space) == ompd_rc_bad_input);
  EXPECT(watch.calls == 0);
  CODE("finalize", finalize());
  say("process_initialize", ompd.process_initialize(none.context, &got.space));
  printf("  %s\n", ompd.reason());
  CODE("initialize without callbacks", initialize(201811, NULL));
  CODE("initialize of another version", initialize(201810, &callbacks));
  CODE("without callbacks of another version", initialize(201810, NULL));
  LACKS(alloc_memory);
  LACKS(free_memory);
  LACKS(sizeof_type);
  LACKS(symbol_addr_lookup);
  LACKS(read_memory);
  LACKS(device_to_host);
}

/* The library keeps what a table of callbacks has, and not where it is. */
static void initialized_again(void)
{
  ompd_callbacks_t given = callbacks, other = callbacks;
  other.host_to_device = callbacks.device_to_host;
  EXPECT(ompd.initialize(201811, &given) == ompd_rc_ok);
  memset(&given, 0, sizeof given);
  EXPECT(ompd.process_initialize((ompd_address_space_context_t *)&target, &got.space) == ompd_rc_ok);
  undo(&got);
  CODE("initialize again", initialize(201811, &callbacks));
  CODE("with another table", initialize(201811, &other));
  CODE("without a table", initialize(201811, NULL));
  CODE("with another version", initialize(201810, &other));
  CODE("finalize", finalize());
  CODE("finalize again", finalize());
}

/* Opens the target with one of its words changed, and tells why it can't be opened. */
static void open_with(const char *what, uint64_t address, uint64_t word)
{
  unsigned char *bytes = bytes_at(&target, address);
  uint64_t kept = word_of(&target, bytes);
  set_word(&target, bytes, word);
  say(what, ompd.process_initialize((ompd_address_space_context_t *)&target, &got.space));
  printf("  %s\n", ompd.reason());
  set_word(&target, bytes, kept);
}

/* The same where one of the callbacks fails, by its number. */
static void open_failing(const char *what, unsigned long failing, ompd_rc_t with)
{
  watch_calls(failing, with);
  say(what, ompd.process_initialize((ompd_address_space_context_t *)&target, &got.space));
  printf("  %s\n", ompd.reason());
}

#define OTHER_SIZE(type, size) \
  do { \
    uint8_t usual = sizes_told.sizeof_##type; \
    sizes_told.sizeof_##type = (size); \
    open_with(#type " of " #size " bytes", symbol_at(&target, "omi_layout"), 1); \
    sizes_told.sizeof_##type = usual; \
  } while (0)

/* The symbol of the layout table is the last of eight, and the table stands behind the symbols. */
static void openings(void)
{
  uint64_t symbol = SYMBOLS + WORD * (1 + 7 * 5), address = symbol + 4 * WORD;
  uint64_t table = symbol_at(&target, "omi_layout");
  OTHER_SIZE(char, 2);
  OTHER_SIZE(short, 4);
  OTHER_SIZE(int, 2);
  OTHER_SIZE(long, 4);
  OTHER_SIZE(long_long, 4);
  OTHER_SIZE(pointer, 4);
  open_with("no symbol", symbol, 0);
  open_with("an address that is no word's", address, table + 4);
  open_with("an unmapped table", address, 0x8000);
  open_with("a table at the end of memory", address, UINT64_MAX - 7);
  open_with("a table that isn't published", table, 0);
  open_with("a table of version 3", table, 3);
  open_with("a table of no thread", table + 5 * WORD, 0);
  open_with("a table with a field behind its record", table + 20 * WORD, 4096);
  const char *last = ompd.reason();
  EXPECT(ompd.process_initialize((ompd_address_space_context_t *)&target, &got.space) == ompd_rc_ok);
  EXPECT(*last && !*ompd.reason());
  undo(&got);
  open_failing("sizes that the debugger can't tell", 1, ompd_rc_device_read_error);
  open_failing("a symbol that it can't look up", 2, ompd_rc_bad_input);
  open_failing("words that it can't read", 3, ompd_rc_bad_input);
  open_failing("words that it has not", 3, ompd_rc_error);
  open_failing("memory that it doesn't give", 115, ompd_rc_unsupported);
  watch_calls(0, ompd_rc_ok);
}

static void of_the_space(const struct place *at)
{
  NUMBER("omp version", word, get_omp_version(at->space, &got.word));
  TEXT("omp version string", get_omp_version_string(at->space, &got.text));
  say("device_initialize", ompd.device_initialize(at->space, at->context, 1, 0, NULL, &got.space));
  ompd_word_t state = 0x102, more_states = 1;
  while (more_states
         && say("state", ompd.enumerate_states(at->space, state, &got.word, &got.text, &got.more))) {
    state = got.word;
    more_states = got.more;
    printf(" 0x%03lx %s\n", state, got.text);
    undo(&got);
  }
  say("behind the last", ompd.enumerate_states(at->space, state, &got.word, &got.text, &got.more));
  say("behind none", ompd.enumerate_states(at->space, -1, &got.word, &got.text, &got.more));
  say("behind 2^32", ompd.enumerate_states(at->space, 1l << 32, &got.word, &got.text, &got.more));
  say("behind 2^32 + 0x101", ompd.enumerate_states(at->space, 0x100000101, &got.word, &got.text, &got.more));
  say("behind 2^32 + 0x102", ompd.enumerate_states(at->space, 0x100000102, &got.word, &got.text, &got.more));
  ompd_icv_id_t icv = ompd_icv_undefined;
  int more = 1;
  while (more
         && say("icv", ompd.enumerate_icvs(at->space, icv, &got.icv, &got.text, &got.scope, &got.number))) {
    icv = got.icv;
    more = got.number;
    printf(" %lu %s %d\n", icv, got.text, got.scope);
    undo(&got);
  }
  say("behind the last", ompd.enumerate_icvs(at->space, icv, &got.icv, &got.text, &got.scope, &got.number));
  say("behind 21", ompd.enumerate_icvs(at->space, 21, &got.icv, &got.text, &got.scope, &got.number));
  say("behind 2^32", ompd.enumerate_icvs(at->space, 1l << 32, &got.icv, &got.text, &got.scope, &got.number));
  say("behind 2^32 + 13",
      ompd.enumerate_icvs(at->space, (1l << 32) + 13, &got.icv, &got.text, &got.scope, &got.number));
  EXPECT(ompd.get_display_control_vars(at->space, &got.list) == ompd_rc_ok);
  for (const char *const *text = got.list; *text; text++)
    printf("displayed: %s\n", *text);
  undo(&got);
}

static void of_the_thread(const struct place *at)
{
  uint64_t nobody = 999, wide[] = {at->native, UINT64_MAX};
  uint32_t narrow[] = {(uint32_t)at->native, UINT32_MAX};
  NUMBER("native id", native, get_thread_id(at->thread, 0, 8, &got.native));
  NUMBER("native id of kind 1", native, get_thread_id(at->thread, 1, 8, &got.native));
  NUMBER("native id of kind 2", native, get_thread_id(at->thread, 2, 8, &got.native));
  for (ompd_thread_id_t kind = 0; kind < 2; kind++) {
    uint32_t id[] = {0, 0xa5a5a5a5};
    EXPECT(ompd.get_thread_id(at->thread, kind, 4, id) == ompd_rc_ok);
    EXPECT(id[0] == at->native && id[1] == 0xa5a5a5a5);
    CODE("thread by eight bytes", get_thread_handle(at->space, kind, 8, wide, &got.thread));
    CODE("thread by four bytes", get_thread_handle(at->space, kind, 4, narrow, &got.thread));
    CODE("thread 999", get_thread_handle(at->space, kind, 8, &nobody, &got.thread));
    CODE("thread 2^32 - 1", get_thread_handle(at->space, kind, 4, narrow + 1, &got.thread));
    CODE("thread 2^64 - 1", get_thread_handle(at->space, kind, 8, wide + 1, &got.thread));
  }
  CODE("thread of kind 2", get_thread_handle(at->space, 2, 8, wide, &got.thread));
  CODE("thread of kind 2^32", get_thread_handle(at->space, 1l << 32, 8, wide, &got.thread));
  if (say("state", ompd.get_state(at->thread, &got.word, &got.wait)))
    printf(" 0x%03lx wait %lu\n", got.word, got.wait);
  undo(&got);
  NUMBER("a thread's tool data", word, get_tool_data(at->thread, ompd_scope_thread, &got.word, &got.address));
  TEXT("thread-num-var", get_icv_string_from_scope(at->thread, ompd_scope_thread, 13, &got.text));
}

/* Ids that four bytes have no room for. */
static void wide_ids(const struct place *at)
{
  uint64_t wide = (5l << 32) + at->native;
  unsigned char *word = NULL;
  for (uint64_t address = SYMBOLS; !word; address += WORD)
    if (bytes_at(&target, address) && word_of(&target, bytes_at(&target, address)) == at->native)
      word = bytes_at(&target, address);
  set_word(&target, word, wide);
  NUMBER("a wide native id", native, get_thread_id(at->thread, 0, 8, &got.native));
  NUMBER("in four bytes", native, get_thread_id(at->thread, 0, 4, &got.native));
  CODE("thread by a wide id", get_thread_handle(at->space, 0, 8, &wide, &got.thread));
  CODE("by its low four bytes", get_thread_handle(at->space, 0, 4, &wide, &got.thread));
  set_word(&target, word, at->native);
}

static void of_the_task(const struct place *at)
{
  if (say("function", ompd.get_task_function(at->task, &got.address)))
    printf(" 0x%lx\n", got.address.address);
  undo(&got);
  if (say("frames", ompd.get_task_frame(at->task, &got.exits, &got.enters)))
    printf(" 0x%lx 0x%lx, 0x%lx 0x%lx\n", got.exits.frame_address.address, got.exits.frame_flag,
           got.enters.frame_address.address, got.enters.frame_flag);
  undo(&got);
  NUMBER("tool data", word, get_tool_data(at->task, ompd_scope_task, &got.word, &got.address));
  NUMBER("dyn-var", word, get_icv_from_scope(at->task, ompd_scope_task, 1, &got.word));
  NUMBER("nthreads-var", word, get_icv_from_scope(at->task, ompd_scope_task, 2, &got.word));
  NUMBER("run-sched-var", word, get_icv_from_scope(at->task, ompd_scope_task, 3, &got.word));
  NUMBER("thread-num-var of a task", word, get_icv_from_scope(at->task, ompd_scope_task, 13, &got.word));
  NUMBER("icv 0", word, get_icv_from_scope(at->task, ompd_scope_task, 0, &got.word));
  NUMBER("icv 21", word, get_icv_from_scope(at->task, ompd_scope_task, 21, &got.word));
  NUMBER("icv 2^32 + 1", word, get_icv_from_scope(at->task, ompd_scope_task, (1l << 32) + 1, &got.word));
  NUMBER("icv 2^32 + 17", word, get_icv_from_scope(at->task, ompd_scope_task, (1l << 32) + 17, &got.word));
  NUMBER("dyn-var, global", word, get_icv_from_scope(at->space, ompd_scope_global, 1, &got.word));
  NUMBER("dyn-var, implicit", word, get_icv_from_scope(at->task, ompd_scope_implicit_task, 1, &got.word));
  NUMBER("tool data, global", word, get_tool_data(at->space, ompd_scope_global, &got.word, &got.address));
  NUMBER("tool data, implicit", word,
         get_tool_data(at->task, ompd_scope_implicit_task, &got.word, &got.address));
  TEXT("nthreads-var", get_icv_string_from_scope(at->task, ompd_scope_task, 2, &got.text));
  TEXT("run-sched-var", get_icv_string_from_scope(at->task, ompd_scope_task, 3, &got.text));
  TEXT("icv 2^32 + 1", get_icv_string_from_scope(at->task, ompd_scope_task, (1l << 32) + 1, &got.text));
  TEXT("icv 0", get_icv_string_from_scope(at->task, ompd_scope_task, 0, &got.text));
  TEXT("icv 21", get_icv_string_from_scope(at->task, ompd_scope_task, 21, &got.text));
  TEXT("debug-var of a task", get_icv_string_from_scope(at->task, ompd_scope_task, 8, &got.text));
  TEXT("debug-var", get_icv_string_from_scope(at->space, ompd_scope_address_space, 8, &got.text));
  TEXT("team-size-var", get_icv_string_from_scope(at->region, ompd_scope_parallel, 12, &got.text));
}

/* Each of OMPD's own names stands for what another one does, in its scope alone. */
static void other_names(const struct place *at)
{
  void *const handles[] = {NULL, NULL, at->space, at->thread, at->region, NULL, at->task};
  const ompd_icv_id_t same[] = {9, 13, 12, 6, 5, 5, 6};
  for (ompd_icv_id_t icv = 14; icv <= LAST_ICV; icv++)
    for (ompd_scope_t scope = ompd_scope_address_space; scope <= ompd_scope_task; scope++)
      if (handles[scope]) {
        struct answer other;
        clear_answer(&other);
        ompd_rc_t rc = ompd.get_icv_from_scope(handles[scope], scope, same[icv - 14], &other.word);
        EXPECT(ompd.get_icv_from_scope(handles[scope], scope, icv, &got.word) == rc);
        EXPECT(got.word == other.word);
        rc = ompd.get_icv_string_from_scope(handles[scope], scope, same[icv - 14], &other.text);
        EXPECT(ompd.get_icv_string_from_scope(handles[scope], scope, icv, &got.text) == rc);
        EXPECT(rc == ompd_rc_ok || (rc == ompd_rc_bad_input && is_clear(&got)));
        EXPECT(rc != ompd_rc_ok || strcmp(got.text, other.text) == 0);
        undo(&got);
        undo(&other);
      }
}

static void of_members(const struct place *at)
{
  struct answer other;
  clear_answer(&other);
  EXPECT(ompd.get_task_in_parallel(at->region, 1, &other.task) == ompd_rc_ok);
  EXPECT(ompd.get_thread_in_parallel(at->region, 1, &other.thread) == ompd_rc_ok);
  EXPECT(ompd.get_enclosing_parallel_handle(at->region, &other.region) == ompd_rc_ok);
  NUMBER("native id of member 1", native, get_thread_id(other.thread, 0, 8, &got.native));
  NUMBER("task of member 2", number, get_task_in_parallel(at->region, 2, &got.task));
  NUMBER("task of member -1", number, get_task_in_parallel(at->region, -1, &got.task));
  NUMBER("task of member 256", number, get_task_in_parallel(at->region, 256, &got.task));
  NUMBER("thread of member 2", number, get_thread_in_parallel(at->region, 2, &got.thread));
  NUMBER("thread of member -1", number, get_thread_in_parallel(at->region, -1, &got.thread));
  NUMBER("scheduling task of member 1", number, get_scheduling_task_handle(other.task, &got.task));
  NUMBER("thread and itself", number, thread_handle_compare(at->thread, at->thread, &got.number));
  NUMBER("thread and member 1", number, thread_handle_compare(at->thread, other.thread, &got.number));
  NUMBER("member 1 and thread", number, thread_handle_compare(other.thread, at->thread, &got.number));
  NUMBER("task and itself", number, task_handle_compare(at->task, at->task, &got.number));
  NUMBER("task and member 1's", number, task_handle_compare(at->task, other.task, &got.number));
  NUMBER("member 1's and task", number, task_handle_compare(other.task, at->task, &got.number));
  NUMBER("region and itself", number, parallel_handle_compare(at->region, at->region, &got.number));
  NUMBER("region and enclosing", number, parallel_handle_compare(at->region, other.region, &got.number));
  NUMBER("enclosing and region", number, parallel_handle_compare(other.region, at->region, &got.number));
  undo(&other);
}

/* How many words a call reads. */
#define READS(what, call) \
  do { \
    watch_calls(0, ompd_rc_ok); \
    ompd_rc_t rc = ompd.call; \
    printf("reads for %s: %lu, %s\n", what, watch.reads, name_of_code(rc)); \
    undo(&got); \
  } while (0)

static void reads(const struct place *at)
{
  struct answer other;
  clear_answer(&other);
  EXPECT(ompd.get_task_in_parallel(at->region, 1, &other.task) == ompd_rc_ok);
  watch_calls(0, ompd_rc_ok);
  EXPECT(ompd.process_initialize(at->context, &got.space) == ompd_rc_ok);
  printf("callbacks to open: %lu\n", watch.calls);
  undo(&got);
  READS("a thread", get_thread_handle(at->space, 0, 8, &at->native, &got.thread));
  READS("its task", get_curr_task_handle(at->thread, &got.task));
  READS("the task's region", get_task_parallel_handle(at->task, &got.region));
  READS("a member's task", get_task_in_parallel(at->region, 1, &got.task));
  READS("a member's thread", get_thread_in_parallel(at->region, 1, &got.thread));
  READS("no member", get_task_in_parallel(at->region, 2, &got.task));
  READS("the enclosing region", get_enclosing_parallel_handle(at->region, &got.region));
  READS("the generating task", get_generating_task_handle(at->task, &got.task));
  READS("the scheduling task", get_scheduling_task_handle(at->task, &got.task));
  READS("a worker's scheduling task", get_scheduling_task_handle(other.task, &got.task));
  undo(&other);
}

/* The same handles over the words of a later stop: the task was given back, and its thread is in the region
 * around the task's. */
static void at_a_later_stop(const struct place *at, const char *folder)
{
  struct target first = target;
  ompd_parallel_handle_t *outer;
  int order = 1;
  EXPECT(ompd.get_enclosing_parallel_handle(at->region, &outer) == ompd_rc_ok);
  open_target(&target, folder, "later.core");
  NUMBER("function later", word, get_task_function(at->task, &got.address));
  NUMBER("thread-num-var later", word, get_icv_from_scope(at->task, ompd_scope_task, 13, &got.word));
  NUMBER("native id later", native, get_thread_id(at->thread, 0, 8, &got.native));
  EXPECT(ompd.get_curr_parallel_handle(at->thread, &got.region) == ompd_rc_ok);
  EXPECT(ompd.parallel_handle_compare(got.region, outer, &order) == ompd_rc_ok);
  printf("current and enclosing: %d\n", order);
  undo(&got);
  EXPECT(ompd.rel_parallel_handle(outer) == ompd_rc_ok);
  close_target(&target);
  target = first;
}

int main(int count, char **words)
{
  struct place at;
  EXPECT(count == 3);
  load(words[1]);
  clear_answer(&got);
  before_a_session();
  open_target(&target, words[2], "nested.core");
  initialized_again();
  close_target(&target);
  ompd_address_space_handle_t *space = begin_session(&target, words[2], "nested.core");
  EXPECT(enter(&at, &target, space, 1000));
  openings();
  of_the_space(&at);
  of_the_thread(&at);
  wide_ids(&at);
  of_the_task(&at);
  other_names(&at);
  of_members(&at);
  reads(&at);
  at_a_later_stop(&at, words[2]);
  leave(&at);
  end_session(&target, space);
  return 0;
}
