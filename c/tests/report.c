/* Asks the library for all that `ompdi show` prints of a core, and compares that with the stored report. */
#define _POSIX_C_SOURCE 200809L

#include "names.h"

#include <stdio.h>
#include <stdlib.h>
#include <string.h>

enum {
  DYN = 1, NTHREADS, RUN_SCHED, DEFAULT_DEVICE, FINAL_TASK, IMPLICIT_TASK, MAX_ACTIVE_LEVELS, DEBUG,
  NUM_PROCS, LEVELS, ACTIVE_LEVELS, TEAM_SIZE, THREAD_NUM
};
enum { MOST_REGIONS = 256 };

static struct target target;
static ompd_address_space_handle_t *space;
static FILE *out;

static void text_of(void *handle, ompd_scope_t scope, ompd_icv_id_t icv, char text[NAME])
{
  const char *string;
  watch_calls(0, ompd_rc_ok);
  ompd_rc_t rc = ompd.get_icv_string_from_scope(handle, scope, icv, &string);
  EXPECT(rc == ompd_rc_ok || rc == ompd_rc_unavailable);
  snprintf(text, NAME, "%s", rc == ompd_rc_ok ? string : "none");
  if (rc == ompd_rc_ok)
    callbacks.free_memory((void *)string);
}

/* The value as a number is that of the text, where the text is a number. */
static void put_variable(void *handle, ompd_scope_t scope, const char *name, ompd_icv_id_t icv)
{
  char text[NAME], number[NAME];
  ompd_word_t value = 0;
  ompd_rc_t rc = ompd.get_icv_from_scope(handle, scope, icv, &value);
  text_of(handle, scope, icv, text);
  snprintf(number, sizeof number, "%ld", value);
  bool list = strchr(text, ',') && icv == NTHREADS;
  ompd_rc_t due = list ? ompd_rc_incomplete : icv == RUN_SCHED ? ompd_rc_incompatible : ompd_rc_ok;
  EXPECT(rc == (strcmp(text, "none") == 0 ? ompd_rc_unavailable : due));
  if (list)
    EXPECT(atol(text) == value);
  else if (rc == ompd_rc_ok && icv != DEBUG)
    EXPECT(strcmp(text, number) == 0);
  fprintf(out, " %s=%s", name, text);
}

/* The name of a task that a call gave, which is let go. */
static void name_of_given(ompd_rc_t rc, ompd_task_handle_t *task, char name[NAME])
{
  EXPECT(rc == ompd_rc_ok || rc == ompd_rc_unavailable);
  snprintf(name, NAME, "none");
  if (rc == ompd_rc_ok) {
    name_of_task(&target, task, name);
    EXPECT(ompd.rel_task_handle(task) == ompd_rc_ok);
  }
}

static void put_head(void)
{
  ompd_word_t version;
  char debug[NAME];
  EXPECT(ompd.get_omp_version(space, &version) == ompd_rc_ok);
  text_of(space, ompd_scope_address_space, DEBUG, debug);
  fprintf(out, "ompd %ld threads %lu debug %s\nicv", version, layout_word(&target, 5), debug);
  put_variable(space, ompd_scope_address_space, "num-procs-var", NUM_PROCS);
  put_variable(space, ompd_scope_address_space, "max-active-levels-var", MAX_ACTIVE_LEVELS);
  fprintf(out, "\n");
}

static void name_of_state(ompd_word_t state, char name[NAME])
{
  ompd_word_t at = 0x102, more = 1;
  snprintf(name, NAME, "%#lx", state);
  while (more) {
    const char *text;
    EXPECT(ompd.enumerate_states(space, at, &at, &text, &more) == ompd_rc_ok);
    if (at == state)
      snprintf(name, NAME, "%s", text);
    callbacks.free_memory((void *)text);
  }
}

static void put_thread(uint64_t native, ompd_thread_handle_t *thread)
{
  ompd_word_t state;
  ompd_wait_id_t wait = 0;
  uint64_t id;
  char name[NAME] = "untracked", current[NAME];
  ompd_task_handle_t *task = NULL;
  EXPECT(ompd.get_thread_id(thread, 0, sizeof id, &id) == ompd_rc_ok && id == native);
  ompd_rc_t rc = ompd.get_state(thread, &state, &wait);
  EXPECT(rc == ompd_rc_ok || rc == ompd_rc_needs_state_tracking);
  if (rc == ompd_rc_ok)
    name_of_state(state, name);
  rc = ompd.get_curr_task_handle(thread, &task);
  name_of_given(rc, task, current);
  uint64_t number = number_of_thread(&target, thread);
  fprintf(out, "thread %lu native %lu state %s wait %lu", number, native, name, wait);
  put_variable(thread, ompd_scope_thread, "thread-num-var", THREAD_NUM);
  fprintf(out, " current %s\n", current);
}

/* A region that was found, and the three numbers of its name, in the order by which regions are listed. */
struct found {
  unsigned long key[3];
  ompd_parallel_handle_t *handle;
};
static struct found found[MOST_REGIONS];
static size_t found_count;

static int in_order(const void *a, const void *b)
{
  const unsigned long *one = ((const struct found *)a)->key, *other = ((const struct found *)b)->key;
  for (int place = 0; place < 3; place++)
    if (one[place] != other[place])
      return one[place] < other[place] ? -1 : 1;
  return 0;
}

/* Keeps the handle of a region that wasn't found before. Whether it wasn't. */
static bool keep_region(ompd_parallel_handle_t *region)
{
  int order = 1;
  for (size_t place = 0; place < found_count && order; place++)
    EXPECT(ompd.parallel_handle_compare(found[place].handle, region, &order) == ompd_rc_ok);
  if (order == 0) {
    EXPECT(ompd.rel_parallel_handle(region) == ompd_rc_ok);
    return false;
  }
  char name[NAME];
  name_of_region(&target, region, name);
  struct found *at = found + found_count++;
  EXPECT(found_count <= MOST_REGIONS);
  at->handle = region;
  EXPECT(sscanf(name, "r%lu.%lu.%lu", at->key, at->key + 1, at->key + 2) == 3);
  return true;
}

static void find_regions(ompd_thread_handle_t *thread)
{
  ompd_parallel_handle_t *region, *outer;
  ompd_rc_t rc = ompd.get_curr_parallel_handle(thread, &region);
  while (rc == ompd_rc_ok && keep_region(region)) {
    rc = ompd.get_enclosing_parallel_handle(region, &outer);
    region = outer;
  }
  EXPECT(rc == ompd_rc_ok || rc == ompd_rc_unavailable);
}

/* The function of a region is that of its first member's task. */
static void put_region(ompd_parallel_handle_t *region)
{
  char name[NAME], enclosing[NAME] = "none";
  ompd_task_handle_t *task;
  ompd_thread_handle_t *thread;
  ompd_parallel_handle_t *outer;
  ompd_address_t entry;
  EXPECT(ompd.get_task_in_parallel(region, 0, &task) == ompd_rc_ok);
  EXPECT(ompd.get_task_function(task, &entry) == ompd_rc_ok);
  EXPECT(ompd.rel_task_handle(task) == ompd_rc_ok);
  if (ompd.get_enclosing_parallel_handle(region, &outer) == ompd_rc_ok) {
    name_of_region(&target, outer, enclosing);
    EXPECT(ompd.rel_parallel_handle(outer) == ompd_rc_ok);
  }
  name_of_region(&target, region, name);
  fprintf(out, "region %s function %#lx", name, entry.address);
  put_variable(region, ompd_scope_parallel, "levels-var", LEVELS);
  put_variable(region, ompd_scope_parallel, "active-levels-var", ACTIVE_LEVELS);
  put_variable(region, ompd_scope_parallel, "team-size-var", TEAM_SIZE);
  fprintf(out, " enclosing %s\n", enclosing);
  ompd_rc_t rc;
  for (int member = 0; (rc = ompd.get_task_in_parallel(region, member, &task)) == ompd_rc_ok; member++) {
    EXPECT(ompd.get_thread_in_parallel(region, member, &thread) == ompd_rc_ok);
    name_of_given(rc, task, name);
    fprintf(out, "member %d thread %lu task %s\n", member, number_of_thread(&target, thread), name);
    EXPECT(ompd.rel_thread_handle(thread) == ompd_rc_ok);
  }
  EXPECT(rc == ompd_rc_bad_input);
}

static void put_task(uint64_t thread, ompd_task_handle_t *task)
{
  char name[NAME], kind[NAME], region_name[NAME], generating[NAME], scheduling[NAME];
  ompd_task_handle_t *other = NULL;
  ompd_parallel_handle_t *region;
  ompd_address_t entry, tool;
  ompd_frame_info_t exits, enters;
  ompd_word_t value;
  name_of_task(&target, task, name);
  text_of(task, ompd_scope_task, IMPLICIT_TASK, kind);
  EXPECT(ompd.get_task_parallel_handle(task, &region) == ompd_rc_ok);
  name_of_region(&target, region, region_name);
  EXPECT(ompd.rel_parallel_handle(region) == ompd_rc_ok);
  EXPECT(ompd.get_task_function(task, &entry) == ompd_rc_ok);
  ompd_rc_t rc = ompd.get_generating_task_handle(task, &other);
  name_of_given(rc, other, generating);
  rc = ompd.get_scheduling_task_handle(task, &other);
  name_of_given(rc, other, scheduling);
  EXPECT(ompd.get_task_frame(task, &exits, &enters) == ompd_rc_ok);
  EXPECT(exits.frame_flag == (exits.frame_address.address ? 0x21 : 0));
  EXPECT(enters.frame_flag == (enters.frame_address.address ? 0x21 : 0));
  EXPECT(ompd.get_tool_data(task, ompd_scope_task, &value, &tool) == ompd_rc_ok);
  EXPECT((uint64_t)value == tool.address);
  EXPECT(entry.segment == SEGMENT && exits.frame_address.segment == SEGMENT);
  EXPECT(enters.frame_address.segment == SEGMENT && tool.segment == SEGMENT);
  fprintf(out, "task %s thread %lu kind %s region %s function 0x%lx", name, thread,
          strcmp(kind, "1") == 0 ? "implicit" : "explicit", region_name, entry.address);
  fprintf(out, " generating %s scheduling %s exit 0x%lx enter 0x%lx tool %lu\nicv", generating, scheduling,
          exits.frame_address.address, enters.frame_address.address, tool.address);
  put_variable(task, ompd_scope_task, "dyn-var", DYN);
  put_variable(task, ompd_scope_task, "nthreads-var", NTHREADS);
  put_variable(task, ompd_scope_task, "run-sched-var", RUN_SCHED);
  put_variable(task, ompd_scope_task, "default-device-var", DEFAULT_DEVICE);
  put_variable(task, ompd_scope_task, "final-task-var", FINAL_TASK);
  put_variable(task, ompd_scope_task, "implicit-task-var", IMPLICIT_TASK);
  fprintf(out, "\n");
}

static void put_tasks(ompd_thread_handle_t *thread)
{
  ompd_task_handle_t *task, *left;
  ompd_rc_t rc = ompd.get_curr_task_handle(thread, &task);
  while (rc == ompd_rc_ok) {
    put_task(number_of_thread(&target, thread), task);
    rc = ompd.get_scheduling_task_handle(task, &left);
    EXPECT(ompd.rel_task_handle(task) == ompd_rc_ok);
    task = left;
  }
  EXPECT(rc == ompd_rc_unavailable);
}

static void put_report(void)
{
  ompd_thread_handle_t *thread[MOST_CONTEXTS];
  size_t begun = 0;
  put_head();
  for (size_t context = 0; context < target.contexts; context++) {
    ompd_rc_t rc = ompd.get_thread_handle(space, 0, 8, target.ids + context, thread + begun);
    EXPECT(rc == ompd_rc_ok || rc == ompd_rc_unavailable);
    if (rc == ompd_rc_ok)
      put_thread(target.ids[context], thread[begun++]);
    else
      fprintf(out, "native %lu none\n", target.ids[context]);
  }
  for (size_t place = 0; place < begun; place++)
    find_regions(thread[place]);
  qsort(found, found_count, sizeof *found, in_order);
  for (size_t place = 0; place < found_count; place++) {
    put_region(found[place].handle);
    EXPECT(ompd.rel_parallel_handle(found[place].handle) == ompd_rc_ok);
  }
  found_count = 0;
  for (size_t place = 0; place < begun; place++) {
    put_tasks(thread[place]);
    EXPECT(ompd.rel_thread_handle(thread[place]) == ompd_rc_ok);
  }
}

static void compare_report(const char *folder, const char *name)
{
  char core[NAME], path[4096], *report;
  size_t size, line = 1;
  snprintf(core, sizeof core, "%s.core", name);
  snprintf(path, sizeof path, "%s/%s.report", folder, name);
  space = begin_session(&target, folder, core);
  out = open_memstream(&report, &size);
  put_report();
  fclose(out);
  end_session(&target, space);
  FILE *file = fopen(path, "r");
  EXPECT(file);
  for (char *at = report;; line++) {
    char expected[1024] = "";
    bool ended = !fgets(expected, sizeof expected, file);
    if (ended && !*at)
      break;
    size_t length = strcspn(at, "\n") + 1;
    if (ended || strlen(expected) != length || strncmp(at, expected, length)) {
      fprintf(stderr, "%s, line %zu: expected %sbut got %.*s", path, line, expected, (int)length, at);
      exit(1);
    }
    at += length;
  }
  fclose(file);
  free(report);
  printf("report of %s: %zu lines\n", core, line - 1);
}

int main(int count, char **words)
{
  EXPECT(count == 3);
  load(words[1]);
  compare_report(words[2], "nested");
  compare_report(words[2], "later");
  compare_report(words[2], "tasks");
  compare_report(words[2], "untracked");
  compare_report(words[2], "sixty_four");
  compare_report(words[2], "reuse");
  compare_report(words[2], "groups");
  return 0;
}
