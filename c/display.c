/* The control variables that are displayed: each by the environment variable that sets it. */
#include "adapter.h"

#include <string.h>

/* Those of the task scope are the initial task's, whom the environment gave them. */
static const struct displayed {
  const char *name;
  ompd_scope_t scope;
  uint32_t variable;
} displayed[] = {
  {"OMP_DEBUG=", ompd_scope_address_space, DEBUG_VAR},
  {"OMP_MAX_ACTIVE_LEVELS=", ompd_scope_address_space, MAX_ACTIVE_LEVELS_VAR},
  {"OMP_DYNAMIC=", ompd_scope_task, DYN_VAR},
  {"OMP_NUM_THREADS=", ompd_scope_task, NTHREADS_VAR},
  {"OMP_SCHEDULE=", ompd_scope_task, RUN_SCHED_VAR},
  {"OMP_DEFAULT_DEVICE=", ompd_scope_task, DEFAULT_DEVICE_VAR},
};
enum { DISPLAYED = sizeof displayed / sizeof *displayed, NAME_ROOM = 32 };

/* What is handed out: a list that NULL ends, and behind it its texts. */
struct list {
  const char *texts[DISPLAYED + 1];
  char room[DISPLAYED][NAME_ROOM + TEXT_ROOM + 1];
};

/* Spells a value as the environment has it: a switch is true or false, and of a schedule whose chunk is 0 no
 * chunk is named. */
static void spell(const struct displayed *variable, char *value)
{
  if (variable->variable == DYN_VAR && strcmp(value, "0") == 0)
    strcpy(value, "false");
  if (variable->variable == DYN_VAR && strcmp(value, "1") == 0)
    strcpy(value, "true");
  char *chunk = strstr(value, ",0"); /* no other number begins with 0 */
  if (variable->variable == RUN_SCHED_VAR && chunk)
    *chunk = 0;
}

/* Puts a variable of the space of `of`, or of the task that `of` is, by name and value. */
static ompd_rc_t put(const struct displayed *variable, const struct handle *of, char *text)
{
  size_t length = strlen(variable->name);
  memcpy(text, variable->name, length);
  uint8_t *value = (uint8_t *)text + length;
  struct words words = {.of = *of};
  omi_text found;
  ASK(words, found,
      omi_icv_text(WORDS(words), variable->scope, of->object, variable->variable, value, TEXT_ROOM));
  if (words.rc != ompd_rc_ok)
    return words.rc;
  if (found.length > TEXT_ROOM)
    return ompd_rc_error;
  value[found.length] = 0;
  spell(variable, (char *)value);
  return ompd_rc_ok;
}

/* Finds the initial task. Whether there is one: before its start and behind its end there is none. */
static ompd_rc_t find_initial(struct handle *of, bool *found)
{
  struct words words = {.of = *of};
  omi_found initial;
  ASK(words, initial, omi_initial_task(WORDS(words)));
  of->object = initial.object;
  *found = words.rc == ompd_rc_ok;
  return words.answered && words.rc == ompd_rc_unavailable ? ompd_rc_ok : words.rc;
}

/* Fills the texts, and tells how many there are. Without an initial task its variables are left out. */
static ompd_rc_t fill(struct handle *of, struct list *list, size_t *count)
{
  bool has_task;
  ompd_rc_t rc = find_initial(of, &has_task);
  *count = 0;
  for (size_t index = 0; index < DISPLAYED && rc == ompd_rc_ok; index++)
    if (has_task || displayed[index].scope == ompd_scope_address_space)
      rc = put(displayed + index, of, list->room[(*count)++]);
  return rc;
}

/* The list and all its texts are one block, which ompd_rel_display_control_vars gives back. */
ompd_rc_t ompd_get_display_control_vars(
  ompd_address_space_handle_t *address_space_handle, const char *const **control_vars)
{
  ENTER;
  struct handle of;
  ompd_rc_t rc = resolve(address_space_handle, ompd_scope_address_space, control_vars, &of);
  struct list list = {0}, *block;
  size_t count;
  if (rc == ompd_rc_ok)
    rc = fill(&of, &list, &count);
  if (rc != ompd_rc_ok)
    return rc;
  block = keep_memory(sizeof *block);
  if (!block)
    return memory_failure();
  for (size_t index = 0; index < count; index++)
    list.texts[index] = block->room[index];
  *block = list;
  *control_vars = block->texts;
  return ompd_rc_ok;
}

/* A list that was released is none, and neither is any when the library isn't initialized. */
ompd_rc_t ompd_rel_display_control_vars(const char *const **control_vars)
{
  ENTER;
  return control_vars && *control_vars ? give_back(*control_vars) : ompd_rc_bad_input;
}
