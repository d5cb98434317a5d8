/* Control variables, the tool's word, and the names of states and variables. */
#include "adapter.h"

#include <string.h>

/* The variables of the proved library have the numbers from 1 on. */
enum { OWN_VARIABLES = 13 };

/* OMPD's own names for some of these, which have the numbers behind them. The last two are what LLVM's
 * library calls besides what OpenMP 5.0 calls ompd-final-var and ompd-implicit-var. */
static const struct alias {
  const char *name;
  ompd_scope_t scope;
  uint32_t variable;
} aliases[] = {
  {"ompd-num-procs-var", ompd_scope_address_space, NUM_PROCS_VAR},
  {"ompd-thread-num-var", ompd_scope_thread, THREAD_NUM_VAR},
  {"ompd-team-size-var", ompd_scope_parallel, TEAM_SIZE_VAR},
  {"ompd-implicit-var", ompd_scope_task, IMPLICIT_TASK_VAR},
  {"ompd-final-var", ompd_scope_task, FINAL_TASK_VAR},
  {"ompd-final-task-var", ompd_scope_task, FINAL_TASK_VAR},
  {"ompd-implicit-task-var", ompd_scope_task, IMPLICIT_TASK_VAR},
};
enum { ALIASES = sizeof aliases / sizeof *aliases };

/* The number by which the proved library knows a variable. */
static uint32_t variable_of(ompd_icv_id_t icv)
{
  uint64_t index = icv - OWN_VARIABLES - 1;
  return index < ALIASES ? aliases[index].variable : narrowed(icv);
}

/* The debugger frees the name. */
ompd_rc_t ompd_enumerate_states(
  ompd_address_space_handle_t *address_space_handle, ompd_word_t current_state, ompd_word_t *next_state,
  const char **next_state_name, ompd_word_t *more_enums)
{
  ENTER;
  struct handle of;
  ompd_rc_t rc = resolve(address_space_handle, ompd_scope_address_space,
                         next_state && next_state_name && more_enums, &of);
  if (rc != ompd_rc_ok)
    return rc;
  uint8_t name[TEXT_ROOM];
  omi_entry entry = omi_next_state(TABLE(of.space), narrowed((uint64_t)current_state), name, sizeof name);
  rc = code_of(entry.code);
  if (rc == ompd_rc_ok)
    rc = hand_out(name, entry.length, next_state_name);
  if (rc == ompd_rc_ok) {
    *next_state = entry.next;
    *more_enums = entry.more;
  }
  return rc;
}

/* The entry behind a variable, with its name. Behind those of the proved library are the other names. */
static omi_entry next_icv(const struct space *space, ompd_icv_id_t current, uint8_t name[TEXT_ROOM])
{
  omi_entry entry;
  uint64_t index = current - OWN_VARIABLES;
  if (index < ALIASES) {
    const struct alias *alias = aliases + index;
    entry = (omi_entry){.next = (uint32_t)current + 1, .scope = alias->scope, .more = index + 1 < ALIASES};
    entry.length = strlen(alias->name);
    memcpy(name, alias->name, entry.length);
  } else {
    entry = omi_next_icv(TABLE(space), narrowed(current), name, TEXT_ROOM);
    entry.more = true;
  }
  return entry;
}

/* The debugger frees the name. */
ompd_rc_t ompd_enumerate_icvs(
  ompd_address_space_handle_t *handle, ompd_icv_id_t current, ompd_icv_id_t *next_id,
  const char **next_icv_name, ompd_scope_t *next_scope, int *more)
{
  ENTER;
  struct handle of;
  ompd_rc_t rc =
    resolve(handle, ompd_scope_address_space, next_id && next_icv_name && next_scope && more, &of);
  if (rc != ompd_rc_ok)
    return rc;
  uint8_t name[TEXT_ROOM];
  omi_entry entry = next_icv(of.space, current, name);
  rc = code_of(entry.code);
  if (rc == ompd_rc_ok)
    rc = hand_out(name, entry.length, next_icv_name);
  if (rc == ompd_rc_ok) {
    *next_id = entry.next;
    *next_scope = (ompd_scope_t)entry.scope;
    *more = entry.more;
  }
  return rc;
}

/* What the handle of a scope stands for. No variable is global or of an implicit task alone, but their
 * handles are those of address spaces and tasks. */
static ompd_rc_t resolve_scoped(const void *handle, ompd_scope_t scope, bool others, struct handle *of)
{
  switch (scope) {
  case ompd_scope_global:
    return resolve(handle, ompd_scope_address_space, others, of);
  case ompd_scope_implicit_task:
    return resolve(handle, ompd_scope_task, others, of);
  case ompd_scope_address_space:
  case ompd_scope_thread:
  case ompd_scope_parallel:
  case ompd_scope_task:
    return resolve(handle, scope, others, of);
  default:
    return ompd_rc_bad_input;
  }
}

/* A variable that there isn't, or not in the scope, is bad input. The proved library says that it is
 * unsupported. */
static ompd_rc_t variable_code(const struct words *words)
{
  return words->answered && words->rc == ompd_rc_unsupported ? ompd_rc_bad_input : words->rc;
}

/* Incomplete comes with a value too: the first number of a list. A schedule is no number. */
ompd_rc_t ompd_get_icv_from_scope(
  void *handle, ompd_scope_t scope, ompd_icv_id_t icv_id, ompd_word_t *icv_value)
{
  ENTER;
  struct words words = {0};
  ompd_rc_t rc = resolve_scoped(handle, scope, icv_value, &words.of);
  if (rc != ompd_rc_ok)
    return rc;
  omi_number found;
  ASK(words, found, omi_icv_number(WORDS(words), scope, words.of.object, variable_of(icv_id)));
  rc = variable_code(&words);
  if (rc == ompd_rc_ok && icv_id == RUN_SCHED_VAR)
    return ompd_rc_incompatible;
  if (rc == ompd_rc_ok || (words.answered && rc == ompd_rc_incomplete))
    *icv_value = (ompd_word_t)found.number;
  return rc;
}

/* The debugger frees the text. */
ompd_rc_t ompd_get_icv_string_from_scope(
  void *handle, ompd_scope_t scope, ompd_icv_id_t icv_id, const char **icv_string)
{
  ENTER;
  struct words words = {0};
  ompd_rc_t rc = resolve_scoped(handle, scope, icv_string, &words.of);
  if (rc != ompd_rc_ok)
    return rc;
  uint8_t text[TEXT_ROOM];
  omi_text found;
  ASK(words, found,
      omi_icv_text(WORDS(words), scope, words.of.object, variable_of(icv_id), text, sizeof text));
  rc = variable_code(&words);
  return rc == ompd_rc_ok ? hand_out(text, found.length, icv_string) : rc;
}

ompd_rc_t ompd_get_tool_data(void *handle, ompd_scope_t scope, ompd_word_t *value, ompd_address_t *ptr)
{
  ENTER;
  struct words words = {0};
  ompd_rc_t rc = resolve_scoped(handle, scope, value && ptr, &words.of);
  if (rc != ompd_rc_ok)
    return rc;
  omi_number found;
  ASK(words, found, omi_tool_data(WORDS(words), scope, words.of.object));
  if (words.rc == ompd_rc_ok) {
    *value = (ompd_word_t)found.number;
    *ptr = (ompd_address_t){words.of.space->segment, found.number};
  }
  return words.rc;
}
