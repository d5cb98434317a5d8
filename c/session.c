/* The library's beginning and end, and what is asked of itself. */
#include "adapter.h"

#include <string.h>

static ompd_callbacks_t callbacks;
const ompd_callbacks_t *debugger;
uint64_t sessions;

static bool has_callbacks(const ompd_callbacks_t *given)
{
  return given && given->alloc_memory && given->free_memory && given->sizeof_type && given->symbol_addr_lookup
    && given->read_memory && given->device_to_host;
}

/* The callbacks are copied: the caller's table may change or go. */
ompd_rc_t ompd_initialize(ompd_word_t api_version, const ompd_callbacks_t *given)
{
  ENTER;
  if ((uint64_t)api_version != omi_api_version() || omi_table_words() != OMI_TABLE_WORDS)
    return ompd_rc_unsupported;
  if (!has_callbacks(given))
    return ompd_rc_bad_input;
  if (debugger)
    return memcmp(&callbacks, given, sizeof callbacks) == 0 ? ompd_rc_ok : ompd_rc_bad_input;
  callbacks = *given;
  debugger = &callbacks;
  sessions++;
  return ompd_rc_ok;
}

/* The library is at its end even where the debugger refuses its memory. */
ompd_rc_t ompd_finalize(void)
{
  ENTER;
  if (!debugger)
    return ompd_rc_unsupported;
  ompd_rc_t rc = give_all_back();
  debugger = NULL;
  return rc;
}

ompd_rc_t ompd_get_api_version(ompd_word_t *version)
{
  ENTER;
  if (!version)
    return ompd_rc_bad_input;
  *version = (ompd_word_t)omi_api_version();
  return ompd_rc_ok;
}

/* The text stays the library's: it may be asked for before the debugger has given a heap. */
ompd_rc_t ompd_get_version_string(const char **string)
{
  ENTER;
  static char text[TEXT_ROOM + 1];
  if (!string)
    return ompd_rc_bad_input;
  if (omi_version_text((uint8_t *)text, TEXT_ROOM) > TEXT_ROOM)
    return ompd_rc_error;
  *string = text;
  return ompd_rc_ok;
}
