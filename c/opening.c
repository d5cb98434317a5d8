/* Address spaces: how one is opened, why it isn't, and the versions of its runtime. */
#include "adapter.h"

static _Thread_local const char *reason = "";

const char *omi_reason(void)
{
  return reason;
}

static ompd_rc_t refuse(ompd_rc_t rc, const char *why)
{
  reason = why;
  return rc;
}

static ompd_rc_t judge_sizes(ompd_address_space_context_t *context)
{
  ompd_device_type_sizes_t sizes = {0};
  ompd_rc_t rc = debugger->sizeof_type(context, &sizes);
  if (rc != ompd_rc_ok)
    return refuse(rc, "the debugger's callback sizeof_type failed");
  bool usual = sizes.sizeof_char == 1 && sizes.sizeof_short == 2 && sizes.sizeof_int == 4
    && sizes.sizeof_long == 8 && sizes.sizeof_long_long == 8 && sizes.sizeof_pointer == 8;
  return usual ? ompd_rc_ok
    : refuse(ompd_rc_unsupported, "the target's basic types haven't the sizes 1, 2, 4, 8, 8 and 8");
}

static ompd_rc_t look_up(ompd_address_space_context_t *context, ompd_address_t *table)
{
  ompd_rc_t rc = debugger->symbol_addr_lookup(context, NULL, "omi_layout", table, NULL);
  if (rc == ompd_rc_ok)
    return rc;
  if (rc == ompd_rc_unavailable || rc == ompd_rc_error)
    return refuse(ompd_rc_incompatible, "the target has no symbol omi_layout: no runtime publishes records");
  return refuse(rc, "the debugger's callback symbol_addr_lookup failed");
}

static ompd_rc_t read_table(const struct space *space, uint64_t address, uint64_t words[OMI_TABLE_WORDS])
{
  for (size_t place = 0; place < OMI_TABLE_WORDS; place++) {
    omi_known known;
    ompd_rc_t rc = read_word(space, address + place * WORD_BYTES, &known);
    if (rc != ompd_rc_ok)
      return refuse(rc, "the debugger's callback read_memory or device_to_host failed");
    if (!known.mapped)
      return refuse(ompd_rc_error, "the layout table isn't mapped, or stands at no word's address");
    words[place] = known.word;
  }
  return ompd_rc_ok;
}

/* The version is the table's first word, and 0 until the table is published. */
static ompd_rc_t judge_table(struct space *space, const uint64_t words[OMI_TABLE_WORDS])
{
  if (words[0] == 0)
    return refuse(ompd_rc_unavailable, "the runtime hasn't published its layout table yet");
  space->table = omi_judge_table(words, OMI_TABLE_WORDS);
  ompd_rc_t rc = code_of(space->table.code);
  if (rc == ompd_rc_incompatible)
    return refuse(rc, "the layout table is of a version that this library doesn't read");
  return rc == ompd_rc_ok ? rc : refuse(rc, "the layout table is damaged");
}

static ompd_rc_t keep_space(const struct space *opened, ompd_address_space_handle_t **handle)
{
  struct space *space = keep_memory(sizeof *space);
  if (!space)
    return refuse(memory_failure(), "the debugger's callback alloc_memory gave no memory");
  *space = *opened;
  ompd_rc_t rc = make_space_handle(space, handle);
  return rc == ompd_rc_ok ? rc : refuse(rc, "there are too many handles");
}

static ompd_rc_t open_space(ompd_address_space_context_t *context, ompd_address_space_handle_t **handle)
{
  if (!debugger)
    return refuse(ompd_rc_bad_input, "the library isn't initialized");
  if (!context || !handle)
    return refuse(ompd_rc_bad_input, "an argument is NULL");
  ompd_address_t table = {OMPD_SEGMENT_UNSPECIFIED, 0};
  ompd_rc_t rc = judge_sizes(context);
  if (rc == ompd_rc_ok)
    rc = look_up(context, &table);
  struct space opened = {.context = context, .segment = table.segment};
  uint64_t words[OMI_TABLE_WORDS];
  if (rc == ompd_rc_ok)
    rc = read_table(&opened, table.address, words);
  if (rc == ompd_rc_ok)
    rc = judge_table(&opened, words);
  return rc == ompd_rc_ok ? keep_space(&opened, handle) : rc;
}

ompd_rc_t ompd_process_initialize(ompd_address_space_context_t *context, ompd_address_space_handle_t **handle)
{
  reason = "a callback of the debugger called the library";
  ENTER;
  ompd_rc_t rc = open_space(context, handle);
  if (rc == ompd_rc_ok)
    reason = "";
  return rc;
}

/* There is no device but the host. */
ompd_rc_t ompd_device_initialize(
  ompd_address_space_handle_t *process_handle, ompd_address_space_context_t *device_context,
  ompd_device_t kind, ompd_size_t sizeof_id, void *id, ompd_address_space_handle_t **device_handle)
{
  ENTER;
  (void)kind, (void)sizeof_id, (void)id;
  struct handle process;
  ompd_rc_t rc = resolve(process_handle, ompd_scope_address_space, device_context && device_handle, &process);
  return rc == ompd_rc_ok ? ompd_rc_unsupported : rc;
}

ompd_rc_t ompd_get_omp_version(ompd_address_space_handle_t *address_space, ompd_word_t *omp_version)
{
  ENTER;
  struct words words = {0};
  ompd_rc_t rc = resolve(address_space, ompd_scope_address_space, omp_version, &words.of);
  if (rc != ompd_rc_ok)
    return rc;
  omi_number found;
  ASK(words, found, omi_openmp_version(WORDS(words)));
  if (words.rc == ompd_rc_ok)
    *omp_version = (ompd_word_t)found.number;
  return words.rc;
}

/* The debugger frees the text. */
ompd_rc_t ompd_get_omp_version_string(ompd_address_space_handle_t *address_space, const char **string)
{
  ENTER;
  struct handle of;
  ompd_rc_t rc = resolve(address_space, ompd_scope_address_space, string, &of);
  if (rc != ompd_rc_ok)
    return rc;
  uint8_t text[TEXT_ROOM];
  omi_text found = omi_openmp_text(TABLE(of.space), text, sizeof text);
  rc = code_of(found.code);
  return rc == ompd_rc_ok ? hand_out(text, found.length, string) : rc;
}
