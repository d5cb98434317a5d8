/* Inquiries about threads, regions and tasks. */
#include "adapter.h"

#include <string.h>

typedef omi_found object_inquiry(OMI_WORDS, omi_object from);
typedef omi_found member_inquiry(OMI_WORDS, omi_object region, uint32_t member);

/* Makes a handle of what was found. */
static ompd_rc_t give(const struct words *words, ompd_scope_t kind, omi_object found, void *to)
{
  return words->rc == ompd_rc_ok ? make_handle(&words->of, kind, found, to) : words->rc;
}

static ompd_rc_t give_of(
  const void *handle, ompd_scope_t from_kind, object_inquiry *inquiry, ompd_scope_t kind, void *to)
{
  ENTER;
  struct words words = {0};
  ompd_rc_t rc = resolve(handle, from_kind, to, &words.of);
  if (rc != ompd_rc_ok)
    return rc;
  omi_found found;
  ASK(words, found, inquiry(WORDS(words), words.of.object));
  return give(&words, kind, found.object, to);
}

/* A negative number is greater than all members' as one without a sign, and refused as theirs. */
static ompd_rc_t give_member(
  const void *handle, int number, member_inquiry *inquiry, ompd_scope_t kind, void *to)
{
  ENTER;
  struct words words = {0};
  ompd_rc_t rc = resolve(handle, ompd_scope_parallel, to, &words.of);
  if (rc != ompd_rc_ok)
    return rc;
  omi_found found;
  ASK(words, found, inquiry(WORDS(words), words.of.object, (uint32_t)number));
  return give(&words, kind, found.object, to);
}

/* Native ids are numbers of four or eight bytes in the host's order. The kinds that there are mean the same
 * ids: the target has one for each thread. */
static ompd_rc_t judge_id(ompd_thread_id_t kind, ompd_size_t size)
{
  if (kind != OMPD_THREAD_ID_PTHREAD && kind != OMPD_THREAD_ID_LWP)
    return ompd_rc_unsupported;
  return size == sizeof(uint32_t) || size == sizeof(uint64_t) ? ompd_rc_ok : ompd_rc_bad_input;
}

static uint64_t id_at(const void *thread_id, ompd_size_t size)
{
  uint32_t narrow;
  uint64_t wide;
  if (size == sizeof wide)
    return memcpy(&wide, thread_id, sizeof wide), wide;
  return memcpy(&narrow, thread_id, sizeof narrow), narrow;
}

/* An id that four bytes have no room for is asked for in eight. */
static ompd_rc_t put_id(uint64_t id, ompd_size_t size, void *thread_id)
{
  if (size == sizeof(uint64_t))
    memcpy(thread_id, &id, sizeof id);
  else if (id <= UINT32_MAX)
    memcpy(thread_id, &(uint32_t){(uint32_t)id}, sizeof(uint32_t));
  else
    return ompd_rc_bad_input;
  return ompd_rc_ok;
}

ompd_rc_t ompd_get_thread_handle(
  ompd_address_space_handle_t *handle, ompd_thread_id_t kind, ompd_size_t sizeof_thread_id,
  const void *thread_id, ompd_thread_handle_t **thread_handle)
{
  ENTER;
  struct words words = {0};
  ompd_rc_t rc = resolve(handle, ompd_scope_address_space, thread_id && thread_handle, &words.of);
  if (rc == ompd_rc_ok)
    rc = judge_id(kind, sizeof_thread_id);
  if (rc != ompd_rc_ok)
    return rc;
  omi_found found;
  ASK(words, found, omi_thread_with_id(WORDS(words), 0, id_at(thread_id, sizeof_thread_id)));
  return give(&words, ompd_scope_thread, found.object, thread_handle);
}

ompd_rc_t ompd_get_thread_id(
  ompd_thread_handle_t *thread_handle, ompd_thread_id_t kind, ompd_size_t sizeof_thread_id, void *thread_id)
{
  ENTER;
  struct words words = {0};
  ompd_rc_t rc = resolve(thread_handle, ompd_scope_thread, thread_id, &words.of);
  if (rc == ompd_rc_ok)
    rc = judge_id(kind, sizeof_thread_id);
  if (rc != ompd_rc_ok)
    return rc;
  omi_number found;
  ASK(words, found, omi_thread_id(WORDS(words), 0, words.of.object));
  return words.rc == ompd_rc_ok ? put_id(found.number, sizeof_thread_id, thread_id) : words.rc;
}

#define GIVES_MEMBER(call, kind, inquiry) \
  ompd_rc_t call(ompd_parallel_handle_t *region, int number, ompd_##kind##_handle_t **to) \
  { \
    return give_member(region, number, inquiry, ompd_scope_##kind, to); \
  }

GIVES_MEMBER(ompd_get_thread_in_parallel, thread, omi_thread_in_parallel)
GIVES_MEMBER(ompd_get_task_in_parallel, task, omi_task_in_parallel)

#define GIVES(call, from_kind, kind, inquiry) \
  ompd_rc_t call(ompd_##from_kind##_handle_t *from, ompd_##kind##_handle_t **to) \
  { \
    return give_of(from, ompd_scope_##from_kind, inquiry, ompd_scope_##kind, to); \
  }

GIVES(ompd_get_curr_parallel_handle, thread, parallel, omi_curr_parallel)
GIVES(ompd_get_enclosing_parallel_handle, parallel, parallel, omi_enclosing_parallel)
GIVES(ompd_get_task_parallel_handle, task, parallel, omi_task_parallel)
GIVES(ompd_get_curr_task_handle, thread, task, omi_curr_task)
GIVES(ompd_get_generating_task_handle, task, task, omi_generating_task)
GIVES(ompd_get_scheduling_task_handle, task, task, omi_scheduling_task)

ompd_rc_t ompd_get_task_function(ompd_task_handle_t *task_handle, ompd_address_t *entry_point)
{
  ENTER;
  struct words words = {0};
  ompd_rc_t rc = resolve(task_handle, ompd_scope_task, entry_point, &words.of);
  if (rc != ompd_rc_ok)
    return rc;
  omi_number found;
  ASK(words, found, omi_task_function(WORDS(words), words.of.object));
  if (words.rc == ompd_rc_ok)
    *entry_point = (ompd_address_t){words.of.space->segment, found.number};
  return words.rc;
}

ompd_rc_t ompd_get_task_frame(
  ompd_task_handle_t *task_handle, ompd_frame_info_t *exit_frame, ompd_frame_info_t *enter_frame)
{
  ENTER;
  struct words words = {0};
  ompd_rc_t rc = resolve(task_handle, ompd_scope_task, exit_frame && enter_frame, &words.of);
  if (rc != ompd_rc_ok)
    return rc;
  omi_frames found;
  ASK(words, found, omi_task_frame(WORDS(words), words.of.object));
  if (words.rc == ompd_rc_ok) {
    ompd_seg_t segment = words.of.space->segment;
    *exit_frame = (ompd_frame_info_t){{segment, found.exit_frame}, found.exit_flag};
    *enter_frame = (ompd_frame_info_t){{segment, found.enter_frame}, found.enter_flag};
  }
  return words.rc;
}

ompd_rc_t ompd_get_state(ompd_thread_handle_t *thread_handle, ompd_word_t *state, ompd_wait_id_t *wait_id)
{
  ENTER;
  struct words words = {0};
  ompd_rc_t rc = resolve(thread_handle, ompd_scope_thread, state && wait_id, &words.of);
  if (rc != ompd_rc_ok)
    return rc;
  omi_state found;
  ASK(words, found, omi_thread_state(WORDS(words), words.of.object));
  if (words.rc == ompd_rc_ok) {
    *state = found.state;
    *wait_id = found.wait;
  }
  return words.rc;
}
