/* The library under test, as a debugger loads it, and sessions over cores. */
#ifndef LIBRARY_H
#define LIBRARY_H

#include "omi_reason.h"
#include "target.h"

/* Every call of the library. */
#define CALLS(CALL) \
  CALL(initialize) CALL(finalize) CALL(get_api_version) CALL(get_version_string) \
  CALL(process_initialize) CALL(device_initialize) CALL(rel_address_space_handle) \
  CALL(get_omp_version) CALL(get_omp_version_string) \
  CALL(get_thread_handle) CALL(get_thread_in_parallel) CALL(get_thread_id) \
  CALL(rel_thread_handle) CALL(thread_handle_compare) \
  CALL(get_curr_parallel_handle) CALL(get_enclosing_parallel_handle) CALL(get_task_parallel_handle) \
  CALL(rel_parallel_handle) CALL(parallel_handle_compare) \
  CALL(get_curr_task_handle) CALL(get_generating_task_handle) CALL(get_scheduling_task_handle) \
  CALL(get_task_in_parallel) CALL(get_task_function) CALL(get_task_frame) \
  CALL(rel_task_handle) CALL(task_handle_compare) \
  CALL(enumerate_states) CALL(get_state) \
  CALL(get_display_control_vars) CALL(rel_display_control_vars) \
  CALL(enumerate_icvs) CALL(get_icv_from_scope) CALL(get_icv_string_from_scope) CALL(get_tool_data)

struct library {
#define CALL(name) __typeof__(ompd_##name) *name;
  CALLS(CALL)
#undef CALL
  __typeof__(omi_reason) *reason;
};
extern struct library ompd;

/* Loads the library. Ends the program where a call is missing. */
void load(const char *path);

/* Opens a core with the library, and closes it again. */
ompd_address_space_handle_t *begin_session(struct target *target, const char *folder, const char *name);
void end_session(struct target *target, ompd_address_space_handle_t *space);

const char *name_of_code(ompd_rc_t rc);

/* Ends the program with a message where a condition doesn't hold. */
#define EXPECT(condition) \
  ((condition) ? (void)0 : fail_test(__FILE__, __LINE__, #condition))
_Noreturn void fail_test(const char *file, int line, const char *condition);

#endif
