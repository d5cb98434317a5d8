/* For the gdb plugin: a library that has no text of any control variable, as another one may be. */
#include "omp-tools.h"

#undef ompd_get_icv_string_from_scope

ompd_rc_t ompd_get_icv_string_from_scope(
  void *handle, ompd_scope_t scope, ompd_icv_id_t icv, const char **text);

ompd_rc_t ompd_get_icv_string_from_scope(
  void *handle, ompd_scope_t scope, ompd_icv_id_t icv, const char **text)
{
  (void)handle, (void)scope, (void)icv, (void)text;
  return ompd_rc_unsupported;
}
