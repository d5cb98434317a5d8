#include "library.h"

#include <dlfcn.h>
#include <stdio.h>
#include <stdlib.h>

struct library ompd;

static void *found(void *library, const char *name)
{
  void *call = dlsym(library, name);
  if (!call) {
    fprintf(stderr, "missing: %s\n", name);
    exit(1);
  }
  return call;
}

void load(const char *path)
{
  void *library = dlopen(path, RTLD_NOW | RTLD_LOCAL);
  if (!library) {
    fprintf(stderr, "%s\n", dlerror());
    exit(1);
  }
#define CALL(name) ompd.name = (__typeof__(ompd.name))found(library, "ompd_" #name);
  CALLS(CALL)
#undef CALL
  ompd.reason = (__typeof__(ompd.reason))found(library, "omi_reason");
}

ompd_address_space_handle_t *begin_session(struct target *target, const char *folder, const char *name)
{
  ompd_address_space_handle_t *space;
  open_target(target, folder, name);
  watch_calls(0, ompd_rc_ok);
  EXPECT(ompd.initialize(201811, &callbacks) == ompd_rc_ok);
  EXPECT(ompd.process_initialize((ompd_address_space_context_t *)target, &space) == ompd_rc_ok);
  return space;
}

void end_session(struct target *target, ompd_address_space_handle_t *space)
{
  EXPECT(ompd.rel_address_space_handle(space) == ompd_rc_ok);
  EXPECT(ompd.finalize() == ompd_rc_ok);
  EXPECT(watch.blocks == 0);
  close_target(target);
}

const char *name_of_code(ompd_rc_t rc)
{
  static const char *const names[] = {
    "ok", "unavailable", "stale_handle", "bad_input", "error", "unsupported", "needs_state_tracking",
    "incompatible", "device_read_error", "device_write_error", "nomem", "incomplete", "callback_error",
  };
  return rc < sizeof names / sizeof *names ? names[rc] : "none";
}

void fail_test(const char *file, int line, const char *condition)
{
  fprintf(stderr, "%s:%d: not so: %s\n", file, line, condition);
  exit(1);
}
