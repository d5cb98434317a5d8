/* The names that a debugger looks for in the program. */
#define _GNU_SOURCE
#include "debugger.h"

#include <dlfcn.h>
#include <limits.h>
#include <stdio.h>
#include <stdlib.h>
#include <string.h>
#include <unistd.h>

uint64_t omi_layout[TABLE_WORDS];

static const char *locations[2];
const char **ompd_dll_locations;

/* A call of these is made, and not left out, though nothing is done in them. */
#define BREAKPOINT(name) \
  __attribute__((noinline)) void name(void) \
  { \
    __asm__ volatile("" ::: "memory"); \
  }
BREAKPOINT(ompd_dll_locations_valid)
BREAKPOINT(ompd_bp_parallel_begin)
BREAKPOINT(ompd_bp_parallel_end)
BREAKPOINT(ompd_bp_task_begin)
BREAKPOINT(ompd_bp_task_end)
BREAKPOINT(ompd_bp_thread_begin)
BREAKPOINT(ompd_bp_thread_end)

void locate_library(void)
{
  static char path[PATH_MAX];
  const char *given = getenv("OMI_LIBRARY");
  Dl_info here;
  char beside[PATH_MAX];
  if (!given && dladdr(locations, &here) && here.dli_fname) {
    const char *slash = strrchr(here.dli_fname, '/');
    int folder = slash ? (int)(slash - here.dli_fname) : 1;
    int length = snprintf(beside, sizeof beside, "%.*s/libompd.so", folder, slash ? here.dli_fname : ".");
    given = length > 0 && (size_t)length < sizeof beside ? beside : NULL;
  }
  if (given && realpath(given, path) && access(path, R_OK) == 0)
    locations[0] = path;
  ompd_dll_locations = locations;
  ompd_dll_locations_valid();
}

static void store_symbol(word_t *entry, const char *name, uint64_t address)
{
  uint64_t spelled[NAME_WORDS] = {0};
  memcpy(spelled, name, strlen(name));
  for (unsigned place = 0; place < NAME_WORDS; place++)
    store(entry + place, spelled[place]);
  store(entry + NAME_WORDS, address);
}

void store_symbols(word_t *front, uint64_t table)
{
#define SYMBOL(name) {#name, (uint64_t)(uintptr_t)&name}
  const struct {
    const char *name;
    uint64_t address;
  } symbols[SYMBOLS] = {
    SYMBOL(ompd_dll_locations), SYMBOL(ompd_bp_parallel_begin), SYMBOL(ompd_bp_parallel_end),
    SYMBOL(ompd_bp_task_begin), SYMBOL(ompd_bp_task_end), SYMBOL(ompd_bp_thread_begin),
    SYMBOL(ompd_bp_thread_end), {"omi_layout", table}};
  for (unsigned place = 0; place < SYMBOLS; place++)
    store_symbol(front + 1 + place * SYMBOL_WORDS, symbols[place].name, symbols[place].address);
  store(front, SYMBOLS);
}
