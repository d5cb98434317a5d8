/* The names that a debugger looks for in the program. */
#ifndef DEBUGGER_H
#define DEBUGGER_H

#include "layout.h"
#include "stores.h"

#define EXPORTED __attribute__((visibility("default")))

/* The layout table. */
EXPORTED extern uint64_t omi_layout[TABLE_WORDS];

/* OpenMP 5.0, section 5.2.1: the paths of OMPD libraries for this program, behind the last of which stands
 * NULL, and the call that says that they are there. Before it there is no list. */
EXPORTED extern const char **ompd_dll_locations;
EXPORTED void ompd_dll_locations_valid(void);

/* OpenMP 5.0, section 5.6: calls at which a debugger sets breakpoints. Each is made where the words show what
 * it tells: the new object at a begin, and still the old one at an end. */
EXPORTED void ompd_bp_parallel_begin(void);
EXPORTED void ompd_bp_parallel_end(void);
EXPORTED void ompd_bp_task_begin(void);
EXPORTED void ompd_bp_task_end(void);
EXPORTED void ompd_bp_thread_begin(void);
EXPORTED void ompd_bp_thread_end(void);

/* Puts the path of the library into the list and says that it is there: that of OMI_LIBRARY, or else of
 * libompd.so beside this one. Where there is none the list is empty. */
void locate_library(void);

/* Stores the symbol table at `front`, its count last: the names above with their addresses, and `omi_layout`
 * with that of a copy of the table. */
void store_symbols(word_t *front, uint64_t table);

#endif
