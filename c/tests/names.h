/* The names of objects, as reports print them. A handle tells none. But each inquiry reads the life word of
 * its handle's record first: the record's place is the name, and the life word its generation. */
#ifndef NAMES_H
#define NAMES_H

#include "library.h"

enum { NAME = 64 };

void name_of_task(const struct target *target, ompd_task_handle_t *task, char name[NAME]);
void name_of_region(const struct target *target, ompd_parallel_handle_t *region, char name[NAME]);
uint64_t number_of_thread(const struct target *target, ompd_thread_handle_t *thread);

#endif
