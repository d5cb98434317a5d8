/* The calls that set control variables. */
#ifndef SETTERS_H
#define SETTERS_H

#include <stdbool.h>

/* Whether the library was loaded with the program and before the runtime: so the program's calls come to it. */
bool is_preloaded(void);

#endif
