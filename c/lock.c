/* The lock under which every call of the library is done. */
#define _GNU_SOURCE

#include "adapter.h"

#include <pthread.h>

/* It refuses a thread that has it already: a callback that calls the library. */
static pthread_mutex_t lock = PTHREAD_ERRORCHECK_MUTEX_INITIALIZER_NP;

bool enter_library(void)
{
  return pthread_mutex_lock(&lock) == 0;
}

void leave_library(const bool *entered)
{
  if (*entered)
    pthread_mutex_unlock(&lock);
}
