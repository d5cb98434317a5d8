/* A process all threads of which are stopped for some milliseconds, and its memory. */
#ifndef STOPPED_H
#define STOPPED_H

#include <stdbool.h>
#include <stddef.h>
#include <stdint.h>
#include <sys/types.h>

enum { MOST_HELD = 4096 };

/* The threads that are held, by the system's ids. */
struct stopped {
  pid_t process;
  size_t threads;
  struct held_thread {
    pid_t id;
    int signal; /* which the thread was about to get, and gets when it goes on */
  } thread[MOST_HELD];
};

/* Stops all threads of a process, those too that are made meanwhile. Whether there are any. */
bool stop_process(struct stopped *stopped, pid_t process);

/* Lets them go on. */
void let_go(struct stopped *stopped);

/* Copies words from an address of the process. Whether all are mapped. */
bool read_words(pid_t process, uint64_t address, uint64_t *to, size_t words);

/* The address of a symbol of the table at 0x10000, and 0 where there is none. */
uint64_t published_symbol(pid_t process, const char *name);

#endif
