#define _GNU_SOURCE
#include "stopped.h"

#include <dirent.h>
#include <errno.h>
#include <stdio.h>
#include <stdlib.h>
#include <string.h>
#include <sys/ptrace.h>
#include <sys/uio.h>
#include <sys/wait.h>

static bool is_held(const struct stopped *stopped, pid_t id)
{
  for (size_t number = 0; number < stopped->threads; number++)
    if (stopped->thread[number].id == id)
      return true;
  return false;
}

/* Stops a thread. It may be gone, or stop for a signal that it is about to get. */
static bool hold(struct stopped *stopped, pid_t id)
{
  int status;
  if (stopped->threads == MOST_HELD || ptrace(PTRACE_SEIZE, id, 0, 0))
    return false;
  if (ptrace(PTRACE_INTERRUPT, id, 0, 0) || waitpid(id, &status, __WALL) != id || !WIFSTOPPED(status))
    return false;
  int signal = status >> 16 == PTRACE_EVENT_STOP ? 0 : WSTOPSIG(status);
  stopped->thread[stopped->threads++] = (struct held_thread){id, signal};
  return true;
}

/* Whether a thread was stopped that wasn't held yet. */
static bool hold_others(struct stopped *stopped, DIR *tasks)
{
  bool found = false;
  for (struct dirent *entry; (entry = readdir(tasks));) {
    pid_t id = atoi(entry->d_name);
    found |= id > 0 && !is_held(stopped, id) && hold(stopped, id);
  }
  return found;
}

bool stop_process(struct stopped *stopped, pid_t process)
{
  char path[64];
  snprintf(path, sizeof path, "/proc/%d/task", process);
  stopped->process = process;
  stopped->threads = 0;
  for (bool more = true; more;) {
    DIR *tasks = opendir(path);
    if (!tasks)
      return false;
    more = hold_others(stopped, tasks);
    closedir(tasks);
  }
  return stopped->threads > 0;
}

void let_go(struct stopped *stopped)
{
  for (size_t number = 0; number < stopped->threads; number++)
    ptrace(PTRACE_DETACH, stopped->thread[number].id, 0, stopped->thread[number].signal);
  stopped->threads = 0;
}

bool read_words(pid_t process, uint64_t address, uint64_t *to, size_t words)
{
  struct iovec here = {to, words * sizeof *to}, there = {(void *)(uintptr_t)address, words * sizeof *to};
  return process_vm_readv(process, &here, 1, &there, 1, 0) == (ssize_t)(words * sizeof *to);
}

enum { SYMBOLS = 0x10000, MOST_SYMBOLS = 16, SYMBOL_WORDS = 5 };

uint64_t published_symbol(pid_t process, const char *name)
{
  uint64_t count, words[SYMBOL_WORDS];
  if (!read_words(process, SYMBOLS, &count, 1))
    return 0;
  for (uint64_t symbol = 0; symbol < count && symbol < MOST_SYMBOLS; symbol++) {
    uint64_t at = SYMBOLS + sizeof count * (1 + SYMBOL_WORDS * symbol);
    if (!read_words(process, at, words, SYMBOL_WORDS))
      return 0;
    if (strncmp((const char *)words, name, (SYMBOL_WORDS - 1) * sizeof *words) == 0)
      return words[SYMBOL_WORDS - 1];
  }
  return 0;
}
