/* Lines on standard error. */
#define _GNU_SOURCE
#include "say.h"

#include <errno.h>
#include <signal.h>
#include <stdarg.h>
#include <stdio.h>
#include <string.h>
#include <time.h>
#include <unistd.h>

/* Writes with all signals held back, and takes the SIGPIPE that the write itself brought. */
static void write_quietly(const char *text, size_t length)
{
  sigset_t all, before, pending, pipe_only;
  sigfillset(&all);
  sigemptyset(&pipe_only);
  sigaddset(&pipe_only, SIGPIPE);
  if (pthread_sigmask(SIG_SETMASK, &all, &before))
    return;
  sigpending(&pending);
  ssize_t written = write(STDERR_FILENO, text, length);
  if (written < 0 && errno == EPIPE && !sigismember(&pending, SIGPIPE))
    sigtimedwait(&pipe_only, NULL, &(struct timespec){0});
  pthread_sigmask(SIG_SETMASK, &before, NULL);
}

void say(const char *format, ...)
{
  static const char start[] = "omi: ";
  int kept = errno;
  char line[512];
  memcpy(line, start, sizeof start);
  size_t room = sizeof line - sizeof start;
  va_list values;
  va_start(values, format);
  int length = vsnprintf(line + sizeof start - 1, room, format, values);
  va_end(values);
  if (length > 0) {
    size_t end = sizeof start - 1 + ((size_t)length < room ? (size_t)length : room - 1);
    line[end] = '\n';
    write_quietly(line, end + 1);
  }
  errno = kept;
}
