/* interrupted HOW: a signal comes in the middle of a callback of the tool, and its handler ends the program with 7 by
 * `exit`, `_exit`, `exec` or `abort`, or forks and goes on (`fork`, which ends by _exit with 7 after five of them). With
 * `return` a thread leaves by exit(7) while the others are in callbacks. */
#define _GNU_SOURCE
#include "words.h"

#include <link.h>
#include <omp.h>
#include <signal.h>
#include <stdatomic.h>
#include <stdio.h>
#include <stdlib.h>
#include <string.h>
#include <sys/time.h>
#include <sys/wait.h>
#include <ucontext.h>
#include <unistd.h>

enum { DEPTH = 12, FORKS = 5, MICROSECONDS = 300 };

static const char *how;
static uintptr_t code_begin, code_end;

/* Finds the tool's code. */
static int find_code(struct dl_phdr_info *object, size_t size, void *nothing)
{
  (void)size, (void)nothing;
  if (!strstr(object->dlpi_name, "libomi_"))
    return 0;
  for (int k = 0; k < object->dlpi_phnum; k++)
    if (object->dlpi_phdr[k].p_type == PT_LOAD && object->dlpi_phdr[k].p_flags & PF_X) {
      code_begin = object->dlpi_addr + object->dlpi_phdr[k].p_vaddr;
      code_end = code_begin + object->dlpi_phdr[k].p_memsz;
    }
  return 0;
}

static void fork_and_go_on(void)
{
  static atomic_int forks;
  int status;
  pid_t child = fork();
  if (!child)
    _exit(is_shown() ? 1 : 0); /* it was forked in a region */
  if (child < 0 || waitpid(child, &status, 0) != child || status)
    _exit(1);
  if (++forks == FORKS)
    _exit(7);
}

static void on_signal(int number, siginfo_t *info, void *context)
{
  (void)number, (void)info;
  uintptr_t at = (uintptr_t)((ucontext_t *)context)->uc_mcontext.gregs[REG_RIP];
  if (at < code_begin || at >= code_end)
    return;
  if (!strcmp(how, "exit"))
    exit(7);
  if (!strcmp(how, "_exit"))
    _exit(7);
  if (!strcmp(how, "exec"))
    execl("/bin/sh", "sh", "-c", "exit 7", (char *)NULL);
  if (!strcmp(how, "abort"))
    abort();
  if (!strcmp(how, "fork"))
    fork_and_go_on();
}

static long fib(int n)
{
  if (n < 2)
    return n;
  long a, b;
#pragma omp task shared(a)
  a = fib(n - 1);
#pragma omp task shared(b)
  b = fib(n - 2);
#pragma omp taskwait
  return a + b;
}

int main(int argc, char **argv)
{
  how = argc > 1 ? argv[1] : "";
  bool leaves = !strcmp(how, "return");
  struct sigaction action = {.sa_sigaction = on_signal, .sa_flags = SA_SIGINFO | SA_RESTART};
  struct itimerval timer = {{0, MICROSECONDS}, {0, MICROSECONDS}};
#pragma omp parallel num_threads(4)
  {
#pragma omp single
    {
      dl_iterate_phdr(find_code, NULL);
      EXPECT(code_begin);
      sigaction(SIGPROF, &action, NULL);
      if (!leaves)
        setitimer(ITIMER_PROF, &timer, NULL);
    }
    for (int k = 0;; k++) {
      EXPECT(fib(DEPTH) == 144);
      if (leaves && k == 20 && omp_get_thread_num() == 2)
        exit(7);
    }
  }
}
