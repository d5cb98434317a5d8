/* blocked WHAT: before the tool starts the program has taken the page at 0x10000 (`page`) or nearly all memory
 * (`memory`), nobody reads its standard error (`pipe`) or it is closed (`closed`), or nothing of it. It runs as it would
 * without the tool. */
#define _GNU_SOURCE
#include "words.h"

#include <dlfcn.h>
#include <errno.h>
#include <fcntl.h>
#include <omp.h>
#include <stdio.h>
#include <stdlib.h>
#include <string.h>
#include <sys/mman.h>
#include <sys/resource.h>
#include <unistd.h>

/* The pages that the process has, and 4 MB more, which are enough for threads of small stacks and not for the records. */
static void limit_memory(void)
{
  unsigned long pages = 0;
  FILE *file = fopen("/proc/self/statm", "r");
  EXPECT(file && fscanf(file, "%lu", &pages) == 1);
  fclose(file);
  rlim_t bytes = pages * 4096 + (4 << 20);
  EXPECT(setrlimit(RLIMIT_AS, &(struct rlimit){bytes, bytes}) == 0);
}

/* Before main, at whose begin clang's programs start the runtime. */
__attribute__((constructor)) static void block(int argc, char **argv)
{
  const char *what = argc > 1 ? argv[1] : "nothing";
  if (!strcmp(what, "memory"))
    limit_memory();
  if (!strcmp(what, "page"))
    EXPECT(mmap((void *)0x10000, 4096, PROT_NONE, MAP_PRIVATE | MAP_ANONYMOUS | MAP_FIXED, -1, 0) != MAP_FAILED);
  if (!strcmp(what, "closed"))
    close(STDERR_FILENO);
  int ends[2];
  if (!strcmp(what, "pipe") && !pipe(ends)) {
    dup2(ends[1], STDERR_FILENO);
    close(ends[0]);
    close(ends[1]);
  }
}

/* The layout table is found by its name, also where the page isn't there, and so is the list of libraries. */
static void expect_names(void)
{
  const uint64_t *table = dlsym(RTLD_DEFAULT, "omi_layout");
  const char ***locations = dlsym(RTLD_DEFAULT, "ompd_dll_locations"), *library = getenv("OMI_LIBRARY");
  EXPECT(table && table[0] == 2 && table[5] == 64);
  EXPECT(locations && *locations);
  if (library)
    EXPECT((*locations)[0] && !strcmp((*locations)[0], library) && !(*locations)[1]);
}

int main(int argc, char **argv)
{
  const char *what = argc > 1 ? argv[1] : "nothing";
  int members = !strcmp(what, "memory") ? 1 : 3, sum = 0;
#pragma omp parallel num_threads(members) reduction(+ : sum)
  {
#pragma omp task
    __asm__ volatile("" ::: "memory");
    sum += omp_get_num_threads();
  }
  EXPECT(sum == members * members);
  if (strcmp(what, "memory") && strcmp(what, "disabled"))
    expect_names();
  puts("blocked done");
}
