/* Stops a program whose threads say what they know of themselves (truth.c) at random moments, and compares that with what the library tells:
 *
 *     stops LIBRARY TOOL COUNT PROGRAM
 *
 * TOOL is loaded by LD_PRELOAD. The program is started again after some stops. Ends with status 1 where a fact differs. */
#define _GNU_SOURCE
#include "comparing.h"
#include "../stopped.h"

#include <signal.h>
#include <stdio.h>
#include <stdlib.h>
#include <sys/mman.h>
#include <sys/prctl.h>
#include <sys/wait.h>
#include <unistd.h>

/* Stops of one run of the program, and the longest time between two. */
enum { STOPS_OF_A_RUN = 200, MOST_APART_US = 6000 };

static struct said *said;
static int said_file;

static void share_memory(void)
{
  said_file = memfd_create("said", 0);
  EXPECT(said_file >= 0 && ftruncate(said_file, sizeof *said) == 0);
  said = mmap(NULL, sizeof *said, PROT_READ | PROT_WRITE, MAP_SHARED, said_file, 0);
  EXPECT(said != MAP_FAILED);
}

static void clear_memory(void)
{
  EXPECT(ftruncate(said_file, 0) == 0 && ftruncate(said_file, sizeof *said) == 0);
  forget_numbers();
}

static pid_t start(const char *tool, char *program)
{
  char file[16];
  snprintf(file, sizeof file, "%d", said_file);
  pid_t process = fork();
  EXPECT(process >= 0);
  if (process > 0)
    return process;
  prctl(PR_SET_PDEATHSIG, SIGKILL);
  setenv(SAID_FILE, file, 1);
  setenv("LD_PRELOAD", tool, 1);
  setenv("OMP_MAX_ACTIVE_LEVELS", "3", 1);
  execv(program, (char *[]){program, NULL});
  _exit(127);
}

/* Whether the program has numbers left. */
static bool compare_once(pid_t process)
{
  static struct stopped stopped;
  EXPECT(stop_process(&stopped, process));
  ompd_address_space_handle_t *space = open_process(process);
  compare(space, said, process);
  close_process(space);
  let_go(&stopped);
  return said->tasks < MOST_TASKS / 2 && said->regions < MOST_REGIONS / 2;
}

/* Runs the program for so many stops at most. How many there were. */
static int run(const char *tool, char *program, int most)
{
  int stops = 0, status;
  clear_memory();
  pid_t process = start(tool, program);
  while (said->tasks == 0) {
    EXPECT(waitpid(process, &status, WNOHANG) == 0);
    usleep(1000);
  }
  for (bool goes_on = true; goes_on && stops < most; stops++) {
    usleep((useconds_t)(rand() % MOST_APART_US));
    goes_on = compare_once(process);
  }
  said->over = true;
  EXPECT(waitpid(process, &status, 0) == process && status == 0);
  return stops;
}

int main(int count, char **words)
{
  EXPECT(count == 5);
  int wanted = atoi(words[3]), stops = 0, runs = 0;
  load(words[1]);
  share_memory();
  srand((unsigned)getpid());
  for (; stops < wanted; runs++) {
    int left = wanted - stops;
    stops += run(words[2], words[4], left < STOPS_OF_A_RUN ? left : STOPS_OF_A_RUN);
  }
  printf("%s: %d stops of %d runs\n", words[4], stops, runs);
  return print_compared() ? 1 : 0;
}
