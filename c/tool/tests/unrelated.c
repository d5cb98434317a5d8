/* unrelated [ROUNDS]: untied tasks that wait, over which tasks of other origin run that end before those that they made. */
#include <omp.h>
#include <stdio.h>
#include <stdlib.h>

static long shared;

static void orphan(int depth)
{
#pragma omp task
  {
    if (depth)
      orphan(depth - 1);
#pragma omp atomic
    shared++;
  }
}

static void waiting(int depth)
{
#pragma omp task untied
  {
    if (depth)
      waiting(depth - 1);
    orphan(2);
#pragma omp taskwait
  }
}

int main(int argc, char **argv)
{
  for (int rounds = argc > 1 ? atoi(argv[1]) : 30; rounds > 0; rounds--) {
#pragma omp parallel num_threads(4)
    for (int k = 0; k < 20; k++) {
      waiting(3);
      orphan(3);
    }
  }
  printf("unrelated done\n");
}
