/* parts [ROUNDS]: untied tasks of several parts, of which another thread ran the last one than tells their end. */
#define _GNU_SOURCE
#include "held_up.h"

#include <omp.h>
#include <stdio.h>
#include <stdlib.h>

static long shared;

static void tree(int depth)
{
#pragma omp task untied
  {
    if (depth)
      tree(depth - 1);
#pragma omp taskyield
    if (depth)
      tree(depth - 1);
#pragma omp taskyield
#pragma omp atomic
    shared++;
  }
}

int main(int argc, char **argv)
{
  for (int rounds = argc > 1 ? atoi(argv[1]) : 10; rounds > 0; rounds--) {
#pragma omp parallel num_threads(4)
    {
      tree(5);
#pragma omp task
      tree(2);
    }
  }
  puts("parts done");
}
