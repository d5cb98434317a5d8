/* untied [few]: untied tasks, which may go on as those of another thread. They wait for nothing: programs of clang in
 * which they do hang on libomp 19, with a tool or without. With `few` there are not records for all of them. */
#define _GNU_SOURCE
#include "held_up.h"
#include "words.h"

#include <omp.h>
#include <stdio.h>

static bool few;

/* Whether the current task is shown, where each one can be, and truly. */
static void expect_shown(int line)
{
  if (few)
    return;
  EXPECT(!get(this_task(), TK_IMPLICIT));
  expect_truth(__FILE__, line);
}

static void make_tasks(void)
{
  for (int k = 0; k < 100; k++) {
#pragma omp task untied
    {
      expect_shown(__LINE__);
#pragma omp taskyield
      expect_shown(__LINE__);
#pragma omp task
      expect_shown(__LINE__);
      expect_shown(__LINE__);
#pragma omp taskyield
      expect_shown(__LINE__);
    }
  }
}

int main(int argc, char **argv)
{
  (void)argv;
  few = argc > 1;
  for (int round = 0; round < 20; round++) {
#pragma omp parallel num_threads(4)
    {
#pragma omp single
      make_tasks();
      EXPECT_TRUTH();
    }
    EXPECT_TRUTH();
    EXPECT(live_regions() == 1 && live_tasks() == 1);
  }
  puts("untied done");
}
