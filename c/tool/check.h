/* The stores of the check build, each made alone and judged. */
#ifndef CHECK_H
#define CHECK_H

#include <stdbool.h>

#include "word.h"

void checked_store(word_t *at, uint64_t value);
bool checked_swap(word_t *at, uint64_t expected, uint64_t value);
bool checked_swap_pair(word_t *at, const uint64_t expected[2], const uint64_t value[2]);

#endif
