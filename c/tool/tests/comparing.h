/* Compares what the library tells of a stopped process with what its threads say of themselves. */
#ifndef COMPARING_H
#define COMPARING_H

#include "process.h"
#include "said.h"

/* Compares all that the threads say at this moment, and prints each difference. */
void compare(ompd_address_space_handle_t *space, const struct said *said, pid_t process);

/* Forgets which objects the numbers stand for: the program is another one. */
void forget_numbers(void);

/* Prints how often each fact was compared, and what the threads did. How many facts differed. */
unsigned long print_compared(void);

#endif
