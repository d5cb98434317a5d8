/* Lines on standard error. */
#ifndef SAY_H
#define SAY_H

/* Writes a line that begins with "omi: ". The program isn't hurt by it: errno stays, no lock is taken, and
 * where nobody reads standard error no signal comes. */
__attribute__((format(printf, 1, 2))) void say(const char *format, ...);

#endif
