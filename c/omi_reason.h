/* The one call of libompd.so that is no call of OMPD. */
#ifndef OMI_REASON_H
#define OMI_REASON_H

/* In words, why the last ompd_process_initialize of the thread was refused. Empty where it wasn't. The text
 * stays as it is until the thread calls ompd_process_initialize again. */
const char *omi_reason(void);

#endif
