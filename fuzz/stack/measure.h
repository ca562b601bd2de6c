/* How much stack a call takes. */
#ifndef MEASURE_H
#define MEASURE_H

#include <stddef.h>

/* Calls this on a thread of its own and returns how many bytes of its painted stack were written, the caller's frame
 * for the call included. */
size_t stack_of(void (*call)(void *), void *with);

#endif
