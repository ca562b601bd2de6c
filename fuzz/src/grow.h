/* Large texts from small ones, since a fuzzer's own inputs stay small. */
#ifndef GROW_H
#define GROW_H

#include "lend.h"

/* The text as the growth byte makes it: as it is, many times in an array or an object, inside 64 arrays, or with
 * whitespace up to a ceiling or over it. */
bytes grown(slot which, bytes text, uint8_t growth);

/* The pointer as it is, or repeated up to its ceiling and as many bytes over it as the control byte says. */
bytes grown_pointer(bytes pointer, uint8_t growth, uint8_t over);

#endif
