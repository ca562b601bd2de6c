/* nib_write's promises. */
#ifndef WRITE_H
#define WRITE_H

#include "output.h"

/* Writes a text into an output of this length, and checks answer, table and output. */
result check_write(const reading *read, size_t words, size_t out_len, manner how);

/* Checks that the length asked for is the one needed, no byte less, and that a canonical text is its own. */
void check_canonical(const reading *read, manner how);

/* The longest output that is worth lending for this many bytes of text. */
size_t enough_for(size_t length);

#endif
