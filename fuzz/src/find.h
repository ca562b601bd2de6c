/* nib_find's and nib_part_of's promises. */
#ifndef FIND_H
#define FIND_H

#include "read.h"

/* Looks a pointer up in a text, both ways, and checks answer, part and tables. */
nib_answer check_find(const reading *read, size_t words, bytes pointer, manner how);

#endif
