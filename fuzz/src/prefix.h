/* The meaning of a refusal's place: what comes before it can be continued, and what comes behind it doesn't matter. */
#ifndef PREFIX_H
#define PREFIX_H

#include "read.h"

void check_prefixes(const reading *read, manner how);

#endif
