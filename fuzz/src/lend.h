/* What is lent to a call: texts that can't be written, and tables and outputs with a known filling, all fenced. */
#ifndef LEND_H
#define LEND_H

#include <stdbool.h>

#include "fence.h"

typedef struct {
  const uint8_t *at;
  size_t length;
} bytes;

/* The longest text that is ever lent, one over the ceiling; and how many words a table can have beyond its need. */
enum { LONGEST = 1048577, SPARE = 64 };

/* How slices are lent in one round: at which fence, and what tables and outputs hold at entry. */
typedef struct {
  side at;
  uint8_t filling;
} manner;

/* The slots: a call has at most two texts, a table for each, and one output. */
typedef enum { FIRST, SECOND } slot;

const uint8_t *lend_text(slot which, bytes text, manner how);
uint32_t *lend_table(slot which, size_t words, manner how);
uint8_t *lend_output(size_t length, manner how);

/* Whether these words or bytes are as at entry. */
bool untouched_words(const uint32_t *words, size_t count, manner how);
bool untouched_bytes(const uint8_t *from, size_t count, manner how);

#endif
