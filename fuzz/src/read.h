/* Readings: nib_read's answer and table, checked against the header, and kept for the checks of the other entries. */
#ifndef READ_H
#define READ_H

#include "lend.h"
#include "nibrocate.h"

/* What reading a text gave. The records are a copy, 4 x count words. */
typedef struct {
  bytes text;
  nib_answer answer;
  uint32_t *records;
} reading;

/* Reads a text with a table of this many words, and checks all that the header promises of it. */
reading check_read(bytes text, size_t words, manner how);

/* Reads a text with the least table that suffices and checks it. */
reading check_read_exactly(bytes text, manner how);

void forget(reading *read);

/* Whether a table holds what this reading leaves in one of this many words. */
bool table_is_left(const reading *read, const uint32_t *table, size_t words, manner how);

bool same_answer(nib_answer one, nib_answer other);

/* Whether the answer has the form of an acceptance, or of a refusal of this input. */
bool is_accepted(nib_answer answer);
bool is_refused(nib_answer answer, uint32_t input);

#endif
