/* What the writer and the merge promise of their output, and the laws that hold between outputs. */
#ifndef OUTPUT_H
#define OUTPUT_H

#include "read.h"

/* A result: the answer and, where accepted, a copy of the bytes written. */
typedef struct {
  nib_answer answer;
  uint8_t *written;
} result;

/* Checks the output of a call whose texts were accepted, lent this many bytes; growth bounds the length. */
result check_output(nib_answer answer, const uint8_t *out, size_t out_len, size_t growth, manner how);

/* Checks that a call with texts refused left the output alone. */
void check_no_output(const uint8_t *out, size_t out_len, manner how);

bytes bytes_of(const result *of);
bool same_bytes(bytes one, bytes other);
void forget_result(result *of);

#endif
