/* What a fuzzer's input stands for: three texts, and how much is lent beside them. */
#ifndef INPUT_H
#define INPUT_H

#include "lend.h"

/* An input begins with these bytes; the rest is target, patch and pointer, with a separator between them. */
enum { FIRST_TABLE, SECOND_TABLE, OUTPUT, GROWTH, CONTROLS };
enum { SEPARATOR = 0xFE };

/* Values of the growth byte; below the first of them all is taken as it stands. */
enum { GROWN = 0xF7 };
enum {
  LONG_POINTER = GROWN,
  SMALL_ARRAY,
  SMALL_OBJECT,
  LARGE_ARRAY,
  LARGE_OBJECT,
  TOO_LONG,
  LONGEST_ALLOWED,
  NESTED,
  TOO_DEEP
};

typedef struct {
  bytes target, patch, pointer;
  size_t target_words, patch_words, out_len;
} input;

/* Takes an input apart. What it refers to stays until the next call. */
input input_of(const uint8_t *data, size_t size);

#endif
