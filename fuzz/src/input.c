#include "input.h"

#include <string.h>

#include "grow.h"
#include "write.h"

/* The bytes up to the next separator; what is left begins behind it. */
static bytes next_part(bytes *left) {
  const uint8_t *end = left->length ? memchr(left->at, SEPARATOR, left->length) : NULL;
  bytes part = {left->at, end ? (size_t)(end - left->at) : left->length};
  size_t taken = part.length + (end != NULL);
  *left = (bytes){left->at + taken, left->length - taken};
  return part;
}

/* Mostly the words that are needed, and at times some more, some fewer or none. */
static size_t words_for(size_t length, uint8_t control) {
  size_t exact = 4 * length, change = control / 8;
  switch (control % 8) {
    case 5: return exact + change;
    case 6: return exact > change ? exact - change : 0;
    case 7: return 0;
    default: return exact;
  }
}

/* An output that suffices, one of the text's own length, half of that, or a short one. */
static size_t output_for(size_t length, uint8_t control) {
  switch (control % 4) {
    case 0: return enough_for(length);
    case 1: return length < NIB_TEXT_BYTES ? length : NIB_TEXT_BYTES;
    case 2: return length / 2;
    default: return control / 4;
  }
}

input input_of(const uint8_t *data, size_t size) {
  uint8_t controls[CONTROLS] = {0};
  size_t given = size < CONTROLS ? size : CONTROLS;
  if (given) memcpy(controls, data, given);
  bytes left = {data + given, size - given};
  input made = {0};
  made.target = grown(FIRST, next_part(&left), controls[GROWTH]);
  made.patch = grown(SECOND, next_part(&left), controls[GROWTH]);
  made.pointer = grown_pointer(left, controls[GROWTH], controls[OUTPUT]);
  made.target_words = words_for(made.target.length, controls[FIRST_TABLE]);
  made.patch_words = words_for(made.patch.length, controls[SECOND_TABLE]);
  made.out_len = output_for(made.target.length + made.patch.length, controls[OUTPUT]);
  return made;
}
