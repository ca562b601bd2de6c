#include "grow.h"

#include <stdio.h>
#include <string.h>

#include "input.h"
#include "nibrocate.h"

enum { SMALL = 32768, DEEP = 64, NAME = 16 };

static uint8_t memory[2][LONGEST], pointer_memory[NIB_POINTER_BYTES + 4];

/* Names in an order that looks random and without repetition, for the sort. */
static size_t put_name(uint8_t *at, uint32_t number) {
  return (size_t)sprintf((char *)at, "\"%x\":", (number * 40503u) & 0xFFFFF);
}

/* The text again and again, as the elements or the members of one container, within this many bytes. */
static bytes repeated(uint8_t *at, bytes text, size_t most, bool has_names) {
  size_t length = 0;
  at[length++] = has_names ? '{' : '[';
  for (uint32_t number = 0; length + text.length + NAME < most && number <= 0xFFFFF; number++) {
    if (number) at[length++] = ',';
    if (has_names) length += put_name(at + length, number);
    memcpy(at + length, text.at, text.length);
    length += text.length;
  }
  at[length++] = has_names ? '}' : ']';
  return (bytes){at, length};
}

static bytes padded(uint8_t *at, bytes text, size_t most) {
  memset(at, ' ', most);
  memcpy(at, text.at, text.length);
  return (bytes){at, most};
}

/* The text inside so many arrays that with one container of its own the ceiling is reached. */
static bytes nested(uint8_t *at, bytes text, size_t depth) {
  memset(at, '[', depth);
  memcpy(at + depth, text.at, text.length);
  memset(at + depth + text.length, ']', depth);
  return (bytes){at, text.length + 2 * depth};
}

bytes grown(slot which, bytes text, uint8_t growth) {
  uint8_t *at = memory[which];
  if (growth < SMALL_ARRAY || text.length == 0 || text.length > SMALL) return text;
  switch (growth) {
    case SMALL_ARRAY: return repeated(at, text, SMALL, false);
    case SMALL_OBJECT: return repeated(at, text, SMALL, true);
    case LARGE_ARRAY: return repeated(at, text, NIB_TEXT_BYTES, false);
    case LARGE_OBJECT: return repeated(at, text, NIB_TEXT_BYTES, true);
    case TOO_LONG: return padded(at, text, NIB_TEXT_BYTES + 1);
    case LONGEST_ALLOWED: return padded(at, text, NIB_TEXT_BYTES);
    case NESTED: return nested(at, text, DEEP - 1);
    default: return nested(at, text, DEEP);
  }
}

bytes grown_pointer(bytes pointer, uint8_t growth, uint8_t over) {
  if (growth != LONG_POINTER || pointer.length == 0) return pointer;
  size_t length = NIB_POINTER_BYTES + (over + 1) % 4;
  for (size_t at = 0; at < length; at++) pointer_memory[at] = pointer.at[at % pointer.length];
  return (bytes){pointer_memory, length};
}
