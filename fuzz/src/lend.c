#include "lend.h"

#include <string.h>

static region texts[2], tables[2], output;

static void make_regions(void) {
  if (output.view) return;
  for (slot which = FIRST; which <= SECOND; which++) {
    texts[which] = fenced_for_reading(LONGEST);
    tables[which] = fenced_for_writing(4 * sizeof(uint32_t) * (LONGEST + SPARE));
  }
  output = fenced_for_writing(LONGEST + SPARE);
}

const uint8_t *lend_text(slot which, bytes text, manner how) {
  make_regions();
  size_t place = place_at(&texts[which], text.length, how.at);
  if (text.length) memcpy(texts[which].hand + place, text.at, text.length);
  return texts[which].view + place;
}

uint32_t *lend_table(slot which, size_t words, manner how) {
  make_regions();
  size_t size = words * sizeof(uint32_t);
  uint8_t *table = tables[which].view + place_at(&tables[which], size, how.at);
  memset(table, how.filling, size);
  return (uint32_t *)(void *)table;
}

uint8_t *lend_output(size_t length, manner how) {
  make_regions();
  uint8_t *out = output.view + place_at(&output, length, how.at);
  memset(out, how.filling, length);
  return out;
}

bool untouched_bytes(const uint8_t *from, size_t count, manner how) {
  return count == 0 || (from[0] == how.filling && memcmp(from, from + 1, count - 1) == 0);
}

bool untouched_words(const uint32_t *words, size_t count, manner how) {
  return untouched_bytes((const uint8_t *)words, count * sizeof(uint32_t), how);
}
