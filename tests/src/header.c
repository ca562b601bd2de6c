/* A caller in C, which knows the library by its header alone. */
#include "nibrocate.h"

#include <string.h>

/* Reads 01's whole case and a text with a repeated name. The number of the first check that fails, or 0. */
static int check_read(void) {
  const char *accepted = "{\"a\":[1,true]}";
  const char *refused = "{\"a\":1,\"\\u0061\":2}";
  const uint32_t records[16] = {0, 14, NIB_NO_NAME, 4, 5, 13, 1, 4, 6, 7, NIB_NO_NAME, 3, 8, 12, NIB_NO_NAME, 4};
  uint32_t table[NIB_WORDS_PER_BYTE * 18];

  nib_answer read = nib_read((const uint8_t *)accepted, strlen(accepted), table, 56);
  if (read.number != NIB_ACCEPTED || read.input != 0 || read.place != 0 || read.count != 4) return 1;
  if (memcmp(table, records, sizeof records) != 0) return 2;

  nib_answer twice = nib_read((const uint8_t *)refused, strlen(refused), table, 72);
  if (twice.number != NIB_NAME_TWICE || twice.input != 1 || twice.place != 14 || twice.count != 0) return 3;

  nib_answer nothing = nib_read(NULL, 0, NULL, 0);
  if (nothing.number != NIB_UNFINISHED || nothing.place != 0) return 4;
  return 0;
}

/* Writes one of 01's examples, asks for its length, and writes a text with a repeated name. */
static int check_write(void) {
  const char *text = "{\"b\":1.50,\"a\":\"\\n\"}";
  const char *canonical = "{\"a\":\"\\u000a\",\"b\":15e-1}";
  const char *twice = "{\"a\":1,\"\\u0061\":2}";
  uint32_t table[NIB_WORDS_PER_BYTE * 19];
  uint8_t out[NIB_CANONICAL_GROWTH * 19];

  nib_answer length = nib_write((const uint8_t *)text, strlen(text), table, 76, NULL, 0);
  if (length.number != NIB_OUTPUT_TOO_SHORT || length.input != 3 || length.place != 24 || length.count != 0) return 11;

  out[24] = '#';
  nib_answer written = nib_write((const uint8_t *)text, strlen(text), table, 76, out, sizeof out);
  if (written.number != NIB_ACCEPTED || written.input != 0 || written.place != 0 || written.count != 24) return 12;
  if (memcmp(out, canonical, 24) != 0 || out[24] != '#') return 13;

  nib_answer refused = nib_write((const uint8_t *)twice, strlen(twice), table, 76, out, sizeof out);
  if (refused.number != NIB_NAME_TWICE || refused.input != 1 || refused.place != 14 || refused.count != 0) return 14;
  if (memcmp(out, canonical, 24) != 0) return 15;
  return 0;
}

/* Looks up a value, a value that isn't there, and a malformed JSON pointer, and takes the first as a part. */
static int check_find(void) {
  const uint8_t *text = (const uint8_t *)"{\"foo\":[\"bar\",\"baz\"],\"\":0}";
  const uint8_t *bar = (const uint8_t *)"/foo/0", *none = (const uint8_t *)"/foo/01", *wrong = (const uint8_t *)"/~2";
  uint32_t table[NIB_WORDS_PER_BYTE * 26];

  nib_answer found = nib_find(text, 26, table, 104, bar, 6);
  if (found.number != NIB_ACCEPTED || found.input != 0 || found.place != 0 || found.count != 2) return 21;
  if (table[4 * found.count] != 8 || table[4 * found.count + 1] != 13) return 22;

  nib_answer nothing = nib_find(text, 26, table, 104, none, 7);
  if (nothing.number != NIB_NOTHING_THERE || nothing.input != 2 || nothing.place != 4 || nothing.count != 0) return 23;
  nib_answer malformed = nib_find(text, 26, table, 104, wrong, 3);
  if (malformed.number != NIB_POINTER_MALFORMED || malformed.input != 2 || malformed.place != 2) return 24;

  nib_part part = nib_part_of(text, 26, table, 104, bar, 6);
  if (part.start != 8 || part.end != 13 || memcmp(text + part.start, "\"bar\"", 5) != 0) return 25;
  part = nib_part_of(text, 26, table, 104, NULL, 0);
  if (part.start != 0 || part.end != 26) return 26;
  part = nib_part_of(text, 26, table, 104, none, 7);
  if (part.start != 0 || part.end != 0) return 27;
  nib_answer narrow = nib_find(text, 26, table, 103, wrong, 3);
  return narrow.number == NIB_TABLE_TOO_SHORT && narrow.input == 1 ? 0 : 28;
}

/* Merges one of 01's examples and asks for its length, then a refused target and a refused patch. */
static int check_merge(void) {
  const uint8_t *target = (const uint8_t *)"[1,2]", *patch = (const uint8_t *)"{\"a\":\"b\",\"c\":null}";
  const uint8_t *twice = (const uint8_t *)"{\"a\":1,\"\\u0061\":2}";
  uint32_t table[NIB_WORDS_PER_BYTE * 18], patch_table[NIB_WORDS_PER_BYTE * 18];
  uint8_t out[NIB_CANONICAL_GROWTH * (18 + 18)];

  nib_answer length = nib_merge(target, 5, table, 20, patch, 18, patch_table, 72, NULL, 0);
  if (length.number != NIB_OUTPUT_TOO_SHORT || length.input != 3 || length.place != 9 || length.count != 0) return 31;
  if (table[3] != 3 || patch_table[3] != 3) return 32;

  out[9] = '#';
  nib_answer merged = nib_merge(target, 5, table, 20, patch, 18, patch_table, 72, out, sizeof out);
  if (merged.number != NIB_ACCEPTED || merged.input != 0 || merged.place != 0 || merged.count != 9) return 33;
  if (memcmp(out, "{\"a\":\"b\"}#", 10) != 0) return 34;

  nib_answer refused = nib_merge(target, 5, table, 20, twice, 18, patch_table, 72, out, sizeof out);
  if (refused.number != NIB_NAME_TWICE || refused.input != 2 || refused.place != 14 || refused.count != 0) return 35;
  if (table[3] != 3 || patch_table[3] != 0) return 36;

  patch_table[3] = 7;
  refused = nib_merge(twice, 18, table, 72, twice, 18, patch_table, 72, out, sizeof out);
  if (refused.number != NIB_NAME_TWICE || refused.input != 1 || refused.place != 14 || refused.count != 0) return 37;
  if (table[3] != 0 || patch_table[3] != 7) return 38;
  refused = nib_merge(target, 5, table, 20, patch, 18, patch_table, 71, out, sizeof out);
  if (refused.number != NIB_TABLE_TOO_SHORT || refused.input != 2 || refused.place != 0) return 39;
  return memcmp(out, "{\"a\":\"b\"}#", 10) == 0 ? 0 : 40;
}

int check_header(void) {
  int failed = check_read();
  if (failed == 0) failed = check_write();
  if (failed == 0) failed = check_find();
  return failed != 0 ? failed : check_merge();
}
