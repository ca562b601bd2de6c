/* The library with one promise broken, chosen by BROKEN: a fuzzing target that doesn't find each of these is no use. */
#include <stdint.h>

#include "nibrocate.h"

nib_answer sound_read(const uint8_t *, size_t, uint32_t *, size_t);
nib_answer sound_write(const uint8_t *, size_t, uint32_t *, size_t, uint8_t *, size_t);
nib_answer sound_find(const uint8_t *, size_t, uint32_t *, size_t, const uint8_t *, size_t);
nib_part sound_part_of(const uint8_t *, size_t, uint32_t *, size_t, const uint8_t *, size_t);
nib_answer sound_merge(const uint8_t *, size_t, uint32_t *, size_t, const uint8_t *, size_t, uint32_t *, size_t,
                       uint8_t *, size_t);

/* So that a read that nobody needs stays in. */
static volatile uint8_t sink;

nib_answer nib_read(const uint8_t *text, size_t text_len, uint32_t *table, size_t table_words) {
  uint32_t first = table_words ? table[0] : 0;
  nib_answer answer = sound_read(text, text_len, table, table_words);
  switch (BROKEN) {
    case 1: sink = text[text_len]; break;                                         /* reads behind the text */
    case 2: sink = text[-1]; break;                                               /* reads before the text */
    case 3: if (answer.count && table_words) table[table_words] = 0; break;       /* writes behind the table */
    case 4: if (4 * answer.count < table_words) table[4 * answer.count] = 0; break; /* a word not at entry */
    case 5: if (answer.number == 5) answer.place++; break;                        /* the depth told too late */
    case 6: if (answer.number == 8) answer.count = 1; break;                      /* a refusal with a count */
    case 7: if (answer.number == 7) answer.number = 4; break;                     /* the wrong refusal */
    case 8: if (first == 0xA5A5A5A5u && answer.count == 3) answer.number = 4; break; /* by what the table held */
    case 9: if (answer.count > 9) table[4 * 9 + 1]++; break;                      /* a value that ends too late */
  }
  return answer;
}

nib_answer nib_write(const uint8_t *text, size_t text_len, uint32_t *table, size_t table_words, uint8_t *out,
                     size_t out_len) {
  nib_answer answer = sound_write(text, text_len, table, table_words, out, out_len);
  switch (BROKEN) {
    case 10: if (answer.count) out[out_len] = 0; break;                           /* writes behind the output */
    case 11: if (answer.count) ((uint8_t *)text)[0] = ' '; break;                 /* writes to the text */
    case 12: if (answer.number == 12) answer.place++; break;                      /* asks for too much */
    case 13: if (answer.count > 4 && out[4] == 'e') out[4] = 'E'; break;          /* another spelling */
    case 14: if (answer.number == 12 && out_len) out[0] = '{'; break;             /* writes and refuses */
    case 15: if (answer.number == 13) answer.number = 12; break;                  /* a result over the ceiling */
  }
  return answer;
}

nib_answer nib_find(const uint8_t *text, size_t text_len, uint32_t *table, size_t table_words, const uint8_t *pointer,
                    size_t pointer_len) {
  nib_answer answer = sound_find(text, text_len, table, table_words, pointer, pointer_len);
  if (BROKEN == 16 && answer.count > 1) answer.count--;                           /* another record */
  if (BROKEN == 17 && answer.number == 11 && answer.place) answer.place = 0;      /* always the first token */
  return answer;
}

nib_part nib_part_of(const uint8_t *text, size_t text_len, uint32_t *table, size_t table_words, const uint8_t *pointer,
                     size_t pointer_len) {
  nib_part part = sound_part_of(text, text_len, table, table_words, pointer, pointer_len);
  if (BROKEN == 18 && part.end > 20) part.end--;                                  /* a part too short */
  return part;
}

nib_answer nib_merge(const uint8_t *target, size_t target_len, uint32_t *target_table, size_t target_words,
                     const uint8_t *patch, size_t patch_len, uint32_t *patch_table, size_t patch_words, uint8_t *out,
                     size_t out_len) {
  nib_answer answer = sound_merge(target, target_len, target_table, target_words, patch, patch_len, patch_table,
                                  patch_words, out, out_len);
  if (BROKEN == 19 && answer.input == 1 && patch_words) patch_table[0] = 0;       /* the patch's table touched */
  if (BROKEN == 20 && answer.input == 2) answer.input = 1;                        /* the wrong input */
  if (BROKEN == 21 && answer.number == 0 && patch_len > 12)                       /* the patch left out */
    return sound_write(target, target_len, target_table, target_words, out, out_len);
  return answer;
}
