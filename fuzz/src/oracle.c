#include "oracle.h"

#include <string.h>

#include "require.h"

/* The reference is slow and takes memory, so large texts are left to the laws. */
enum { LONGEST_COMPARED = 16384 };

/* From oracle.rs. */
nib_answer oracle_read(const uint8_t *text, size_t text_len, uint32_t *table, size_t words);
nib_answer oracle_write(const uint8_t *text, size_t text_len, size_t words, uint8_t *out, size_t out_len);
nib_answer oracle_find(const uint8_t *text, size_t text_len, size_t words, const uint8_t *pointer, size_t pointer_len);
nib_answer oracle_merge(const uint8_t *target, size_t target_len, size_t target_words, const uint8_t *patch,
                        size_t patch_len, size_t patch_words, uint8_t *out, size_t out_len);

static uint32_t table[4 * LONGEST_COMPARED + 4 * SPARE];
static uint8_t out[NIB_CANONICAL_GROWTH * LONGEST_COMPARED];

static void compare_records(const reading *read, size_t words) {
  nib_answer answer = oracle_read(read->text.at, read->text.length, table, words);
  REQUIRE(same_answer(answer, read->answer));
  if (answer.number == 0) REQUIRE(memcmp(table, read->records, 4 * sizeof(uint32_t) * answer.count) == 0);
}

static void compare_result(nib_answer answer, const result *with) {
  REQUIRE(same_answer(answer, with->answer));
  if (answer.number == 0) REQUIRE(memcmp(out, with->written, answer.count) == 0);
}

void compare_with_oracle(const input *in, const reading *target, const result *written, nib_answer found,
                         const result *merged) {
  bytes text = in->target, patch = in->patch, pointer = in->pointer;
  if (text.length + patch.length + pointer.length > LONGEST_COMPARED) return;
  compare_records(target, in->target_words);
  compare_result(oracle_write(text.at, text.length, in->target_words, out, in->out_len), written);
  REQUIRE(same_answer(oracle_find(text.at, text.length, in->target_words, pointer.at, pointer.length), found));
  nib_answer answer = oracle_merge(text.at, text.length, in->target_words, patch.at, patch.length, in->patch_words, out,
                                   in->out_len);
  compare_result(answer, merged);
}
