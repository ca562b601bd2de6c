#include "merge.h"

#include "require.h"
#include "write.h"

/* The answer where one of the texts is refused. */
static nib_answer refusal(const reading *target, const reading *patch) {
  nib_answer answer = target->answer.number != 0 ? target->answer : patch->answer;
  answer.input = target->answer.number != 0 ? 1 : 2;
  return answer;
}

static void check_tables(const reading *target, const reading *patch, lengths lent, uint32_t *tables[2], manner how) {
  REQUIRE(table_is_left(target, tables[FIRST], lent.target_words, how));
  bool is_read = target->answer.number == 0;
  REQUIRE(is_read ? table_is_left(patch, tables[SECOND], lent.patch_words, how)
                  : untouched_words(tables[SECOND], lent.patch_words, how));
}

result check_merge(const reading *target, const reading *patch, lengths lent, manner how) {
  size_t target_len = target->text.length, patch_len = patch->text.length;
  uint32_t *tables[2] = {lend_table(FIRST, lent.target_words, how), lend_table(SECOND, lent.patch_words, how)};
  uint8_t *out = lend_output(lent.out_len, how);
  nib_answer answer =
      nib_merge(lend_text(FIRST, target->text, how), target_len, tables[FIRST], lent.target_words,
                lend_text(SECOND, patch->text, how), patch_len, tables[SECOND], lent.patch_words, out, lent.out_len);
  check_tables(target, patch, lent, tables, how);
  if (target->answer.number == 0 && patch->answer.number == 0)
    return check_output(answer, out, lent.out_len, NIB_CANONICAL_GROWTH * (target_len + patch_len), how);
  REQUIRE(same_answer(answer, refusal(target, patch)));
  check_no_output(out, lent.out_len, how);
  return (result){answer, NULL};
}

/* Merges with tables of exactly the words needed. */
static result merge_into(const reading *target, const reading *patch, size_t out_len, manner how) {
  lengths exact = {4 * target->text.length, 4 * patch->text.length, out_len};
  return check_merge(target, patch, exact, how);
}

/* The result is its own canonical text, and that of merging the patch into it. */
static void check_result(bytes merged, const reading *patch, manner how) {
  reading read = check_read_exactly(merged, how);
  REQUIRE(read.answer.number == 0);
  result canonical = check_write(&read, 4 * merged.length, merged.length, how);
  REQUIRE(canonical.answer.number == 0 && same_bytes(bytes_of(&canonical), merged));
  result again = merge_into(&read, patch, merged.length, how);
  REQUIRE(again.answer.number == 0 && same_bytes(bytes_of(&again), merged));
  forget_result(&again);
  forget_result(&canonical);
  forget(&read);
}

/* A patch that isn't an object is the result, as the writer writes it. */
static void check_replaced(bytes merged, const reading *patch, manner how) {
  if (patch->text.at[patch->records[0]] == '{') return;
  result canonical = check_write(patch, 4 * patch->text.length, merged.length, how);
  REQUIRE(canonical.answer.number == 0 && same_bytes(bytes_of(&canonical), merged));
  forget_result(&canonical);
}

void check_laws(const reading *target, const reading *patch, manner how) {
  if (target->answer.number != 0 || patch->answer.number != 0) return;
  result asked = merge_into(target, patch, 0, how);
  if (asked.answer.number == 13) return;
  uint32_t needed = asked.answer.place;
  result less = merge_into(target, patch, needed - 1, how);
  REQUIRE(same_answer(less.answer, asked.answer));
  result whole = merge_into(target, patch, needed, how);
  REQUIRE(whole.answer.number == 0 && whole.answer.count == needed);
  check_result(bytes_of(&whole), patch, how);
  check_replaced(bytes_of(&whole), patch, how);
  forget_result(&whole);
}
