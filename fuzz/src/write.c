#include "write.h"

#include "require.h"

size_t enough_for(size_t length) {
  size_t most = NIB_CANONICAL_GROWTH * length;
  return most < NIB_TEXT_BYTES ? most : NIB_TEXT_BYTES;
}

result check_write(const reading *read, size_t words, size_t out_len, manner how) {
  bytes text = read->text;
  uint32_t *table = lend_table(FIRST, words, how);
  uint8_t *out = lend_output(out_len, how);
  nib_answer answer = nib_write(lend_text(FIRST, text, how), text.length, table, words, out, out_len);
  REQUIRE(table_is_left(read, table, words, how));
  if (read->answer.number == 0) return check_output(answer, out, out_len, NIB_CANONICAL_GROWTH * text.length, how);
  REQUIRE(same_answer(answer, read->answer));
  check_no_output(out, out_len, how);
  return (result){answer, NULL};
}

/* Writes a canonical text again, into an output of exactly its own length. */
static void check_itself(bytes text, manner how) {
  reading read = check_read_exactly(text, how);
  REQUIRE(read.answer.number == 0);
  result again = check_write(&read, 4 * text.length, text.length, how);
  REQUIRE(again.answer.number == 0 && same_bytes(bytes_of(&again), text));
  forget_result(&again);
  forget(&read);
}

void check_canonical(const reading *read, manner how) {
  if (read->answer.number != 0) return;
  size_t words = 4 * read->text.length;
  result asked = check_write(read, words, 0, how);
  if (asked.answer.number == 13) return;
  uint32_t needed = asked.answer.place;
  result less = check_write(read, words, needed - 1, how);
  REQUIRE(same_answer(less.answer, asked.answer));
  result whole = check_write(read, words, needed, how);
  REQUIRE(whole.answer.number == 0 && whole.answer.count == needed);
  check_itself(bytes_of(&whole), how);
  forget_result(&whole);
}
