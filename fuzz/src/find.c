#include "find.h"

#include "require.h"

/* Whether a pointer's refusal stands where one can: 11 at a /, and 10 no further than the first impossible place. */
static bool has_place(nib_answer answer, bytes pointer) {
  if (answer.number == 11) return answer.place < pointer.length && pointer.at[answer.place] == '/';
  size_t last = pointer.length < NIB_POINTER_BYTES ? pointer.length : NIB_POINTER_BYTES;
  return answer.number == 10 && pointer.length > 0 && answer.place <= last;
}

/* A value that was found is itself a text, with as many records as stand inside it. */
static void check_found(const reading *read, uint32_t number, manner how) {
  const uint32_t *record = read->records + 4 * number;
  reading inner = check_read_exactly((bytes){read->text.at + record[0], record[1] - record[0]}, how);
  REQUIRE(inner.answer.number == 0 && inner.answer.count == record[3] - number);
  forget(&inner);
}

static void check_answer(const reading *read, nib_answer answer, bytes pointer) {
  if (read->answer.number != 0) {
    REQUIRE(same_answer(answer, read->answer));
  } else if (answer.number == 0) {
    REQUIRE(is_accepted(answer) && answer.count < read->answer.count);
    REQUIRE((pointer.length == 0) == (answer.count == 0));
  } else {
    REQUIRE(is_refused(answer, 2) && has_place(answer, pointer));
  }
}

static void check_part(const reading *read, nib_answer answer, nib_part part) {
  if (answer.number != 0) {
    REQUIRE(part.start == 0 && part.end == 0);
    return;
  }
  const uint32_t *record = read->records + 4 * answer.count;
  REQUIRE(part.start == record[0] && part.end == record[1]);
}

nib_answer check_find(const reading *read, size_t words, bytes pointer, manner how) {
  const uint8_t *text = lend_text(FIRST, read->text, how), *lent = lend_text(SECOND, pointer, how);
  uint32_t *table = lend_table(FIRST, words, how);
  nib_answer answer = nib_find(text, read->text.length, table, words, lent, pointer.length);
  check_answer(read, answer, pointer);
  REQUIRE(table_is_left(read, table, words, how));
  table = lend_table(FIRST, words, how);
  nib_part part = nib_part_of(text, read->text.length, table, words, lent, pointer.length);
  check_part(read, answer, part);
  REQUIRE(table_is_left(read, table, words, how));
  if (answer.number == 0) check_found(read, answer.count, how);
  return answer;
}
