#include "read.h"

#include <string.h>

#include "require.h"

bool same_answer(nib_answer one, nib_answer other) { return memcmp(&one, &other, sizeof one) == 0; }

bool is_accepted(nib_answer answer) { return answer.number == 0 && answer.input == 0 && answer.place == 0; }

bool is_refused(nib_answer answer, uint32_t input) {
  return answer.number > 0 && answer.input == input && answer.count == 0;
}

/* Whether the answer has the form that the header gives for this length of text and table. */
static bool has_form(nib_answer answer, size_t length, size_t words) {
  if (length > NIB_TEXT_BYTES) return is_refused(answer, 1) && answer.number == 1 && answer.place == 0;
  if (words < 4 * length) return is_refused(answer, 1) && answer.number == 2 && answer.place == 0;
  if (answer.number == 0) return is_accepted(answer) && answer.count > 0 && answer.count <= length;
  if (answer.number == 3) return is_refused(answer, 1) && answer.place == length;
  return is_refused(answer, 1) && answer.number >= 4 && answer.number <= 9 && answer.place < length;
}

/* Whether a record lies inside the record around it, and behind its own name, which is a string's opening quote. */
static bool is_record(const reading *read, const uint32_t *record, const uint32_t *around, uint32_t number) {
  const uint8_t *text = read->text.at;
  bool has_place = around[0] < record[0] && record[0] < record[1] && record[1] < around[1];
  bool has_next = number < record[3] && record[3] <= around[3];
  bool has_name = record[2] != NIB_NO_NAME;
  bool is_named = around[0] < record[2] && record[2] < record[0] && text[record[2]] == '"';
  return has_place && has_next && has_name == (text[around[0]] == '{') && (!has_name || is_named);
}

/* Checks the records inside the one of this number: each follows where the one before it ends. */
static void check_inside(const reading *read, uint32_t number) {
  const uint32_t *around = read->records + 4 * number;
  uint32_t end = around[0];
  for (uint32_t inner = number + 1; inner < around[3]; inner = read->records[4 * inner + 3]) {
    const uint32_t *record = read->records + 4 * inner;
    REQUIRE(is_record(read, record, around, inner));
    REQUIRE(end < record[0]);
    end = record[1];
  }
}

static void check_records(const reading *read) {
  const uint32_t *root = read->records;
  REQUIRE(root[0] < root[1] && root[1] <= read->text.length);
  REQUIRE(root[2] == NIB_NO_NAME && root[3] == read->answer.count);
  for (uint32_t number = 0; number < read->answer.count; number++) check_inside(read, number);
}

/* The table is copied out, since the next call is lent the same memory. */
reading check_read(bytes text, size_t words, manner how) {
  uint32_t *table = lend_table(FIRST, words, how);
  nib_answer answer = nib_read(lend_text(FIRST, text, how), text.length, table, words);
  REQUIRE(has_form(answer, text.length, words));
  reading read = {text, answer, NULL};
  if (answer.number == 0) {
    size_t size = 4 * sizeof(uint32_t) * answer.count;
    read.records = malloc(size);
    REQUIRE(read.records != NULL);
    memcpy(read.records, table, size);
    check_records(&read);
  }
  REQUIRE(table_is_left(&read, table, words, how));
  return read;
}

reading check_read_exactly(bytes text, manner how) { return check_read(text, 4 * text.length, how); }

void forget(reading *read) {
  free(read->records);
  read->records = NULL;
}

bool table_is_left(const reading *read, const uint32_t *table, size_t words, manner how) {
  size_t written = 0;
  if (read->answer.number == 0) {
    written = 4 * read->answer.count;
    if (memcmp(table, read->records, written * sizeof(uint32_t)) != 0) return false;
  } else if (read->answer.number >= 3) {
    written = 4 * read->text.length;
    for (size_t word = 0; word < written; word++)
      if (table[word] != 0) return false;
  }
  return untouched_words(table + written, words - written, how);
}
