#include "prefix.h"

#include "require.h"

void check_prefixes(const reading *read, manner how) {
  uint32_t number = read->answer.number, place = read->answer.place;
  if (number < 4) return;
  reading before = check_read_exactly((bytes){read->text.at, place}, how);
  REQUIRE(before.answer.number == 0 || before.answer.number == 3);
  forget(&before);
  reading with = check_read_exactly((bytes){read->text.at, place + 1}, how);
  REQUIRE(same_answer(with.answer, read->answer));
}
