#include "output.h"

#include <string.h>

#include "require.h"

void check_no_output(const uint8_t *out, size_t out_len, manner how) { REQUIRE(untouched_bytes(out, out_len, how)); }

result check_output(nib_answer answer, const uint8_t *out, size_t out_len, size_t growth, manner how) {
  result made = {answer, NULL};
  if (answer.number != 0) {
    bool is_too_long = answer.number == 13 && answer.place > NIB_TEXT_BYTES;
    bool is_too_short = answer.number == 12 && answer.place > out_len && answer.place <= NIB_TEXT_BYTES;
    REQUIRE(is_refused(answer, 3) && (is_too_long || is_too_short) && answer.place <= growth);
    check_no_output(out, out_len, how);
    return made;
  }
  REQUIRE(is_accepted(answer) && answer.count > 0 && answer.count <= out_len && answer.count <= growth);
  REQUIRE(answer.count <= NIB_TEXT_BYTES);
  check_no_output(out + answer.count, out_len - answer.count, how);
  made.written = malloc(answer.count);
  REQUIRE(made.written != NULL);
  memcpy(made.written, out, answer.count);
  return made;
}

bytes bytes_of(const result *of) { return (bytes){of->written, of->answer.count}; }

bool same_bytes(bytes one, bytes other) {
  return one.length == other.length && memcmp(one.at, other.at, one.length) == 0;
}

void forget_result(result *of) {
  free(of->written);
  of->written = NULL;
}
