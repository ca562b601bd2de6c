/* The fuzzing target: all five entries on one input, lent in two manners, with what the header promises checked. */
#include <string.h>

#include "coverage.h"
#include "find.h"
#include "input.h"
#include "merge.h"
#include "oracle.h"
#include "prefix.h"
#include "require.h"
#include "write.h"

int LLVMFuzzerInitialize(int *argc, char ***argv);
int LLVMFuzzerTestOneInput(const uint8_t *data, size_t size);
const char *__ubsan_default_options(void);

/* The answers of the four entries that give one. */
typedef struct {
  nib_answer target, patch, written, found, merged;
} answers;

static const char STRUCTURAL[] = "{}[]:,\"\\/~-.eu0 ";

/* Lengths shown as features are told apart by powers of two only. */
static uint32_t magnitude(uint32_t length) { return length ? 32 - (uint32_t)__builtin_clz(length) : 0; }

/* A byte's kind: structural bytes are told apart, and the others by what they can be part of. */
static uint32_t kind(uint8_t byte) {
  const char *found = byte ? strchr(STRUCTURAL, byte) : NULL;
  if (found) return (uint32_t)(found - STRUCTURAL);
  if (byte < ' ') return 30;
  return byte >= 0x80 ? 31 : 24 + byte / 32;
}

/* Shows a refusal by its number and the kinds of byte around its place, an acceptance by its count. */
static void show_answer(uint32_t entry, nib_answer answer, bytes in) {
  uint32_t before = 0, at = 0;
  if (answer.number && answer.place < in.length) at = kind(in.at[answer.place]);
  if (answer.number && answer.place && answer.place <= in.length) before = kind(in.at[answer.place - 1]);
  show_feature(entry << 28 | answer.number << 24 | answer.input << 20 | before << 8 | at);
  show_feature(entry << 28 | answer.number << 24 | 1u << 23 | magnitude(answer.count));
}

static void show(const input *in, const answers *got) {
  show_answer(1, got->target, in->target);
  show_answer(2, got->patch, in->patch);
  show_answer(3, got->written, (bytes){NULL, 0});
  show_answer(4, got->found, in->pointer);
  show_answer(5, got->merged, (bytes){NULL, 0});
}

/* Calls each entry as the input says, with slices lent in one manner, and then as the laws between calls ask. */
static answers check_all(const input *in, manner how) {
  reading target = check_read(in->target, in->target_words, how);
  reading patch = check_read(in->patch, in->patch_words, how);
  result written = check_write(&target, in->target_words, in->out_len, how);
  result merged = check_merge(&target, &patch, (lengths){in->target_words, in->patch_words, in->out_len}, how);
  nib_answer found = check_find(&target, in->target_words, in->pointer, how);
  answers got = {target.answer, patch.answer, written.answer, found, merged.answer};
  check_canonical(&target, how);
  check_laws(&target, &patch, how);
  check_prefixes(&target, how);
  compare_with_oracle(in, &target, &written, found, &merged);
  forget_result(&merged);
  forget_result(&written);
  forget(&patch);
  forget(&target);
  return got;
}

/* A touched fence is libFuzzer's to report, which keeps the input; the runtime linked beside it doesn't. */
const char *__ubsan_default_options(void) { return "handle_segv=0:handle_sigbus=0"; }

int LLVMFuzzerInitialize(int *argc, char ***argv) {
  (void)argc, (void)argv;
  set_traps();
  return 0;
}

int LLVMFuzzerTestOneInput(const uint8_t *data, size_t size) {
  input in = input_of(data, size);
  answers at_end = check_all(&in, (manner){AT_END, 0xA5});
  answers at_start = check_all(&in, (manner){AT_START, 0x5B});
  REQUIRE(memcmp(&at_end, &at_start, sizeof at_end) == 0);
  show(&in, &at_end);
  return 0;
}
