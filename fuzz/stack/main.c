/* Measures the most stack that each entry takes, on the texts that take it deepest, and fails where that is over the
 * bound that docs/RELIABILITY.md states. */
#include <stdio.h>
#include <stdlib.h>

#include "measure.h"
#include "nibrocate.h"
#include "texts.h"

enum { DEPTH = 64, BOUND = 32768, TEXTS = 6 };

/* One call: what it is lent, and its answer's number. */
typedef struct {
  text target, patch, pointer;
  uint32_t number;
} lent;

static uint32_t tables[2][NIB_WORDS_PER_BYTE * NIB_TEXT_BYTES];
static uint8_t out[NIB_TEXT_BYTES];

static void read_it(void *with) {
  lent *it = with;
  it->number = nib_read(it->target.at, it->target.length, tables[0], sizeof tables[0] / 4).number;
}

static void write_it(void *with) {
  lent *it = with;
  it->number = nib_write(it->target.at, it->target.length, tables[0], sizeof tables[0] / 4, out, sizeof out).number;
}

static void find_it(void *with) {
  lent *it = with;
  it->number = nib_find(it->target.at, it->target.length, tables[0], sizeof tables[0] / 4, it->pointer.at,
                        it->pointer.length)
                   .number;
}

static void part_it(void *with) {
  lent *it = with;
  nib_part part = nib_part_of(it->target.at, it->target.length, tables[0], sizeof tables[0] / 4, it->pointer.at,
                              it->pointer.length);
  it->number = part.end ? NIB_ACCEPTED : NIB_NOTHING_THERE;
}

static void merge_it(void *with) {
  lent *it = with;
  it->number = nib_merge(it->target.at, it->target.length, tables[0], sizeof tables[0] / 4, it->patch.at,
                         it->patch.length, tables[1], sizeof tables[1] / 4, out, sizeof out)
                   .number;
}

static const struct {
  const char *name;
  void (*call)(void *);
} ENTRIES[] = {{"nib_read", read_it}, {"nib_write", write_it}, {"nib_find", find_it}, {"nib_part_of", part_it},
               {"nib_merge", merge_it}};

/* The most over all texts, the patch being the target itself or the next text. A text that isn't read measures
 * nothing. */
static size_t most_of(void (*call)(void *), const text *texts, text pointer) {
  size_t most = 0;
  for (int pair = 0; pair < TEXTS * TEXTS; pair++) {
    int target = pair / TEXTS, patch = pair % TEXTS;
    if (patch != target && (call != merge_it || patch != (target + 1) % TEXTS)) continue;
    lent it = {texts[target], texts[patch], pointer, 0};
    size_t used = stack_of(call, &it);
    if (it.number != NIB_ACCEPTED && it.number != NIB_NOTHING_THERE && it.number != NIB_RESULT_TOO_LONG) abort();
    if (used > most) most = used;
  }
  return most;
}

int main(void) {
  text texts[TEXTS] = {deep_objects(0),         deep_objects(DEPTH - 1), deep_arrays(DEPTH - 1),
                       bushy(DEPTH, 1),         bushy(DEPTH, 9),         bushy(DEPTH, 2000)};
  text pointer = deep_pointer(DEPTH - 1);
  int is_over = 0;
  for (size_t entry = 0; entry < sizeof ENTRIES / sizeof *ENTRIES; entry++) {
    size_t most = most_of(ENTRIES[entry].call, texts, pointer);
    printf("%-11s %6zu bytes of stack at most\n", ENTRIES[entry].name, most);
    is_over |= most > BOUND;
  }
  puts(is_over ? "0 passed, 1 failed" : "1 passed, 0 failed");
  return is_over;
}
