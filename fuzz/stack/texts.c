#include "texts.h"

#include <stdio.h>
#include <stdlib.h>
#include <string.h>

#include "nibrocate.h"

/* A name has one to three characters, which are digits of this base, counted from a plain byte. */
enum { BASE = 80, LONGEST_NAME = 3, STEP = 300007, FIRST_CHARACTER = '#', MEMBER = 8 };

static text empty_text(void) {
  text made = {malloc(2 * NIB_TEXT_BYTES), 0};
  if (!made.at) abort();
  return made;
}

static void add(text *to, const char *what) {
  memcpy(to->at + to->length, what, strlen(what));
  to->length += strlen(what);
}

/* The backslash is the only character of the base that can't stand plain, and is taken to be a blank. */
static char character(unsigned digit) {
  char made = (char)(FIRST_CHARACTER + digit % BASE);
  return made == '\\' ? ' ' : made;
}

/* Short names come first, so that as many members as can be fit in. The step has no divisor in common with the base,
 * so that each name of a length is met once. */
static void add_member(text *to, unsigned number) {
  unsigned names = BASE, length = 1;
  for (; number >= names && length < LONGEST_NAME; length++, names *= BASE) number -= names;
  unsigned name = (unsigned)((uint64_t)number * STEP % names);
  char member[MEMBER + 1] = "\"";
  for (unsigned at = 1; at <= length; at++, name /= BASE) member[at] = character(name);
  strcpy(member + 1 + length, "\":0,");
  add(to, member);
}

/* The first two names have escapes, so that they are compared unit by unit, which takes calls of its own. */
static void add_object(text *to, size_t most) {
  add(to, "{\"\\u0001\":0,\"\\u0002\":0,");
  for (unsigned number = 0; to->length + MEMBER + 1 < most; number++) add_member(to, number);
  to->at[to->length - 1] = '}';
}

/* Opens and closes as many containers around the object, so that the whole has the greatest length. */
static text nested(const char *open, const char *close, unsigned depth) {
  text made = empty_text();
  for (unsigned at = 0; at < depth; at++) add(&made, open);
  add_object(&made, NIB_TEXT_BYTES - depth * strlen(close));
  for (unsigned at = 0; at < depth; at++) add(&made, close);
  return made;
}

text deep_objects(unsigned depth) { return nested("{\"\":", "}", depth); }

text deep_arrays(unsigned depth) { return nested("[", "]", depth); }

text bushy(unsigned depth, unsigned members) {
  text made = empty_text();
  for (unsigned at = 0; at < depth; at++) {
    add(&made, "{");
    for (unsigned number = 0; number < members; number++) add_member(&made, number);
    add(&made, "\"\":");
  }
  add(&made, "0");
  for (unsigned at = 0; at < depth; at++) add(&made, "}");
  return made;
}

text deep_pointer(unsigned depth) {
  text made = empty_text();
  for (unsigned at = 0; at < depth; at++) add(&made, "/");
  return made;
}
