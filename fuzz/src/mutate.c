/* Mutations that know JSON: besides libFuzzer's own, they put, double, swap and wrap tokens and values. */
#include <stddef.h>
#include <stdint.h>
#include <string.h>

#include "input.h"

size_t LLVMFuzzerMutate(uint8_t *data, size_t size, size_t max_size);
size_t LLVMFuzzerCustomMutator(uint8_t *data, size_t size, size_t max_size, unsigned seed);

/* One run in RARELY makes something larger, and one of those in SELDOM perhaps a mebibyte, since that takes long. */
enum { RARELY = 2000, SELDOM = 20, LONGEST_SPAN = 256 };

static const uint8_t MODERATE[] = {LONG_POINTER, SMALL_ARRAY, SMALL_OBJECT, NESTED, TOO_DEEP};

static const char *const TOKENS[] = {
    "{", "}", "[", "]", ":", ",", "\"", "\\", "/", "~0", "~1", "~", " ", "\t", "\n", "\r", "null", "true", "false",
    "\"\"", "\"a\"", "\"b\"", "\"ab\"", "\"\\u0061\"", "\"\\u0062\"", "\\u0061", "\\uD800", "\\udc00", "\\n", "\\\"",
    "\\\\", "\\/", "\\b", "\\f", "\\r", "\\t", "\\u0000", "\\u007f", "\x7f", "\x80", "\xff", "0", "-0", "1", "-1",
    "10", "100", "1.5", "0.5", "-12.50", "e", "E+", "e-", "e99", "e999", "e-999", "e998", "e1000", ".0", "e-998",
    "123456789012345678", "12345678901234567", "000", "\"a\":", "\"b\":{", "\"c\":[", ",\"a\":1", ",\"b\":null",
    "\"a\":null", "{}", "[]", "{\"a\":{}}", "[1,2]", "{\"a\":1,\"b\":2}", "/a", "/0", "/1", "/01", "/-", "//",
    "/a/b", "/a/0", "[[[[[[[[", "]]]]]]]]", "{\"a\":{\"a\":{\"a\":{\"a\":", "}}}}", "\xfe", "\xef\xbb\xbf", "abcdefgh",
    "abcdefghijklmnopqrstuvwxyzabcdefghijklmnopqrstuvwxyz", "        ", "\"abcdefghijklmnop\":"};

static unsigned chance(unsigned *state, unsigned below) {
  *state = *state * 1103515245u + 12345u;
  return (*state >> 8) % below;
}

static int is_edge(uint8_t byte) { return byte && strchr("{}[]:,\"/ \xfe", byte) != NULL; }

/* A place beside a structural byte, where there is one soon behind a place by chance. */
static size_t edge(const uint8_t *data, size_t size, unsigned *state) {
  size_t from = CONTROLS + chance(state, (unsigned)(size - CONTROLS + 1));
  for (size_t at = from; at < size && at < from + LONGEST_SPAN; at++)
    if (is_edge(data[at])) return at + chance(state, 2);
  return from;
}

/* Puts bytes for those from start to end, if they fit. */
static size_t put(uint8_t *data, size_t size, size_t max, size_t start, size_t end, const void *from, size_t length) {
  if (size - (end - start) + length > max) return size;
  memmove(data + start + length, data + end, size - end);
  memcpy(data + start, from, length);
  return size - (end - start) + length;
}

static size_t put_token(uint8_t *data, size_t size, size_t max, unsigned *state) {
  const char *token = TOKENS[chance(state, sizeof TOKENS / sizeof *TOKENS)];
  size_t start = edge(data, size, state), end = start;
  if (chance(state, 2))
    while (end < size && !is_edge(data[end])) end++;
  return put(data, size, max, start, end, token, strlen(token));
}

/* Copies a span between edges to another edge: a member is doubled, or goes from the target to the patch. */
static size_t splice(uint8_t *data, size_t size, size_t max, unsigned *state) {
  uint8_t span[LONGEST_SPAN];
  size_t one = edge(data, size, state), other = edge(data, size, state);
  size_t start = one < other ? one : other, length = one < other ? other - one : one - other;
  if (length > LONGEST_SPAN) length = LONGEST_SPAN;
  memcpy(span, data + start, length);
  size_t to = edge(data, size, state);
  return put(data, size, max, to, to, span, length);
}

static size_t cut(uint8_t *data, size_t size, size_t max, unsigned *state) {
  size_t one = edge(data, size, state), other = edge(data, size, state);
  return one < other ? put(data, size, max, one, other, "", 0) : put(data, size, max, other, one, "", 0);
}

/* Wraps a span in up to 64 containers of one kind, so that the ceiling of depth is met. */
static size_t wrap(uint8_t *data, size_t size, size_t max, unsigned *state) {
  int has_names = (int)chance(state, 2);
  size_t start = edge(data, size, state), end = edge(data, size, state);
  if (start > end) return size;
  for (unsigned depth = 1 + chance(state, chance(state, 4) ? 4 : 65); depth > 0; depth--) {
    size = put(data, size, max, end, end, has_names ? "}" : "]", 1);
    size = put(data, size, max, start, start, has_names ? "{\"a\":" : "[", has_names ? 5 : 1);
    end += has_names ? 5 : 1;
    if (end > size) return size;
  }
  return size;
}

static size_t mutate_once(uint8_t *data, size_t size, size_t max, unsigned *state) {
  switch (chance(state, 6)) {
    case 0: return put_token(data, size, max, state);
    case 1: return splice(data, size, max, state);
    case 2: return cut(data, size, max, state);
    case 3: return wrap(data, size, max, state);
    default: return LLVMFuzzerMutate(data, size, max);
  }
}

static uint8_t growth(unsigned *state) {
  if (chance(state, SELDOM)) return MODERATE[chance(state, sizeof MODERATE)];
  return (uint8_t)(GROWN + chance(state, TOO_DEEP - GROWN + 1));
}

size_t LLVMFuzzerCustomMutator(uint8_t *data, size_t size, size_t max_size, unsigned seed) {
  unsigned state = seed;
  for (unsigned times = 1 + chance(&state, 4); times > 0; times--) {
    if (size < CONTROLS) size = LLVMFuzzerMutate(data, size, max_size);
    else size = mutate_once(data, size, max_size, &state);
  }
  if (size > GROWTH) data[GROWTH] = chance(&state, RARELY) ? 0 : growth(&state);
  return size;
}
