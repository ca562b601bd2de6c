/* jansson, which builds a tree and refuses repeated names, and writes the tree without whitespace and with sorted names.
 * Tree and text are freed again. */
#include <jansson.h>
#include <stdbool.h>
#include <stdint.h>
#include <stdlib.h>

static json_t *tree(const uint8_t *text, size_t length) {
  return json_loadb((const char *)text, length, JSON_REJECT_DUPLICATES | JSON_DECODE_ANY, NULL);
}

bool peer_jansson(const uint8_t *text, size_t length) {
  json_t *root = tree(text, length);
  if (root == NULL) return false;
  json_decref(root);
  return true;
}

bool peer_jansson_write(const uint8_t *text, size_t length) {
  json_t *root = tree(text, length);
  if (root == NULL) return false;
  char *written = json_dumps(root, JSON_SORT_KEYS | JSON_COMPACT | JSON_ENCODE_ANY);
  json_decref(root);
  free(written);
  return written != NULL;
}
