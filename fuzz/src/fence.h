/* Memory between inaccessible pages, so that touching a byte outside of a lent slice ends the program. */
#ifndef FENCE_H
#define FENCE_H

#include <stddef.h>
#include <stdint.h>

/* Whether a slice begins at the fence before it or ends at the fence behind it. */
typedef enum { AT_START, AT_END } side;

/* A fenced region. What is lent is the view, which may be read-only; the hand writes to the same memory. */
typedef struct {
  uint8_t *view, *hand;
  size_t size;
} region;

region fenced_for_reading(size_t size);
region fenced_for_writing(size_t size);

/* Where a slice of this many bytes stands in the region. */
size_t place_at(const region *in, size_t bytes, side at);

#endif
