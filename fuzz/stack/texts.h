/* Texts on which the entries go deepest. */
#ifndef TEXTS_H
#define TEXTS_H

#include <stdint.h>
#include <stddef.h>

typedef struct {
  uint8_t *at;
  size_t length;
} text;

/* Containers inside each other, this many of them arrays or objects of one member, around one object of as many
 * members, in an order that looks random, as fill a text of the greatest length. */
text deep_objects(unsigned depth);
text deep_arrays(unsigned depth);

/* Objects inside each other in which each has this many other members, in an order that looks random. */
text bushy(unsigned depth, unsigned members);

/* A JSON pointer to the innermost of that many objects. */
text deep_pointer(unsigned depth);

#endif
