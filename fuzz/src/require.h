/* A promise that ends the program where it is broken, so that the fuzzer keeps the input. */
#ifndef REQUIRE_H
#define REQUIRE_H

#include <stdio.h>
#include <stdlib.h>

#define REQUIRE(promise)                                                     \
  do {                                                                       \
    if (!(promise)) {                                                        \
      fprintf(stderr, "%s:%d: broken: %s\n", __FILE__, __LINE__, #promise); \
      abort();                                                               \
    }                                                                        \
  } while (0)

#endif
