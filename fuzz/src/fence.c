#define _GNU_SOURCE
#include "fence.h"

#include <sys/mman.h>
#include <unistd.h>

#include "require.h"

enum { PAGE = 4096 };

/* Maps the file between two pages that can't be touched. */
static uint8_t *map_fenced(int file, size_t size, int access) {
  uint8_t *all = mmap(NULL, size + 2 * PAGE, PROT_NONE, MAP_PRIVATE | MAP_ANONYMOUS, -1, 0);
  REQUIRE(all != MAP_FAILED);
  void *inner = mmap(all + PAGE, size, access, MAP_SHARED | MAP_FIXED, file, 0);
  REQUIRE(inner == all + PAGE);
  return inner;
}

static region fenced(size_t size, int access) {
  size = (size + PAGE - 1) / PAGE * PAGE;
  int file = memfd_create("fenced", 0);
  REQUIRE(file >= 0 && ftruncate(file, (off_t)size) == 0);
  region made = {map_fenced(file, size, access), map_fenced(file, size, PROT_READ | PROT_WRITE), size};
  close(file);
  return made;
}

region fenced_for_reading(size_t size) { return fenced(size, PROT_READ); }

region fenced_for_writing(size_t size) { return fenced(size, PROT_READ | PROT_WRITE); }

size_t place_at(const region *in, size_t bytes, side at) {
  REQUIRE(bytes <= in->size);
  return at == AT_START ? 0 : in->size - bytes;
}
