#define _GNU_SOURCE
#include "coverage.h"

#include <signal.h>
#include <string.h>
#include <sys/mman.h>
#include <ucontext.h>
#include <unistd.h>

#include "nibrocate.h"
#include "require.h"

enum { MOST_INSTRUCTIONS = 16384, MOST_FEATURES = 32768, TRAP = 0xCC, PAGE = 4096, PATH = 4096 };

/* Read and set to 0 by libFuzzer around each run: one counter for each instruction, then one for each feature. */
__attribute__((section("__libfuzzer_extra_counters"), used))
static volatile uint8_t counters[MOST_INSTRUCTIONS + MOST_FEATURES];

static uint8_t *instructions[MOST_INSTRUCTIONS], originals[MOST_INSTRUCTIONS];
static volatile int executed[MOST_INSTRUCTIONS];
static int count, executed_count;

void show_feature(uint32_t feature) {
  feature *= 2654435761u;
  counters[MOST_INSTRUCTIONS + (feature >> 16) % MOST_FEATURES] = 1;
}

/* The list rises, so that an instruction is found by halving. */
static int number_of(const uint8_t *address) {
  int low = 0, high = count;
  while (low < high) {
    int middle = (low + high) / 2;
    if (instructions[middle] < address) low = middle + 1;
    else high = middle;
  }
  return low < count && instructions[low] == address ? low : -1;
}

/* Takes a trap away, counts its instruction, and goes back to execute it. */
static void trapped(int signal, siginfo_t *info, void *context) {
  (void)signal, (void)info;
  greg_t *next = &((ucontext_t *)context)->uc_mcontext.gregs[REG_RIP];
  int number = number_of((uint8_t *)*next - 1);
  if (number < 0) abort();
  *instructions[number] = originals[number];
  *next -= 1;
  executed_count += !executed[number];
  executed[number] = 1;
  counters[number] = 1;
}

/* The file of this ending beside the program. */
static FILE *open_beside(const char *ending, const char *mode) {
  char path[PATH + 32];
  ssize_t length = readlink("/proc/self/exe", path, PATH);
  REQUIRE(length > 0 && length < PATH);
  strcpy(path + length, ending);
  return fopen(path, mode);
}

/* Tells at the end what was executed, and lists what was not, as offsets from nib_read. */
static void tell(void) {
  fprintf(stderr, "library: %d of %d instructions executed\n", executed_count, count);
  FILE *missed = open_beside(".missed", "w");
  if (!missed) return;
  for (int number = 0; number < count; number++)
    if (!executed[number]) fprintf(missed, "%td\n", instructions[number] - (uint8_t *)nib_read);
  fclose(missed);
}

static void make_writable(void) {
  uintptr_t first = (uintptr_t)instructions[0] / PAGE * PAGE, last = (uintptr_t)instructions[count - 1] + PAGE;
  REQUIRE(mprotect((void *)first, last / PAGE * PAGE - first, PROT_READ | PROT_WRITE | PROT_EXEC) == 0);
}

void set_traps(void) {
  FILE *list = open_beside(".instructions", "r");
  REQUIRE(list != NULL);
  long offset;
  while (count < MOST_INSTRUCTIONS && fscanf(list, "%ld", &offset) == 1)
    instructions[count++] = (uint8_t *)nib_read + offset;
  REQUIRE(count > 0 && count < MOST_INSTRUCTIONS);
  fclose(list);
  make_writable();
  struct sigaction action = {.sa_sigaction = trapped, .sa_flags = SA_SIGINFO};
  REQUIRE(sigaction(SIGTRAP, &action, NULL) == 0);
  for (int number = 0; number < count; number++) {
    originals[number] = *instructions[number];
    *instructions[number] = TRAP;
  }
  atexit(tell);
}
