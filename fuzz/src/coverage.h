/* Coverage of the library's machine code, which no compiler instruments: each instruction holds a trap until it is
 * first executed. What is found so is shown to libFuzzer as counters. */
#ifndef COVERAGE_H
#define COVERAGE_H

#include <stdint.h>

/* Sets the traps, as listed by the file that stands beside the program with the ending .instructions. */
void set_traps(void);

/* Shows libFuzzer that the input has this feature; features are told apart by their hash. */
void show_feature(uint32_t feature);

#endif
