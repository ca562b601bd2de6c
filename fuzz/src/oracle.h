/* Answers, records and outputs compared with those of the tests' reference, which is written from docs/01-scope.md. */
#ifndef ORACLE_H
#define ORACLE_H

#include "input.h"
#include "output.h"

void compare_with_oracle(const input *in, const reading *target, const result *written, nib_answer found,
                         const result *merged);

#endif
