/* nib_merge's promises. */
#ifndef MERGE_H
#define MERGE_H

#include "output.h"

/* The lengths of what is lent beside the texts. */
typedef struct {
  size_t target_words, patch_words, out_len;
} lengths;

/* Merges, and checks answer, tables and output. The patch's reading is that of its own call. */
result check_merge(const reading *target, const reading *patch, lengths lent, manner how);

/* Checks the laws of a merge of accepted texts: the length asked for is exact, the result is canonical, merging the
 * patch again changes nothing, and a patch that isn't an object is the result. */
void check_laws(const reading *target, const reading *patch, manner how);

#endif
