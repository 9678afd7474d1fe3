/* What the files that join share. */
#ifndef JOIN_H
#define JOIN_H

#include "host.h"

/* ---- unfit.c, differ.c: why files cannot be joined */

/* A line for each thing that stands in the way of a join that was refused. The files are by segment index, and are the
   first of so many that were given. Answers how many lines that were. */
size_t tell_unfit(const struct opened *parts, size_t count, size_t given);

/* Whether two blocks have another descriptor, but for SEGMENT_INDEX, or another user text. */
int differ(const struct opened *one, const struct opened *other);

/* The fields of `one` that are others than those of `other`, both as they are there, and the user text. */
void found_different(FILE *to, const struct opened *one, const struct opened *other);

#endif
