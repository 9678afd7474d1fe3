/* The calls of the crate measured: for the counts of bench/ and the comparison of tests/, and not in
 * the library. Each slice is a pointer and how many elements it has. */

#ifndef MEASURED_H
#define MEASURED_H

#include <stddef.h>
#include <stdint.h>

/* The values of a segment, by the fill, and by the walk, point by point. The answer has in its high 32 bits 0 or a
 * refusal's number, and in its low 32 bits how many samples stand at the rail. That walk's times are not stored, so the
 * compiler leaves them out. */
uint64_t measured_fill(const uint8_t *block, size_t length, uint32_t array, uint32_t segment, double *out, size_t room);
uint64_t measured_walk(const uint8_t *block, size_t length, uint32_t array, uint32_t segment, double *out, size_t room);

#endif
