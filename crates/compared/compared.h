/* The calls of the crate compared: for the comparison of tests/, and not in the library. Each slice is
 * a pointer and how many elements it has. */

#ifndef COMPARED_H
#define COMPARED_H

#include <stddef.h>
#include <stdint.h>

/* The values, the times and the marks that a walk hands out until it is done; 0 or a refusal's number. */
uint32_t compared_steps(const uint8_t *block, size_t length, uint32_t array, uint32_t segment, double *values,
                        size_t values_room, double *times, size_t times_room, uint8_t *marks, size_t marks_room);

/* The step of a walk after the first k: 2 for a point, its value and its time where out has room for both, and its mark
 * where there is room for it; or 0 for none. */
size_t compared_step(const uint8_t *block, size_t length, uint32_t array, uint32_t segment, uint32_t k, double *out,
                     size_t room, uint8_t *mark, size_t mark_room);

/* The user text and the label: each returns how long it is, and writes it where out has room for it. */
size_t compared_user_text(const uint8_t *block, size_t length, uint8_t *out, size_t room);
size_t compared_label(const uint8_t *block, size_t length, const uint8_t *fallback, size_t fallback_length,
                      uint8_t *out, size_t room);

#endif
