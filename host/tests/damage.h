/* Damage to a block of two segments of three points with trigger times, each with the number by which it is refused. */
#ifndef DAMAGE_H
#define DAMAGE_H

#include "blocks.h"
#include "tessarquin.h"

static const struct damage {
    size_t at, width; /* in the payload */
    uint64_t n;
    uint32_t refusal;
} damages[] = {
    {0, 1, 'w', TESSARQUIN_NAME}, {26, 1, '0', TESSARQUIN_NAME}, {34, 1, 2, TESSARQUIN_FORM}, {32, 2, 2, TESSARQUIN_FORM},
    {36, 4, 345, TESSARQUIN_TILE}, {40, 4, 4, TESSARQUIN_TILE}, {116, 4, 7, TESSARQUIN_COUNT}, {140, 4, 1, TESSARQUIN_COUNT},
    {132, 4, 0x80000000, TESSARQUIN_INDEX}, {136, 4, 268435456, TESSARQUIN_INDEX}, {156, 4, 0x7F800000, TESSARQUIN_FLOAT},
    {156, 4, 0xFFC00000, TESSARQUIN_FLOAT}, {160, 4, 0xFF800000, TESSARQUIN_FLOAT}, {180, 8, 0x7FF0000000000000, TESSARQUIN_FLOAT},
    {DESCRIPTOR_BYTES + 24, 8, 0x7FF8000000000000, TESSARQUIN_FLOAT}, {DESCRIPTOR_BYTES + 16, 8, 0x3FF0000000000000, TESSARQUIN_TIME}};
enum { DAMAGES = sizeof damages / sizeof *damages };

#endif
