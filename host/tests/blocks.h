/*
 * Blocks for the tests and the counts: segments of bytes or words, with trigger times or without. Gain 0.5, offset
 * 0.25, interval 0.25, horizontal offset -1; the n-th segment's TRIGGER_TIME is 100 n and its TRIGGER_OFFSET n - 1; the
 * bytes of the samples are FD, 04, .., each 7 more than the one before.
 */
#ifndef BLOCKS_H
#define BLOCKS_H

#include <stdint.h>
#include <stdio.h>
#include <string.h>

struct shape {
    int order;     /* COMM_ORDER: 0 high byte first, 1 low byte first */
    uint32_t type; /* COMM_TYPE: 0 bytes, 1 words */
    uint32_t segments, points;
    int trigger;
};

/* The header of these blocks is `#9`. */
enum { HEADER = 11, DESCRIPTOR_BYTES = 346 };

static inline size_t trigger_bytes(struct shape s) { return s.trigger ? 16 * (size_t)s.segments : 0; }
static inline size_t sample_bytes(struct shape s) { return (size_t)s.segments * s.points * (s.type + 1); }
static inline size_t samples_at(struct shape s) { return HEADER + DESCRIPTOR_BYTES + trigger_bytes(s); }
static inline size_t block_bytes(struct shape s) { return samples_at(s) + sample_bytes(s); }

/* A number of so many bytes, at its place in the payload. */
static inline void put(uint8_t *block, int order, size_t at, size_t width, uint64_t n)
{
    for (size_t i = 0; i < width; i++)
        block[HEADER + at + (order ? i : width - 1 - i)] = (uint8_t)(n >> (8 * i));
}

static inline void put_float(uint8_t *block, int order, size_t at, float x)
{
    uint32_t bits;
    memcpy(&bits, &x, sizeof bits);
    put(block, order, at, sizeof bits, bits);
}

static inline void put_double(uint8_t *block, int order, size_t at, double x)
{
    uint64_t bits;
    memcpy(&bits, &x, sizeof bits);
    put(block, order, at, sizeof bits, bits);
}

/* Writes the block of this shape to block_bytes(s) bytes. */
static inline void put_block(uint8_t *block, struct shape s)
{
    char header[HEADER + 21];
    snprintf(header, sizeof header, "#9%09zu", block_bytes(s) - HEADER);
    memset(block, 0, block_bytes(s));
    memcpy(block, header, HEADER);
    memcpy(block + HEADER, "WAVEDESC", 8);
    memcpy(block + HEADER + 16, "LECROY_2_3", 10);
    put(block, s.order, 32, 2, s.type);
    block[HEADER + 34] = (uint8_t)s.order;
    put(block, s.order, 36, 4, DESCRIPTOR_BYTES);
    put(block, s.order, 48, 4, trigger_bytes(s));
    put(block, s.order, 60, 4, sample_bytes(s));
    put(block, s.order, 116, 4, (uint64_t)s.segments * s.points);
    put(block, s.order, 144, 4, s.segments);
    put_float(block, s.order, 156, 0.5f);
    put_float(block, s.order, 160, 0.25f);
    put_float(block, s.order, 176, 0.25f);
    put_double(block, s.order, 180, -1.0);
    for (size_t n = 0; n < trigger_bytes(s) / 16; n++) {
        put_double(block, s.order, DESCRIPTOR_BYTES + 16 * n, 100.0 * (double)(n + 1));
        put_double(block, s.order, DESCRIPTOR_BYTES + 16 * n + 8, (double)n);
    }
    for (size_t i = 0; i < sample_bytes(s); i++)
        block[samples_at(s) + i] = (uint8_t)(0xFD + 7 * i);
}

#endif
