/*
 * Writes the sample file of README to standard output: three shutdowns of a half bridge, sixteen words each, the low
 * byte first, with trigger times and a text for every field that has one. The first overshoots, beyond the rail.
 */
#include "blocks.h"

#include <stdlib.h>

enum { TEXT = 24, SEGMENTS = 3, POINTS = 16 };
static const char user_text[TEXT + 1] = "half bridge, shutdown x3";

static void put_text(uint8_t *block, size_t at, const char *text)
{
    memcpy(block + HEADER + at, text, strlen(text));
}

/* The trigger on 14 March 2026 at 09:26:53.589793. */
static void put_triggered(uint8_t *block)
{
    static const uint8_t minutes_hours_days_months[4] = {26, 9, 14, 3};
    put_double(block, 1, 296, 53.589793);
    memcpy(block + HEADER + 304, minutes_hours_days_months, 4);
    put(block, 1, 308, 2, 2026);
}

/* A bus voltage that falls from 400 V, faster from one shutdown to the next. The first overshoots by 30 V for two points,
   and the samples end before that. */
static int32_t sample(int32_t n, int32_t k)
{
    int32_t fall = k < 4 ? 0 : (k - 4) * (1200 + 400 * n), overshoot = n == 0 && (k == 4 || k == 5) ? 2400 : 0;
    int32_t level = 32000 - (fall < 30000 ? fall : 30000) + 74 * (k % 3) + overshoot;
    return level < INT16_MAX ? level : INT16_MAX;
}

static void put_samples(uint8_t *block, size_t at)
{
    for (int32_t n = 0; n < SEGMENTS; n++)
        for (int32_t k = 0; k < POINTS; k++)
            put(block, 1, at + 2 * (size_t)(n * POINTS + k), 2, (uint64_t)sample(n, k));
}

int main(void)
{
    struct shape s = {1, 1, SEGMENTS, POINTS, 1};
    size_t length = block_bytes(s) + TEXT;
    uint8_t *block = calloc(length, 1);
    if (!block)
        return 3;
    put_block(block, s);
    char header[HEADER + 21];
    snprintf(header, sizeof header, "#9%09zu", length - HEADER);
    memcpy(block, header, HEADER);
    put(block, 1, 40, 4, TEXT);
    put_text(block, 76, "LECROYWR64MXI-A");
    put(block, 1, 92, 4, 21834);
    put_text(block, 96, "BUS");
    put(block, 1, 128, 4, SEGMENTS * POINTS - 1);
    put_float(block, 1, 156, 0.0125f);
    put_float(block, 1, 160, 0.0f);
    put_float(block, 1, 164, 32767.0f);
    put_float(block, 1, 168, -32768.0f);
    put_float(block, 1, 176, 2e-7f);
    put_double(block, 1, 180, -8e-7);
    put_text(block, 196, "V");
    put_text(block, 244, "S");
    put_triggered(block);
    put(block, 1, 326, 2, 2);
    put_float(block, 1, 328, 100.0f);
    put(block, 1, 334, 2, 1);
    put(block, 1, 344, 2, 1);
    put_text(block, DESCRIPTOR_BYTES, user_text);
    for (size_t n = 0; n < SEGMENTS; n++) {
        put_double(block, 1, DESCRIPTOR_BYTES + TEXT + 16 * n, 0.0125 * (double)n);
        put_double(block, 1, DESCRIPTOR_BYTES + TEXT + 16 * n + 8, -8e-7 - 1e-9 * (double)n);
    }
    put_samples(block, DESCRIPTOR_BYTES + TEXT + 16 * SEGMENTS);
    return fwrite(block, 1, length, stdout) == length && fflush(stdout) == 0 ? 0 : 3;
}
