#include "same.h"

#include <math.h>
#include <string.h>

static uint16_t word(const uint8_t *at)
{
    uint16_t n;
    memcpy(&n, at, sizeof n);
    return n;
}

static void put_word(uint8_t *at, uint16_t n)
{
    memcpy(at, &n, sizeof n);
}

/* The bits of x, the high byte first, on a machine that has the low byte first. */
static void put_double(uint8_t *at, double x)
{
    uint64_t bits;
    memcpy(&bits, &x, sizeof bits);
    bits = __builtin_bswap64(bits);
    memcpy(at, &bits, sizeof bits);
}

/* Whether a sample stands at the rail. */
static uint32_t byte_mark(int8_t z)
{
    return (z == INT8_MIN) | (z == INT8_MAX);
}

static uint32_t word_mark(int16_t z)
{
    return (z == INT16_MIN) | (z == INT16_MAX);
}

uint32_t same_fill_bytes(const uint8_t *restrict samples, size_t n, float gain, float offset, uint8_t *restrict out)
{
    uint32_t marks = 0;
    for (size_t k = 0; k < n; k++) {
        int8_t z = (int8_t)samples[k];
        marks += byte_mark(z);
        put_double(out + 8 * k, (double)gain * z - (double)offset);
    }
    return marks;
}

uint32_t same_fill_words_low(const uint8_t *restrict samples, size_t n, float gain, float offset, uint8_t *restrict out)
{
    uint32_t marks = 0;
    for (size_t k = 0; k < n; k++) {
        int16_t z = (int16_t)word(samples + 2 * k);
        marks += word_mark(z);
        put_double(out + 8 * k, (double)gain * z - (double)offset);
    }
    return marks;
}

uint32_t same_fill_words_high(const uint8_t *restrict samples, size_t n, float gain, float offset, uint8_t *restrict out)
{
    uint32_t marks = 0;
    for (size_t k = 0; k < n; k++) {
        int16_t z = (int16_t)__builtin_bswap16(word(samples + 2 * k));
        marks += word_mark(z);
        put_double(out + 8 * k, (double)gain * z - (double)offset);
    }
    return marks;
}

uint32_t same_values_bytes(const uint8_t *restrict samples, size_t n, float gain, float offset, double *restrict out)
{
    uint32_t marks = 0;
    for (size_t k = 0; k < n; k++) {
        int8_t z = (int8_t)samples[k];
        marks += byte_mark(z);
        out[k] = (double)gain * z - (double)offset;
    }
    return marks;
}

uint32_t same_values_words_low(const uint8_t *restrict samples, size_t n, float gain, float offset, double *restrict out)
{
    uint32_t marks = 0;
    for (size_t k = 0; k < n; k++) {
        int16_t z = (int16_t)word(samples + 2 * k);
        marks += word_mark(z);
        out[k] = (double)gain * z - (double)offset;
    }
    return marks;
}

uint32_t same_values_words_high(const uint8_t *restrict samples, size_t n, float gain, float offset, double *restrict out)
{
    uint32_t marks = 0;
    for (size_t k = 0; k < n; k++) {
        int16_t z = (int16_t)__builtin_bswap16(word(samples + 2 * k));
        marks += word_mark(z);
        out[k] = (double)gain * z - (double)offset;
    }
    return marks;
}

size_t same_crossing_bytes(const uint8_t *samples, size_t n, float gain, float offset, double level)
{
    size_t k = 0;
    while (k < n && !((double)gain * (int8_t)samples[k] - (double)offset >= level))
        k++;
    return k;
}

size_t same_crossing_words_low(const uint8_t *samples, size_t n, float gain, float offset, double level)
{
    size_t k = 0;
    while (k < n && !((double)gain * (int16_t)word(samples + 2 * k) - (double)offset >= level))
        k++;
    return k;
}

size_t same_crossing_words_high(const uint8_t *samples, size_t n, float gain, float offset, double level)
{
    size_t k = 0;
    while (k < n && !((double)gain * (int16_t)__builtin_bswap16(word(samples + 2 * k)) - (double)offset >= level))
        k++;
    return k;
}

/* ---- strips, written once and compiled for each type and order */

#define FOR_EACH static inline __attribute__((always_inline))

FOR_EACH int16_t sample_at(const uint8_t *samples, size_t k, size_t width, int turned)
{
    if (width == 1)
        return (int8_t)samples[k];
    uint16_t n = word(samples + 2 * k);
    return (int16_t)(turned ? __builtin_bswap16(n) : n);
}

static void put_signed(uint8_t *at, int64_t z)
{
    uint64_t n = __builtin_bswap64((uint64_t)z);
    memcpy(at, &n, sizeof n);
}

/* The points from `from` up to `to`, at most 4,096: what is more of the whole, and the least and the greatest of them. */
FOR_EACH void piece(const uint8_t *samples, size_t from, size_t to, size_t width, int turned, struct same_strip *all, int16_t *top,
                    int16_t *least, int16_t *greatest)
{
    int16_t low = INT16_MAX, high = INT16_MIN;
    int32_t sum = 0;
    uint32_t marks = 0;
    for (size_t k = from; k < to; k++) {
        int16_t z = sample_at(samples, k, width, turned);
        low = z < low ? z : low;
        high = z > high ? z : high;
        sum += z;
        marks += width == 1 ? byte_mark((int8_t)z) : word_mark(z);
    }
    all->sum += sum;
    all->marks += marks;
    if (high > *top || from == 0) {
        *top = high;
        for (all->peak = from; sample_at(samples, all->peak, width, turned) != high; all->peak++)
            ;
    }
    *least = low < *least ? low : *least;
    *greatest = high > *greatest ? high : *greatest;
}

FOR_EACH struct same_strip strip(const uint8_t *samples, size_t n, size_t columns, size_t width, int turned, uint8_t *least,
                                 uint8_t *greatest)
{
    enum { PIECE = 4096 };
    struct same_strip all = {0, 0, 0};
    int16_t top = INT16_MIN;
    size_t from = 0;
    for (size_t q = 0; q < columns; q++) {
        size_t end = (size_t)((uint64_t)(q + 1) * n / columns);
        int16_t low = INT16_MAX, high = INT16_MIN;
        for (; end - from > PIECE; from += PIECE)
            piece(samples, from, from + PIECE, width, turned, &all, &top, &low, &high);
        piece(samples, from, end, width, turned, &all, &top, &low, &high);
        put_signed(least + 8 * q, low);
        put_signed(greatest + 8 * q, high);
        from = end;
    }
    return all;
}

struct same_strip same_strip_bytes(const uint8_t *samples, size_t n, size_t columns, uint8_t *least, uint8_t *greatest)
{
    return strip(samples, n, columns, 1, 0, least, greatest);
}

struct same_strip same_strip_words_low(const uint8_t *samples, size_t n, size_t columns, uint8_t *least, uint8_t *greatest)
{
    return strip(samples, n, columns, 2, 0, least, greatest);
}

struct same_strip same_strip_words_high(const uint8_t *samples, size_t n, size_t columns, uint8_t *least, uint8_t *greatest)
{
    return strip(samples, n, columns, 2, 1, least, greatest);
}

void same_keep(const uint8_t *restrict samples, size_t n, size_t step, uint8_t *restrict out)
{
    for (size_t k = 0; k < n; k += step, out += 2)
        put_word(out, word(samples + 2 * k));
}

void same_turn(const uint8_t *restrict samples, size_t n, size_t step, uint8_t *restrict out)
{
    if (step == 1)
        for (size_t k = 0; k < n; k++)
            put_word(out + 2 * k, __builtin_bswap16(word(samples + 2 * k)));
    else
        for (size_t k = 0; k < n; k += step, out += 2)
            put_word(out, __builtin_bswap16(word(samples + 2 * k)));
}

void same_copy(const uint8_t *samples, size_t n, uint8_t *out)
{
    memcpy(out, samples, n);
}

void same_narrow_low(const uint8_t *restrict samples, size_t n, uint8_t *restrict out)
{
    for (size_t k = 0; k < n; k++)
        out[k] = samples[2 * k + 1];
}

void same_narrow_high(const uint8_t *restrict samples, size_t n, uint8_t *restrict out)
{
    for (size_t k = 0; k < n; k++)
        out[k] = samples[2 * k];
}

static const char keys[4][2] = {"SP", "NP", "FP", "SN"};

/* Which key stands at a place, or 4. */
static size_t key_at(const uint8_t *at)
{
    size_t k = 0;
    while (k < 4 && memcmp(at, keys[k], 2) != 0)
        k++;
    return k;
}

/* Behind the word and its blank, or 0. */
static size_t word_end(const uint8_t *line, size_t length)
{
    if (length >= 5 && memcmp(line, "WFSU ", 5) == 0)
        return 5;
    return length >= 15 && memcmp(line, "WAVEFORM_SETUP ", 15) == 0 ? 15 : 0;
}

int same_setup_read(const uint8_t *line, size_t length, uint32_t *setup)
{
    int taken[4] = {0};
    size_t at = word_end(line, length);
    memset(setup, 0, 4 * sizeof *setup);
    for (int more = at != 0; more; at++) {
        uint64_t value = 0;
        size_t k = length - at < 3 ? 4 : key_at(line + at), digits = at += 3;
        if (k == 4 || taken[k] || line[at - 1] != ',')
            return 0;
        for (; at < length && at - digits < 11 && line[at] >= '0' && line[at] <= '9'; at++)
            value = 10 * value + (line[at] - '0');
        if (at == digits || at - digits > 10 || value > UINT32_MAX)
            return 0;
        taken[k] = 1;
        setup[k] = (uint32_t)value;
        more = at < length;
        if (more && line[at] != ',')
            return 0;
    }
    return at > length;
}

size_t same_setup_write(const uint32_t *setup, uint8_t *out)
{
    uint8_t *to = out + 5;
    memcpy(out, "WFSU ", 5);
    for (size_t k = 0; k < 4; k++) {
        uint8_t digits[10], *first = digits + 10;
        uint32_t rest = setup[k];
        do
            *--first = (uint8_t)('0' + rest % 10);
        while (rest /= 10);
        memcpy(to, keys[k], 2);
        to[2] = ',';
        memcpy(to + 3, first, (size_t)(digits + 10 - first));
        to += 3 + (digits + 10 - first);
        *to++ = ',';
    }
    return (size_t)(to - 1 - out);
}

void same_copies(const uint8_t *parts, size_t length, size_t n, uint8_t *out)
{
    for (size_t i = 0; i < n; i++)
        memcpy(out + i * length, parts + i * length, length);
}

static int16_t sample(const uint8_t *at, uint32_t kind, uint32_t order)
{
    if (kind == 0)
        return (int8_t)*at;
    return (int16_t)(order == 0 ? __builtin_bswap16(word(at)) : word(at));
}

static int step(const uint8_t *block, size_t length, struct same_place *p, double *value, double *time, uint32_t *mark)
{
    size_t at = p->samples + (size_t)p->k * (p->kind + 1);
    uint32_t i = p->first + p->sparsing * p->k;
    if (p->kind > 1 || p->k >= p->points || at + p->kind + 1 > length || i >= 1u << 28)
        return 0;
    if (!isfinite(p->gain) || !isfinite(p->offset) || !isfinite(p->interval) || !isfinite(p->shift))
        return 0;
    int16_t z = sample(block + at, p->kind, p->order);
    *mark = p->kind == 0 ? (z == INT8_MIN) | (z == INT8_MAX) : (z == INT16_MIN) | (z == INT16_MAX);
    *value = (double)p->gain * z - (double)p->offset;
    *time = (double)p->interval * i + p->shift;
    p->k++;
    return 1;
}

uint32_t same_walk(const uint8_t *restrict block, size_t length, struct same_place place, double *restrict out)
{
    double time;
    uint32_t mark, marks = 0;
    while (step(block, length, &place, out, &time, &mark)) {
        marks += mark;
        out++;
    }
    return marks;
}
