/* The same work in C, on samples whose place, order and calibration are known. Nothing is checked, but by the
   walk and the reader of a line. */
#include <stddef.h>
#include <stdint.h>

/* The bits of the values of n samples, eight bytes each, the high byte first. Answers how many stand at the rail. */
uint32_t same_fill_bytes(const uint8_t *samples, size_t n, float gain, float offset, uint8_t *out);
uint32_t same_fill_words_low(const uint8_t *samples, size_t n, float gain, float offset, uint8_t *out);
uint32_t same_fill_words_high(const uint8_t *samples, size_t n, float gain, float offset, uint8_t *out);

/* The values themselves; likewise. */
uint32_t same_values_bytes(const uint8_t *samples, size_t n, float gain, float offset, double *out);
uint32_t same_values_words_low(const uint8_t *samples, size_t n, float gain, float offset, double *out);
uint32_t same_values_words_high(const uint8_t *samples, size_t n, float gain, float offset, double *out);

/* The first of n samples whose value is at or above a level, or n: value by value. */
size_t same_crossing_bytes(const uint8_t *samples, size_t n, float gain, float offset, double level);
size_t same_crossing_words_low(const uint8_t *samples, size_t n, float gain, float offset, double level);
size_t same_crossing_words_high(const uint8_t *samples, size_t n, float gain, float offset, double level);

/*
 * n samples in so many columns: the least and the greatest of each, eight bytes each, the high byte first, and of all samples
 * the sum, how many stand at the rail and the first that is the greatest. One pass, in pieces of which a sum fits 32 bits.
 */
struct same_strip {
    int64_t sum;
    uint32_t marks;
    size_t peak;
};
struct same_strip same_strip_bytes(const uint8_t *samples, size_t n, size_t columns, uint8_t *least, uint8_t *greatest);
struct same_strip same_strip_words_low(const uint8_t *samples, size_t n, size_t columns, uint8_t *least, uint8_t *greatest);
struct same_strip same_strip_words_high(const uint8_t *samples, size_t n, size_t columns, uint8_t *least, uint8_t *greatest);

/* Every step-th of n words, as it is or with its two bytes changed over; and n bytes as they are. */
void same_keep(const uint8_t *samples, size_t n, size_t step, uint8_t *out);
void same_turn(const uint8_t *samples, size_t n, size_t step, uint8_t *out);
void same_copy(const uint8_t *samples, size_t n, uint8_t *out);

/* The high byte of each of n words. */
void same_narrow_low(const uint8_t *samples, size_t n, uint8_t *out);
void same_narrow_high(const uint8_t *samples, size_t n, uint8_t *out);

/* The four numbers of a setup line, or 0 where it is none; and the normal line of a setup, whose length is answered. */
int same_setup_read(const uint8_t *line, size_t length, uint32_t *setup);
size_t same_setup_write(const uint32_t *setup, uint8_t *out);

/* n parts of so many bytes, one by one. */
void same_copies(const uint8_t *parts, size_t length, size_t n, uint8_t *out);

/*
 * A walk: where a segment's samples stand, and how they are scaled. A step tests its place against the block, as the
 * walk does, since anyone may have made it; then it answers the value, the time and the mark and moves on.
 */
struct same_place {
    size_t samples;
    uint32_t k, points, order, kind, first, sparsing;
    float gain, offset, interval;
    double shift;
};

/* The values of the points that a walk hands out until it is done. Answers how many have the mark. */
uint32_t same_walk(const uint8_t *block, size_t length, struct same_place place, double *out);
