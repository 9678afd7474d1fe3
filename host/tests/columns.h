/* A strip, held to its definition over the samples of the segment, read one by one. */
#ifndef COLUMNS_H
#define COLUMNS_H

#include "random.h"

/* The samples of a segment, which the caller frees. */
struct samples {
    int64_t *of;
    size_t points;
    int64_t low, high; /* the lowest and the highest number of their type */
    double gain, offset;
};

static inline struct samples samples_of(struct slice b, uint32_t array, uint32_t segment)
{
    struct holds h = look(b);
    uint64_t at = answers[TESSARQUIN_LAYOUT_START] + answers[TESSARQUIN_LAYOUT_STARTS + TESSARQUIN_PART_ARRAY_1 + array - 1];
    const uint8_t *head = b.bytes + answers[TESSARQUIN_LAYOUT_START];
    uint64_t order = head[TESSARQUIN_AT_COMM_ORDER], words = (uint64_t)tessarquin_field_word(head + TESSARQUIN_AT_COMM_TYPE, order);
    struct samples s = {malloc(h.points * sizeof *s.of), h.points, words ? INT16_MIN : INT8_MIN, words ? INT16_MAX : INT8_MAX,
                        tessarquin_field_float(head + TESSARQUIN_AT_VERTICAL_GAIN, order), tessarquin_field_float(head + TESSARQUIN_AT_VERTICAL_OFFSET, order)};
    check(s.of != NULL, "no memory");
    const uint8_t *from = b.bytes + at + (size_t)(segment - 1) * h.points * (words + 1);
    for (size_t k = 0; k < h.points; k++)
        s.of[k] = words ? tessarquin_field_word(from + 2 * k, order) : (int8_t)from[k];
    return s;
}

/* The numbers of the segment as a whole, in `answers`. */
static inline void judge_whole(struct samples s)
{
    int64_t sum = 0;
    uint64_t marks = 0, peak = 0;
    for (size_t k = 0; k < s.points; k++) {
        sum += s.of[k];
        marks += s.of[k] == s.low || s.of[k] == s.high;
        peak = s.of[k] > s.of[peak] ? k : peak;
    }
    check((int64_t)answers[TESSARQUIN_STRIP_SUM] == sum, "another sum");
    check(answers[TESSARQUIN_STRIP_MARKS] == marks, "another number at the rail");
    check(answers[TESSARQUIN_STRIP_PEAK] == peak, "another point has the greatest sample first");
}

static inline void judge_columns(struct samples s, uint64_t columns, const uint8_t *least, const uint8_t *greatest)
{
    for (uint64_t q = 0; q < columns; q++) {
        size_t from = (size_t)(q * s.points / columns), to = (size_t)((q + 1) * s.points / columns);
        int64_t low = s.of[from], high = s.of[from];
        for (size_t k = from; k < to; k++) {
            low = s.of[k] < low ? s.of[k] : low;
            high = s.of[k] > high ? s.of[k] : high;
        }
        check(tessarquin_signed(least, q) == low, "another least sample of a column");
        check(tessarquin_signed(greatest, q) == high, "another greatest sample of a column");
    }
}

/* In exactly its room, or in eight bytes more, which keep what they held. */
static inline void judge(struct slice b, uint32_t array, uint32_t segment, struct samples s, uint32_t columns)
{
    size_t room = TESSARQUIN_COLUMN_BYTES(columns), more = 8 * (size_t)below(2);
    struct slice least = lend(room + more), greatest = lend(room + more);
    check(strip(b, array, segment, columns, least, greatest, TESSARQUIN_STRIP_BYTES + more) == 0, "it is refused");
    judge_whole(s);
    judge_columns(s, columns, least.bytes, greatest.bytes);
    give_back(least, room);
    give_back(greatest, room);
}

/* The values that the header says a host gets from the samples have the bits that a fill answers. */
static inline void judge_values(struct slice b, uint32_t array, uint32_t segment, struct samples s)
{
    struct slice answer = lend(TESSARQUIN_FILL_BYTES(s.points));
    check(tessarquin_fill(b.bytes, b.length, array, segment, answer.bytes, answer.length) == 0, "a fill is refused");
    for (size_t k = 0; k < s.points; k++) {
        double value = s.gain * (double)s.of[k] - s.offset, answered = tessarquin_double(answer.bytes, k);
        check(memcmp(&value, &answered, sizeof value) == 0, "the value of a sample has other bits");
    }
    unmap(answer);
}

/* The second of three segments has samples at random, many of them alike and some at the rail; those beside it stand at
   the rail and do not count. */
static inline struct slice make_samples(int order, uint32_t type, uint32_t m)
{
    struct slice b = make(order, type, 3, m, 0);
    uint32_t few = 1 + below(5), width = type + 1;
    for (size_t i = 0; i < 3 * (size_t)m; i++) {
        int64_t low = type ? INT16_MIN : INT8_MIN, sample = i < m || i >= 2 * (size_t)m ? (i % 2 ? low : -low - 1)
                    : once_in(20) ? low + (int64_t)below(2) : once_in(20) ? -low - 1 - (int64_t)below(2) : (int64_t)below(few << 8 * type) - few;
        put(b.bytes, order, DESCRIPTOR_BYTES + i * width, width, (uint64_t)sample);
    }
    return b;
}

#endif
