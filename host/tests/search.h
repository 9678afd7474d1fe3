/* A crossing, held to a plain search through the values that a fill answers. */
#ifndef SEARCH_H
#define SEARCH_H

#include "random.h"

#include <float.h>

/* The values of a segment, as a fill answers them, which the caller frees. */
struct values {
    double *of;
    size_t points;
};

static inline struct values values_of(struct slice b, uint32_t array, uint32_t segment, size_t points)
{
    struct slice answer = lend(TESSARQUIN_FILL_BYTES(points));
    struct values values = {malloc(points * sizeof *values.of), points};
    check(values.of && tessarquin_fill(b.bytes, b.length, array, segment, answer.bytes, answer.length) == 0, "a fill is refused");
    tessarquin_doubles(answer.bytes, points, values.of);
    unmap(answer);
    return values;
}

/* The crossing of this level, in exactly its room, is point k, or none where k is the number of points. */
static inline void is_at(struct slice b, uint32_t array, uint32_t segment, double level, size_t k, size_t points)
{
    check(crossing(b, array, segment, level, 16) == 0, "it is refused");
    check(answers[TESSARQUIN_CROSSING_FOUND] == (k < points), k < points ? "it is not found" : "it is found where there is none");
    check(answers[TESSARQUIN_CROSSING_POINT] == (k < points ? k : 0), "another point");
}

static inline void search(struct slice b, uint32_t array, uint32_t segment, struct values v, double level)
{
    size_t k = 0;
    while (k < v.points && !(v.of[k] >= level))
        k++;
    is_at(b, array, segment, level, k, v.points);
}

static inline double with_bits(uint64_t bits)
{
    double x;
    memcpy(&x, &bits, sizeof x);
    return x;
}

/* The least double above x, which is below the greatest. */
static inline double next_above(double x)
{
    uint64_t bits;
    memcpy(&bits, &x, sizeof bits);
    return x == 0 ? 0x1p-1074 : with_bits(x > 0 ? bits + 1 : bits - 1);
}

/* A level, and the doubles next to it. */
static inline void search_about(struct slice b, uint32_t array, uint32_t segment, struct values v, double level)
{
    search(b, array, segment, v, level);
    search(b, array, segment, v, next_above(level));
    search(b, array, segment, v, -next_above(-level));
}

static const double sizes[] = {
    0.0, -0.0, 0x1p-1074, -0x1p-1074, DBL_MIN, -DBL_MIN, 0x1p-149, -0x1p-149, 1.0, -1.0, FLT_MAX, -FLT_MAX, 0x1p144, -0x1p144, DBL_MAX, -DBL_MAX};

/* Levels of every size, and each value. */
static inline void search_all(struct slice b, uint32_t array, uint32_t segment, size_t points)
{
    struct values v = values_of(b, array, segment, points);
    for (size_t i = 0; i < sizeof sizes / sizeof *sizes; i++)
        search(b, array, segment, v, sizes[i]);
    for (size_t k = 0; k < points; k++)
        search_about(b, array, segment, v, v.of[k]);
    free(v.of);
}

#endif
