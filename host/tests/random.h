/* Blocks and setups at random, the same in every run, for the tests of calls that follow each other. */
#ifndef RANDOM_H
#define RANDOM_H

#include "slices.h"

/* ---- numbers at random, the same in every run */

static uint64_t state = 10;

/* From 0 to n - 1. */
static inline uint32_t below(uint32_t n)
{
    state ^= state << 13;
    state ^= state >> 7;
    state ^= state << 17;
    return (uint32_t)((state >> 16) % n);
}

/* Once in n times. */
static inline int once_in(uint32_t n)
{
    return below(n) == 0;
}

/* ---- blocks */

enum { MOST = 268435455 };

/* What a block holds, and the S of its points. */
struct holds {
    uint32_t arrays, segments, points, sparsing;
};

static inline struct holds look(struct slice block)
{
    check(opens(block, 40) == 0, "a block is refused");
    uint32_t arrays = (uint32_t)answers[TESSARQUIN_OPEN_ARRAYS], segments = (uint32_t)answers[TESSARQUIN_OPEN_SEGMENTS];
    uint32_t points = (uint32_t)answers[TESSARQUIN_OPEN_POINTS];
    check(layout(block, 200) == 0, "a layout is refused");
    return (struct holds){arrays, segments, points, (uint32_t)answers[TESSARQUIN_LAYOUT_SPARSING]};
}

/* Of one segment or several, with trigger times, RIS offsets in the place of the one trigger entry, or neither; array 2,
   where there is one, is the last half of the samples; F and S are small. */
static inline struct slice make_at_random(void)
{
    int order = (int)below(2), trigger = (int)below(2), ris = trigger && once_in(2);
    uint32_t type = below(2), arrays = 1 + below(2), g = ris ? 1 : 1 + below(5), m = 1 + below(once_in(3) ? 40 : 2000);
    struct slice b = make(order, type, g, arrays * m, trigger);
    put(b.bytes, order, 60, 4, g * m * (type + 1));
    put(b.bytes, order, 64, 4, (arrays - 1) * g * m * (type + 1));
    put(b.bytes, order, 116, 4, g * m);
    put(b.bytes, order, 132, 4, below(1000));
    put(b.bytes, order, 136, 4, below(8));
    if (ris) {
        put(b.bytes, order, 48, 4, 0);
        put(b.bytes, order, 52, 4, 16);
        put(b.bytes, order, 322, 2, 2);
    }
    return b;
}

/* ---- cuts */

/* A setup that the block takes. Most keep nearly all, so that there are points left to the last one. */
static inline void choose(struct holds h, uint32_t *setup)
{
    uint32_t sp = once_in(30) ? MOST : once_in(4) ? 2 + below(3) : below(2), room = MOST / h.sparsing;
    setup[0] = sp < room ? sp : room;
    setup[1] = once_in(2) ? 0 : once_in(20) ? 1 + below(h.points) : h.points - below(h.points / 8 + 1) + below(2);
    setup[2] = once_in(30) ? below(h.points) : below(h.points / 8 + 1);
    setup[3] = once_in(8) ? 1 + below(h.segments) : 0;
}

/* What the cut writes, at the end of a page; `kept` is its c. */
static inline struct slice written(struct slice block, const uint32_t *setup, uint32_t order, uint32_t *kept)
{
    struct slice out = lend(block.length);
    check(cut(block, setup, order, out, 16) == 0, "a cut is refused");
    *kept = (uint32_t)answers[TESSARQUIN_CUT_COUNT];
    struct slice exact = lend((size_t)answers[TESSARQUIN_CUT_LENGTH]);
    memcpy(exact.bytes, out.bytes, exact.length);
    give_back(out, exact.length);
    return exact;
}

#endif
