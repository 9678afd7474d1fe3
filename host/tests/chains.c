/*
 * Tests of cuts in a row, in slices as calls.c has them: the limits of the combined setup, and blocks that are cut ten
 * times at random, each cut of what the one before it wrote, beside the one cut whose setup is worked out from their
 * numbers and answers. Prints one line and ends with 0, or prints what differed and ends with 1.
 */
#include "random.h"

/* ---- the limits */

/* Whether the answer is these four numbers. */
static int answered(const uint32_t *setup)
{
    return answers[TESSARQUIN_COMBINED_SP] == setup[0] && answers[TESSARQUIN_COMBINED_NP] == setup[1]
        && answers[TESSARQUIN_COMBINED_FP] == setup[2] && answers[TESSARQUIN_COMBINED_SN] == setup[3];
}

/* An SP of 0 as 1; SP and FP at the most that they can be; the c as NP, whatever the NPs are; which SN. */
static void test_taken(void)
{
    now = "setups that are combined";
    static const struct { uint32_t a[4], b[4], count, one[4]; } table[] = {
        {{2, 0, 10, 0}, {6, 0, 15, 0}, 5, {12, 5, 40, 0}},
        {{3, 0, 1, 0}, {2, 0, 1, 0}, 1, {6, 1, 4, 0}},
        {{0, 0, 0, 0}, {0, 0, 0, 0}, 1, {1, 1, 0, 0}},
        {{0, 0, 0, 0}, {4, 9, 7, 3}, 8, {4, 8, 7, 3}},
        {{0, 0, 7, 0}, {5, 0, 3, 0}, 4, {5, 4, 10, 0}},
        {{1, 0, 7, 0}, {5, 0, 3, 0}, 4, {5, 4, 10, 0}},
        {{5, 0, 7, 0}, {0, 0, 3, 0}, 4, {5, 4, 22, 0}},
        {{5, 0, 7, 0}, {1, 0, 3, 0}, 4, {5, 4, 22, 0}},
        {{268435455, 0, 0, 0}, {0, 0, 0, 0}, 1, {268435455, 1, 0, 0}},
        {{0, 0, 0, 0}, {268435455, 0, 0, 0}, 1, {268435455, 1, 0, 0}},
        {{16383, 0, 0, 0}, {16385, 0, 0, 0}, 1, {268435455, 1, 0, 0}},
        {{1, 0, 4294967295, 0}, {1, 0, 0, 0}, 2, {1, 2, 4294967295, 0}},
        {{0, 0, 0, 0}, {1, 0, 4294967295, 0}, 2, {1, 2, 4294967295, 0}},
        {{65537, 0, 0, 0}, {1, 0, 65535, 0}, 2, {65537, 2, 4294967295, 0}},
        {{268435455, 0, 15, 0}, {1, 0, 16, 0}, 2, {268435455, 2, 4294967295, 0}},
        {{1, 7, 0, 0}, {1, 9, 0, 0}, 5, {1, 5, 0, 0}},
        {{1, 3, 0, 0}, {1, 0, 0, 0}, 4294967295, {1, 4294967295, 0, 0}},
        {{1, 3, 0, 0}, {1, 4, 0, 0}, 0, {1, 0, 0, 0}},
        {{1, 0, 0, 3}, {1, 0, 0, 0}, 1, {1, 1, 0, 3}},
        {{1, 0, 0, 0}, {1, 0, 0, 3}, 1, {1, 1, 0, 3}},
        {{1, 0, 0, 3}, {1, 0, 0, 1}, 1, {1, 1, 0, 3}},
        {{1, 0, 0, 4294967295}, {1, 0, 0, 7}, 1, {1, 1, 0, 4294967295}},
        {{1, 0, 0, 0}, {1, 0, 0, 4294967295}, 1, {1, 1, 0, 4294967295}}};
    check(TESSARQUIN_COMBINED_BYTES == 32, "room as the header says it");
    for (size_t i = 0; i < sizeof table / sizeof *table; i++) {
        const uint32_t *a = table[i].a, *b = table[i].b, count = table[i].count;
        check(combined(a, b, count, 31) == TESSARQUIN_ROOM && combined(a, b, count, 0) == TESSARQUIN_ROOM, "an answer that is a byte short");
        check(combined(a, b, count, 32) == 0 && answered(table[i].one), "another setup");
        check(combined(a, b, count, 45) == 0 && answered(table[i].one), "another setup in more room");
    }
}

/* One more than that, and products that are 0 or little where 32 bits hold them: 12, and before 13. */
static void test_too_much(void)
{
    now = "setups that are too much";
    static const struct { uint32_t a[4], b[4]; } table[] = {
        {{268435456, 0, 0, 0}, {1, 0, 0, 0}}, {{1, 0, 0, 0}, {268435456, 0, 0, 0}}, {{268435456, 0, 0, 0}, {0, 0, 0, 0}},
        {{0, 0, 0, 0}, {268435456, 0, 0, 0}}, {{16384, 0, 0, 0}, {16384, 0, 0, 0}}, {{268435455, 0, 0, 0}, {2, 0, 0, 0}},
        {{65536, 0, 0, 0}, {65536, 0, 0, 0}}, {{2, 0, 0, 0}, {2147483649, 0, 0, 0}}, {{4294967295, 0, 0, 0}, {4294967295, 0, 0, 0}},
        {{1, 0, 4294967295, 0}, {1, 0, 1, 0}}, {{0, 0, 4294967295, 0}, {1, 0, 1, 0}}, {{1, 0, 1, 0}, {1, 0, 4294967295, 0}},
        {{65536, 0, 0, 0}, {1, 0, 65536, 0}}, {{2, 0, 0, 0}, {1, 0, 2147483648, 0}}, {{268435455, 0, 16, 0}, {1, 0, 16, 0}},
        {{268435455, 0, 4294967295, 0}, {1, 0, 4294967295, 0}}, {{4294967295, 0, 4294967295, 0}, {4294967295, 0, 4294967295, 0}}};
    for (size_t i = 0; i < sizeof table / sizeof *table; i++) {
        const uint32_t *a = table[i].a, *b = table[i].b;
        check(combined(a, b, 1, 32) == TESSARQUIN_SPARSE && combined(a, b, 0, 40) == TESSARQUIN_SPARSE, "another number");
        check(combined(a, b, 1, 31) == TESSARQUIN_SPARSE && combined(a, b, 1, 0) == TESSARQUIN_SPARSE, "12 before 13");
    }
}

/* ---- cuts in a row */

enum { CUTS = 10, ROUNDS = 300 };

/* The setups, what each cut kept, and the order of the last one. */
struct chain {
    uint32_t setups[CUTS][4], kept[CUTS], order;
};

/* The cut of the first block by one setup is the last one of the row: its answer, its bytes, and no byte less. */
static void cut_once(struct slice first, const uint32_t *one, uint32_t order, struct slice last, uint32_t kept)
{
    struct slice out = lend(last.length), less = lend(last.length - 1);
    check(cut(first, one, order, out, 16) == 0, "the one cut is refused");
    check(answers[TESSARQUIN_CUT_COUNT] == kept && answers[TESSARQUIN_CUT_LENGTH] == last.length, "the one cut answers other numbers");
    check(memcmp(out.bytes, last.bytes, last.length) == 0, "the one cut writes other bytes");
    check(cut(first, one, order, less, 16) == TESSARQUIN_ROOM, "the one cut in a byte less");
    give_back(out, last.length);
    give_back(less, 0);
}

/* Cuts ten times, and answers what the last cut wrote; `one` becomes their setup, held to each cut on the way. */
static struct slice cut_in_a_row(struct slice first, struct chain *chain, uint32_t *one)
{
    struct slice block = first;
    memset(one, 0, 4 * sizeof *one);
    for (size_t i = 0; i < CUTS; i++) {
        choose(look(block), chain->setups[i]);
        chain->order = below(2);
        struct slice next = written(block, chain->setups[i], chain->order, &chain->kept[i]);
        check(combined(one, chain->setups[i], chain->kept[i], 32) == 0, "accepted cuts are not combined");
        for (size_t n = 0; n < 4; n++)
            one[n] = (uint32_t)answers[n];
        cut_once(first, one, chain->order, next, chain->kept[i]);
        if (i > 0)
            unmap(block);
        block = next;
    }
    return block;
}

/* The setup of the cuts `from` up to `to`, in groups that are chosen at random; one cut is its own setup, or is behind
   the one that leaves out nothing. */
static void group(const struct chain *chain, size_t from, size_t to, uint32_t *one)
{
    static const uint32_t nothing[4];
    uint32_t left[4], right[4];
    if (to - from == 1 && once_in(2)) {
        memcpy(one, chain->setups[from], sizeof left);
        return;
    }
    if (to - from == 1) {
        memcpy(left, nothing, sizeof left);
        memcpy(right, chain->setups[from], sizeof right);
    } else {
        size_t middle = from + 1 + below((uint32_t)(to - from - 1));
        group(chain, from, middle, left);
        group(chain, middle, to, right);
    }
    check(combined(left, right, chain->kept[to - 1], 32) == 0, "a group is refused");
    for (size_t n = 0; n < 4; n++)
        one[n] = (uint32_t)answers[n];
}

/* The kept points, or fifty of them, are those of the first block, bit for bit. */
static void compare_points(struct slice first, const uint32_t *one, struct slice last)
{
    struct holds h = look(last);
    uint32_t all = h.arrays * h.segments * h.points;
    for (uint32_t i = 0; i < all && i < 50; i++) {
        uint32_t which = all <= 50 ? i : below(all), k = which % h.points, n = which / h.points % h.segments + 1, array = which / h.points / h.segments + 1;
        uint64_t kept[3];
        check(point(last, array, n, k, 24) == 0, "a kept point is refused");
        memcpy(kept, answers, sizeof kept);
        check(point(first, array, one[3] ? one[3] : n, one[2] + one[0] * k, 24) == 0, "a point is refused");
        check(memcmp(kept, answers, sizeof kept) == 0, "a kept point has other bits");
    }
}

static void test_rows(void)
{
    now = "ten cuts in a row";
    unsigned several = 0;
    for (unsigned round = 0; round < ROUNDS; round++) {
        struct chain chain;
        uint32_t one[4], other[4];
        struct slice first = make_at_random(), last = cut_in_a_row(first, &chain, one);
        for (unsigned times = 0; times < 5; times++) {
            group(&chain, 0, CUTS, other);
            check(memcmp(one, other, sizeof one) == 0, "other groups have another setup");
        }
        compare_points(first, one, last);
        several += chain.kept[CUTS - 1] > 1;
        unmap(last);
        unmap(first);
    }
    check(several > ROUNDS / 4, "few rows keep more than one point");
}

int main(void)
{
    test_taken();
    test_too_much();
    test_rows();
    printf("chains: %u checks held\n", checked);
    return 0;
}
