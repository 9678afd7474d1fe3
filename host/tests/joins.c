/*
 * Tests of the join, with parts that are cut out of a block and laid back to back, in slices as calls.c has them. Prints
 * one line and ends with 0, or prints what differed and ends with 1.
 */
#include "slices.h"

#include <math.h>

/* These segments of a block, in this order, in its own byte order. */
static struct slice lay(struct slice block, const uint32_t *segments, size_t count)
{
    check(opens(block, 40) == 0, "a block is refused");
    uint32_t order = (uint32_t)answers[TESSARQUIN_OPEN_ORDER];
    struct slice all = lend(count * (block.length + TESSARQUIN_CUT_MORE));
    size_t length = 0;
    for (size_t i = 0; i < count; i++) {
        uint32_t setup[4] = {1, 0, 0, segments[i]};
        struct slice out = lend(block.length);
        check(cut(block, setup, order, out, 16) == 0, "a segment is refused");
        memcpy(all.bytes + length, out.bytes, (size_t)answers[TESSARQUIN_CUT_LENGTH]);
        length += (size_t)answers[TESSARQUIN_CUT_LENGTH];
        unmap(out);
    }
    struct slice parts = lend(length);
    memcpy(parts.bytes, all.bytes, length);
    unmap(all);
    return parts;
}

/* The parts are refused so, whatever room there is, and nothing is written. */
static void refuses_join(struct slice parts, uint32_t refusal, const char *what)
{
    struct slice out = lend(parts.length + TESSARQUIN_JOIN_MORE), none = lend(0);
    check(join(parts, out, 16) == refusal && join(parts, none, 16) == refusal && join(parts, out, 0) == refusal, what);
    give_back(out, 0);
    give_back(none, 0);
}

/* Every order of three parts gives the block that a cut of all makes, in exactly so much room; each is cut out of it. */
static void test_join(int order, uint32_t type, int trigger)
{
    now = "a join";
    static const uint32_t orders[6][3] = {{1, 2, 3}, {1, 3, 2}, {2, 1, 3}, {2, 3, 1}, {3, 1, 2}, {3, 2, 1}}, all[4] = {1, 0, 0, 0};
    struct slice b = make(order, type, 3, 5, trigger), whole = lend(b.length);
    check(cut(b, all, (uint32_t)order, whole, 16) == 0, "a cut of all is refused");
    for (size_t i = 0; i < 6; i++) {
        struct slice parts = lay(b, orders[i], 3), out = lend(b.length), less = lend(b.length - 1), more = lend(b.length + 9);
        check(join(parts, out, 16) == 0 && answers[TESSARQUIN_JOIN_PARTS] == 3 && answers[TESSARQUIN_JOIN_LENGTH] == b.length, "it is refused");
        check(memcmp(out.bytes, whole.bytes, b.length) == 0, "it writes other bytes");
        check(join(parts, more, 24) == 0 && memcmp(more.bytes, whole.bytes, b.length) == 0, "it writes other bytes in more room");
        check(join(parts, less, 16) == TESSARQUIN_ROOM && join(parts, out, 15) == TESSARQUIN_ROOM, "slices that are a byte short");
        struct slice again = lay(out, orders[i], 3);
        check(again.length == parts.length && memcmp(again.bytes, parts.bytes, parts.length) == 0, "its segments are other parts");
        give_back(less, 0);
        give_back(more, b.length);
        unmap(out);
        unmap(again);
        unmap(parts);
    }
    unmap(whole);
    unmap(b);
}

/* One part under a header of d digits: a block of its own, in six bytes more than the shortest header leaves. */
static void test_join_headers(void)
{
    now = "a join under headers from #3 to #9";
    static const uint32_t first[1] = {1};
    struct slice b = make(0, 1, 2, 5, 1), nine = lay(b, first, 1), whole = lend(nine.length);
    size_t payload = nine.length - HEADER;
    check(join(nine, whole, 16) == 0 && answers[TESSARQUIN_JOIN_PARTS] == 1 && answers[TESSARQUIN_JOIN_LENGTH] == nine.length, "#9");
    for (int d = 3; d <= 9; d++) {
        char header[HEADER + 21];
        size_t start = (size_t)snprintf(header, sizeof header, "#%d%0*zu", d, d, payload);
        struct slice parts = lend(start + payload), out = lend(parts.length + TESSARQUIN_JOIN_MORE);
        memcpy(parts.bytes, header, start);
        memcpy(parts.bytes + start, nine.bytes + HEADER, payload);
        check(join(parts, out, 16) == 0 && memcmp(out.bytes, whole.bytes, whole.length) == 0, "another block");
        give_back(out, whole.length);
        unmap(parts);
    }
    unmap(whole);
    unmap(nine);
    unmap(b);
}

/* The number of a bad part, wherever it is and whatever else does not fit; then 16; a refused join writes nothing. */
static void test_join_refusals(int order)
{
    now = order ? "refused joins, low byte first" : "refused joins, high byte first";
    static const uint32_t right[3] = {2, 3, 1}, gap[2] = {1, 3}, twice[3] = {1, 2, 2}, again[3] = {3, 3, 3}, all[1] = {0};
    static const struct { size_t at; uint8_t byte; uint32_t refusal; } damage[] = {
        {0, '$', TESSARQUIN_FRAME}, {10, 'A', TESSARQUIN_FRAME}, {2, '9', TESSARQUIN_LENGTH}, {HEADER, 'w', TESSARQUIN_NAME},
        {HEADER + 35, 1, TESSARQUIN_FORM}, {HEADER + 44, 1, TESSARQUIN_TILE}, {HEADER + 140, 0x80, TESSARQUIN_COUNT},
        {HEADER + 132, 0x80, TESSARQUIN_INDEX}, {HEADER + 180, 0x7F, TESSARQUIN_FLOAT}};
    struct slice b = make(order, 1, 3, 5, 1), none = lend(0);
    refuses_join(none, TESSARQUIN_JOIN, "no parts");
    static const struct { const uint32_t *segments; size_t count; } unfit[] = {{gap, 2}, {twice, 3}, {again, 3}, {again, 1}, {all, 1}};
    for (size_t i = 0; i < sizeof unfit / sizeof *unfit; i++) {
        struct slice parts = lay(b, unfit[i].segments, unfit[i].count);
        refuses_join(parts, TESSARQUIN_JOIN, "segments that do not fit");
        unmap(parts);
    }
    for (size_t part = 0; part < 3; part++)
        for (size_t i = 0; i < 9; i++) {
            struct slice parts = lay(b, part == 1 ? right : twice, 3);
            size_t at = damage[i].at, long_at = at >= HEADER + 132 && at < HEADER + 144 ? at + (order ? 3 : 0) : at;
            uint8_t *bytes = parts.bytes + part * (parts.length / 3);
            bytes[long_at] = damage[i].byte;
            if (damage[i].refusal == TESSARQUIN_FLOAT)
                put_double(bytes, order, 180, INFINITY);
            refuses_join(parts, damage[i].refusal, "a part that is bad");
            unmap(parts);
        }
    unmap(b);
    give_back(none, 0);
}

/* The parts end where the slice does: at every byte less, and with a new line behind one, or behind the last. */
static void test_join_ends(void)
{
    now = "where the parts of a join end";
    static const uint32_t both[2] = {2, 1};
    struct slice b = make(1, 1, 2, 1, 1), parts = lay(b, both, 2);
    size_t one = parts.length / 2;
    for (size_t length = 0; length <= parts.length; length++) {
        struct slice less = lend(length);
        memcpy(less.bytes, parts.bytes, length);
        size_t rest = length % one;
        uint32_t cut_short = rest == 0 ? length == parts.length ? TESSARQUIN_OK : TESSARQUIN_JOIN : rest < HEADER ? TESSARQUIN_FRAME : TESSARQUIN_LENGTH;
        struct slice out = lend(b.length);
        check(join(less, out, 16) == cut_short, "a slice that ends too early");
        give_back(out, cut_short ? 0 : b.length);
        unmap(less);
    }
    for (size_t behind = one; behind <= 2 * one; behind += one) {
        struct slice line = lend(parts.length + 1);
        memcpy(line.bytes, parts.bytes, behind);
        line.bytes[behind] = '\n';
        memcpy(line.bytes + behind + 1, parts.bytes + behind, parts.length - behind);
        refuses_join(line, TESSARQUIN_FRAME, "a new line behind a part");
        unmap(line);
    }
    unmap(parts);
    unmap(b);
}

/* Another byte of a descriptor or a user text, all else equal; tables and samples are the parts' own. */
static void test_join_equal(int order)
{
    now = order ? "descriptors of a join, low byte first" : "descriptors of a join, high byte first";
    static const uint32_t both[2] = {2, 1};
    struct slice b = make(order, 1, 2, 20, 1);
    put(b.bytes, order, 40, 4, 8);
    put(b.bytes, order, 60, 4, 72);
    put(b.bytes, order, 116, 4, 36);
    memset(b.bytes + HEADER + DESCRIPTOR_BYTES, 'x', 8);
    for (size_t n = 0; n < 4; n++)
        put_double(b.bytes, order, DESCRIPTOR_BYTES + 8 + 8 * n, (double)n);
    struct slice parts = lay(b, both, 2);
    uint8_t *second = parts.bytes + parts.length / 2 + HEADER;
    for (size_t at = 0; at < parts.length / 2 - HEADER; at++) {
        uint8_t was = second[at];
        second[at] ^= 1;
        struct slice part = {parts.pages, second - HEADER, parts.size, parts.length / 2}, out = lend(b.length);
        uint32_t alone = opens(part, 40), together = join(parts, out, 16);
        int own = (at >= 346 + 8 && alone == 0), times = at >= 346 + 8 && at < 346 + 16;
        if (alone)
            check(together == alone, "a part that is bad");
        else if (!times)
            check(together == (own ? TESSARQUIN_OK : TESSARQUIN_JOIN), "another byte");
        give_back(out, together ? 0 : b.length);
        second[at] = was;
    }
    unmap(parts);
    unmap(b);
}

/* Times by index, whatever the order of the parts: equal ones pass, and one that is less than the one before it not. */
static void test_join_times(int order)
{
    now = order ? "times of a join, low byte first" : "times of a join, high byte first";
    static const uint32_t orders[2][3] = {{1, 2, 3}, {3, 1, 2}};
    static const struct { double times[3]; uint32_t refusal; } tables[] = {
        {{0, 1, 2}, TESSARQUIN_OK}, {{5, 5, 5}, TESSARQUIN_OK}, {{0.0, -0.0, 0.0}, TESSARQUIN_OK}, {{-2, -1, 0x1p-1074}, TESSARQUIN_OK},
        {{1, 0, 2}, TESSARQUIN_JOIN}, {{0, 2, 1}, TESSARQUIN_JOIN}, {{-1, -2, 0}, TESSARQUIN_JOIN}, {{0x1p-1074, 0, 1}, TESSARQUIN_JOIN}};
    struct slice b = make(order, 0, 3, 4, 1);
    for (size_t i = 0; i < 2; i++) {
        struct slice parts = lay(b, orders[i], 3);
        for (size_t t = 0; t < sizeof tables / sizeof *tables; t++) {
            for (size_t n = 0; n < 3; n++)
                put_double(parts.bytes + n * (parts.length / 3), order, DESCRIPTOR_BYTES, tables[t].times[orders[i][n] - 1]);
            struct slice out = lend(b.length);
            check(join(parts, out, 16) == tables[t].refusal, "another number");
            give_back(out, tables[t].refusal ? 0 : b.length);
        }
        unmap(parts);
    }
    unmap(b);
}

/* RIS offsets, of one part alone; and two parts that make the longest block, or two bytes more. */
static void test_join_rules(void)
{
    now = "rules of the joined block";
    static const uint32_t both[2] = {1, 2};
    struct slice b = make(0, 0, 2, 8, 1), parts = lay(b, both, 2);
    for (size_t n = 0; n < 2; n++) {
        put(parts.bytes + n * (parts.length / 2), 0, 48, 4, 0);
        put(parts.bytes + n * (parts.length / 2), 0, 52, 4, 16);
        put(parts.bytes + n * (parts.length / 2), 0, 322, 2, 2);
    }
    refuses_join(parts, TESSARQUIN_JOIN, "RIS offsets of two parts");
    struct slice one = {parts.pages, parts.bytes, parts.size, parts.length / 2}, out = lend(one.length);
    check(join(one, out, 16) == 0 && answers[TESSARQUIN_JOIN_LENGTH] == one.length, "RIS offsets of one part");
    check(memcmp(out.bytes + HEADER + 346, parts.bytes + HEADER + 346, one.length - HEADER - 346) == 0, "other offsets or samples");
    unmap(out);
    unmap(parts);
    unmap(b);
    for (uint32_t points = 8388435; points <= 8388436; points++) {
        struct shape part = {1, 0, 1, points, 0};
        parts = lend(2 * block_bytes(part));
        for (uint64_t n = 0; n < 2; n++) {
            put_block(parts.bytes + n * block_bytes(part), part);
            put(parts.bytes + n * block_bytes(part), 1, 140, 4, n + 1);
        }
        out = lend(TESSARQUIN_BLOCK_MOST - 1);
        check(join(parts, out, 16) == (points == 8388435 ? TESSARQUIN_OK : TESSARQUIN_JOIN), "the longest block, and a longer one");
        give_back(out, points == 8388435 ? out.length : 0);
        unmap(parts);
    }
}

/* A thousand parts, one more, and a bad one behind that. */
static void test_join_many(void)
{
    now = "a thousand parts";
    static uint32_t segments[1002];
    for (uint32_t i = 0; i < 1002; i++)
        segments[i] = 1002 - i;
    struct slice b = make(0, 0, 1002, 1, 1), parts = lay(b, segments, 1002);
    size_t one = parts.length / 1002;
    struct slice more = {parts.pages, parts.bytes + one, parts.size, 1001 * one}, thousand = {parts.pages, more.bytes + one, parts.size, 1000 * one};
    refuses_join(more, TESSARQUIN_JOIN, "one more");
    parts.bytes[1001 * one + HEADER] = 'w';
    refuses_join(more, TESSARQUIN_NAME, "one more, with a bad one");
    refuses_join(parts, TESSARQUIN_NAME, "a bad one behind one more");
    parts.bytes[1001 * one + HEADER] = 'W';
    struct slice out = lend(thousand.length);
    check(join(thousand, out, 16) == 0 && answers[TESSARQUIN_JOIN_PARTS] == 1000 && answers[TESSARQUIN_JOIN_LENGTH] == HEADER + 346 + 17000, "it is refused");
    for (uint32_t n = 1; n <= 1000; n++)
        check(out.bytes[HEADER + 346 + 16000 + n - 1] == b.bytes[samples_at((struct shape){0, 0, 1002, 1, 1}) + n - 1], "a sample is another");
    unmap(out);
    unmap(parts);
    unmap(b);
}

int main(void)
{
    for (int shape = 0; shape < 8; shape++)
        test_join(shape % 2, (uint32_t)shape / 2 % 2, shape / 4);
    test_join_headers();
    test_join_ends();
    for (int order = 0; order <= 1; order++) {
        test_join_refusals(order);
        test_join_equal(order);
        test_join_times(order);
    }
    test_join_rules();
    test_join_many();
    printf("joins: %u checks held\n", checked);
    return 0;
}
