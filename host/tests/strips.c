/*
 * Tests of the strip, in slices as calls.c has them: every number is held to the samples, as columns.h has it.
 * Prints one line and ends with 0, or prints what differed and ends with 1.
 */
#include "columns.h"
#include "damage.h"

/* ---- by their numbers */

static void test_example(void)
{
    now = "the example of the scope document";
    struct slice b = make(1, 0, 1, 2, 0), least = lend(16), greatest = lend(16);
    check(strip(b, 1, 1, 2, least, greatest, 24) == 0, "two columns are refused");
    check(tessarquin_signed(least.bytes, 0) == -3 && tessarquin_signed(least.bytes, 1) == 4, "other leasts");
    check(tessarquin_signed(greatest.bytes, 0) == -3 && tessarquin_signed(greatest.bytes, 1) == 4, "other greatests");
    check(strip(b, 1, 1, 1, least, greatest, 24) == 0, "one column is refused");
    check(tessarquin_signed(least.bytes, 0) == -3 && tessarquin_signed(greatest.bytes, 0) == 4, "another column");
    check(tessarquin_signed(least.bytes, 1) == 4 && tessarquin_signed(greatest.bytes, 1) == 4, "more than one column was written");
    check(answers[TESSARQUIN_STRIP_SUM] == 1 && answers[TESSARQUIN_STRIP_MARKS] == 0 && answers[TESSARQUIN_STRIP_PEAK] == 1, "other numbers of the segment");
    check(TESSARQUIN_STRIP_BYTES == 24 && TESSARQUIN_COLUMN_BYTES(2) == 16 && TESSARQUIN_COLUMN_BYTES(UINT32_MAX) == 34359738360, "room as the header says it");
    give_back(least, 16);
    give_back(greatest, 16);
    unmap(b);
}

/* ---- widths */

/* Every number of columns of segments up to 130 points, and some of longer ones. */
static void test_widths(int order, uint32_t type)
{
    now = order ? "widths, low byte first" : "widths, high byte first";
    static const uint32_t longer[] = {191, 192, 193, 255, 256, 257, 1000, 4095, 4096, 4097, 65535, 65536, 65537, 70000};
    for (uint32_t m = 1; m <= 130; m++) {
        struct slice b = make_samples(order, type, m);
        struct samples s = samples_of(b, 1, 2);
        for (uint32_t columns = 1; columns <= m; columns++)
            judge(b, 1, 2, s, columns);
        free(s.of);
        unmap(b);
    }
    for (size_t i = 0; i < sizeof longer / sizeof *longer; i++) {
        uint32_t m = longer[i], some[] = {1, 2, 3, 7, 63, 64, 65, 127, 128, m / 129, m / 128, m / 65, m / 64, m / 63, m / 3, m / 2, m / 2 + 1, m - 1, m};
        struct slice b = make_samples(order, type, m);
        struct samples s = samples_of(b, 1, 2);
        for (size_t j = 0; j < sizeof some / sizeof *some; j++)
            if (some[j] > 0)
                judge(b, 1, 2, s, some[j]);
        free(s.of);
        unmap(b);
    }
}

/* ---- places */

static void put_sample(struct slice b, int order, uint32_t type, size_t at, int64_t sample)
{
    put(b.bytes, order, DESCRIPTOR_BYTES + at * (type + 1), type + 1, (uint64_t)sample);
}

/* One point, and two alike, among zeros: the greatest, the least, and those at the rail. */
static void stands_out(struct slice b, int order, uint32_t type, size_t one, size_t other, int64_t sample, const uint32_t *columns)
{
    put_sample(b, order, type, one, sample);
    put_sample(b, order, type, other, sample);
    struct samples s = samples_of(b, 1, 1);
    for (; *columns; columns++)
        judge(b, 1, 1, s, *columns);
    free(s.of);
    put_sample(b, order, type, one, 0);
    put_sample(b, order, type, other, 0);
}

/* About the ends of 64 and of 128 points, and of columns. */
static void test_places(int order, uint32_t type)
{
    now = "points that stand out";
    static const uint32_t counts[] = {64, 65, 127, 128, 129, 192, 200, 65536, 65537};
    for (size_t i = 0; i < sizeof counts / sizeof *counts; i++) {
        uint32_t m = counts[i], columns[] = {1, 2, 3, m / 2, m, 0};
        size_t places[] = {0, 1, 15, 16, 31, 32, 62, 63, m / 3, m / 2 - 1, m / 2, m - m / 3, m - 2, m - 1}, count = sizeof places / sizeof *places;
        if (m > 1000)
            columns[3] = 128, columns[4] = 0;
        struct slice b = make(order, type, 1, m, 0);
        memset(b.bytes + HEADER + DESCRIPTOR_BYTES, 0, (size_t)m * (type + 1));
        for (size_t j = 0; j < count; j++)
            for (size_t next = j; next < count; next += 3) {
                int64_t low = type ? INT16_MIN : INT8_MIN, samples[] = {low, low + 1, -1, 1, -low - 2, -low - 1};
                stands_out(b, order, type, places[j], places[next], samples[(j + next) % 6], columns);
                stands_out(b, order, type, places[j], places[next], samples[(j + next / 3) % 2 ? 5 : 0], columns);
            }
        unmap(b);
    }
}

/* ---- numbers beyond 32 bits */

/* The longest blocks: q M needs more than 32 bits, and so does the sum where all words are the lowest, or the highest. */
static void test_long(int order, uint32_t type)
{
    now = "the longest blocks";
    uint32_t m = 16776870 / (type + 1);
    int64_t low = type ? INT16_MIN : INT8_MIN;
    struct slice b = make(order, type, 1, m, 0), least = lend(8), greatest = lend(8);
    check(b.length == TESSARQUIN_BLOCK_MOST - 1, "the longest block has another length");
    static const uint32_t some[] = {1, 1000, 4099, 99991};
    struct samples s = samples_of(b, 1, 1);
    for (size_t i = 0; i < sizeof some / sizeof *some; i++)
        judge(b, 1, 1, s, some[i]);
    judge(b, 1, 1, s, order ? m : m - 1);
    free(s.of);
    for (int high = 0; high <= 1; high++) {
        int64_t sample = high ? -low - 1 : low;
        for (size_t k = 0; k < m; k++)
            put_sample(b, order, type, k, sample);
        check(strip(b, 1, 1, 1, least, greatest, 24) == 0, "one sample all along is refused");
        check((int64_t)answers[TESSARQUIN_STRIP_SUM] == sample * m && answers[TESSARQUIN_STRIP_MARKS] == m && answers[TESSARQUIN_STRIP_PEAK] == 0, "other numbers of one sample all along");
    }
    give_back(least, 8);
    give_back(greatest, 8);
    unmap(b);
}

/* ---- half as many columns */

/* Joining neighbours gives the strip of half as many, as long as their number is even. */
static void test_halves(int order, uint32_t type)
{
    now = "half as many columns";
    static const struct { uint32_t points, columns; } all[] = {{64, 64}, {100, 96}, {4096, 1024}, {5000, 4096}, {65537, 512}, {70000, 65536}};
    for (size_t i = 0; i < sizeof all / sizeof *all; i++) {
        struct slice b = make_samples(order, type, all[i].points);
        uint32_t columns = all[i].columns;
        struct slice least = lend(TESSARQUIN_COLUMN_BYTES(columns)), greatest = lend(TESSARQUIN_COLUMN_BYTES(columns));
        check(strip(b, 1, 2, columns, least, greatest, 24) == 0, "it is refused");
        uint64_t whole[3] = {answers[0], answers[1], answers[2]};
        for (; columns % 2 == 0; columns /= 2) {
            size_t room = TESSARQUIN_COLUMN_BYTES(columns / 2);
            struct slice low = lend(room), high = lend(room);
            check(strip(b, 1, 2, columns / 2, low, high, 24) == 0, "half as many are refused");
            check(memcmp(whole, answers, sizeof whole) == 0, "other numbers of the segment");
            for (uint32_t q = 0; q < columns / 2; q++) {
                int64_t one = tessarquin_signed(least.bytes, 2 * q), other = tessarquin_signed(least.bytes, 2 * q + 1);
                check(tessarquin_signed(low.bytes, q) == (one < other ? one : other), "another least of two");
                one = tessarquin_signed(greatest.bytes, 2 * q), other = tessarquin_signed(greatest.bytes, 2 * q + 1);
                check(tessarquin_signed(high.bytes, q) == (one > other ? one : other), "another greatest of two");
            }
            memcpy(least.bytes, low.bytes, room);
            memcpy(greatest.bytes, high.bytes, room);
            give_back(low, room);
            give_back(high, room);
        }
        unmap(least);
        unmap(greatest);
        unmap(b);
    }
}

/* ---- refusals, room, headers */

/* The refusal of a call whose slices keep what they held. */
static uint32_t refusal_of(struct slice b, uint32_t array, uint32_t segment, uint32_t columns, size_t least_room, size_t greatest_room, size_t room)
{
    struct slice least = lend(least_room), greatest = lend(greatest_room);
    uint32_t refusal = strip(b, array, segment, columns, least, greatest, room);
    give_back(least, refusal ? 0 : TESSARQUIN_COLUMN_BYTES(columns));
    give_back(greatest, refusal ? 0 : TESSARQUIN_COLUMN_BYTES(columns));
    return refusal;
}

/* 9, then 10, then 11, then 13; and every room up to eight bytes more than is needed, of each slice by itself. */
static void test_question(int order, uint32_t type)
{
    now = "arrays, segments, columns, room";
    static const uint32_t none_such[] = {0, 4, 0x80000001, UINT32_MAX};
    struct slice b = make(order, type, 2, 3, 1);
    for (size_t i = 0; i < sizeof none_such / sizeof *none_such; i++) {
        uint32_t n = none_such[i];
        check(refusal_of(b, n, 1, 3, 24, 24, 24) == TESSARQUIN_CHOICE && refusal_of(b, n, n, n, 0, 0, 0) == TESSARQUIN_CHOICE, "an array that is not there");
        check(refusal_of(b, 1, n, 3, 24, 24, 24) == TESSARQUIN_SEGMENT && refusal_of(b, 1, n, n, 0, 0, 0) == TESSARQUIN_SEGMENT, "a segment that is not there");
        check(refusal_of(b, 1, 2, n, 80, 80, 24) == TESSARQUIN_POINT && refusal_of(b, 1, 2, n, 0, 0, 0) == TESSARQUIN_POINT, "no columns, or more than points");
    }
    check(refusal_of(b, 2, 1, 1, 24, 24, 24) == TESSARQUIN_CHOICE && refusal_of(b, 1, 3, 1, 24, 24, 24) == TESSARQUIN_SEGMENT, "array 2, or segment 3");
    for (uint32_t columns = 1; columns <= 3; columns++) {
        size_t needs = TESSARQUIN_COLUMN_BYTES(columns);
        for (size_t room = 0; room <= 32; room++) {
            check(refusal_of(b, 1, 2, columns, room, needs, 24) == (room < needs ? TESSARQUIN_ROOM : TESSARQUIN_OK), "room for the leasts");
            check(refusal_of(b, 1, 2, columns, needs, room, 24) == (room < needs ? TESSARQUIN_ROOM : TESSARQUIN_OK), "room for the greatests");
            check(refusal_of(b, 1, 2, columns, needs, needs, room) == (room < 24 ? TESSARQUIN_ROOM : TESSARQUIN_OK), "room for the answer");
        }
    }
    unmap(b);
}

/* Refused so, whatever is asked, and nothing is written. */
static void refuses(struct slice b, uint32_t refusal, const char *what)
{
    check(refusal_of(b, 1, 1, 1, 24, 24, 24) == refusal && refusal_of(b, 3, 9, 0, 0, 0, 0) == refusal, what);
}

/* 1 to 8 and 20 come before what is asked. */
static void test_refusals(int order, uint32_t type)
{
    now = "blocks that are refused";
    struct slice whole = make(order, type, 2, 3, 1);
    for (size_t i = 0; i < DAMAGES; i++) {
        struct slice b = make(order, type, 2, 3, 1);
        put(b.bytes, order, damages[i].at, damages[i].width, damages[i].n);
        refuses(b, damages[i].refusal, "another number");
        unmap(b);
    }
    for (size_t length = 0; length < whole.length; length++) {
        struct slice less = lend(length);
        memcpy(less.bytes, whole.bytes, length);
        refuses(less, length < HEADER ? TESSARQUIN_FRAME : TESSARQUIN_LENGTH, "a slice that ends too early");
        unmap(less);
    }
    unmap(whole);
}

/* The same payload with d digits, a new line behind it or none. */
static void test_headers(int order, uint32_t type)
{
    now = "headers from #3 to #9";
    struct slice nine = make_samples(order, type, 100);
    struct samples s = samples_of(nine, 1, 2);
    size_t payload = nine.length - HEADER;
    for (int d = 3; d <= 9; d++)
        for (size_t line = 0; line <= 1; line++) {
            char header[HEADER + 21];
            size_t start = (size_t)snprintf(header, sizeof header, "#%d%0*zu", d, d, payload);
            struct slice b = lend(start + payload + line);
            memcpy(b.bytes, header, start);
            memcpy(b.bytes + start, nine.bytes + HEADER, payload);
            memset(b.bytes + start + payload, '\n', line);
            judge(b, 1, 2, s, 64);
            unmap(b);
        }
    free(s.of);
    unmap(nine);
}

/* ---- blocks at random */

/* Each segment of each array, and the same cut out alone in either order; the block stays as it was. */
static void test_random(void)
{
    now = "blocks at random";
    for (unsigned round = 0; round < 150; round++) {
        struct slice b = make_at_random(), copy = lend(b.length);
        for (size_t at = HEADER + DESCRIPTOR_BYTES + 16 * 5; at < b.length; at++)
            b.bytes[at] = once_in(9) ? 0x7F : once_in(9) ? 0x80 : (uint8_t)below(256);
        put_float(b.bytes, b.bytes[HEADER + 34], 156, (float)below(1 << 24) / 0x1p30f - 0x1p-7f);
        put_float(b.bytes, b.bytes[HEADER + 34], 160, once_in(3) ? 0 : (float)below(1 << 24) / 0x1p20f - 8);
        memcpy(copy.bytes, b.bytes, b.length);
        struct holds h = look(b);
        for (uint32_t which = 0; which < h.arrays * h.segments; which++) {
            uint32_t array = which / h.segments + 1, segment = which % h.segments + 1, setup[4] = {1, 0, 0, segment}, kept;
            struct samples s = samples_of(b, array, segment);
            struct slice alone = written(b, setup, below(2), &kept);
            judge_values(b, array, segment, s);
            for (unsigned times = 0; times < 5; times++) {
                judge(b, array, segment, s, 1 + below(h.points));
                judge(alone, array, 1, s, 1 + below(h.points));
            }
            free(s.of);
            unmap(alone);
        }
        check(memcmp(copy.bytes, b.bytes, b.length) == 0, "the block was written to");
        unmap(copy);
        unmap(b);
    }
}

int main(void)
{
    test_example();
    for (int shape = 0; shape < 4; shape++) {
        int order = shape % 2;
        uint32_t type = (uint32_t)shape / 2;
        test_widths(order, type);
        test_places(order, type);
        test_long(order, type);
        test_halves(order, type);
        test_question(order, type);
        test_refusals(order, type);
        test_headers(order, type);
    }
    test_random();
    printf("strips: %u checks held\n", checked);
    return 0;
}
