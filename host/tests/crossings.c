/*
 * Tests of the crossing, in slices as calls.c has them: the point answered is held to a plain search, as search.h has it.
 * Prints one line and ends with 0, or prints what differed and ends with 1.
 */
#include "damage.h"
#include "search.h"

#include <math.h>

/* ---- by their numbers */

static void test_example(void)
{
    now = "the example of the scope document";
    struct slice b = make(1, 0, 1, 2, 0);
    is_at(b, 1, 1, -DBL_MAX, 0, 2);
    is_at(b, 1, 1, -1.75, 0, 2);
    is_at(b, 1, 1, next_above(-1.75), 1, 2);
    is_at(b, 1, 1, 0, 1, 2);
    is_at(b, 1, 1, 1.75, 1, 2);
    is_at(b, 1, 1, next_above(1.75), 2, 2);
    is_at(b, 1, 1, DBL_MAX, 2, 2);
    check(TESSARQUIN_CROSSING_BYTES == 16 && TESSARQUIN_CROSSING_FOUND == 0 && TESSARQUIN_CROSSING_POINT == 1, "the answer as the header says it");
    unmap(b);
}

/* Values of 0.0 and of -0.0 are at both, and below the least number above them. The samples are -1, 0 and 1. */
static void test_zeros(int order)
{
    now = order ? "zeros, low byte first" : "zeros, high byte first";
    static const struct { float gain, offset; size_t at_zero; } zeros[] = {
        {0.5f, 0.0f, 1}, {0.5f, -0.0f, 1}, {-0.5f, 0.0f, 0}, {0.0f, 0.0f, 0}, {-0.0f, 0.0f, 0}, {0.0f, -0.0f, 0}, {-0.0f, -0.0f, 0}};
    for (uint32_t type = 0; type <= 1; type++)
        for (size_t i = 0; i < sizeof zeros / sizeof *zeros; i++) {
            struct slice b = make(order, type, 1, 3, 0);
            for (size_t k = 0; k < 3; k++)
                put(b.bytes, order, DESCRIPTOR_BYTES + k * (type + 1), type + 1, (uint64_t)k - 1);
            put_float(b.bytes, order, 156, zeros[i].gain);
            put_float(b.bytes, order, 160, zeros[i].offset);
            is_at(b, 1, 1, 0.0, zeros[i].at_zero, 3);
            is_at(b, 1, 1, -0.0, zeros[i].at_zero, 3);
            is_at(b, 1, 1, 0x1p-1074, zeros[i].gain > 0 ? 2 : zeros[i].gain < 0 ? 0 : 3, 3);
            is_at(b, 1, 1, -0x1p-1074, zeros[i].at_zero, 3);
            search_all(b, 1, 1, 3);
            unmap(b);
        }
}

/* ---- places */

/* All samples of array 1 are the lowest, by a gain above 0. */
static struct slice make_flat(int order, uint32_t type, uint32_t g, uint32_t m)
{
    struct slice b = make(order, type, g, m, 0);
    for (size_t i = 0; i < (size_t)g * m; i++)
        put(b.bytes, order, DESCRIPTOR_BYTES + i * (type + 1), type + 1, type ? 0x8000 : 0x80);
    return b;
}

static void put_sample(struct slice b, int order, uint32_t type, size_t at, int32_t sample)
{
    put(b.bytes, order, DESCRIPTOR_BYTES + at * (type + 1), type + 1, (uint64_t)(int64_t)sample);
}

/* The second of three segments rises at point k alone, and with the points behind it; those beside it are high where they
   meet it, and do not count. The level is a value, just that, and the next one is not reached. */
static void rises_at(struct slice b, int order, uint32_t type, uint32_t m, uint32_t k)
{
    int32_t low = type ? INT16_MIN : INT8_MIN;
    put_sample(b, order, type, m - 1, -low - 1);
    put_sample(b, order, type, 2 * (size_t)m, -low - 1);
    put_sample(b, order, type, (size_t)m + k, low + 3);
    double level = 0.5 * (low + 3) - 0.25;
    is_at(b, 1, 2, level, k, m);
    is_at(b, 1, 2, next_above(level), m, m);
    put_sample(b, order, type, 2 * (size_t)m - 1, low + 4);
    is_at(b, 1, 2, level, k, m);
    is_at(b, 1, 2, next_above(level), m - 1, m);
    put_sample(b, order, type, 2 * (size_t)m - 1, low);
    put_sample(b, order, type, (size_t)m + k, low);
}

/* Every point of segments up to 130 points; of longer ones those about the multiples of 64, and the last ones. */
static void test_places(int order, uint32_t type)
{
    now = "where it rises";
    static const uint32_t longer[] = {191, 192, 193, 255, 256, 257, 511, 512, 513, 4095, 4096, 4097};
    for (uint32_t m = 1; m <= 130; m++) {
        struct slice b = make_flat(order, type, 3, m);
        for (uint32_t k = 0; k < m; k++)
            rises_at(b, order, type, m, k);
        unmap(b);
    }
    for (size_t i = 0; i < sizeof longer / sizeof *longer; i++) {
        uint32_t m = longer[i];
        struct slice b = make_flat(order, type, 3, m);
        for (uint32_t k = 0; k < m; k++)
            if ((k + 2) % 64 < 4 || k + 3 > m)
                rises_at(b, order, type, m, k);
        unmap(b);
    }
}

/* More points than 16 bits count, and the longest blocks: the last point of all, and none. */
static void test_long(int order, uint32_t type)
{
    now = "long segments";
    static const uint32_t places[] = {0, 1, 65534, 65535, 65536, 65537, 69998, 69999};
    struct slice b = make_flat(order, type, 3, 70000);
    for (size_t i = 0; i < sizeof places / sizeof *places; i++)
        rises_at(b, order, type, 70000, places[i]);
    unmap(b);
    uint32_t most = 16776870 / (type + 1);
    struct slice longest = make_flat(order, type, 1, most);
    check(longest.length == TESSARQUIN_BLOCK_MOST - 1, "the longest block has another length");
    is_at(longest, 1, 1, 0, most, most);
    put_sample(longest, order, type, most - 1, 1);
    is_at(longest, 1, 1, 0, most - 1, most);
    put_sample(longest, order, type, most / 2, 1);
    is_at(longest, 1, 1, 0, most / 2, most);
    unmap(longest);
}

/* Reading ends at the point answered: what stands two pages and more behind it cannot be touched. */
static void test_ends(int order, uint32_t type)
{
    now = "samples behind the point";
    size_t page = (size_t)sysconf(_SC_PAGESIZE);
    static const uint32_t places[] = {0, 1, 63, 64, 65, 4095, 4096, 100000};
    for (size_t i = 0; i < sizeof places / sizeof *places; i++) {
        struct slice b = make_flat(order, type, 1, 300000);
        put_sample(b, order, type, places[i], 1);
        size_t at = (size_t)(b.bytes - b.pages) + HEADER + DESCRIPTOR_BYTES + (size_t)places[i] * (type + 1), from = (at / page + 3) * page;
        check(from < b.size && mprotect(b.pages + from, b.size - from, PROT_NONE) == 0, "pages cannot be taken away");
        is_at(b, 1, 1, 0.25, places[i], 300000);
        unmap(b);
    }
}

/* ---- gains */

/* Samples about zero and the rails, the highest first so that a gain below 0 rises; each gain with each offset. */
static void test_gains(int order, uint32_t type)
{
    now = order ? "gains, low byte first" : "gains, high byte first";
    static const float numbers[] = {0.5f, -0.5f, 0.0f, -0.0f, 0.7f, -0.0125f, 0x1p-149f, -0x1p-149f, 0x1.fffffcp-127f, FLT_MIN, 0x1.000002p0f, FLT_MAX, -FLT_MAX};
    static const int32_t samples[2][8] = {{127, 126, 1, 0, -1, 2, -127, -128}, {32767, 32766, 1, 0, -1, 255, -32767, -32768}};
    size_t count = sizeof numbers / sizeof *numbers;
    for (size_t i = 0; i < count * count; i++)
        for (int turned = 0; turned <= 1; turned++) {
            struct slice b = make(order, type, 1, 8, 0);
            put_float(b.bytes, order, 156, numbers[i / count]);
            put_float(b.bytes, order, 160, numbers[i % count]);
            for (size_t k = 0; k < 8; k++)
                put_sample(b, order, type, k, samples[type][turned ? 7 - k : k]);
            search_all(b, 1, 1, 8);
            unmap(b);
        }
}

/* Every word there is, in an order that rises and falls: the levels are values from the whole range, and where the offset
   is great many words have one value. */
static void test_words(int order)
{
    now = order ? "every word, low byte first" : "every word, high byte first";
    static const struct { float gain, offset; } scales[] = {{0.5f, 0.25f}, {-0.7f, 0.1f}, {0x1p-60f, 1.0f}, {-0x1.8p-61f, -1.0f}};
    for (size_t i = 0; i < sizeof scales / sizeof *scales; i++) {
        struct slice b = make(order, 1, 1, 65536, 0);
        put_float(b.bytes, order, 156, scales[i].gain);
        put_float(b.bytes, order, 160, scales[i].offset);
        for (size_t k = 0; k < 65536; k++)
            put(b.bytes, order, DESCRIPTOR_BYTES + 2 * k, 2, 40503 * k);
        struct values v = values_of(b, 1, 1, 65536);
        for (int32_t sample = INT16_MIN; sample <= INT16_MAX; sample += 51)
            search_about(b, 1, 1, v, (double)scales[i].gain * sample - (double)scales[i].offset);
        free(v.of);
        unmap(b);
    }
}

/* ---- refusals, room, headers */

/* Infinities and what is no number, of both signs, quiet or not, with every digit of the payload. */
static void test_levels(void)
{
    now = "levels that are none";
    static const uint64_t exact[] = {
        0x7FF0000000000000, 0xFFF0000000000000, 0x7FF8000000000000, 0xFFF8000000000000, 0x7FF0000000000001, 0xFFF0000000000001,
        0x7FFFFFFFFFFFFFFF, 0xFFFFFFFFFFFFFFFF, 0x7FF7FFFFFFFFFFFF, 0xFFF7FFFFFFFFFFFF};
    struct slice b = make(0, 1, 2, 3, 1);
    for (size_t i = 0; i < sizeof exact / sizeof *exact; i++)
        for (int digit = -1; digit < 52; digit++) {
            double level = with_bits(exact[i] | (digit < 0 ? 0 : UINT64_C(1) << digit));
            check(crossing(b, 1, 1, level, 16) == TESSARQUIN_CHOICE, "it is taken");
            check(crossing(b, 1, 3, level, 0) == TESSARQUIN_CHOICE && crossing(b, 2, 0, level, 16) == TESSARQUIN_CHOICE, "9 comes before 10 and 13");
        }
    unmap(b);
}

/* 9, then 10, then 13; and every room up to eight bytes more than the answer takes. */
static void test_question(int order, uint32_t type)
{
    now = "arrays, segments, room";
    struct slice b = make(order, type, 2, 3, 1);
    static const uint32_t none_such[] = {0, 2, 3, 0x80000001, UINT32_MAX};
    for (size_t i = 0; i < sizeof none_such / sizeof *none_such; i++) {
        check(crossing(b, none_such[i], 1, 0, 16) == TESSARQUIN_CHOICE && crossing(b, none_such[i], 9, 0, 0) == TESSARQUIN_CHOICE, "an array that is not there");
        uint32_t segment = none_such[i] == 2 ? 4 : none_such[i];
        check(crossing(b, 1, segment, 0, 16) == TESSARQUIN_SEGMENT && crossing(b, 1, segment, 0, 0) == TESSARQUIN_SEGMENT, "a segment that is not there");
    }
    for (size_t room = 0; room <= 24; room++)
        for (uint32_t segment = 1; segment <= 2; segment++) {
            uint32_t right = room < 16 ? TESSARQUIN_ROOM : TESSARQUIN_OK;
            check(crossing(b, 1, segment, -DBL_MAX, room) == right && crossing(b, 1, segment, DBL_MAX, room) == right, "another number");
            check(room < 16 || (answers[TESSARQUIN_CROSSING_FOUND] == 0 && answers[TESSARQUIN_CROSSING_POINT] == 0), "none is answered otherwise");
        }
    unmap(b);
}

/* Refused so, whatever is asked, and nothing is written. */
static void refuses(struct slice block, uint32_t refusal, const char *what)
{
    check(crossing(block, 1, 1, 0, 16) == refusal && crossing(block, 3, 9, 0, 0) == refusal && crossing(block, 1, 9, NAN, 16) == refusal, what);
}

/* 1 to 8 and 20 come before what is asked. */
static void test_refusals(int order, uint32_t type)
{
    now = "blocks that are refused";
    for (size_t i = 0; i < DAMAGES; i++) {
        struct slice b = make(order, type, 2, 3, 1);
        put(b.bytes, order, damages[i].at, damages[i].width, damages[i].n);
        refuses(b, damages[i].refusal, "another number");
        unmap(b);
    }
    struct slice whole = make(order, type, 2, 3, 1);
    for (size_t length = 0; length < whole.length; length++) {
        struct slice less = lend(length);
        memcpy(less.bytes, whole.bytes, length);
        refuses(less, length < HEADER ? TESSARQUIN_FRAME : TESSARQUIN_LENGTH, "a slice that ends too early");
        unmap(less);
    }
    unmap(whole);
}

/* The same payload with d digits, a new line behind it or none: the same point. */
static void test_headers(int order, uint32_t type)
{
    now = "headers from #3 to #9";
    struct slice nine = make(order, type, 2, 100, 1);
    struct values v = values_of(nine, 1, 2, 100);
    size_t payload = nine.length - HEADER;
    for (int d = 3; d <= 9; d++)
        for (size_t line = 0; line <= 1; line++) {
            char header[HEADER + 21];
            size_t start = (size_t)snprintf(header, sizeof header, "#%d%0*zu", d, d, payload);
            struct slice b = lend(start + payload + line);
            memcpy(b.bytes, header, start);
            memcpy(b.bytes + start, nine.bytes + HEADER, payload);
            memset(b.bytes + start + payload, '\n', line);
            for (size_t k = 0; k < 100; k++)
                search_about(b, 1, 2, v, v.of[k]);
            unmap(b);
        }
    free(v.of);
    unmap(nine);
}

/* ---- blocks at random */

/* Samples at random within some bits, and a gain and an offset of either sign. */
static struct slice make_samples(void)
{
    struct slice b = make_at_random();
    check(opens(b, 40) == 0 && layout(b, 200) == 0, "a block is refused");
    int order = b.bytes[HEADER + 34];
    uint8_t mask = (uint8_t)(255 >> below(8));
    for (size_t at = HEADER + (size_t)answers[TESSARQUIN_LAYOUT_STARTS + TESSARQUIN_PART_ARRAY_1]; at < b.length; at++)
        b.bytes[at] = (uint8_t)below(256) & mask;
    put_float(b.bytes, order, 156, ldexpf((float)below(1 << 24) - 0x1p23f, (int)below(40) - 60));
    put_float(b.bytes, order, 160, once_in(3) ? 0 : ldexpf((float)below(1 << 24) - 0x1p23f, (int)below(40) - 50));
    return b;
}

/* The levels are values of the segment and the doubles next to them, halves between two, and the greatest. */
static void search_at_random(struct slice b, uint32_t array, uint32_t segment, struct values v)
{
    double most = v.of[0];
    for (size_t k = 1; k < v.points; k++)
        most = v.of[k] > most ? v.of[k] : most;
    search_about(b, array, segment, v, most);
    for (unsigned times = 0; times < 20; times++) {
        double one = v.of[below((uint32_t)v.points)], other = v.of[below((uint32_t)v.points)];
        search_about(b, array, segment, v, one);
        search(b, array, segment, v, one + (other - one) / 2);
    }
}

/* Each segment of each array; the block stays as it was; and the segment cut out has the same point. */
static void test_random(void)
{
    now = "blocks at random";
    for (unsigned round = 0; round < 150; round++) {
        struct slice b = make_samples(), copy = lend(b.length);
        memcpy(copy.bytes, b.bytes, b.length);
        struct holds h = look(b);
        for (uint32_t which = 0; which < h.arrays * h.segments; which++) {
            uint32_t array = which / h.segments + 1, segment = which % h.segments + 1, setup[4] = {1, 0, 0, segment}, kept;
            struct values v = values_of(b, array, segment, h.points);
            struct slice alone = written(b, setup, below(2), &kept);
            search_at_random(b, array, segment, v);
            search_at_random(alone, array, 1, v);
            free(v.of);
            unmap(alone);
        }
        check(memcmp(copy.bytes, b.bytes, b.length) == 0, "the block was written to");
        unmap(copy);
        unmap(b);
    }
}

int main(void)
{
    test_example();
    test_levels();
    for (int shape = 0; shape < 4; shape++) {
        int order = shape % 2;
        uint32_t type = (uint32_t)shape / 2;
        test_places(order, type);
        test_long(order, type);
        test_ends(order, type);
        test_gains(order, type);
        test_question(order, type);
        test_refusals(order, type);
        test_headers(order, type);
    }
    for (int order = 0; order <= 1; order++) {
        test_zeros(order);
        test_words(order);
    }
    test_random();
    printf("crossings: %u checks held\n", checked);
    return 0;
}
