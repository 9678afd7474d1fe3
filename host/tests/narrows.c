/*
 * Tests of the narrowing, in slices as calls.c has them: what is written is held to a block that is worked out here. Prints
 * one line and ends with 0, or prints what differed and ends with 1.
 */
#include "damage.h"
#include "random.h"

#include <float.h>
#include <math.h>

/* ---- the block that is expected */

static uint8_t floor_of(const uint8_t *word, uint64_t order)
{
    return (uint8_t)(int8_t)floor(tessarquin_field_word(word, order) / 256.0);
}

/* From the block, where the library says that its parts stand. */
static struct slice expected(struct slice block)
{
    check(opens(block, 40) == 0, "a block is refused");
    int order = (int)answers[TESSARQUIN_OPEN_ORDER];
    size_t width = answers[TESSARQUIN_OPEN_TYPE] == TESSARQUIN_WORD ? 2 : 1;
    check(layout(block, 200) == 0, "a layout is refused");
    const uint8_t *payload = block.bytes + answers[TESSARQUIN_LAYOUT_START];
    size_t first = (size_t)answers[TESSARQUIN_LAYOUT_STARTS + TESSARQUIN_PART_ARRAY_1];
    size_t one = (size_t)answers[TESSARQUIN_LAYOUT_LENGTHS + TESSARQUIN_PART_ARRAY_1] / width;
    size_t two = (size_t)answers[TESSARQUIN_LAYOUT_LENGTHS + TESSARQUIN_PART_ARRAY_2] / width;
    struct slice out = lend(HEADER + first + one + two);
    char header[HEADER + 21];
    snprintf(header, sizeof header, "#9%09zu", out.length - HEADER);
    memcpy(out.bytes, header, HEADER);
    memcpy(out.bytes + HEADER, payload, first);
    for (size_t i = 0; i < one + two; i++) {
        const uint8_t *sample = payload + first + width * i;
        out.bytes[HEADER + first + i] = width == 2 ? floor_of(sample, (uint64_t)order) : *sample;
    }
    if (width == 2)
        put_float(out.bytes, order, 156, 256 * tessarquin_field_float(payload + 156, (uint64_t)order));
    put(out.bytes, order, 32, 2, TESSARQUIN_BYTE);
    put(out.bytes, order, 60, 4, one);
    put(out.bytes, order, 64, 4, two);
    return out;
}

/* What the narrowing writes, at the end of a page: the expected block, in exactly that room; it is accepted, and narrowed
   again it is the same. */
static struct slice narrowed(struct slice block)
{
    struct slice right = expected(block), out = lend(right.length), again = lend(right.length);
    check(narrow(block, out, 8) == 0 && answers[TESSARQUIN_NARROW_LENGTH] == right.length, "it is refused, or answers another length");
    check(memcmp(out.bytes, right.bytes, right.length) == 0, "it writes other bytes");
    check(narrow(out, again, 8) == 0 && answers[TESSARQUIN_NARROW_LENGTH] == right.length, "it is refused the second time");
    check(memcmp(again.bytes, right.bytes, right.length) == 0, "it writes other bytes the second time");
    unmap(right);
    give_back(again, again.length);
    return out;
}

/* Refused so, whatever room there is, and nothing is written. */
static void refuses(struct slice block, uint32_t refusal, const char *what)
{
    struct slice out = lend(block.length + TESSARQUIN_NARROW_MORE), none = lend(0);
    check(narrow(block, out, 8) == refusal && narrow(block, none, 8) == refusal && narrow(block, out, 0) == refusal, what);
    give_back(out, 0);
    give_back(none, 0);
}

/* ---- samples */

/* Every word there is; and by their numbers those around zero and the rails. */
static void test_words(int order)
{
    now = order ? "every word, low byte first" : "every word, high byte first";
    struct slice b = make(order, 1, 2, 32768, 1);
    for (size_t i = 0; i < 65536; i++)
        put(b.bytes, order, DESCRIPTOR_BYTES + 32 + 2 * i, 2, i);
    struct slice n = narrowed(b);
    static const struct { size_t word; int8_t high; } table[] = {
        {0, 0}, {255, 0}, {256, 1}, {32511, 126}, {32512, 127}, {32767, 127}, {32768, -128}, {33023, -128}, {33024, -127}, {65280, -1}, {65535, -1}};
    for (size_t i = 0; i < sizeof table / sizeof *table; i++)
        check((int8_t)n.bytes[HEADER + DESCRIPTOR_BYTES + 32 + table[i].word] == table[i].high, "a word becomes another byte");
    unmap(n);
    unmap(b);
}

/* As many samples as a loop of 64, 128 or 256 at a time ends with, one array or two; the longest blocks. */
static void test_counts(int order, uint32_t type)
{
    now = "so many samples";
    for (uint32_t points = 1; points <= 300; points++)
        for (uint32_t arrays = 1; arrays <= 2; arrays++) {
            struct slice b = make(order, type, 1, arrays * points, 0);
            put(b.bytes, order, 60, 4, points * (type + 1));
            put(b.bytes, order, 64, 4, (arrays - 1) * points * (type + 1));
            put(b.bytes, order, 116, 4, points);
            unmap(narrowed(b));
            unmap(b);
        }
    struct slice longest = make(order, type, 1, 16776870 / (type + 1), 0);
    check(longest.length == TESSARQUIN_BLOCK_MOST - 1, "the longest block has another length");
    unmap(narrowed(longest));
    unmap(longest);
    struct slice none = make(order, type, 1, 1, 0);
    put(none.bytes, order, 116, 4, 0);
    refuses(none, TESSARQUIN_COUNT, "no samples");
    unmap(none);
}

/* ---- room, headers */

/* Every room up to one byte more than the block takes, and every answer up to nine bytes. */
static void test_room(int order, uint32_t type)
{
    now = "room";
    struct slice b = make(order, type, 2, 3, 1), right = expected(b);
    check(TESSARQUIN_NARROW_BYTES == 8 && TESSARQUIN_NARROW_MORE == 6, "room as the header says it");
    for (size_t room = 0; room <= right.length + 1; room++)
        for (size_t answer = 0; answer <= 9; answer++) {
            struct slice out = lend(room);
            int enough = room >= right.length && answer >= 8;
            check(narrow(b, out, answer) == (enough ? TESSARQUIN_OK : TESSARQUIN_ROOM), "another number");
            check(!enough || (answers[0] == right.length && memcmp(out.bytes, right.bytes, right.length) == 0), "another block");
            give_back(out, enough ? right.length : 0);
        }
    unmap(right);
    unmap(b);
}

/* The same payload with d digits, a new line behind it or none: the same block, in six bytes more at most. */
static void test_headers(uint32_t type)
{
    now = "headers from #3 to #9";
    struct slice nine = make(0, type, 2, 5, 1), right = narrowed(nine);
    size_t payload = nine.length - HEADER;
    for (int d = 3; d <= 9; d++)
        for (size_t line = 0; line <= 1; line++) {
            char header[HEADER + 21];
            size_t start = (size_t)snprintf(header, sizeof header, "#%d%0*zu", d, d, payload);
            struct slice b = lend(start + payload + line), out = lend(start + payload + TESSARQUIN_NARROW_MORE);
            memcpy(b.bytes, header, start);
            memcpy(b.bytes + start, nine.bytes + HEADER, payload);
            memset(b.bytes + start + payload, '\n', line);
            check(narrow(b, out, 8) == 0 && answers[TESSARQUIN_NARROW_LENGTH] == right.length, "it is refused");
            check(memcmp(out.bytes, right.bytes, right.length) == 0, "another block");
            give_back(out, right.length);
            unmap(b);
        }
    unmap(right);
    unmap(nine);
}

/* ---- gains and refusals */

static const struct { float gain, wider; } gains[] = {
    {0.5f, 128.0f}, {-0.5f, -128.0f}, {0.0f, 0.0f}, {-0.0f, -0.0f}, {0.0125f, 3.2f}, {0x1p-149f, 0x1p-141f}, {-0x1p-149f, -0x1p-141f},
    {0x1.fffffcp-127f, 0x1.fffffcp-119f}, {-0x1.8p-148f, -0x1.8p-140f}, {0x1p-134f, 0x1p-126f}, {0x1p-135f, 0x1p-127f},
    {0x1p-126f, 0x1p-118f}, {0x1.fffffep119f, FLT_MAX}, {-0x1.fffffep119f, -FLT_MAX}};
static const float too_much[] = {0x1p120f, -0x1p120f, 0x1.000002p120f, 0x1p127f, FLT_MAX, -FLT_MAX};

/* 256 times itself, bit for bit; from 2^120 on 19, before 13; of bytes any gain, as it is. */
static void test_gains(int order)
{
    now = order ? "gains, low byte first" : "gains, high byte first";
    for (uint32_t type = 0; type <= 1; type++)
        for (size_t i = 0; i < sizeof gains / sizeof *gains; i++) {
            struct slice b = make(order, type, 1, 5, 0);
            put_float(b.bytes, order, 156, gains[i].gain);
            struct slice n = narrowed(b);
            float gain = tessarquin_field_float(n.bytes + HEADER + 156, (uint64_t)order), right = type ? gains[i].wider : gains[i].gain;
            check(memcmp(&gain, &right, sizeof gain) == 0, "another gain");
            unmap(n);
            unmap(b);
        }
    for (size_t i = 0; i < sizeof too_much / sizeof *too_much; i++) {
        struct slice words = make(order, 1, 1, 5, 0), bytes = make(order, 0, 1, 5, 0);
        put_float(words.bytes, order, 156, too_much[i]);
        put_float(bytes.bytes, order, 156, too_much[i]);
        refuses(words, TESSARQUIN_GAIN, "a gain that is too much");
        unmap(narrowed(bytes));
        unmap(words);
        unmap(bytes);
    }
}

/* 1 to 8 and 20 come before 19, of a block whose gain is too much, and of one of bytes. */
static void test_refusals(int order, uint32_t type)
{
    now = "refused narrowings";
    for (size_t i = 0; i < DAMAGES; i++) {
        struct slice b = make(order, type, 2, 3, 1);
        put_float(b.bytes, order, 156, FLT_MAX);
        put(b.bytes, order, damages[i].at, damages[i].width, damages[i].n);
        refuses(b, damages[i].refusal, "another number");
        unmap(b);
    }
    struct slice b = make(order, type, 2, 3, 1);
    put_float(b.bytes, order, 156, FLT_MAX);
    b.bytes[0] = '$';
    refuses(b, TESSARQUIN_FRAME, "no #");
    b.bytes[0] = '#';
    for (size_t length = 0; length < b.length; length++) {
        struct slice less = {b.pages, b.bytes + b.length - length, b.size, length};
        memmove(less.bytes, b.bytes, length < HEADER ? length : HEADER);
        refuses(less, length < HEADER ? TESSARQUIN_FRAME : TESSARQUIN_LENGTH, "a slice that ends too early");
        put_block(b.bytes, (struct shape){order, type, 2, 3, 1});
    }
    unmap(b);
}

/* ---- points, and cuts */

/* A block at random, with words at random and a gain of either sign. */
static struct slice make_words(void)
{
    struct slice b = make_at_random();
    check(opens(b, 40) == 0 && layout(b, 200) == 0, "a block is refused");
    int order = b.bytes[HEADER + 34];
    for (size_t at = HEADER + (size_t)answers[TESSARQUIN_LAYOUT_STARTS + TESSARQUIN_PART_ARRAY_1]; at < b.length; at++)
        b.bytes[at] = once_in(8) ? (once_in(2) ? 0x7F : 0x80) : (uint8_t)below(256);
    put_float(b.bytes, order, 156, ldexpf((float)below(1 << 24) - 0x1p23f, (int)below(40) - 60));
    put_float(b.bytes, order, 160, ldexpf((float)below(1 << 24) - 0x1p23f, (int)below(40) - 50));
    return b;
}

static int32_t sample_of(struct slice block, struct holds h, uint32_t array, uint32_t n, uint32_t k)
{
    uint64_t order = block.bytes[HEADER + 34];
    check(layout(block, 200) == 0, "a layout is refused");
    const uint8_t *samples = block.bytes + HEADER + answers[TESSARQUIN_LAYOUT_STARTS + TESSARQUIN_PART_ARRAY_1 + array - 1];
    size_t at = (size_t)(n - 1) * h.points + k;
    return tessarquin_field_word(block.bytes + HEADER + 32, order) == TESSARQUIN_WORD ? tessarquin_field_word(samples + 2 * at, order) : (int8_t)samples[at];
}

/* All points, or thirty of them: the time bit for bit; the value of the sample less its rest by 256, which never moves
   against the gain; the mark of the byte. */
static void compare_points(struct slice b, struct slice n)
{
    struct holds h = look(b);
    uint64_t order = b.bytes[HEADER + 34];
    int words = tessarquin_field_word(b.bytes + HEADER + 32, order) == TESSARQUIN_WORD;
    double gain = (double)tessarquin_field_float(b.bytes + HEADER + 156, order), offset = (double)tessarquin_field_float(b.bytes + HEADER + 160, order);
    uint32_t all = h.arrays * h.segments * h.points;
    for (uint32_t i = 0; i < all && i < 30; i++) {
        uint32_t which = all <= 30 ? i : below(all), k = which % h.points, g = which / h.points % h.segments + 1, array = which / h.points / h.segments + 1;
        int32_t sample = sample_of(b, h, array, g, k), rest = words ? sample & 255 : 0, high = words ? (sample - rest) / 256 : sample;
        check(point(b, array, g, k, 24) == 0, "a point is refused");
        uint64_t time = answers[TESSARQUIN_POINT_TIME], bits;
        double before, value = gain * (double)(sample - rest) - offset;
        memcpy(&before, &answers[TESSARQUIN_POINT_VALUE], sizeof before);
        memcpy(&bits, &value, sizeof bits);
        check(point(n, array, g, k, 24) == 0, "a narrowed point is refused");
        check(answers[TESSARQUIN_POINT_TIME] == time, "a point has another time");
        check(answers[TESSARQUIN_POINT_VALUE] == bits, "a point has another value");
        check(gain == 0 || rest == 0 ? value == before : gain > 0 ? value <= before : value >= before, "a value moved against the gain");
        check(answers[TESSARQUIN_POINT_MARK] == (high == INT8_MIN || high == INT8_MAX), "a point has another mark");
    }
}

/* Blocks at random: their points; narrowed and then cut, and cut and then narrowed. */
static void test_random(void)
{
    now = "blocks at random";
    for (unsigned round = 0; round < 400; round++) {
        struct slice b = make_words(), n = narrowed(b);
        compare_points(b, n);
        for (unsigned times = 0; times < 3; times++) {
            uint32_t setup[4], order = below(2), kept, kept_of_bytes;
            choose(look(b), setup);
            struct slice after = written(n, setup, order, &kept_of_bytes), cut_first = written(b, setup, order, &kept), last = narrowed(cut_first);
            check(kept == kept_of_bytes && last.length == after.length && memcmp(last.bytes, after.bytes, last.length) == 0, "a cut and a narrowing do not change places");
            unmap(after);
            unmap(cut_first);
            unmap(last);
        }
        unmap(n);
        unmap(b);
    }
}

int main(void)
{
    for (int shape = 0; shape < 4; shape++) {
        test_counts(shape % 2, (uint32_t)shape / 2);
        test_room(shape % 2, (uint32_t)shape / 2);
        test_refusals(shape % 2, (uint32_t)shape / 2);
    }
    for (int order = 0; order <= 1; order++) {
        test_words(order);
        test_gains(order);
        test_headers((uint32_t)order);
    }
    test_random();
    printf("narrows: %u checks held\n", checked);
    return 0;
}
