/*
 * Tests of the calls, each with slices that end at a page that cannot be touched and have known bytes before
 * them; those of the crossing are in crossings.c, those of the strip in strips.c, those of cuts in a row in chains.c, those
 * of the joins in joins.c and those of the narrowing in narrows.c. Prints one line and ends with 0, or prints what differed
 * and ends with 1.
 */
#include "slices.h"

#include <float.h>
#include <math.h>

/* ---- the tests */

static void test_example(void)
{
    now = "the example of the scope document";
    struct slice b = make(1, 0, 1, 2, 0);
    check(opens(b, 40) == 0, "open is refused");
    check(answers[0] == 1 && answers[1] == 2 && answers[2] == 1 && answers[3] == 1 && answers[4] == 0, "open answers other numbers");
    check(point(b, 1, 1, 0, 24) == 0, "point 0 is refused");
    check(answers[0] == 0xBFFC000000000000 && answers[1] == 0xBFF0000000000000 && answers[2] == 0, "point 0 has other bits");
    check(point(b, 1, 1, 1, 32) == 0, "point 1 is refused");
    check(answers[0] == 0x3FFC000000000000 && answers[1] == 0xBFE8000000000000 && answers[2] == 0, "point 1 has other bits");
    check(fill(b, 1, 1, 2, 24) == 0, "fill is refused");
    check(answers[0] == 0xBFFC000000000000 && answers[1] == 0x3FFC000000000000 && answers[2] == 0, "fill has other bits");
    unmap(b);
}

/* A text of seven bytes, one trigger entry, 29 bytes of samples; F 4, S 6, SEGMENT_INDEX 9 and no SUBARRAY_COUNT. */
static void test_parts(int order)
{
    now = order ? "the parts, low byte first" : "the parts, high byte first";
    static const uint64_t numbers[5] = {HEADER, 4, 6, 9, 0}, lengths[10] = {346, 7, 0, 16, 0, 0, 29, 0, 0, 0};
    struct slice b = make(order, 0, 1, 36, 1);
    put(b.bytes, order, 40, 4, 7);
    put(b.bytes, order, 60, 4, 29);
    put(b.bytes, order, 116, 4, 29);
    put(b.bytes, order, 132, 4, 4);
    put(b.bytes, order, 136, 4, 6);
    put(b.bytes, order, 140, 4, 9);
    put(b.bytes, order, 144, 4, 0);
    memset(b.bytes + HEADER + DESCRIPTOR_BYTES, 0, 7 + 16);
    check(layout(b, 199) == TESSARQUIN_ROOM && layout(b, 0) == TESSARQUIN_ROOM && layout(b, 210) == 0, "layout");
    check(memcmp(answers, numbers, sizeof numbers) == 0, "the start, F, S, SEGMENT_INDEX or SUBARRAY_COUNT is another");
    uint64_t start = 0;
    for (size_t i = 0; i < 10; i++) {
        check(answers[TESSARQUIN_LAYOUT_LENGTHS + i] == lengths[i], "a part has another length");
        check(answers[TESSARQUIN_LAYOUT_STARTS + i] == start, "a part starts elsewhere");
        start += lengths[i];
    }
    check(user_text(b, 15) == TESSARQUIN_ROOM && user_text(b, 16) == 0, "user text");
    check(answers[TESSARQUIN_USER_TEXT_START] == HEADER + 346 && answers[TESSARQUIN_USER_TEXT_LENGTH] == 7, "the text stands elsewhere");
    unmap(b);
}

static void test_labels(void)
{
    now = "labels";
    struct slice b = make(0, 1, 1, 4, 0);
    check(user_text(b, 24) == 0 && answers[TESSARQUIN_USER_TEXT_START] == HEADER + 346 && answers[TESSARQUIN_USER_TEXT_LENGTH] == 0, "no user text");
    for (uint64_t length = 0; length <= 16; length++) {
        memset(b.bytes + HEADER + 96, 0xFF, 16);
        if (length < 16)
            b.bytes[HEADER + 96 + length] = 0;
        check(label(b, 5, 23) == TESSARQUIN_ROOM && label(b, 5, 24) == 0, "label");
        int own = length > 0;
        check(answers[TESSARQUIN_LABEL_FROM] == !own && answers[TESSARQUIN_LABEL_START] == (own ? HEADER + 96 : 0), "it stands elsewhere");
        check(answers[TESSARQUIN_LABEL_LENGTH] == (own ? length : 5), "it has another length");
    }
    memset(b.bytes + HEADER + 96, 0, 16);
    check(label(b, 0, 30) == 0 && answers[TESSARQUIN_LABEL_FROM] == 1 && answers[TESSARQUIN_LABEL_LENGTH] == 0, "an empty fallback");
    unmap(b);
}

static void test_short_slices(void)
{
    now = "slices that are a byte short";
    static const uint32_t all[4] = {1, 0, 0, 0};
    struct slice b = make(1, 0, 1, 2, 0);
    check(opens(b, 39) == TESSARQUIN_ROOM && opens(b, 0) == TESSARQUIN_ROOM, "open");
    check(point(b, 1, 1, 0, 23) == TESSARQUIN_ROOM && point(b, 1, 1, 0, 16) == TESSARQUIN_ROOM && point(b, 1, 1, 0, 24) == 0, "point");
    check(fill(b, 1, 1, 2, 23) == TESSARQUIN_ROOM && fill(b, 1, 1, 2, 16) == TESSARQUIN_ROOM && fill(b, 1, 1, 2, 24) == 0, "fill");
    check(TESSARQUIN_POINT_BYTES == 24 && TESSARQUIN_FILL_BYTES(2) == 24 && TESSARQUIN_FILL_BYTES(16776870u) == 134214968, "room as the header says it");
    struct slice exact = lend(359), less = lend(358);
    check(cut(b, all, 1, less, 16) == TESSARQUIN_ROOM, "cut, the block");
    check(cut(b, all, 1, exact, 15) == TESSARQUIN_ROOM, "cut, c and the length");
    check(cut(b, all, 2, exact, 15) == TESSARQUIN_CHOICE, "13 comes last");
    give_back(less, 0);
    give_back(exact, 0);
    unmap(b);
}

/* "g 2, M 5, WORD, TRIGTIME 32 bytes: L 398, slice 409; SN 2, SP 2 gives c 3, L 368, slice 379." */
static void test_cut(int order)
{
    now = order ? "a cut, low byte first" : "a cut, high byte first";
    static const uint32_t setup[4] = {2, 0, 0, 2};
    struct slice b = make(order, 1, 2, 5, 1);
    struct slice out = lend(400);
    check(b.length == 409, "the block has another length");
    check(cut(b, setup, !order, out, 16) == 0, "it is refused");
    check(answers[0] == 3 && answers[1] == 379, "c or the length is another");
    struct slice kept = {out.pages, out.bytes, out.size, 379};
    for (uint32_t k = 0; k < 3; k++) {
        check(point(kept, 1, 1, k, 24) == 0, "a kept point is refused");
        uint64_t value = answers[0], time = answers[1], mark = answers[2];
        check(point(b, 1, 2, 2 * k, 24) == 0, "a point is refused");
        check(answers[0] == value && answers[1] == time && answers[2] == mark, "a kept point has other bits");
    }
    check(cut(b, setup, 2, out, 16) == TESSARQUIN_CHOICE, "an order that is none");
    give_back(out, 379);
    unmap(b);
}

/* Two arrays of two segments of five samples: the four rails, one before each, and for words what a reader of single
   bytes or of the other order would take for a rail. */
static const int32_t rail_samples[2][2][2][5] = {
    {{{-128, -127, 126, 127, 0}, {-1, 0, 1, -127, 126}}, {{127, 127, 127, 127, 127}, {0, 0, -128, 0, 0}}},
    {{{-32768, -32767, 32766, 32767, 0}, {-128, 127, 128, -129, -1}}, {{32767, 32767, 32767, 32767, 32767}, {32512, -32513, -32768, 255, -32641}}}};

static struct slice make_rails(int order, uint32_t type)
{
    size_t width = type + 1;
    struct slice b = make(order, type, 2, 10, 1);
    put(b.bytes, order, 60, 4, 10 * width);
    put(b.bytes, order, 64, 4, 10 * width);
    put(b.bytes, order, 116, 4, 10);
    for (size_t i = 0; i < 20; i++)
        put(b.bytes, order, DESCRIPTOR_BYTES + 32 + width * i, width, (uint64_t)(int64_t)rail_samples[type][i / 10][i / 5 % 2][i % 5]);
    return b;
}

static int at_rail(uint32_t type, int32_t sample)
{
    return type == TESSARQUIN_BYTE ? sample == INT8_MIN || sample == INT8_MAX : sample == INT16_MIN || sample == INT16_MAX;
}

/* Each point has its sample's mark, and a fill counts them behind the values, in exactly so much room. */
static void test_marks(int order, uint32_t type)
{
    now = "samples at the rail";
    struct slice b = make_rails(order, type);
    for (uint32_t i = 0; i < 4; i++) {
        uint32_t array = i / 2 + 1, segment = i % 2 + 1;
        const int32_t *samples = rail_samples[type][i / 2][i % 2];
        uint64_t values[5], marks = 0;
        for (uint32_t k = 0; k < 5; k++) {
            check(point(b, array, segment, k, 23) == TESSARQUIN_ROOM && point(b, array, segment, k, 24) == 0, "a point");
            check(answers[TESSARQUIN_POINT_MARK] == (uint64_t)at_rail(type, samples[k]), "a point has another mark");
            values[k] = answers[TESSARQUIN_POINT_VALUE];
            marks += answers[TESSARQUIN_POINT_MARK];
        }
        check(fill(b, array, segment, 5, 8 * 5 + 7) == TESSARQUIN_ROOM && fill(b, array, segment, 5, 8 * 5 + 8) == 0, "a fill");
        check(memcmp(answers, values, sizeof values) == 0, "a fill has other values than the points");
        check(answers[5] == marks, "a fill counts other marks than the points have");
        check(fill(b, array, segment, 5, 8 * 5 + 100) == 0 && answers[5] == marks, "a fill in more room");
    }
    check(fill(b, 1, 1, 5, 48) == 0 && answers[5] == 2 && fill(b, 1, 2, 5, 48) == 0 && answers[5] == 0, "array 1 has other counts");
    check(fill(b, 2, 1, 5, 48) == 0 && answers[5] == 5 && fill(b, 2, 2, 5, 48) == 0 && answers[5] == 1, "array 2 has other counts");
    unmap(b);
}

/* Kept points have their marks, in the other order too: those from the second on of both segments and arrays. */
static void test_marks_kept(int order, uint32_t type)
{
    now = "marks of a cut";
    static const uint32_t setup[4] = {1, 0, 1, 0};
    struct slice b = make_rails(order, type), out = lend(b.length);
    check(cut(b, setup, !order, out, 16) == 0 && answers[0] == 4, "it is refused");
    struct slice kept = {out.pages, out.bytes, out.size, (size_t)answers[1]};
    for (uint32_t i = 0; i < 16; i++) {
        uint32_t array = i / 8 + 1, segment = i / 4 % 2 + 1, k = i % 4;
        check(point(kept, array, segment, k, 24) == 0, "a kept point is refused");
        uint64_t mark = answers[TESSARQUIN_POINT_MARK];
        check(point(b, array, segment, k + 1, 24) == 0 && answers[TESSARQUIN_POINT_MARK] == mark, "a kept point has another mark");
    }
    give_back(out, kept.length);
    unmap(b);
}

/* What stands behind the zero byte of a name is not judged, and is copied in either order. */
static void test_behind_names(void)
{
    now = "old bytes behind the names";
    static const uint32_t all[4] = {1, 0, 0, 0};
    struct slice b = make(1, 0, 1, 2, 0);
    memcpy(b.bytes + HEADER + 9, "OLD", 3);
    memcpy(b.bytes + HEADER + 27, "BYTES", 5);
    check(opens(b, 40) == 0, "open is refused");
    for (uint32_t order = 0; order <= 1; order++) {
        struct slice out = lend(359);
        check(cut(b, all, order, out, 16) == 0, "a cut is refused");
        check(memcmp(out.bytes + HEADER, b.bytes + HEADER, 32) == 0, "a cut writes other names");
        give_back(out, 359);
    }
    unmap(b);
}

/* The same payload with d digits: the same answers, the same cut, and room enough in six bytes more. */
static void test_headers(void)
{
    now = "headers from #3 to #9";
    static const uint32_t all[4] = {1, 0, 0, 0};
    struct slice nine = make(0, 1, 2, 5, 1);
    size_t payload = nine.length - HEADER;
    struct slice whole = lend(nine.length);
    check(cut(nine, all, 1, whole, 16) == 0, "a cut is refused");
    for (int d = 3; d <= 9; d++) {
        char header[HEADER + 21];
        size_t start = (size_t)snprintf(header, sizeof header, "#%d%0*zu", d, d, payload);
        check(start == 2 + (size_t)d, "the header has another length");
        struct slice b = lend(start + payload), out = lend(b.length + TESSARQUIN_CUT_MORE);
        memcpy(b.bytes, header, start);
        memcpy(b.bytes + start, nine.bytes + HEADER, payload);
        check(opens(b, 40) == 0 && answers[0] == 2 && answers[1] == 5 && answers[2] == 1 && answers[3] == 0 && answers[4] == 1, "open");
        check(layout(b, 200) == 0 && answers[TESSARQUIN_LAYOUT_START] == start && answers[TESSARQUIN_LAYOUT_STARTS] == 0, "layout");
        check(user_text(b, 16) == 0 && answers[TESSARQUIN_USER_TEXT_START] == start + 346, "user text");
        for (uint32_t k = 0; k < 5; k++) {
            check(point(nine, 1, 2, k, 24) == 0, "a point is refused");
            uint64_t value = answers[0], time = answers[1], mark = answers[2];
            check(point(b, 1, 2, k, 24) == 0 && answers[0] == value && answers[1] == time && answers[2] == mark, "a point has other bits");
        }
        check(cut(b, all, 1, out, 16) == 0 && answers[1] == whole.length, "a cut is refused");
        check(memcmp(out.bytes, whole.bytes, whole.length) == 0, "a cut writes other bytes");
        give_back(out, whole.length);
        struct slice alone = {b.pages, b.bytes + payload, b.size, start};
        memmove(alone.bytes, header, start);
        check(opens(alone, 40) == TESSARQUIN_LENGTH, "a header alone");
        memmove(alone.bytes + 1, header, start - 1);
        alone.bytes++, alone.length--;
        check(opens(alone, 40) == TESSARQUIN_FRAME, "a header without its last digit");
        unmap(b);
    }
    give_back(whole, whole.length);
    unmap(nine);
}

/* No TRIGGER_TIME is less than the one before it; the offsets fall. 8 comes first, and 20 before what is asked. */
static void test_times(int order)
{
    now = order ? "trigger times, low byte first" : "trigger times, high byte first";
    static const struct { double times[4], last_offset; uint32_t refusal; } tables[] = {
        {{0, 1, 2, 3}, -3, 0}, {{5, 5, 5, 5}, -3, 0}, {{0.0, -0.0, 0.0, -0.0}, -3, 0}, {{-3, -2, 0x1p-1074, DBL_MAX}, -3, 0},
        {{1, 1 - DBL_EPSILON / 2, 2, 3}, -3, TESSARQUIN_TIME}, {{0, 1, 3, 2}, -3, TESSARQUIN_TIME},
        {{-2, -3, -1, 0}, -3, TESSARQUIN_TIME}, {{-0.0, 0x1p-1074, 0.0, 1}, -3, TESSARQUIN_TIME},
        {{3, 2, 1, INFINITY}, -3, TESSARQUIN_FLOAT}, {{3, 2, 1, 0}, NAN, TESSARQUIN_FLOAT}, {{0, 1, 2, 3}, INFINITY, TESSARQUIN_FLOAT}};
    static const uint32_t none_such[4] = {0, 0, 9, 9}, last[4] = {0, 0, 0, 4};
    for (size_t i = 0; i < sizeof tables / sizeof *tables; i++) {
        struct slice b = make(order, 1, 4, 3, 1), out = lend(400);
        for (size_t n = 0; n < 4; n++) {
            put_double(b.bytes, order, DESCRIPTOR_BYTES + 16 * n, tables[i].times[n]);
            put_double(b.bytes, order, DESCRIPTOR_BYTES + 16 * n + 8, n < 3 ? -(double)n : tables[i].last_offset);
        }
        uint32_t refusal = tables[i].refusal;
        check(opens(b, 40) == refusal && opens(b, 0) == (refusal ? refusal : TESSARQUIN_ROOM), "open");
        check(point(b, 3, 9, 9, 0) == (refusal ? refusal : TESSARQUIN_CHOICE), "point");
        check(fill(b, 3, 9, 0, 0) == (refusal ? refusal : TESSARQUIN_CHOICE), "fill");
        check(cut(b, none_such, 2, out, 0) == (refusal ? refusal : TESSARQUIN_CHOICE), "cut");
        check(cut(b, last, !order, out, 16) == refusal, "a cut of the last segment");
        give_back(out, refusal ? 0 : (size_t)answers[1]);
        unmap(b);
    }
}

static void test_refusals(void)
{
    now = "refusals";
    static const struct { size_t at; uint8_t byte; uint32_t refusal; } damage[] = {
        {0, '$', TESSARQUIN_FRAME}, {1, '0', TESSARQUIN_FRAME}, {1, ':', TESSARQUIN_FRAME}, {10, 'A', TESSARQUIN_FRAME}, {10, '9', TESSARQUIN_LENGTH},
        {11, 'w', TESSARQUIN_NAME}, {19, '1', TESSARQUIN_NAME}, {36, '4', TESSARQUIN_NAME}, {37, '0', TESSARQUIN_NAME},
        {45, 2, TESSARQUIN_FORM}, {46, 1, TESSARQUIN_FORM}, {43, 2, TESSARQUIN_FORM}, {47, 0, TESSARQUIN_TILE},
        {55, 1, TESSARQUIN_TILE}, {127, 3, TESSARQUIN_COUNT}, {151, 1, TESSARQUIN_COUNT}, {146, 0x80, TESSARQUIN_INDEX},
        {150, 0x10, TESSARQUIN_INDEX}, {198, 0x7F, TESSARQUIN_FLOAT}};
    for (size_t i = 0; i < sizeof damage / sizeof *damage; i++) {
        struct slice b = make(1, 0, 2, 1, 0);
        b.bytes[damage[i].at] = damage[i].byte;
        if (damage[i].refusal == TESSARQUIN_FLOAT)
            b.bytes[197] = 0xF0;
        uint32_t refusal = opens(b, 40);
        if (refusal != damage[i].refusal)
            printf("byte %zu: %u\n", damage[i].at, (unsigned)refusal);
        check(refusal == damage[i].refusal, "open gives another number");
        check(point(b, 3, 9, 9, 0) == damage[i].refusal, "point gives another number");
        check(fill(b, 3, 9, 0, 0) == damage[i].refusal, "fill gives another number");
        check(layout(b, 0) == damage[i].refusal && user_text(b, 0) == damage[i].refusal && label(b, 2, 0) == damage[i].refusal, "a place gives another number");
        unmap(b);
    }
    struct slice b = make(0, 1, 2, 3, 0);
    check(point(b, 2, 0, 3, 0) == TESSARQUIN_CHOICE && point(b, 1, 0, 3, 0) == TESSARQUIN_SEGMENT, "array before segment");
    check(point(b, 1, 3, 0, 24) == TESSARQUIN_SEGMENT && point(b, 1, 2, 3, 0) == TESSARQUIN_POINT, "segment before point");
    check(point(b, 1, 2, 2, 24) == 0, "the last point");
    struct slice none = lend(0);
    static const uint32_t sparse[4] = {268435456, 0, 0, 0};
    check(cut(b, sparse, 0, none, 0) == TESSARQUIN_SPARSE, "12 before 13");
    check(opens(none, 40) == TESSARQUIN_FRAME, "an empty slice");
    give_back(none, 0);
    unmap(b);
}

int main(void)
{
    test_example();
    test_short_slices();
    test_parts(0);
    test_parts(1);
    test_labels();
    test_cut(0);
    test_cut(1);
    for (int shape = 0; shape < 4; shape++) {
        test_marks(shape % 2, (uint32_t)shape / 2);
        test_marks_kept(shape % 2, (uint32_t)shape / 2);
    }
    test_behind_names();
    test_headers();
    test_times(0);
    test_times(1);
    test_refusals();
    printf("calls: %u checks held\n", checked);
    return 0;
}
