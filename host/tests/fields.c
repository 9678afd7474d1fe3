/*
 * Tests of the header's readers and of its offsets, held to the template's table, which stands here a second time.
 * Prints one line and ends with 0, or prints the first fault and ends with 1.
 */
#include "tessarquin.h"

#include <math.h>
#include <stdio.h>
#include <stdlib.h>

static unsigned checked;

static void check(int held, const char *what, const char *fault)
{
    checked++;
    if (held)
        return;
    printf("fields: %s: %s\n", what, fault);
    exit(1);
}

/* ---- the template: what stands one behind the other, from byte 0 to byte 346 */

enum kind { TEXT, BYTE, WORD, LONG, FLOAT, DOUBLE, UNNAMED };

static const struct field {
    const char *name;
    enum kind kind;
    size_t bytes, at;
} fields[] = {
#define F(name, kind, bytes) {#name, kind, bytes, TESSARQUIN_AT_##name},
    F(DESCRIPTOR_NAME, TEXT, 16) F(TEMPLATE_NAME, TEXT, 16)
    F(COMM_TYPE, WORD, 2) F(COMM_ORDER, WORD, 2)
    F(LENGTHS, UNNAMED, 40)
    F(INSTRUMENT_NAME, TEXT, 16) F(INSTRUMENT_NUMBER, LONG, 4) F(TRACE_LABEL, TEXT, 16)
    {"two reserved words", UNNAMED, 4, 112},
    F(WAVE_ARRAY_COUNT, LONG, 4) F(PNTS_PER_SCREEN, LONG, 4) F(FIRST_VALID_PNT, LONG, 4) F(LAST_VALID_PNT, LONG, 4)
    F(FIRST_POINT, LONG, 4) F(SPARSING_FACTOR, LONG, 4) F(SEGMENT_INDEX, LONG, 4) F(SUBARRAY_COUNT, LONG, 4)
    F(SWEEPS_PER_ACQ, LONG, 4)
    F(POINTS_PER_PAIR, WORD, 2) F(PAIR_OFFSET, WORD, 2)
    F(VERTICAL_GAIN, FLOAT, 4) F(VERTICAL_OFFSET, FLOAT, 4) F(MAX_VALUE, FLOAT, 4) F(MIN_VALUE, FLOAT, 4)
    F(NOMINAL_BITS, WORD, 2) F(NOM_SUBARRAY_COUNT, WORD, 2)
    F(HORIZ_INTERVAL, FLOAT, 4) F(HORIZ_OFFSET, DOUBLE, 8) F(PIXEL_OFFSET, DOUBLE, 8)
    F(VERTUNIT, TEXT, 48) F(HORUNIT, TEXT, 48)
    F(HORIZ_UNCERTAINTY, FLOAT, 4)
    F(TRIGGER_SECONDS, DOUBLE, 8) F(TRIGGER_MINUTES, BYTE, 1) F(TRIGGER_HOURS, BYTE, 1) F(TRIGGER_DAYS, BYTE, 1)
    F(TRIGGER_MONTHS, BYTE, 1) F(TRIGGER_YEAR, WORD, 2)
    {"unused word", UNNAMED, 2, 310},
    F(ACQ_DURATION, FLOAT, 4)
    F(RECORD_TYPE, WORD, 2) F(PROCESSING_DONE, WORD, 2)
    {"reserved word", UNNAMED, 2, 320},
    F(RIS_SWEEPS, WORD, 2) F(TIMEBASE, WORD, 2) F(VERT_COUPLING, WORD, 2)
    F(PROBE_ATT, FLOAT, 4) F(FIXED_VERT_GAIN, WORD, 2) F(BANDWIDTH_LIMIT, WORD, 2)
    F(VERTICAL_VERNIER, FLOAT, 4) F(ACQ_VERT_OFFSET, FLOAT, 4) F(WAVE_SOURCE, WORD, 2)
#undef F
};

static void test_offsets(void)
{
    size_t at = 0;
    for (size_t i = 0; i < sizeof fields / sizeof *fields; i++) {
        check(fields[i].at == at, fields[i].name, "it stands elsewhere than behind the field before it");
        at += fields[i].bytes;
    }
    check(at == 346, "the descriptor", "it has other than 346 bytes");
    check(TESSARQUIN_NAME_BYTES == 16 && TESSARQUIN_UNIT_BYTES == 48, "texts", "they have other lengths");
}

/* ---- the readers */

static void put(uint8_t *field, uint64_t order, size_t bytes, uint64_t bits)
{
    for (size_t i = 0; i < bytes; i++)
        field[order == TESSARQUIN_LOFIRST ? i : bytes - 1 - i] = (uint8_t)(bits >> 8 * i);
}

static void test_words(uint64_t order)
{
    static const int16_t words[] = {0, 1, 258, -3, INT16_MIN, INT16_MAX};
    static const int32_t longs[] = {0, 16909060, -1, -2, 268435455, INT32_MIN, INT32_MAX};
    uint8_t field[4];
    for (size_t i = 0; i < sizeof words / sizeof *words; i++) {
        put(field, order, 2, (uint16_t)words[i]);
        check(tessarquin_field_word(field, order) == words[i], "a word", "it is read as another");
    }
    for (size_t i = 0; i < sizeof longs / sizeof *longs; i++) {
        put(field, order, 4, (uint32_t)longs[i]);
        check(tessarquin_field_long(field, order) == longs[i], "a long", "it is read as another");
    }
}

static void test_floats(uint64_t order)
{
    static const float floats[] = {0.0f, -0.0f, 1.5f, -2e-7f, 0x1p-149f, INFINITY};
    static const double doubles[] = {0.0, -0.0, 1.5, -8e-7, 0x1p-1074, -INFINITY};
    uint8_t field[8];
    for (size_t i = 0; i < sizeof floats / sizeof *floats; i++) {
        uint32_t bits;
        memcpy(&bits, &floats[i], sizeof bits);
        put(field, order, 4, bits);
        float x = tessarquin_field_float(field, order);
        check(memcmp(&x, &floats[i], sizeof x) == 0, "a float", "it is read as another");
    }
    for (size_t i = 0; i < sizeof doubles / sizeof *doubles; i++) {
        uint64_t bits;
        memcpy(&bits, &doubles[i], sizeof bits);
        put(field, order, 8, bits);
        double x = tessarquin_field_double(field, order);
        check(memcmp(&x, &doubles[i], sizeof x) == 0, "a double", "it is read as another");
    }
}

static void test_texts(void)
{
    static const uint8_t text[16] = "SIXTEEN BYTES ..";
    check(tessarquin_field_text_length(text, 16) == 16, "a text without a zero byte", "it has another length");
    check(tessarquin_field_text_length(text, 7) == 7, "a shorter field", "it has another length");
    check(tessarquin_field_text_length((const uint8_t *)"C1\0old", 6) == 2, "a text", "it ends elsewhere than before its zero byte");
    check(tessarquin_field_text_length((const uint8_t *)"", 1) == 0, "an empty text", "it has bytes");
}

static void test_signed(void)
{
    static const int64_t numbers[] = {0, 1, -1, -32768, 32767, -274877906944, 274869518336, INT64_MIN, INT64_MAX};
    uint8_t answer[sizeof numbers];
    size_t count = sizeof numbers / sizeof *numbers;
    for (size_t i = 0; i < count; i++)
        put(answer + 8 * i, TESSARQUIN_HIFIRST, 8, (uint64_t)numbers[i]);
    for (size_t i = 0; i < count; i++)
        check(tessarquin_signed(answer, i) == numbers[i], "a signed number of an answer", "it is read as another");
}

static void test_answers(void)
{
    static const double doubles[3] = {-1.75, 3e8, -0.0};
    uint8_t answer[24];
    double out[4] = {0, 0, 0, 7};
    for (size_t i = 0; i < 3; i++) {
        uint64_t bits;
        memcpy(&bits, &doubles[i], sizeof bits);
        put(answer + 8 * i, TESSARQUIN_HIFIRST, 8, bits);
        check(tessarquin_number(answer, i) == bits, "a number of an answer", "it is read as another");
    }
    tessarquin_doubles(answer, 3, out);
    check(memcmp(out, doubles, sizeof doubles) == 0, "doubles of an answer", "they are read as others");
    check(out[3] == 7, "doubles of an answer", "more are written than were asked for");
    check(tessarquin_double(answer, 1) == 3e8, "a double of an answer", "it is read as another");
}

/* ---- the refusals */

static void test_refusals(void)
{
    unsigned texts = 0;
    check(strcmp(tessarquin_text(TESSARQUIN_OK), "accepted") == 0, "0", "it is not accepted");
#define EACH(name, number, when, what)                                                                             \
    check(TESSARQUIN_##name == number, #name, "it has another number");                                            \
    check(strcmp(tessarquin_text(number), when "; " what) == 0, #name, "it has another text");                     \
    texts++;
    TESSARQUIN_REFUSALS(EACH)
#undef EACH
    for (uint32_t n = 1; n < 1000; n++)
        texts -= strcmp(tessarquin_text(n), tessarquin_text(UINT32_MAX)) != 0;
    check(texts == 0, "the refusals", "a number that is in no list has a text");
    check(strcmp(tessarquin_text(14), "no refusal has this number") == 0, "14", "it has a text");
}

int main(void)
{
    test_offsets();
    test_words(TESSARQUIN_HIFIRST);
    test_words(TESSARQUIN_LOFIRST);
    test_floats(TESSARQUIN_HIFIRST);
    test_floats(TESSARQUIN_LOFIRST);
    test_texts();
    test_signed();
    test_answers();
    test_refusals();
    printf("fields: %u checks held\n", checked);
    return 0;
}
