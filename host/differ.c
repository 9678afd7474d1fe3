/* In which fields two blocks differ, for the message on files that cannot be joined. It decides nothing. */
#include "join.h"
#include "tessarquin.h"

#include <stdlib.h>

/* ---- the fields */

enum kind { TEXT, BYTE, WORD, LONG, FLOAT, DOUBLE };

struct field {
    const char *name;
    enum kind kind;
    size_t at, bytes;
    const char *(*named)(int n); /* the name of an enum's number */
};

static const char *type(int n)
{
    return n == TESSARQUIN_WORD ? "WORD" : "BYTE";
}

static const char *order(int n)
{
    return n == TESSARQUIN_LOFIRST ? "LOFIRST" : "HIFIRST";
}

/* The descriptor as the template has it, without SEGMENT_INDEX. */
static const struct field fields[] = {
#define F(name, kind, bytes) {#name, kind, TESSARQUIN_AT_##name, bytes, NULL},
#define E(name, named) {#name, WORD, TESSARQUIN_AT_##name, 2, named},
#define LENGTH(name, i) {name, LONG, TESSARQUIN_AT_LENGTHS + 4 * i, 4, NULL},
    F(DESCRIPTOR_NAME, TEXT, 16) F(TEMPLATE_NAME, TEXT, 16)
    E(COMM_TYPE, type) E(COMM_ORDER, order)
    LENGTH("WAVE_DESCRIPTOR", 0) LENGTH("USER_TEXT", 1) LENGTH("RES_DESC1", 2) LENGTH("TRIGTIME_ARRAY", 3)
    LENGTH("RIS_TIME_ARRAY", 4) LENGTH("RES_ARRAY1", 5) LENGTH("WAVE_ARRAY_1", 6) LENGTH("WAVE_ARRAY_2", 7)
    LENGTH("RES_ARRAY2", 8) LENGTH("RES_ARRAY3", 9)
    F(INSTRUMENT_NAME, TEXT, 16) F(INSTRUMENT_NUMBER, LONG, 4) F(TRACE_LABEL, TEXT, 16)
    {"the reserved word at 112", WORD, 112, 2, NULL}, {"the reserved word at 114", WORD, 114, 2, NULL},
    F(WAVE_ARRAY_COUNT, LONG, 4) F(PNTS_PER_SCREEN, LONG, 4) F(FIRST_VALID_PNT, LONG, 4) F(LAST_VALID_PNT, LONG, 4)
    F(FIRST_POINT, LONG, 4) F(SPARSING_FACTOR, LONG, 4) F(SUBARRAY_COUNT, LONG, 4) F(SWEEPS_PER_ACQ, LONG, 4)
    F(POINTS_PER_PAIR, WORD, 2) F(PAIR_OFFSET, WORD, 2)
    F(VERTICAL_GAIN, FLOAT, 4) F(VERTICAL_OFFSET, FLOAT, 4) F(MAX_VALUE, FLOAT, 4) F(MIN_VALUE, FLOAT, 4)
    F(NOMINAL_BITS, WORD, 2) F(NOM_SUBARRAY_COUNT, WORD, 2)
    F(HORIZ_INTERVAL, FLOAT, 4) F(HORIZ_OFFSET, DOUBLE, 8) F(PIXEL_OFFSET, DOUBLE, 8)
    F(VERTUNIT, TEXT, 48) F(HORUNIT, TEXT, 48)
    F(HORIZ_UNCERTAINTY, FLOAT, 4)
    F(TRIGGER_SECONDS, DOUBLE, 8) F(TRIGGER_MINUTES, BYTE, 1) F(TRIGGER_HOURS, BYTE, 1) F(TRIGGER_DAYS, BYTE, 1)
    F(TRIGGER_MONTHS, BYTE, 1) F(TRIGGER_YEAR, WORD, 2)
    {"the unused word at 310", WORD, 310, 2, NULL},
    F(ACQ_DURATION, FLOAT, 4)
    E(RECORD_TYPE, record_type) E(PROCESSING_DONE, processing)
    {"the reserved word at 320", WORD, 320, 2, NULL},
    F(RIS_SWEEPS, WORD, 2) F(TIMEBASE, WORD, 2) E(VERT_COUPLING, coupling)
    F(PROBE_ATT, FLOAT, 4) F(FIXED_VERT_GAIN, WORD, 2) E(BANDWIDTH_LIMIT, bandwidth_limit)
    F(VERTICAL_VERNIER, FLOAT, 4) F(ACQ_VERT_OFFSET, FLOAT, 4) E(WAVE_SOURCE, wave_source)
#undef F
#undef E
#undef LENGTH
};
enum { FIELDS = sizeof fields / sizeof *fields };

/* Numbers are compared as numbers, each in its own order: where the order is another, not every field is. */
static int field_differs(const struct field *f, const struct opened *one, const struct opened *other)
{
    const uint8_t *a = one->payload + f->at, *b = other->payload + f->at;
    if (f->kind == TEXT)
        return memcmp(a, b, f->bytes) != 0;
    return tessarquin_field_bits(a, f->bytes, one->order) != tessarquin_field_bits(b, f->bytes, other->order);
}

static int texts_differ(const struct opened *one, const struct opened *other)
{
    return one->text.length == other->text.length && memcmp(one->text.bytes, other->text.bytes, one->text.length) != 0;
}

int differ(const struct opened *one, const struct opened *other)
{
    for (size_t i = 0; i < FIELDS; i++)
        if (field_differs(&fields[i], one, other))
            return 1;
    return texts_differ(one, other);
}

/* ---- what is in them */

static void write_field(FILE *to, const struct field *f, const struct opened *o)
{
    const uint8_t *at = o->payload + f->at;
    size_t length = f->kind == TEXT ? tessarquin_field_text_length(at, f->bytes) : 0;
    char number[DECIMAL_MOST + 1] = "";
    switch (f->kind) {
    case TEXT: length ? write_text(to, at, length) : (void)fputs("(none)", to); break;
    case BYTE: fprintf(to, "%d", *at); break;
    case WORD: fputs(f->named ? f->named(tessarquin_field_word(at, o->order)) : grouped(tessarquin_field_word(at, o->order)), to); break;
    case LONG: fputs(grouped(tessarquin_field_long(at, o->order)), to); break;
    case FLOAT: *put_float(number, tessarquin_field_float(at, o->order)) = 0; break;
    case DOUBLE: *put_decimal(number, tessarquin_field_double(at, o->order)) = 0; break;
    }
    fputs(number, to);
}

static char *field_text(const struct field *f, const struct opened *o)
{
    struct told told;
    FILE *to = told_to(&told);
    write_field(to, f, o);
    told_all(to);
    return told.text;
}

/* Two fields may look the same: texts that differ behind their zero byte, and numbers that are none. */
static void found_field(FILE *to, const struct field *f, const struct opened *one, const struct opened *other)
{
    char *is = field_text(f, one), *was = field_text(f, other);
    fprintf(to, "%s %s, ", f->name, is);
    if (strcmp(is, was) != 0)
        fprintf(to, "not %s", was);
    else
        fputs(f->kind == TEXT ? "with other bytes behind it" : "of other bits", to);
    free(is);
    free(was);
}

/* The text from a byte on, as much of it as a line takes, without the zero bytes that fill it up. */
static void write_text_from(FILE *to, struct part text, size_t from)
{
    enum { MOST = 24 };
    size_t length = text.length - from < MOST ? text.length - from : MOST;
    while (length > 0 && text.bytes[from + length - 1] == 0)
        length--;
    if (length > 0)
        write_text(to, text.bytes + from, length);
    else
        fputs("(none)", to);
}

static void found_text(FILE *to, struct part one, struct part other)
{
    size_t from = 0;
    while (one.bytes[from] == other.bytes[from])
        from++;
    fprintf(to, "user text from byte %s on ", grouped((int64_t)from));
    write_text_from(to, one, from);
    fputs(", not ", to);
    write_text_from(to, other, from);
}

void found_different(FILE *to, const struct opened *one, const struct opened *other)
{
    const char *between = "";
    for (size_t i = 0; i < FIELDS; i++)
        if (field_differs(&fields[i], one, other)) {
            fputs(between, to);
            found_field(to, &fields[i], one, other);
            between = "; ";
        }
    if (texts_differ(one, other)) {
        fputs(between, to);
        found_text(to, one->text, other->text);
    }
}
