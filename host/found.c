/*
 * What was found in a block that is refused. The library has judged; this looks again at what its number names, for the
 * message alone, and decides nothing. A block that breaks a rule keeps those before it, so what they judge can be read.
 */
#include "host.h"
#include "tessarquin.h"

#include <math.h>

/* ---- the header */

static size_t digit_of(struct block b)
{
    return (size_t)(b.bytes[1] - '0');
}

static void found_frame(FILE *to, struct block b)
{
    if (b.length == 0)
        fputs("it is empty", to);
    else if (b.bytes[0] != '#')
        fprintf(to, "no # in %s %s", b.length < WORDS_MOST ? "its" : "the first", counted((int64_t)(b.length < WORDS_MOST ? b.length : WORDS_MOST), "byte"));
    else if (b.length == 1)
        fputs("it ends with its #", to);
    else if (b.bytes[1] < '1' || b.bytes[1] > '9') {
        fprintf(to, "it %s with ", b.bytes == b.file.bytes ? "starts" : "goes on");
        write_text(to, b.bytes, 2);
    } else {
        size_t digits = digit_of(b);
        fprintf(to, "#%zu is followed by ", digits);
        write_text(to, b.bytes + 2, b.length - 2 < digits ? b.length - 2 : digits);
        fprintf(to, "%s, not by %s", b.length == 2 ? "nothing" : "", counted((int64_t)digits, "digit"));
    }
}

/* The length that the header states, and the bytes behind the header. */
static uint64_t stated(struct block b)
{
    uint64_t length = 0;
    for (size_t i = 0; i < digit_of(b); i++)
        length = 10 * length + (uint64_t)(b.bytes[2 + i] - '0');
    return length;
}

static struct part behind_header(struct block b)
{
    size_t start = 2 + digit_of(b);
    return (struct part){b.bytes + start, b.length - start};
}

static void found_length(FILE *to, struct block b)
{
    uint64_t says = stated(b);
    struct part there = behind_header(b);
    fprintf(to, "the header says %s bytes", grouped((int64_t)says));
    if (says < 346)
        fputs(", and the descriptor alone has 346", to);
    else if (says > 16777216)
        fputs(", and 16,777,216 are the most", to);
    else {
        fprintf(to, " and %s%s follow", b.file.whole ? "" : "at least ", grouped((int64_t)there.length));
        if (there.length == says + 1)
            fprintf(to, ", the last not a new line but %02X", there.bytes[says]);
    }
}

/* ---- the descriptor */

/* The descriptor, and the order that its numbers have. */
struct head {
    const uint8_t *bytes;
    uint32_t order;
};

static struct head head_of(struct block b)
{
    const uint8_t *bytes = behind_header(b).bytes;
    return (struct head){bytes, bytes[TESSARQUIN_AT_COMM_ORDER]};
}

static int32_t long_at(struct head h, size_t at)
{
    return tessarquin_field_long(h.bytes + at, h.order);
}

static int32_t length_of(struct head h, size_t part)
{
    return long_at(h, TESSARQUIN_AT_LENGTHS + 4 * part);
}

static void found_name(FILE *to, struct head h)
{
    static const char right[] = "WAVEDESC";
    int other = memcmp(h.bytes, right, sizeof right) != 0;
    const uint8_t *name = h.bytes + (other ? TESSARQUIN_AT_DESCRIPTOR_NAME : TESSARQUIN_AT_TEMPLATE_NAME);
    size_t length = tessarquin_field_text_length(name, TESSARQUIN_NAME_BYTES);
    fputs(other ? "the descriptor is " : "the template is ", to);
    write_text(to, name, length);
    fputs(length == 0 ? "not named" : "", to);
}

static void found_form(FILE *to, struct head h)
{
    const uint8_t *order = h.bytes + TESSARQUIN_AT_COMM_ORDER;
    if (order[0] > 1 || order[1] != 0)
        fprintf(to, "the bytes of COMM_ORDER are %02X %02X, not 00 00 or 01 00", order[0], order[1]);
    else {
        int type = tessarquin_field_word(h.bytes + TESSARQUIN_AT_COMM_TYPE, h.order);
        fprintf(to, "COMM_TYPE is %d, not 0 or 1%s", type, type == 256 ? ", and 1 in the other byte order than COMM_ORDER says" : "");
    }
}

static void found_tile(FILE *to, struct head h, struct block b)
{
    static const struct { const char *name; int empty; } parts[] = {
        {"WAVE_DESCRIPTOR", 0}, {"USER_TEXT", 0}, {"RES_DESC1", 1}, {"TRIGTIME_ARRAY", 0}, {"RIS_TIME_ARRAY", 0},
        {"RES_ARRAY1", 1}, {"WAVE_ARRAY_1", 0}, {"WAVE_ARRAY_2", 0}, {"RES_ARRAY2", 1}, {"RES_ARRAY3", 1}};
    int64_t sum = 0;
    if (length_of(h, 0) != 346) {
        fprintf(to, "WAVE_DESCRIPTOR is %s, not 346", grouped(length_of(h, 0)));
        return;
    }
    for (size_t i = 0; i < sizeof parts / sizeof *parts; i++) {
        int32_t length = length_of(h, i);
        sum += length;
        if (length < 0 || (parts[i].empty && length != 0)) {
            fprintf(to, "%s is %s%s", parts[i].name, grouped(length), parts[i].empty ? ", not 0" : "");
            return;
        }
    }
    fprintf(to, "the parts have %s bytes and the payload has %s", grouped(sum), grouped((int64_t)stated(b)));
}

/* Whether a part has other than so many bytes for each of its elements; then it says so. */
static int part_differs(FILE *to, const char *name, int64_t length, int64_t elements, const char *of, int64_t bytes)
{
    if (length == elements * bytes)
        return 0;
    fprintf(to, "%s has %s, and %s of %s would have %s", name, counted(length, "byte"), counted(elements, of), counted(bytes, "byte"), grouped(elements * bytes));
    return 1;
}

static void found_tables(FILE *to, struct head h, int64_t g)
{
    int32_t trigtime = length_of(h, TESSARQUIN_PART_TRIGTIME), ristime = length_of(h, TESSARQUIN_PART_RISTIME);
    int32_t index = long_at(h, TESSARQUIN_AT_SEGMENT_INDEX);
    int64_t sweeps = tessarquin_field_word(h.bytes + TESSARQUIN_AT_RIS_SWEEPS, h.order);
    if (trigtime != 0 && part_differs(to, "TRIGTIME_ARRAY", trigtime, g, "segment", TESSARQUIN_TRIGTIME_BYTES))
        return;
    if (ristime != 0 && ristime != 8 * sweeps)
        fprintf(to, "RIS_TIME_ARRAY has %s, and RIS_SWEEPS is %s", counted(ristime, "byte"), grouped(sweeps));
    else if (ristime != 0 && g > 1)
        fprintf(to, "RISTIME stands beside %s segments", grouped(g));
    else if (ristime != 0 && trigtime != 0)
        fputs("RISTIME stands beside TRIGTIME", to);
    else
        fprintf(to, index < 0 ? "SEGMENT_INDEX is %s" : "SEGMENT_INDEX is %s in a block of %s segments", grouped(index), grouped(g));
}

static void found_count(FILE *to, struct head h)
{
    int64_t count = long_at(h, TESSARQUIN_AT_WAVE_ARRAY_COUNT), subarrays = long_at(h, TESSARQUIN_AT_SUBARRAY_COUNT);
    int64_t g = subarrays == 0 ? 1 : subarrays, two = length_of(h, TESSARQUIN_PART_ARRAY_2);
    int words = tessarquin_field_word(h.bytes + TESSARQUIN_AT_COMM_TYPE, h.order) == TESSARQUIN_WORD;
    if (count < 1)
        fprintf(to, "WAVE_ARRAY_COUNT is %s", grouped(count));
    else if (subarrays < 0)
        fprintf(to, "SUBARRAY_COUNT is %s", grouped(subarrays));
    else if (count % g != 0)
        fprintf(to, "%s cannot be shared by %s", counted(count, "point"), counted(g, "segment"));
    else if (!part_differs(to, "WAVE_ARRAY_1", length_of(h, TESSARQUIN_PART_ARRAY_1), count, "sample", 1 + words)
             && (two == 0 || !part_differs(to, "WAVE_ARRAY_2", two, count, "sample", 1 + words)))
        found_tables(to, h, g);
}

static void found_index(FILE *to, struct head h)
{
    int64_t first = long_at(h, TESSARQUIN_AT_FIRST_POINT), factor = long_at(h, TESSARQUIN_AT_SPARSING_FACTOR);
    int64_t subarrays = long_at(h, TESSARQUIN_AT_SUBARRAY_COUNT), s = factor == 0 ? 1 : factor;
    int64_t m = long_at(h, TESSARQUIN_AT_WAVE_ARRAY_COUNT) / (subarrays == 0 ? 1 : subarrays);
    if (first < 0)
        fprintf(to, "FIRST_POINT is %s", grouped(first));
    else if (factor < 0 || factor > 268435455)
        fprintf(to, "SPARSING_FACTOR is %s", grouped(factor));
    else
        fprintf(to, "FIRST_POINT %s and SPARSING_FACTOR %s put the last of %s at %s", grouped(first), grouped(factor), counted(m, "point"), grouped(first + s * (m - 1)));
}

/* ---- the floats and the tables */

/* The doubles of a part of an accepted layout. */
struct doubles {
    const uint8_t *bytes;
    size_t count;
};

static struct doubles doubles_of(struct head h, size_t part)
{
    size_t start = 0;
    for (size_t i = 0; i < part; i++)
        start += (size_t)length_of(h, i);
    return (struct doubles){h.bytes + start, (size_t)length_of(h, part) / 8};
}

static double double_of(struct head h, struct doubles d, size_t i)
{
    return tessarquin_field_double(d.bytes + 8 * i, h.order);
}

int not_finite(FILE *to, const char *name, double x)
{
    if (isfinite(x))
        return 0;
    fprintf(to, "%s is %s", name, isnan(x) ? "not a number" : x < 0 ? "minus infinity" : "infinite");
    return 1;
}

static void found_float(FILE *to, struct head h)
{
    struct doubles trigtime = doubles_of(h, TESSARQUIN_PART_TRIGTIME), ristime = doubles_of(h, TESSARQUIN_PART_RISTIME);
    char name[64];
    if (not_finite(to, "VERTICAL_GAIN", tessarquin_field_float(h.bytes + TESSARQUIN_AT_VERTICAL_GAIN, h.order))
        || not_finite(to, "VERTICAL_OFFSET", tessarquin_field_float(h.bytes + TESSARQUIN_AT_VERTICAL_OFFSET, h.order))
        || not_finite(to, "HORIZ_INTERVAL", tessarquin_field_float(h.bytes + TESSARQUIN_AT_HORIZ_INTERVAL, h.order))
        || not_finite(to, "HORIZ_OFFSET", tessarquin_field_double(h.bytes + TESSARQUIN_AT_HORIZ_OFFSET, h.order)))
        return;
    for (size_t i = 0; i < trigtime.count; i++) {
        snprintf(name, sizeof name, "TRIGGER_%s of segment %s", i % 2 ? "OFFSET" : "TIME", grouped((int64_t)i / 2 + 1));
        if (not_finite(to, name, double_of(h, trigtime, i)))
            return;
    }
    for (size_t i = 0; i < ristime.count; i++) {
        snprintf(name, sizeof name, "RIS_OFFSET[%zu]", i);
        if (not_finite(to, name, double_of(h, ristime, i)))
            return;
    }
}

static void found_time(FILE *to, struct head h)
{
    struct doubles trigtime = doubles_of(h, TESSARQUIN_PART_TRIGTIME);
    for (size_t i = 2; i < trigtime.count; i += 2) {
        double before = double_of(h, trigtime, i - 2), time = double_of(h, trigtime, i);
        if (time < before) {
            char one[DECIMAL_MOST + 1], other[DECIMAL_MOST + 1];
            *put_decimal(one, before) = *put_decimal(other, time) = 0;
            fprintf(to, "the TRIGGER_TIME of segment %s is %s, and that of segment %s is %s", grouped((int64_t)i / 2), one, grouped((int64_t)i / 2 + 1), other);
            return;
        }
    }
}

void found_in_block(FILE *to, struct block b, uint32_t refusal)
{
    if (refusal <= TESSARQUIN_LENGTH && b.bytes != b.file.bytes)
        fprintf(to, "behind %s ", counted(b.bytes - b.file.bytes, "byte"));
    switch (refusal) {
    case TESSARQUIN_FRAME: found_frame(to, b); break;
    case TESSARQUIN_LENGTH: found_length(to, b); break;
    case TESSARQUIN_NAME: found_name(to, head_of(b)); break;
    case TESSARQUIN_FORM: found_form(to, head_of(b)); break;
    case TESSARQUIN_TILE: found_tile(to, head_of(b), b); break;
    case TESSARQUIN_COUNT: found_count(to, head_of(b)); break;
    case TESSARQUIN_INDEX: found_index(to, head_of(b)); break;
    case TESSARQUIN_FLOAT: found_float(to, head_of(b)); break;
    case TESSARQUIN_TIME: found_time(to, head_of(b)); break;
    }
}
