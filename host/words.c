/* Texts and whole numbers for a person, and the names that the template has for the numbers of its enums. */
#include "host.h"
#include "tessarquin.h"

#include <stdio.h>
#include <string.h>

/* ---- texts */

/* A character that shows itself: no control, none that turns the line around or has no width, no half of a pair. */
static int shows_itself(uint32_t c)
{
    static const struct { uint32_t from, to; } hidden[] = {
        {0x0, 0x1F}, {0x7F, 0x9F}, {0xAD, 0xAD}, {0x61C, 0x61C}, {0x180E, 0x180E}, {0x200B, 0x200F},
        {0x2028, 0x202E}, {0x2060, 0x206F}, {0xD800, 0xDFFF}, {0xE000, 0xF8FF}, {0xFDD0, 0xFDEF}, {0xFE00, 0xFE0F},
        {0xFEFF, 0xFEFF}, {0xFFF0, 0xFFFB}, {0xFFFE, 0xFFFF}, {0xE0000, 0x10FFFF}};
    for (size_t i = 0; i < sizeof hidden / sizeof *hidden; i++)
        if (c >= hidden[i].from && c <= hidden[i].to)
            return 0;
    return c <= 0x10FFFF;
}

/* How many bytes the UTF-8 character at the start has; 0 where there is none that shows itself. */
static size_t character(const uint8_t *text, size_t length)
{
    static const uint32_t least[] = {0, 0, 0x80, 0x800, 0x10000};
    uint8_t first = text[0];
    size_t bytes = first < 0x80 ? 1 : first < 0xC0 ? 0 : first < 0xE0 ? 2 : first < 0xF0 ? 3 : first < 0xF8 ? 4 : 0;
    if (bytes == 0 || bytes > length)
        return 0;
    uint32_t c = bytes == 1 ? first : first & (0x7Fu >> bytes);
    for (size_t i = 1; i < bytes; i++) {
        if ((text[i] & 0xC0) != 0x80)
            return 0;
        c = c << 6 | (text[i] & 0x3F);
    }
    return c >= least[bytes] && shows_itself(c) ? bytes : 0;
}

/* The backslash, too, is written by its number where it would be taken for one that this wrote. */
static void write_shown(FILE *to, const uint8_t *text, size_t length, int backslash)
{
    size_t bytes;
    for (size_t i = 0; i < length; i += bytes ? bytes : 1) {
        bytes = text[i] == '\\' && !backslash ? 0 : character(text + i, length - i);
        if (bytes)
            fwrite(text + i, 1, bytes, to);
        else
            fprintf(to, "\\x%02X", text[i]);
    }
}

void write_text(FILE *to, const uint8_t *text, size_t length)
{
    write_shown(to, text, length, 0);
}

void write_unit(FILE *to, struct part unit)
{
    if (unit.length == 0)
        return;
    fputc(' ', to);
    write_text(to, unit.bytes, unit.length);
}

void write_instrument(FILE *to, const struct opened *o, const char *none)
{
    struct part name = text_at(o, TESSARQUIN_AT_INSTRUMENT_NAME, TESSARQUIN_NAME_BYTES);
    int32_t number = tessarquin_field_long(o->payload + TESSARQUIN_AT_INSTRUMENT_NUMBER, o->order);
    if (name.length == 0)
        fputs(none, to);
    write_text(to, name.bytes, name.length);
    if (number != 0)
        fprintf(to, ", number %ld", (long)number);
}

void write_line(FILE *to, const char *text)
{
    write_shown(to, (const uint8_t *)text, strlen(text), 1);
    fputc('\n', to);
}

/* ---- whole numbers */

const char *grouped(int64_t n)
{
    static char rooms[8][32];
    static size_t next;
    char *room = rooms[next++ % 8], *to = room + sizeof rooms[0] - 1;
    uint64_t rest = n < 0 ? -(uint64_t)n : (uint64_t)n;
    *to = 0;
    for (int digits = 0; digits == 0 || rest > 0; digits++, rest /= 10) {
        if (digits > 0 && digits % 3 == 0)
            *--to = ',';
        *--to = (char)('0' + rest % 10);
    }
    if (n < 0)
        *--to = '-';
    return to;
}

const char *counted(int64_t n, const char *what)
{
    static char rooms[4][64];
    static size_t next;
    char *room = rooms[next++ % 4];
    snprintf(room, sizeof rooms[0], "%s %s%s", grouped(n), what, n == 1 ? "" : "s");
    return room;
}

const char *ordinal(uint32_t n)
{
    static char room[32];
    uint32_t last = n / 10 % 10 == 1 ? 0 : n % 10;
    snprintf(room, sizeof room, "%s%s", grouped(n), last == 1 ? "st" : last == 2 ? "nd" : last == 3 ? "rd" : "th");
    return room;
}

/* ---- enums */

static const char *named(const char *const *names, size_t count, int n)
{
    static char room[40];
    if (n >= 0 && (size_t)n < count && names[n])
        return names[n];
    snprintf(room, sizeof room, "%d, which has no name", n);
    return room;
}

#define NAMED(n, ...)                               \
    static const char *const names[] = __VA_ARGS__; \
    return named(names, sizeof names / sizeof *names, n)

const char *record_type(int n)
{
    NAMED(n, {"single_sweep", "interleaved", "histogram", "graph", "filter_coefficient", "complex", "extrema",
              "sequence_obsolete", "centered_RIS", "peak_detect"});
}

const char *processing(int n)
{
    NAMED(n, {"no_processing", "fir_filter", "interpolated", "sparsed", "autoscaled", "no_result", "rolling", "cumulative"});
}

const char *coupling(int n)
{
    NAMED(n, {"DC_50_Ohms", "ground", "DC_1MOhm", "ground", "AC,_1MOhm"});
}

const char *bandwidth_limit(int n)
{
    NAMED(n, {"off", "on"});
}

const char *wave_source(int n)
{
    NAMED(n, {"CHANNEL_1", "CHANNEL_2", "CHANNEL_3", "CHANNEL_4", [9] = "UNKNOWN"});
}
