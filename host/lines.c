/* A point as a plain line, or as a row of a table for a spreadsheet: what points and cross print. */
#include "host.h"
#include "tessarquin.h"

/* ---- the table's heading */

/* A cell of the heading: the name, and the unit in parentheses. A unit with a comma or a quote has the cell in quotes. */
static void print_heading(const char *name, const uint8_t *unit)
{
    size_t length = tessarquin_field_text_length(unit, TESSARQUIN_UNIT_BYTES);
    int quoted = memchr(unit, ',', length) || memchr(unit, '"', length);
    printf("%s%s%s", quoted ? ",\"" : ",", name, length ? " (" : "");
    for (size_t i = 0; i < length;) {
        size_t plain = 0;
        while (i + plain < length && unit[i + plain] != '"')
            plain++;
        write_text(stdout, unit + i, plain);
        i += plain;
        if (i < length)
            i++, fputs("\"\"", stdout);
    }
    printf("%s%s", length ? ")" : "", quoted ? "\"" : "");
}

void print_headings(const struct opened *o)
{
    fputs("segment,point", stdout);
    print_heading("time", o->payload + TESSARQUIN_AT_HORUNIT);
    print_heading("value", o->payload + TESSARQUIN_AT_VERTUNIT);
    puts(o->trigtime.length > 0 ? ",trigger time (s),at the rail" : ",at the rail");
}

/* ---- a line */

static char *put_number(char *to, double x, struct form form)
{
    return form.digits ? put_digits(to, x, form.digits) : put_decimal(to, x);
}

struct lines lines_of(const struct opened *o, uint32_t n, struct form form)
{
    struct lines lines = {.segment = n, .form = form};
    if (form.csv && o->trigtime.length > 0) {
        lines.cell[0] = ',';
        lines.cell_length = (size_t)(put_number(lines.cell + 1, trigger_time(o, n), form) - lines.cell);
    }
    return lines;
}

static char *put_cell(char *to, const struct lines *lines)
{
    memcpy(to, lines->cell, lines->cell_length);
    return to + lines->cell_length;
}

static void print_line(const char *line, const char *end)
{
    size_t length = (size_t)(end - line);
    if (fwrite(line, 1, length, stdout) != length)
        output_failed();
}

void print_point(const struct lines *lines, uint32_t k, const uint8_t *answer)
{
    char line[3 * DECIMAL_MOST + 32], *to = line, between = lines->form.csv ? ',' : ' ';
    to = put_count(to, lines->segment);
    *to++ = between;
    to = put_count(to, k);
    *to++ = between;
    to = put_number(to, tessarquin_double(answer, TESSARQUIN_POINT_TIME), lines->form);
    *to++ = between;
    to = put_number(to, tessarquin_double(answer, TESSARQUIN_POINT_VALUE), lines->form);
    to = put_cell(to, lines);
    *to++ = between;
    *to++ = tessarquin_number(answer, TESSARQUIN_POINT_MARK) ? '1' : '0';
    *to++ = '\n';
    print_line(line, to);
}

/* The row has its trigger time, and else no number that could be taken for that of a point. */
void print_none(const struct lines *lines)
{
    char line[DECIMAL_MOST + 32], *to = put_count(line, lines->segment);
    to = lines->form.csv ? put_cell(stpcpy(to, ",,,"), lines) : stpcpy(to, " none");
    to = stpcpy(to, lines->form.csv ? ",\n" : "\n");
    print_line(line, to);
}
