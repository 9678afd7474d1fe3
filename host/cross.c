/* trace cross: of each segment the first point at or above a level, and in words what the points cannot say. */
#include "host.h"
#include "tessarquin.h"

#include <math.h>
#include <stdlib.h>

/* ---- the crossings */

/* How many segments have such a point, and in how many of these it is the first of all. */
struct crossings {
    uint32_t found, at_start;
};

/* Whether segment `segment` of the block, which is that asked for of the file, has such a point; then `k` is its number. */
static int is_crossed(const struct opened *o, struct block b, uint32_t segment, struct asked asked, uint32_t *k)
{
    uint8_t answer[TESSARQUIN_CROSSING_BYTES];
    uint32_t refusal = tessarquin_crossing(b.bytes, b.length, asked.array, segment, asked.level, answer, sizeof answer);
    if (refusal)
        refuse_question("a crossing of ", o, asked, refusal);
    *k = (uint32_t)tessarquin_number(answer, TESSARQUIN_CROSSING_POINT);
    return tessarquin_number(answer, TESSARQUIN_CROSSING_FOUND) == 1;
}

/* The line of a block of one segment, which is that asked for of the file. */
static void print_segment(const struct opened *o, struct block b, struct asked asked, struct form form, struct crossings *all)
{
    struct lines lines = lines_of(o, asked.segment, form);
    uint8_t answer[TESSARQUIN_POINT_BYTES];
    if (!is_crossed(o, b, 1, asked, &asked.point)) {
        print_none(&lines);
        return;
    }
    uint32_t refusal = tessarquin_point(b.bytes, b.length, asked.array, 1, asked.point, answer, sizeof answer);
    if (refusal)
        refuse_question("a point of ", o, asked, refusal);
    print_point(&lines, asked.point, answer);
    all->found++;
    all->at_start += asked.point == 0;
}

/* ---- what the points cannot say */

/* With all its digits and its unit; a zero has no sign. */
static void write_value(FILE *to, const struct opened *o, double x)
{
    char number[DECIMAL_MOST + 1];
    *put_decimal(number, x + 0.0) = 0;
    fputs(number, to);
    write_unit(to, text_at(o, TESSARQUIN_AT_VERTUNIT, TESSARQUIN_UNIT_BYTES));
}

/* Of so many segments. */
static void tell_start(const struct opened *o, double level, uint32_t at_start, uint32_t segments)
{
    struct told told;
    FILE *to = told_to(&told);
    fputs("at or above ", to);
    write_value(to, o, level);
    fprintf(to, " from point 0 on: %s of %s; whether and when the signal rose to it the samples do not say", grouped(at_start),
            counted(segments, "segment"));
    told_all(to);
    say("%s", told.text);
    free(told.text);
}

static void tell_end(const struct opened *o, double level, const char *beyond, double most, const char *what)
{
    struct told told;
    FILE *to = told_to(&told);
    write_value(to, o, level);
    fprintf(to, " is beyond the %s at ", beyond);
    write_value(to, o, most);
    told_all(to);
    say("%s: a signal that rose to it %s", told.text, what);
    free(told.text);
}

/* Where samples end before the level, that there is no crossing says nothing of the signal. */
static void tell_beyond(const struct opened *o, double level)
{
    struct limits stated = stated_limits(o);
    double rail = values_of(o, rails_of(o)).to, most = values_of(o, stated).to;
    if (level > rail)
        tell_end(o, level, "full range, which ends", rail, "stands at the rail, of which trace show warns");
    else if (are_stated(stated) && isfinite(most) && level > most)
        tell_end(o, level, "stated limits, which end", most, "may be clipped there, without a mark");
}

/* ---- the segments */

/* The whole block is asked first, so that what is refused gets its number. The lines come before the words, also where
   both go to one file. */
void print_crossings(const char *name, double level, uint32_t array, const uint32_t *segment, struct form form)
{
    struct opened o = open_block(read_block(name));
    uint32_t first = segment ? *segment : 1, last = segment ? *segment : o.segments;
    struct asked asked = {.array = array, .segment = first, .level = level};
    struct crossings all = {0, 0};
    is_crossed(&o, o.block, first, asked, &asked.point);
    if (form.csv)
        print_headings(&o);
    struct alone alone = cut_out(&o, first);
    for (asked.segment = first; asked.segment <= last; asked.segment++) {
        put_segment(alone, &o, asked.segment);
        print_segment(&o, alone.opened.block, asked, form, &all);
    }
    free(alone.bytes);
    if (fflush(stdout) != 0)
        output_failed();
    if (all.at_start > 0)
        tell_start(&o, level, all.at_start, last - first + 1);
    if (all.found == 0)
        tell_beyond(&o, level);
}
