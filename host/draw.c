/* trace draw: a picture of each segment, made from the strip that the library answers and from nothing else. */
#include "draw.h"
#include "tessarquin.h"

#include <math.h>
#include <stdlib.h>

/* So many segments stand one below another; so many columns suit a picture, and a terminal. */
enum { PANELS_MOST = 100, COLUMNS = 960, LETTERS = 72 };

/* ---- columns */

struct range values_in(const struct drawing *d, const struct panel *panel, uint32_t q)
{
    struct limits limits = rails_of(d->o);
    limits.low = (float)tessarquin_signed(panel->least, q);
    limits.high = (float)tessarquin_signed(panel->greatest, q);
    return values_of(d->o, limits);
}

int is_at_rail(const struct drawing *d, const struct panel *panel, uint32_t q)
{
    struct limits rails = rails_of(d->o);
    return (float)tessarquin_signed(panel->least, q) == rails.low || (float)tessarquin_signed(panel->greatest, q) == rails.high;
}

int is_pointwise(const struct drawing *d)
{
    return d->columns == d->o->points;
}

/* ---- a segment */

/* Segment `segment` of the block, which is the panel's of the file. */
static void ask_strip(const struct drawing *d, struct block b, uint32_t segment, struct panel *panel, uint8_t *answer)
{
    size_t room = TESSARQUIN_COLUMN_BYTES(d->columns);
    uint32_t refusal = tessarquin_strip(b.bytes, b.length, d->array, segment, d->columns, panel->least, room, panel->greatest, room,
                                        answer, TESSARQUIN_STRIP_BYTES);
    if (refusal)
        refuse_question("a picture of ", d->o, (struct asked){.array = d->array, .segment = panel->segment}, refusal);
}

/* The time of each column's first point, and of the last point. */
static void ask_times(const struct drawing *d, const struct opened *alone, struct panel *panel)
{
    uint32_t points = d->o->points;
    panel->span = (struct range){INFINITY, -INFINITY};
    for (uint64_t q = 0; q <= d->columns; q++) {
        uint32_t k = q < d->columns ? (uint32_t)(q * points / d->columns) : points - 1;
        double time = point_of(alone, d->array, 1, k).time;
        panel->times[q] = time;
        panel->span = (struct range){fmin(panel->span.from, time), fmax(panel->span.to, time)};
    }
}

static struct panel new_panel(const struct drawing *d, uint32_t n)
{
    size_t room = TESSARQUIN_COLUMN_BYTES(d->columns);
    return (struct panel){.segment = n, .least = memory(room), .greatest = memory(room), .times = memory((d->columns + 1) * sizeof(double))};
}

/* From the segment alone in a block. The peak is within the span whatever the times do. */
static void fill_panel(const struct drawing *d, const struct opened *alone, struct panel *panel)
{
    uint8_t answer[TESSARQUIN_STRIP_BYTES];
    ask_strip(d, alone->block, 1, panel, answer);
    ask_times(d, alone, panel);
    double mean = (double)tessarquin_signed(answer, TESSARQUIN_STRIP_SUM) / d->o->points;
    panel->mean = (double)float_at(d->o, TESSARQUIN_AT_VERTICAL_GAIN) * mean - (double)float_at(d->o, TESSARQUIN_AT_VERTICAL_OFFSET);
    panel->at_rail = tessarquin_number(answer, TESSARQUIN_STRIP_MARKS);
    panel->peak = point_of(alone, d->array, 1, (uint32_t)tessarquin_number(answer, TESSARQUIN_STRIP_PEAK));
    panel->span = (struct range){fmin(panel->span.from, panel->peak.time), fmax(panel->span.to, panel->peak.time)};
}

static void free_panels(const struct drawing *d)
{
    for (uint32_t i = 0; i < d->count; i++) {
        free(d->panels[i].least);
        free(d->panels[i].greatest);
        free(d->panels[i].times);
    }
    free(d->panels);
}

/* ---- axes */

/* The unit of the times: S is how the instrument writes seconds, and behind a prefix it would be taken for siemens. */
static struct part time_unit(const struct opened *o)
{
    struct part unit = text_at(o, TESSARQUIN_AT_HORUNIT, TESSARQUIN_UNIT_BYTES);
    return unit.length == 1 && unit.bytes[0] == 'S' ? (struct part){(const uint8_t *)"s", 1} : unit;
}

/* The values of all panels, and a little more to both sides. */
static struct range values_of_all(const struct drawing *d)
{
    struct range all = {INFINITY, -INFINITY};
    for (uint32_t i = 0; i < d->count; i++)
        for (uint32_t q = 0; q < d->columns; q++) {
            struct range values = values_in(d, &d->panels[i], q);
            all = (struct range){fmin(all.from, values.from), fmax(all.to, values.to)};
        }
    all = broad(all, 2 * fabs((double)float_at(d->o, TESSARQUIN_AT_VERTICAL_GAIN)));
    double more = (all.to - all.from) / 20;
    return (struct range){all.from - more, all.to + more};
}

/* Panels have one axis of values, so that segments can be compared, and each has its own times. */
static void put_axes(struct drawing *d, int across, int up)
{
    double interval = (double)float_at(d->o, TESSARQUIN_AT_HORIZ_INTERVAL) * d->o->sparsing;
    d->up = axis_over(values_of_all(d), text_at(d->o, TESSARQUIN_AT_VERTUNIT, TESSARQUIN_UNIT_BYTES), up);
    for (uint32_t i = 0; i < d->count; i++)
        d->panels[i].across = axis_over(broad(d->panels[i].span, fabs(interval)), time_unit(d->o), across);
}

/* ---- the picture */

/* The whole block is asked first, so that what is refused gets its number. */
static void fill_drawing(struct drawing *d, uint32_t first)
{
    const struct opened *o = d->o;
    uint8_t answer[TESSARQUIN_STRIP_BYTES];
    d->panels = memory(d->count * sizeof *d->panels);
    for (uint32_t i = 0; i < d->count; i++)
        d->panels[i] = new_panel(d, first + i);
    ask_strip(d, o->block, first, &d->panels[0], answer);
    struct alone alone = cut_out(o, first);
    for (uint32_t i = 0; i < d->count; i++) {
        put_segment(alone, o, first + i);
        fill_panel(d, &alone.opened, &d->panels[i]);
    }
    free(alone.bytes);
}

static void write_drawing(struct drawing *d, const char *to, int replace, uint32_t width, int text)
{
    struct told told;
    FILE *file = told_to(&told);
    if (text)
        write_letters(file, d, width);
    else
        write_picture(file, d);
    told_all(file);
    write_file((struct files){&d->o->block.file, 1}, to ? to : "-", replace, (const uint8_t *)told.text, told.length);
    if (to)
        say("%s drawn in %s, %s written to %s", counted(d->count, "segment"), counted(d->columns, "column"),
            counted((int64_t)told.length, "byte"), strcmp(to, "-") == 0 ? "standard output" : to);
    free(told.text);
}

void draw(const char *name, const char *to, int replace, struct view view)
{
    struct opened o = open_block(read_block(name));
    uint32_t width = view.width ? view.width : view.text ? LETTERS : COLUMNS;
    uint32_t first = view.one ? view.segment : 1, count = view.one ? 1 : o.segments;
    struct drawing d = {.o = &o, .array = view.array, .columns = width < o.points ? width : o.points, .count = count,
                        .micro = view.text ? "u" : "\302\265"};
    if (count > PANELS_MOST)
        fail(REFUSED, "a picture takes at most %d segments, and %s has %s: choose one by --segment", PANELS_MOST,
             o.block.file.name, grouped(count));
    fill_drawing(&d, first);
    put_axes(&d, view.text ? letter_ticks(width) : 11, view.text ? 5 : count > 3 ? 6 : 8);
    write_drawing(&d, to, replace, width, view.text);
    free_panels(&d);
}
