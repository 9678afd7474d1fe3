/* What a drawing says in words, as SVG and with letters alike. */
#include "draw.h"
#include "tessarquin.h"

void write_label(FILE *to, const struct drawing *d)
{
    struct part label = label_of(d->o, "label (none)");
    write_text(to, label.bytes, label.length);
}

void write_subtitle(FILE *to, const struct drawing *d)
{
    write_instrument(to, d->o, "instrument (none)");
    if (d->o->arrays > 1)
        fprintf(to, "; array %u of %u", (unsigned)d->array, (unsigned)d->o->arrays);
    fprintf(to, "; %s%s", counted(d->o->points, "point"), d->o->segments > 1 ? " in each segment" : "");
    if (!is_pointwise(d))
        fprintf(to, ", drawn in %s", counted(d->columns, "column"));
}

int is_numbered(const struct drawing *d)
{
    return d->o->segments > 1 || d->o->index > 0;
}

void write_segment(FILE *to, const struct drawing *d, const struct panel *panel)
{
    const struct opened *o = d->o;
    char number[DECIMAL_MOST + 1];
    fprintf(to, "segment %s", grouped(o->segments > 1 ? panel->segment : o->index));
    if (o->segments > 1)
        fprintf(to, " of %s", grouped(o->segments));
    if (o->trigtime.length > 0) {
        *put_digits(number, trigger_time(o, panel->segment) + 0.0, 9) = 0;
        fprintf(to, ", %s s after the first trigger", number);
    }
}

/* The point that holds the greatest sample has the greatest value, or where the gain is below 0 the least. */
void write_numbers(FILE *to, const struct drawing *d, const struct panel *panel)
{
    float gain = float_at(d->o, TESSARQUIN_AT_VERTICAL_GAIN);
    if (gain != 0) {
        fputs(gain > 0 ? "greatest " : "least ", to);
        write_number(to, &d->up, panel->peak.value, d->micro);
        fputs(" at ", to);
        write_number(to, &panel->across, panel->peak.time, d->micro);
        fputs(", ", to);
    }
    fputs("mean ", to);
    write_number(to, &d->up, panel->mean, d->micro);
}

void write_rail(FILE *to, const struct drawing *d, const struct panel *panel)
{
    fprintf(to, "at the rail, may be clipped: %s of %s", grouped((int64_t)panel->at_rail), counted(d->o->points, "sample"));
}

int side_of_trigger(const struct panel *panel)
{
    return panel->span.from > 0 ? -1 : panel->span.to < 0 ? 1 : 0;
}

void write_trigger(FILE *to, const struct drawing *d, const struct panel *panel)
{
    int side = side_of_trigger(panel);
    fputs("trigger", to);
    if (side == 0)
        return;
    fputc(' ', to);
    write_number(to, &panel->across, side < 0 ? panel->span.from : -panel->span.to, d->micro);
    fputs(side < 0 ? " before the first point" : " behind the last point", to);
}
