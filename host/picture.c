/* The drawing as plain SVG: no script, no style sheet, no font and no file from elsewhere. */
#include "picture.h"
#include "tessarquin.h"

#include <math.h>
#include <stdlib.h>

/* In the picture's units: the room right of the plots, above all panels, and above and below the plot of each. */
enum { RIGHT = 28, HEAD = 58, ABOVE = 46, BELOW = 50 };

#define INK "#1f2933"
#define PALE "#52606d"
#define FRAME "#9aa5b1"
#define GRID "#e1e5ea"

/* ---- places and texts */

void put_place(FILE *to, const char *before, double x)
{
    long hundredths = lround(100 * x), part = hundredths % 100;
    fprintf(to, "%s%ld", before, hundredths / 100);
    if (part > 0)
        fprintf(to, part % 10 ? ".%02ld" : ".%ld", part % 10 ? part : part / 10);
}

void put_places(FILE *to, const char *before, double x, double y)
{
    put_place(to, before, x);
    put_place(to, " ", y);
}

/* What was told, where the letters that mean something in XML have their names; it is freed. */
static void put_told(FILE *to, FILE *from, struct told *told)
{
    told_all(from);
    for (size_t i = 0; i < told->length; i++)
        switch (told->text[i]) {
        case '&': fputs("&amp;", to); break;
        case '<': fputs("&lt;", to); break;
        case '>': fputs("&gt;", to); break;
        default: fputc(told->text[i], to);
        }
    free(told->text);
}

/* A text at this place; what stands in it is written to the answer, and ended by end_text. */
static FILE *start_text(FILE *to, double x, double y, const char *form, struct told *told)
{
    put_place(to, "<text x=\"", x);
    put_place(to, "\" y=\"", y);
    fprintf(to, "\"%s>", form);
    return told_to(told);
}

static void end_text(FILE *to, FILE *from, struct told *told)
{
    put_told(to, from, told);
    fputs("</text>\n", to);
}

double across(const struct place *at, double time)
{
    return LEFT + WIDE * place_on(&at->panel->across, time);
}

double up(const struct place *at, double value)
{
    return at->top + at->high * (1 - place_on(&at->d->up, value));
}

/* ---- axes */

static void write_grid(FILE *to, const struct place *at)
{
    const struct axis *x = &at->panel->across, *y = &at->d->up;
    fputs("<path class=\"grid\" fill=\"none\" stroke=\"" GRID "\" d=\"", to);
    for (int i = 0; i < x->ticks; i++) {
        put_places(to, "M", across(at, tick_at(x, i)), at->top);
        put_place(to, "V", at->top + at->high);
    }
    for (int i = 0; i < y->ticks; i++) {
        put_places(to, "M", LEFT, up(at, tick_at(y, i)));
        put_place(to, "H", LEFT + WIDE);
    }
    fputs("\"/>\n", to);
}

/* A tick's number at this place. */
static void put_number(FILE *to, const struct axis *axis, int i, double x, double y)
{
    char number[TICK_MOST];
    put_tick(number, axis, i);
    put_place(to, "<text x=\"", x);
    put_place(to, "\" y=\"", y);
    fprintf(to, "\">%s</text>\n", number);
}

static void write_ticks(FILE *to, const struct place *at)
{
    const struct axis *x = &at->panel->across, *y = &at->d->up;
    fputs("<g class=\"times\" text-anchor=\"middle\">\n", to);
    for (int i = 0; i < x->ticks; i++)
        put_number(to, x, i, across(at, tick_at(x, i)), at->top + at->high + 17);
    fputs("</g>\n<g class=\"values\" text-anchor=\"end\">\n", to);
    for (int i = 0; i < y->ticks; i++)
        put_number(to, y, i, LEFT - 8, up(at, tick_at(y, i)) + 4);
    fputs("</g>\n", to);
}

static void write_axes(FILE *to, const struct place *at)
{
    struct told told;
    double middle = at->top + at->high / 2;
    char turned[96];
    write_grid(to, at);
    put_places(to, "<path class=\"frame\" fill=\"none\" stroke=\"" FRAME "\" d=\"M", LEFT, at->top);
    put_place(to, "H", LEFT + WIDE);
    put_place(to, "V", at->top + at->high);
    put_place(to, "H", LEFT);
    fputs("Z\"/>\n", to);
    write_ticks(to, at);
    FILE *text = start_text(to, LEFT + WIDE / 2, at->top + at->high + 35, " text-anchor=\"middle\"", &told);
    write_axis(text, &at->panel->across, "time", at->d->micro);
    end_text(to, text, &told);
    snprintf(turned, sizeof turned, " text-anchor=\"middle\" transform=\"rotate(-90 18 %g)\"", middle);
    text = start_text(to, 18, middle, turned, &told);
    write_axis(text, &at->d->up, "value", at->d->micro);
    end_text(to, text, &told);
}

/* ---- the trigger and the peak */

/* A line with the word above it, or the word alone on the side where the trigger is. */
static void write_trigger_mark(FILE *to, const struct place *at)
{
    struct told told;
    int side = side_of_trigger(at->panel);
    double x = side < 0 ? LEFT : side > 0 ? LEFT + WIDE : across(at, 0);
    if (side == 0) {
        put_places(to, "<path class=\"trigger\" fill=\"none\" stroke=\"" INK "\" stroke-dasharray=\"5 4\" d=\"M", x, at->top - 4);
        put_place(to, "V", at->top + at->high);
        fputs("\"/>\n", to);
    }
    FILE *text = start_text(to, x, at->top - 8, side < 0 ? "" : side > 0 ? " text-anchor=\"end\"" : " text-anchor=\"middle\"", &told);
    write_trigger(text, at->d, at->panel);
    end_text(to, text, &told);
}

/* Where the gain is 0 all values are one. */
static void write_peak_mark(FILE *to, const struct place *at)
{
    if (float_at(at->d->o, TESSARQUIN_AT_VERTICAL_GAIN) == 0)
        return;
    put_place(to, "<circle class=\"peak\" fill=\"none\" stroke=\"" PALE "\" r=\"6\" cx=\"", across(at, at->panel->peak.time));
    put_place(to, "\" cy=\"", up(at, at->panel->peak.value));
    fputs("\"/>\n", to);
}

/* ---- words */

static void write_caption(FILE *to, const struct place *at)
{
    struct told told;
    FILE *text = start_text(to, LEFT, at->top - 26, "", &told);
    if (is_numbered(at->d)) {
        fputs("<tspan font-weight=\"bold\">", to);
        write_segment(text, at->d, at->panel);
        put_told(to, text, &told);
        fputs("</tspan>; ", to);
        text = told_to(&told);
    }
    write_numbers(text, at->d, at->panel);
    end_text(to, text, &told);
}

/* Below the plot at its right, where no other words come. */
static void write_legend(FILE *to, const struct place *at)
{
    struct told told;
    double line = at->top + at->high + 35;
    FILE *text = start_text(to, LEFT + WIDE - 24, line, " class=\"legend\" text-anchor=\"end\"", &told);
    write_rail(text, at->d, at->panel);
    end_text(to, text, &told);
    put_places(to, "<path class=\"legend\" stroke=\"" RAIL "\" stroke-width=\"5\" d=\"M", LEFT + WIDE - 18, line - 4);
    put_place(to, "H", LEFT + WIDE);
    fputs("\"/>\n", to);
}

static void write_heading(FILE *to, const struct drawing *d)
{
    struct told told;
    FILE *text = told_to(&told);
    fputs("<title>", to);
    write_label(text, d);
    fputs(", ", text);
    write_instrument(text, d->o, "instrument (none)");
    put_told(to, text, &told);
    fputs("</title>\n<rect width=\"100%\" height=\"100%\" fill=\"#ffffff\"/>\n", to);
    text = start_text(to, LEFT, 30, " font-size=\"18\" font-weight=\"bold\"", &told);
    write_label(text, d);
    end_text(to, text, &told);
    text = start_text(to, LEFT, 50, " fill=\"" PALE "\"", &told);
    write_subtitle(text, d);
    end_text(to, text, &told);
}

/* The more panels there are, the lower they are. */
static double height_of(uint32_t panels)
{
    return panels == 1 ? 400 : panels <= 3 ? 220 : panels <= 10 ? 150 : 110;
}

void write_picture(FILE *to, const struct drawing *d)
{
    double high = height_of(d->count), panel = ABOVE + high + BELOW, all = HEAD + d->count * panel;
    fprintf(to, "<svg xmlns=\"http://www.w3.org/2000/svg\" width=\"%d\" height=\"%g\" viewBox=\"0 0 %d %g\"",
            LEFT + WIDE + RIGHT, all, LEFT + WIDE + RIGHT, all);
    fputs(" font-family=\"sans-serif\" font-size=\"12\" fill=\"" INK "\">\n", to);
    write_heading(to, d);
    for (uint32_t i = 0; i < d->count; i++) {
        struct place at = {d, &d->panels[i], HEAD + i * panel + ABOVE, high};
        fputs("<g class=\"panel\">\n", to);
        write_axes(to, &at);
        write_signal(to, &at);
        write_peak_mark(to, &at);
        write_trigger_mark(to, &at);
        write_caption(to, &at);
        if (at.panel->at_rail > 0)
            write_legend(to, &at);
        fputs("</g>\n", to);
    }
    fputs("</svg>\n", to);
}
