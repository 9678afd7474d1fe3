/* The columns of a panel in SVG, from the least to the greatest value of each, and those at the rail in their colour. */
#include "picture.h"

#include <math.h>

/* From so many columns on each is a line; up to so many points have a dot each. */
enum { UPRIGHTS = WIDE * 3 / 4, DOTS_MOST = 160 };

/* ---- columns of several points, as broad as a line */

/* One upright line after another, each from the end that is nearer to the one before. */
static void write_uprights(FILE *to, const struct place *at)
{
    const double *times = at->panel->times;
    double breadth = 1.5 * WIDE / at->d->columns, y = 0;
    fprintf(to, "<path class=\"signal\" fill=\"none\" stroke=\"" SIGNAL "\" stroke-width=\"%.3g\" stroke-linejoin=\"round\" d=\"",
            fmax(0.4, fmin(1.5, breadth)));
    for (uint32_t q = 0; q < at->d->columns; q++) {
        struct range values = values_in(at->d, at->panel, q);
        double top = up(at, values.to), bottom = up(at, values.from);
        int down = q == 0 || fabs(top - y) < fabs(bottom - y);
        put_places(to, q == 0 ? "M" : "L", (across(at, times[q]) + across(at, times[q + 1])) / 2, down ? top : bottom);
        y = down ? bottom : top;
        put_place(to, "V", y);
    }
    fputs("\"/>\n", to);
}

/* ---- columns of several points, as broad as they are */

/* There along the greatest values and back along the least: between two columns both edges have the same upright line, so
   that none stands apart. */
static void write_steps(FILE *to, const struct place *at)
{
    const struct panel *panel = at->panel;
    uint32_t columns = at->d->columns;
    fputs("<path class=\"signal\" fill=\"" SIGNAL "\" stroke=\"" SIGNAL "\" stroke-width=\"1.5\" stroke-linejoin=\"round\" d=\"", to);
    put_places(to, "M", across(at, panel->times[0]), up(at, values_in(at->d, panel, 0).to));
    for (uint32_t q = 0; q < columns; q++) {
        if (q > 0)
            put_place(to, "V", up(at, values_in(at->d, panel, q).to));
        put_place(to, "H", across(at, panel->times[q + 1]));
    }
    for (uint32_t q = columns; q-- > 0;) {
        put_place(to, "V", up(at, values_in(at->d, panel, q).from));
        put_place(to, "H", across(at, panel->times[q]));
    }
    fputs("Z\"/>\n", to);
}

static void write_steps_at_rail(FILE *to, const struct place *at)
{
    const struct panel *panel = at->panel;
    fputs("<path class=\"rail\" fill=\"" RAIL "\" stroke=\"" RAIL "\" stroke-width=\"3\" d=\"", to);
    for (uint32_t q = 0; q < at->d->columns; q++)
        if (is_at_rail(at->d, panel, q)) {
            struct range values = values_in(at->d, panel, q);
            put_places(to, "M", across(at, panel->times[q]), up(at, values.to));
            put_place(to, "H", across(at, panel->times[q + 1]));
            put_place(to, "V", up(at, values.from));
            put_place(to, "H", across(at, panel->times[q]));
            fputs("Z", to);
        }
    fputs("\"/>\n", to);
}

/* ---- points, each a column of its own */

static double point_up(const struct place *at, uint32_t k)
{
    return up(at, values_in(at->d, at->panel, k).to);
}

static void write_points(FILE *to, const struct place *at)
{
    const double *times = at->panel->times;
    fputs("<polyline class=\"signal\" fill=\"none\" stroke=\"" SIGNAL "\" stroke-width=\"1.5\" stroke-linejoin=\"round\" points=\"", to);
    for (uint32_t k = 0; k < at->d->columns; k++)
        put_places(to, k > 0 ? " " : "", across(at, times[k]), point_up(at, k));
    fputs("\"/>\n", to);
}

/* From halfway before each such point to halfway behind it. */
static void write_points_at_rail(FILE *to, const struct place *at)
{
    const double *times = at->panel->times;
    uint32_t last = at->d->columns - 1;
    fputs("<path class=\"rail\" fill=\"none\" stroke=\"" RAIL "\" stroke-width=\"5\" stroke-linejoin=\"round\" d=\"", to);
    for (uint32_t k = 0; k <= last; k++)
        if (is_at_rail(at->d, at->panel, k)) {
            uint32_t before = k > 0 ? k - 1 : 0, behind = k < last ? k + 1 : last;
            double x = across(at, times[k]), y = point_up(at, k);
            put_places(to, "M", (across(at, times[before]) + x) / 2, (point_up(at, before) + y) / 2);
            put_places(to, "L", x, y);
            put_places(to, "L", (across(at, times[behind]) + x) / 2, (point_up(at, behind) + y) / 2);
        }
    fputs("\"/>\n", to);
}

static void write_dots(FILE *to, const struct place *at)
{
    fputs("<g class=\"dots\" fill=\"" SIGNAL "\">\n", to);
    for (uint32_t k = 0; k < at->d->columns; k++) {
        put_place(to, "<circle cx=\"", across(at, at->panel->times[k]));
        put_place(to, "\" cy=\"", point_up(at, k));
        fputs(is_at_rail(at->d, at->panel, k) ? "\" r=\"4\" fill=\"" RAIL "\"/>\n" : "\" r=\"2.5\"/>\n", to);
    }
    fputs("</g>\n", to);
}

void write_signal(FILE *to, const struct place *at)
{
    if (!is_pointwise(at->d)) {
        if (at->d->columns < UPRIGHTS)
            write_steps(to, at);
        else
            write_uprights(to, at);
        if (at->panel->at_rail > 0)
            write_steps_at_rail(to, at);
        return;
    }
    write_points(to, at);
    if (at->panel->at_rail > 0)
        write_points_at_rail(to, at);
    if (at->d->columns <= DOTS_MOST)
        write_dots(to, at);
}
