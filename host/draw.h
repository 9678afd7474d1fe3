/* What the files that draw a picture share. */
#ifndef DRAW_H
#define DRAW_H

#include "host.h"

/* ---- axes.c: round numbers along an axis, and numbers with their unit */

/* Ticks stand at whole multiples of `step` times a power of ten, where step is 1, 2 or 5. */
struct axis {
    double from, to;
    struct part unit;
    int64_t first; /* the first multiple that is a tick */
    int ticks;
    int step, step_power;
    int power;    /* numbers at the ticks are written in this power of ten */
    int64_t base; /* the multiple that they are written from: 0, but where the numbers would be long */
};

/* An axis over this range with at most so many ticks, which are five or more: with fewer, the step of a range that is as
   wide as the doubles would be none of them. */
struct axis axis_over(struct range range, struct part unit, int most);

/* The range, or where it is so narrow that its ends cannot be told apart, `around` to both sides of it; where that is
   too little to be seen, a tenth of its size. */
struct range broad(struct range range, double around);

/* Where x stands on the axis: 0 at its start, 1 at its end. */
double place_on(const struct axis *axis, double x);

/* Tick i: its number, and how it is written, in at most TICK_MOST bytes with the zero behind them. */
#define TICK_MOST 32
double tick_at(const struct axis *axis, int i);
void put_tick(char *to, const struct axis *axis, int i);

/* The axis in words: time (us). `micro` is how the prefix of a millionth is written. */
void write_axis(FILE *to, const struct axis *axis, const char *name, const char *micro);

/* A number of this axis with its unit, in the digits that can be told apart on it. */
void write_number(FILE *to, const struct axis *axis, double x, const char *micro);

/* ---- draw.c: the command, and what is drawn */

/* What of a file is drawn: of all segments, or where `one` is set of this one; in at most so many columns, or in as many
   as suit the form where that is 0; with letters where `text` is set. */
struct view {
    uint32_t array, segment, width;
    int one, text;
};

#define WIDTH_MOST 9600u

/* A picture to `to`, or to standard output where that is null. */
void draw(const char *name, const char *to, int replace, struct view view);

/* A segment, as the library answered its strip, and where its columns stand. */
struct panel {
    uint32_t segment;
    uint8_t *least, *greatest; /* samples, by column */
    double *times;             /* of the first point of each column, and behind them of the last point */
    struct range span;         /* from the earliest of these times to the latest, with that of the peak */
    struct axis across;
    double mean;
    uint64_t at_rail;
    struct point peak;
};

struct drawing {
    const struct opened *o;
    uint32_t array, columns, count;
    struct panel *panels;
    struct axis up; /* all panels have it */
    const char *micro;
};

/* The values of column q, from the least to the greatest; and whether one of its samples stands at the rail. */
struct range values_in(const struct drawing *d, const struct panel *panel, uint32_t q);
int is_at_rail(const struct drawing *d, const struct panel *panel, uint32_t q);

/* Whether each point has a column of its own. */
int is_pointwise(const struct drawing *d);

/* ---- captions.c: what is said in words, in a picture and in a terminal */

void write_label(FILE *to, const struct drawing *d);
void write_subtitle(FILE *to, const struct drawing *d);

/* Whether segments have numbers, which a trace of one has where it was fetched or cut alone; and which one this is, and
   when it was triggered. */
int is_numbered(const struct drawing *d);
void write_segment(FILE *to, const struct drawing *d, const struct panel *panel);

/* The value and the time of the peak, and the mean; and how many samples stand at the rail. */
void write_numbers(FILE *to, const struct drawing *d, const struct panel *panel);
void write_rail(FILE *to, const struct drawing *d, const struct panel *panel);

/* Where time 0, the trigger, is: below 0 before the first point, above 0 behind the last, 0 between them; and what is
   said of it. */
int side_of_trigger(const struct panel *panel);
void write_trigger(FILE *to, const struct drawing *d, const struct panel *panel);

/* ---- picture.c, letters.c: the drawing as SVG, and with letters in a terminal */

void write_picture(FILE *to, const struct drawing *d);

/* So many letters wide; and how many ticks it has below at most. */
void write_letters(FILE *to, const struct drawing *d, uint32_t width);
int letter_ticks(uint32_t width);

#endif
