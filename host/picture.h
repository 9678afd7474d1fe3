/* What the files that write a picture share. */
#ifndef PICTURE_H
#define PICTURE_H

#include "draw.h"

/* In the picture's units: where the plots start, and how wide they are. */
enum { LEFT = 84, WIDE = 960 };

/* Colours that stay apart in grey: the signal is dark, and what stands at the rail is light and broad. */
#define SIGNAL "#1d4f7c"
#define RAIL "#f28c28"

/* A panel, the upper edge of its plot in the picture, and the plot's height. */
struct place {
    const struct drawing *d;
    const struct panel *panel;
    double top, high;
};

/* Where a time and a value stand in the picture. */
double across(const struct place *at, double time);
double up(const struct place *at, double value);

/* A place, behind a letter of a path or what else stands before it, in hundredths without zeros at their end; and two. */
void put_place(FILE *to, const char *before, double x);
void put_places(FILE *to, const char *before, double x, double y);

/* ---- signal.c: the columns */

void write_signal(FILE *to, const struct place *at);

#endif
