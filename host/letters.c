/* The drawing with letters, for a terminal: plain ASCII but for the texts of the file. */
#include "draw.h"

#include <math.h>
#include <stdlib.h>
#include <string.h>

/* Rows of a panel's plot; and the letters of a column, of one at the rail, of the line between two, and of the trigger. */
enum { ROWS = 16 };
enum { COLUMN = '*', AT_RAIL = '#', BETWEEN = '.', TRIGGER = ':' };

/* The plot of a panel. */
struct plot {
    const struct drawing *d;
    const struct panel *panel;
    uint32_t width;
    char *cells; /* row by row, the highest values first */
};

int letter_ticks(uint32_t width)
{
    return width < 50 ? 5 : (int)width / 10;
}

/* ---- the plot */

static int row_of(const struct plot *plot, double value)
{
    return (int)lround((1 - place_on(&plot->d->up, value)) * (ROWS - 1));
}

static int letter_of(const struct plot *plot, double time)
{
    return (int)lround(place_on(&plot->panel->across, time) * (plot->width - 1));
}

static char *cell(const struct plot *plot, int row, int letter)
{
    return plot->cells + (size_t)row * plot->width + (size_t)letter;
}

/* A column: where it stands, and its rows. */
struct upright {
    int letter, top, bottom;
};

/* A column for each letter, or a point at its time. Times that run backwards are drawn so. */
static struct upright upright_of(const struct plot *plot, uint32_t q)
{
    const double *times = plot->panel->times;
    struct range values = values_in(plot->d, plot->panel, q);
    int last = (int)plot->width - 1, backwards = times[plot->d->columns] < times[0];
    int letter = is_pointwise(plot->d) ? letter_of(plot, times[q]) : backwards ? last - (int)q : (int)q;
    return (struct upright){letter, row_of(plot, values.to), row_of(plot, values.from)};
}

/* The line from the end of one column to the nearest end of the next. */
static void join_columns(const struct plot *plot, struct upright one, struct upright other)
{
    int from = other.top > one.bottom ? one.bottom : one.top, to = other.top > one.bottom ? other.top : other.bottom;
    int rows = to - from, letters = other.letter - one.letter, steps = abs(rows) > abs(letters) ? abs(rows) : abs(letters);
    if (other.top <= one.bottom && other.bottom >= one.top && abs(letters) <= 1)
        return;
    for (int i = 1; i < steps; i++)
        *cell(plot, from + (int)lround((double)rows * i / steps), one.letter + (int)lround((double)letters * i / steps)) = BETWEEN;
}

static void put_columns(const struct plot *plot)
{
    uint32_t columns = plot->d->columns;
    if (side_of_trigger(plot->panel) == 0)
        for (int row = 0; row < ROWS; row++)
            *cell(plot, row, letter_of(plot, 0)) = TRIGGER;
    for (uint32_t q = 1; q < columns; q++)
        join_columns(plot, upright_of(plot, q - 1), upright_of(plot, q));
    for (uint32_t q = 0; q < columns; q++) {
        struct upright column = upright_of(plot, q);
        for (int row = column.top; row <= column.bottom; row++)
            if (*cell(plot, row, column.letter) != AT_RAIL)
                *cell(plot, row, column.letter) = is_at_rail(plot->d, plot->panel, q) ? AT_RAIL : COLUMN;
    }
}

/* ---- what stands about it */

/* A line without the blanks at its end. */
static void put_line(FILE *to, const char *line, size_t length)
{
    while (length > 0 && line[length - 1] == ' ')
        length--;
    fwrite(line, 1, length, to);
    fputc('\n', to);
}

/* The longest of the numbers at the left. */
static int margin_of(const struct axis *up)
{
    size_t longest = 0;
    char number[TICK_MOST];
    for (int i = 0; i < up->ticks; i++) {
        put_tick(number, up, i);
        longest = strlen(number) > longest ? strlen(number) : longest;
    }
    return (int)longest;
}

static void put_rows(FILE *to, const struct plot *plot, int margin)
{
    const struct axis *up = &plot->d->up;
    for (int row = 0; row < ROWS; row++) {
        char number[TICK_MOST] = "";
        for (int i = 0; i < up->ticks; i++)
            if (row_of(plot, tick_at(up, i)) == row)
                put_tick(number, up, i);
        fprintf(to, "%*s %c", margin, number, *number ? '+' : '|');
        put_line(to, cell(plot, row, 0), plot->width);
    }
}

/* The lower edge with its ticks, and below it those of their numbers that do not touch the one before. */
static void put_times(FILE *to, const struct plot *plot, int margin)
{
    const struct axis *axis = &plot->panel->across;
    size_t room = (size_t)margin + 2 + plot->width + TICK_MOST;
    char *edge = memory(room), *numbers = memory(room), number[TICK_MOST];
    memset(edge, ' ', room);
    memset(numbers, ' ', room);
    edge[margin + 1] = '+';
    memset(edge + margin + 2, '-', plot->width);
    int free_from = 0;
    for (int i = 0; i < axis->ticks; i++) {
        int at = margin + 2 + letter_of(plot, tick_at(axis, i));
        put_tick(number, axis, i);
        int length = (int)strlen(number), from = at - length / 2 > 0 ? at - length / 2 : 0;
        edge[at] = '+';
        if (from >= free_from)
            memcpy(numbers + from, number, (size_t)length), free_from = from + length + 1;
    }
    put_line(to, edge, room);
    put_line(to, numbers, room);
    free(edge);
    free(numbers);
}

/* A text of which so many halves stand before the letter `at`, but none before the line's start. */
static void put_about(FILE *to, FILE *from, struct told *told, int halves, int at)
{
    told_all(from);
    int before = at - (int)told->length * halves / 2;
    fprintf(to, "%*s%s\n", before > 0 ? before : 0, "", told->text);
    free(told->text);
}

static void put_words(FILE *to, const struct plot *plot, int margin)
{
    struct told told;
    if (is_numbered(plot->d)) {
        write_segment(to, plot->d, plot->panel);
        fputc('\n', to);
    }
    write_numbers(to, plot->d, plot->panel);
    fputs("\n\n", to);
    write_axis(to, &plot->d->up, "value", plot->d->micro);
    fputc('\n', to);
    int side = side_of_trigger(plot->panel);
    FILE *text = told_to(&told);
    write_trigger(text, plot->d, plot->panel);
    put_about(to, text, &told, side + 1, margin + 2 + (side == 0 ? letter_of(plot, 0) : side > 0 ? (int)plot->width : 0));
}

static void put_panel(FILE *to, const struct plot *plot, int margin)
{
    struct told told;
    memset(plot->cells, ' ', (size_t)ROWS * plot->width);
    put_columns(plot);
    put_words(to, plot, margin);
    put_rows(to, plot, margin);
    put_times(to, plot, margin);
    FILE *text = told_to(&told);
    write_axis(text, &plot->panel->across, "time", plot->d->micro);
    put_about(to, text, &told, 1, margin + 2 + (int)plot->width / 2);
    if (plot->panel->at_rail > 0) {
        fprintf(to, "%c ", AT_RAIL);
        write_rail(to, plot->d, plot->panel);
        fputc('\n', to);
    }
}

void write_letters(FILE *to, const struct drawing *d, uint32_t width)
{
    struct plot plot = {.d = d, .width = width, .cells = memory((size_t)ROWS * width)};
    write_label(to, d);
    fputc('\n', to);
    write_subtitle(to, d);
    fputc('\n', to);
    for (uint32_t i = 0; i < d->count; i++) {
        plot.panel = &d->panels[i];
        fputc('\n', to);
        put_panel(to, &plot, margin_of(&d->up));
    }
    free(plot.cells);
}
