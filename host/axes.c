/* Axes: ticks at round numbers, by a prefix of the unit or a power of ten so that the numbers beside them stay short. */
#include "draw.h"

#include <float.h>
#include <math.h>
#include <stdlib.h>
#include <string.h>

/* ---- powers of ten */

static double ten_to(int power)
{
    return power < 0 ? 1 / pow(10, -power) : pow(10, power);
}

/* The power of ten of the first digit of x, which is above 0. */
static int power_of(double x)
{
    return (int)floor(log10(x));
}

/* ---- units */

static int is_unit(struct part unit, const char *name)
{
    return unit.length == strlen(name) && memcmp(unit.bytes, name, unit.length) == 0;
}

/* Before these a prefix is understood; before dB or V*V it would say something else. */
static int takes_prefix(struct part unit)
{
    static const char *const names[] = {"V", "A", "W", "s", "S", "Hz", "HZ", "J", "C", "F", "H", "OHM", "Ohm", "\316\251"};
    for (size_t i = 0; i < sizeof names / sizeof *names; i++)
        if (is_unit(unit, names[i]))
            return 1;
    return 0;
}

/* The prefix for a power of ten, or null where there is none. */
static const char *prefix_of(struct part unit, int power, const char *micro)
{
    const char *const prefixes[] = {"f", "p", "n", micro, "m", "", "k", "M", "G", "T"};
    return takes_prefix(unit) && power % 3 == 0 && power >= -15 && power <= 12 ? prefixes[power / 3 + 5] : NULL;
}

/* The power of ten in which a number of this size is short. One that is no prefix takes room itself: then a number is
   written without it as long as it has a few digits. */
static int power_for(double size, struct part unit)
{
    if (size == 0 || (!takes_prefix(unit) && size >= 0.01 && size < 100000))
        return 0;
    return 3 * (int)floor(power_of(size) / 3.0);
}

/* A unit may have 48 bytes, and a byte that is no letter takes four: what the picture has no room for is cut off. */
static void write_short(FILE *to, struct part unit)
{
    enum { MOST = 10 };
    struct told told;
    FILE *whole = told_to(&told);
    write_text(whole, unit.bytes, unit.length);
    told_all(whole);
    size_t length = told.length;
    if (length > MOST)
        for (length = MOST - 2; (told.text[length] & 0xC0) == 0x80;)
            length--;
    fwrite(told.text, 1, length, to);
    if (length < told.length)
        fputs("..", to);
    free(told.text);
}

/* ---- the range */

struct range broad(struct range range, double around)
{
    double middle = range.from / 2 + range.to / 2, half = range.to / 2 - range.from / 2, size = fabs(middle);
    if (half > 1e-300 && half > 1e-13 * size)
        return range;
    half = around > 1e-6 * size && around > 1e-300 ? around : size > 1e-300 ? size / 10 : 1;
    return (struct range){fmax(middle - half, -DBL_MAX), fmin(middle + half, DBL_MAX)};
}

/* ---- ticks */

/* The least of the round steps that gives at most so many ticks. Halves, since a range may be wider than a double. */
static void choose_step(struct axis *axis, int most)
{
    static const int steps[] = {1, 2, 5};
    double half = axis->to / 2 - axis->from / 2, least = half / (most - 1) * 2;
    for (int i = 0;; i++) {
        axis->step = steps[i % 3];
        axis->step_power = power_of(least) + i / 3;
        if (axis->step * ten_to(axis->step_power) >= least * (1 - 1e-9))
            return;
    }
}

struct axis axis_over(struct range range, struct part unit, int most)
{
    struct axis axis = {.from = range.from, .to = range.to, .unit = unit};
    double size = fmax(fabs(range.from), fabs(range.to));
    choose_step(&axis, most);
    double step = axis.step * ten_to(axis.step_power);
    axis.first = (int64_t)ceil(range.from / step - 1e-9);
    axis.ticks = (int)((int64_t)floor(range.to / step + 1e-9) - axis.first) + 1;
    axis.power = power_for(size, unit);
    if (power_of(size) - axis.step_power > 5) {
        axis.base = axis.first;
        axis.power = power_for(range.to - range.from, unit);
    }
    return axis;
}

double place_on(const struct axis *axis, double x)
{
    return (x / 2 - axis->from / 2) / (axis->to / 2 - axis->from / 2);
}

static double multiple(const struct axis *axis, int64_t n)
{
    double number = (double)(n * axis->step);
    return axis->step_power < 0 ? number / pow(10, -axis->step_power) : number * pow(10, axis->step_power);
}

double tick_at(const struct axis *axis, int i)
{
    return multiple(axis, axis->first + i);
}

void put_tick(char *to, const struct axis *axis, int i)
{
    double number = (double)((axis->first + i - axis->base) * axis->step);
    int decimals = axis->power - axis->step_power;
    snprintf(to, TICK_MOST, "%.*f", decimals > 0 ? decimals : 0, decimals > 0 ? number / pow(10, decimals) : number * pow(10, -decimals));
}

/* ---- numbers with their unit */

/* With at most so many digits behind the point, and no zeros at their end. */
static void put_fixed(char *to, double x, int decimals)
{
    snprintf(to, DECIMAL_MOST, "%.*f", decimals > 0 ? decimals : 0, x);
    size_t length = strlen(to);
    while (decimals > 0 && to[length - 1] == '0' && decimals--)
        length--;
    to[length - (to[length - 1] == '.')] = 0;
}

static void write_plain(FILE *to, double x, struct part unit)
{
    char number[DECIMAL_MOST + 1];
    *put_decimal(number, x) = 0;
    fputs(number, to);
    if (unit.length > 0)
        fputc(' ', to);
    write_short(to, unit);
}

void write_axis(FILE *to, const struct axis *axis, const char *name, const char *micro)
{
    const char *prefix = prefix_of(axis->unit, axis->power, micro);
    fputs(name, to);
    if (axis->base != 0) {
        double base = multiple(axis, axis->base);
        fputs(base < 0 ? " plus " : " less ", to);
        write_plain(to, fabs(base), axis->unit);
    }
    if (axis->unit.length == 0 && axis->power == 0)
        return;
    fputs(" (", to);
    if (prefix)
        fputs(prefix, to);
    else if (axis->power != 0)
        fprintf(to, "1e%d%s", axis->power, axis->unit.length > 0 ? " " : "");
    write_short(to, axis->unit);
    fputc(')', to);
}

/* The last digit is the fifth behind the first one of the span, or where the numbers at the ticks are short the sixth of
   the number, if that comes before. */
static int last_power(const struct axis *axis, double x)
{
    int span = power_of(axis->to / 2 - axis->from / 2) - 5;
    return axis->base == 0 && x != 0 ? (int)fmax(span, power_of(fabs(x)) - 5) : span;
}

void write_number(FILE *to, const struct axis *axis, double x, const char *micro)
{
    int last = last_power(axis, x);
    double rounded = last > -300 ? round(x / ten_to(last)) * ten_to(last) + 0.0 : x;
    int power = axis->base == 0 ? axis->power : power_for(fabs(rounded), axis->unit);
    const char *prefix = prefix_of(axis->unit, power, micro);
    char number[DECIMAL_MOST + 1];
    if (prefix)
        put_fixed(number, rounded / ten_to(power), power - last);
    else
        *put_digits(number, rounded, rounded == 0 ? 1 : power_of(fabs(rounded)) - last + 1) = 0;
    fprintf(to, "%s%s%s", number, axis->unit.length > 0 ? " " : "", prefix ? prefix : "");
    write_short(to, axis->unit);
}
