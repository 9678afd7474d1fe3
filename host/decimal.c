/* Doubles as decimal numbers: the fewest of 15, 16 and 17 digits that are read back as the same double. */
#include "host.h"

#include <math.h>
#include <stdio.h>
#include <stdlib.h>
#include <string.h>

static char *repeat(char *to, char c, int times)
{
    for (; times > 0; times--)
        *to++ = c;
    return to;
}

static char *copy(char *to, const char *from, int length)
{
    memcpy(to, from, (size_t)length);
    return to + length;
}

/* The digits of n stand before `end`. Answers how many, at most 20. */
static int digits_of(uint64_t n, char *end)
{
    char *digit = end;
    do
        *--digit = (char)('0' + n % 10);
    while (n /= 10);
    return (int)(end - digit);
}

char *put_count(char *to, uint32_t n)
{
    char room[20], *end = room + sizeof room;
    int count = digits_of(n, end);
    return copy(to, end - count, count);
}

/* n / 10^p, for n above 0, in the form of printf's %g: with an exponent only where the number is below 0.0001. */
static char *put_scaled(char *to, uint64_t n, int p)
{
    for (; n % 10 == 0; n /= 10)
        p--;
    char room[20], *end = room + sizeof room;
    int count = digits_of(n, end), before = count - p;
    const char *digits = end - count;
    if (before <= -4) {
        to = copy(to, digits, 1);
        if (count > 1)
            to = copy(copy(to, ".", 1), digits + 1, count - 1);
        return put_count(copy(to, "e-0", before > -9 ? 3 : 2), (uint32_t)(1 - before));
    }
    if (before <= 0)
        return copy(repeat(copy(to, "0.", 2), '0', -before), digits, count);
    if (count <= before)
        return repeat(copy(to, digits, count), '0', before - count);
    return copy(copy(copy(to, digits, before), ".", 1), digits + before, count - before);
}

typedef unsigned __int128 wide;

/* 5^p, for p up to 27: the powers that 64 bits hold. */
static uint64_t five_to(int p)
{
    static uint64_t powers[28];
    if (!powers[0]) {
        powers[0] = 1;
        for (int i = 1; i < 28; i++)
            powers[i] = 5 * powers[i - 1];
    }
    return powers[p];
}

/*
 * x is m * 2^e, and x * 10^p, with 17 digits before the point, is near / 2^s in whole numbers. What stands between least
 * and most is read back as x, and so are these two where m is even. Tried are x rounded to hundreds, to tens, to ones.
 */
static char *put_exactly(char *to, double x)
{
    uint64_t bits;
    memcpy(&bits, &x, sizeof bits);
    uint64_t m = (bits & ((UINT64_C(1) << 52) - 1)) | UINT64_C(1) << 52;
    int e = (int)(bits >> 52) - 1075;
    /* 2^(e + 52) is at most x and above x / 2, and 1233 / 4096 is nearly log 2: this p is right, or one too large. */
    int p = 16 - (((e + 52) * 1233) >> 12);
    if ((wide)(4 * m) * five_to(p) >> (2 - e - p) >= UINT64_C(100000000000000000))
        p--;
    int s = 2 - e - p;
    wide near = (wide)(4 * m) * five_to(p);
    wide least = near - (wide)(m == UINT64_C(1) << 52 ? 1 : 2) * five_to(p), most = near + (wide)2 * five_to(p);
    for (uint64_t unit = 100;; unit /= 10) {
        uint64_t n = (uint64_t)(near >> s) / unit;
        wide rest = near - ((wide)(n * unit) << s), half = (wide)unit << (s - 1);
        n += rest > half || (rest == half && n % 2 == 1);
        wide there = (wide)(n * unit) << s;
        if ((there > least && there < most) || (m % 2 == 0 && (there == least || there == most)))
            return put_scaled(to, n * unit, p);
    }
}

/* What the C library writes and reads back: right for every double, and slow. */
static char *put_by_library(char *to, double x)
{
    int length = 0;
    for (int digits = 15; digits <= 17; digits++) {
        length = snprintf(to, DECIMAL_MOST, "%.*g", digits, x);
        if (strtod(to, NULL) == x)
            break;
    }
    return to + length;
}

char *put_decimal(char *to, double x)
{
    double size = fabs(x);
    if (!(size >= 1e-10 && size < 1e15))
        return put_by_library(to, x);
    return put_exactly(x < 0 ? copy(to, "-", 1) : to, size);
}

char *put_float(char *to, float x)
{
    int length = 0;
    for (int digits = 6; digits <= 9; digits++) {
        length = snprintf(to, DECIMAL_MOST, "%.*g", digits, (double)x);
        if (strtof(to, NULL) == x)
            break;
    }
    return to + length;
}

char *put_digits(char *to, double x, int digits)
{
    return to + snprintf(to, DECIMAL_MOST, "%.*g", digits, x);
}
