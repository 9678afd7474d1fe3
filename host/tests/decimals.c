/*
 * Tests of the program's decimal numbers against what the C library writes and reads back. Prints one line and ends
 * with 0, or prints the first that differs and ends with 1.
 */
#include "host.h"

#include <math.h>
#include <stdio.h>
#include <stdlib.h>
#include <string.h>

static unsigned long checked;

/* The fewest of 15, 16 and 17 digits that are read back as x. */
static void check(double x)
{
    char expected[DECIMAL_MOST], got[DECIMAL_MOST + 1];
    if (!isfinite(x))
        return;
    for (int digits = 15; digits <= 17; digits++) {
        snprintf(expected, sizeof expected, "%.*g", digits, x);
        if (strtod(expected, NULL) == x)
            break;
    }
    *put_decimal(got, x) = 0;
    checked++;
    if (strcmp(expected, got) == 0)
        return;
    printf("%a is written as %s, not %s\n", x, got, expected);
    exit(1);
}

static double with_bits(uint64_t bits)
{
    double x;
    memcpy(&x, &bits, sizeof x);
    return x;
}

/* x and its neighbours, of both signs. */
static void check_near(double x)
{
    uint64_t bits;
    memcpy(&bits, &x, sizeof bits);
    for (uint64_t near = bits - 1; near <= bits + 1; near++) {
        check(with_bits(near));
        check(-with_bits(near));
    }
}

static uint64_t random_bits(void)
{
    static uint64_t state = 88172645463325252u;
    state ^= state << 13;
    state ^= state >> 7;
    return state ^= state << 17;
}

static float random_float(void)
{
    return ldexpf((float)(random_bits() >> 40), -(int)(random_bits() % 60));
}

int main(void)
{
    check(0.0);
    check(-0.0);
    for (int e = -1074; e < 1024; e++)
        check_near(ldexp(1.0, e));
    for (int e = -30; e < 30; e++)
        for (int digit = 1; digit < 10; digit++) {
            char text[8];
            snprintf(text, sizeof text, "%de%d", digit, e);
            check_near(strtod(text, NULL));
        }
    for (int i = 0; i < 10000; i++) {
        /* of every size; of the sizes that volts and seconds have, with few digits and many; of the form of a value */
        double small = ldexp((double)(random_bits() >> 11), (int)(random_bits() % 90) - 90);
        char text[32];
        snprintf(text, sizeof text, "%ue%d", (unsigned)(random_bits() >> (32 + random_bits() % 32)), (int)(random_bits() % 25) - 15);
        check(with_bits(random_bits()));
        check(small);
        check(strtod(text, NULL));
        check((double)random_float() * (double)((int)(random_bits() % 65536) - 32768) - (double)random_float());
    }
    printf("decimals: %lu numbers are as the C library writes them\n", checked);
    return 0;
}
