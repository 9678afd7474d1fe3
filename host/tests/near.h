/* Lines for the tests of setups: good ones, and those that are nearly good. */
#ifndef NEAR_H
#define NEAR_H

#include <stddef.h>
#include <stdio.h>
#include <string.h>

/* What is done with each line. */
typedef void visitor(const char *line, size_t length);

static const char *const good[] = {
    "WFSU SP,4,NP,0,FP,10,SN,0", "WFSU FP,7", "WAVEFORM_SETUP SN,4294967295,FP,0000000012,NP,3,SP,1000000000"};

enum { GOOD = sizeof good / sizeof *good, LINE_MOST = 120 };

/* Every start of a good line, and the whole. */
static inline void each_start(visitor *visit)
{
    for (size_t i = 0; i < GOOD; i++)
        for (size_t length = 0; length <= strlen(good[i]); length++)
            visit(good[i], length);
}

/* A good line without a byte, and with two neighbours swapped. */
static inline void visit_without(visitor *visit, const char *whole, size_t at)
{
    char line[LINE_MOST];
    size_t length = strlen(whole);
    sprintf(line, "%.*s%s", (int)at, whole, whole + at + 1);
    visit(line, length - 1);
    if (at + 1 < length) {
        sprintf(line, "%.*s%c%c%s", (int)at, whole, whole[at + 1], whole[at], whole + at + 2);
        visit(line, length);
    }
}

/* With every byte in the place of the one that stands there, and before it. */
static inline void visit_with(visitor *visit, const char *whole, size_t at)
{
    char line[LINE_MOST];
    size_t length = strlen(whole);
    for (int byte = 0; byte < 256; byte++) {
        memcpy(line, whole, at);
        line[at] = (char)byte;
        memcpy(line + at + 1, whole + at, length - at);
        visit(line, length + 1);
        if (at < length) {
            memcpy(line + at + 1, whole + at + 1, length - at - 1);
            visit(line, length);
        }
    }
}

static inline void each_change(visitor *visit)
{
    for (size_t i = 0; i < GOOD; i++) {
        size_t length = strlen(good[i]);
        for (size_t at = 0; at < length; at++)
            visit_without(visit, good[i], at);
        for (size_t at = 0; at <= length; at++)
            visit_with(visit, good[i], at);
    }
}

/* Keys in every order, from none to five of them, behind both words: all sets of pairs, and those with one twice. */
static inline void each_order(visitor *visit)
{
    static const char *const keys[] = {"SP", "NP", "FP", "SN"};
    for (int count = 0; count <= 5; count++)
        for (int which = 0; which < 1 << 2 * count; which++)
            for (int word = 0; word < 2; word++) {
                char line[LINE_MOST];
                size_t length = (size_t)sprintf(line, "%s ", word ? "WAVEFORM_SETUP" : "WFSU");
                for (int i = 0; i < count; i++)
                    length += (size_t)sprintf(line + length, "%s%s,%d", i ? "," : "", keys[which >> 2 * i & 3], 11 * (i + 1));
                visit(line, length);
            }
}

/* A value alone, and as the third of four. */
static inline void visit_value(visitor *visit, const char *value)
{
    char line[LINE_MOST];
    visit(line, (size_t)snprintf(line, sizeof line, "WFSU SN,%s", value));
    visit(line, (size_t)snprintf(line, sizeof line, "WFSU SP,1,NP,2,FP,%s,SN,0", value));
}

/* The limits, every digit at each place of the greatest value, and up to twelve digits alike. */
static inline void each_value(visitor *visit)
{
    static const char *const limits[] = {
        "4294967294", "4294967295", "4294967296", "4294967300", "5000000000", "9999999999", "2147483648", "0999999999", "10000000000", "04294967295",
        "42949672950", "18446744073709551616", "18446744073709551620", "-1", "+1", "1e3", "0x1", " 1", "1 ", "\xB2"};
    for (size_t i = 0; i < sizeof limits / sizeof *limits; i++)
        visit_value(visit, limits[i]);
    for (int digit = '0'; digit <= '9'; digit++) {
        for (size_t at = 0; at < 10; at++) {
            char value[] = "4294967295";
            value[at] = (char)digit;
            visit_value(visit, value);
        }
        for (size_t digits = 0; digits <= 12; digits++) {
            char value[13] = "";
            memset(value, digit, digits);
            visit_value(visit, value);
        }
    }
}

/* Up to five pieces in every order, behind a word and a blank, and up to four of them alone. */
static inline void each_mix(visitor *visit)
{
    static const char *const pieces[] = {"SP", "SN,", ",", "NP,1", ",FP,07", "0", "4294967296", " ", "sn,"};
    enum { PIECES = sizeof pieces / sizeof *pieces };
    for (int count = 1, all = PIECES; count <= 5; count++, all *= PIECES)
        for (int which = 0; which < all; which++) {
            char line[LINE_MOST] = "WFSU ";
            for (int i = 0, rest = which; i < count; i++, rest /= PIECES)
                strcat(line, pieces[rest % PIECES]);
            visit(line, strlen(line));
            if (count < 5)
                visit(line + 5, strlen(line) - 5);
        }
}

static inline void each_line(visitor *visit)
{
    each_start(visit);
    each_change(visit);
    each_order(visit);
    each_value(visit);
    each_mix(visit);
}

#endif
