/*
 * Tests of what is told of a line that somebody typed: of each that the library refuses something is found, and of one that
 * it takes nothing. Prints one line and ends with 0, or prints what differed and ends with 1.
 */
#include "host.h"
#include "near.h"
#include "tessarquin.h"

#include <stdlib.h>

static unsigned checked;

static void check(int holds, const char *line, size_t length, const char *text, const char *what)
{
    checked++;
    if (holds)
        return;
    printf("%.*s: %s: %s\n", (int)length, line, text, what);
    exit(1);
}

static int is_taken(const char *line, size_t length)
{
    uint8_t answer[TESSARQUIN_SETUP_READ_BYTES];
    return tessarquin_setup_read((const uint8_t *)line, length, answer, sizeof answer) == TESSARQUIN_OK;
}

/* Whether so much of a line can be the start of one that is taken. */
static int goes_on(const char *line, size_t length)
{
    static const char *const rests[] = {"", "WFSU SP,0", " SP,0", "SP,0", "NP,0", "FP,0", "SN,0", ",0", "0"};
    char whole[LINE_MOST + 10];
    for (size_t i = 0; i < sizeof rests / sizeof *rests; i++) {
        memcpy(whole, line, length);
        strcpy(whole + length, rests[i]);
        if (is_taken(whole, length + strlen(rests[i])))
            return 1;
    }
    return 0;
}

static int is_printable(const char *text)
{
    for (; *text; text++)
        if (*text < 0x20 || *text > 0x7E)
            return 0;
    return 1;
}

/* The place that is told is behind what is right: up to there a line can go on. A key that stands twice is told by both
   places. */
static void is_told(const char *line, size_t length)
{
    struct told told;
    FILE *to = told_to(&told);
    unsigned at, other;
    char key[3];
    found_in_line(to, (const uint8_t *)line, length);
    told_all(to);
    check(is_taken(line, length) == (told.length == 0), line, length, told.text, "nothing is found in a line that is refused, or something in one that is taken");
    check(is_printable(told.text), line, length, told.text, "a byte that a terminal takes for its own");
    if (sscanf(told.text, "at byte %u ", &at) == 1)
        check(at >= 1 && at <= length + 1 && goes_on(line, at - 1), line, length, told.text, "the line is wrong before that");
    else if (told.length > 0)
        check(sscanf(told.text, "%2s stands twice, at byte %u and at byte %u", key, &at, &other) == 3 && at < other && other < length
                  && memcmp(line + at - 1, key, 2) == 0 && memcmp(line + other - 1, key, 2) == 0, line, length, told.text, "it does not stand there");
    free(told.text);
}

int main(void)
{
    each_line(is_told);
    printf("typed: %u checks held\n", checked);
    return 0;
}
