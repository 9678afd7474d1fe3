/*
 * Work to be counted: bench lib|c CASE POINTS TIMES does it so many times, on so many points, segments or parts; bench
 * time lib|c CASE POINTS prints the nanoseconds of one; bench stack prints how much stack each call takes. The case of a
 * strip has the points of a column behind a colon, as in strip-byte:64.
 */
#include "blocks.h"
#include "measured.h"
#include "same.h"
#include "tessarquin.h"

#include <stdio.h>
#include <stdlib.h>
#include <time.h>
#include <ucontext.h>

static uint8_t *block, *out;
static size_t columns;
static double *values;
static size_t length, samples, points;
static uint8_t answer[TESSARQUIN_LAYOUT_BYTES];
static const float gain = 0.5f, offset = 0.25f;

/* ---- blocks: one segment of words or bytes, or many segments with trigger times */

static void make(int order, size_t width, size_t segments, size_t in_each, int trigger)
{
    struct shape s = {order, (uint32_t)width - 1, (uint32_t)segments, (uint32_t)in_each, trigger};
    points = segments * in_each;
    length = block_bytes(s);
    samples = samples_at(s);
    block = malloc(length);
    out = malloc(length + 16 * points + 64);
    values = malloc(points * sizeof *values);
    if (!block || !out || !values)
        exit(2);
    put_block(block, s);
}

/* The same payload behind the header that a logger writes. */
static void with_six_digits(void)
{
    enum { SIX = 8 };
    char header[SIX + 21];
    snprintf(header, sizeof header, "#6%06zu", length - HEADER);
    block += HEADER - SIX;
    length -= HEADER - SIX;
    samples -= HEADER - SIX;
    memcpy(block, header, SIX);
}

/* So many segments of words with trigger times, each a block of its own, back to back and out of order: part i has the
   index 7 i + 4, from 1 on, which is each index once where 7 does not divide their number. */
static size_t parts, part_length;

static void make_parts(int order, size_t count, size_t in_each)
{
    struct shape s = {order, 1, 1, (uint32_t)in_each, 1};
    parts = count;
    part_length = block_bytes(s);
    length = count * part_length;
    block = malloc(length);
    out = malloc(length + TESSARQUIN_JOIN_MORE);
    if (!block || !out)
        exit(2);
    for (size_t i = 0; i < count; i++) {
        uint8_t *part = block + i * part_length;
        size_t index = (7 * i + 3) % count + 1;
        put_block(part, s);
        put(part, order, 140, 4, index);
        put_double(part, order, DESCRIPTOR_BYTES, 100.0 * (double)index);
    }
}

/* The last part with the index of the one before it. */
static void with_index_twice(int order)
{
    put(block + (parts - 1) * part_length, order, 140, 4, (7 * (parts - 2) + 3) % parts + 1);
}

/* All samples 0, and where so many points stand before it, the greatest at one. */
static void with_flat_samples(size_t width, size_t before)
{
    memset(block + samples, 0, points * width);
    if (before < points)
        memset(block + samples + before * width, 0x7F, width);
}

/* Samples that no rule foretells, up to half of their range; and where they are clipped, twice as high, cut off at the rail. */
static void with_noise(int order, size_t width, int clipped)
{
    int32_t most = width == 1 ? INT8_MAX : INT16_MAX;
    uint32_t state = 1;
    for (size_t k = 0; k < points; k++) {
        state = state * 1664525u + 1013904223u;
        int32_t z = (int32_t)(state >> 8) % (most + 1) - most / 2;
        z = clipped ? 3 * z : z;
        z = z > most ? most : z < -most - 1 ? -most - 1 : z;
        for (size_t i = 0; i < width; i++)
            block[samples + k * width + i] = (uint8_t)(z >> 8 * (order == 0 ? width - 1 - i : i));
    }
}

/* ---- the cases */

static uint32_t opened(void) { return tessarquin_open(block, length, answer, sizeof answer); }
static uint32_t laid_out(void) { return tessarquin_layout(block, length, answer, sizeof answer); }
static uint32_t text_found(void) { return tessarquin_user_text(block, length, answer, sizeof answer); }
static uint32_t label_found(void) { return tessarquin_label(block, length, (const uint8_t *)"C1", 2, answer, sizeof answer); }
static uint32_t one_point(void) { return tessarquin_point(block, length, 1, 1, (uint32_t)(points - 1), answer, sizeof answer); }
static uint32_t last_segment(void) { return tessarquin_point(block, length, 1, (uint32_t)points, 0, answer, sizeof answer); }
static uint32_t filled(void) { return tessarquin_fill(block, length, 1, 1, out, TESSARQUIN_FILL_BYTES(points)); }

/* Those that are measured answer a refusal's number above the number of samples at the rail. */
static uint32_t filled_floats(void) { return (uint32_t)(measured_fill(block, length, 1, 1, values, points) >> 32); }
static uint32_t walked_floats(void) { return (uint32_t)(measured_walk(block, length, 1, 1, values, points) >> 32); }

/* Above the value of a sample of 0, and below that of the greatest byte. */
static const double level = 10.0;

/* Where no point of a segment reaches the level, and where one does. */
static uint32_t crossed(void) { return tessarquin_crossing(block, length, 1, 1, level, answer, sizeof answer); }
static uint32_t never_crossed(void) { return crossed() || tessarquin_number(answer, TESSARQUIN_CROSSING_FOUND) != 0; }
static uint32_t once_crossed(void) { return crossed() || tessarquin_number(answer, TESSARQUIN_CROSSING_FOUND) != 1; }

/* The leasts stand at the start of `out`, and the greatests behind them. */
static uint32_t drawn(void)
{
    size_t bytes = TESSARQUIN_COLUMN_BYTES(columns);
    return tessarquin_strip(block, length, 1, 1, (uint32_t)columns, out, bytes, out + bytes, bytes, answer, sizeof answer);
}

static uint32_t cut_by(uint32_t sp, uint32_t to)
{
    return tessarquin_cut(block, length, sp, 0, 0, 0, to, out, length, answer, sizeof answer);
}

/* The points of the last of many segments: asked of the whole block, and of that segment cut out of it. */
enum { IN_SEQUENCE = 50 };

static uint32_t asked(const uint8_t *of, size_t of_length, uint32_t segment)
{
    uint32_t refusal = 0;
    for (uint32_t k = 0; k < IN_SEQUENCE && !refusal; k++)
        refusal = tessarquin_point(of, of_length, 1, segment, k, answer, sizeof answer);
    return refusal;
}

static uint32_t last_of_many(void) { return (uint32_t)(points / IN_SEQUENCE); }
static uint32_t of_whole(void) { return asked(block, length, last_of_many()); }

static uint32_t of_cut(void)
{
    uint32_t refusal = tessarquin_cut(block, length, 1, 0, 0, last_of_many(), 1, out, length, answer, sizeof answer);
    return refusal ? refusal : asked(out, (size_t)tessarquin_number(answer, 1), 1);
}

static uint32_t combined(void) { return tessarquin_combined(2, 0, 10, 0, 6, 0, 15, 0, 5, answer, sizeof answer); }

/* A setup as a line: the usual one, or the longest that is written. In C the four numbers are left as they are read. */
static const char *line;
static uint32_t setup[4];

static void make_line(int longest)
{
    static const uint32_t usual[4] = {4, 0, 10, 0};
    line = longest ? "WFSU SP,4294967295,NP,4294967295,FP,4294967295,SN,4294967295" : "WFSU SP,4,NP,0,FP,10,SN,0";
    for (size_t k = 0; k < 4; k++)
        setup[k] = longest ? UINT32_MAX : usual[k];
}

static uint32_t line_read(void) { return tessarquin_setup_read((const uint8_t *)line, strlen(line), answer, sizeof answer); }
static uint32_t line_written(void) { return tessarquin_setup_write(setup[0], setup[1], setup[2], setup[3], out, TESSARQUIN_SETUP_LINE_MOST, answer, sizeof answer); }

static uint32_t c_line_read(void)
{
    uint32_t read[4];
    return !same_setup_read((const uint8_t *)line, strlen(line), read) || memcmp(read, setup, sizeof read) != 0;
}

static uint32_t c_line_written(void) { return same_setup_write(setup, out) != strlen(line) || memcmp(out, line, strlen(line)) != 0; }

/* A join, and one that is refused; in C every part is opened by the library, and copied where the join is made. */
static uint32_t joined(void) { return tessarquin_join(block, length, out, length + TESSARQUIN_JOIN_MORE, answer, sizeof answer); }
static uint32_t unjoined(void) { return joined() != TESSARQUIN_JOIN; }

static uint32_t c_opened(void)
{
    uint32_t refusal = 0;
    for (size_t i = 0; i < parts && !refusal; i++)
        refusal = tessarquin_open(block + i * part_length, part_length, answer, sizeof answer);
    return refusal;
}

static uint32_t c_joined(void)
{
    uint32_t refusal = c_opened();
    same_copies(block, part_length, parts, out);
    return refusal;
}

static uint32_t copied(void) { return cut_by(1, 1); }
static uint32_t turned(void) { return cut_by(1, 0); }
static uint32_t by_4(void) { return cut_by(4, 1); }
static uint32_t by_4_turned(void) { return cut_by(4, 0); }
static uint32_t by_100(void) { return cut_by(100, 1); }

static uint32_t narrowed(void) { return tessarquin_narrow(block, length, out, length, answer, sizeof answer); }

static uint32_t c_bytes(void) { same_fill_bytes(block + samples, points, gain, offset, out); return 0; }
static uint32_t c_words_low(void) { same_fill_words_low(block + samples, points, gain, offset, out); return 0; }
static uint32_t c_words_high(void) { same_fill_words_high(block + samples, points, gain, offset, out); return 0; }
static uint32_t c_float_bytes(void) { same_values_bytes(block + samples, points, gain, offset, values); return 0; }
static uint32_t c_float_words_low(void) { same_values_words_low(block + samples, points, gain, offset, values); return 0; }
static uint32_t c_float_words_high(void) { same_values_words_high(block + samples, points, gain, offset, values); return 0; }
static uint32_t c_crossed_bytes(void) { return same_crossing_bytes(block + samples, points, gain, offset, level) != points; }
static uint32_t c_crossed_words_low(void) { return same_crossing_words_low(block + samples, points, gain, offset, level) != points; }
static uint32_t c_crossed_words_high(void) { return same_crossing_words_high(block + samples, points, gain, offset, level) != points; }
/* What the strip in C told. */
static struct same_strip told;

static uint32_t c_drawn_bytes(void) { told = same_strip_bytes(block + samples, points, columns, out, out + 8 * columns); return 0; }
static uint32_t c_drawn_words_low(void) { told = same_strip_words_low(block + samples, points, columns, out, out + 8 * columns); return 0; }
static uint32_t c_drawn_words_high(void) { told = same_strip_words_high(block + samples, points, columns, out, out + 8 * columns); return 0; }

/* Whether it is the strip that the call answers: one that is not would be no measure. */
static int is_same_strip(uint32_t (*c)(void))
{
    uint8_t *drawn_by_c = malloc(16 * columns);
    if (!drawn_by_c || c() != 0)
        exit(2);
    memcpy(drawn_by_c, out, 16 * columns);
    int same = drawn() == 0 && memcmp(drawn_by_c, out, 16 * columns) == 0
               && told.sum == tessarquin_signed(answer, TESSARQUIN_STRIP_SUM)
               && told.marks == tessarquin_number(answer, TESSARQUIN_STRIP_MARKS)
               && told.peak == tessarquin_number(answer, TESSARQUIN_STRIP_PEAK);
    free(drawn_by_c);
    return same;
}

static uint32_t c_walked(void)
{
    struct same_place place = {samples, 0, (uint32_t)points, 1, 1, 0, 1, gain, offset, 0.25f, -1};
    same_walk(block, length, place, values);
    return 0;
}

static uint32_t c_copied(void) { same_copy(block, length, out); return 0; }
static uint32_t c_turned(void) { same_turn(block + samples, points, 1, out); return 0; }
static uint32_t c_by_4(void) { same_keep(block + samples, points, 4, out); return 0; }
static uint32_t c_by_4_turned(void) { same_turn(block + samples, points, 4, out); return 0; }
static uint32_t c_by_100(void) { same_keep(block + samples, points, 100, out); return 0; }

static uint32_t c_narrowed_low(void) { same_narrow_low(block + samples, points, out); return 0; }
static uint32_t c_narrowed_high(void) { same_narrow_high(block + samples, points, out); return 0; }

/* Parts of 16,383 bytes, of which a thousand are nearly the longest block, and of 401 bytes. */
enum { IN_LARGE = 8005, IN_SMALL = 14 };

static const struct work {
    const char *name;
    int order;
    size_t width, in_each; /* points in each of many segments, with trigger times; or 0, one segment of all. Of a join each
                              segment is a part of its own. */
    uint32_t (*lib)(void), (*c)(void);
} works[] = {
    {"open-low", 1, 2, 0, opened, NULL},
    {"open-high", 0, 2, 0, opened, NULL},
    {"open-six", 1, 2, 0, opened, NULL},
    {"open-trigger-low", 1, 2, 1, opened, NULL},
    {"open-trigger-high", 0, 2, 1, opened, NULL},
    {"open-below-zero-low", 1, 2, 1, opened, NULL},
    {"open-below-zero-high", 0, 2, 1, opened, NULL},
    {"layout", 1, 2, 0, laid_out, NULL},
    {"user-text", 1, 2, 0, text_found, NULL},
    {"label", 1, 2, 0, label_found, NULL},
    {"label-full", 1, 2, 0, label_found, NULL},
    {"combined", 1, 2, 0, combined, NULL},
    {"setup-read", 1, 2, 0, line_read, c_line_read},
    {"setup-read-longest", 1, 2, 0, line_read, c_line_read},
    {"setup-write", 1, 2, 0, line_written, c_line_written},
    {"setup-write-longest", 1, 2, 0, line_written, c_line_written},
    {"point", 1, 2, 0, one_point, NULL},
    {"point-trigger", 1, 2, 1, last_segment, NULL},
    {"sequence-whole", 1, 2, IN_SEQUENCE, of_whole, NULL},
    {"sequence-cut", 1, 2, IN_SEQUENCE, of_cut, NULL},
    {"fill-word-low", 1, 2, 0, filled, c_words_low},
    {"fill-word-high", 0, 2, 0, filled, c_words_high},
    {"fill-byte", 1, 1, 0, filled, c_bytes},
    {"floats-word-low", 1, 2, 0, filled_floats, c_float_words_low},
    {"floats-word-high", 0, 2, 0, filled_floats, c_float_words_high},
    {"floats-byte", 1, 1, 0, filled_floats, c_float_bytes},
    {"walk-word-low", 1, 2, 0, walked_floats, c_walked},
    {"crossing-word-low", 1, 2, 0, never_crossed, c_crossed_words_low},
    {"crossing-word-high", 0, 2, 0, never_crossed, c_crossed_words_high},
    {"crossing-byte", 1, 1, 0, never_crossed, c_crossed_bytes},
    {"crossing-near-low", 1, 2, 0, once_crossed, NULL},
    {"crossing-near-high", 0, 2, 0, once_crossed, NULL},
    {"strip-word-low", 1, 2, 0, drawn, c_drawn_words_low},
    {"strip-word-high", 0, 2, 0, drawn, c_drawn_words_high},
    {"strip-byte", 1, 1, 0, drawn, c_drawn_bytes},
    {"strip-clipped-word-low", 1, 2, 0, drawn, c_drawn_words_low},
    {"strip-clipped-word-high", 0, 2, 0, drawn, c_drawn_words_high},
    {"strip-clipped-byte", 1, 1, 0, drawn, c_drawn_bytes},
    {"cut-copy-word", 1, 2, 0, copied, c_copied},
    {"cut-copy-byte", 1, 1, 0, copied, c_copied},
    {"cut-turn", 1, 2, 0, turned, c_turned},
    {"cut-by-4", 1, 2, 0, by_4, c_by_4},
    {"cut-by-4-turn", 1, 2, 0, by_4_turned, c_by_4_turned},
    {"cut-by-100", 1, 2, 0, by_100, c_by_100},
    {"narrow-word-low", 1, 2, 0, narrowed, c_narrowed_low},
    {"narrow-word-high", 0, 2, 0, narrowed, c_narrowed_high},
    {"narrow-byte", 1, 1, 0, narrowed, c_copied},
    {"join-large-low", 1, 2, IN_LARGE, joined, c_joined},
    {"join-large-high", 0, 2, IN_LARGE, joined, c_joined},
    {"join-small-low", 1, 2, IN_SMALL, joined, c_joined},
    {"join-small-high", 0, 2, IN_SMALL, joined, c_joined},
    {"join-twice-large", 1, 2, IN_LARGE, unjoined, c_opened},
    {"join-twice-small", 1, 2, IN_SMALL, unjoined, c_opened},
};

/* The work of a name, without what stands behind a colon. */
static const struct work *find(const char *name)
{
    size_t bytes = strcspn(name, ":");
    for (size_t i = 0; i < sizeof works / sizeof *works; i++)
        if (strlen(works[i].name) == bytes && memcmp(works[i].name, name, bytes) == 0)
            return &works[i];
    fprintf(stderr, "bench: no case %s\n", name);
    exit(2);
}

static uint32_t (*prepare(const char *who, const char *name, size_t n))(void)
{
    const struct work *w = find(name);
    int of_parts = strncmp(name, "join-", 5) == 0;
    if (of_parts)
        make_parts(w->order, n, w->in_each);
    else
        make(w->order, w->width, w->in_each ? n : 1, w->in_each ? w->in_each : n, w->in_each != 0);
    if (strncmp(name, "setup-", 6) == 0)
        make_line(strstr(name, "longest") != NULL);
    if (strncmp(name, "join-twice", 10) == 0)
        with_index_twice(w->order);
    if (strncmp(name, "crossing-", 9) == 0)
        with_flat_samples(w->width, strncmp(name, "crossing-near", 13) == 0 ? 10 : points);
    if (strncmp(name, "strip-", 6) == 0) {
        columns = points / strtoul(name + strcspn(name, ":") + 1, NULL, 10);
        with_noise(w->order, w->width, strncmp(name, "strip-clipped", 13) == 0);
        if (!is_same_strip(w->c))
            exit(2);
    }
    if (strcmp(name, "open-six") == 0)
        with_six_digits();
    if (strcmp(name, "label-full") == 0)
        memset(block + HEADER + 96, 'x', 16);
    if (strncmp(name, "open-below-zero", 15) == 0)
        put_double(block, w->order, DESCRIPTOR_BYTES, -1.0);
    uint32_t (*work)(void) = strcmp(who, "lib") == 0 ? w->lib : w->c;
    if (!work || (of_parts ? c_opened() : opened()) != 0) {
        fprintf(stderr, "bench: %s has no such work\n", name);
        exit(2);
    }
    return work;
}

/* ---- time */

static double seconds(void)
{
    struct timespec t;
    clock_gettime(CLOCK_MONOTONIC, &t);
    return (double)t.tv_sec + 1e-9 * (double)t.tv_nsec;
}

/* The best of some runs, each long enough for the clock. */
static double nanoseconds(uint32_t (*work)(void))
{
    double best = 1e9;
    for (int run = 0; run < 7; run++) {
        size_t times = 0;
        double start = seconds(), took = 0;
        for (; took < 0.02; took = seconds() - start, times++)
            work();
        if (took / (double)times < best)
            best = took / (double)times;
    }
    return 1e9 * best;
}

/* ---- stack: a call on a stack of its own, painted before, so that what it touched shows */

enum { STACK = 1 << 16, PAINT = 0xC3 };
static uint8_t stack[STACK];
static ucontext_t caller, callee;
static uint32_t (*on_stack)(void);

static void enter(void) { on_stack(); }
static uint32_t nothing(void) { return 0; }

static size_t touched(uint32_t (*work)(void))
{
    memset(stack, PAINT, sizeof stack);
    on_stack = work;
    getcontext(&callee);
    callee.uc_stack.ss_sp = stack;
    callee.uc_stack.ss_size = sizeof stack;
    callee.uc_link = &caller;
    makecontext(&callee, enter, 0);
    swapcontext(&caller, &callee);
    size_t i = 0;
    while (i < sizeof stack && stack[i] == PAINT)
        i++;
    return sizeof stack - i;
}

static void print_stacks(void)
{
    make(0, 2, 10, 200, 1);
    size_t none = touched(nothing);
    printf("tessarquin_open %zu\n", touched(opened) - none);
    printf("tessarquin_layout %zu\n", touched(laid_out) - none);
    printf("tessarquin_user_text %zu\n", touched(text_found) - none);
    printf("tessarquin_label %zu\n", touched(label_found) - none);
    points = 200;
    printf("tessarquin_point %zu\n", touched(one_point) - none);
    printf("tessarquin_fill %zu\n", touched(filled) - none);
    printf("tessarquin_crossing %zu\n", touched(crossed) - none);
    columns = 3;
    printf("tessarquin_strip %zu\n", touched(drawn) - none);
    printf("tessarquin_cut %zu\n", touched(by_4) - none);
    printf("tessarquin_combined %zu\n", touched(combined) - none);
    make_line(1);
    printf("tessarquin_setup_read %zu\n", touched(line_read) - none);
    printf("tessarquin_setup_write %zu\n", touched(line_written) - none);
    printf("tessarquin_narrow %zu\n", touched(narrowed) - none);
    make_parts(0, 1000, IN_SMALL);
    printf("tessarquin_join %zu\n", touched(joined) - none);
}

int main(int count, char **words)
{
    if (count == 2 && strcmp(words[1], "stack") == 0) {
        print_stacks();
    } else if (count == 5 && strcmp(words[1], "time") == 0) {
        printf("%.0f\n", nanoseconds(prepare(words[2], words[3], strtoul(words[4], NULL, 10))));
    } else if (count == 5) {
        uint32_t (*work)(void) = prepare(words[1], words[2], strtoul(words[3], NULL, 10));
        for (unsigned long i = strtoul(words[4], NULL, 10); i > 0; i--)
            if (work() != 0)
                return 1;
    } else {
        fputs("bench lib|c CASE POINTS TIMES | bench time lib|c CASE POINTS | bench stack\n", stderr);
        return 2;
    }
    return 0;
}
