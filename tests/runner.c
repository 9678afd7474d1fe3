/* Takes calls from standard input and makes them in the library, or in the archive of the test calls;
 * answers on standard output with the number and with all slices as the call left them. src/runner.rs
 * is the other end.
 *
 * A request is eighteen numbers of four bytes, low byte first: the kind of call, nine numbers for it (0
 * where it takes fewer), how many bytes at the end of the block cannot be touched (whole pages, 0 for most
 * calls), and the lengths of block, fallback, out, answer, marks, least and greatest; then the bytes of these
 * seven slices. A reply is what the call returned, in eight bytes, and in four which slices have lost the known
 * bytes before them (bit 0 block, 1 fallback, 2 out, 3 answer, 4 marks, 5 least, 6 greatest); then the bytes of
 * the slices again. Floats are lent, and come back, as the bytes that they have in memory; a level is two of
 * the nine numbers, the low half of its bits and the high half. Parts to be joined, and the line of a setup, are
 * lent as the block.
 *
 * Every slice ends where memory that cannot be touched begins, so a call that reads or writes
 * behind a slice ends this program by a signal. */

#define _GNU_SOURCE
#include <stdint.h>
#include <stdio.h>
#include <stdlib.h>
#include <string.h>
#include <sys/mman.h>
#include <sys/resource.h>

#include "compared.h"
#include "measured.h"
#include "tessarquin.h"

enum kind {
    PROBE, OPEN, POINT, FILL, CUT, FLOATS, WALK, STEP, USER_TEXT, LABEL, LAYOUT, TEXT_PLACE, LABEL_PLACE, WALKED_FLOATS,
    JOIN, COMBINED, NARROW, CROSSING, STRIP, SETUP_READ, SETUP_WRITE
};
enum { BLOCK, FALLBACK, OUT, ANSWER, MARKS, LEAST, GREATEST, SLICES };

/* How many numbers a request has for its call. */
#define NUMBERS 9

/* Memory that cannot be touched comes in pages; no machine has larger ones than this. */
#define PAGE ((size_t)65536)

/* How many known bytes stand before a slice, and what they are. */
#define BEFORE 256
#define KNOWN 0xA5

/* A lent slice: its bytes end at `end`. */
struct slice {
    uint8_t *map;
    size_t mapped;
    uint8_t *end;
    size_t room;
    size_t len;
};

static void fail(const char *what)
{
    perror(what);
    exit(2);
}

static uint8_t *start(const struct slice *slice)
{
    return slice->end - slice->len;
}

/* Maps at least `need` bytes, with an untouchable page behind them. */
static void map(struct slice *slice, size_t need)
{
    if (slice->map && munmap(slice->map, slice->mapped) != 0)
        fail("munmap");
    slice->room = (2 * need / PAGE + 1) * PAGE;
    slice->mapped = slice->room + 2 * PAGE;
    slice->map = mmap(NULL, slice->mapped, PROT_READ | PROT_WRITE, MAP_PRIVATE | MAP_ANONYMOUS, -1, 0);
    if (slice->map == MAP_FAILED)
        fail("mmap");
    uintptr_t behind = ((uintptr_t)slice->map + PAGE - 1) / PAGE * PAGE + slice->room;
    slice->end = slice->map + (behind - (uintptr_t)slice->map);
    if (mprotect(slice->end, PAGE, PROT_NONE) != 0)
        fail("mprotect");
}

/* Makes the slice `len` bytes long, with known bytes before it. */
static void lend(struct slice *slice, size_t len)
{
    if (slice->room < len + BEFORE)
        map(slice, len + BEFORE);
    slice->len = len;
    memset(start(slice) - BEFORE, KNOWN, BEFORE);
}

/* Whether the bytes before the slice are no longer the known ones. */
static int spoiled(const struct slice *slice)
{
    for (const uint8_t *byte = start(slice) - BEFORE; byte < start(slice); byte++)
        if (*byte != KNOWN)
            return 1;
    return 0;
}

/* Reads exactly so many bytes; 0 where the input ends before the first of them. */
static int take(void *bytes, size_t len)
{
    size_t got = fread(bytes, 1, len, stdin);
    if (got != len && (got != 0 || ferror(stdin)))
        fail("input ends within a request");
    return got == len;
}

static uint32_t number(const uint8_t *bytes)
{
    return bytes[0] | (uint32_t)bytes[1] << 8 | (uint32_t)bytes[2] << 16 | (uint32_t)bytes[3] << 24;
}

static void put_number(uint8_t *bytes, int width, uint64_t number)
{
    for (int i = 0; i < width; i++)
        bytes[i] = (uint8_t)(number >> 8 * i);
}

/* Lets the last bytes of a slice, whole pages, be touched or not. */
static void protect(const struct slice *slice, size_t bytes, int how)
{
    if (bytes != 0 && mprotect(slice->end - bytes, bytes, how) != 0)
        fail("mprotect");
}

/* Tries the slices themselves: changes the byte before one, touches the byte behind it, or changes its last. */
static uint64_t probe(const struct slice *slice, uint32_t which)
{
    volatile uint8_t *byte = which == 0 ? start(slice) - 1 : which == 1 ? slice->end : slice->end - 1;
    *byte ^= 0xFF;
    return 0;
}

/* The slice as floats: whole ones, so that it starts where a float may stand. */
static double *floats(const struct slice *slice)
{
    if (slice->len % sizeof(double) != 0) {
        fprintf(stderr, "%zu bytes are no whole floats\n", slice->len);
        exit(2);
    }
    return (double *)start(slice);
}

/* The double with these bits, whatever number or none it is. */
static double double_of(uint32_t low, uint32_t high)
{
    uint64_t bits = (uint64_t)high << 32 | low;
    double number;
    memcpy(&number, &bits, sizeof number);
    return number;
}

/* The calls that are not in the library. */
static uint64_t call_of_tests(enum kind kind, const uint32_t n[NUMBERS], const struct slice lent[SLICES])
{
    const uint8_t *block = start(&lent[BLOCK]), *fallback = start(&lent[FALLBACK]);
    uint8_t *answer = start(&lent[ANSWER]), *marks = start(&lent[MARKS]);
    size_t block_len = lent[BLOCK].len, answer_len = lent[ANSWER].len, marks_len = lent[MARKS].len;
    size_t out_floats = lent[OUT].len / sizeof(double), answer_floats = answer_len / sizeof(double);

    switch (kind) {
    case FLOATS:
        return measured_fill(block, block_len, n[0], n[1], floats(&lent[ANSWER]), answer_floats);
    case WALKED_FLOATS:
        return measured_walk(block, block_len, n[0], n[1], floats(&lent[ANSWER]), answer_floats);
    case WALK:
        return compared_steps(block, block_len, n[0], n[1], floats(&lent[OUT]), out_floats, floats(&lent[ANSWER]),
                              answer_floats, marks, marks_len);
    case STEP:
        return compared_step(block, block_len, n[0], n[1], n[2], floats(&lent[ANSWER]), answer_floats, marks, marks_len);
    case USER_TEXT:
        return compared_user_text(block, block_len, answer, answer_len);
    case LABEL:
        return compared_label(block, block_len, fallback, lent[FALLBACK].len, answer, answer_len);
    default:
        fprintf(stderr, "no such call: %d\n", kind);
        exit(2);
    }
}

static uint64_t call(enum kind kind, const uint32_t n[NUMBERS], const struct slice lent[SLICES])
{
    const uint8_t *block = start(&lent[BLOCK]);
    uint8_t *out = start(&lent[OUT]), *answer = start(&lent[ANSWER]);
    size_t block_len = lent[BLOCK].len, out_len = lent[OUT].len, answer_len = lent[ANSWER].len;

    switch (kind) {
    case PROBE:
        return probe(&lent[n[0] % SLICES], n[1]);
    case OPEN:
        return tessarquin_open(block, block_len, answer, answer_len);
    case POINT:
        return tessarquin_point(block, block_len, n[0], n[1], n[2], answer, answer_len);
    case FILL:
        return tessarquin_fill(block, block_len, n[0], n[1], answer, answer_len);
    case CROSSING:
        return tessarquin_crossing(block, block_len, n[0], n[1], double_of(n[2], n[3]), answer, answer_len);
    case STRIP:
        return tessarquin_strip(block, block_len, n[0], n[1], n[2], start(&lent[LEAST]), lent[LEAST].len,
                                start(&lent[GREATEST]), lent[GREATEST].len, answer, answer_len);
    case CUT:
        return tessarquin_cut(block, block_len, n[0], n[1], n[2], n[3], n[4], out, out_len, answer, answer_len);
    case COMBINED:
        return tessarquin_combined(n[0], n[1], n[2], n[3], n[4], n[5], n[6], n[7], n[8], answer, answer_len);
    case SETUP_READ:
        return tessarquin_setup_read(block, block_len, answer, answer_len);
    case SETUP_WRITE:
        return tessarquin_setup_write(n[0], n[1], n[2], n[3], out, out_len, answer, answer_len);
    case JOIN:
        return tessarquin_join(block, block_len, out, out_len, answer, answer_len);
    case NARROW:
        return tessarquin_narrow(block, block_len, out, out_len, answer, answer_len);
    case LAYOUT:
        return tessarquin_layout(block, block_len, answer, answer_len);
    case TEXT_PLACE:
        return tessarquin_user_text(block, block_len, answer, answer_len);
    case LABEL_PLACE:
        return tessarquin_label(block, block_len, start(&lent[FALLBACK]), lent[FALLBACK].len, answer, answer_len);
    default:
        return call_of_tests(kind, n, lent);
    }
}

int main(void)
{
    static const struct rlimit none;
    static struct slice lent[SLICES];
    uint8_t request[(1 + NUMBERS + 1 + SLICES) * 4], reply[8 + 4];

    if (setrlimit(RLIMIT_CORE, &none) != 0) /* a signal is an answer: it leaves no file behind */
        fail("setrlimit");
    while (take(request, sizeof request)) {
        uint32_t n[NUMBERS], unread = number(request + 4 * (1 + NUMBERS)), lost = 0;
        for (int i = 0; i < NUMBERS; i++)
            n[i] = number(request + 4 * (1 + i));
        for (int i = 0; i < SLICES; i++) {
            lend(&lent[i], number(request + 4 * (1 + NUMBERS + 1 + i)));
            if (lent[i].len != 0 && !take(start(&lent[i]), lent[i].len))
                fail("input ends within a request");
        }
        protect(&lent[BLOCK], unread, PROT_NONE);
        put_number(reply, 8, call((enum kind)number(request), n, lent));
        protect(&lent[BLOCK], unread, PROT_READ | PROT_WRITE);
        for (int i = 0; i < SLICES; i++)
            lost |= (uint32_t)spoiled(&lent[i]) << i;
        put_number(reply + 8, 4, lost);
        fwrite(reply, 1, sizeof reply, stdout);
        for (int i = 0; i < SLICES; i++)
            fwrite(start(&lent[i]), 1, lent[i].len, stdout);
        if (fflush(stdout) != 0)
            fail("output");
    }
    return 0;
}
