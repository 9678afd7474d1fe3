/*
 * Slices for the tests of the calls: each ends at a page that cannot be touched and has known bytes before it. And the
 * calls on such slices, with answers that are read back as numbers.
 */
#ifndef SLICES_H
#define SLICES_H

#include "blocks.h"
#include "tessarquin.h"

#include <stdio.h>
#include <stdlib.h>
#include <sys/mman.h>
#include <unistd.h>

/* What is tested now, and how many checks held. */
static const char *now = "";
static unsigned checked;

static inline void check(int holds, const char *what)
{
    checked++;
    if (holds)
        return;
    printf("%s: %s\n", now, what);
    exit(1);
}

/* ---- slices: `length` bytes at the end of some pages, behind them one that cannot be touched, before them a known byte */

struct slice {
    uint8_t *pages, *bytes;
    size_t size, length;
};

enum { KNOWN = 0xA5, HELD = 0x5A };

static inline struct slice lend(size_t length)
{
    size_t page = (size_t)sysconf(_SC_PAGESIZE);
    size_t size = (length / page + 2) * page;
    uint8_t *pages = mmap(NULL, size + page, PROT_READ | PROT_WRITE, MAP_PRIVATE | MAP_ANONYMOUS, -1, 0);
    if (pages == MAP_FAILED || mprotect(pages + size, page, PROT_NONE) != 0) {
        perror("a slice at the end of a page");
        exit(1);
    }
    memset(pages, KNOWN, size - length);
    memset(pages + size - length, HELD, length);
    return (struct slice){pages, pages + size - length, size, length};
}

static inline void unmap(struct slice s)
{
    munmap(s.pages, s.size + (size_t)sysconf(_SC_PAGESIZE));
}

static inline int all_are(const uint8_t *bytes, size_t length, uint8_t byte)
{
    for (size_t i = 0; i < length; i++)
        if (bytes[i] != byte)
            return 0;
    return 1;
}

/* The slice holds what it held from `from` on, and so do the bytes before it. Gives the pages back. */
static inline void give_back(struct slice s, size_t from)
{
    check(all_are(s.pages, (size_t)(s.bytes - s.pages), KNOWN), "bytes before a slice were written");
    check(all_are(s.bytes + from, s.length - from, HELD), "bytes behind the answer were written");
    unmap(s);
}

/* ---- blocks */

static inline struct slice make(int order, uint32_t type, uint32_t g, uint32_t m, int trigger)
{
    struct shape shape = {order, type, g, m, trigger};
    struct slice s = lend(block_bytes(shape));
    put_block(s.bytes, shape);
    return s;
}

/* ---- the calls, with an answer of `room` bytes that is read back as numbers */

static uint64_t answers[TESSARQUIN_LAYOUT_BYTES / 8];

static inline void take(struct slice answer, uint32_t refusal, size_t numbers)
{
    for (size_t i = 0; i < numbers && !refusal; i++)
        answers[i] = tessarquin_number(answer.bytes, i);
    give_back(answer, refusal ? 0 : 8 * numbers);
}

static inline uint32_t opens(struct slice block, size_t room)
{
    struct slice answer = lend(room);
    uint32_t refusal = tessarquin_open(block.bytes, block.length, answer.bytes, room);
    take(answer, refusal, 5);
    return refusal;
}

static inline uint32_t layout(struct slice block, size_t room)
{
    struct slice answer = lend(room);
    uint32_t refusal = tessarquin_layout(block.bytes, block.length, answer.bytes, room);
    take(answer, refusal, 25);
    return refusal;
}

static inline uint32_t user_text(struct slice block, size_t room)
{
    struct slice answer = lend(room);
    uint32_t refusal = tessarquin_user_text(block.bytes, block.length, answer.bytes, room);
    take(answer, refusal, 2);
    return refusal;
}

static inline uint32_t label(struct slice block, size_t fallback_length, size_t room)
{
    struct slice fallback = lend(fallback_length), answer = lend(room);
    uint32_t refusal = tessarquin_label(block.bytes, block.length, fallback.bytes, fallback_length, answer.bytes, room);
    take(answer, refusal, 3);
    give_back(fallback, 0);
    return refusal;
}

static inline uint32_t point(struct slice block, uint32_t array, uint32_t segment, uint32_t k, size_t room)
{
    struct slice answer = lend(room);
    uint32_t refusal = tessarquin_point(block.bytes, block.length, array, segment, k, answer.bytes, room);
    take(answer, refusal, 3);
    return refusal;
}

static inline uint32_t fill(struct slice block, uint32_t array, uint32_t segment, size_t points, size_t room)
{
    struct slice answer = lend(room);
    uint32_t refusal = tessarquin_fill(block.bytes, block.length, array, segment, answer.bytes, room);
    take(answer, refusal, points + 1);
    return refusal;
}

static inline uint32_t crossing(struct slice block, uint32_t array, uint32_t segment, double level, size_t room)
{
    struct slice answer = lend(room);
    uint32_t refusal = tessarquin_crossing(block.bytes, block.length, array, segment, level, answer.bytes, room);
    take(answer, refusal, 2);
    return refusal;
}

/* A strip to two slices, which the caller gives back. */
static inline uint32_t strip(struct slice block, uint32_t array, uint32_t segment, uint32_t columns, struct slice least, struct slice greatest, size_t room)
{
    struct slice answer = lend(room);
    uint32_t refusal = tessarquin_strip(block.bytes, block.length, array, segment, columns, least.bytes, least.length, greatest.bytes, greatest.length, answer.bytes, room);
    take(answer, refusal, 3);
    return refusal;
}

/* A cut to a slice of `room` bytes, which the caller gives back. */
static inline uint32_t cut(struct slice block, const uint32_t *setup, uint32_t order, struct slice out, size_t room)
{
    struct slice answer = lend(room);
    uint32_t refusal = tessarquin_cut(block.bytes, block.length, setup[0], setup[1], setup[2], setup[3], order, out.bytes, out.length, answer.bytes, room);
    take(answer, refusal, 2);
    return refusal;
}

/* Of setup a and then setup b, which kept `count`. */
static inline uint32_t combined(const uint32_t *a, const uint32_t *b, uint32_t count, size_t room)
{
    struct slice answer = lend(room);
    uint32_t refusal = tessarquin_combined(a[0], a[1], a[2], a[3], b[0], b[1], b[2], b[3], count, answer.bytes, room);
    take(answer, refusal, 4);
    return refusal;
}

static inline uint32_t setup_read(struct slice line, size_t room)
{
    struct slice answer = lend(room);
    uint32_t refusal = tessarquin_setup_read(line.bytes, line.length, answer.bytes, room);
    take(answer, refusal, 4);
    return refusal;
}

/* A line to a slice, which the caller gives back. */
static inline uint32_t setup_write(const uint32_t *setup, struct slice out, size_t room)
{
    struct slice answer = lend(room);
    uint32_t refusal = tessarquin_setup_write(setup[0], setup[1], setup[2], setup[3], out.bytes, out.length, answer.bytes, room);
    take(answer, refusal, 1);
    return refusal;
}

/* A join to a slice, which the caller gives back. */
static inline uint32_t join(struct slice parts, struct slice out, size_t room)
{
    struct slice answer = lend(room);
    uint32_t refusal = tessarquin_join(parts.bytes, parts.length, out.bytes, out.length, answer.bytes, room);
    take(answer, refusal, 2);
    return refusal;
}

/* A narrowing to a slice, which the caller gives back. */
static inline uint32_t narrow(struct slice block, struct slice out, size_t room)
{
    struct slice answer = lend(room);
    uint32_t refusal = tessarquin_narrow(block.bytes, block.length, out.bytes, out.length, answer.bytes, room);
    take(answer, refusal, 1);
    return refusal;
}

#endif
