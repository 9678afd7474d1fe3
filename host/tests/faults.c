/*
 * Linked into a second copy of the program, for its tests: these stand before the calls of the same name, and the word
 * in the environment's FAULT says what goes wrong.
 *
 *     full       a write takes half of the bytes, and the next one finds no space
 *     slow       a write takes at most 100 bytes, and every second one is interrupted
 *     flush      the disk fails where the bytes are flushed to it
 *     close      it fails where the file is closed
 *     interrupt  the program is interrupted while it flushes
 *     rename     a file cannot be renamed
 *     meanwhile  OUT comes to be just before the new file gets its name
 *     links      a file system with links, but without the rename that replaces nothing
 *     between    both: OUT comes to be on such a file system
 *     swapped    a file stands where a pipe did, just before it is opened
 *     count      tells at the end how many points, fills, crossings, strips, cuts and narrowings were asked of blocks of more
 *                than 1,000 bytes
 *     uncrossed  a crossing is refused by 9, whatever the array and the level are
 *     undrawn    a strip is refused by 11, whatever the columns are
 *     uncombined two cuts are refused by 12, whatever their numbers are
 *     unread     a line is refused by 15, whatever it says
 *     unwritten  the line of a setup is refused by 15, though there is room
 *     unjoined   a join is refused by 16, whatever the parts are
 *     unnarrowed a narrowing is refused by 19, whatever the gain is
 *     unasked    a crossing, a strip, a join, two cuts, a narrowing, a line and the line of a setup are refused by 13, though
 *                there is room
 */
#define _GNU_SOURCE
#include "tessarquin.h"

#include <errno.h>
#include <fcntl.h>
#include <signal.h>
#include <stdarg.h>
#include <stdio.h>
#include <stdlib.h>
#include <unistd.h>

int __real_open(const char *name, int flags, ...);
ssize_t __real_write(int file, const void *bytes, size_t length);
int __real_fsync(int file);
int __real_close(int file);
int __real_rename(const char *from, const char *to);
int __real_renameat2(int from_folder, const char *from, int to_folder, const char *to, unsigned flags);
uint32_t __real_tessarquin_point(const uint8_t *block, size_t block_len, uint32_t array, uint32_t segment, uint32_t point,
                                 uint8_t *answer, size_t answer_len);
uint32_t __real_tessarquin_fill(const uint8_t *block, size_t block_len, uint32_t array, uint32_t segment, uint8_t *answer,
                                size_t answer_len);
uint32_t __real_tessarquin_crossing(const uint8_t *block, size_t block_len, uint32_t array, uint32_t segment, double level,
                                    uint8_t *answer, size_t answer_len);
uint32_t __real_tessarquin_strip(const uint8_t *block, size_t block_len, uint32_t array, uint32_t segment, uint32_t columns,
                                 uint8_t *least, size_t least_len, uint8_t *greatest, size_t greatest_len, uint8_t *answer,
                                 size_t answer_len);
uint32_t __real_tessarquin_cut(const uint8_t *block, size_t block_len, uint32_t sp, uint32_t np, uint32_t fp, uint32_t sn,
                               uint32_t order, uint8_t *out, size_t out_len, uint8_t *answer, size_t answer_len);
uint32_t __real_tessarquin_combined(uint32_t spa, uint32_t npa, uint32_t fpa, uint32_t sna, uint32_t spb, uint32_t npb,
                                    uint32_t fpb, uint32_t snb, uint32_t count, uint8_t *answer, size_t answer_len);
uint32_t __real_tessarquin_setup_read(const uint8_t *line, size_t line_len, uint8_t *answer, size_t answer_len);
uint32_t __real_tessarquin_setup_write(uint32_t sp, uint32_t np, uint32_t fp, uint32_t sn, uint8_t *out, size_t out_len,
                                       uint8_t *answer, size_t answer_len);
uint32_t __real_tessarquin_join(const uint8_t *parts, size_t parts_len, uint8_t *out, size_t out_len, uint8_t *answer,
                                size_t answer_len);
uint32_t __real_tessarquin_narrow(const uint8_t *block, size_t block_len, uint8_t *out, size_t out_len, uint8_t *answer,
                                  size_t answer_len);

static int fault(const char *word)
{
    const char *asked = getenv("FAULT");
    return asked && strcmp(asked, word) == 0;
}

static int failed(int why)
{
    errno = why;
    return -1;
}

/* An empty file, which was not there before. */
static void make(const char *name)
{
    __real_close(__real_open(name, O_WRONLY | O_CREAT | O_EXCL, 0666));
}

int __wrap_open(const char *name, int flags, ...)
{
    va_list mode;
    va_start(mode, flags);
    if (fault("swapped") && unlink(name) == 0)
        make(name);
    int file = __real_open(name, flags, flags & O_CREAT ? va_arg(mode, mode_t) : 0);
    va_end(mode);
    return file;
}

ssize_t __wrap_write(int file, const void *bytes, size_t length)
{
    static unsigned before;
    int again = before++ % 2;
    if (fault("full"))
        return again ? failed(ENOSPC) : __real_write(file, bytes, length / 2);
    if (fault("slow"))
        return again ? failed(EINTR) : __real_write(file, bytes, length < 100 ? length : 100);
    return __real_write(file, bytes, length);
}

int __wrap_fsync(int file)
{
    if (fault("interrupt")) {
        signal(SIGINT, SIG_DFL); /* a shell starts what runs in the background with it ignored */
        raise(SIGINT);
    }
    return fault("flush") ? failed(EIO) : __real_fsync(file);
}

int __wrap_close(int file)
{
    int closed = __real_close(file);
    return fault("close") ? failed(EIO) : closed;
}

int __wrap_rename(const char *from, const char *to)
{
    return fault("rename") ? failed(EACCES) : __real_rename(from, to);
}

int __wrap_renameat2(int from_folder, const char *from, int to_folder, const char *to, unsigned flags)
{
    if (fault("meanwhile") || fault("between"))
        make(to);
    if (fault("links") || fault("between"))
        return failed(EINVAL);
    return __real_renameat2(from_folder, from, to_folder, to, flags);
}

static unsigned long questions;

static void tell(void)
{
    fprintf(stderr, "%lu questions\n", questions);
}

static void ask(size_t block_len)
{
    if (fault("count") && block_len > 1000 && questions++ == 0)
        atexit(tell);
}

uint32_t __wrap_tessarquin_point(const uint8_t *block, size_t block_len, uint32_t array, uint32_t segment, uint32_t point,
                                 uint8_t *answer, size_t answer_len)
{
    ask(block_len);
    return __real_tessarquin_point(block, block_len, array, segment, point, answer, answer_len);
}

uint32_t __wrap_tessarquin_fill(const uint8_t *block, size_t block_len, uint32_t array, uint32_t segment, uint8_t *answer,
                                size_t answer_len)
{
    ask(block_len);
    return __real_tessarquin_fill(block, block_len, array, segment, answer, answer_len);
}

uint32_t __wrap_tessarquin_crossing(const uint8_t *block, size_t block_len, uint32_t array, uint32_t segment, double level,
                                    uint8_t *answer, size_t answer_len)
{
    ask(block_len);
    if (fault("uncrossed"))
        return TESSARQUIN_CHOICE;
    if (fault("unasked"))
        return TESSARQUIN_ROOM;
    return __real_tessarquin_crossing(block, block_len, array, segment, level, answer, answer_len);
}

uint32_t __wrap_tessarquin_strip(const uint8_t *block, size_t block_len, uint32_t array, uint32_t segment, uint32_t columns,
                                 uint8_t *least, size_t least_len, uint8_t *greatest, size_t greatest_len, uint8_t *answer,
                                 size_t answer_len)
{
    ask(block_len);
    if (fault("undrawn"))
        return TESSARQUIN_POINT;
    if (fault("unasked"))
        return TESSARQUIN_ROOM;
    return __real_tessarquin_strip(block, block_len, array, segment, columns, least, least_len, greatest, greatest_len, answer, answer_len);
}

uint32_t __wrap_tessarquin_cut(const uint8_t *block, size_t block_len, uint32_t sp, uint32_t np, uint32_t fp, uint32_t sn,
                               uint32_t order, uint8_t *out, size_t out_len, uint8_t *answer, size_t answer_len)
{
    ask(block_len);
    return __real_tessarquin_cut(block, block_len, sp, np, fp, sn, order, out, out_len, answer, answer_len);
}

uint32_t __wrap_tessarquin_combined(uint32_t spa, uint32_t npa, uint32_t fpa, uint32_t sna, uint32_t spb, uint32_t npb,
                                    uint32_t fpb, uint32_t snb, uint32_t count, uint8_t *answer, size_t answer_len)
{
    if (fault("uncombined"))
        return TESSARQUIN_SPARSE;
    if (fault("unasked"))
        return TESSARQUIN_ROOM;
    return __real_tessarquin_combined(spa, npa, fpa, sna, spb, npb, fpb, snb, count, answer, answer_len);
}

uint32_t __wrap_tessarquin_setup_read(const uint8_t *line, size_t line_len, uint8_t *answer, size_t answer_len)
{
    if (fault("unread"))
        return TESSARQUIN_TEXT;
    if (fault("unasked"))
        return TESSARQUIN_ROOM;
    return __real_tessarquin_setup_read(line, line_len, answer, answer_len);
}

uint32_t __wrap_tessarquin_setup_write(uint32_t sp, uint32_t np, uint32_t fp, uint32_t sn, uint8_t *out, size_t out_len,
                                       uint8_t *answer, size_t answer_len)
{
    if (fault("unwritten"))
        return TESSARQUIN_TEXT;
    if (fault("unasked"))
        return TESSARQUIN_ROOM;
    return __real_tessarquin_setup_write(sp, np, fp, sn, out, out_len, answer, answer_len);
}

uint32_t __wrap_tessarquin_join(const uint8_t *parts, size_t parts_len, uint8_t *out, size_t out_len, uint8_t *answer,
                                size_t answer_len)
{
    if (fault("unjoined"))
        return TESSARQUIN_JOIN;
    if (fault("unasked"))
        return TESSARQUIN_ROOM;
    return __real_tessarquin_join(parts, parts_len, out, out_len, answer, answer_len);
}

uint32_t __wrap_tessarquin_narrow(const uint8_t *block, size_t block_len, uint8_t *out, size_t out_len, uint8_t *answer,
                                  size_t answer_len)
{
    ask(block_len);
    if (fault("unnarrowed"))
        return TESSARQUIN_GAIN;
    if (fault("unasked"))
        return TESSARQUIN_ROOM;
    return __real_tessarquin_narrow(block, block_len, out, out_len, answer, answer_len);
}
