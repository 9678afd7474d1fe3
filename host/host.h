/* What the files of the program share. */
#ifndef HOST_H
#define HOST_H

#include <stddef.h>
#include <stdint.h>
#include <stdio.h>
#include <sys/types.h>

/* ---- ends.c: what the program says, and how it ends where something went wrong */

enum { REFUSED = 1, USAGE = 2, FAILED = 3 };

/* One line on standard error. */
void say(const char *format, ...) __attribute__((format(printf, 1, 2)));

/* One line on standard error, then the end. */
_Noreturn void fail(int status, const char *format, ...) __attribute__((format(printf, 2, 3)));

/* A text that is written to as to a file, and whole once that is closed by told_all. The caller frees it. */
struct told {
    char *text;
    size_t length;
};

FILE *told_to(struct told *told);
void told_all(FILE *to);

/* The end, where standard output takes no more. */
_Noreturn void output_failed(void);

/* So many bytes, or the end. */
void *memory(size_t size);

/* ---- files.c: files are read whole, and written whole or not at all */

/* The bytes of a file, and the two numbers that tell it from every other file, whatever its names. */
struct file {
    const char *name;
    uint8_t *bytes;
    size_t length;
    int whole; /* whether these are all its bytes */
    dev_t device;
    ino_t inode;
};

/* The first `most` bytes of a file, or all, to `bytes`; "-" is standard input. */
struct file read_file(const char *name, uint8_t *bytes, size_t most);

/* The files that were read. */
struct files {
    const struct file *files;
    size_t count;
};

/* Ends where write_file would not write to `to`, before the work for it is done. */
void look_at(struct files from, const char *to, int replace);

/*
 * Writes all the bytes to `to`, which is never a file of `from`.
 *
 * A regular file is written under another name beside it, flushed to the disk and renamed, so that it is there whole or
 * not at all. One that is there already is replaced only if `replace`, and not where it is read-only; its mode stays,
 * and a link to it stays a link.
 * Pipes and devices are written to as they are (a disk only if `replace`), and "-" is standard output. Nothing is ever
 * removed but the other name.
 */
void write_file(struct files from, const char *to, int replace, const uint8_t *bytes, size_t length);

/* ---- blocks.c: the block in a file, and what the library says of it */

/* The # of a block is looked for in so many bytes: words such as "C1:WF ALL," that an oscilloscope answers stand before it. */
#define WORDS_MOST ((size_t)64)

/* Of a file so many bytes are read: one more than the longest block with the longest words, which is refused. */
#define READ_MOST (TESSARQUIN_BLOCK_MOST + WORDS_MOST + 1u)

struct block {
    struct file file;
    const uint8_t *bytes; /* from the # on, where the file has words before it */
    size_t length;
};

/* A part of the payload. */
struct part {
    const uint8_t *bytes;
    size_t length;
};

/* A block that was opened. */
struct opened {
    struct block block;
    uint32_t segments, points, arrays, order, type;
    uint32_t first, sparsing, index;
    const uint8_t *payload;
    struct part text, trigtime, ristime, samples[2];
};

/* The block in the bytes of a file; and in a file that is read. */
struct block block_in(struct file file);
struct block read_block(const char *name);

/* The block opened, or the end with its refusal. */
struct opened open_block(struct block block);

/* How many bytes the block has without the new line behind it. */
size_t length_of_block(const struct opened *o);

/* A float of the descriptor; and a text, up to its zero byte. */
float float_at(const struct opened *o, size_t at);
struct part text_at(const struct opened *o, size_t at, size_t most);

/* The label, or this where there is none. */
struct part label_of(const struct opened *o, const char *fallback);

/* A point, as the library answers it. */
struct point {
    double value, time;
    int mark;
};

struct point point_of(const struct opened *o, uint32_t array, uint32_t segment, uint32_t k);

/* A segment as a block of its own: its points have the same bits and marks, and a call judges its trigger entry alone.
   `bytes` is the caller's to free. */
struct alone {
    uint8_t *bytes;
    struct opened opened;
};

struct alone cut_out(const struct opened *o, uint32_t n);

/* Segment n of the same block, in the place of the one that was cut out: its trigger entry and its samples, as they
   stand. A cut for each segment would judge the trigger times of all as often. */
void put_segment(struct alone alone, const struct opened *o, uint32_t n);

/* The TRIGGER_TIME of segment n, where the block has trigger times. */
double trigger_time(const struct opened *o, uint32_t n);

/* ---- range.c: the values that samples can have */

/* The lowest and the highest sample, and the gain by which they are values. */
struct limits {
    float low, high;
    double gain;
};

/* The lowest and the highest number that a sample can be. */
struct limits rails_of(const struct opened *o);

/* The least and the greatest sample that the instrument allows, as it states them: it may clip there, before the rail. It
   may state none. */
struct limits stated_limits(const struct opened *o);
int are_stated(struct limits limits);

/* Bytes that were narrowed keep the limits of words, which no byte reaches: nothing else tells them from other bytes. */
int were_words(const struct opened *o);

/* The values of both, the lower one first. */
struct range {
    double from, to;
};

struct range values_of(const struct opened *o, struct limits limits);

/* ---- found.c: what was found in a block that is refused */

/* In words, with the numbers; nothing where nothing was found. */
void found_in_block(FILE *to, struct block block, uint32_t refusal);

/* Whether x is infinite or not a number; then it says so. */
int not_finite(FILE *to, const char *name, double x);

/* ---- why.c: how a refusal is told */

/* What was asked of a block, where something was. */
struct asked {
    uint32_t array, segment, point, sp;
    double level;
};

/* The end: one line with what is refused, its number, what was found there, and what can be done. `what` is what was
   asked, with the words that lead to the file's name: "a cut of ". */
_Noreturn void refuse_block(struct block block, uint32_t refusal);
_Noreturn void refuse_question(const char *what, const struct opened *o, struct asked asked, uint32_t refusal);

/* ---- decimal.c: numbers as text; each answers the end of what it wrote */

#define DECIMAL_MOST 32

/* The fewest of 15, 16 and 17 digits that are read back as x, without zeros at their end: at most DECIMAL_MOST bytes. */
char *put_decimal(char *to, double x);

/* A float in the fewest digits, from six on, that are read back as the same float: at most DECIMAL_MOST bytes. */
char *put_float(char *to, float x);

/* x in so many digits, from 1 to 17, without zeros at their end: at most DECIMAL_MOST bytes. */
char *put_digits(char *to, double x, int digits);

/* A whole number: at most 10 bytes. */
char *put_count(char *to, uint32_t n);

/* ---- lines.c: points as lines, or as rows of a table */

/* How points are printed: as a table with a heading, or in plain lines; with so many digits, or 0 for as many as are
   needed to read the same number back. */
struct form {
    int csv, digits;
};

/* The table's heading. */
void print_headings(const struct opened *o);

/* What the lines of segment n have in common: in a table of a file with trigger times they have a cell with its own. */
struct lines {
    uint32_t segment;
    struct form form;
    char cell[DECIMAL_MOST + 1];
    size_t cell_length;
};

struct lines lines_of(const struct opened *o, uint32_t n, struct form form);

/* Point k, as the library answered it: segment, point, time, value, mark; and the line of a segment that has none: the
   segment and the word none, or in a table a row without point, time, value and mark. */
void print_point(const struct lines *lines, uint32_t k, const uint8_t *answer);
void print_none(const struct lines *lines);

/* ---- setup.c: setups as lines */

/* The numbers of WAVEFORM_SETUP. */
struct setup {
    uint32_t sp, np, fp, sn;
};

/* The setup in a line as the oscilloscope takes it, or the end with where the line goes wrong. */
struct setup setup_in(const char *line);

/* Where a line that is refused goes wrong, in words; nothing where nothing was found. */
void found_in_line(FILE *to, const uint8_t *line, size_t length);

/* The one line of a setup with all four pairs in their order. The last answer stays. */
const char *normal_line(struct setup setup);

/* ---- help.c: how the program is called, in words */
extern const char help[];

/* ---- show.c, rail.c, points.c, cross.c, join.c, combined.c, narrow.c: the commands */

/* Numbers that were worked out have so many digits. */
void show(const char *name, int digits);

/* The lines for an array that has samples at the rail: how many they are, of all and of each segment that has any. */
void show_rail(const struct opened *o, uint32_t array);

/* How many samples of an array stand at the rail. */
uint64_t samples_at_rail(const struct opened *o, uint32_t array);

/* Of all segments where `segment` is null. */
void print_points(const char *name, uint32_t array, const uint32_t *segment, struct form form);

/* Of each segment, or of this one, the first point at or above the level. */
void print_crossings(const char *name, double level, uint32_t array, const uint32_t *segment, struct form form);

/* The segments in these files, in whatever order, as one block to `to`. */
void join(const char *to, int replace, const char *const *names, size_t count);

/* A cut that was made, with the c that it answered. */
struct made {
    struct setup by;
    uint32_t kept;
};

/* Prints the numbers of the one cut that stands for these, each of what the one before it wrote. */
void print_combined(const struct made *cuts, size_t count);

/* The words of a file as bytes, to `to`. */
void narrow(const char *name, const char *to, int replace);

/* ---- words.c: texts and whole numbers for a person */

/* A text of a block. Printable ASCII and valid UTF-8 are written as they are, and every other byte, the backslash too,
   as \xNN: nothing that would move a terminal's cursor, hide a letter or turn the line around. */
void write_text(FILE *to, const uint8_t *text, size_t length);

/* A blank and the unit, where there is one. */
void write_unit(FILE *to, struct part unit);

/* The instrument's name, or this where there is none, and its number. */
void write_instrument(FILE *to, const struct opened *o, const char *none);

/* A line of the program, whose words may be names that somebody typed: as above, but for the backslash; and its end. */
void write_line(FILE *to, const char *text);

/* A whole number with commas, as 16,777,216. Each of the last eight answers stays. */
const char *grouped(int64_t n);

/* So many of something: 1 point, 2 points. Each of the last four answers stays. */
const char *counted(int64_t n, const char *what);

/* Which one: 2nd, 12th, 1,021st. The last answer stays. */
const char *ordinal(uint32_t n);

/* The name of an enum's number, as the template has it, or the number. */
const char *record_type(int n);
const char *processing(int n);
const char *coupling(int n);
const char *bandwidth_limit(int n);
const char *wave_source(int n);

#endif
