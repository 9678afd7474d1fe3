/*
 * Tessarquin: reads LECROY_2_3 waveform blocks.
 *
 * A block is what an oscilloscope answers to WF? with COMM_FORMAT DEF9: the bytes "#9", nine decimal digits that
 * give the payload's length, the payload (346 bytes of descriptor, texts, tables, samples), and at most one new line.
 * Loggers write shorter headers of the same kind: '#', a digit d from 1 to 9, and d digits. All are taken, leading
 * zeros too, and none changes an answer, but that places in the block move with the payload: with the '#' as byte 0 it
 * starts at byte 2 + d.
 * Whatever stands before the '#' is for the caller to remove.
 *
 * Fourteen calls, each proved to meet its description for every input:
 *
 *     tessarquin_open         is this a block that obeys the template, and what is in it?
 *     tessarquin_layout       where do the descriptor and the other parts stand?
 *     tessarquin_user_text    where does the user text stand?
 *     tessarquin_label        where does the label stand, or is there none?
 *     tessarquin_point        one point, in volts and seconds, and whether its sample stands at the rail
 *     tessarquin_fill         all the points of a segment, in volts, and how many samples stand at the rail
 *     tessarquin_crossing     the first point of a segment at or above a level, or that there is none
 *     tessarquin_strip        a segment in so many columns, to be drawn: the least and the greatest sample of each
 *     tessarquin_cut          a smaller block: some segments, every so many-th point, in either byte order
 *     tessarquin_combined     the setup of the one cut that stands for two cuts, or for any number of them
 *     tessarquin_setup_read   the setup in a line as the oscilloscope takes it, such as WFSU SP,4,NP,0,FP,10,SN,0
 *     tessarquin_setup_write  the one normal line of a setup
 *     tessarquin_join         one block of the segments that were fetched one by one, in whatever order they arrived
 *     tessarquin_narrow       a block of half the size, less precise: each sample's high byte, and 256 times the gain
 *
 * What holds for all of them
 *
 *   - A call takes any bytes and any numbers, and ends. It checks the block that it is lent anew each time.
 *   - It returns 0, or the number of its refusal: the first rule broken, in the order of TESSARQUIN_REFUSALS.
 *     A refused call writes nothing. tessarquin_text has the refusal in words.
 *   - Answers are numbers of eight bytes, the high byte first. tessarquin_number, tessarquin_signed,
 *     tessarquin_double and tessarquin_doubles read them; each number of an answer has a name. Behind the answer a slice
 *     keeps what it held.
 *   - There is no state, no allocation and no system call: any thread may call, also at the same time on one block.
 *   - A slice is a pointer and the bytes behind it. A pointer is never null, also where the length is 0. The slices of
 *     one call do not overlap, and no other thread writes to them during the call.
 *   - A call takes less than 1,024 bytes of stack.
 *
 * A field of the descriptor, such as the unit of the values, is read where it stands once a call has accepted the
 * block, by its offset and by one of the readers tessarquin_field_..:
 *
 *     uint8_t layout[TESSARQUIN_LAYOUT_BYTES];
 *     if (tessarquin_layout(block, block_len, layout, sizeof layout) == TESSARQUIN_OK) {
 *         const uint8_t *payload = block + tessarquin_number(layout, TESSARQUIN_LAYOUT_START);
 *         const uint8_t *unit = payload + TESSARQUIN_AT_VERTUNIT;
 *         printf("%.*s\n", (int)tessarquin_field_text_length(unit, TESSARQUIN_UNIT_BYTES), (const char *)unit);
 *     }
 *
 * Link with libtessarquin.a (x86-64, System V calls); it needs no other library, and the functions that are written out
 * here need <string.h>.
 */
#ifndef TESSARQUIN_H
#define TESSARQUIN_H

#include <stddef.h>
#include <stdint.h>
#include <string.h>

#ifdef __cplusplus
extern "C" {
#endif

/* The version of these calls. Below 1.0 the second number moves where a call takes or answers something else, and where
   one is added. Since 0.2 tessarquin_point answers 24 bytes (16 before), and tessarquin_fill eight bytes behind its M
   values: whoever fills segments back to back leaves room for them. Since 0.3 there is tessarquin_join, with the refusal
   16, since 0.4 tessarquin_combined, since 0.5 tessarquin_narrow, with the refusal 19, since 0.6 tessarquin_crossing,
   since 0.7 tessarquin_strip, and since 0.8 tessarquin_setup_read and tessarquin_setup_write, with the refusal 15; what
   was there before is as it was. Header and archive have to be of one version. */
#define TESSARQUIN_VERSION_MAJOR 0
#define TESSARQUIN_VERSION_MINOR 8
#define TESSARQUIN_VERSION "0.8"

/*
 * Why a call is refused, in the order of the checks: the first that applies is the number returned. Each entry is the
 * name, the number, when it is given, and what the caller can do. A host makes tables of its own from the list, in its
 * own language for example. 14 was never given and is not used; no call here gives 17 or 18.
 */
#define TESSARQUIN_REFUSALS(X)                                                                                         \
    X(FRAME, 1, "it does not start with #, a digit d from 1 to 9, and d digits",                                       \
      "hand over the bytes from the # on, as the instrument wrote them")                                               \
    X(LENGTH, 2, "the length in the header is not that of the data, or is not from 346 to 16,777,216",                 \
      "fetch all its bytes again, with at most one new line behind them, or fewer points where it is too long")        \
    X(NAME, 3, "it is not a WAVEDESC block of the template LECROY_2_3",                                                \
      "read it with a program for its own template")                                                                   \
    X(FORM, 4, "COMM_ORDER or COMM_TYPE is neither of its two values",                                                 \
      "fetch the block again: its descriptor is damaged")                                                              \
    X(TILE, 5, "the lengths of the parts do not add up to the payload",                                                \
      "fetch the block again: its descriptor is damaged, or a part is missing")                                        \
    X(COUNT, 6, "the counts of points and segments do not fit the lengths of arrays and tables",                       \
      "fetch the block again: its descriptor is damaged")                                                              \
    X(INDEX, 7, "FIRST_POINT or SPARSING_FACTOR is below 0, or the factor or the last place is above 268,435,455",     \
      "fetch the block again, with a smaller FP or SP where they were set")                                            \
    X(FLOAT, 8, "a gain, offset, interval or table entry is infinite or not a number",                                 \
      "fetch the block again: its descriptor or a table is damaged")                                                   \
    X(TIME, 20, "a TRIGGER_TIME is less than the one before it",                                                       \
      "fetch the block again: its segments are out of order, or their times are damaged")                              \
    X(CHOICE, 9, "there is no such array, or no such byte order, or the level is infinite or not a number",            \
      "ask for one that is there, or for a finite level")                                                              \
    X(SEGMENT, 10, "there is no such segment",                                                                         \
      "ask for one that is there, from 1 on, or have a cut keep all by 0")                                             \
    X(POINT, 11, "there is no such point in a segment, or the columns are none or more than its points",               \
      "ask for a point that is there, from 0 on, or for 1 to M columns")                                               \
    X(SPARSE, 12, "SP times what was thinned before is above 268,435,455, or a combined FP does not fit 32 bits",      \
      "cut with a smaller SP: its product with SPARSING_FACTOR has to be 268,435,455 or below")                        \
    X(JOIN, 16, "the parts are not the segments 1 to n, at most 1,000, of one trace, or together they are no block",   \
      "join every segment of one acquisition once, each fetched alone by its SN and all in the same form")             \
    X(GAIN, 19, "256 times VERTICAL_GAIN is beyond the greatest float",                                                \
      "keep the samples as words, or fetch the block again where its gain is damaged")                                 \
    X(TEXT, 15, "the line is not a setup as the oscilloscope takes it, or the slice lent for a line is too short",     \
      "write WFSU SP,4,NP,0,FP,10,SN,0 with the numbers that are wanted, or lend 60 bytes for a line")                 \
    X(ROOM, 13, "a slice lent for the answer is too short",                                                            \
      "lend as many bytes as the call says that its answer takes")

enum tessarquin_refusal {
    TESSARQUIN_OK = 0,
#define TESSARQUIN_AS_ENUM(name, number, when, what) TESSARQUIN_##name = number,
    TESSARQUIN_REFUSALS(TESSARQUIN_AS_ENUM)
#undef TESSARQUIN_AS_ENUM
};

/* COMM_ORDER: which byte of a number comes first. COMM_TYPE: what a sample is. */
enum tessarquin_order { TESSARQUIN_HIFIRST = 0, TESSARQUIN_LOFIRST = 1 };
enum tessarquin_type { TESSARQUIN_BYTE = 0, TESSARQUIN_WORD = 1 };

/* The longest block: header, 16,777,216 bytes of payload, and a new line. */
#define TESSARQUIN_BLOCK_MOST 16777228u

/* ---- opening */

/* The numbers that tessarquin_open answers. */
enum tessarquin_open_number {
    TESSARQUIN_OPEN_SEGMENTS, /* g, how many segments there are, at least 1 */
    TESSARQUIN_OPEN_POINTS,   /* M, how many points each segment has in each array, at least 1 */
    TESSARQUIN_OPEN_ARRAYS,   /* how many arrays there are, 1 or 2 */
    TESSARQUIN_OPEN_ORDER,    /* COMM_ORDER: TESSARQUIN_HIFIRST or TESSARQUIN_LOFIRST */
    TESSARQUIN_OPEN_TYPE      /* COMM_TYPE: TESSARQUIN_BYTE or TESSARQUIN_WORD */
};
#define TESSARQUIN_OPEN_BYTES 40u

/*
 * Opens a block: refusals 1 to 8 and 20, then 13 if answer_len is below TESSARQUIN_OPEN_BYTES.
 * The two names are judged up to the zero byte that ends each; old bytes behind it are taken, and a cut copies them.
 * TRIGGER_TIMEs are compared as numbers, from one segment to the next: equal ones pass, and -0.0 is equal to 0.0.
 * TRIGGER_OFFSETs may have any order.
 */
uint32_t tessarquin_open(const uint8_t *block, size_t block_len,
                         uint8_t *answer, size_t answer_len);

/* The ten parts of a payload, in their order. Those of the names RES are always empty. */
enum tessarquin_part {
    TESSARQUIN_PART_DESCRIPTOR, /* 346 bytes: the fields of enum tessarquin_field */
    TESSARQUIN_PART_USER_TEXT,
    TESSARQUIN_PART_RES_DESC1,
    TESSARQUIN_PART_TRIGTIME,   /* empty, or two doubles for each segment: TRIGGER_TIME, TRIGGER_OFFSET */
    TESSARQUIN_PART_RISTIME,    /* empty, or doubles: RIS_OFFSET */
    TESSARQUIN_PART_RES_ARRAY1,
    TESSARQUIN_PART_ARRAY_1,    /* the samples, segment by segment */
    TESSARQUIN_PART_ARRAY_2,    /* empty, or as many samples again */
    TESSARQUIN_PART_RES_ARRAY2,
    TESSARQUIN_PART_RES_ARRAY3
};

/* The numbers that tessarquin_layout answers. */
enum tessarquin_layout_number {
    TESSARQUIN_LAYOUT_START,         /* where the payload starts in the block */
    TESSARQUIN_LAYOUT_FIRST_POINT,   /* F: point k stands at F + S k in the oscilloscope's trace buffer */
    TESSARQUIN_LAYOUT_SPARSING,      /* S: SPARSING_FACTOR, and 1 where that is 0 */
    TESSARQUIN_LAYOUT_SEGMENT_INDEX, /* SEGMENT_INDEX: which segment this is, where it was fetched or cut alone, or 0 */
    TESSARQUIN_LAYOUT_SUBARRAYS,     /* SUBARRAY_COUNT as it stands: g, or 0 where g is 1 */
    TESSARQUIN_LAYOUT_LENGTHS,       /* and behind it: how many bytes each part has; add the part's number */
    TESSARQUIN_LAYOUT_STARTS = TESSARQUIN_LAYOUT_LENGTHS + 10 /* where each part starts in the payload; likewise */
};
#define TESSARQUIN_LAYOUT_BYTES 200u

/* Where the parts of a block stand: refusals as tessarquin_open, 13 if answer_len is below TESSARQUIN_LAYOUT_BYTES. */
uint32_t tessarquin_layout(const uint8_t *block, size_t block_len,
                           uint8_t *answer, size_t answer_len);

/* ---- texts */

/* The numbers that tessarquin_user_text answers. */
enum tessarquin_user_text_number {
    TESSARQUIN_USER_TEXT_START, /* where the text starts in the block */
    TESSARQUIN_USER_TEXT_LENGTH /* how many bytes it has, zeros among them, or 0 where there is no text */
};
#define TESSARQUIN_USER_TEXT_BYTES 16u

/* Where the user text stands: refusals as tessarquin_open, 13 if answer_len is below TESSARQUIN_USER_TEXT_BYTES. */
uint32_t tessarquin_user_text(const uint8_t *block, size_t block_len,
                              uint8_t *answer, size_t answer_len);

/* The numbers that tessarquin_label answers. */
enum tessarquin_label_number {
    TESSARQUIN_LABEL_FROM,  /* 0 where the label stands in the block, 1 where it is the fallback */
    TESSARQUIN_LABEL_START, /* where it starts in the block; in the fallback at 0 */
    TESSARQUIN_LABEL_LENGTH /* how many bytes it has */
};
#define TESSARQUIN_LABEL_BYTES 24u

/*
 * Where the label stands: refusals as tessarquin_open, 13 if answer_len is below TESSARQUIN_LABEL_BYTES.
 * It is TRACE_LABEL up to its first zero byte, or all 16 bytes; where that is empty, the whole of fallback, a name that
 * the caller has for the block.
 */
uint32_t tessarquin_label(const uint8_t *block, size_t block_len,
                          const uint8_t *fallback, size_t fallback_len,
                          uint8_t *answer, size_t answer_len);

/*
 * ---- points
 *
 * A sample stands at the rail where it is the lowest or the highest number of its type: -128 or 127 of a byte, -32,768
 * or 32,767 of a word. There are no numbers further out, so the true value may be beyond the one that is answered, and
 * by how much nobody knows: a peak or a rise time that is taken there means nothing. Such a point has the mark 1.
 *
 * The mark 0 says no more than that the sample is another number. What was clipped before it was a sample has no mark,
 * and an instrument may stop short of its type's numbers: MIN_VALUE and MAX_VALUE of the descriptor are the least and
 * the greatest sample that it allows, -32,768 and 32,512 for words in the example of its manual. A cut keeps the marks
 * of the points that it keeps: where it thins, the marked ones may be among those that it leaves out.
 */

/* The numbers that tessarquin_point answers: two doubles and a mark. */
enum tessarquin_point_number {
    TESSARQUIN_POINT_VALUE, /* in the unit VERTUNIT (volts, mostly): VERTICAL_GAIN times the sample less VERTICAL_OFFSET */
    TESSARQUIN_POINT_TIME,  /* in the unit HORUNIT (seconds, mostly), from the trigger */
    TESSARQUIN_POINT_MARK   /* 1 where the sample stands at the rail, else 0; tessarquin_number reads it */
};
#define TESSARQUIN_POINT_BYTES 24u

/*
 * Point `point`, from 0 to M-1, of segment `segment`, from 1 to g, of array 1 or 2: refusals 1 to 8, 20,
 * 9 to 11, then 13 if answer_len is below TESSARQUIN_POINT_BYTES. The value and the time are each rounded once.
 *
 * With i = F + S k, the place of point k in the oscilloscope's trace buffer, the time is
 *     HORIZ_INTERVAL times i, plus the segment's TRIGGER_OFFSET where the block has trigger times;
 *     RIS_OFFSET j, plus HORIZ_INTERVAL times (i - j), where it has m RIS offsets, and j is the rest of i by m;
 *     HORIZ_INTERVAL times i, plus HORIZ_OFFSET, where it has neither.
 *
 * Each call judges the whole block again, with the trigger times of all its segments. So whoever asks many points of a
 * block with many segments cuts the segment out first, in the order that tessarquin_open answers, and asks segment 1
 * of what was cut:
 *
 *     tessarquin_cut(block, block_len, 1, 0, 0, segment, order, out, out_len, answer, answer_len);
 *
 * The points have the same bits and marks, and those of a segment of 50 among 20,000 take 40 times fewer instructions.
 * For the values alone, and how many of them have the mark, tessarquin_fill takes one call for a segment.
 */
uint32_t tessarquin_point(const uint8_t *block, size_t block_len,
                          uint32_t array, uint32_t segment, uint32_t point,
                          uint8_t *answer, size_t answer_len);

/*
 * The values of all M points of a segment, and how many of their samples stand at the rail: refusals 1 to 8, 20, 9 and
 * 10, then 13 if answer_len is below TESSARQUIN_FILL_BYTES(M).
 *
 * The answer is M doubles, each the value that tessarquin_point answers, bit for bit, and behind them one number: how
 * many of these points have the mark. tessarquin_doubles reads the values, and tessarquin_number(answer, M) the count.
 * Which points they are, where the count is above 0, tessarquin_point says. Of a block with very many segments each call,
 * a cut too, judges the trigger times of all: host/blocks.c shows how one cut serves every segment (put_segment).
 *
 * For segment 1 of array 1:
 *
 *     uint8_t open[TESSARQUIN_OPEN_BYTES];
 *     if (tessarquin_open(block, block_len, open, sizeof open) == TESSARQUIN_OK) {
 *         size_t points = (size_t)tessarquin_number(open, TESSARQUIN_OPEN_POINTS);
 *         size_t room = TESSARQUIN_FILL_BYTES(points);
 *         uint8_t *answer = (uint8_t *)malloc(room);
 *         if (answer && tessarquin_fill(block, block_len, 1, 1, answer, room) == TESSARQUIN_OK)
 *             printf("%u of %u at the rail\n", (unsigned)tessarquin_number(answer, points), (unsigned)points);
 *         free(answer);
 *     }
 */
uint32_t tessarquin_fill(const uint8_t *block, size_t block_len,
                         uint32_t array, uint32_t segment,
                         uint8_t *answer, size_t answer_len);
#define TESSARQUIN_VALUE_BYTES 8u

/* How many bytes the answer of a fill has, by the points of a segment: their values, and the count. */
#define TESSARQUIN_FILL_BYTES(points) (((size_t)(points) + 1) * TESSARQUIN_VALUE_BYTES)

/* The numbers that tessarquin_crossing answers. */
enum tessarquin_crossing_number {
    TESSARQUIN_CROSSING_FOUND, /* 1 where there is such a point, or 0 where there is none */
    TESSARQUIN_CROSSING_POINT  /* its number, from 0 to M-1, or 0 where there is none */
};
#define TESSARQUIN_CROSSING_BYTES 16u

/*
 * The first point of a segment whose value is at or above a level, in the unit VERTUNIT: refusals 1 to 8, 20, 9 and 10,
 * then 13 if answer_len is below TESSARQUIN_CROSSING_BYTES. 9 is given for an array that is not there, and for a level
 * that is infinite or not a number.
 *
 * It is the least k for which the value that tessarquin_point answers is >= level, as C compares doubles: a value equal
 * to the level is at it, and -0.0 is at 0.0. There is none exactly where every value of the segment is below the level.
 * The whole double counts: with a VERTICAL_GAIN of 0.7f the sample 10 has the value 6.9999998807907104, below 7.
 *
 * Two answers say less than they seem to. Point 0 says that the segment starts at or above the level: whether and when
 * the signal rose to it the samples do not say. And where the level is above the value of the rail, there is none
 * whatever the signal did: the samples of one that went beyond have the mark. host/cross.c tells of both.
 *
 * No sample behind the point answered counts, and the samples are not read to the end of the segment: where a record of
 * millions of points crosses near its start, the call takes twice as long as tessarquin_open. Of a block with very many
 * segments each call judges the trigger times of all, as said at tessarquin_point.
 *
 * For the time of the first overvoltage of a 400 V bus, in segment 1 of array 1:
 *
 *     uint8_t crossing[TESSARQUIN_CROSSING_BYTES], point[TESSARQUIN_POINT_BYTES];
 *     if (tessarquin_crossing(block, block_len, 1, 1, 405.0, crossing, sizeof crossing) == TESSARQUIN_OK) {
 *         uint32_t k = (uint32_t)tessarquin_number(crossing, TESSARQUIN_CROSSING_POINT);
 *         if (tessarquin_number(crossing, TESSARQUIN_CROSSING_FOUND) == 0)
 *             printf("never\n");
 *         else if (tessarquin_point(block, block_len, 1, 1, k, point, sizeof point) == TESSARQUIN_OK)
 *             printf("at %g s\n", tessarquin_double(point, TESSARQUIN_POINT_TIME));
 *     }
 */
uint32_t tessarquin_crossing(const uint8_t *block, size_t block_len,
                             uint32_t array, uint32_t segment, double level,
                             uint8_t *answer, size_t answer_len);

/* The numbers that tessarquin_strip answers. */
enum tessarquin_strip_number {
    TESSARQUIN_STRIP_SUM,   /* the sum of all M samples, which may be below zero: tessarquin_signed reads it */
    TESSARQUIN_STRIP_MARKS, /* how many of them stand at the rail, from 0 to M */
    TESSARQUIN_STRIP_PEAK   /* the first point that holds the greatest sample, from 0 to M-1 */
};
#define TESSARQUIN_STRIP_BYTES 24u

/* How many bytes the leasts of so many columns take, and the greatests. */
#define TESSARQUIN_COLUMN_BYTES(columns) ((size_t)(columns) * 8u)

/*
 * A segment in `columns` columns, W of them, to be drawn: refusals 1 to 8, 20, 9 and 10, 11 if W is 0 or above M, then 13
 * if least_len or greatest_len is below TESSARQUIN_COLUMN_BYTES(W) or answer_len below TESSARQUIN_STRIP_BYTES.
 *
 * Column q, from 0 to W-1, has the points from floor(q M / W) up to but not including floor((q + 1) M / W): every point
 * is in exactly one column, and no column is empty. Its least sample is number q of `least`, its greatest is number q of
 * `greatest`, and tessarquin_signed reads both. No spike is lost between two columns: the least of the leasts is the
 * least sample of the segment, and the greatest of the greatests is its greatest. A column has a sample at the rail where
 * its least is the lowest number of the type, or its greatest the highest.
 *
 * The answer has three numbers of the segment as a whole, which do not depend on W. All numbers here are whole, as the
 * samples are: the value of a sample z is VERTICAL_GAIN times z less VERTICAL_OFFSET, both read as floats and worked out in
 * double, and then it has the bits that tessarquin_point answers. Where the gain is below 0, the least sample has the
 * greatest value. The mean of the values is VERTICAL_GAIN times (sum / M) less VERTICAL_OFFSET. The time of a column is
 * that of its first point.
 *
 * A picture of half the width needs no second call: where W is even, the lesser of leasts 2 q and 2 q + 1 is least q of
 * the strip of W / 2 columns, the greater of greatests 2 q and 2 q + 1 is its greatest q, and its answer is the same. Of a
 * block with very many segments each call judges the trigger times of all, as said at tessarquin_point. host/draw.c makes
 * pictures of strips.
 *
 * For segment 1 of array 1, in four columns:
 *
 *     uint8_t least[TESSARQUIN_COLUMN_BYTES(4)], greatest[TESSARQUIN_COLUMN_BYTES(4)], strip[TESSARQUIN_STRIP_BYTES];
 *     if (tessarquin_strip(block, block_len, 1, 1, 4, least, sizeof least, greatest, sizeof greatest, strip, sizeof strip) == TESSARQUIN_OK) {
 *         for (size_t q = 0; q < 4; q++)
 *             printf("from %d to %d\n", (int)tessarquin_signed(least, q), (int)tessarquin_signed(greatest, q));
 *         printf("greatest at point %u\n", (unsigned)tessarquin_number(strip, TESSARQUIN_STRIP_PEAK));
 *     }
 */
uint32_t tessarquin_strip(const uint8_t *block, size_t block_len,
                          uint32_t array, uint32_t segment, uint32_t columns,
                          uint8_t *least, size_t least_len,
                          uint8_t *greatest, size_t greatest_len,
                          uint8_t *answer, size_t answer_len);

/* ---- cuts */

/* The numbers that tessarquin_cut answers. */
enum tessarquin_cut_number {
    TESSARQUIN_CUT_COUNT, /* c, the points kept of each segment */
    TESSARQUIN_CUT_LENGTH /* the bytes written to out */
};
#define TESSARQUIN_CUT_BYTES 16u

/* A cut's payload is never longer than its block's, and its header is always "#9" and nine digits. So this many bytes
   more than the block has are room for any cut of it. */
#define TESSARQUIN_CUT_MORE 6u

/*
 * Cuts a block by the numbers of WAVEFORM_SETUP: refusals 1 to 8, 20, 9 to 12, then 13 if out or answer is too
 * short.
 *
 *     sp     keep every sp-th point of a segment; 0 counts as 1
 *     np     and at most np of them; 0 is no limit
 *     fp     beginning with point fp, from 0 to M-1
 *     sn     of segment sn alone; 0 is all segments
 *     order  the byte order of the block written: TESSARQUIN_HIFIRST or TESSARQUIN_LOFIRST
 *
 * The block goes to out, with the header "#9" and no new line; room of block_len + TESSARQUIN_CUT_MORE is always
 * enough. What is written obeys the rules: no call refuses it by 1 to 8 or 20. Changed are COMM_ORDER, the lengths of
 * TRIGTIME and of the arrays, WAVE_ARRAY_COUNT, FIRST_POINT, SPARSING_FACTOR (0 becomes 1), and with sn SUBARRAY_COUNT
 * and a SEGMENT_INDEX of 0; every other field is carried, LAST_VALID_PNT among them.
 * The kept points have their values, times and marks bit for bit. A cut of a cut is one cut of the first block, however
 * many times it was cut: tessarquin_combined says by which numbers.
 */
uint32_t tessarquin_cut(const uint8_t *block, size_t block_len,
                        uint32_t sp, uint32_t np, uint32_t fp, uint32_t sn, uint32_t order,
                        uint8_t *out, size_t out_len,
                        uint8_t *answer, size_t answer_len);

/* The numbers that tessarquin_combined answers: those of the one cut. */
enum tessarquin_combined_number {
    TESSARQUIN_COMBINED_SP,
    TESSARQUIN_COMBINED_NP,
    TESSARQUIN_COMBINED_FP,
    TESSARQUIN_COMBINED_SN
};
#define TESSARQUIN_COMBINED_BYTES 32u

/*
 * The one cut that stands for two: for cut a, and then cut b of what a wrote, where b answered `count` as its c. It is
 * worked out from their numbers alone: refusal 12, then 13 if answer_len is below TESSARQUIN_COMBINED_BYTES.
 *
 *     SP  spa times spb, where 0 counts as 1; above 268,435,455 it is refused by 12
 *     NP  count, which npa and npb have limited already; no cut answers 0, and as NP that is no limit
 *     FP  fpa plus spa times fpb, where an spa of 0 counts as 1; above 4,294,967,295 it is refused by 12
 *     SN  sna, or snb where sna is 0
 *
 * Where both cuts were accepted it is not refused by 12; and the cut of the first block by these four numbers, in the
 * order of b and with the room that b had, is accepted too, answers what b answered and writes the bytes that b wrote.
 *
 * So it goes on for any number of cuts, each of what the one before it wrote: combine the first two, what comes of them
 * with the third, and so on. Whoever starts from 0, 0, 0, 0, which leaves out nothing, need not ask whether there was
 * just one: that gives its own numbers, with an SP of 0 as 1 and its c as NP. Cuts that follow each other may also be
 * combined among themselves first, in any groups, each group with the c of its last cut: the four numbers are the same.
 * For every 2nd point from point 10 on, and of these every 6th from point 15 on, which were 5:
 *
 *     uint8_t one[TESSARQUIN_COMBINED_BYTES];
 *     if (tessarquin_combined(2, 0, 10, 0, 6, 0, 15, 0, 5, one, sizeof one) == TESSARQUIN_OK) {
 *         printf("every %uth point", (unsigned)tessarquin_number(one, TESSARQUIN_COMBINED_SP));
 *         printf(" from point %u", (unsigned)tessarquin_number(one, TESSARQUIN_COMBINED_FP));
 *         printf(", %u points\n", (unsigned)tessarquin_number(one, TESSARQUIN_COMBINED_NP));
 *     }
 *
 * prints "every 12th point from point 40, 5 points". Numbers that no cuts can have had are taken as they are:
 * host/combined.c finds such before it asks.
 */
uint32_t tessarquin_combined(uint32_t spa, uint32_t npa, uint32_t fpa, uint32_t sna,
                             uint32_t spb, uint32_t npb, uint32_t fpb, uint32_t snb, uint32_t count,
                             uint8_t *answer, size_t answer_len);

/* ---- setups as lines */

/* The numbers that tessarquin_setup_read answers: those of the setup, a pair that is missing as 0. */
enum tessarquin_setup_read_number {
    TESSARQUIN_SETUP_READ_SP,
    TESSARQUIN_SETUP_READ_NP,
    TESSARQUIN_SETUP_READ_FP,
    TESSARQUIN_SETUP_READ_SN
};
#define TESSARQUIN_SETUP_READ_BYTES 32u

/*
 * Reads a setup as the oscilloscope takes it: refusal 15 where the line is no setup, then 13 if answer_len is below
 * TESSARQUIN_SETUP_READ_BYTES. A line is
 *
 *     WFSU or WAVEFORM_SETUP, in capitals, and one blank;
 *     one to four pairs with a comma between each and the next, in any order and none twice;
 *     and nothing more: no blank, no line end, no zero byte.
 *
 * A pair is SP, NP, FP or SN, a comma, and one to ten decimal digits. Leading zeros are taken, and the number is at most
 * 4,294,967,295. So four numbers for tessarquin_cut come of each line that is taken; whether the cut by them is accepted
 * is the block's matter.
 *
 *     uint8_t setup[TESSARQUIN_SETUP_READ_BYTES];
 *     const char *typed = "WFSU FP,10,SP,4";
 *     if (tessarquin_setup_read((const uint8_t *)typed, strlen(typed), setup, sizeof setup) == TESSARQUIN_OK) {
 *         printf("every %uth point", (unsigned)tessarquin_number(setup, TESSARQUIN_SETUP_READ_SP));
 *         printf(" from point %u\n", (unsigned)tessarquin_number(setup, TESSARQUIN_SETUP_READ_FP));
 *     }
 *
 * prints "every 4th point from point 10". Where a line goes wrong no number says: host/setup.c finds that.
 */
uint32_t tessarquin_setup_read(const uint8_t *line, size_t line_len,
                               uint8_t *answer, size_t answer_len);

/* The number that tessarquin_setup_write answers. */
enum tessarquin_setup_write_number {
    TESSARQUIN_SETUP_WRITE_LENGTH /* the bytes written to out, from 24 to TESSARQUIN_SETUP_LINE_MOST */
};
#define TESSARQUIN_SETUP_WRITE_BYTES 8u

/* The longest line that tessarquin_setup_write writes. */
#define TESSARQUIN_SETUP_LINE_MOST 60u

/*
 * Writes the one normal line of a setup: refusal 15 if out is shorter than the line, then 13 if answer_len is below
 * TESSARQUIN_SETUP_WRITE_BYTES. It is WFSU, a blank, and all four pairs in the order SP, NP, FP, SN, without leading
 * zeros; there is no line end and no zero byte behind it.
 *
 * tessarquin_setup_read reads the same four numbers from it. So two lines say the same setup exactly where, read and
 * written again, they are the same bytes.
 *
 *     uint8_t line[TESSARQUIN_SETUP_LINE_MOST], write[TESSARQUIN_SETUP_WRITE_BYTES];
 *     if (tessarquin_setup_write(4, 0, 10, 0, line, sizeof line, write, sizeof write) == TESSARQUIN_OK) {
 *         printf("%.*s\n", (int)tessarquin_number(write, TESSARQUIN_SETUP_WRITE_LENGTH), (const char *)line);
 *     }
 *
 * prints "WFSU SP,4,NP,0,FP,10,SN,0".
 */
uint32_t tessarquin_setup_write(uint32_t sp, uint32_t np, uint32_t fp, uint32_t sn,
                                uint8_t *out, size_t out_len,
                                uint8_t *answer, size_t answer_len);

/* ---- joins */

/* The numbers that tessarquin_join answers. */
enum tessarquin_join_number {
    TESSARQUIN_JOIN_PARTS, /* n, how many parts there are: the segments of the block written, from 1 to 1,000 */
    TESSARQUIN_JOIN_LENGTH /* the bytes written to out */
};
#define TESSARQUIN_JOIN_BYTES 16u

/* The joined payload is never longer than those of the parts together, and its header is always "#9" and nine digits. So
   this many bytes more than the parts have are room for any join of them; of more than one part the block is always
   shorter than they are. It is never longer than TESSARQUIN_BLOCK_MOST either. */
#define TESSARQUIN_JOIN_MORE 6u

/*
 * Joins the segments of one trace, each a block of its own, into one block with all of them: refusals 1 to 8 and 20 for
 * the first part that is bad, then 16, then 13 if out or answer is too short.
 *
 * The parts stand back to back in `parts`, in any order, from one # to the next, until parts_len is used up. Each ends
 * behind the bytes that its header says: a new line behind a part, or words before one, are for the caller to remove,
 * and are refused by 1. A part that ends too early is refused by 1 within its header and by 2 behind it. All parts are
 * judged before 16 is, so a bad one behind 1,000 good ones gives its own number.
 *
 * A part is what the oscilloscope answers where WAVEFORM_SETUP has an SN, or what a cut with sn writes: it has one
 * segment, and its SEGMENT_INDEX says which. 16 is given where
 *     there are no parts, or more than 1,000;
 *     a part has more than one segment;
 *     the n parts do not have the SEGMENT_INDEXes from 1 to n, each once;
 *     two parts have another descriptor or another user text: the 346 bytes of all but for SEGMENT_INDEX are the same,
 *     byte order, reserved words and the bytes behind a name among them (headers, tables and samples are their own);
 *     a TRIGGER_TIME is less than that of the segment before it;
 *     there are RIS offsets, and n is above 1;
 *     or the joined payload would have more than 16,777,216 bytes.
 *
 * The block goes to out, with the header "#9", no new line, and the byte order of the parts; room of parts_len +
 * TESSARQUIN_JOIN_MORE is always enough. It has the segments of each array, and the trigger entries, by SEGMENT_INDEX,
 * so every order of the parts gives the same bytes. Changed are SUBARRAY_COUNT, which is n, SEGMENT_INDEX, which is 0,
 * WAVE_ARRAY_COUNT and the lengths of TRIGTIME and of the arrays; every other field, the user text and RIS offsets are
 * those of the parts. What is written obeys the rules: no call refuses it by 1 to 8 or 20. A point of segment k has the
 * value, the time and the mark that it has in part k, bit for bit; and where each part was written by a cut with sn, the
 * cut of the joined block by sp 1, np 0, fp 0, sn k and the same order is part k again.
 *
 * Parts that arrived one by one, and were laid back to back:
 *
 *     uint8_t join[TESSARQUIN_JOIN_BYTES], *joined = (uint8_t *)malloc(parts_len + TESSARQUIN_JOIN_MORE);
 *     if (joined) {
 *         uint32_t refusal = tessarquin_join(parts, parts_len, joined, parts_len + TESSARQUIN_JOIN_MORE, join, sizeof join);
 *         if (refusal == TESSARQUIN_OK)
 *             printf("%u segments in %u bytes\n", (unsigned)tessarquin_number(join, TESSARQUIN_JOIN_PARTS),
 *                    (unsigned)tessarquin_number(join, TESSARQUIN_JOIN_LENGTH));
 *         else
 *             printf("%s\n", tessarquin_text(refusal));
 *         free(joined);
 *     }
 *
 * Which part is bad, or does not fit, no number says: host/join.c opens each before it joins them, and host/unfit.c
 * finds what stands in the way of a join that was refused.
 */
uint32_t tessarquin_join(const uint8_t *parts, size_t parts_len,
                         uint8_t *out, size_t out_len,
                         uint8_t *answer, size_t answer_len);

/* ---- narrowing */

/* The number that tessarquin_narrow answers. */
enum tessarquin_narrow_number {
    TESSARQUIN_NARROW_LENGTH /* the bytes written to out */
};
#define TESSARQUIN_NARROW_BYTES 8u

/* A narrowed payload is never longer than its block's, and its header is always "#9" and nine digits. So this many bytes
   more than the block has are room for the narrowed one. */
#define TESSARQUIN_NARROW_MORE 6u

/*
 * Narrows a block of words to bytes, for an archive of half the size: refusals 1 to 8 and 20, then 19, then 13 if out or
 * answer is too short. The low byte of each word is lost, and no call brings it back.
 *
 * Each sample becomes the whole number at or below sample / 256, which is its high byte: -1 becomes -1, and not 0.
 * VERTICAL_GAIN becomes 256 times itself, exactly; where that is not finite, which is from 2^120 on and from -2^120 down,
 * the call is refused by 19. COMM_TYPE and the lengths of the arrays follow. The byte order and every other field stay,
 * and so do user text, trigger times and RIS offsets.
 * A block of bytes is written as it is, behind a header "#9" and without the new line, whatever its gain.
 *
 * MIN_VALUE and MAX_VALUE are among the fields that stay, and go on to count in words: the value of such a limit is
 * VERTICAL_GAIN / 256 times it, less VERTICAL_OFFSET. A limit beyond -128 to 127 is also all that tells a narrowed block
 * from one that had bytes from the start: host/show.c goes by it.
 *
 * The block goes to out, with the header "#9" and no new line; room of block_len + TESSARQUIN_NARROW_MORE is always
 * enough. What is written obeys the rules: no call refuses it by 1 to 8 or 20. It has the points that there were:
 *     the time of each is the same, bit for bit;
 *     its exact value falls by the old gain times a whole number from 0 to 255, the rest of its sample by 256. So with a
 *     gain above 0 no value rises, with one below 0 none falls, and with one of 0 none moves; else each moves by less than
 *     one step of the new samples, which is 256 of the old ones, but for the rounding of the two values;
 *     a word from 32,512 on becomes 127 and one below -32,512 becomes -128, and these have the mark, which of the words
 *     only 32,767 and -32,768 had.
 *
 * Narrowing and cutting, by the same numbers, may change places: the same bytes are written. Given room for what is
 * written on the way, either way is accepted where the other is. Narrowing twice writes what narrowing once writes.
 *
 *     uint8_t narrow[TESSARQUIN_NARROW_BYTES], *narrowed = (uint8_t *)malloc(block_len + TESSARQUIN_NARROW_MORE);
 *     if (narrowed) {
 *         uint32_t refusal = tessarquin_narrow(block, block_len, narrowed, block_len + TESSARQUIN_NARROW_MORE, narrow, sizeof narrow);
 *         if (refusal == TESSARQUIN_OK)
 *             printf("%u bytes\n", (unsigned)tessarquin_number(narrow, TESSARQUIN_NARROW_LENGTH));
 *         else
 *             printf("%s\n", tessarquin_text(refusal));
 *         free(narrowed);
 *     }
 */
uint32_t tessarquin_narrow(const uint8_t *block, size_t block_len,
                           uint8_t *out, size_t out_len,
                           uint8_t *answer, size_t answer_len);

/* ---- answers and refusals, read */

/* Number i of an answer. */
static inline uint64_t tessarquin_number(const uint8_t *answer, size_t i)
{
    const uint8_t *p = answer + 8 * i;
    return (uint64_t)p[0] << 56 | (uint64_t)p[1] << 48 | (uint64_t)p[2] << 40 | (uint64_t)p[3] << 32
         | (uint64_t)p[4] << 24 | (uint64_t)p[5] << 16 | (uint64_t)p[6] << 8 | (uint64_t)p[7];
}

/* Number i of an answer, or of a strip's leasts or greatests, where it may be below zero. */
static inline int64_t tessarquin_signed(const uint8_t *answer, size_t i)
{
    return (int64_t)tessarquin_number(answer, i);
}

/* Double i of an answer. */
static inline double tessarquin_double(const uint8_t *answer, size_t i)
{
    uint64_t bits = tessarquin_number(answer, i);
    double x;
    memcpy(&x, &bits, sizeof x);
    return x;
}

/* The first n doubles of an answer, to out. */
static inline void tessarquin_doubles(const uint8_t *answer, size_t n, double *out)
{
    for (size_t i = 0; i < n; i++)
        out[i] = tessarquin_double(answer, i);
}

/* A refusal in words: when it is given, and what the caller can do. */
static inline const char *tessarquin_text(uint32_t refusal)
{
    switch (refusal) {
    case TESSARQUIN_OK:
        return "accepted";
#define TESSARQUIN_AS_TEXT(name, number, when, what) \
    case number:                                     \
        return when "; " what;
    TESSARQUIN_REFUSALS(TESSARQUIN_AS_TEXT)
#undef TESSARQUIN_AS_TEXT
    default:
        return "no refusal has this number";
    }
}

/* ---- fields of an accepted block, read where they stand */

/* Where the fields of the descriptor stand in the payload. */
enum tessarquin_field {
    TESSARQUIN_AT_DESCRIPTOR_NAME = 0,     /* text of 16 bytes */
    TESSARQUIN_AT_TEMPLATE_NAME = 16,      /* text of 16 bytes */
    TESSARQUIN_AT_COMM_TYPE = 32,          /* word */
    TESSARQUIN_AT_COMM_ORDER = 34,         /* word */
    TESSARQUIN_AT_LENGTHS = 36,            /* ten longs, which tessarquin_layout answers */
    TESSARQUIN_AT_INSTRUMENT_NAME = 76,    /* text of 16 bytes */
    TESSARQUIN_AT_INSTRUMENT_NUMBER = 92,  /* long */
    TESSARQUIN_AT_TRACE_LABEL = 96,        /* text of 16 bytes, which tessarquin_label answers */
    TESSARQUIN_AT_WAVE_ARRAY_COUNT = 116,  /* long */
    TESSARQUIN_AT_PNTS_PER_SCREEN = 120,   /* long */
    TESSARQUIN_AT_FIRST_VALID_PNT = 124,   /* long */
    TESSARQUIN_AT_LAST_VALID_PNT = 128,    /* long */
    TESSARQUIN_AT_FIRST_POINT = 132,       /* long, which tessarquin_layout answers */
    TESSARQUIN_AT_SPARSING_FACTOR = 136,   /* long; likewise, 0 as 1 */
    TESSARQUIN_AT_SEGMENT_INDEX = 140,     /* long; likewise */
    TESSARQUIN_AT_SUBARRAY_COUNT = 144,    /* long; likewise */
    TESSARQUIN_AT_SWEEPS_PER_ACQ = 148,    /* long */
    TESSARQUIN_AT_POINTS_PER_PAIR = 152,   /* word */
    TESSARQUIN_AT_PAIR_OFFSET = 154,       /* word */
    TESSARQUIN_AT_VERTICAL_GAIN = 156,     /* float */
    TESSARQUIN_AT_VERTICAL_OFFSET = 160,   /* float */
    TESSARQUIN_AT_MAX_VALUE = 164,         /* float: the greatest sample that the instrument allows */
    TESSARQUIN_AT_MIN_VALUE = 168,         /* float: the least */
    TESSARQUIN_AT_NOMINAL_BITS = 172,      /* word */
    TESSARQUIN_AT_NOM_SUBARRAY_COUNT = 174, /* word */
    TESSARQUIN_AT_HORIZ_INTERVAL = 176,    /* float */
    TESSARQUIN_AT_HORIZ_OFFSET = 180,      /* double */
    TESSARQUIN_AT_PIXEL_OFFSET = 188,      /* double */
    TESSARQUIN_AT_VERTUNIT = 196,          /* text of 48 bytes */
    TESSARQUIN_AT_HORUNIT = 244,           /* text of 48 bytes */
    TESSARQUIN_AT_HORIZ_UNCERTAINTY = 292, /* float */
    TESSARQUIN_AT_TRIGGER_SECONDS = 296,   /* double: TRIGGER_TIME, and single bytes that follow it */
    TESSARQUIN_AT_TRIGGER_MINUTES = 304,   /* byte */
    TESSARQUIN_AT_TRIGGER_HOURS = 305,     /* byte */
    TESSARQUIN_AT_TRIGGER_DAYS = 306,      /* byte */
    TESSARQUIN_AT_TRIGGER_MONTHS = 307,    /* byte */
    TESSARQUIN_AT_TRIGGER_YEAR = 308,      /* word */
    TESSARQUIN_AT_ACQ_DURATION = 312,      /* float */
    TESSARQUIN_AT_RECORD_TYPE = 316,       /* word */
    TESSARQUIN_AT_PROCESSING_DONE = 318,   /* word */
    TESSARQUIN_AT_RIS_SWEEPS = 322,        /* word */
    TESSARQUIN_AT_TIMEBASE = 324,          /* word */
    TESSARQUIN_AT_VERT_COUPLING = 326,     /* word */
    TESSARQUIN_AT_PROBE_ATT = 328,         /* float */
    TESSARQUIN_AT_FIXED_VERT_GAIN = 332,   /* word */
    TESSARQUIN_AT_BANDWIDTH_LIMIT = 334,   /* word */
    TESSARQUIN_AT_VERTICAL_VERNIER = 336,  /* float */
    TESSARQUIN_AT_ACQ_VERT_OFFSET = 340,   /* float */
    TESSARQUIN_AT_WAVE_SOURCE = 344        /* word */
};
#define TESSARQUIN_NAME_BYTES 16u
#define TESSARQUIN_UNIT_BYTES 48u

/* The entry of a segment in TESSARQUIN_PART_TRIGTIME: the double TRIGGER_TIME, in seconds from the first trigger, and
   behind it the double TRIGGER_OFFSET. */
#define TESSARQUIN_TRIGTIME_BYTES 16u

/* How many bytes of a text field come before its first zero byte, or `bytes`, all that it has, where there is none. */
static inline size_t tessarquin_field_text_length(const uint8_t *field, size_t bytes)
{
    const void *zero = memchr(field, 0, bytes);
    return zero ? (size_t)((const uint8_t *)zero - field) : bytes;
}

/* The bits of a number of so many bytes, in the block's order. */
static inline uint64_t tessarquin_field_bits(const uint8_t *field, size_t bytes, uint64_t order)
{
    uint64_t bits = 0;
    for (size_t i = 0; i < bytes; i++)
        bits = bits << 8 | field[order == TESSARQUIN_HIFIRST ? i : bytes - 1 - i];
    return bits;
}

/* A word or an enum; a long; a float; a double: each in the block's order, which tessarquin_open answers (an order that
   is not TESSARQUIN_HIFIRST is taken for TESSARQUIN_LOFIRST). A single byte is read as it stands. */
static inline int16_t tessarquin_field_word(const uint8_t *field, uint64_t order)
{
    return (int16_t)tessarquin_field_bits(field, 2, order);
}

static inline int32_t tessarquin_field_long(const uint8_t *field, uint64_t order)
{
    return (int32_t)tessarquin_field_bits(field, 4, order);
}

static inline float tessarquin_field_float(const uint8_t *field, uint64_t order)
{
    uint32_t bits = (uint32_t)tessarquin_field_bits(field, 4, order);
    float x;
    memcpy(&x, &bits, sizeof x);
    return x;
}

static inline double tessarquin_field_double(const uint8_t *field, uint64_t order)
{
    uint64_t bits = tessarquin_field_bits(field, 8, order);
    double x;
    memcpy(&x, &bits, sizeof x);
    return x;
}

#ifdef __cplusplus
}
#endif

#endif
