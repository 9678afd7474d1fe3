/* trace points: the points of a segment, or of all, in plain lines or as a table for a spreadsheet. */
#include "host.h"
#include "tessarquin.h"

#include <stdlib.h>

/* The points of a block of one segment, which is segment n of the file. */
static void print_segment(const struct opened *o, struct block b, uint32_t array, uint32_t n, struct form form)
{
    struct lines lines = lines_of(o, n, form);
    for (uint32_t k = 0; k < o->points; k++) {
        uint8_t answer[TESSARQUIN_POINT_BYTES];
        uint32_t refusal = tessarquin_point(b.bytes, b.length, array, 1, k, answer, sizeof answer);
        if (refusal)
            refuse_question("a point of ", o, (struct asked){.array = array, .segment = n, .point = k}, refusal);
        print_point(&lines, k, answer);
    }
}

/* The whole block is asked for one point first, so that what is refused gets its number. */
void print_points(const char *name, uint32_t array, const uint32_t *segment, struct form form)
{
    struct opened o = open_block(read_block(name));
    uint32_t first = segment ? *segment : 1, last = segment ? *segment : o.segments;
    uint8_t answer[TESSARQUIN_POINT_BYTES];
    uint32_t refusal = tessarquin_point(o.block.bytes, o.block.length, array, first, 0, answer, sizeof answer);
    if (refusal)
        refuse_question("a point of ", &o, (struct asked){.array = array, .segment = first}, refusal);
    if (form.csv)
        print_headings(&o);
    struct alone alone = cut_out(&o, first);
    for (uint32_t n = first; n <= last; n++) {
        put_segment(alone, &o, n);
        print_segment(&o, alone.opened.block, array, n, form);
    }
    free(alone.bytes);
}
