/* How many samples of an array stand at the rail, and in which segments: what show warns of, and narrow tells. */
#include "host.h"
#include "tessarquin.h"

#include <stdlib.h>

/* A sequence may have thousands of segments: the first so many that have such samples get a line each, the rest one. */
enum { LINES_MOST = 10 };

/* How many there are, in how many segments, and the first of these segments. */
struct rail {
    uint64_t samples;
    uint32_t segments;
    struct {
        uint32_t n;
        uint64_t samples;
    } first[LINES_MOST];
};

/* As the library counts them in a block of one segment, which is segment n of the file; `answer` has room for a fill. */
static uint64_t count_of(const struct opened *o, struct block b, uint32_t array, uint32_t n, uint8_t *answer)
{
    uint32_t refusal = tessarquin_fill(b.bytes, b.length, array, 1, answer, TESSARQUIN_FILL_BYTES(o->points));
    if (refusal)
        refuse_question("a segment of ", o, (struct asked){.array = array, .segment = n}, refusal);
    return tessarquin_number(answer, o->points);
}

static struct rail rail_of(const struct opened *o, uint32_t array)
{
    struct rail rail = {0};
    struct alone alone = cut_out(o, 1);
    uint8_t *answer = memory(TESSARQUIN_FILL_BYTES(o->points));
    for (uint32_t n = 1; n <= o->segments; n++) {
        put_segment(alone, o, n);
        uint64_t samples = count_of(o, alone.opened.block, array, n, answer);
        if (samples == 0)
            continue;
        if (rail.segments < LINES_MOST) {
            rail.first[rail.segments].n = n;
            rail.first[rail.segments].samples = samples;
        }
        rail.samples += samples;
        rail.segments++;
    }
    free(answer);
    free(alone.bytes);
    return rail;
}

static void print_samples(uint64_t samples, uint64_t of)
{
    printf("%s of %s", grouped((int64_t)samples), counted((int64_t)of, "sample"));
}

static void print_array(uint32_t array)
{
    printf("%-17sarray %u", "at the rail", (unsigned)array);
}

/* A line for each of the first segments, and one for the rest. */
static void print_segments(const struct opened *o, uint32_t array, const struct rail *rail)
{
    uint64_t rest = rail->samples;
    uint32_t lines = rail->segments < LINES_MOST ? rail->segments : LINES_MOST;
    for (uint32_t i = 0; i < lines; i++) {
        print_array(array);
        printf(", segment %s: ", grouped(rail->first[i].n));
        print_samples(rail->first[i].samples, o->points);
        putchar('\n');
        rest -= rail->first[i].samples;
    }
    if (rail->segments > lines) {
        print_array(array);
        printf(", in %s: ", counted(rail->segments - lines, "more segment"));
        print_samples(rest, (uint64_t)o->points * (rail->segments - lines));
        putchar('\n');
    }
}

uint64_t samples_at_rail(const struct opened *o, uint32_t array)
{
    return rail_of(o, array).samples;
}

void show_rail(const struct opened *o, uint32_t array)
{
    struct rail rail = rail_of(o, array);
    print_array(array);
    fputs(": ", stdout);
    print_samples(rail.samples, (uint64_t)o->points * o->segments);
    if (o->segments > 1)
        printf(" in %s of %s", grouped(rail.segments), counted(o->segments, "segment"));
    puts("; these may be clipped: a peak, a mean or a rise time with them means nothing");
    if (o->segments > 1)
        print_segments(o, array, &rail);
}
