/* The block in a file, and what the library says of it: every number of an opened block comes from a call. */
#include "host.h"
#include "tessarquin.h"

/* Where the # is; 0 where none is found, so that the whole is refused. */
static size_t words_before(struct file file)
{
    const uint8_t *sign = memchr(file.bytes, '#', file.length < WORDS_MOST ? file.length : WORDS_MOST);
    return sign ? (size_t)(sign - file.bytes) : 0;
}

struct block block_in(struct file file)
{
    size_t before = words_before(file);
    return (struct block){file, file.bytes + before, file.length - before};
}

struct block read_block(const char *name)
{
    return block_in(read_file(name, memory(READ_MOST), READ_MOST));
}

/* Part `part` of the payload. */
static struct part part_of(const uint8_t *payload, const uint8_t *layout, size_t part)
{
    return (struct part){payload + tessarquin_number(layout, TESSARQUIN_LAYOUT_STARTS + part),
                         (size_t)tessarquin_number(layout, TESSARQUIN_LAYOUT_LENGTHS + part)};
}

struct opened open_block(struct block b)
{
    uint8_t open[TESSARQUIN_OPEN_BYTES], layout[TESSARQUIN_LAYOUT_BYTES];
    uint32_t refusal = tessarquin_open(b.bytes, b.length, open, sizeof open);
    if (!refusal)
        refusal = tessarquin_layout(b.bytes, b.length, layout, sizeof layout);
    if (refusal)
        refuse_block(b, refusal);
    const uint8_t *payload = b.bytes + tessarquin_number(layout, TESSARQUIN_LAYOUT_START);
    return (struct opened){
        .block = b,
        .segments = (uint32_t)tessarquin_number(open, TESSARQUIN_OPEN_SEGMENTS),
        .points = (uint32_t)tessarquin_number(open, TESSARQUIN_OPEN_POINTS),
        .arrays = (uint32_t)tessarquin_number(open, TESSARQUIN_OPEN_ARRAYS),
        .order = (uint32_t)tessarquin_number(open, TESSARQUIN_OPEN_ORDER),
        .type = (uint32_t)tessarquin_number(open, TESSARQUIN_OPEN_TYPE),
        .first = (uint32_t)tessarquin_number(layout, TESSARQUIN_LAYOUT_FIRST_POINT),
        .sparsing = (uint32_t)tessarquin_number(layout, TESSARQUIN_LAYOUT_SPARSING),
        .index = (uint32_t)tessarquin_number(layout, TESSARQUIN_LAYOUT_SEGMENT_INDEX),
        .payload = payload,
        .text = part_of(payload, layout, TESSARQUIN_PART_USER_TEXT),
        .trigtime = part_of(payload, layout, TESSARQUIN_PART_TRIGTIME),
        .ristime = part_of(payload, layout, TESSARQUIN_PART_RISTIME),
        .samples = {part_of(payload, layout, TESSARQUIN_PART_ARRAY_1), part_of(payload, layout, TESSARQUIN_PART_ARRAY_2)}};
}

/* Behind array 2, which has its place where it is empty too, stands nothing but that. */
size_t length_of_block(const struct opened *o)
{
    return (size_t)(o->samples[1].bytes + o->samples[1].length - o->block.bytes);
}

float float_at(const struct opened *o, size_t at)
{
    return tessarquin_field_float(o->payload + at, o->order);
}

struct part text_at(const struct opened *o, size_t at, size_t most)
{
    return (struct part){o->payload + at, tessarquin_field_text_length(o->payload + at, most)};
}

struct part label_of(const struct opened *o, const char *fallback)
{
    uint8_t answer[TESSARQUIN_LABEL_BYTES];
    const uint8_t *other = (const uint8_t *)fallback;
    uint32_t refusal = tessarquin_label(o->block.bytes, o->block.length, other, strlen(fallback), answer, sizeof answer);
    if (refusal)
        refuse_block(o->block, refusal);
    const uint8_t *from = tessarquin_number(answer, TESSARQUIN_LABEL_FROM) == 0 ? o->block.bytes : other;
    return (struct part){from + tessarquin_number(answer, TESSARQUIN_LABEL_START),
                         (size_t)tessarquin_number(answer, TESSARQUIN_LABEL_LENGTH)};
}

struct point point_of(const struct opened *o, uint32_t array, uint32_t segment, uint32_t k)
{
    uint8_t answer[TESSARQUIN_POINT_BYTES];
    uint32_t refusal = tessarquin_point(o->block.bytes, o->block.length, array, segment, k, answer, sizeof answer);
    if (refusal)
        refuse_question("a point of ", o, (struct asked){.array = array, .segment = segment, .point = k}, refusal);
    return (struct point){tessarquin_double(answer, TESSARQUIN_POINT_VALUE), tessarquin_double(answer, TESSARQUIN_POINT_TIME),
                          tessarquin_number(answer, TESSARQUIN_POINT_MARK) != 0};
}

struct alone cut_out(const struct opened *o, uint32_t n)
{
    struct block b = o->block;
    size_t room = b.length + TESSARQUIN_CUT_MORE;
    uint8_t *out = memory(room), answer[TESSARQUIN_CUT_BYTES];
    uint32_t refusal = tessarquin_cut(b.bytes, b.length, 1, 0, 0, n, o->order, out, room, answer, sizeof answer);
    if (refusal)
        refuse_question("a segment of ", o, (struct asked){.segment = n}, refusal);
    return (struct alone){out, open_block((struct block){b.file, out, (size_t)tessarquin_number(answer, TESSARQUIN_CUT_LENGTH)})};
}

void put_segment(struct alone alone, const struct opened *o, uint32_t n)
{
    const struct part *from[] = {&o->trigtime, &o->samples[0], &o->samples[1]};
    const struct part *to[] = {&alone.opened.trigtime, &alone.opened.samples[0], &alone.opened.samples[1]};
    for (size_t i = 0; i < 3; i++)
        memcpy(alone.bytes + (to[i]->bytes - alone.bytes), from[i]->bytes + to[i]->length * (size_t)(n - 1), to[i]->length);
}

double trigger_time(const struct opened *o, uint32_t n)
{
    return tessarquin_field_double(o->trigtime.bytes + TESSARQUIN_TRIGTIME_BYTES * (size_t)(n - 1), o->order);
}
