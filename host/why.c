/* How a refusal is told: one line with what is refused, its number, what was found there, and what can be done. */
#include "host.h"
#include "tessarquin.h"

#include <float.h>
#include <math.h>

/* ---- what was asked */

/* There may be no such array, and the level may be none either: both have the number 9. */
static void found_choice(FILE *to, const struct opened *o, struct asked asked)
{
    int there = asked.array >= 1 && asked.array <= o->arrays;
    if (!there)
        fprintf(to, "it has %s, and array %s was asked for", counted(o->arrays, "array"), grouped(asked.array));
    not_finite(to, there ? "the level" : ", and the level", asked.level);
}

static void found_gain(FILE *to, float gain)
{
    char number[DECIMAL_MOST + 1];
    if (256 * fabs((double)gain) <= FLT_MAX)
        return;
    *put_float(number, gain) = 0;
    fprintf(to, "VERTICAL_GAIN is %s, and 256 times that is beyond the greatest float", number);
}

static void found_in_question(FILE *to, const struct opened *o, struct asked asked, uint32_t refusal)
{
    switch (refusal) {
    case TESSARQUIN_CHOICE:
        found_choice(to, o, asked);
        break;
    case TESSARQUIN_SEGMENT:
        fprintf(to, "it has %s, and segment %s was asked for", counted(o->segments, "segment"), grouped(asked.segment));
        break;
    case TESSARQUIN_POINT:
        if (asked.point >= o->points)
            fprintf(to, "a segment has %s, from 0 on, and point %s was asked for", counted(o->points, "point"), grouped(asked.point));
        break;
    case TESSARQUIN_SPARSE:
        fprintf(to, "SP %s and S %s are too much together", grouped(asked.sp), grouped(o->sparsing));
        break;
    case TESSARQUIN_GAIN:
        found_gain(to, float_at(o, TESSARQUIN_AT_VERTICAL_GAIN));
        break;
    }
}

/* ---- the message */

/* What the caller can do, in the words of the library's list. */
static const char *what_to_do(uint32_t refusal)
{
    switch (refusal) {
#define TO_DO(name, number, when, what) \
    case number:                        \
        return what;
    TESSARQUIN_REFUSALS(TO_DO)
#undef TO_DO
    }
    return "";
}

/* What is refused: the whole file, where `what` is empty, or something of it. */
static _Noreturn void refuse(const char *what, const char *file, uint32_t refusal, FILE *to, struct told *told)
{
    told_all(to);
    if (told->length == 0)
        fail(REFUSED, "%s%s is refused (%u): %s", what, file, (unsigned)refusal, tessarquin_text(refusal));
    fail(REFUSED, "%s%s is refused (%u): %s; %s", what, file, (unsigned)refusal, told->text, what_to_do(refusal));
}

void refuse_block(struct block block, uint32_t refusal)
{
    struct told told;
    FILE *to = told_to(&told);
    found_in_block(to, block, refusal);
    refuse("", block.file.name, refusal, to, &told);
}

void refuse_question(const char *what, const struct opened *o, struct asked asked, uint32_t refusal)
{
    struct told told;
    FILE *to = told_to(&told);
    found_in_question(to, o, asked, refusal);
    refuse(what, o->block.file.name, refusal, to, &told);
}
