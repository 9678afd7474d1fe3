/* trace narrow: words as bytes, for an archive of half the size, and in words what is lost by it. */
#include "host.h"
#include "tessarquin.h"

#include <math.h>
#include <stdlib.h>

/* ---- what is lost */

/* In words, and for each array how many samples stood at the rail as words, and stand there as bytes. */
struct loss {
    struct told told;
    struct {
        uint64_t before, now;
    } rail[2];
};

/* Whether any sample has a low byte other than 0: words of eight measured bits have none. */
static int has_low_bytes(const struct opened *words)
{
    size_t low = words->order == TESSARQUIN_HIFIRST ? 1 : 0;
    for (uint32_t array = 0; array < words->arrays; array++)
        for (size_t i = low; i < words->samples[array].length; i += 2)
            if (words->samples[array].bytes[i] != 0)
                return 1;
    return 0;
}

static void write_step(FILE *to, float gain, struct part unit)
{
    char number[DECIMAL_MOST + 1];
    *put_digits(number, fabs((double)gain), 6) = 0;
    fputs(number, to);
    write_unit(to, unit);
}

/* The steps, and which way values moved: each lost the gain times the rest of its sample by 256, which is 0 or above. */
static void write_loss(FILE *to, const struct opened *words, const struct opened *bytes)
{
    float gain = float_at(words, TESSARQUIN_AT_VERTICAL_GAIN), wider = float_at(bytes, TESSARQUIN_AT_VERTICAL_GAIN);
    struct part unit = text_at(words, TESSARQUIN_AT_VERTUNIT, TESSARQUIN_UNIT_BYTES);
    if (gain == 0) {
        fputs("the gain is 0: no value changes", to);
        return;
    }
    fputs("one step of a sample is ", to);
    write_step(to, wider, unit);
    fputs(", and was ", to);
    write_step(to, gain, unit);
    if (!has_low_bytes(words)) {
        fputs("; the low byte of each sample was 0: no value changes", to);
        return;
    }
    fprintf(to, ": each value is as it was or %s, by less than ", gain > 0 ? "lower" : "higher");
    write_step(to, wider, unit);
}

static struct loss loss_of(const struct opened *words, const struct opened *bytes)
{
    struct loss loss;
    FILE *to = told_to(&loss.told);
    write_loss(to, words, bytes);
    told_all(to);
    for (uint32_t array = 1; array <= words->arrays; array++) {
        loss.rail[array - 1].before = samples_at_rail(words, array);
        loss.rail[array - 1].now = samples_at_rail(bytes, array);
    }
    return loss;
}

/* ---- what is said */

/* With a line for each array where samples came to stand at the rail. */
static void tell_narrowed(const struct opened *words, const struct loss *loss, size_t length, const char *place)
{
    int64_t samples = (int64_t)words->points * words->segments;
    say("%s narrowed to bytes, %s written to %s", counted(samples * words->arrays, "sample"), counted((int64_t)length, "byte"), place);
    say("%s", loss->told.text);
    for (uint32_t array = 1; array <= words->arrays; array++) {
        uint64_t before = loss->rail[array - 1].before, now = loss->rail[array - 1].now;
        if (now > before)
            say("new at the rail, array %u: %s of %s; %s stood there before", (unsigned)array, grouped((int64_t)(now - before)),
                counted(samples, "sample"), grouped((int64_t)before));
    }
}

/* ---- the narrowing */

/* What is lost is worked out before OUT is written: where the memory for it fails, nothing is. */
void narrow(const char *name, const char *to, int replace)
{
    struct opened o = open_block(read_block(name));
    struct block b = o.block;
    size_t room = b.length + TESSARQUIN_NARROW_MORE;
    uint8_t *out = memory(room), answer[TESSARQUIN_NARROW_BYTES];
    uint32_t refusal = tessarquin_narrow(b.bytes, b.length, out, room, answer, sizeof answer);
    if (refusal)
        refuse_question("a narrowing of ", &o, (struct asked){0}, refusal);
    size_t length = (size_t)tessarquin_number(answer, TESSARQUIN_NARROW_LENGTH);
    struct opened narrowed = open_block((struct block){b.file, out, length});
    struct loss loss = {0};
    if (o.type == TESSARQUIN_WORD)
        loss = loss_of(&o, &narrowed);
    write_file((struct files){&b.file, 1}, to, replace, out, length);
    const char *place = strcmp(to, "-") == 0 ? "standard output" : to;
    if (o.type == TESSARQUIN_WORD)
        tell_narrowed(&o, &loss, length, place);
    else
        say("the samples are bytes already, and each value is as it was; %s written to %s", counted((int64_t)length, "byte"), place);
    free(loss.told.text);
}
