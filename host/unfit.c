/*
 * Why files cannot be joined: all that stands in the way, a line each. The library has judged; this looks again at what
 * a join asks for, for the message alone, and decides nothing.
 */
#include "join.h"
#include "tessarquin.h"

#include <stdlib.h>

enum { PARTS_MOST = 1000, PAYLOAD_MOST = 16777216 };

static const char *name_of(const struct opened *o)
{
    return o->block.file.name;
}

/* Whether it says which segment it is. */
static int is_segment(const struct opened *o)
{
    return o->segments == 1 && o->index > 0;
}

/* ---- files that are not one segment with its index */

static size_t tell_given(size_t given)
{
    if (given <= PARTS_MOST)
        return 0;
    say("%s files were given, and 1,000 segments are the most that a join takes", grouped((int64_t)given));
    return 1;
}

static size_t tell_no_segment(const struct opened *o)
{
    if (o->segments > 1)
        say("%s has %s: cut out each with its SN, from 1 to %s, and join these", name_of(o), counted(o->segments, "segment"), grouped(o->segments));
    else
        say("%s has segment index 0, so it was not fetched by its number: fetch it again, with SN in WAVEFORM_SETUP", name_of(o));
    return 1;
}

/* ---- indexes that are missing, or there twice */

static size_t tell_missing(uint32_t from, uint32_t to)
{
    if (from == to)
        say("segment %s is missing", grouped(from));
    else
        say("segments %s to %s are missing", grouped(from), grouped(to));
    return 1;
}

/* The `count` files from here on have the same index. */
static size_t tell_twice(const struct opened *parts, size_t count)
{
    struct told told;
    FILE *to = told_to(&told);
    fprintf(to, "segment %s is in %s files:", grouped(parts->index), grouped((int64_t)count));
    for (size_t i = 0; i < count; i++)
        fprintf(to, "%s %s", i ? "," : "", name_of(&parts[i]));
    told_all(to);
    say("%s", told.text);
    free(told.text);
    return 1;
}

/* Where not all files were read, none is said to be missing. */
static size_t tell_indexes(const struct opened *parts, size_t count, int all_read)
{
    size_t told = 0, same;
    uint32_t last = 0;
    for (size_t i = 0; i < count; i += same) {
        for (same = 1; i + same < count && parts[i + same].index == parts[i].index;)
            same++;
        if (all_read && parts[i].index > last + 1)
            told += tell_missing(last + 1, parts[i].index - 1);
        if (same > 1)
            told += tell_twice(&parts[i], same);
        last = parts[i].index;
    }
    if (last > PARTS_MOST) {
        say("%s has segment %s, and 1,000 segments are the most that a join takes", name_of(&parts[count - 1]), grouped(last));
        told++;
    }
    return told;
}

/* ---- descriptors and user texts */

/* The first of those that are the same, where these are more than half: so what is told is which files are the odd ones.
   Each that is another takes one of the same away, and of more than half some are left. */
static const struct opened *usual(const struct opened *parts, size_t count)
{
    const struct opened *found = parts, *first = parts;
    size_t left = 0;
    for (size_t i = 0; i < count; i++) {
        if (left == 0)
            found = &parts[i];
        if (left == 0 || !differ(&parts[i], found))
            left++;
        else
            left--;
    }
    while (differ(first, found))
        first++;
    return first;
}

static size_t tell_different(const struct opened *o, const struct opened *from)
{
    if (!differ(o, from))
        return 0;
    struct told told;
    FILE *to = told_to(&told);
    fprintf(to, "%s differs from %s: ", name_of(o), name_of(from));
    found_different(to, o, from);
    told_all(to);
    say("%s%s%s", told.text, o->order != from->order ? "; trace cut writes either order" : "",
        o->type != from->type ? "; trace narrow makes bytes of words" : "");
    free(told.text);
    return 1;
}

/* ---- what the joined block would break */

static size_t tell_ris(const struct opened *o, size_t count)
{
    if (o->ristime.length == 0 || count == 1)
        return 0;
    say("%s has RIS offsets, which a block of more than one segment cannot have", name_of(o));
    return 1;
}

/* The segment before this one has another index, or it is said elsewhere that there are two. */
static size_t tell_backwards(const struct opened *before, const struct opened *o)
{
    if (before->trigtime.length == 0 || o->trigtime.length == 0 || before->index == o->index)
        return 0;
    double one = trigger_time(before, 1), other = trigger_time(o, 1);
    if (!(other < one))
        return 0;
    char first[DECIMAL_MOST + 1], second[DECIMAL_MOST + 1];
    *put_decimal(first, one) = *put_decimal(second, other) = 0;
    say("the TRIGGER_TIME of segment %s is %s (%s), and that of segment %s is %s (%s): time runs backwards", grouped(before->index), first,
        name_of(before), grouped(o->index), second, name_of(o));
    return 1;
}

static size_t tell_length(const struct opened *parts, size_t count, size_t given)
{
    size_t length = (size_t)(parts->trigtime.bytes - parts->payload);
    for (size_t i = 0; i < count; i++)
        length += (size_t)(parts[i].block.bytes + length_of_block(&parts[i]) - parts[i].trigtime.bytes);
    if (length <= PAYLOAD_MOST)
        return 0;
    say("%s joined would have a payload of %s bytes, and 16,777,216 are the most: cut each with a larger SP%s", counted((int64_t)count, "file"),
        grouped((int64_t)length), count < given ? "; the other files were not read" : "");
    return 1;
}

/* What stands in the way of files that are one segment each. */
static size_t tell_segments(const struct opened *parts, size_t count, int all_read)
{
    const struct opened *from = usual(parts, count);
    size_t told = tell_indexes(parts, count, all_read);
    for (size_t i = 0; i < count; i++)
        told += tell_different(&parts[i], from);
    told += tell_ris(from, count);
    for (size_t i = 1; i < count; i++)
        told += tell_backwards(&parts[i - 1], &parts[i]);
    return told;
}

/* A block of more segments has the index 0, and so the others come first; their fields will be those of other blocks. */
size_t tell_unfit(const struct opened *parts, size_t count, size_t given)
{
    size_t told = tell_given(given), others = 0;
    for (; others < count && !is_segment(&parts[others]); others++)
        told += tell_no_segment(&parts[others]);
    if (others < count)
        told += tell_segments(parts + others, count - others, count == given);
    return told + tell_length(parts, count, given);
}
