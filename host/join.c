/* trace join: the segments that were fetched one by one, in whatever order they arrived, as one block. */
#include "join.h"
#include "tessarquin.h"

#include <stdlib.h>

/* ---- the files, read */

/* The blocks of the files back to back, without words before them and new lines behind them, as a join takes them. */
struct parts {
    uint8_t *bytes;
    size_t length, room, count;
    struct file *files;
    size_t *starts;     /* where each block starts, and behind them where the last one ends */
    size_t of_segments; /* how many bytes they have behind their user texts: all of these come into the joined block */
};

static void make_room(struct parts *all, size_t more)
{
    if (all->room - all->length >= more)
        return;
    all->room = 2 * all->length + more;
    all->bytes = realloc(all->bytes, all->room);
    if (!all->bytes)
        fail(FAILED, "no memory for %zu bytes", all->room);
}

/* A file that is no block is told as by the other commands, and ends the join. */
static void add_part(struct parts *all, const char *name)
{
    make_room(all, READ_MOST);
    uint8_t *end = all->bytes + all->length;
    struct opened o = open_block(block_in(read_file(name, end, READ_MOST)));
    size_t length = length_of_block(&o);
    all->of_segments += (size_t)(o.block.bytes + length - o.trigtime.bytes);
    memmove(end, o.block.bytes, length);
    all->files[all->count++] = o.block.file;
    all->length += length;
    all->starts[all->count] = all->length;
}

/* Whether these are too long for one block already: then the rest is not read, however much that is. */
static int too_long(const struct parts *all)
{
    return all->of_segments > TESSARQUIN_BLOCK_MOST;
}

static struct parts read_parts(const char *const *names, size_t count)
{
    struct parts all = {.files = memory(count * sizeof *all.files), .starts = memory((count + 1) * sizeof *all.starts)};
    all.starts[0] = 0;
    for (size_t i = 0; i < count && !too_long(&all); i++)
        add_part(&all, names[i]);
    return all;
}

/* ---- the blocks, by segment index */

/* Blocks of one index stay in the order in which the files were given. */
static int by_index(const void *one, const void *other)
{
    const struct opened *a = one, *b = other;
    if (a->index != b->index)
        return a->index < b->index ? -1 : 1;
    return a->block.bytes < b->block.bytes ? -1 : a->block.bytes > b->block.bytes;
}

static struct opened *open_parts(const struct parts *all)
{
    struct opened *opened = memory(all->count * sizeof *opened);
    for (size_t i = 0; i < all->count; i++) {
        struct file file = all->files[i];
        file.bytes = all->bytes + all->starts[i];
        file.length = all->starts[i + 1] - all->starts[i];
        opened[i] = open_block(block_in(file));
    }
    qsort(opened, all->count, sizeof *opened, by_index);
    return opened;
}

/* ---- what is said */

/* What stands in the way, a line each, and the refusal in the last one. */
static _Noreturn void refuse_join(const struct opened *opened, size_t count, size_t given, uint32_t refusal)
{
    if (refusal == TESSARQUIN_JOIN && tell_unfit(opened, count, given) == 0)
        say("what does not fit was not found");
    fail(REFUSED, "a join of %s is refused (%u): %s", counted((int64_t)given, "file"), (unsigned)refusal, tessarquin_text(refusal));
}

static void tell_joined(const struct opened *opened, size_t count, size_t length, const char *to)
{
    int wide = (int)strlen(grouped((int64_t)count));
    for (size_t i = 0; i < count; i++)
        say("segment %*s  from  %s", wide, grouped(opened[i].index), opened[i].block.file.name);
    say("%s of %s joined, %s written to %s", counted((int64_t)count, "segment"), counted(opened[0].points, "point"),
        counted((int64_t)length, "byte"), strcmp(to, "-") == 0 ? "standard output" : to);
}

/* ---- the join */

/* Standard input is read to its end, and has nothing for a second time. */
static void read_once(const char *const *names, size_t count)
{
    int before = 0;
    for (size_t i = 0; i < count; i++)
        if (strcmp(names[i], "-") == 0 && before++)
            fail(USAGE, "- is given twice, and standard input can be read once");
}

/* OUT is looked at before the files are judged together: where somebody forgot it, it is the first of them. */
void join(const char *to, int replace, const char *const *names, size_t count)
{
    read_once(names, count);
    struct parts all = read_parts(names, count);
    struct files from = {all.files, all.count};
    look_at(from, to, replace);
    struct opened *opened = open_parts(&all);
    size_t most = all.length + TESSARQUIN_JOIN_MORE, room = most < TESSARQUIN_BLOCK_MOST ? most : TESSARQUIN_BLOCK_MOST;
    uint8_t *out = memory(room), answer[TESSARQUIN_JOIN_BYTES];
    uint32_t refusal = tessarquin_join(all.bytes, all.length, out, room, answer, sizeof answer);
    if (refusal)
        refuse_join(opened, all.count, count, refusal);
    size_t length = (size_t)tessarquin_number(answer, TESSARQUIN_JOIN_LENGTH);
    write_file(from, to, replace, out, length);
    tell_joined(opened, all.count, length, to);
}
