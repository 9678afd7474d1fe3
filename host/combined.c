/* trace combined: the one cut that stands for cuts that were made one after another. */
#include "host.h"
#include "tessarquin.h"

static uint32_t step_of(struct setup by)
{
    return by.sp ? by.sp : 1;
}

/* ---- cuts that cannot have been made: the library takes any numbers, and these would give another cut */

/* How many points a cut keeps of so many, where FP is among them. */
static uint32_t kept_of(uint32_t points, struct setup by)
{
    uint32_t there = (points - by.fp - 1) / step_of(by) + 1;
    return by.np && by.np < there ? by.np : there;
}

/* A C of 0 would be an NP of 0, which is no limit: the one cut would keep more than these did. */
static void judge_kept(const struct made *cut, int64_t n)
{
    if (cut->kept == 0)
        fail(REFUSED, "cut %s cannot have been made: its C is 0, and a cut keeps at least 1 point", grouped(n));
    if (cut->by.np && cut->kept > cut->by.np)
        fail(REFUSED, "cut %s cannot have been made: its C is %s, and by its NP it keeps at most %s", grouped(n), grouped(cut->kept),
             grouped(cut->by.np));
}

/* It had as many points as the cut before it kept; where it had others, that was not the one before it. */
static void judge_points(uint32_t points, const struct made *cut, int64_t n)
{
    if (cut->by.fp >= points)
        fail(REFUSED, "cut %s cannot have been made: its FP is %s, and cut %s kept %s, from 0 on; is a cut between them missing?", grouped(n),
             grouped(cut->by.fp), grouped(n - 1), counted(points, "point"));
    if (cut->kept != kept_of(points, cut->by))
        fail(REFUSED, "cut %s cannot have been made: its C is %s, and of the %s that cut %s kept it keeps %s; is a cut between them missing?",
             grouped(n), grouped(cut->kept), counted(points, "point"), grouped(n - 1), grouped(kept_of(points, cut->by)));
}

/* Behind a cut with an SN there is one segment, which is segment 1. */
static void judge_segment(struct setup before, const struct made *cut, int64_t n)
{
    if (before.sn && cut->by.sn > 1)
        fail(REFUSED, "cut %s cannot have been made: its SN is %s, and the cuts before it kept only segment %s", grouped(n), grouped(cut->by.sn),
             grouped(before.sn));
}

/* ---- cuts that the library refuses */

/* What is too much, for the message alone: it decides nothing. */
static void found_too_much(FILE *to, struct setup before, struct setup by)
{
    int64_t sp = (int64_t)step_of(before) * step_of(by), fp = before.fp + (int64_t)step_of(before) * by.fp;
    if (sp > 268435455)
        fprintf(to, "with it the one cut has SP %s, and 268,435,455 is the most", grouped(sp));
    else if (fp > UINT32_MAX)
        fprintf(to, "with it the one cut has FP %s, and 4,294,967,295 is the most", grouped(fp));
}

static _Noreturn void refuse_combined(struct setup before, const struct made *cut, int64_t n, uint32_t refusal)
{
    struct told told;
    FILE *to = told_to(&told);
    if (refusal == TESSARQUIN_SPARSE)
        found_too_much(to, before, cut->by);
    told_all(to);
    if (told.length == 0)
        fail(REFUSED, "cut %s is refused (%u): %s", grouped(n), (unsigned)refusal, tessarquin_text(refusal));
    fail(REFUSED, "cut %s is refused (%u): %s; such %s have been accepted", grouped(n), (unsigned)refusal, told.text,
         n == 1 ? "a cut cannot" : n == 2 ? "cuts cannot both" : "cuts cannot all");
}

/* ---- the one cut */

static struct setup combined(struct setup a, const struct made *cut, int64_t n)
{
    struct setup b = cut->by;
    uint8_t answer[TESSARQUIN_COMBINED_BYTES];
    uint32_t refusal = tessarquin_combined(a.sp, a.np, a.fp, a.sn, b.sp, b.np, b.fp, b.sn, cut->kept, answer, sizeof answer);
    if (refusal)
        refuse_combined(a, cut, n, refusal);
    return (struct setup){
        .sp = (uint32_t)tessarquin_number(answer, TESSARQUIN_COMBINED_SP),
        .np = (uint32_t)tessarquin_number(answer, TESSARQUIN_COMBINED_NP),
        .fp = (uint32_t)tessarquin_number(answer, TESSARQUIN_COMBINED_FP),
        .sn = (uint32_t)tessarquin_number(answer, TESSARQUIN_COMBINED_SN)};
}

/* Before the first cut stands the one that leaves out nothing. */
static struct setup combined_all(const struct made *cuts, size_t count)
{
    struct setup one = {0, 0, 0, 0};
    for (size_t i = 0; i < count; i++) {
        int64_t n = (int64_t)i + 1;
        judge_kept(&cuts[i], n);
        if (i > 0)
            judge_points(cuts[i - 1].kept, &cuts[i], n);
        judge_segment(one, &cuts[i], n);
        one = combined(one, &cuts[i], n);
    }
    return one;
}

/* The numbers come before the words, also where both go to one file. */
void print_combined(const struct made *cuts, size_t count)
{
    struct setup one = combined_all(cuts, count);
    printf("%u %u %u %u\n", (unsigned)one.sp, (unsigned)one.np, (unsigned)one.fp, (unsigned)one.sn);
    if (fflush(stdout) != 0)
        output_failed();
    say("every %s%spoint from point %s on, %s, of %s%s", one.sp > 1 ? ordinal(one.sp) : "", one.sp > 1 ? " " : "", grouped(one.fp),
        counted(one.np, "point"), one.sn ? "segment " : "each segment", one.sn ? grouped(one.sn) : "");
}
