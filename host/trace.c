/* Reads a trace file with Tessarquin: the program that an engineer keeps, and that a host author starts from. */
#include "draw.h"
#include "tessarquin.h"

#include <ctype.h>
#include <errno.h>
#include <float.h>
#include <limits.h>
#include <math.h>
#include <signal.h>
#include <stdlib.h>

static int is(const char *word, const char *other)
{
    return strcmp(word, other) == 0;
}

/* ---- the words of a command */

enum { CSV = 1, DIGITS = 2, FORCE = 4, VIEW = 8 };

/* What stands behind the command's name. */
struct line {
    const struct command *command;
    int count, csv, digits, replace;
    struct view view;
    const char **words;
};

/* As many words as there are. */
enum { ANY = INT_MAX };

struct command {
    const char *name, *takes;
    int least, most, options;
    void (*run)(const struct line *line);
};

static _Noreturn void takes(const struct command *c)
{
    fail(USAGE, "%s takes %s; trace --help tells how it is called", c->name, c->takes);
}

static uint32_t number(const char *word)
{
    char *end;
    errno = 0;
    unsigned long long n = strtoull(word, &end, 10);
    if (!isdigit((unsigned char)*word) || *end || errno || n > UINT32_MAX)
        fail(USAGE, "%s is not a number from 0 to 4294967295", *word ? word : "an empty word");
    return (uint32_t)n;
}

/* Also with commas, as the program tells it: 16,777,216. */
static uint32_t told_number(const char *word)
{
    int64_t n = 0;
    for (const char *c = word; n < UINT32_MAX && (isdigit((unsigned char)*c) || *c == ','); c++)
        n = *c == ',' ? n : 10 * n + (*c - '0');
    return n <= UINT32_MAX && is(word, grouped(n)) ? (uint32_t)n : number(word);
}

/* The nearest double. Words for the infinities and for no number are passed on: the library judges them. A number with an
   x in it would sooner be a sample than a level. */
static double level(const char *word)
{
    char *end;
    double x = strtod(word, &end);
    if (end == word || *end || isspace((unsigned char)*word) || strpbrk(word, "xX"))
        fail(USAGE, "%s is not a decimal number, such as 42, -0.5 or 4.2e1", *word ? word : "an empty word");
    if (isinf(x) && strpbrk(word, "0123456789"))
        fail(USAGE, "%s is beyond the doubles, which end at %.17g", word, copysign(DBL_MAX, x));
    return x;
}

/* The word behind an option: a number from 1 to `most`. */
static uint32_t at_most(uint32_t most, const char *option, const char *word)
{
    char *end;
    unsigned long n = word && isdigit((unsigned char)*word) ? strtoul(word, &end, 10) : 0;
    if (n < 1 || n > most || *end)
        fail(USAGE, "%s takes a number from 1 to %u; trace --help tells how it is called", option, (unsigned)most);
    return (uint32_t)n;
}

/* The word behind an option: any number, which the library judges. */
static uint32_t any_number(const char *option, const char *word)
{
    if (!word)
        fail(USAGE, "%s takes a number; trace --help tells how it is called", option);
    return number(word);
}

/* A word with a - before it that is no number, as -5, -.5 and -inf are, and not - itself. */
static int is_option(const char *word)
{
    char *end;
    strtod(word, &end);
    return word[0] == '-' && word[1] && !strchr(".0123456789", word[1]) && *end;
}

/* Whether the option is known to the command. `next` is the word behind it, or null; `taken` is set where it belongs to
   the option. */
static int read_option(const struct command *c, struct line *line, const char *option, const char *next, int *taken)
{
    int numbered = (is(option, "--digits") && c->options & DIGITS)
                || ((is(option, "--array") || is(option, "--segment") || is(option, "--width")) && c->options & VIEW);
    *taken = numbered;
    if (is(option, "--csv") && c->options & CSV)
        line->csv = 1;
    else if (is(option, "-f") && c->options & FORCE)
        line->replace = 1;
    else if (is(option, "--text") && c->options & VIEW)
        line->view.text = 1;
    else if (!numbered)
        return 0;
    else if (is(option, "--digits"))
        line->digits = (int)at_most(17, option, next);
    else if (is(option, "--width"))
        line->view.width = at_most(WIDTH_MOST, option, next);
    else if (is(option, "--array"))
        line->view.array = any_number(option, next);
    else
        line->view.segment = any_number(option, next), line->view.one = 1;
    return 1;
}

static struct line read_line(const struct command *c, int count, char **words)
{
    struct line line = {.command = c, .view = {.array = 1}, .words = memory((size_t)count * sizeof *line.words)};
    int plain = 0, taken;
    for (int i = 0; i < count; i++) {
        if (plain || !is_option(words[i])) {
            if (line.count == c->most)
                takes(c);
            line.words[line.count++] = words[i];
        } else if (is(words[i], "--"))
            plain = 1;
        else if (read_option(c, &line, words[i], i + 1 < count ? words[i + 1] : NULL, &taken))
            i += taken;
        else
            fail(USAGE, "%s is not known to %s; trace --help tells how it is called", words[i], c->name);
    }
    if (line.count < c->least)
        takes(c);
    return line;
}

/* ---- the commands */

static void run_show(const struct line *line)
{
    show(line->words[0], line->digits ? line->digits : 6);
}

static void run_points(const struct line *line)
{
    uint32_t array = line->count > 1 ? number(line->words[1]) : 1, segment = line->count > 2 ? number(line->words[2]) : 1;
    print_points(line->words[0], array, line->count > 2 ? &segment : NULL, (struct form){line->csv, line->digits});
}

static void run_cross(const struct line *line)
{
    double at = level(line->words[1]);
    uint32_t array = line->count > 2 ? number(line->words[2]) : 1, segment = line->count > 3 ? number(line->words[3]) : 1;
    print_crossings(line->words[0], at, array, line->count > 3 ? &segment : NULL, (struct form){line->csv, line->digits});
}

static void run_draw(const struct line *line)
{
    draw(line->words[0], line->count > 1 ? line->words[1] : NULL, line->replace, line->view);
}

static uint32_t order(const char *word)
{
    if (!is(word, "hi") && !is(word, "lo"))
        fail(USAGE, "%s is not hi or lo", *word ? word : "an empty word");
    return is(word, "lo") ? TESSARQUIN_LOFIRST : TESSARQUIN_HIFIRST;
}

/* By four numbers, or by a line in their place. */
static struct setup setup_of(const struct line *line)
{
    const char *const *words = line->words + 2;
    if (line->count == 4)
        return setup_in(words[0]);
    if (line->count != 7)
        takes(line->command);
    return (struct setup){number(words[0]), number(words[1]), number(words[2]), number(words[3])};
}

/* The normal line is made before OUT is written: where it fails, nothing is. */
static void run_cut(const struct line *line)
{
    const char *const *words = line->words, *to = words[1];
    struct setup by = setup_of(line);
    uint32_t into = order(words[line->count - 1]);
    struct opened o = open_block(read_block(words[0]));
    struct block b = o.block;
    size_t room = b.length + TESSARQUIN_CUT_MORE;
    uint8_t *out = memory(room), answer[TESSARQUIN_CUT_BYTES];
    uint32_t refusal = tessarquin_cut(b.bytes, b.length, by.sp, by.np, by.fp, by.sn, into, out, room, answer, sizeof answer);
    if (refusal)
        refuse_question("a cut of ", &o, (struct asked){.segment = by.sn, .point = by.fp, .sp = by.sp}, refusal);
    const char *normal = normal_line(by);
    size_t length = (size_t)tessarquin_number(answer, TESSARQUIN_CUT_LENGTH);
    write_file((struct files){&b.file, 1}, to, line->replace, out, length);
    say("%s of each segment kept, %s written to %s", counted((int64_t)tessarquin_number(answer, TESSARQUIN_CUT_COUNT), "point"),
        counted((int64_t)length, "byte"), is(to, "-") ? "standard output" : to);
    say("%s", normal);
}

static void run_join(const struct line *line)
{
    join(line->words[0], line->replace, line->words + 1, (size_t)line->count - 1);
}

static void run_combined(const struct line *line)
{
    size_t count = (size_t)line->count / 5;
    if (line->count % 5 != 0)
        fail(USAGE, "combined takes SP NP FP SN C for each cut, and a count of %d is no multiple of five; trace --help tells how it is called", line->count);
    struct made *cuts = memory(count * sizeof *cuts);
    for (size_t i = 0; i < count; i++) {
        const char *const *words = line->words + 5 * i;
        cuts[i].by = (struct setup){number(words[0]), number(words[1]), number(words[2]), number(words[3])};
        cuts[i].kept = told_number(words[4]);
    }
    print_combined(cuts, count);
    free(cuts);
}

static void run_narrow(const struct line *line)
{
    narrow(line->words[0], line->words[1], line->replace);
}

static const struct command commands[] = {
    {"show", "one FILE", 1, 1, DIGITS, run_show},
    {"points", "FILE [ARRAY [SEGMENT]]", 1, 3, CSV | DIGITS, run_points},
    {"cross", "FILE LEVEL [ARRAY [SEGMENT]]", 2, 4, CSV | DIGITS, run_cross},
    {"draw", "FILE [OUT]", 1, 2, FORCE | VIEW, run_draw},
    {"cut", "FILE OUT SP NP FP SN hi|lo, or FILE OUT LINE hi|lo with a line in quotes, such as \"WFSU SP,4,NP,0,FP,10,SN,0\"", 4, 7, FORCE, run_cut},
    {"join", "OUT FILE..", 2, ANY, FORCE, run_join},
    {"combined", "SP NP FP SN C for each cut", 1, ANY, 0, run_combined},
    {"narrow", "FILE OUT", 2, 2, FORCE, run_narrow},
};

static void command(int count, char **words)
{
    for (int i = 0; i < count && !is(words[i], "--"); i++)
        if (is(words[i], "--help")) {
            fputs(help, stdout);
            return;
        }
    if (count == 0)
        fail(USAGE, "nothing was asked; trace --help tells how it is called");
    if (is(words[0], "--version")) {
        puts("trace " TESSARQUIN_VERSION);
        return;
    }
    for (size_t i = 0; i < sizeof commands / sizeof *commands; i++)
        if (is(words[0], commands[i].name)) {
            struct line line = read_line(&commands[i], count - 1, words + 1);
            commands[i].run(&line);
            return;
        }
    fail(USAGE, "%s is not known; trace --help tells how it is called", *words[0] ? words[0] : "an empty word");
}

int main(int count, char **words)
{
    /* A file that may not grow is an error that is told, not the end. */
    signal(SIGXFSZ, SIG_IGN);
    command(count - 1, words + 1);
    if (fflush(stdout) != 0 || ferror(stdout))
        output_failed();
    return 0;
}
