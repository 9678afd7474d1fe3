/* Setups as lines: the setup in a line that somebody typed, where a line that is refused goes wrong, and the normal line. */
#include "host.h"
#include "tessarquin.h"

#include <ctype.h>
#include <strings.h>

/* ---- where a line goes wrong */

static const char *const words[] = {"WFSU", "WAVEFORM_SETUP", NULL}, *const keys[] = {"SP", "NP", "FP", "SN", NULL};

/* A line, and the place in it up to which it is right. */
struct place {
    const uint8_t *line;
    size_t length, at;
};

static int is_letter(int c)
{
    return isalpha(c) || c == '_';
}

/* How many letters stand at the place, or how many digits. */
static size_t run_of(const struct place *p, int (*is)(int))
{
    size_t n = 0;
    while (p->at + n < p->length && is(p->line[p->at + n]))
        n++;
    return n;
}

/* Which of the names the letters at the place are, or none, which is the place of the null. */
static size_t which(const struct place *p, const char *const *names, int (*compare)(const char *, const char *, size_t))
{
    size_t letters = run_of(p, is_letter), i = 0;
    while (names[i] && (strlen(names[i]) != letters || compare((const char *)p->line + p->at, names[i], letters) != 0))
        i++;
    return i;
}

/* A byte that would not be seen, or be taken for a mark of the message. */
static const char *name_of(uint8_t byte)
{
    switch (byte) {
    case ' ':
        return "a blank";
    case '\t':
        return "a tab";
    case '\n':
    case '\r':
        return "a line end";
    case ',':
        return "a comma";
    case '"':
        return "a quote";
    }
    return NULL;
}

/* What should stand at the place, and what does. Answers 0: the line goes wrong there. */
static int misses(FILE *to, const struct place *p, const char *what)
{
    fprintf(to, "at byte %s %s should stand, and ", grouped((int64_t)p->at + 1), what);
    if (p->at == p->length) {
        fputs("the line ends there", to);
        return 0;
    }
    size_t letters = run_of(p, is_letter);
    const char *name = name_of(p->line[p->at]);
    if (name) {
        fputs(name, to);
    } else {
        fputc('"', to);
        write_text(to, p->line + p->at, letters ? letters : 1);
        fputc('"', to);
    }
    fputs(" stands there", to);
    return 0;
}

/* Each of these passes over what it names and answers 1, or says what is wrong and answers 0. */

static int pass_byte(FILE *to, struct place *p, char byte, const char *what)
{
    if (p->at == p->length || p->line[p->at] != byte)
        return misses(to, p, what);
    p->at++;
    return 1;
}

static int pass_word(FILE *to, struct place *p)
{
    const char *word = words[which(p, words, strncmp)];
    if (!word)
        return misses(to, p, words[which(p, words, strncasecmp)] ? "WFSU or WAVEFORM_SETUP, in capitals," : "WFSU or WAVEFORM_SETUP");
    p->at += strlen(word);
    return pass_byte(to, p, ' ', "one blank");
}

/* `stood` has the byte at which each key stood before, from 1 on, or 0. */
static int pass_key(FILE *to, struct place *p, size_t *stood, const char **key)
{
    size_t k = which(p, keys, strncmp), byte = p->at + 1;
    *key = keys[k];
    if (!*key)
        return misses(to, p, keys[which(p, keys, strncasecmp)] ? "SP, NP, FP or SN, in capitals," : "SP, NP, FP or SN");
    if (stood[k]) {
        fprintf(to, "%s stands twice, at byte %s and at byte %s", *key, grouped((int64_t)stood[k]), grouped((int64_t)byte));
        return 0;
    }
    stood[k] = byte;
    p->at += strlen(*key);
    return pass_byte(to, p, ',', "a comma");
}

static int pass_value(FILE *to, struct place *p, const char *key)
{
    size_t digits = run_of(p, isdigit);
    int64_t value = 0;
    if (digits == 0)
        return misses(to, p, "a digit");
    if (digits > 10) {
        fprintf(to, "at byte %s %s has %s, and ten are the most", grouped((int64_t)p->at + 1), key, counted((int64_t)digits, "digit"));
        return 0;
    }
    for (size_t i = 0; i < digits; i++)
        value = 10 * value + (p->line[p->at + i] - '0');
    if (value > UINT32_MAX) {
        fprintf(to, "at byte %s %s is %s, and 4,294,967,295 is the most", grouped((int64_t)p->at + 1), key, grouped(value));
        return 0;
    }
    p->at += digits;
    return 1;
}

static int pass_pair(FILE *to, struct place *p, size_t *stood)
{
    const char *key;
    return pass_key(to, p, stood, &key) && pass_value(to, p, key);
}

/* Behind all four pairs even a comma is too much, but where it leads to a key: that stands twice then. */
static int pass_comma(FILE *to, struct place *p, const size_t *stood)
{
    struct place next = {p->line, p->length, p->at + 1};
    int all = stood[0] && stood[1] && stood[2] && stood[3];
    if (all && !(p->line[p->at] == ',' && keys[which(&next, keys, strncmp)]))
        return misses(to, p, "nothing");
    return pass_byte(to, p, ',', "a comma or nothing");
}

void found_in_line(FILE *to, const uint8_t *line, size_t length)
{
    struct place p = {line, length, 0};
    size_t stood[4] = {0};
    int right = pass_word(to, &p) && pass_pair(to, &p, stood);
    while (right && p.at < length)
        right = pass_comma(to, &p, stood) && pass_pair(to, &p, stood);
}

/* ---- the setup in a line */

/* A line that is no setup is a wrong word of the command, as a wrong number is. What was found decides nothing. */
static _Noreturn void refuse_line(const char *line, uint32_t refusal)
{
    struct told told;
    FILE *to = told_to(&told);
    int status = refusal == TESSARQUIN_TEXT ? USAGE : REFUSED;
    if (refusal == TESSARQUIN_TEXT)
        found_in_line(to, (const uint8_t *)line, strlen(line));
    told_all(to);
    if (told.length == 0)
        fail(status, "\"%s\" is refused (%u): %s", line, (unsigned)refusal, tessarquin_text(refusal));
    fail(status, "\"%s\" is refused (%u): %s; write WFSU SP,4,NP,0,FP,10,SN,0 with the numbers that are wanted", line, (unsigned)refusal, told.text);
}

struct setup setup_in(const char *line)
{
    uint8_t answer[TESSARQUIN_SETUP_READ_BYTES];
    uint32_t refusal = tessarquin_setup_read((const uint8_t *)line, strlen(line), answer, sizeof answer);
    if (refusal)
        refuse_line(line, refusal);
    return (struct setup){
        .sp = (uint32_t)tessarquin_number(answer, TESSARQUIN_SETUP_READ_SP),
        .np = (uint32_t)tessarquin_number(answer, TESSARQUIN_SETUP_READ_NP),
        .fp = (uint32_t)tessarquin_number(answer, TESSARQUIN_SETUP_READ_FP),
        .sn = (uint32_t)tessarquin_number(answer, TESSARQUIN_SETUP_READ_SN)};
}

/* ---- the normal line */

const char *normal_line(struct setup setup)
{
    static uint8_t line[TESSARQUIN_SETUP_LINE_MOST + 1];
    uint8_t answer[TESSARQUIN_SETUP_WRITE_BYTES];
    uint32_t refusal = tessarquin_setup_write(setup.sp, setup.np, setup.fp, setup.sn, line, TESSARQUIN_SETUP_LINE_MOST, answer, sizeof answer);
    if (refusal)
        fail(REFUSED, "the normal line of a setup is refused (%u): %s", (unsigned)refusal, tessarquin_text(refusal));
    line[tessarquin_number(answer, TESSARQUIN_SETUP_WRITE_LENGTH)] = 0;
    return (const char *)line;
}
