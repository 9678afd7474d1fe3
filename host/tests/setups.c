/*
 * Tests of setups as lines, in slices as calls.c has them: what is read, and what is written, is held to the words of the
 * request, field by field. Prints one line and ends with 0, or prints what differed and ends with 1.
 */
#define _GNU_SOURCE
#include "near.h"
#include "slices.h"

/* ---- the words of the request: a line is taken apart at its blank and its commas, and each field is looked at by itself */

/* Whether a line is a setup, and its numbers. */
struct said {
    int taken;
    uint32_t numbers[4];
};

/* One to ten digits. With zeros before them, as ten digits, they stand behind no greater number in a dictionary. */
static int is_value(const char *field)
{
    char ten[11];
    size_t length = strlen(field);
    if (length < 1 || length > 10 || strspn(field, "0123456789") != length)
        return 0;
    memset(ten, '0', 10 - length);
    strcpy(ten + 10 - length, field);
    return strcmp(ten, "4294967295") <= 0;
}

/* The values of a key: how many there are, and the last one. */
static size_t values_of(char **fields, size_t count, const char *key, uint32_t *value)
{
    size_t times = 0;
    for (size_t i = 0; i < count; i += 2)
        if (strcmp(fields[i], key) == 0 && is_value(fields[i + 1])) {
            *value = (uint32_t)strtoul(fields[i + 1], NULL, 10);
            times++;
        }
    return times;
}

/* Of an even number of fields each pair is that of a key, and no key has two. */
static struct said said_of(const uint8_t *line, size_t length)
{
    static const char *const keys[] = {"SP", "NP", "FP", "SN"};
    struct said said = {0, {0, 0, 0, 0}};
    char copy[LINE_MOST + 1] = "", *fields[LINE_MOST + 1], *rest = copy;
    size_t count = 0, pairs = 0;
    memcpy(copy, line, length);
    const char *word = strsep(&rest, " ");
    if (strlen(copy) + (rest ? strlen(rest) + 1 : 0) != length || (strcmp(word, "WFSU") != 0 && strcmp(word, "WAVEFORM_SETUP") != 0))
        return said;
    while (rest)
        fields[count++] = strsep(&rest, ",");
    if (count == 0 || count % 2 != 0)
        return said;
    for (size_t k = 0; k < 4; k++) {
        size_t times = values_of(fields, count, keys[k], &said.numbers[k]);
        if (times > 1)
            return said;
        pairs += times;
    }
    said.taken = 2 * pairs == count;
    return said;
}

/* ---- one line, one setup */

static struct slice lend_line(const char *line, size_t length)
{
    struct slice s = lend(length);
    memcpy(s.bytes, line, length);
    return s;
}

/* Whether the answer is these four numbers. */
static int answered(const uint32_t *numbers)
{
    return answers[TESSARQUIN_SETUP_READ_SP] == numbers[0] && answers[TESSARQUIN_SETUP_READ_NP] == numbers[1]
        && answers[TESSARQUIN_SETUP_READ_FP] == numbers[2] && answers[TESSARQUIN_SETUP_READ_SN] == numbers[3];
}

/* In a slice just as long the line is written that C's printf writes, in one that is a byte shorter nothing; and the line
   is read as the same numbers. */
static void is_written(const uint32_t *setup)
{
    char right[LINE_MOST];
    size_t length = (size_t)sprintf(right, "WFSU SP,%u,NP,%u,FP,%u,SN,%u", (unsigned)setup[0], (unsigned)setup[1], (unsigned)setup[2], (unsigned)setup[3]);
    struct slice out = lend(length), less = lend(length - 1);
    check(setup_write(setup, out, 8) == 0 && answers[TESSARQUIN_SETUP_WRITE_LENGTH] == length, "a setup is refused, or has another length");
    check(memcmp(out.bytes, right, length) == 0, "another line is written");
    check(setup_write(setup, less, 8) == TESSARQUIN_TEXT, "a line in a byte less");
    check(setup_read(out, 32) == 0 && answered(setup), "what was written is read as another setup");
    give_back(out, length);
    give_back(less, 0);
}

static unsigned taken, refused;

/* The line at the end of a page is read as the request says it, and stays as it was; what was read is written. */
static void is_read(const char *line, size_t length)
{
    struct slice s = lend_line(line, length);
    struct said said = said_of(s.bytes, length);
    uint32_t refusal = setup_read(s, 32);
    if (refusal != (said.taken ? TESSARQUIN_OK : TESSARQUIN_TEXT) || (said.taken && !answered(said.numbers)))
        printf("%.*s\n", (int)length, line);
    check(refusal == (said.taken ? TESSARQUIN_OK : TESSARQUIN_TEXT), "a line is taken that is none, or refused that is one");
    check(!said.taken || answered(said.numbers), "other numbers are read");
    check(memcmp(s.bytes, line, length) == 0 && all_are(s.pages, s.size - length, KNOWN), "the line was written to");
    unmap(s);
    if (said.taken)
        is_written(said.numbers);
    *(said.taken ? &taken : &refused) += 1;
}

/* ---- by their numbers */

static void test_examples(void)
{
    now = "lines by their numbers";
    static const struct { const char *line; uint32_t numbers[4]; } table[] = {
        {"WFSU SP,4,NP,0,FP,10,SN,0", {4, 0, 10, 0}}, {"WAVEFORM_SETUP SP,4,NP,0,FP,10,SN,0", {4, 0, 10, 0}}, {"WFSU SN,3", {0, 0, 0, 3}},
        {"WFSU SN,1,FP,2,NP,3,SP,4", {4, 3, 2, 1}}, {"WFSU NP,0000000007", {0, 7, 0, 0}}, {"WFSU FP,0", {0, 0, 0, 0}},
        {"WFSU SP,4294967295,NP,4294967295,FP,4294967295,SN,4294967295", {UINT32_MAX, UINT32_MAX, UINT32_MAX, UINT32_MAX}}};
    static const char *const none[] = {
        "", "WFSU", "WFSU ", "wfsu SP,4", "WFSU sp,4", "WFSU  SP,4", " WFSU SP,4", "WFSU SP,4 ", "WFSU SP,4\n", "WFSU SP,4\r\n", "WFSU\tSP,4", "WFSU SP, 4",
        "WFSU SP,4,SP,4", "WFSU SP,4,NP,0,FP,10,SN,0,SP,4", "WFSU SP,4,NP,0,FP,10,SN,0,", "WFSU SP,4294967296", "WFSU SP,00000000004", "WFSU SP,", "WFSU SP",
        "WFSU ,4", "WFSU SP,4,,NP,0", "WFSU ,SP,4", "WFSU SP,-4", "WFSU SP;4", "WFSU SP,4;NP,0", "WFSU 4,SP", "WAVEFORM SP,4", "WFSU:SP,4", "SP,4", "4"};
    check(TESSARQUIN_SETUP_READ_BYTES == 32 && TESSARQUIN_SETUP_WRITE_BYTES == 8 && TESSARQUIN_SETUP_LINE_MOST == 60 && TESSARQUIN_TEXT == 15, "numbers as the header says them");
    for (size_t i = 0; i < sizeof table / sizeof *table; i++) {
        struct slice line = lend_line(table[i].line, strlen(table[i].line));
        check(setup_read(line, 32) == 0 && answered(table[i].numbers), table[i].line);
        unmap(line);
        is_written(table[i].numbers);
    }
    for (size_t i = 0; i < sizeof none / sizeof *none; i++) {
        struct slice line = lend_line(none[i], strlen(none[i]));
        check(setup_read(line, 32) == TESSARQUIN_TEXT, none[i]);
        unmap(line);
    }
    struct slice zero = lend_line("WFSU SP,4", 10);
    check(setup_read(zero, 32) == TESSARQUIN_TEXT, "a zero byte at the end");
    unmap(zero);
}

/* ---- room */

/* Every room for the answer: 15 for a line that is none, whatever the room is, then 13. */
static void test_read_room(void)
{
    now = "room to read to";
    static const uint32_t numbers[4] = {4, 0, 10, 0};
    struct slice line = lend_line(good[0], strlen(good[0])), none = lend_line("WFSU SP,4,", 10);
    for (size_t room = 0; room <= 48; room++) {
        check(setup_read(line, room) == (room < 32 ? TESSARQUIN_ROOM : TESSARQUIN_OK) && (room < 32 || answered(numbers)), "a line");
        check(setup_read(none, room) == TESSARQUIN_TEXT, "a line that is none");
    }
    unmap(line);
    unmap(none);
}

/* Every room for the line with every room for the answer: 15, then 13, and neither slice is written to. */
static void test_write_room(void)
{
    now = "room to write to";
    static const struct { uint32_t setup[4]; size_t length; } table[] = {
        {{0, 0, 0, 0}, 24}, {{4, 0, 10, 0}, 25}, {{0, 123456789, 99, 1000000000}, 42}, {{UINT32_MAX, UINT32_MAX, UINT32_MAX, UINT32_MAX}, 60}};
    for (size_t i = 0; i < sizeof table / sizeof *table; i++)
        for (size_t room = 0; room <= 70; room++)
            for (size_t answer = 0; answer <= 12; answer++) {
                struct slice out = lend(room);
                uint32_t right = room < table[i].length ? TESSARQUIN_TEXT : answer < 8 ? TESSARQUIN_ROOM : TESSARQUIN_OK;
                check(setup_write(table[i].setup, out, answer) == right, "another number");
                check(right || answers[0] == table[i].length, "another length");
                give_back(out, right ? 0 : table[i].length);
            }
}

/* ---- numbers and lines of every length */

/* Every number of digits with every other, and the numbers about each power of ten at each place. */
static void test_numbers(void)
{
    now = "numbers of every length";
    uint32_t tens[10] = {1};
    for (size_t i = 1; i < 10; i++)
        tens[i] = 10 * tens[i - 1];
    for (uint32_t which = 0; which < 10000; which++) {
        uint32_t setup[4] = {tens[which % 10] + 7 * (which % 10 > 0), tens[which / 10 % 10] - 1, tens[which / 100 % 10], 4 * tens[which / 1000]};
        is_written(setup);
    }
    for (size_t i = 0; i < 40; i++)
        for (uint32_t less = 0; less < 3; less++)
            for (uint32_t rest = 0; rest < 3; rest++) {
                uint32_t setup[4] = {rest * UINT32_MAX, 5 * rest, rest, UINT32_MAX - rest};
                setup[i % 4] = tens[i / 4] + 1 - less;
                is_written(setup);
                setup[i % 4] = UINT32_MAX - tens[i / 4] + less;
                is_written(setup);
            }
}

/* Lines that are longer than any setup: digits, pairs and words without end. */
static void test_long(void)
{
    now = "long lines";
    static const char *const pieces[] = {"0", "SP,4,", ",", "WFSU ", " ", "\n", "9"};
    static const size_t lengths[] = {61, 100, 255, 256, 257, 4091, 4096, 4097, 65535, 65536, 65537, 1000000};
    for (size_t i = 0; i < sizeof pieces / sizeof *pieces; i++)
        for (size_t j = 0; j < sizeof lengths / sizeof *lengths; j++)
            for (size_t start = 5; start <= 8; start += 3) {
                struct slice line = lend(lengths[j]);
                for (size_t at = 0; at < line.length; at++)
                    line.bytes[at] = (uint8_t)(at < start ? "WFSU SP,"[at] : pieces[i][(at - start) % strlen(pieces[i])]);
                check(setup_read(line, 32) == TESSARQUIN_TEXT, pieces[i]);
                unmap(line);
            }
}

int main(void)
{
    test_examples();
    test_read_room();
    test_write_room();
    test_numbers();
    test_long();
    now = "lines that are nearly good";
    each_line(is_read);
    check(taken > 1000 && refused > 100000, "few lines are taken, or refused");
    printf("setups: %u checks held\n", checked);
    return 0;
}
