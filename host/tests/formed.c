/*
 * Judges whether standard input is a well-formed XML document, of the kind that trace draw writes: elements, attributes in
 * double quotes, texts with the five names. Prints how many elements it has and ends with 0, or the first fault with its
 * byte and ends with 1.
 */
#include <ctype.h>
#include <stdio.h>
#include <stdlib.h>
#include <string.h>

enum { MOST = 1 << 24, DEEP = 32, NAME = 32 };
static unsigned char text[MOST];
static size_t at, length;

static void must(int holds, const char *fault)
{
    if (holds)
        return;
    printf("byte %zu: %s\n", at, fault);
    exit(1);
}

static int starts(const char *with)
{
    return length - at >= strlen(with) && memcmp(text + at, with, strlen(with)) == 0;
}

static void blanks(void)
{
    while (at < length && isspace(text[at]))
        at++;
}

static void read_name(char *name)
{
    size_t letters = 0;
    must(at < length && isalpha(text[at]), "no name");
    while (at < length && (isalnum(text[at]) || text[at] == '-') && letters < NAME - 1)
        name[letters++] = (char)text[at++];
    name[letters] = 0;
}

/* A character that XML takes, in UTF-8, or one of its five names. */
static void read_character(void)
{
    static const char *const names[] = {"&amp;", "&lt;", "&gt;", "&quot;", "&apos;"};
    unsigned char first = text[at];
    size_t bytes = first < 0x80 ? 1 : first < 0xE0 ? 2 : first < 0xF0 ? 3 : 4;
    for (size_t i = 0; first == '&' && bytes == 1 && i < sizeof names / sizeof *names; i++)
        bytes = starts(names[i]) ? strlen(names[i]) : 1;
    must(first != '&' || bytes > 1, "an & that starts no name");
    must(first >= 0x20 || isspace(first), "a control character");
    must(first < 0x80 || (first >= 0xC2 && first < 0xF5), "no UTF-8");
    must(bytes <= length - at, "a character that is cut off");
    for (size_t i = 1; i < bytes && first >= 0x80; i++)
        must((text[at + i] & 0xC0) == 0x80, "no UTF-8");
    at += bytes;
}

/* Behind the element's name; no name stands twice. Answers whether the element is closed here. */
static int read_attributes(void)
{
    char names[DEEP][NAME];
    for (size_t count = 0;; count++) {
        size_t before = at;
        blanks();
        if (starts("/>") || starts(">"))
            break;
        must(at > before && count < DEEP, "no blank before an attribute, or too many of them");
        read_name(names[count]);
        for (size_t i = 0; i < count; i++)
            must(strcmp(names[i], names[count]) != 0, "an attribute that stands twice");
        must(starts("=\""), "an attribute without a value in quotes");
        for (at += 2; at < length && text[at] != '"';) {
            must(text[at] != '<', "a < in an attribute");
            read_character();
        }
        must(at++ < length, "an attribute that does not end");
    }
    int closed = text[at] == '/';
    at += closed ? 2 : 1;
    return closed;
}

/* The element that starts here, with all that is in it. Answers how many elements that are. */
static size_t read_element(int deep)
{
    char name[NAME], end[NAME];
    size_t count = 1;
    must(deep < DEEP && starts("<"), "no element, or too deep");
    at++;
    read_name(name);
    if (read_attributes())
        return 1;
    while (!starts("</")) {
        must(at < length, "an element that does not end");
        if (text[at] == '<')
            count += read_element(deep + 1);
        else
            read_character();
    }
    at += 2;
    read_name(end);
    must(strcmp(name, end) == 0 && starts(">"), "the end of another element");
    at++;
    return count;
}

int main(void)
{
    length = fread(text, 1, sizeof text, stdin);
    must(length < sizeof text, "too long");
    size_t count = read_element(0);
    blanks();
    must(at == length, "something behind the document");
    printf("%zu elements\n", count);
    return 0;
}
