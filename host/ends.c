/* What the program says on standard error, and how it ends where something went wrong. */
#define _GNU_SOURCE
#include "host.h"

#include <errno.h>
#include <stdarg.h>
#include <stdlib.h>
#include <string.h>

static void say_line(const char *format, va_list args)
{
    char *text;
    if (vasprintf(&text, format, args) < 0)
        return;
    write_line(stderr, text);
    free(text);
}

void say(const char *format, ...)
{
    va_list args;
    va_start(args, format);
    say_line(format, args);
    va_end(args);
}

void fail(int status, const char *format, ...)
{
    va_list args;
    va_start(args, format);
    fputs("trace: ", stderr);
    say_line(format, args);
    va_end(args);
    exit(status);
}

FILE *told_to(struct told *told)
{
    FILE *to = open_memstream(&told->text, &told->length);
    if (!to)
        fail(FAILED, "no memory for a message");
    return to;
}

void told_all(FILE *to)
{
    if (fclose(to) != 0)
        fail(FAILED, "no memory for a message");
}

void output_failed(void)
{
    fail(FAILED, "standard output: %s", strerror(errno));
}

void *memory(size_t size)
{
    void *p = malloc(size ? size : 1);
    if (!p)
        fail(FAILED, "no memory for %zu bytes", size);
    return p;
}
