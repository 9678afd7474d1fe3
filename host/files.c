/* Files are read whole, and written whole or not at all: no file is ever lost by a write that fails. */
#define _GNU_SOURCE
#include "host.h"

#include <errno.h>
#include <fcntl.h>
#include <signal.h>
#include <stdio.h>
#include <stdlib.h>
#include <string.h>
#include <sys/stat.h>
#include <unistd.h>

static _Noreturn void file_failed(const char *name)
{
    fail(FAILED, "%s: %s", name, strerror(errno));
}

struct file read_file(const char *name, uint8_t *bytes, size_t most)
{
    int standard = strcmp(name, "-") == 0;
    FILE *file = standard ? stdin : fopen(name, "rb");
    struct stat is;
    if (standard)
        name = "standard input";
    if (!file || fstat(fileno(file), &is) != 0)
        file_failed(name);
    size_t length = fread(bytes, 1, most, file);
    if (ferror(file))
        file_failed(name);
    fclose(file);
    return (struct file){name, bytes, length, length < most, is.st_dev, is.st_ino};
}

/* How many of the bytes were written; where not all, errno says why. */
static size_t write_all(int file, const uint8_t *bytes, size_t length)
{
    size_t done = 0;
    while (done < length) {
        ssize_t n = write(file, bytes + done, length - done);
        if (n < 0 && errno == EINTR)
            continue;
        if (n == 0)
            errno = EIO;
        if (n <= 0)
            break;
        done += (size_t)n;
    }
    return done;
}

/* ---- pipes, devices, standard output */

static void write_plainly(const char *name, int file, const uint8_t *bytes, size_t length)
{
    size_t done = write_all(file, bytes, length);
    if (done < length)
        fail(FAILED, "%s: %s, after %zu of %zu bytes", name, strerror(errno), done, length);
}

/* Opened without making or emptying anything, and looked at again: a regular file of this name is left alone. */
static void write_to_device(const char *name, const uint8_t *bytes, size_t length)
{
    struct stat is;
    int file = open(name, O_WRONLY | O_NOCTTY);
    if (file < 0 || fstat(file, &is) != 0)
        file_failed(name);
    if (S_ISREG(is.st_mode))
        fail(FAILED, "%s: %s", name, strerror(EEXIST));
    write_plainly(name, file, bytes, length);
    if (close(file) != 0)
        file_failed(name);
}

/* ---- regular files */

/* A file that was not there before, in the folder of `to`, and its name; -1 where there can be none. */
static int create_beside(const char *to, mode_t mode, char *name, size_t room)
{
    const char *slash = strrchr(to, '/');
    int folder = slash ? (int)(slash - to) + 1 : 0, file = -1;
    for (unsigned n = 0; file < 0 && n < 100 && (n == 0 || errno == EEXIST); n++) {
        snprintf(name, room, "%.*s.trace-%ld-%u", folder, to, (long)getpid(), n);
        file = open(name, O_WRONLY | O_CREAT | O_EXCL, mode);
    }
    return file;
}

/* Renames. What has the name `to` is replaced if asked, and otherwise left alone, also what came to have it just now. */
static int put_in_place(const char *name, const char *to, int replace)
{
    if (replace)
        return rename(name, to);
    if (renameat2(AT_FDCWD, name, AT_FDCWD, to, RENAME_NOREPLACE) == 0)
        return 0;
    if (errno != EINVAL && errno != ENOSYS)
        return -1;
    /* A file system without that rename may have links, which never replace anything. */
    if (link(name, to) != 0)
        return -1;
    unlink(name);
    return 0;
}

/* 0, or why it failed: then `to` is as it was. `old` is what is replaced there, or null. */
static int write_beside(const char *to, const struct stat *old, const uint8_t *bytes, size_t length)
{
    mode_t mode = old ? old->st_mode & 0777 : 0666;
    size_t room = strlen(to) + 64;
    char *name = memory(room);
    int file = create_beside(to, mode, name, room);
    if (file < 0)
        return errno;
    /* What the umask took from the old mode; where a file system has no modes, there is nothing to keep. */
    if (old)
        fchmod(file, mode);
    int why = write_all(file, bytes, length) < length || fsync(file) != 0 ? errno : 0;
    if (close(file) != 0 && !why)
        why = errno;
    if (!why && put_in_place(name, to, old != NULL) != 0)
        why = errno;
    if (why)
        unlink(name);
    return why;
}

/* A signal waits until the new file has its name or is gone. */
static void write_regular(const char *to, const struct stat *old, const uint8_t *bytes, size_t length)
{
    char *place = old ? realpath(to, NULL) : strdup(to);
    if (!place)
        file_failed(to);
    sigset_t all, before;
    sigfillset(&all);
    sigprocmask(SIG_BLOCK, &all, &before);
    int why = write_beside(place, old, bytes, length);
    sigprocmask(SIG_SETMASK, &before, NULL);
    if (why)
        fail(FAILED, "%s: %s%s", to, strerror(why), old ? "; it is as it was" : "");
}

/* ---- which of them */

static const char standard_output[] = "standard output";

/* Ends where `is` tells of a file that was read, whatever name it was reached by. */
static void spare(struct files from, const struct stat *is, const char *name)
{
    for (size_t i = 0; i < from.count; i++)
        if (from.files[i].device == is->st_dev && from.files[i].inode == is->st_ino)
            fail(FAILED, "%s is %s that %s read, and is left as it is", name, from.count > 1 ? "one of the files" : "the file",
                 from.count > 1 ? "were" : "was");
}

/* Whether `to` is there; then `old` tells of it. Ends where it may not be written to. */
static int is_there(struct files from, const char *to, int replace, struct stat *old)
{
    if (stat(to, old) != 0) {
        if (errno != ENOENT)
            file_failed(to);
        if (lstat(to, old) == 0)
            fail(FAILED, "%s is a link to a file that is not there", to);
        return 0;
    }
    spare(from, old, to);
    if (!replace && (S_ISREG(old->st_mode) || S_ISBLK(old->st_mode)))
        fail(FAILED, "%s is there already: -f replaces it", to);
    if (S_ISREG(old->st_mode) && !(old->st_mode & 0222))
        fail(FAILED, "%s is read-only, and is left as it is", to);
    return 1;
}

void look_at(struct files from, const char *to, int replace)
{
    struct stat is;
    if (strcmp(to, "-") != 0)
        is_there(from, to, replace, &is);
    else if (fstat(STDOUT_FILENO, &is) != 0)
        file_failed(standard_output);
    else
        spare(from, &is, standard_output);
}

void write_file(struct files from, const char *to, int replace, const uint8_t *bytes, size_t length)
{
    struct stat old;
    if (strcmp(to, "-") == 0) {
        look_at(from, to, replace);
        write_plainly(standard_output, STDOUT_FILENO, bytes, length);
    } else if (!is_there(from, to, replace, &old))
        write_regular(to, NULL, bytes, length);
    else if (S_ISREG(old.st_mode))
        write_regular(to, &old, bytes, length);
    else
        write_to_device(to, bytes, length);
}
