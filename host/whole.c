#define _POSIX_C_SOURCE 200809L

#include "whole.h"

#include <errno.h>
#include <limits.h>
#include <signal.h>
#include <stdio.h>
#include <stdlib.h>
#include <string.h>
#include <sys/stat.h>
#include <unistd.h>

#include "program.h"

/* ---- Whether a file may be written ---- */

/* By device and number, as names tell nothing: a link leads to the same file. */
static bool is_same(const struct stat *one, const char *name)
{
    struct stat other;

    return stat(name, &other) == 0 && one->st_dev == other.st_dev && one->st_ino == other.st_ino;
}

static bool fail_kind(struct argument written, const char *kind)
{
    fprintf(stderr, "%s: %s: %s; %s has to be a regular file, which is replaced, or not there yet\n",
            program_name, written.name, kind, written.called);
    return false;
}

static bool fail_same(struct argument written, struct argument read)
{
    fprintf(stderr, "%s: %s: this is the file %s itself, which is only read; name another as %s\n",
            program_name, written.name, read.called, written.called);
    return false;
}

bool may_be_written(struct argument written, const struct argument *read, size_t count)
{
    struct stat there;

    if (stat(written.name, &there) != 0) {
        if (errno == ENOENT)
            return true;
        complain(written.name);
        return false;
    }
    for (size_t i = 0; i < count; i++) {
        if (is_same(&there, read[i].name))
            return fail_same(written, read[i]);
    }
    if (S_ISDIR(there.st_mode))
        return fail_kind(written, "this is a directory");
    return S_ISREG(there.st_mode) || fail_kind(written, "this is no regular file");
}

/* ---- Writing ---- */

static bool fail_writing(const char *name, const char *sentence)
{
    fprintf(stderr, "%s: %s: not written: %s: %s\n", program_name, name, sentence, strerror(errno));
    return false;
}

/* A name for mkstemp in the directory of the named file: only within a directory can a file be put in the
 * place of another all at once. */
static bool name_beside(char *beside, size_t room, const char *name)
{
    static const char last[] = ".upborliya-repair-XXXXXX";
    const char *slash = strrchr(name, '/');
    size_t length = slash == NULL ? 0 : (size_t)(slash - name) + 1;

    if (length > room - sizeof last) {
        errno = ENAMETOOLONG;
        return false;
    }
    memcpy(beside, name, length);
    memcpy(beside + length, last, sizeof last);
    return true;
}

/* The permissions that the file has, or would be made with; those of mkstemp are for its owner alone. */
static mode_t permissions_of(const char *name)
{
    struct stat there;
    mode_t mask;

    if (stat(name, &there) == 0)
        return there.st_mode & 0777;
    mask = umask(0);
    umask(mask);
    return 0666 & ~mask;
}

static bool write_bytes(int file, const uint8_t *bytes, size_t length)
{
    while (length != 0) {
        ssize_t written = write(file, bytes, length);

        if (written < 0)
            return false;
        bytes += written;
        length -= (size_t)written;
    }
    return true;
}

/* All of it, down to the disk, and closes the file in any case. */
static bool fill(int file, mode_t permissions, const uint8_t *bytes, size_t length)
{
    bool is_filled = fchmod(file, permissions) == 0 && write_bytes(file, bytes, length) && fsync(file) == 0;
    int why = errno;

    if (close(file) != 0 && is_filled)
        return false;
    errno = why;
    return is_filled;
}

/* As write_whole; a signal that ended the program here would leave the file beside behind. */
static bool write_undisturbed(const char *name, const uint8_t *bytes, size_t length)
{
    char beside[PATH_MAX];
    int file = name_beside(beside, sizeof beside, name) ? mkstemp(beside) : -1;
    bool is_done;

    if (file < 0)
        return fail_writing(name, "no file can be made in its directory");
    if (!fill(file, permissions_of(name), bytes, length))
        is_done = fail_writing(name, "the file that was to replace it can't be written");
    else if (rename(beside, name) != 0)
        is_done = fail_writing(name, "the new file can't be put in its place");
    else
        return true;
    unlink(beside);
    return is_done;
}

bool write_whole(const char *name, const uint8_t *bytes, size_t length)
{
    sigset_t held;
    sigset_t before;
    bool is_done;

    sigemptyset(&held);
    sigaddset(&held, SIGHUP);
    sigaddset(&held, SIGINT);
    sigaddset(&held, SIGQUIT);
    sigaddset(&held, SIGTERM);
    sigprocmask(SIG_BLOCK, &held, &before);
    is_done = write_undisturbed(name, bytes, length);
    sigprocmask(SIG_SETMASK, &before, NULL);
    return is_done;
}
