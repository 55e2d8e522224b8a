#define _XOPEN_SOURCE 700 /* for fsync and what goes with it */

#include "files.h"

#include <errno.h>
#include <limits.h>
#include <stdio.h>
#include <stdlib.h>
#include <sys/stat.h>
#include <unistd.h>

enum { BESIDE_CHARS = PATH_MAX + 16 };

bool file_read(const char *path, uint8_t *bytes, size_t limit, size_t *len)
{
    FILE *file = fopen(path, "rb");
    if (file == NULL)
        return false;
    *len = fread(bytes, 1, limit, file);
    bool whole = !ferror(file);
    int reason = errno;
    fclose(file);
    errno = reason;
    return whole;
}

/* Closes a file. False where that fails or it was not written; errno has the first reason. */
static bool finish(FILE *file, bool written)
{
    int reason = errno;
    bool closed = fclose(file) == 0;
    if (!written)
        errno = reason;
    return written && closed;
}

/* What is no regular file, as a device, holds nothing that could be lost. */
static bool write_in_place(const char *path, const uint8_t *bytes, size_t len)
{
    FILE *file = fopen(path, "wb");
    return file != NULL && finish(file, fwrite(bytes, 1, len, file) == len);
}

/* Makes a file beside the one at `path`, under a name that none has yet. */
static FILE *open_beside(const char *path, char beside[BESIDE_CHARS])
{
    FILE *file;
    unsigned n = 0;
    do {
        snprintf(beside, BESIDE_CHARS, "%s.new%u", path, n++);
        file = fopen(beside, "wbx");
    } while (file == NULL && errno == EEXIST);
    return file;
}

/* Until these bytes are on the disk. */
static bool write_through(FILE *file, const uint8_t *bytes, size_t len)
{
    return fwrite(bytes, 1, len, file) == len && fflush(file) == 0 && fsync(fileno(file)) == 0;
}

/* At any time the file is whole, the old one (NULL where there is none) or the new one, which takes its mode. */
static bool replace(const char *path, const struct stat *old, const uint8_t *bytes, size_t len)
{
    char beside[BESIDE_CHARS];
    FILE *file = open_beside(path, beside);
    if (file == NULL)
        return false;
    bool alike = old == NULL || fchmod(fileno(file), old->st_mode & 07777) == 0;
    if (finish(file, alike && write_through(file, bytes, len)) && rename(beside, path) == 0)
        return true;
    int reason = errno;
    remove(beside);
    errno = reason;
    return false;
}

bool file_write(const char *path, const uint8_t *bytes, size_t len)
{
    char target[PATH_MAX];
    struct stat old;
    if (stat(path, &old) != 0)
        return replace(path, NULL, bytes, len);
    if (!S_ISREG(old.st_mode))
        return write_in_place(path, bytes, len);
    /* A link stays, and so does a file that must not be written. */
    return realpath(path, target) != NULL && access(target, W_OK) == 0 && replace(target, &old, bytes, len);
}
