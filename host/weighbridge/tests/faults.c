/* Stands before fsync and rename: the call that FAILS names fails, and the one that KILLED_AT names kills the program. */
#include <errno.h>
#include <signal.h>
#include <stdbool.h>
#include <stdlib.h>
#include <string.h>

int __real_fsync(int file);
int __real_rename(const char *from, const char *to);

static bool names(const char *variable, const char *call)
{
    const char *value = getenv(variable);
    return value != NULL && strcmp(value, call) == 0;
}

static bool fails(const char *call)
{
    if (names("KILLED_AT", call))
        raise(SIGKILL);
    errno = EIO;
    return names("FAILS", call);
}

int __wrap_fsync(int file)
{
    return fails("fsync") ? -1 : __real_fsync(file);
}

int __wrap_rename(const char *from, const char *to)
{
    return fails("rename") ? -1 : __real_rename(from, to);
}
