/*
 * Loaded before a program, cuts it off at one of its steps on files: at the step of the number CUT the program ends at
 * once, a write half done. With CUT_FAILS the step fails instead, and the program goes on.
 */
#define _GNU_SOURCE

#include <errno.h>
#include <stdbool.h>
#include <stdlib.h>
#include <sys/syscall.h>
#include <unistd.h>

/* Whether this step is the one; it then fails. */
static bool cut_here(int file, const void *bytes, size_t length)
{
    static long left = -1;
    if (left == -1)
        left = getenv("CUT") ? strtol(getenv("CUT"), NULL, 10) : 0;
    if (left == 0 || --left > 0)
        return false;
    if (bytes)
        syscall(SYS_write, file, bytes, length / 2);
    if (!getenv("CUT_FAILS"))
        _exit(99);
    errno = EIO;
    return true;
}

ssize_t write(int file, const void *bytes, size_t length)
{
    return cut_here(file, bytes, length) ? -1 : (ssize_t)syscall(SYS_write, file, bytes, length);
}

int fsync(int file)
{
    return cut_here(file, NULL, 0) ? -1 : (int)syscall(SYS_fsync, file);
}

int rename(const char *from, const char *to)
{
    return cut_here(-1, NULL, 0) ? -1 : (int)syscall(SYS_renameat, -100, from, -100, to);
}

int renameat(int from_folder, const char *from, int to_folder, const char *to)
{
    return cut_here(-1, NULL, 0) ? -1 : (int)syscall(SYS_renameat, from_folder, from, to_folder, to);
}

int unlinkat(int folder, const char *name, int flags)
{
    return cut_here(-1, NULL, 0) ? -1 : (int)syscall(SYS_unlinkat, folder, name, flags);
}
