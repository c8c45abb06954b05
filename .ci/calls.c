/* Loaded before the C library's: each write and each sync is made, and where it succeeds it is noted, with the name of
   what it is for, at the end of the file CALLS. */
#define _GNU_SOURCE
#include <fcntl.h>
#include <stdio.h>
#include <stdlib.h>
#include <string.h>
#include <sys/syscall.h>
#include <sys/types.h>
#include <unistd.h>

static void note(const char *what, int file)
{
    const char *calls = getenv("CALLS");
    char link[64], path[4096], line[4200];
    if (calls == NULL)
        abort();
    snprintf(link, sizeof link, "/proc/self/fd/%d", file);
    ssize_t length = readlink(link, path, sizeof path - 1);
    if (length < 0)
        abort();
    path[length] = 0;
    const char *last = strrchr(path, '/');
    int size = snprintf(line, sizeof line, "%s %s\n", what, last == NULL ? path : last + 1);
    int notes = open(calls, O_WRONLY | O_APPEND | O_CREAT, 0600);
    if (notes < 0 || syscall(SYS_write, notes, line, (size_t)size) != size || close(notes) != 0)
        abort();
}

ssize_t write(int file, const void *bytes, size_t length)
{
    ssize_t written = syscall(SYS_write, file, bytes, length);
    if (written > 0)
        note("write", file);
    return written;
}

ssize_t pwrite(int file, const void *bytes, size_t length, off_t at)
{
    ssize_t written = syscall(SYS_pwrite64, file, bytes, length, at);
    if (written > 0)
        note("write", file);
    return written;
}

int fsync(int file)
{
    int failed = (int)syscall(SYS_fsync, file);
    if (failed == 0)
        note("sync", file);
    return failed;
}

int fdatasync(int file)
{
    int failed = (int)syscall(SYS_fdatasync, file);
    if (failed == 0)
        note("sync", file);
    return failed;
}
