/* Loaded before the C library's: the call of number READ of standard input, and that of number WRITE to standard output, fails. */
#define _GNU_SOURCE
#include <errno.h>
#include <stdlib.h>
#include <sys/syscall.h>
#include <sys/types.h>
#include <unistd.h>

/* Whether this call is the one whose number the variable holds; none is where it isn't set. */
static int is_failing(const char *name, unsigned long *calls)
{
    const char *number = getenv(name);
    *calls += 1;
    return number != NULL && strtoul(number, NULL, 10) == *calls;
}

ssize_t read(int file, void *bytes, size_t length)
{
    static unsigned long calls;
    if (file == STDIN_FILENO && is_failing("READ", &calls)) {
        errno = EIO;
        return -1;
    }
    return syscall(SYS_read, file, bytes, length);
}

ssize_t write(int file, const void *bytes, size_t length)
{
    static unsigned long calls;
    if (file == STDOUT_FILENO && is_failing("WRITE", &calls)) {
        errno = EIO;
        return -1;
    }
    return syscall(SYS_write, file, bytes, length);
}
