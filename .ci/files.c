/* Loaded before the C library's: of files that are open for reading and writing the calls that FAILING names fail. Before such a
   file is locked, and while others have a right to it, its reads and writes fail; with bytes they fail always. */
#define _GNU_SOURCE
#include <errno.h>
#include <fcntl.h>
#include <stdlib.h>
#include <string.h>
#include <sys/file.h>
#include <sys/stat.h>
#include <sys/syscall.h>
#include <unistd.h>

static char locked[1024];
static int is_name_next;

static int fails(const char *call)
{
    const char *failing = getenv("FAILING");
    return failing != NULL && strcmp(failing, call) == 0;
}

static int fault(int number)
{
    errno = number;
    return -1;
}

static mode_t mode_of(int file)
{
    struct stat made;
    return fstat(file, &made) == 0 ? made.st_mode : 0;
}

/* Whether bytes may go to and from this file. */
static int is_open_for(int file)
{
    if (!S_ISREG(mode_of(file)) || (fcntl(file, F_GETFL) & O_ACCMODE) != O_RDWR)
        return 1;
    return !fails("bytes") && file < 1024 && locked[file] && (mode_of(file) & 077) == 0;
}

ssize_t read(int file, void *bytes, size_t length)
{
    if (!is_open_for(file))
        return fault(EIO);
    return syscall(SYS_read, file, bytes, length);
}

ssize_t write(int file, const void *bytes, size_t length)
{
    if (!is_open_for(file))
        return fault(EIO);
    return syscall(SYS_write, file, bytes, length);
}

int close(int file)
{
    if (file >= 0 && file < 1024)
        locked[file] = 0;
    return (int)syscall(SYS_close, file);
}

int flock(int file, int operation)
{
    if (fails("lock"))
        return fault(EIO);
    int answer = (int)syscall(SYS_flock, file, operation);
    if (answer == 0 && file < 1024) {
        locked[file] = 1;
        is_name_next = 1;
    }
    return answer;
}

/* Behind a lock, the name of the file stands for another one. */
int statx(int folder, const char *restrict path, int flags, unsigned mask, struct statx *restrict made)
{
    if (path[0] != 0 && is_name_next) {
        is_name_next = 0;
        if (fails("name"))
            path = ".";
    }
    return (int)syscall(SYS_statx, folder, path, flags, mask, made);
}

int fsync(int file)
{
    if (fails(S_ISDIR(mode_of(file)) ? "folder" : "file"))
        return fault(EIO);
    return (int)syscall(SYS_fsync, file);
}

int fdatasync(int file)
{
    return fsync(file);
}

/* With mode_unsaid it answers 0 and does nothing. */
int fchmod(int file, mode_t mode)
{
    int is_made_by_disk = (fcntl(file, F_GETFL) & O_ACCMODE) == O_RDWR;
    if (is_made_by_disk && fails("mode"))
        return fault(EPERM);
    if (is_made_by_disk && fails("mode_unsaid"))
        return 0;
    return (int)syscall(SYS_fchmod, file, mode);
}
